// What runs beside the page, so that nothing freezes it: the engine, the checker of the page's own, all that reads long
// texts, and the sentences.
import { checkAnew } from "./check/check-anew.js";
import { spoken } from "./exact/marks.js";
import { parseJson } from "./exact/json.js";
import { explain } from "./tell/explain.js";
import { along } from "./work/along.js";
import { answer } from "./work/answers.js";
import { Case } from "./work/case.js";
import { openText } from "./work/case-files.js";
import { readCells, readList } from "./work/cases.js";
import { compareFills, leave } from "./work/changes.js";
import { coarser } from "./work/coarser.js";
import { compare, excessLists } from "./work/compare.js";
import { convexity } from "./work/convexity.js";
import { warmUp } from "./work/engine.js";
import { isOfGame, lookAtLine } from "./work/lines.js";
import { margins } from "./work/margins.js";
import { costsOfNetwork, fillLinks } from "./work/networks.js";
import { numberMargins } from "./work/number-margins.js";
import { estates, overrun } from "./work/others.js";
import { pair } from "./work/pair.js";
import { fillSplits } from "./work/splits.js";
import { standardText } from "./work/standard.js";

/** What is asked about texts and cells, and below that about the case that is kept here. */
const TASKS = {
  warmUp: () => null, readCells, readList, lookAtLine, isOfGame, fillLinks, costsOfNetwork, fillSplits, coarser,
  standardText, compareFills, openDocument: openText,
  solve: ({ word, document }) => answer(word, document),
  checkAnew: ({ document }) => anew(document),

  read: (what, one) => one.read(what), ask: (what, one) => one.ask(what), convexity: (_, one) => convexity(one),
  explain: (_, one) => explain(one.named, parseJson(one.line)), checkLine: (_, one) => anew(one.line),
  compare: (what, one) => compare(what, one.named), excessLists: (what, one) => excessLists(what, one.named),
  overrun: (what, one) => overrun(what, one.named), estates: (what, one) => estates(what, one.game),
  leave: (what, one) => leave(what, one.game), pair: (what, one) => pair(what, one.game),
  along: (what, one) => along(what, one.game),
  margins: (_, one) => margins(parseJson(one.line), one.game),
  numberMargins: (_, one) => numberMargins(parseJson(one.line), one.game, one.rows),
};

/** The word of the second checker: {tree} with what it says, or {refused} in words. */
function anew(document) {
  const { line, refused } = checkAnew(new TextEncoder().encode(document));
  return refused === undefined ? { tree: parseJson(line) } : { refused };
}

const started = warmUp();
let kept = null; // the case that was asked about last

/** The case of a number; `known` comes with the first question about it. */
function caseOf(number, known) {
  if (kept?.number !== number) kept = new Case(number, known);
  return kept;
}

self.onmessage = async ({ data: { id, task, what, spoken: spelling, number, known } }) => {
  await started;
  Object.assign(spoken, spelling);
  try {
    self.postMessage({ id, result: TASKS[task](what, number && caseOf(number, known)) });
  } catch (fault) {
    self.postMessage({ id, fault: String(fault?.message ?? fault) });
  }
};
