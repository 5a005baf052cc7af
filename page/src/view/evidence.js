// The evidence: what was checked, by whom, what a yes means, and the files to hand on.
import { fileNames } from "../cases/coarse.js";
import { listed } from "../game/words.js";
import { coarseNumbers, coarseText } from "../tell/coarse-text.js";
import { failureText } from "../tell/failures.js";
import { plainPoints, ruleFile } from "../tell/rule-names.js";
import { COMPARE } from "../tell/whence.js";
import { button, el } from "./dom.js";
import { fileButtons, fingerprint, shown } from "./files.js";
import { CALCULATED } from "./questions.js";
import { meaning } from "./trust.js";

/** One checker's word: {title, isYes, sentence}; without `isYes` while it is asked. */
export function programWord(found, game) {
  const title = "The program’s checker";
  if (!found) return { title, sentence: "is at work …" };
  if (found.fault) return { title, isYes: false, sentence: `gave no answer: ${found.fault}` };
  if (found.refusal) {
    const { sentence, place } = found.refusal;
    return { title, isYes: false, sentence: `refuses the document. ${sentence}${place ? ` (${place})` : ""}` };
  }
  return { title, ...wordOf(found.tree, game) };
}

export function anewWord(found, game) {
  const title = "The page’s own checker";
  if (!found) return { title, sentence: "is at work …" };
  if (found.fault) return { title, isYes: false, sentence: `gave no answer: ${found.fault}` };
  if (found.refused) return { title, isYes: false, sentence: `refuses the document: ${found.refused}.` };
  return { title, ...wordOf(found.tree, game) };
}

function wordOf(tree, game) {
  if (tree.answer === "yes") {
    return { isYes: true, sentence: "says yes: the form is right, and all eight conditions hold." };
  }
  const { condition, sentence } = failureText(tree, game);
  return { isYes: false, sentence: `says no. ${sentence} (condition ${condition})` };
}

/** Without an `isYes` it is asked still; where that is null, nobody can say. */
export function wordLine({ title, isYes, sentence, items = [] }) {
  const state = isYes === undefined ? "busy" : isYes === null ? "unsure" : isYes ? "good" : "bad";
  return el("li", { class: `word ${state}` }, el("b", {}, title), ` ${sentence}`,
    items.length > 0 && el("ul", { class: "differences" }, items.map((item) => el("li", {}, item))));
}

/** Where the other columns come from. */
function besideText({ points, game }) {
  const isOwn = ({ key }) => CALCULATED.includes(key);
  const own = plainPoints(points, game).filter(isOwn).map(({ title }) => `“${title}”`);
  const others = points.slice(1).some((point) => !isOwn(point));
  return [others && "Other columns come from the same program, but without evidence. ",
    own.length > 0 && `The page itself calculates ${listed(own)}.`];
}

/** Files are named by the case and what was done to its numbers; `filled` says what the page filled in; `opened` is a
 * file, if any. */
export function evidenceParts(result, { kind, typed: { coarse }, file: opened }, filled) {
  const names = fileNames(kind.id, coarse);
  if (!result.line) return withoutCertificate(result, names);
  const { program, anew } = result.checks, { line, game, answer, rule } = result, text = `${result.text}\n`;
  const file = `${names.line}-${ruleFile(answer, game.perHead)}.json`;
  return [
    el("ul", { class: "words", role: "status" }, wordLine(programWord(program, game)), wordLine(anewWord(anew, game))),
    result.points.length > 1 && el("p", { class: "after" }, `Only the ${rule} has a certificate. `, besideText(result)),
    el("h3", {}, "Send it to others"),
    el("ol", { class: "steps" },
      el("li", {}, "Agree on the file of the game first, before anyone knows an answer. ",
        fileButtons(text, names.game), fingerprint(text),
        opened?.made === result.text && el("p", { class: "hint" }, `The same game is in ${opened.name}, which was `,
          `opened here${opened.digest ? ` and has the SHA-256 ${opened.digest}` : ""}: who agreed on that keeps it.`),
        filled && el("p", { class: "hint" }, `${filled} The file doesn’t say which.`),
        coarse && el("p", { class: "hint" }, `${coarseText(coarse)} The file holds the ${coarseNumbers(coarse)} `,
          "alone: of that it has but its name, and under another name nobody can see it.")),
      el("li", {}, "Send the line: the answer with its evidence. ", fileButtons(line, file)),
      el("li", {}, "The others open this page, choose “Check an answer”, and give it both files: is it the agreed ",
        "game, and does the certificate hold? They should get the page not from you, but from the project’s ",
        `repository: tell them its address. ${COMPARE}`)),
    el("p", { class: "tools" }, button("Check an answer that you received", () => 0, { "data-show": "verify" })),
    shown("The game’s file", result.text), shown("The line with its evidence", line.trim()),
    meaning(answer, game.perHead),
  ];
}

/** What is said where the program prints no certificate. */
function withoutCertificate({ game, text }, names) {
  const what = game.kind === "voting"
    ? "Power comes without a certificate. To check it, work it out again, by this page or another program."
    : "The pairs and prices come without a certificate. To 16 traders the page gives the nucleolus too, with one.";
  return [
    el("p", {}, what),
    el("p", { class: "tools" }, fileButtons(`${text}\n`, names.game)),
    fingerprint(`${text}\n`),
    shown("The game’s file", text),
  ];
}
