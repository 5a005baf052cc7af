// What is opened: a document, a line, or a case as the page saved it.
import { JsonFault, parseJson, writeJson } from "../exact/json.js";
import { groupedText, readNumber, typedText } from "../exact/decimals.js";
import { isMark } from "../exact/marks.js";
import { caseNamed } from "../cases/cases.js";
import { faultOfCase, filledOf } from "../cases/case-file.js";
import { coarseOf } from "../cases/coarse.js";
import { isCaseFile } from "../cases/is-case-file.js";
import { tableFault } from "../cases/saved-tables.js";
import { packed } from "../cases/tables.js";
import { openDocument, readCase } from "./cases.js";
import { leftOut, mended } from "../tell/mail.js";
import { fillSplits } from "./splits.js";

const OF_A_CASE = "A saved case. Whether somebody has changed the file since, the page can’t know. The program reads "
  + "its document alone.";
const NOT_FOLLOWING = "The cells that the file calls filled have other numbers than the page would fill in, so they "
  + "stand here as typed ones.";
const OTHER_CELLS = "The cells in the file make another document than the one in it, so the cells here are those of "
  + "its document. Somebody has changed the file.";

/** A text as a case: as openDocument has it, and of a saved case `more` of what was typed, `settings`, and `notes`. A
 * refusal says whether the text may be `forCells`, or how it is without what a mail program added: `mended`, which
 * leaves out what is `left`. */
export function openText({ text, mark }) {
  const tree = treeOf(text), table = tree ? undefined : tableFault(text, caseNamed("runway"));
  if (table) return { refusal: { sentence: table, forCells: true } };
  if (isCaseFile(tree)) return openCase(tree, mark);
  const found = withMark(openDocument({ text, mark }), mark), plain = tree ? null : mended(text);
  return plain === null ? found : { refusal: { ...found.refusal, mended: plain, left: leftOut(text) } };
}

/** The cells of what was opened by a decimal mark: they were written with points. */
function withMark(found, mark) {
  if (found.refusal || mark === ".") return found;
  const kind = caseNamed(found.id), plain = kind.unpack?.(found.typed) ?? found.typed;
  const byMark = (text, { value } = readNumber(text)) => (value ? typedText(value, mark) : text);
  const typed = kind.mapNumbers(plain, (text) => byMark(text));
  return { ...found, typed: kind.pack?.(typed) ?? typed };
}

/** Cells with the sign between thousands that they had, if some number then shows which mark is that of decimals. */
export function withThousands(kind, typed, mark, thousands) {
  let isShown = !isMark(thousands);
  const grouped = kind.mapNumbers(typed, (text) => {
    const { value } = readNumber(text, mark), own = value ? groupedText(value, mark, thousands) : text;
    const { by, doubt } = readNumber(own, mark);
    isShown ||= Boolean(by) && !doubt;
    return own;
  });
  return isShown && thousands ? grouped : typed;
}

function treeOf(text) {
  try {
    return parseJson(text);
  } catch (fault) {
    if (fault instanceof JsonFault) return null;
    throw fault;
  }
}

function openCase(tree, usual) {
  const fault = faultOfCase(tree);
  if (fault) return { refusal: fault };
  const { entry = usual, mark = usual, decimals, heading, unit, withProposal, source, kept, thousands } = tree;
  const agreed = tree.agreed && { key: tree.agreed }, { proposal = [], todays, pastedUnit } = tree;
  const found = withMark(openDocument({ text: writeJson(tree.document), mark }), entry);
  if (found.refusal) {
    const { sentence, place } = found.refusal;
    return { refusal: { sentence, place: place ? `document, ${place}` : "document" } };
  }
  const { isOther, ...own } = cellsOf(tree, found, entry), kind = caseNamed(own.id ?? found.id);
  const plain = kind.unpack?.(found.typed) ?? found.typed;
  const { fault: wrong, ...filled } = filledOf(kind, plain.names, tree.filled);
  if (wrong) return { refusal: wrong };
  const cells = own.typed ?? withThousands(kind, plain, entry, thousands);
  const isFollowing = !kind.isTable || follows(kind, plain, filled, entry);
  return {
    ...found, id: kind.id, isCase: true, typed: own.typed ?? kind.pack?.(cells) ?? cells, texts: proposal,
    more: {
      ...(isFollowing ? filled : {}), ...(source && kind.isNetwork ? { source } : {}), coarse: coarseOf(tree.coarse),
    },
    settings: { entry, mark, thousands, places: decimals && Number(decimals), todays: todays ?? null, kept,
      paper: { heading, unit, pastedUnit, agreed, withProposal } },
    notes: [OF_A_CASE, ...(isFollowing ? [] : [NOT_FOLLOWING]), ...(isOther ? [OTHER_CELLS] : [])],
  };
}

/** The cells of a case as they were typed, {id, typed}, if they make its very document; or {isOther}. */
function cellsOf({ case: id, cells: typed, document }, { measure }, mark) {
  if (!typed) return {};
  return readCase({ id, typed, mark, measure }).text === writeJson(document) ? { id, typed } : { isOther: true };
}

/** Whether the filled cells have the numbers that the page would fill in: else these would change at the next key. */
function follows(kind, typed, { filled, how }, mark) {
  if (!filled) return true;
  const { state } = fillSplits({ typed: packed(typed), mark, costs: kind.isCost, filled, how, again: true });
  return state?.numbers === packed(typed).numbers;
}
