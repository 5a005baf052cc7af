// A case as the page saves it: the document, and what a document has no place for, as which numbers were assumed.
import { isObject, writeJson } from "../exact/json.js";
import { DECIMALS, isMark, WHOLE } from "../exact/marks.js";
import { caseNamed } from "./cases.js";
import { coarseOf } from "./coarse.js";
import { WORD } from "./is-case-file.js";

const VERSION = 1n;
const isText = (one) => typeof one === "string" && one.length <= 200;
const isTexts = (one) => Array.isArray(one) && one.every(isText);

/** What may stand beside the document, each with its test. */
const TESTS = {
  filled: isObject, coarse: (one) => isObject(one) && Object.keys(one).every((key) => coarseOf(one)?.[key]),
  decimals: (one) => typeof one === "bigint" && one >= 0n && one <= 6n, mark: isMark,
  entry: (one) => isMark(one) || one === WHOLE || one === DECIMALS,
  thousands: (one) => typeof one === "string" && /^[.,’'\u202f\u00a0 ]$/.test(one),
  heading: isText, unit: isText, pastedUnit: isText, agreed: isText, source: isText,
  proposal: isTexts, todays: isTexts, withProposal: (one) => one === true, kept: isKept,
  case: (one) => caseNamed(one) !== undefined,
  cells: (one, { case: id }) => isLike(emptyOf(caseNamed(id), one), one) && isOfTexts(one),
};

const isNumberText = (text) => typeof text === "string" && /^-?\d{1,400}(\/[1-9]\d{0,400})?$/.test(text);

const emptyOf = (kind, { limits, least }) => (limits && kind?.emptyLimits ? kind.emptyLimits()
  : kind ? { ...kind.empty(), ...(least !== undefined && { least: [""] }) } : "");

/** Whether cells have all that those of an empty case have, each of its form. */
function isLike(model, one) {
  if (Array.isArray(model)) return Array.isArray(one) && one.every((item) => isLike(model[0], item));
  if (!isObject(model)) return typeof one === typeof model;
  return isObject(one) && Object.entries(model).every(([key, item]) => isLike(item, one[key]));
}

/** Whether all that is in cells are texts, and answers to questions. */
function isOfTexts(one) {
  if (typeof one !== "object" || one === null) return ["string", "boolean"].includes(typeof one);
  return Object.values(one).every(isOfTexts);
}

/** An answer that was kept to compare: the rows, their shares by each rule, and the cells that have changed since. */
function isKept(one) {
  const { names, sums = names, shares, cells = {} } = isObject(one) ? one : {};
  const isList = (list, is) => Array.isArray(list) && list.length === names.length && list.every(is);
  return Array.isArray(names) && names.every((name) => typeof name === "string") && isList(sums, isText)
    && isObject(shares) && Object.values(shares).every((list) => isList(list, isNumberText)) && isObject(cells)
    && Object.values(cells).every(isText);
}

/** The file of a case: `text` is its document, `mark` is that of what is shown, `entry` that of the cells, and
 * `thousands` the sign between thousands, if they show one. What was pasted isn't in it, but for what is in cells. */
export function caseText({ kind, typed, text, texts, todays, places, mark, entry, thousands, kept: pin, paper }) {
  const { filled, how, coarse, source, offered, ...cells } = typed, [model] = kind.empty().rows ?? [];
  const rows = cells.rows?.map((row) => ({ ...model, ...row })), { heading, unit, pastedUnit, agreed } = paper;
  const shown = { decimals: places, mark, entry, thousands: thousands ?? undefined };
  const own = {
    proposal: texts.some(Boolean) ? texts : undefined, todays: todays ?? undefined, kept: pin,
    withProposal: paper.withProposal || undefined,
  };
  const onPaper = { heading, unit, pastedUnit, agreed };
  const all = { filled: kind.filled?.treeOf(typed), coarse, ...shown, ...onPaper, source, ...own };
  const kept = Object.entries(all).filter(([key, one]) => one !== undefined && (one !== "" || key === "entry"));
  const typedText = `"case":"${kind.id}",\n"cells":${textOfCells({ ...cells, rows })}`;
  return `{"${WORD}":${VERSION},\n"document":${text},\n${typedText}${kept.map(([key, one]) => {
    return `,\n"${key}":${writeJson(one)}`;
  }).join("")}}\n`;
}

const textOfCells = (cells) => JSON.stringify(cells, (_, one) => {
  return Array.isArray(one) ? Array.from(one, (item) => item ?? "") : one;
});

/** What is wrong with the form of a case: {sentence, place}; null where nothing is. */
export function faultOfCase(tree) {
  if (typeof tree[WORD] === "bigint" && tree[WORD] > VERSION) {
    return { sentence: "A later version of this page has saved this case. Its document can be opened by itself.",
      place: WORD };
  }
  if (tree[WORD] !== VERSION) return spoilt(WORD);
  if (!isObject(tree.document)) return spoilt("document");
  const key = Object.keys(TESTS).find((one) => one in tree && !TESTS[one](tree[one], tree));
  return key ? spoilt(key) : null;
}

function spoilt(place) {
  return { sentence: "This case isn’t as the page saved it, so it isn’t opened. Its document can be.", place };
}

/** Which cells of a case were filled, as what was typed has it, or {fault} with its place. */
export function filledOf(kind, names, tree) {
  if (tree === undefined) return {};
  const { key = "cells", isRight = () => false, typedOf } = kind.filled ?? {};
  const list = Array.isArray(tree[key]) ? tree[key] : [null];
  const wrong = list.findIndex((one) => !Array.isArray(one) || !isRight(one, BigInt(names?.length ?? 0)));
  if (wrong >= 0) return { fault: spoilt(`filled, ${key}, item ${wrong + 1}`) };
  return typedOf(list, tree, kind);
}
