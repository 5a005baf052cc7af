// Lines of a document around the rows of a list, and what stands before its names: titles with a date, agenda items,
// sections, notes and files' numbers are no rows, and the numbers of a list are no part of names.
import { isHeadline } from "./frames.js";
import { WHOM } from "./quota.js";

const MOST_LETTERS = 300; // of a line that is looked at
const MONTH = "(?:jan|feb|f[ée]v|mar|mär|mrt|maa|apr|avr|abr|ma[iygj]|mei|jun|jui|giu|jul|lug|aug|ao[uû]|ago|sep|set"
  + "|okt|oct|ott|out|nov|dec|dez|dic|déc|gen|ene)\\p{L}{0,7}\\.?", YEAR = "(?:19|20)\\d\\d";
/** A date as people write it. */
const DATE = new RegExp(`(?<![\\d.,])(?:\\d{1,2}(?:st|nd|rd|th|er|\\.)? (?:de |of )?${MONTH}(?: del?)?,? ${YEAR}`
  + `|${MONTH} \\d{1,2}(?:st|nd|rd|th)?,? ${YEAR}|\\d{1,2}[./-] ?\\d{1,2}[./-] ?(?:19|20)?\\d\\d|${YEAR}-\\d\\d-\\d\\d`
  + ")(?![\\d/]|[.,]\\d)", "giu");
const FILED = new RegExp(`\\s(?:n|no|nr|num|az|file|case|ref)[.°º]{0,2}:? ?\\d{1,6}\\/(?:${YEAR}|\\d\\d)$`, "iu");
const ITEM = new RegExp("^(?:agenda )?(?:item|point|punkt|top|punto|punt|agendapunt|tagesordnungspunkt|section"
  + "|abschnitt|annex|anhang|annexe|appendix|schedule|table|tabelle|tableau|tabel|tabla|tabella|exhibit|anlage|bijlage"
  + "|allegato|anexo)\\s(?:(?:no|nr|n)[.°º]?\\s?)?(?:\\d{1,3}(?:\\.\\d{1,2})?[a-z]?|[A-Z]|[IVX]{1,5})"
  + "(?:\\s?[:.)–—-]{1,3}|$|(?=\\s))", "iu");
const NOTE = new RegExp("^(?:[¹²³⁴-⁹†‡]|\\*{1,3}\\s?(?=\\p{L})|\\[\\d{1,2}\\]\\s"
  + "|(?:sources?|notes?|quellen?|fuentes?|fonti?|bron(?:nen)?|n\\.?b\\.?|remarks?|hinweise?|anmerkung(?:en)?|notas?"
  + "|opmerking(?:en)?)(?: \\d)?[:.](?=\\s))", "iu");
const SCALE = new RegExp("\\S\\s.{0,200}\\((?:(?:all|figures|amounts|values|alle|angaben|beträge|montants|bedragen|in"
  + "|en) ){0,4}(?:per ?cent|%|prozent|thousands?|millions?|tausend|tsd|mio|milliers|miles|[kKTM]?(?:EUR|USD|GBP|CHF|€)"
  + `|\\p{Sc}|1[., ’]?000|\\d[\\d.,]{0,9} (?:${WHOM}))[^()]{0,40}\\)[¹²³⁴-⁹*†‡:]{0,3}$`, "iu");
const REMARK = /\s*\([^()]*\)[.;,:]?$/u, YEARS = /(?<!\d)(?:19|20)\d\d(?!\d)/g;
const AMOUNT = /\d[\d.,'’\u00a0\u202f]*(?:[-–—]{1,2})?\s?(?:\p{L}{0,5}\.?\s?\p{Sc}|%|\p{L}{1,12}\.?)?[.;,:)]{0,2}$/u;
const COUNT = /^[^\d:]{3,200}\(\d[\d.,'’ ]{0,12}\)[:.]?$/u; // a title with a sum in brackets
const MARK = /^(?:[¹²³⁴-⁹†‡]|\*{1,3})/u; // of a note

const textOf = (row) => row.find(Boolean) ?? "", isLone = (row) => row.filter(Boolean).length === 1;
const hasAmount = (text) => AMOUNT.test(text) || AMOUNT.test(text.replace(REMARK, ""));

/** Whether a line says when, or in which file: a date is its only number at the end. */
function isDated(text) {
  const rest = text.replace(DATE, "").replace(/\s+/g, " ").trim();
  return FILED.test(text) || (rest !== text.replace(/\s+/g, " ").trim() && !hasAmount(rest));
}

/** Whether a line begins as an item of an agenda, a table or a note, and has no amount behind. */
export function isItem(text) {
  const own = [ITEM, NOTE].find((one) => one.test(text)), rest = own ? text.replace(own, "").trim() : "";
  const isNote = own === NOTE && /\p{L}/u.test(rest) && !/[:=]\s*\P{L}{0,4}\d[\d.,]*$/u.test(rest);
  return isNote || (own === ITEM && !hasAmount(rest.replace(/\s20\d\d$/, "")));
}

/** Whether a line says in what the numbers below are, as "Requests 2027 (in thousand EUR)". */
export const isScale = (text) => text.length <= MOST_LETTERS && SCALE.test(text)
  && !/\d/.test(text.replace(REMARK, "").replace(YEARS, ""));

/** Whether a line is a sentence, as no line of a name and its number is. */
function isSentence(text) {
  const words = text.split(/\s+/), small = words.filter((word) => /^\p{Ll}/u.test(word)).length;
  return /[\p{L}\d][.!?]$/u.test(text) && small > 2 && !/[:=]/.test(text);
}

/** What a line alone is: an "item", "dated", a "sentence", a "scale", a "row" of a name and its number, or "". */
function kindOf(text) {
  if (isItem(text) || text.startsWith("§")) return "item";
  if (isDated(text)) return "dated";
  return isSentence(text) ? "sentence" : isScale(text) ? "scale" : hasAmount(text) ? "row" : "";
}

/** Pasted rows without the lines around a list, without its numbers before names, and without the marks of notes:
 * {rows, left, isListed, marks}. */
export function withoutAround(all) {
  const texts = all.map((row) => (isLone(row) ? textOf(row).slice(0, MOST_LETTERS) : ""));
  const kinds = all.map((row, k) => (texts[k] ? kindOf(texts[k]) : row.some(Boolean) ? "row" : ""));
  const isCount = (k) => kinds[k] === "row" && COUNT.test(texts[k].replace(YEARS, ""));
  const [sum, other] = texts.map((_, k) => k).filter(isCount);
  if (other === undefined && sum === kinds.indexOf("row")) kinds[sum] = "scale";
  const first = kinds.indexOf("row"), last = kinds.lastIndexOf("row"), isBeyond = (k) => k < first || k > last;
  const isSection = (k) => texts[k].endsWith(":") && k < last && isHeadline(texts[k], true);
  const isOut = (_, k) => first >= 0 && (kinds[k] === "item" || isSection(k) || (kinds[k] === "scale" && k < first)
    || (["dated", "sentence"].includes(kinds[k]) && isBeyond(k)));
  const blankOf = (k) => (kinds[k] === "sentence" ? [[""]] : []); // what is beyond it is of no list
  const kept = all.flatMap((row, k) => (isOut(row, k) ? blankOf(k) : [row]));
  const isList = kept.filter((row) => row.some(Boolean)).length > 1;
  const left = isList ? all.filter(isOut).map(textOf) : [];
  const { rows, isListed } = withoutNumbers(isList ? kept : all);
  return { ...withoutMarks(rows, left), isListed, left };
}

/** Rows without the marks that notes which were `left` out begin with: {rows, marks}. */
function withoutMarks(all, left) {
  const marks = [...new Set(left.map((text) => MARK.exec(text)?.[0]).filter(Boolean))];
  const sorted = [...marks].sort((one, other) => other.length - one.length).map((one) => one.replace(/\*/g, "\\*"));
  const sign = new RegExp(`(?<=[\\p{L}\\d)]\\s?)(?:${sorted.join("|")})(?=\\s|:|$)`, "u");
  const rows = marks.length ? all.map((row) => row.map((text) => text.replace(sign, ""))) : all;
  const isChanged = all.some((row, k) => row.some((text, c) => text !== rows[k][c]));
  return { rows, marks: isChanged ? marks : [] };
}

const LISTED = /^(\(?)(\d{1,3}|[a-z])([.)]{1,2})\s+(?=\P{N})/u;
const BEHIND = /\s\P{L}{0,4}\d[^\p{L}]*\p{L}{0,12}$/u; // a name
const ordinalOf = (text) => (/\d/.test(text) ? Number(text) : text.charCodeAt(0) - 96);

/** Rows without "1.", "2." or "a)", "b)" in front of names that stay different: {rows, isListed}. Each such row has a
 * number behind, or each row of all is such. */
function withoutNumbers(all) {
  const found = all.map((row) => LISTED.exec(textOf(row))), kinds = new Map();
  const filled = all.filter((row) => row.some(Boolean));
  found.forEach((one, k) => {
    if (!one) return;
    const kind = `${one[1]}${/\d/.test(one[2]) ? 1 : "a"}${one[3]}`;
    if (!kinds.has(kind)) kinds.set(kind, []);
    kinds.get(kind).push(k);
  });
  const restOf = (k) => textOf(all[k]).slice(found[k][0].length);
  const hasNumber = (k) => /\d/.test(restOf(k)) || all[k].filter(Boolean).length > 1;
  const nameOf = (k) => restOf(k).slice(0, MOST_LETTERS).replace(REMARK, "").replace(BEHIND, "");
  const isList = (own) => own.length > 1 && own.every((k, n) => ordinalOf(found[k][2]) === n + 1)
    && (own.every(hasNumber) || own.length === filled.length) && new Set(own.map(nameOf)).size === own.length;
  const own = new Set([...kinds.values()].filter(isList).flat());
  const bare = (row, k) => row.map((text) => (own.has(k) && text === textOf(row) ? restOf(k) : text));
  return { rows: own.size ? all.map(bare) : all, isListed: own.size > 0 };
}
