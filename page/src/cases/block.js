// A pasted text as a block of cells: what people copy from a mail, a PDF or a spreadsheet, before any kind reads it.
import { readNumber } from "../exact/decimals.js";
import { isSumWord, withEscapes } from "../game/names.js";
import { UNKNOWN } from "./columns.js";
import { PAGES } from "./page-lines.js";
import { OF_NO_CENTS } from "./pasting.js";
import { namesFirst, withoutDashes, withoutSigns } from "./signs.js";
import { parted } from "./units.js";

const isNumber = (text = "") => text !== "" && !readNumber(text).fault;
export const isText = (text = "") => /\p{L}/u.test(text) && !isNumber(text) && !UNKNOWN.test(text);
const isAmount = (text) => /^\P{L}*\d/u.test(text);
/** Whether a cell is a number, or says that nobody knows it or that there is none. */
export const isValue = (text = "") => text === "" || UNKNOWN.test(text) || isNumber(text);
const isBlank = (row) => !row.some(Boolean);
const NUMBERING = /^(\P{L}*|no|nr|num|number|nummer|id|lp|pos|rank|rang)\.?$/iu; // above numbers of rows

const MOST_LETTERS = 400; // of a line that is parted
const NO_NAME = new RegExp(`,|^(—|${PAGES})$`, "iu");
/** Whether a name may end so before a number: not with a number, a minus or a currency. */
const endsName = (word) => !NO_NAME.test(word) && ![word, `${word}1`].some(isNumberOrPart);

/** What is told of numbers of rows. */
export const ROW_NUMBERS = "The first column, of row numbers, was left out.";
const SIGNS = "Signs of a list or a quotation before the names were left out.";
const TURNED = "The numbers stand before the names, and were taken as theirs.";
const DASHES = "The dashes between names and numbers were left out.";

/** Why a block can't be taken in which nobody can part the line `odd`. */
export const looseText = (odd) => `Names and numbers stand in one cell each, and nobody can part “${withEscapes(odd)}” `
  + "for sure. Put a tab, a semicolon or a colon before each number, or leave that line out.";

/** What says that an amount is nothing. */
const NOTHING = new RegExp("^(nil|none|nothing|zero|nichts|kein[es]?|néant|nul|rien|aucune?|niente|nulla|nada|ninguno|"
  + "cero|geen|niets|nihil)\\.?$", "iu");

/** Whether a word says that an amount is nothing. */
export const isNothing = (text) => NOTHING.test(text);

/** The block of pasted `rows`: {rows, lines, notes, loose}. Lines of one cell each are parted into a name and its
 * numbers; what is empty around names and numbers goes, and so do numbers of rows, which is told. `lines` has the
 * number of each row in the text; names and numbers that still share cells, since nobody can part them, are `loose`. A
 * hyphen before a number that `canBeNegative` may be a minus; where amounts may be `words`, "nil" is 0. */
export function blockOf(pasted, { canBeNegative = false, words = false } = {}) {
  const { rows: signless, isSigned, isCounted: isListed } = withoutSigns(pasted);
  const found = partedLines(signless, { canBeNegative, words });
  const { rows: cells, loose, isCounted, isDashed, isTurned, remarks = [] } = found;
  const { rows: counted, zeros = [] } = words ? withZeros(cells) : { rows: cells };
  const all = counted.map((row, k) => ({ row, line: k + 1 }));
  const kept = cells.some((row) => row.some(isText)) ? trimmed(all) : all, rows = kept.map(({ row }) => row);
  const plain = withoutCount(rows), behind = [...new Set(remarks)].map((text) => `“${withEscapes(text)}”`).join(", ");
  const notes = [isSigned && SIGNS, isDashed && DASHES, isTurned && TURNED,
    (plain !== rows || isCounted || isListed) && ROW_NUMBERS,
    zeros.length > 0 && `Taken as 0: ${zeros.map((text) => `“${text}”`).join(", ")}.`,
    behind && `Left out behind numbers: ${behind}.`].filter(Boolean);
  return { rows: plain, lines: kept.map(({ line }) => line), notes, loose, remarks };
}

/** Rows with 0 for each word that says so in a column of numbers: {rows, zeros}, the words. */
function withZeros(rows) {
  const zeros = new Set(), [, ...below] = rows, isZero = (text) => NOTHING.test(text);
  const isAmounts = (c) => c > 0 && below.some((row) => isAmount(row[c] ?? ""))
    && below.every((row) => isValue(row[c]) || isZero(row[c]) || parted(row[c]));
  const wide = rows.reduce((most, { length }) => Math.max(most, length), 0);
  const columns = new Set(Array.from({ length: wide }, (_, c) => c).filter(isAmounts));
  const zeroOf = (text, c) => (columns.has(c) && isZero(text) && zeros.add(text) ? "0" : text);
  return { rows: rows.map((row, r) => (r || isZero(row[1]) ? row.map(zeroOf) : row)), zeros: [...zeros] };
}

/** Without empty rows above and below, and empty columns on both sides. */
function trimmed(all) {
  const filled = all.map(({ row }, k) => (isBlank(row) ? -1 : k)).filter((k) => k >= 0);
  const inside = all.slice(filled[0], filled.at(-1) + 1), columns = inside.flatMap(({ row }) => {
    return row.map((text, c) => (text ? c : -1)).filter((c) => c >= 0);
  });
  const [left, right] = [Math.min, Math.max].map((most) => columns.reduce((a, b) => most(a, b)));
  return inside.map(({ row, line }) => ({ row: row.slice(left, right + 1), line }));
}

/** Without a first column of exactly 1, 2, .. beside one of texts and one of numbers, or below no heading beside one
 * column; a heading above it may only say that it numbers them. */
function withoutCount(rows) {
  const isBare = rows[0]?.length === 2 && !rows[0][0];
  const given = rows.filter((row, k) => row.filter(Boolean).length > 1 || (isBare && k === 0));
  const [head = ""] = given[0] ?? [], isHead = !/\d/.test(head);
  const below = given.slice(isHead ? 1 : 0), counted = below.filter(([first]) => first), [row] = counted;
  const isCount = counted.every(([first], k) => first.replace(/[.)]$/, "") === String(k + 1));
  if (counted.length < 2 || !isCount || (isHead && !NUMBERING.test(head))) return rows;
  const has = (is) => row.some((_, c) => c > 0 && counted.every((one) => is(one[c])));
  const isWord = (text) => isText(text) && !isAmount(text);
  const isOf = has(isWord) ? counted.some(([, ...others]) => others.some(isAmount)) : isBare && isText(rows[0][1]);
  return isOf ? rows.map((one) => (one.length > 1 ? one.slice(1) : one)) : rows;
}

/** A remark behind a number, as "(niece)" and "(12.03.2026)". */
const REMARK = /\s*(\((?:[^()]*\p{L}[^()]*|(?:\d{1,2}[./-]){0,2}(?:19|20)\d\d)\))[.;,]?$/u;
const DASHED_REMARK = /(?<=\d\D{0,12})\s[–—-]\s(\p{L}[^\s\d,]*(?:\s[^\s\d,]+){0,2})$/u; // behind a colon
// what a line of a mail ends or begins with, above its list or below
const MAIL = /,|[:;.!?]$|\b(regards|wishes|thanks|grüße|gruß|cordialement|saludos|groeten|sincerely)\b/iu;
// words before a name that greet
const GREETING = new RegExp("^(hi|hello|hey|dear|hallo|liebe[rs]?|sehr|guten|bonjour|salut|hola|ciao|thanks?|thx|danke|"
  + "merci|gracias|cheers|best|kind|warm|yours|love|lg|vg|mfg|gru(?=ß)|gr(?=ü)|gruss|viele|beste|bis|"
  + "cordialement|bien|from|von|sent|regards|greetings|sincerely|total|sum|summe|note|source|p\\.?s|re|aw"
  + "|fwd?)\\b", "iu");
const PERSON = /^\p{Lu}[\p{L}'’. -]*(, ?\p{Lu}[\p{L}'’. -]{0,40}:?|:)$/u; // "Rossi, M", or "Cleo:"
const FULL_NAME = /^\p{Lu}[\p{L}'’.-]*( \p{Lu}[\p{L}'’.-]*){0,2}$/u;
const PHONE = /(^|[:=]\s*)\+?0\d{5,}$/;
const CALL = new RegExp("(?:^|[\\s,;(|])(?:tel|t[eé]l[eé](?:ph|f)one?|phone|mobile?|handy|fon|fax)(?!\\p{L})\\P{L}{0,4}"
  + "[+0]\\d[\\d ()/.-]{4,40}$", "iu");
const SOME_OF = /^\d+ (?:of|von|sur|de|van) \d+$/; // a quota
const SAYING = /^(.*\S)(?:\s*[:=]\s*|\s{2,})([^\s:=].*)$/u;

/** Whether a line without a number may be a person: "Rossi, M"; and "Cleo:" below a list. */
function isPerson(text, isBelow = true) {
  return PERSON.test(text) && !GREETING.test(text) && (isBelow || !text.endsWith(":"));
}

/** Whether some line of these, between a list and a line beyond it, begins or ends a mail, or is empty. */
export function isMail(some, isBelow) {
  return some.some((text) => !text || (MAIL.test(text) && !isPerson(text, isBelow)));
}

/** Whether a line right below a table may be one of its people, whose number is lost: "Rossi, M", or "Eva Weiss". */
export const isLostPerson = (text) => isPerson(text) || (FULL_NAME.test(text) && !GREETING.test(text));

/** The ways in which a line is a name and a number behind it, which may have blanks; behind a colon one. */
function waysOf(text, hasWords) {
  if (text.length > MOST_LETTERS || CALL.test(text)) return [];
  const [, named, rest = ""] = SAYING.exec(text) ?? [], words = text.split(/\s+/);
  const whole = /^[-–—]/.test(rest) && OF_NO_CENTS.test(text) ? "" : rest;
  const last = words.at(-1), isWord = hasWords && words.length > 1 && NOTHING.test(last);
  if (isWord) return [[bare(words.slice(0, -1).join(" ")).replace(/\s*[:=–-]$/, ""), last]];
  const said = whole.replace(REMARK, "").replace(DASHED_REMARK, "").replace(/(?<=[\p{L}\d])[.;,]$/u, "");
  const isSaid = SOME_OF.test(said) || UNKNOWN.test(said) || isNumber(said) || parted(said); // 12 votes
  if (/\d:\d\d\P{L}{0,3}$/u.test(text)) return []; // a time
  if (said && isSaid) return PHONE.test(said) ? [] : [[bare(named), said]];
  const nameOf = (all, k) => bare(all.slice(0, k).join(" ")).replace(/\s*[:=]$/, "");
  const waysIn = (all) => all.map((_, k) => [nameOf(all, k), all.slice(k).join(" ")])
    .filter(([name, number]) => /\p{L}/u.test(name) && isNumberOrPart(number));
  const own = REMARK.test(text) ? waysIn(text.replace(REMARK, "").split(/\s+/)) : [];
  return own.length ? own : waysIn(words);
}

const remarkIn = (text) => REMARK.exec(text)?.[1] ?? (/[:=]/.test(text) && DASHED_REMARK.exec(text)?.[1]);

/** A number, or one in per cent, in thousands or for each year. */
const isNumberOrPart = (text) => isNumber(text.replace(/\s?%$/, "")) || Boolean(parted(text)?.isSure);

/** A name without dots that lead to a number. */
const bare = (name) => name.replace(/(\s*[.…]){3,}$/, "");

/** A name and all numbers behind it. */
function withNumbers(text) {
  const words = text.split(/\s+/), count = [...words].reverse().findIndex((word) => !isNumber(word));
  return count > 0 ? [words.slice(0, -count).join(" "), ...words.slice(-count)] : undefined;
}

/** Each line as a name and as many numbers, two or more, of which none can be a part of another; else null. */
function evenOf(texts) {
  const parts = texts.map(withNumbers), found = parts.filter(Boolean), wide = found[0]?.length ?? 0;
  const isWhole = (row) => row.slice(2).every((text, c) => !/^\d{3}(\D|$)/.test(text) || !/^\d{1,3}$/.test(row[c + 1]));
  const isName = ([name]) => endsName(name.split(" ").at(-1));
  const isRow = (row) => row.length === wide && isWhole(row) && isName(row);
  const isEven = wide > 2 && found.length > 1 && found.every(isRow);
  const bareOf = ([name]) => name.replace(/^\d+[.)]? /, ""); // "1 Unit" and "2 Unit" are one name
  return isEven && new Set(found.map(bareOf)).size === found.length ? parts : null;
}

const AFTER_COMMA = /^([^,]{1,400}),\s+(\d[\d.,'’]{0,30})$/, YEAR = /(19|20)\d\d$/;

/** Lines with a colon in the place of a comma between name and number, if no number stands otherwise: "Weiss, 150". */
function withColons(lines) {
  const isTitle = (text, k) => k === 0 && YEAR.test(text);
  const isOf = (text, k) => AFTER_COMMA.test(text) && !isTitle(text, k);
  const isOther = (text, k) => /\d$/.test(text) && !isOf(text, k) && !isTitle(text, k);
  if (lines.filter(isOf).length < 2 || lines.some(isOther)) return lines;
  return lines.map((text, k) => (isOf(text, k) ? text.replace(AFTER_COMMA, "$1: $2") : text));
}

/** Lines of one cell each, as mails have them, parted into a name and its numbers: {rows, loose}. Texts above and
 * below may be other. Nothing is parted where the numbers only count, as in "Lot 1"; and where one line isn't such, or
 * a number may be a part of the name, as in "Flat 3 250", that line is `loose`. */
function partedLines(rows, { canBeNegative, words: hasWords }) {
  const lines = rows.map((row) => row.find(Boolean) ?? ""), whole = { rows };
  if (lines.filter(Boolean).length < 2 || rows.some((row) => row.filter(Boolean).length > 1)) return whole;
  const turned = namesFirst(lines), isTurned = turned !== lines, named = withColons(turned);
  const isPlain = (text) => !canBeNegative && /[:=]\s*[^\s:=]*\d/.test(text); // its number has no minus
  const isOpen = (text) => waysOf(text).length > 0 && !isPlain(text);
  const { texts, isDashed } = withoutDashes(named, isOpen, canBeNegative);
  const ways = texts.map((text) => waysOf(text, hasWords)), longest = ways.map(([one]) => one);
  const isOneName = areAlike(longest);
  const even = evenOf(texts), parts = even ?? (isOneName ? ways.map((some) => some.at(-1)) : longest);
  const isTitled = parts[0] && /\s20[12]\d$/.test(texts[0].replace(REMARK, ""));
  if (isTitled && !isTitle(texts, parts)) return { rows, loose: texts[0] };
  if (isTitled) parts[0] = undefined;
  const found = parts.filter(Boolean), isCount = found.every(([, number], k) => Number(number) === k + 1);
  if (found.length < 2 || isCount || areAlike(parts)) return whole;
  const [first, last] = [found[0], found.at(-1)].map((one) => parts.indexOf(one)), wide = found[0].length;
  const broken = texts.slice(first, last).find((text, k) => text && !parts[first + k]) ?? texts[severalIn(parts)];
  const loose = broken ?? (even || isOneName ? undefined : texts.find((text, r) => !isSure(ways[r], text)));
  if (loose !== undefined) return { rows, loose };
  const isHead = (text, r) => r === first - 1 && /\S\s+\S/.test(text) && !/\d|[:,!]$/.test(text) && !isPerson(text);
  const called = found.filter(([name]) => /[\p{L}\d]/u.test(name));
  const isCounted = called.every(([name], k) => / /.test(name) && name.replace(/[.)]? .*/, "") === String(k + 1));
  const own = ([name, ...others]) => [isCounted ? name.replace(/^\S+ /, "") : name, ...others];
  const isCountedLine = (row, r) => row && !SAYING.test(texts[r]) && isNumber(own(row)[0].split(" ")[0]);
  const counted = parts.findIndex(isCountedLine);
  if (counted >= 0) return { rows, loose: texts[counted] };
  const headOf = (text) => {
    const words = text.split(/\s+/), heads = isCounted ? words.slice(-wide) : words, pair = text.split(/\s*:\s*/);
    if (wide === 2 && pair.length === 2) return pair;
    return heads.length === wide ? heads : wide > 2 ? [text] : text.split(/\s+(?=\S+$)/);
  };
  const above = texts.findLastIndex((text, r) => r < first && isMail([text], false));
  const below = texts.findIndex((text, r) => r > last && isMail([text]));
  const isFrame = (r) => (r < first ? r <= above : below >= 0 && r >= below);
  const isOut = (r) => isFrame(r) || (r === 0 && isTitled);
  const other = (text, r) => (isHead(text, r) ? headOf(text) : isOut(r) ? [text] : [text.replace(/:$/, ""), ""]);
  const all = texts.map((text, r) => (parts[r] ? own(parts[r]) : other(text, r)));
  const remarks = even ? [] : texts.flatMap((text, r) => (parts[r] && remarkIn(text)) || []);
  return { rows: all, isCounted, isDashed, isTurned, remarks };
}

/** Whether a first line that ends with a year is a title: an empty line is below, or it has no colon as all others, or
 * many words, as none of them. */
function isTitle([text, next, ...more], [, ...parts]) {
  const below = [next, ...more].filter((_, k) => parts[k]), wordsIn = (one) => one.split(/\s+/).length;
  const isOne = wordsIn(text) > 3 && !/[:=]/.test(text), isSaid = (one) => /[:=]\s*\S*\d/.test(one);
  const isShort = (one) => wordsIn(one) < 4 && wordsIn(one) < wordsIn(text) - 1;
  return !next || (isOne && below.length > 1 && (below.every(isSaid) || below.every(isShort)));
}

/** The first line of which the name has an amount and a comma, as "Ann 120, Bo", if not all have such; -1 if none. */
function severalIn(parts) {
  const has = (row) => /\d,\s+\p{L}/u.test(row[0]), found = parts.filter(Boolean);
  return found.every(has) ? -1 : parts.findIndex((row) => row && has(row));
}

/** Whether all names are the same. */
function areAlike(parts) {
  const names = parts.filter(Boolean).map(([name]) => name);
  return names.length > 1 && new Set(names).size === 1;
}

/** Whether a line can be parted in one way: with a currency before the number there is one. */
function isSure([one, other], text) {
  if (!one) return !PHONE.test(text);
  if (NOTHING.test(one[1])) return true;
  const isOne = !other || /^[\p{Sc}\p{L}]/u.test(one[1]), last = one[0].split(/\s/).at(-1);
  if (/\s{2}|[:=]\s*\d/.test(one[0])) return false;
  return SAYING.test(text) || (isOne && endsName(last) && !/\d\s\S{1,3}$/.test(one[0]));
}

/** A block without rows and columns that are named as sums: {rows, left}. */
export function withoutSums([heads = [], ...below]) {
  const isSum = (name = "") => isSumWord(name) || /^([Σ∑]|all|alle|ensemble)$/iu.test(name);
  const all = [heads, ...below], columns = heads.map((name, c) => c === 0 || !isSum(name));
  const left = [...new Set([...heads.slice(1), ...all.map(([name]) => name)].filter(isSum))];
  const kept = all.filter(([name]) => !isSum(name)).map((row) => row.filter((_, c) => columns[c] ?? true));
  return { rows: kept, left: left.map((name) => `“${withEscapes(name)}”, a sum`) };
}

/** Whether each line of a pasted text is a number, or nobody knows it. */
export function isNumbers(pasted) {
  const { rows, loose } = blockOf(pasted, { canBeNegative: true });
  const texts = rows.map((row) => row.filter(Boolean)).filter(([one]) => one);
  const isOne = ([text, other]) => !other && (/^(?!.*\d *\+)\P{L}*\d/u.test(text) || UNKNOWN.test(text));
  return !loose && texts.every(isOne);
}
