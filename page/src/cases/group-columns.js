// Which column of a list of groups has their numbers, where it has several.
import { readNumber } from "../exact/decimals.js";
import { isSumWord, withEscapes } from "../game/names.js";
import { listed } from "../game/words.js";
import { isOtherKind } from "./other-case.js";
import { headingsOf } from "./pasting.js";
import { amountsIn } from "../exact/money.js";

const MOST_SHOWN = 120; // letters of a line that is quoted
export const FORM = "Give each group a line: its members with + between them, then its number. Marks in columns need "
  + "the names above them.";
const WORTH = new RegExp("cost|gain|worth|value|saving|amount|price|profit|kosten|gewinn|wert|betrag|preis|ersparnis"
  + "|co[uû]t|valeur|montant|\\bv ?\\(s\\)|\\b(eur|usd|gbp|chf)\\b|\\p{Sc}", "iu");

const PER = /\b(?:per|je|pro|par|por|unit|each)\b|einzel|stück|unitaire|\/ ?\p{L}/iu; // a price for each

/** Whether a heading says that numbers of groups are below. */
export const isWorth = (heading = "") => WORTH.test(heading) && !PER.test(heading);

/** Of columns of numbers those that may be meant: not what the other case has, and the one that says so, unless one of
 * them is a total. */
function meantOf(numeric, headings, isCost) {
  const own = numeric.filter((c) => isCost === undefined || !isOtherKind(headings?.[c], isCost));
  const some = own.length ? own : numeric, worths = some.filter((c) => isWorth(headings?.[c]));
  return worths.length === 1 && !some.some((c) => isSumWord(headings?.[c] ?? "")) ? worths : some;
}

/** Rows of a group and its number, of such as may have headings and further columns: {rows, lines, told, title}, this
 * that of the numbers. Of several columns of numbers the one `column` is taken; {columns} with their titles if nobody
 * said which; {fault} where no headings say what the others are. `lines` are the numbers of the lines of the text, and
 * `titles` stand above. */
export function pairsOf(given, allLines, { mark, column, cells, isCost, titles }) {
  const { rows: all, told: joined } = asOneColumn(given, mark);
  const headings = headingsOf(all, 1, mark) ?? yearsOf(all), skip = headings ? 1 : 0, rows = all.slice(skip);
  const lines = allLines.slice(skip), long = rows.findIndex((row) => row.slice(2).some(Boolean));
  const told = headings ? headingText((cells[allLines[0] - 1] ?? headings).filter(Boolean).join("; ")) + joined : "";
  if (long < 0) return { rows, lines, told, title: headings?.[1], amounts: amountsIn(headings?.[1], titles) };
  const isNumber = (text) => Boolean(text) && !readNumber(text, mark).fault;
  const shown = withEscapes(rows[long].join("; ")).slice(0, 60), line = `Line ${lines[long]}: `;
  const wide = all.reduce((most, { length }) => Math.max(most, length), 0);
  const others = Array.from({ length: wide - 1 }, (_, k) => k + 1);
  const numeric = others.filter((c) => rows.some((row) => isNumber(row[c]))), isOf = new Set(numeric);
  const several = meantOf(numeric, headings, isCost), at = column ?? several[0];
  const isNamed = rows.every(([group]) => !isNumber(group)), isPlain = others.every((c) => isOf.has(c));
  if (several.length > 1 && column === undefined && isNamed && (headings || isPlain)) {
    const textOf = (c) => headings?.[c] || `${rows.slice(0, 2).map((row) => row[c]).join(", ")} …`;
    return { columns: several.map((c) => ({ c, title: withEscapes(textOf(c)) })) };
  }
  if (at === undefined || (several.length > 1 && column === undefined)) {
    return { fault: `${line}A line has a group and one number, and here one has more: “${shown}”. ${FORM}` };
  }
  if (!headings && column === undefined) {
    return { fault: `${line}A line has a group and its number, and here is more: “${shown}”. Leave that out, or give `
      + "each column a heading." };
  }
  const out = others.filter((c) => c !== at).map((c) => withEscapes(headings?.[c] ?? rows[0][c] ?? ""));
  const left = out.map((text) => ` “${text}”${headings ? "" : " …"} was left out.`).join("");
  const title = headings?.[at], amounts = amountsIn(title, titles);
  return { rows: rows.map((row) => [row[0], row[at] ?? ""]), lines, told: told + left, title, amounts };
}

/** Rows with one column for those that have one number between them in each row, as "Alone" and "Together". */
function asOneColumn(given, mark) {
  const headings = headingsOf(given, 1, mark), rows = given.slice(1);
  const isNumber = (text) => !readNumber(text, mark).fault;
  const columns = (headings ?? []).map((_, c) => c).filter((c) => c > 0 && rows.some((row) => !row[c])
    && rows.some((row) => row[c]) && rows.every((row) => !row[c] || isNumber(row[c])));
  const [first, ...more] = columns, numberIn = (row) => columns.map((c) => row[c]).filter(Boolean);
  if (!more.length || !rows.every((row) => numberIn(row).length === 1)) return { rows: given, told: "" };
  const bare = (row) => row.map((text, c) => (c === first ? numberIn(row).join(" / ") : text));
  const names = columns.map((c) => `“${withEscapes(headings[c])}”`);
  return {
    rows: given.map((row) => bare(row).filter((_, c) => !more.includes(c))),
    told: ` ${listed(names)} are one column: each row has one number there.`,
  };
}

/** The first row, if it is a word and years above numbers. */
function yearsOf([[word = "", ...years], ...below]) {
  const isYear = (text) => /^(?:\p{Sc}|[A-Z]{3} ?)?(?:19|20)\d\d(?: ?(?:\p{Sc}|[A-Z]{3}))?$/u.test(text);
  const isGroup = /^(gr[uo]u?pp?[aeos]*|coalition|koalition|s|who)$/i.test(word);
  const isOf = years.length > 0 && years.every(isYear) && (years.length > 1 || isGroup) && /^\p{L}*$/u.test(word);
  return isOf && below.every(([, ...some]) => some.length === years.length) ? [word, ...years] : null;
}

/** What is told of a first line that was taken as a heading. */
export function headingText(line) {
  const text = line.trim(), isLong = text.length > MOST_SHOWN;
  const shown = `${withEscapes(text.slice(0, MOST_SHOWN))}${isLong ? " …" : ""}`;
  return ` The first line, “${shown}”, was taken as a heading.`;
}
