// A table that was pasted into a list: what stands around it goes, and each of its columns finds the one it is for.
import { readNumber } from "../exact/decimals.js";
import { headsFirst } from "./above-heads.js";
import { isScale, withoutAround } from "./around-lines.js";
import { isBareName, notNames } from "./bare-names.js";
import { blockOf, looseText } from "./block.js";
import { bracketVotes } from "./bracket-votes.js";
import { brokenName, mendedName } from "./broken-names.js";
import { withoutClauses } from "./clauses.js";
import { withEscapes } from "../game/names.js";
import { columnsFor, isKnownHead, knownHeads, widthFault } from "./columns.js";
import { leftText, unframed } from "./frames.js";
import { partedInLine } from "./in-line.js";
import { ledRows } from "./leaders.js";
import { withoutPages } from "./page-lines.js";
import { headingsOf, pastedText } from "./pasting.js";
import { answerFault } from "./saved-tables.js";
import { belowNumbers } from "./signs.js";
import { apartSingles, quotasOf, singleOf, singlesOf, withSingle } from "./single.js";
import { amountsIn } from "../exact/money.js";
import { unitsText, withoutUnits } from "./units.js";

const MOST_NAME = 80, MOST_PROSE = 600; // letters
const MOST_HEADS = 3; // words of two headings in a line
const PROSE = /\d[^\t]*\s\p{L}{2,}\s[^\t]*\s\d+ ?\S*, /u;
const LISTED = "The numbers of the list before the names were left out.";
const IN_LINE = "The line of names and numbers was parted between them.";
const SENTENCE = "This is one sentence. Give each a line: the name, a tab and the number.";
/** Why a line is no row. */
const lineText = (text) => (/\d/.test(text) ? undefined : notNames([text], AS_ROWS)) ?? looseText(text);
const AS_ROWS = "Give each row a name, a tab and a number, and leave other lines out.";

const BEHIND = /\s*[:=]?\s*(?:\p{Sc}|[A-Z]{3})?\s?\d.*$/u; // an amount behind a name
const SAID = /\p{L}\D{1,60}\d[\d.,'’]{0,20}[.,'’]\d{2,3}(?!\d)/gu; // a name and an amount

/** Whether rows are one line, with two names and amounts. */
export function isProse([[text = "", more] = [], other]) {
  return !more && !other && text.slice(0, MOST_PROSE).match(SAID)?.length > 1;
}

/** Pasted rows without what stands around their table: {given, rows, out, notes}, or {fault}, in words; or {asked}, if
 * there is nothing but clauses that name quotas. */
function tableIn(pasted, { single, isFirst }) {
  const whole = { rows: pasted, notes: [] }, saved = answerFault(pasted);
  const { rows: given, isParted, left: talk = [] } = isFirst ? partedInLine(pasted) : whole;
  const isEstate = single && !single.second && isFirst;
  const isKnown = (text) => single.heads.test(text.replace(BEHIND, "")); // taken as what there is
  const { rows: numbered, pages } = isFirst ? withoutPages(given) : { rows: pasted, pages: [] };
  const { rows: paged, above } = isEstate ? belowNumbers(numbered, isKnown) : { rows: numbered, above: [] };
  const isVotes = single?.second && isFirst;
  const { rows: bare, own } = isVotes ? apartSingles(paged, single) : { rows: paged, own: [] };
  const { rows: plain, clauses } = isVotes ? withoutClauses(bare) : { rows: bare, clauses: [] };
  if (clauses.length && !plain.some((row) => row.some(Boolean))) return { asked: { clause: single.lineOf(clauses) } };
  const { rows: inner, left: lines, isListed, marks } = isFirst ? withoutAround(plain) : { rows: plain, left: [] };
  const { rows: led, left: around } = isFirst ? ledRows(inner) : { rows: inner, left: [] };
  const { rows: parted, notes: counted, loose } = isFirst ? blockOf(led, { words: true }) : whole;
  const odd = loose ?? (isFirst ? noName(parted, clauses.length > 0) : undefined);
  if (odd !== undefined || saved) return { fault: saved ?? lineText(odd) };
  if (isProse(given) || (given.length === 1 && PROSE.test(pasted[0].join(", ")))) return { fault: SENTENCE };
  const said = [...(single ? withSingle(parted, single) : parted), ...own];
  const { rows: headed, left: titles } = isEstate ? headsFirst(said) : { rows: said, left: [] };
  const { rows, left } = unframed(headed), all = [above, lines, around, titles, left, clauses];
  const out = inOrder(all.flat(), given), told = [isParted && IN_LINE, marksText(marks), isListed && LISTED];
  return { given, rows, out, notes: [leftText([...out, ...pages, ...talk]), ...told, ...counted] };
}

/** What is told of the marks of notes. */
const marksText = (marks = []) => marks.length > 0
  && `The marks of notes were left out: ${marks.map((one) => `“${one}”`).join(", ")}.`;

/** Pasted rows for the `columns` from a cell on, of which `usual` go without saying: {rows, targets, headings, notes},
 * the rows below the headings, the column that each cell is for, and what has to be told. Or {fault}, in words; or
 * {asked}, if the user has to choose columns, or to say whether the first row has their `heads`, a name is `broken`
 * in two lines, or there are two quotas: then it is asked again with what was chosen (`said`). A row with the number
 * above the list (`single`) is none. */
export function sheetOf(pasted, columns, { mark, single, usual, isFirst = true, ...said }) {
  const bracket = single?.second && isFirst ? bracketVotes(pasted, columns) : undefined;
  if (bracket) return bracket;
  const { isHead, choice, out = [] } = said, table = tableIn(pasted, { single, isFirst });
  if (table.fault || table.asked) return table;
  const { rows: all, found: units, fault } = withoutUnits(table.rows.filter((row) => row.some(Boolean)), 1);
  if (fault) return { fault };
  const named = single ? singlesOf(all, single) : [], isTwo = columns.some(({ key }) => key === "second");
  const usually = columns.filter(({ optional }) => !optional), from = usually.findIndex((column) => column.number);
  const body = all.filter((row) => named.every((one) => one.row !== row));
  const title = isFirst ? titleOf(table.given, body, columns, isHead) : null;
  const rows = title ? body.slice(1) : body, headings = isHead === false || title ? null
    : headingsOf(rows, Math.max(0, from), mark) ?? knownHeads(rows, columns);
  const isLine = pasted.every((row) => row.filter(Boolean).length < 2); // and no row of cells
  const heads = isFirst && isHead === undefined && headings && unknownHeads(headings, rows, { columns, isLine });
  if (heads) return { asked: { heads } };
  if (headings && isAcross(rows, columns)) return { fault: "Here names stand side by side. Give each a row." };
  const isPair = Boolean(single?.second) && !isTwo && !said.isOne, how = { rows, mark, choice, out, units, isPair };
  const found = columnsFor(columns, headings, how), { targets, asked, isGuess } = found;
  if (asked) return { asked };
  const own = headings ? rows.slice(1) : rows, broken = isFirst && said.isBroken !== false ? brokenName(own) : null;
  if (broken && !said.isBroken) return { asked: { broken: broken.lines } };
  const below = broken ? mendedName(own, broken) : own, beside = besides(below, headings, targets, mark);
  const lost = widthFault(rows, headings, found, columns, out);
  if (lost && isPair && fitsSecond(rows, columns, { mark, single, units })) return { asked: { pair: [] } };
  if (lost) return { fault: lost };
  const singles = single?.second ? quotasOf(named, { targets, ...beside, isTwo, isOne: said.isOne }) : singleOf(named);
  if (singles.fault || singles.asked) return singles;
  const notes = [...table.notes, title && `The first line, “${withEscapes(title)}”, was taken as a heading.`,
    pastedText(rows, headings, targets, usual), unitsText(unitsOf(units, targets)),
    ...singlesText(singles, single, said), single?.tells?.(pasted)];
  const line = singles.number ? undefined : single?.lineOf?.(table.out);
  const head = headings?.[targets.findIndex((own) => own?.number && !own.short)], amounts = amountsIn(head, table.out);
  const isPercent = isOfHundred(title ?? table.out?.find(isScale), headings, targets, units);
  const asks = { isUnordered: isGuess, steps: targets.some((own) => own?.steps?.test(head ?? "")) ? head : undefined };
  return { rows: below, targets, headings, notes: notes.filter(Boolean), asks, line, amounts, ...beside,
    number: singles.number?.text, other: singles.other?.text, isPercent };
}

/** Texts in the order of the rows that they come from. */
function inOrder(texts, rows) {
  const places = new Map(rows.flatMap((row, k) => row.map((text) => [text, k])).reverse());
  const placeOf = (text) => places.get(text) ?? -1;
  return [...texts].sort((one, other) => placeOf(one) - placeOf(other));
}

/** Whether rows are as wide as a list with second votes. */
const fitsSecond = (rows, columns, { mark, single, units }) => {
  const isAmount = (text) => !readNumber((text ?? "").replace(/ ?%$/, ""), mark).fault;
  if (!rows.every(([name, ...others]) => /\p{L}/u.test(name) && others.every(isAmount))) return false;
  const all = [...columns, single.second.column], found = columnsFor(all, null, { rows, mark, units });
  return !found.asked && !widthFault(rows, null, found, all);
};

const unitsOf = (units, targets) => [...new Set([...units].filter(([c]) => targets[c]).map(([, unit]) => unit))];

/** Whether votes are in per cent. */
function isOfHundred(title, headings, targets, units) {
  const isOf = (column, c) => column?.number && column.key !== "second" // of the votes that a quota is a part of
    && (units.get(c) === "%" || /%/.test(headings?.[c] ?? ""));
  return /%|per ?cent|prozent/i.test(title ?? "") || targets.some(isOf);
}

/** What is told of numbers above the list that came with it. */
function singlesText({ number, other, left }, single, { amount }) {
  const become = (title) => (title ? `taken as ${title.toLowerCase()}` : "left out");
  const told = (one, title) => one && `“${one.word}”, ${one.text}, was ${become(title)}.`;
  const isTaken = (amount ?? number?.text) === number?.text;
  return [told(number, isTaken && single?.title), told(other, single?.second?.single.title), told(left)];
}

/** What is in columns that were left out: `spare` are those of numbers, and `beside` is the mark that they show. */
function besides(rows, headings, targets, mark) {
  const heads = (headings ?? []).map((head, c) => ({ head, c })).filter(({ head, c }) => head && !targets[c]);
  const spare = heads.filter(({ head, c }) => isSpare(rows.map((row) => row[c]), mark, head));
  return { spare, beside: shownIn(rows.flatMap((row) => row.filter((_, c) => !targets[c])), mark) };
}

/** The line of several words above names and numbers that was parted as they are, and has a word for one of the
 * `columns`, or of which somebody said that it is a heading: no heading of each; null if there is none. */
function titleOf(given, [first = []], columns, isHead) {
  const bare = (text) => text.replace(/\s+/g, ""), own = bare(first.join(""));
  const lines = given.map((row) => row.filter(Boolean));
  const line = lines.find(([text, other]) => text && !other && bare(text) === own)?.[0];
  const isTitle = first.length === 2 && first[1] && line && !/\d/.test(line);
  const isKnown = (text) => isKnownHead(text, columns);
  const isSure = () => isHead || (line.split(/\s+/).length > MOST_HEADS && first.some(isKnown));
  return isTitle && isSure() ? line : null;
}

/** Whether a column that was left out may be other votes: it has numbers, and no parts of a whole. */
const isSpare = (texts, mark, head) => !/%|per ?cent|prozent/i.test(head) && texts.some(Boolean)
  && texts.every((text) => !text || !readNumber(text, mark).fault);

/** The mark that texts show beyond doubt before decimals: {mark, text}; undefined where none does, or both. */
function shownIn(texts, mark) {
  const found = texts.map((text) => ({ text, mark: readNumber(text.replace(/ ?%$/, ""), mark).by }));
  const shown = found.filter((one) => one.mark), [first] = shown;
  return shown.every((one) => one.mark === first.mark) ? first : undefined;
}

/** A first row that may be a person as well as headings: no word of it is known, and one at most is above numbers. In
 * a table with two rows below, words that all begin alike, as "Namn" and "Belopp", and not "Ann" and "disputed", are
 * headings. */
function unknownHeads(headings, [, ...rows], { columns, isLine }) {
  const isAbove = (_, c) => rows.some((row) => /^\P{L}*\d/u.test(row[c] ?? ""));
  const isLower = (text) => /^\p{Ll}/u.test(text);
  const isKnown = headings.filter(isAbove).length > 1 || headings.some((text) => isKnownHead(text, columns));
  const words = headings.filter(Boolean), isAlike = words.every((text) => isLower(text) === isLower(words[0]));
  const isTable = !isLine && rows.length > 1 && words.length === headings.length && isAlike;
  return !isKnown && !isTable && words.join(isLine ? " " : "; ");
}

/** Whether names are the headings of one row of numbers. */
function isAcross([[, ...names], [first = "", ...numbers], ...others], columns) {
  const isAmount = (text) => !readNumber(text).fault, isOf = isAmount(first) || isKnownHead(first, columns);
  return !others.length && isOf && numbers.length > 1 && numbers.every(isAmount)
    && !names.some((text) => isKnownHead(text, columns));
}

const AMOUNT = /(?:^|\s)[(\p{Sc}]?\d[\d.,'’]*[%)\p{Sc}]*$|^\p{Sc}?\d[\d.,'’]*[%\p{Sc}]*(?=\s)/u;

/** The first of lines of one cell each that are no names: a sentence, or names with a number in front or behind that
 * isn't theirs, as theirs is in "Lot 1". `isOfText` says that sentences stood beside them. */
function noName(rows, isOfText) {
  const texts = rows.flatMap((row) => row.filter(Boolean)), found = texts.map((text) => AMOUNT.exec(text)?.[0]);
  if (rows.some((row) => row.filter(Boolean).length > 1)) return undefined;
  const names = new Set(texts.map((text) => text.replace(AMOUNT, ""))), isWord = (name) => /\p{L}/u.test(name);
  const isAll = names.size > 1 && found.every(Boolean) && [...names].every(isWord);
  const pair = texts.every((text) => /^\d\S*\s+\d\S*$/.test(text)) && texts.find((text) => readNumber(text).fault);
  const unitOf = (text) => /\s\d[\d.,]*\s(\p{L}{2,5})\.?$|\s\d+[.,]\d+\s(\p{L})$/u.exec(text)?.slice(1).find(Boolean);
  const own = texts.filter(unitOf), isUnit = own.length * 2 > texts.length && new Set(own.map(unitOf)).size === 1;
  if (texts.length > 1 && (pair || isUnit)) return pair || own[0];
  const isCount = found.every((text, k) => Number(text) === k + 1);
  const isNoName = (text) => text.length > MOST_NAME || ((texts.length > 1 || isOfText) && !isBareName(text));
  return texts.find(isNoName) ?? (isAll && !isCount ? texts[0] : undefined);
}
