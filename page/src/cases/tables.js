// Cases that are a table: a cost or a gain of each group of at most 16 players.
import { readNumber, typedText } from "../exact/decimals.js";
import { mostOf } from "../game/classes.js";
import { maskOf, masksBySize, membersOf } from "../game/groups.js";
import { withEscapes } from "../game/names.js";
import { listed } from "../game/words.js";
import { withAllLine, withoutPartHeads, withoutTitles } from "./between.js";
import { blockOf, looseText } from "./block.js";
import { filledGroups } from "./filled-cells.js";
import { FORM, headingText, pairsOf } from "./group-columns.js";
import { inOtherWords, membersIn } from "./group-words.js";
import { joinedMembers } from "./member-marks.js";
import { AS_PARTS, isLedger } from "./ledger.js";
import { rowsOf } from "./lists.js";
import { oddsOf } from "./odds.js";
import { fromPairs } from "./pair-squares.js";
import { UNKNOWN } from "./columns.js";
import { leftText, unframed } from "./frames.js";
import { withoutPages } from "./page-lines.js";
import { cellsOf } from "./pasting.js";
import { apartText, missingText, sparseText } from "./odd-groups.js";
import { otherCase, TABLES, takenTo } from "./other-case.js";
import { Reading } from "./reading.js";
import { answerFault } from "./saved-tables.js";
import { areAllGroups } from "./short-groups.js";
import { isSentence, spokenGroups } from "./spoken-groups.js";
import { textbookRows } from "./textbook.js";
import { unitsText, withoutUnits } from "./units.js";
import { groupsOfParts, partsElsewhere, tableOfParts, usedParts } from "./used-parts.js";
import { headingOf, manyBelow, numbersIn, vectorOf } from "./vectors.js";

const ADVICE = " Write a line for each group, its members and its number, such as “Tigers 480” and “Tigers + Rovers "
  + "640”.";
export const AS_GROUPS = "No, each line is a group with its own cost";
const SEVERAL_IN = /\d(?:[,;]| \/) .*\p{L}.* \S*\d\S*$/u; // several groups in a line
const MOST_BY_NAME = 6; // above, the document lists numbers alone: it would be too long by names
const MOST_PLAYERS = mostOf("table");
const MOST_SPARSE = 4; // players of whose groups most may be empty
const MOST_LETTERS = 4000; // of a group with all its names
const MOST_SHOWN = 60; // of a sentence that is quoted

/** A table as it goes to a worker and back: one text is copied faster than 65,536. */
export function packed({ names, numbers, opened, isUnnamed, filled, amounts }) {
  const ofDocument = { ...(opened && { opened }), ...(isUnnamed && { isUnnamed }) }; // what is said of its names
  const ofCells = { ...(filled?.length && { filled }), ...(amounts && { amounts }) };
  return { names, numbers: Array.from(numbers, (text) => text ?? "").join("\n"), ...ofDocument, ...ofCells };
}

export function unpacked({ numbers, ...others }) {
  return { ...others, numbers: typeof numbers === "string" ? numbers.split("\n") : numbers };
}

const OF_A_TABLE = {
  unit: "group",
  isTable: true,
  grid: "table",
  filled: filledGroups,
  most: MOST_PLAYERS,
  empty: () => ({ names: ["", "", ""], numbers: Array(8).fill("") }),
  pack: packed,
  unpack: unpacked,
  labelOf: ({ names }, mask) => groupLabel(names, Number(mask)),
  mapNumbers: (typed, change) => ({
    ...typed, numbers: typed.numbers.map((text, mask) => (mask ? change(text) : text)),
  }),
};

function tableCase(settings) {
  return {
    ...settings,
    ...OF_A_TABLE,

    read(sent, mark) {
      const state = unpacked(sent);
      const reading = new Reading(mark, state), n = state.names.length, order = masksBySize(n);
      const names = reading.names(state.names.map((typed, i) => ({ typed, cell: `names.${i}` })), "Player");
      const values = Array(2 ** n), filled = new Set(state.filled);
      for (const mask of order) {
        const settled = { canBeNegative: true, isFilled: filled.has(mask) };
        values[mask] = reading.number(`numbers.${mask}`, state.numbers[mask] ?? "", settings.what, settled);
      }
      reading.close();
      const rows = rowsOf(names), isFit = Boolean(reading.version); // of others no remark is exact, and some take long
      const given = isFit ? values.map((value) => value ?? undefined) : [];
      const isGiven = (mask) => !filled.has(mask), nameOf = (mask) => groupLabel(names, mask);
      reading.odds = oddsOf(given, n, { isCost: settings.isCost, nameOf, isGiven })
        .map(({ mask, sentence }) => ({ cell: `numbers.${mask}`, sentence, mask }));
      if (!reading.isRight()) return { reading, rows, tree: {} };
      const named = reading.named(names, state.names), member = (i) => named.names?.[i] ?? BigInt(i + 1);
      const item = (mask) => [membersOf(mask).map(member), values[mask].toDocument()];
      const numbers = n <= MOST_BY_NAME
        ? { sparse: order.map(item) }
        : { worths: values.slice(1).map((value) => value.toDocument()) };
      const tree = { class: settings.classes[0], ...reading.version, ...named, players: BigInt(n), ...numbers };
      return { reading, rows, tree };
    },

    fromGame: (game) => ({
      names: game.names.map((name) => (game.named ? name : "")),
      numbers: game.amounts.map((amount, mask) => (mask ? typedText(amount) : "")),
    }),
  };
}

export const costs = tableCase({
  id: "costs",
  classes: ["cost-table"],
  title: TABLES.costs,
  teaser: "Partners share a cost. What would each group spend without the others?",
  what: "The cost",
  isCost: true,
  help: "What would each group cost by itself?",
  example: () => exampleOf(["Sales", "Ops", "Legal"], [8, 7.5, 6, 10, 10, 10.25, 12]),
});

export const gains = tableCase({
  id: "gains",
  classes: ["table"],
  title: TABLES.gains,
  teaser: "Partners earn or save together. What could each group do without the others?",
  what: "The gain",
  help: "What could each group gain by itself?",
  example: () => exampleOf(["singer", "pianist", "drummer"], [20, 30, 0, 80, 50, 65, 120]),
});

function exampleOf(names, values) {
  const numbers = Array(2 ** names.length).fill("");
  masksBySize(names.length).forEach((mask, k) => (numbers[mask] = String(values[k])));
  return { names, numbers };
}

/** The table with one more player, the last: the numbers of groups without it stay. */
export function withPlayer(state) {
  const numbers = [...state.numbers, ...Array(2 ** state.names.length).fill("")];
  return { names: [...state.names, ""], numbers };
}

/** The table without a player: the numbers of groups with it go, and those that were filled are so still. */
export function withoutPlayer(state, player) {
  const names = state.names.filter((_, i) => i !== player), low = 2 ** player - 1;
  const numbers = Array.from({ length: 2 ** names.length }, (_, mask) => {
    return state.numbers[(mask & low) | ((mask & ~low) << 1)] ?? "";
  });
  const kept = (state.filled ?? []).filter((mask) => !((mask >> player) & 1));
  return { names, numbers, filled: kept.map((mask) => (mask & low) | ((mask >> 1) & ~low)) };
}

/** A table from a pasted text: lines of a group, with + between its members, and its number; or numbers alone, in the
 * order of the masks or by size: {state}, or {fault} in words; or {asked, players}, a line that may be the group of
 * all: then it is read again with what was said of it (`roles`). A {fault} may have a `way` on, a title and what then
 * is said (`isZeroAlone`, `isSparse`). `told` says how it was read, `remark` what was left out. */
export function tableOf(text, names = [], order = "size", mark = ".", said = {}) {
  const book = textbookRows(text), { rows: pasted, pages } = withoutPages(book?.rows ?? cellsOf(text));
  const saved = answerFault(pasted), headless = book || saved ? null : withoutPartHeads(withAllLine(pasted));
  const { cells, left: out } = headless ?? { cells: pasted, left: book?.left ?? [] }, left = [...out, ...pages];
  const block = blockOf(cells, { canBeNegative: true, words: true }), framed = unframed(block.rows), { rows } = framed;
  const others = () => tableOf(text, names, order, mark, { ...said, isParts: false });
  const ofParts = saved || book ? undefined : partsRead(cells, mark, said, others);
  if (ofParts) return ofParts;
  const spoken = saved || book ? null : spokenGroups(text, said.isCost);
  if (spoken) return spokenTable(spoken, { ...said, mark, cells });
  if (block.loose || saved) return { fault: saved ?? looseFault(block.loose) };
  const kept = rows.filter((row) => row.some(Boolean));
  const own = joinedMembers(kept), marked = own.rows === kept ? fromPairs(kept) : own;
  const joined = groupsFirst(marked.rows);
  const isList = joined !== kept || isGroups(kept);
  const found = isList ? {} : vectorIn(text, names, order, mark);
  if (found.state || found.isAll) return found;
  const { rows: bare, units = [], fault = found.many } = withoutUnits(joined, 1);
  if (fault || !kept.length) return { fault: fault || "There is nothing in this list." };
  const told = [leftText([...framed.left, ...left]), ...block.notes, marked.told, unitsText(units)].filter(Boolean)
    .map((words) => ` ${words}`).join("");
  const plain = told && !isList ? vectorIn(bare.map((row) => row.join("\t")).join("\n"), names, order, mark) : {};
  const lineOf = (k) => book?.lines[block.lines[k] - 1] ?? block.lines[k];
  const places = new Map(block.rows.map((row, k) => [row, lineOf(k)])), all = kept.map((row) => places.get(row));
  const lines = marked.from?.map((k) => all[k]) ?? all;
  const isVector = plain.state || plain.isAll || plain.many;
  const more = { mark, cells, titles: [...framed.left, ...left], ...said };
  const read = isVector ? { ...plain, fault: plain.fault ?? plain.many } : listOf(bare, lines, more);
  return read.state ? { ...read, remark: told + read.remark } : read;
}

/** Whether one line may be of several groups, and nothing for one cell. */
export const hasGroups = ([[text]]) => isSentence(text) || textbookRows(text) !== null;

const withBlank = (text) => text && ` ${text}`;

/** Why a line of which nobody can part the name from the number isn't taken. */
const looseFault = (line) => looseText(line) + (/\d/.test(line) && !isSentence(line) ? "" : ADVICE);

/** What comes of sentences that name groups: what was read is asked about, until somebody said that it `isSpoken`. */
function spokenTable({ rows, lines, left, odd }, { isSpoken, ...said }) {
  if (isSpoken === false) return { fault: ADVICE.trim() };
  if (odd) {
    const short = withEscapes(odd.text.slice(0, MOST_SHOWN)) + (odd.text.length > MOST_SHOWN ? " …" : "");
    return { fault: `Line ${odd.line}: “${short}” doesn’t say for sure which group each amount is of.${ADVICE}` };
  }
  const read = listOf(rows, lines, said);
  if (!read.state) return read;
  if (!isSpoken) {
    const told = rows.map(([group, number]) => withEscapes(`${group.replaceAll("+", " + ")} ${number}`)).join("; ");
    return { fault: `Read as: ${told}. Is it meant so?`, ways: [["Yes, take it", { isSpoken: true }],
      ["No", { isSpoken: false }]] };
  }
  return { ...read, remark: withBlank(leftText(left)) + read.remark };
}

const LEDGER = `These lines say who paid, and not for sure who uses what. ${AS_PARTS}`;
const isRefused = ({ fault, way, ways }) => Boolean(fault) && !way && !ways;

/** What comes of parts with who uses each: {users} are asked about, until somebody said what they are (`isParts`, or
 * `isGroups`); nothing of another text. What can't be read is told at once, with the ways on: as groups, or as another
 * list, where `others()` reads it. */
function partsRead(cells, mark, { isCost, isParts, isGroups, column, by }, others) {
  const elsewhere = isCost ? undefined : partsElsewhere(cells);
  if (!isCost) return elsewhere && { fault: elsewhere, way: takenTo("costs") };
  const found = isParts === false ? null : usedParts(cells, { mark, column });
  if (!found) return isParts === undefined && isLedger(cells) && isRefused(others()) ? { fault: LEDGER } : undefined;
  const groups = isGroups || found.isGroups ? groupsOf(found, { mark, cells, isCost }) : undefined;
  if (isGroups) return groups;
  const made = partsMade(found, { mark, by }), isOfGroups = Boolean(groups && !groups.fault);
  if (isParts) return made;
  if (!made.fault) return { users: found.names, isGroups: isOfGroups };
  const ways = [isOfGroups && [AS_GROUPS, { isParts: true, isGroups: true }],
    !isRefused(others()) && ["They are no such parts", { isParts: false }]].filter(Boolean);
  return { fault: made.fault, ways: ways.length ? ways : undefined };
}

/** The table of groups of parts, or what is wrong or asked; a doubt only where one of both readings is right. */
function partsMade(found, { mark, by }) {
  if (found.fault || found.columns) return { fault: found.fault, columns: found.columns };
  const made = tableOfParts(found, { mark, by });
  const both = made.doubt ? [".", ","].map((one) => tableOfParts(found, { mark, by: one })) : [];
  return both.length && both.every(({ fault }) => fault) ? both[0] : made;
}

/** The lines of parts as groups, each with its own cost. */
function groupsOf(found, said) {
  if (found.fault || found.columns) return { fault: found.fault, columns: found.columns };
  const read = listOf(groupsOfParts(found), found.parts.map((_, k) => k + 1), said);
  return read.state ? { ...read, remark: found.remark + read.remark } : read;
}

/** A table of numbers alone in a text, below a heading or without: {state}; or {fault}, with `isAll` where nothing else
 * is there, and with `many` where rows have a game each. */
function vectorIn(text, names, order, mark) {
  const all = numbersIn(text), heading = all ? null : headingOf(text), cells = cellsOf(text);
  const rows = all ?? (heading === null ? null : numbersIn(text.trimStart().slice(heading.length)));
  const many = cells.length > 1 && manyBelow(rows ? [[], ...rows] : cells.filter((row) => row.some(Boolean)));
  if (!rows || many) return { many: many || undefined };
  const isTable = /[\t;]/.test(text) && rows.length > 1 && rows[0].length > 1;
  if (isTable) return all ? { isAll: true, fault: SEVERAL } : {};
  const found = ofNumbers(rows, names, order, mark);
  return all ? { ...found, isAll: true } : { ...found, remark: headingText(heading) + found.remark };
}

const SEVERAL = "These lines have several numbers. Give lines of a group and its number, or one number a line.";

/** Whether groups of players who are numbers stand in front: one has several of them, or braces. */
function isGroups(rows) {
  const isGroup = ([group]) => /^[{([]?\d+(\W{1,3}\d+)*[)}\]]?$/.test(group);
  const isAll = rows.length > 2 && rows.every((row) => row.length === 2 && isGroup(row));
  return isAll && (rows.some(([group]) => /\D/.test(group)) || areAllGroups(rows.map(([group]) => group)));
}

/** A table of numbers alone, as other programs have it. */
function ofNumbers(rows, named, order, mark) {
  const { numbers, n, fault, hasNobody } = vectorOf(rows);
  if (fault) return { fault };
  const names = Array.from({ length: n }, (_, i) => named[i] ?? "");
  const numbersBy = (masks) => masks.reduce((placed, mask, k) => {
    placed[mask] = numbers[k];
    return placed;
  }, Array(2 ** n).fill(""));
  const orders = { size: masksBySize(n), mask: numbers.map((_, k) => k + 1) }, masks = orders[order];
  const state = { names, numbers: numbersBy(masks) }, other = order === "size" ? "mask" : "size";
  const values = (texts) => texts.map((one) => readNumber(one, mark).value?.toNumber() ?? 0);
  const told = { order, place: 0, number: "", mask: 0 };
  const place = n > 2 ? masks.findIndex((mask) => mask & (mask - 1)) : -1;
  const before = hasNobody ? 2 : 1; // places are counted from 1, with that of the group of nobody
  if (place >= 0) Object.assign(told, { place: place + before, number: numbers[place], mask: masks[place] });
  const isOdd = place >= 0 && drops(values(state.numbers)) > 0 && drops(values(numbersBy(orders[other]))) === 0;
  const remark = hasNobody ? ` Number 1, ${rows.flat()[0]}, was left out, as that of the group of nobody.` : "";
  return { state, told, isOdd, remark };
}

/** How many groups have a lesser number than the same group without a member. */
function drops(values) {
  let count = 0;
  for (let mask = 1; mask < values.length; mask++) {
    for (let bit = 1; bit < values.length; bit *= 2) if (mask & bit && values[mask] < values[mask & ~bit]) count += 1;
  }
  return count;
}

/** Rows whose groups stand behind a column of numbers, with the groups first; others as they are. */
function groupsFirst(rows) {
  const [heads = [], ...below] = rows, isNumber = (text = "") => text !== "" && !readNumber(text).fault;
  const at = heads.findIndex((_, c) => c && below.every((row) => /\p{L}/u.test(row[c] ?? "") && !isNumber(row[c])));
  const isOf = below.length > 1 && at > 0 && below.every(([first]) => isNumber(first));
  return isOf ? rows.map((row) => [row[at], ...row.slice(0, at), ...row.slice(at + 1)]) : rows;
}

/** A table of rows of a group and its number; `allLines` are the numbers of their lines. */
function listOf(given, allLines, { mark, roles, column, cells, titles = [], ...said }) {
  const pairs = pairsOf(given, allLines, { mark, column, cells, titles, isCost: said.isCost });
  const { fault, columns, amounts } = pairs;
  if (fault || columns) return { fault, columns };
  const { rows, lines, left } = withoutTitles(pairs), lineOf = (k) => `Line ${lines[k]}: `;
  const other = said.isHere ? undefined : otherCase([pairs.title, ...titles.slice(0, 1), ...left], said.isCost);
  if (other) return other;
  if (!rows.some(([, number = ""]) => /\d/.test(number))) {
    const texts = rows.map(([group, number]) => withEscapes((number || group).slice(0, 40)));
    const k = Math.max(0, texts.findIndex((text) => readNumber(text).fault));
    return { fault: `${lineOf(k)}“${texts[k]}” is no number, and no group has one beside it.${ADVICE}` };
  }
  const isPair = ([group, number = "", ...more]) => group && !more.some(Boolean) && !readNumber(number).fault;
  const several = rows.findIndex((row) => SEVERAL_IN.test(row.filter(Boolean).join(isPair(row) ? " " : "; ")));
  if (several >= 0) {
    const text = withEscapes(rows[several].filter(Boolean).join(" ")).slice(0, 60);
    return { fault: `${lineOf(several)}A line has one group and its number; here are more: “${text}”. ${FORM}` };
  }
  const long = rows.findIndex(([group]) => group.length > MOST_LETTERS);
  if (long >= 0) return { fault: `${lineOf(long)}A group of ${rows[long][0].length} letters is none.` };
  const open = new Set(), read = rows.map(([group, number = ""], r) => {
    if (UNKNOWN.test(number)) open.add(number);
    return { members: membersIn(group), number: UNKNOWN.test(number) ? "" : number, line: lineOf(r) };
  });
  const unknown = open.size ? ` A cell with ${listed([...open].map((text) => `“${text}”`))} is empty.` : "";
  const found = inOtherWords(read, { roles, isRun: said.isRun });
  const table = found.read ? placedList(found.read, { ...said, roles }) : found;
  const state = table.state && { ...table.state, ...(amounts && { amounts }) };
  return state ? { ...table, state, remark: pairs.told + withBlank(leftText(left)) + found.told + unknown } : table;
}

/** The table of lines of groups: {state}, or {fault} in words; with a `way` on if lines of players alone lack, until
 * somebody says that each gains 0 (`isZeroAlone`), and if hardly any group has a number, until that is meant
 * (`isSparse`). */
function placedList(read, { isZeroAlone, isSparse, isPlayer, isCost, roles } = {}) {
  const given = new Set(read.filter(({ members }) => members.length === 1).map(({ members }) => members[0]));
  const missing = [...new Set(read.flatMap(({ members }) => members))].filter((name) => !given.has(name));
  const own = isZeroAlone ? missing.map((name) => ({ members: [name], number: "0" })) : [], all = [...own, ...read];
  const names = [...(isZeroAlone ? missing : []), ...given];
  if (missing.length && !isZeroAlone) return missingText(missing, read, isCost);
  if (!names.length) return { fault: "There is no line of a player alone. A group is its members with + between." };
  if (names.length > MOST_PLAYERS) {
    return { fault: `These are ${names.length} players, and a table has at most ${MOST_PLAYERS}. A group of several is `
      + "its members with + between, as Sales+Ops." };
  }
  const isBare = names.length === read.length && Number.isInteger(Math.log2(names.length + 1));
  const joint = isBare && names.find((one) => names.filter((other) => one.includes(other)).length > 2);
  if (joint) return { fault: `Is “${withEscapes(joint)}” a group? Then put + between its members.` };
  const { numbers, fault } = numbersOf(all, names), count = numbers?.filter((text, mask) => mask && text === "").length;
  const isOdd = names.length > MOST_SPARSE && count * 2 >= 2 ** names.length && !isSparse
    && !read.some(({ members }) => members.length === 2);
  if (fault) return { fault };
  const apart = isPlayer ? undefined : apartText(numbers, names, roles);
  if (apart) return apart;
  return isOdd ? sparseText(names, count) : { state: { names, numbers } };
}

/** The numbers of groups by their masks: {numbers}, or {fault}. */
function numbersOf(read, names) {
  const numbers = Array(2 ** names.length).fill(""), places = new Map(names.map((name, i) => [name, i]));
  for (const { members, number, line } of read) {
    const mask = maskOf(members.map((member) => places.get(member))), group = withEscapes(members.join(" + "));
    if (membersOf(mask).length < members.length) return { fault: `${line}${group}: a member occurs twice.` };
    if (numbers[mask] !== "") return { fault: `${line}${group} occurs twice. Leave one of the lines.` };
    numbers[mask] = number;
  }
  return { numbers };
}

export function groupLabel(names, mask) {
  return membersOf(mask).map((i) => withEscapes(names[i].trim()) || `Player ${i + 1}`).join(" + ");
}
