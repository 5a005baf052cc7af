// Parts of one work, pasted each with its cost and who uses it: in brackets behind, in a column, or by marks below
// names. A group by itself pays the parts that somebody of it uses.
import { moneyText, quotedText, readNumber, readTogether } from "../exact/decimals.js";
import { otherMark } from "../exact/marks.js";
import { lcm, Rational } from "../exact/rational.js";
import { writtenAs } from "../exact/styles.js";
import { isSumWord, withEscapes } from "../game/names.js";
import { listed, plural } from "../game/words.js";
import { countIn, isAllWord } from "./all-together.js";
import { blockOf, isText } from "./block.js";
import { leftText, unframed } from "./frames.js";
import { pairsOf } from "./group-columns.js";
import { joinedOf, membersIn, NOBODY } from "./group-words.js";
import { AS_PARTS, isPaying, paidIn, payersText, peopleOf, withoutDays } from "./ledger.js";
import { IN, isMark } from "./member-marks.js";
import { headingsOf } from "./pasting.js";
import { parted, unitsText, withoutUnits } from "./units.js";

const MOST_LETTERS = 600; // of a line
const MOST_USERS = 16, MOST_PARTS = 500, MOST_COLUMNS = 40;
const USED_BY = "(?:used|needed|shared|served) by|serves|users?:?|genutzt von|nutz(?:t|en|er):?|utilisée? par";
const BY = `${USED_BY}|for|für|pour`;
const MONEY_PLACES = 2; // they show a mark that somebody said
const MONEY = "(?:[\\p{Sc}A-Z]{1,3}\\s?)?\\d"; // as a number begins
const BEHIND = new RegExp(`^(.{0,300}?\\d[^()]{0,40}?)\\s*(?:[,;–—-]\\s*)?(?:\\((?:(?:${BY})\\s+)?([^()]{1,300})\\)`
  + `|(?:${BY})\\s+([^()]{1,300}?)|:\\s*([^()\\d:]{1,300}?))[.;,]?$`, "iu");
const BEFORE = new RegExp("^([^():]{1,200}?)\\s*(?:\\("
  + `(?:(?:${BY})\\s+)?([^()]{1,300})\\)|[,;–—-]\\s*(?:${BY})\\s+([^():]{1,300}?))`
  + `\\s*(?:[:=–—]|\\s-\\s|\\s)\\s*(${MONEY}[^():]{0,30})$`, "iu");
const SUM = new RegExp(`^(\\D{1,60}?)[\\s:=]+(${MONEY}.{0,30})$`, "iu");
const WORDED = new RegExp(`(?<!\\p{L})(?:${USED_BY})\\s`, "iu");
const SURE = new RegExp(`^(?!user$)(?:${USED_BY})$`, "iu"); // “User” is above the names of a runway
const USERS = new RegExp(`^(?:${BY}|who|wer|qui|wem|(?:used|needed|shared|served)|(?:who|that|wer|qui) \\p{L}+(?: it)?|`
  + "beneficiar\\p{L}*|partners?|members?|part(?:y|ies)|participants?|benutzer|nutznießer|usagers?|utilisateurs?"
  + "|bénéficiaires?|mitglieder|beteiligte)$", "iu");
const FIRM = "(?:[Ss](?:ons?|öhne|ohn)|[Cc]o(?:mpany)?|[Cc]ie|[Pp]artners?|[Ff]ils|[Bb]ro(?:ther)?s|[Aa]ssociates)";
const LIST = new RegExp("\\s*(?:[,/+]|(?:&|(?<!\\p{L})(?:and|und|et|y|e|en|sowie)(?!\\p{L}))"
  + `(?!\\s*${FIRM}(?!\\p{L})))\\s*`, "u"); // and no "Kim & Sons"
const SOMEBODY = /^(?:us|we|me|myself|him|her|them|(?:him|her|it)self|(?:our|them)selves|uns|mich|nous|moi)$/u;
const FOR = /^(?:for|für|pour)\s+/iu;
const COUNTED = /^\d[\d.,'’]*(?:\s?[x×]|$)/u; // no name: how often
const EXCEPT = /(?<!\p{L})(?:except|but|without|not|else|others?|rest|außer|ohne|sauf|nicht)(?!\p{L})/iu;
const ALL = /^(?:(?:[Aa]ll|ALL|[Tt]ous|[Tt]outes)(?: (?:the |les )?\p{Ll}+)?|[Aa]lle(?: \p{L}+)?)$/u; // no "All Saints"

const quoted = (name) => `“${withEscapes(name)}”`;
const isAll = (text) => isAllWord(text) || ALL.test(text);

/** The users in a cell; those between semicolons may have commas. "for" may be before the first, or before each. */
function usersIn(text) {
  const names = text.split(text.includes(";") ? /\s*;\s*/ : LIST).map((one) => one.trim());
  const [first, ...others] = names.filter((name) => !NOBODY.test(name));
  const isEach = others.every((name) => FOR.test(name)), bare = (name) => name.replace(FOR, "");
  return first === undefined ? [] : [bare(first), ...(isEach ? others.map(bare) : others)];
}

/** Whether lists are of users: some names several or all, and some name is in two of them or somebody `said` so. */
function areUsers(lists, said = false) {
  if (lists.length && lists.every(([one = ""]) => COUNTED.test(one))) return false; // "120/yr"
  const all = lists.flat().filter((one) => !isAll(one)), hasAll = lists.some((list) => list.some(isAll));
  const hasSeveral = hasAll || lists.some(({ length }) => length > 1);
  return hasSeveral && (said || (lists.length > 1 && (hasAll || new Set(all).size < all.length)));
}

/** The parts in pasted cells: {parts, names}, each with its name, cost, users and line; `sums` are lines of a sum. The
 * `remark` has what was left out; `isSaid` tells that words call them users, and `isSure` that these or brackets behind
 * the costs do. Or {fault}, or the {columns} of which one is the cost. Null for another text. */
export function usedParts(pasted, said) {
  if (pasted.length > MOST_PARTS || pasted.some(({ length }) => length > MOST_COLUMNS)) return null;
  const { rows, told } = withoutDays(pasted), bare = partsIn(rows, said, told);
  return told && (!bare || bare.fault) ? partsIn(pasted, said) ?? bare : bare; // "1 May Street"
}

/** The parts in cells, of which `days` are told to be left out. */
function partsIn(cells, { mark = ".", column } = {}, days) {
  const found = besideCosts(cells) ?? inColumn(cells, mark) ?? byMarks(cells);
  if (!found) return null;
  const { rows: bare, units = [], fault: several } = withoutUnits(found.rows, 1);
  const pairs = pairsOf(bare, found.lines, { mark, column, cells, titles: found.left }), { rows = [], lines } = pairs;
  const all = rows.map(([name, cost], k) => {
    return { name, cost, users: found.users.at(k - rows.length), line: `Line ${lines[k]}: ` };
  });
  const parts = all.filter(({ name }) => !isSumWord(name)), sums = all.filter((part) => !parts.includes(part));
  if (!found.isSaid && areGroups(parts.map(({ name }) => name))) return null;
  const below = found.rows.slice(-found.users.length), lists = found.users.filter((list, k) => {
    return list.length > 0 && !isSumWord(below[k][0]);
  });
  const named = new Set(lists.flat().filter((one) => !isAll(one) && !EXCEPT.test(one))), names = [...named];
  const { payers = [] } = found;
  const told = [days, payersText(payers), leftText(found.left), ...found.notes, unitsText(units)].filter(Boolean)
    .map((words) => ` ${words}`);
  const isOwn = (name) => lists.some(([one, other]) => one === name && !other), kinds = lists.map((list) => {
    return [...list].sort().join("\n");
  });
  const isGroups = names.every(isOwn) && new Set(kinds).size === lists.length;
  const fault = several ?? paidFault(found, names, cells) ?? pairs.fault ?? faultOf(parts, names);
  const remark = told.join("") + (pairs.told ?? "");
  return { ...found, parts, sums, names, remark, fault, columns: pairs.columns, amounts: pairs.amounts, isGroups };
}

/** Whether some of the names are groups of others. */
function areGroups(names) {
  const all = new Set(names), isOf = (some = []) => some.length > 1 && some.every((one) => all.has(one));
  return names.some((name) => isOf(membersIn(name)) || isOf(joinedOf(name, all)));
}

/** Why lines that say who paid can't be taken: `taken` are those that were read so. */
function paidFault({ taken = [], payers = [], users }, names, cells) {
  const odd = cells.findIndex((row, k) => isPaying(row) && !taken.includes(k + 1));
  if (odd >= 0) return `Line ${odd + 1} says who paid, in words that can’t be read for sure. ${AS_PARTS}`;
  const other = users.some((list) => list.some(isAll)) && peopleOf(payers).find((one) => !names.includes(one));
  return other ? `${quoted(other)} paid, and isn’t named as somebody who uses a part. Is that one of all? Write the `
    + "names of all." : undefined;
}

/** Why parts can't be taken. */
function faultOf(parts, names) {
  const find = (is) => parts.find(is), isOther = (one) => countIn(one) !== undefined && countIn(one) !== names.length;
  const isOdd = (one) => [EXCEPT, FOR, SOMEBODY].some((words) => words.test(one)) || (isAll(one) && isOther(one));
  const nobody = find(({ users }) => !users?.length), free = find(({ cost }) => !/\d/.test(cost));
  const odd = find(({ users = [] }) => users.some(isOdd));
  if (nobody) return `${nobody.line}Nobody uses ${quoted(nobody.name)}. Write who does, or leave that line out.`;
  const all = find(({ name }) => isAllWord(name));
  if (all) return `${all.line}${quoted(all.name)} is no part, but all together. Leave that line out.`;
  if (free) return `${free.line}${quoted(free.name)} has no cost${/\d/.test(free.name)
    ? ` apart from its name. ${AS_PARTS}` : ". Write it, or leave that line out."}`;
  if (odd) return `${odd.line}${quoted(odd.users.join(", "))} doesn’t say who uses it. Write their names.`;
  return names.length > MOST_USERS
    ? `These are ${names.length} users, and a table has at most ${MOST_USERS} players.` : undefined;
}

/** Lines of a part, its cost, and who uses it in brackets, behind "used by" or a colon; or these before the cost. */
function besideCosts(pasted) {
  for (const tailOf of [behind, before]) {
    const whole = pasted.map((row, k) => ({ row, line: k + 1, tail: tailOf(row) }));
    const own = whole.filter(({ tail }) => tail), called = own.map(({ tail }) => tail.cells.slice(0, -1).join());
    const worded = own.some(({ row }) => row.some((text) => text.length <= MOST_LETTERS && WORDED.test(text)));
    const paid = own.filter(({ tail }) => tail.payer), isApart = new Set(called).size === called.length;
    if (!areUsers(own.map(({ tail }) => tail.users)) || (tailOf === before && !isApart)) continue;
    const isOf = ({ row, tail, line }) => tail || (line > own[0].line && row.some((text) => /\d/.test(text)));
    const kept = whole.filter(isOf), left = whole.filter((one) => !isOf(one)).map(({ row }) => row.join(" ").trim());
    const cells = kept.map(({ row, tail }) => tail?.cells ?? (tailOf === before ? sumIn(row) : row));
    const { rows, lines, notes, loose } = blockOf(cells, { words: true });
    if (loose) continue;
    return {
      rows, notes, left: left.filter(Boolean), users: lines.map((line) => kept[line - 1].tail?.users ?? []),
      lines: lines.map((line) => kept[line - 1].line), payers: paid.map(({ tail }) => tail.payer),
      taken: paid.map(({ line }) => line), isSure: worded || tailOf === behind, isSaid: worded,
    };
  }
  return null;
}

/** The users behind a number, with the cells before them; they may have cells of their own. */
function behind(row) {
  const numeric = row.map((text, c) => (/\d/.test(text) ? c : -1)).filter((c) => c >= 0).reverse();
  return numeric.map((c) => tailIn(row.slice(0, c), row.slice(c).filter(Boolean))).find(Boolean) ?? null;
}

/** The users behind a number in the first of some texts, with the cells that are before it. */
function tailIn(cells, texts) {
  const text = texts.join(", "), paid = cells.some(Boolean) ? null : paidIn(text);
  if (paid) return { ...paid, users: usersIn(paid.users) };
  const [, head = "", ...some] = (text.length <= MOST_LETTERS && BEHIND.exec(text)) || [], users = some.find(Boolean);
  const isOf = users !== undefined && head.length <= texts[0].length;
  return isOf ? { cells: [...cells, head], users: usersIn(users) } : null;
}

/** The users between a name and its number, with both. */
function before(row) {
  const cells = row.filter(Boolean), text = cells.join(": ");
  const [, name, inside, by, number] = (cells.length < 3 && text.length <= MOST_LETTERS && BEFORE.exec(text)) || [];
  return number === undefined ? null : { cells: [name, number], users: usersIn(inside ?? by) };
}

/** The word and the number of a line of a sum; another row as it is. */
function sumIn(row) {
  const [, name, number] = SUM.exec(row.filter(Boolean).join(": ").slice(0, MOST_LETTERS)) ?? [];
  return name && isSumWord(name) ? [name, number] : row;
}

/** A table with a column of users, beside one of names and one of numbers; users may have a cell each. Without a
 * heading that says so, no part has the name of another, or of users. */
function inColumn(pasted, mark) {
  const { rows, left, lines, notes, loose } = tableIn(pasted), headings = headingsOf(rows, 1, mark);
  const below = headings ? rows.slice(1) : rows, parts = below.filter(([name]) => !isSumWord(name ?? ""));
  const columns = Array.from({ length: Math.max(0, ...rows.map(({ length }) => length)) }, (_, c) => c);
  const isWords = (c) => parts.every(({ [c]: text = "" }) => isText(text) && !parted(text));
  const isCalled = (c) => USERS.test(headings?.[c] ?? "");
  const listsAt = (c) => below.map((row) => cellsAt(row, c, headings).flatMap(usersIn));
  const isSaid = (c) => SURE.test(headings?.[c] ?? "");
  const isMarks = (c) => parts.every((row) => isMark(row[c]));
  const isOf = (c) => (c > 0 || isSaid(c)) && !isMarks(c)
    && areUsers(listsAt(c).filter(({ length }) => length), isSaid(c));
  const named = columns.find((c) => isCalled(c) && isOf(c)), at = named ?? columns.find((c) => isWords(c) && isOf(c));
  const isLabel = (c) => parts.every((row) => isText(row[c] ?? ""));
  const own = columns.find((c) => c !== at && isLabel(c)), label = own ?? (isSaid(at) ? at : undefined);
  const called = parts.map((row) => row[label]);
  const isApart = new Set(called).size === called.length && !parts.some((row) => called.includes(row[at]));
  if (loose || at === undefined || label === undefined || (named === undefined && !isApart)) return null;
  const isOut = (row, c) => c === label || c === at || (c > at && cellsAt(row, at, headings).length > 1);
  const bare = (row) => [row[label] ?? "", ...row.filter((_, c) => !isOut(row, c))];
  const more = { notes, left, isSure: named !== undefined, isSaid: isSaid(at) };
  return { rows: rows.map(bare), lines, users: listsAt(at), ...more };
}

/** The rows of a table that was pasted, without what frames it, and the numbers of their lines. */
function tableIn(pasted) {
  const block = blockOf(pasted, { words: true }), { rows: framed, left } = unframed(block.rows);
  const rows = framed.filter((row) => row.some(Boolean)), places = new Map(block.rows.map((row, k) => [row, k]));
  return { ...block, rows, left, lines: rows.map((row) => block.lines[places.get(row)]) };
}

/** The cell of a column, with all of words behind it that have no heading. */
function cellsAt(row, c, headings) {
  const more = row.slice(c + 1), isMore = more.every((text, k) => !headings?.[c + 1 + k] && (!text || isText(text)));
  return [row[c] ?? "", ...(isMore ? more : [])].filter(Boolean);
}

/** A table with a column for each user, with marks, beside one of names and one of numbers; null where each group has a
 * row, or nothing calls the rows. */
function byMarks(pasted) {
  const { rows, left, lines, notes, loose } = tableIn(pasted), [heads = [], ...below] = rows;
  const columns = heads.map((_, c) => c), parts = below.filter(([name]) => !isSumWord(name ?? ""));
  const isOf = (c) => c > 0 && isText(heads[c]) && parts.every((row) => isMark(row[c]))
    && parts.some((row) => IN.test(row[c]));
  const marks = columns.filter(isOf), bare = (row) => row.filter((_, c) => !marks.includes(c));
  const users = below.map((row) => marks.filter((c) => IN.test(row[c] ?? "")).map((c) => heads[c]));
  const isWhole = new Set(users.map(String)).size === below.length && below.length === 2 ** marks.length - 1;
  const isFit = marks.length > 1 && columns.length > marks.length + 1
    && parts.every(([name]) => isText(name) && !isMark(name));
  if (loose || isWhole || !isFit || !areUsers(users.filter(({ length }) => length))) return null;
  return { rows: rows.map(bare), lines, users, notes, left, isSure: false, isSaid: false };
}

/** What is said of parts that are pasted where they have no place, if it is sure that they are such; undefined for
 * another text. `isSaid` asks for words that say so. */
export function partsElsewhere(pasted, { isSaid = false } = {}) {
  const found = usedParts(pasted), some = found?.users.find(({ length }) => length > 1) ?? found?.users[0];
  return found?.[isSaid ? "isSaid" : "isSure"] ? `Each line looks like a part with its cost and who uses it, as ${
    quoted(some.join(", "))}. “Costs of each group” makes a table of groups of such lines: paste them there, or leave `
    + "these names out." : undefined;
}

/** The table of groups of such parts: {state, remark}, or {fault}; or {doubt}, a number that can be read in two ways,
 * until somebody says by which mark (`by`). Where money shows it, `way` is the other reading. */
export function tableOfParts({ parts, sums, names, remark, amounts }, { mark: usual, by }) {
  const texts = parts.map(({ cost }) => cost), what = by ? "rates" : amounts; // money shows nothing more
  const readAll = (all) => readTogether(all, by ?? usual, what);
  const { isSettled, read, money, by: mark } = readAll(texts);
  const odd = read.findIndex(({ fault }) => fault), doubt = isSettled || by ? -1 : read.findIndex((one) => one.doubt);
  if (odd >= 0) return { fault: `${parts[odd].line}${quoted(texts[odd])} is no number. Write the number alone.` };
  if (doubt >= 0) return { doubt: texts[doubt] };
  const costs = read.map(({ value }) => value), n = names.length;
  const whole = Rational.sum(costs), sumOf = ({ cost }) => readAll([...texts, cost]).read.at(-1).value;
  const other = sums.find((sum) => !sumOf(sum)?.equals(whole));
  if (other) {
    const [name, said] = [other.name, other.cost || "nothing"].map(withEscapes);
    const [own] = writtenAs([whole], texts, mark);
    return { fault: `${other.line}“${name}” says ${said}, and the parts add to ${own}. Mend it, or leave it out.` };
  }
  const masks = parts.map(({ users }) => users.reduce((mask, one) => {
    return isAll(one) ? 2 ** n - 1 : mask | (1 << names.indexOf(one));
  }, 0));
  const scale = costs.reduce((all, { den }) => lcm(all, den), 1n);
  const steps = costs.map(({ num, den }) => num * (scale / den));
  const values = Array.from({ length: 2 ** n - 1 }, (_, k) => {
    return new Rational(masks.reduce((sum, mask, part) => (mask & (k + 1) ? sum + steps[part] : sum), 0n), scale);
  });
  const out = sums.map(({ name }) => ` ${quoted(name)} was left out, as a sum of other lines.`).join("");
  return {
    state: { names, numbers: ["", ...writtenAs(values, texts, mark, (by || money) && MONEY_PLACES)] },
    remark: `${remark}${out} Made of ${plural(parts.length, "part")}: each group costs the parts that somebody of it `
      + `uses.${money ? ` ${moneyText(money, mark)}` : ""}`,
    way: money && [`No: read it as ${quotedText(readNumber(money, otherMark(mark)).value)}`, { by: otherMark(mark) }],
  };
}

/** The lines as groups, each with its own cost. */
export function groupsOfParts({ parts, names }) {
  return parts.map(({ users, cost }) => [(users.some(isAll) ? names : users).join("+"), cost]);
}

/** The names of users in a sentence. */
export const usersText = (names) => listed(names.map(quoted));
