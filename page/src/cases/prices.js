// Limit prices of a market, pasted: the most that each buyer would pay for one like thing, and the least that each
// seller would take.
import { readNumber } from "../exact/decimals.js";
import { amountsIn, moneyIn } from "../exact/money.js";
import { isSumWord, withEscapes } from "../game/names.js";
import { listed } from "../game/words.js";
import { blockOf, isText, looseText } from "./block.js";
import { UNKNOWN } from "./columns.js";
import { leftText, unframed } from "./frames.js";
import { saidItemsOf } from "./in-line.js";
import { fitOf, isUnit, kindOf, nameOf, sideOf, sideOfName, sidesAmong, SIDES } from "./price-heads.js";
import { priceSections, withoutProse } from "./price-sections.js";
import { answerFault } from "./saved-tables.js";
import { unitsText, withoutUnits } from "./units.js";

const MOST_LETTERS = 60; // of a line that says whose prices come below it
const MOST_COLUMNS = 200;
const MOST_LISTED = 40, MOST_LINE = 2000; // rows and letters of lists that stand in a line each
const ONE_EACH = "Each trader buys or sells one. Give each unit a row, as “Ann 1” and “Ann 2”, without this column.";
const TWO_EACH = "Each trader has one price: a buyer the most to pay, or a seller the least to take.";
const ONE_PRICE = "Several columns could be the limit price. Give one alone, or write “Price” above it.";
const MANY_KINDS = "are more than two kinds. Write “buyer” or “seller” beside each trader.";
const NO_LIST = "A list has a name and a limit price in each row, or one of the two.";
const quoted = (text) => `“${withEscapes(text)}”`;
const isNumber = (text = "") => text !== "" && !readNumber(text).fault;
const isBlank = (row) => !row.some(Boolean);

/** What a pasted block says of limit prices: {buyers, sellers, notes}, lists of {name, price}, of which one isn't there
 * if the block has only the other's; or {fault}; or {asked}, in words, whose prices the first of two lists are: then it
 * is read again with what was `said`, "buyers" or "sellers". Null if these are no limit prices, or somebody said so. */
export function pricesOf(given, said) {
  if (said === "none" || answerFault(given)) return null;
  const { rows, left } = priceSections(given) ?? withoutProse(given), pasted = inLines(rows);
  const found = inParts(pasted) ?? inColumns(pasted) ?? byBlankLine(pasted);
  if (!found || found.fault) return found;
  const { lists, notes } = found, money = moneyFault(lists);
  if (money) return { fault: money };
  const sided = sidesOf(lists, said);
  const [head, ...heads] = lists.map((list) => list.head ?? ""), amounts = amountsIn(head, heads);
  const told = [leftText(left), ...notes, ...notesOf(lists)].filter(Boolean);
  return sided && (sided.lists ? { ...taken(sided.lists), amounts, notes: told } : sided);
}

/** Lists of which each has its side: {lists}; or {asked} or {fault}; null for one list of no prices. */
function sidesOf(lists, said) {
  const [one, other] = lists, name = (list) => listed(list.rows.map((row) => row.name || row.price).slice(0, 2));
  const more = (list) => (list.rows.length > 2 ? " …" : "");
  if (!other && !one.side && !one.label && !kindOf(one.head ?? "").isPrice) return null;
  if (lists.every(({ side }) => side)) return { lists };
  if (said && lists.length > 2) return { fault: `${listed(lists.map(({ label }) => quoted(label)))} ${MANY_KINDS}` };
  if (!said) return { asked: quoted(`${one.label ?? name(one)}${one.label ? "" : more(one)}`) };
  return { lists: lists.map((list, k) => ({ ...list, side: SIDES[(SIDES.indexOf(said) + k) % 2] })) };
}

function taken(lists) {
  const rowsOf = (side) => lists.filter((list) => list.side === side).flatMap(({ rows }) => rows);
  return Object.fromEntries(SIDES.map((side) => [side, rowsOf(side)]).filter(([, rows]) => rows.length));
}

function notesOf(lists) {
  const all = (key) => [...new Set(lists.flatMap((list) => list[key] ?? []))];
  const [out, amounts, units, open] = ["out", "amounts", "units", "open"].map(all);
  const was = amounts.length > 1 ? "were" : "was";
  return [out.length > 0 && `Left out: ${out.join(", ")}.`,
    amounts.length > 0 && `${listed(amounts)} ${was} left out: each trader buys or sells one unit here.`,
    unitsText(units),
    open.length > 0 && `A cell with ${listed(open.map(quoted))} is empty.`].filter(Boolean);
}

/** Prices in two currencies, or units, aren't compared. */
function moneyFault(lists) {
  const units = new Set(lists.flatMap(({ units = [], head, rows, money = [] }) => {
    const cells = units.length ? units : rows.map(({ price }) => moneyIn(price)).filter(Boolean);
    return [...cells, ...money, ...(cells.length ? [] : [isUnit(head)])].filter(Boolean);
  }));
  const [one, other] = units;
  return other && `Some prices are in ${withEscapes(one)}, others in ${withEscapes(other)}. Give all in one.`;
}

// ---- Two lists, one below the other

/** Lists below lines that say whose they are, as “Buyers” or “Seller, Ask”; null without such lines of both. */
function inParts(pasted) {
  const lines = pasted.map((row) => sideLine(row.filter(Boolean))), first = lines.findIndex(Boolean);
  const isBoth = SIDES.every((side) => lines.some((line) => line === side));
  if (!isBoth || pasted.slice(0, first).flat().some(isNumber)) return null;
  const above = pasted.slice(0, first).filter((row) => !isBlank(row)), own = [];
  pasted.forEach((row, k) => k > first && !lines[k] && own.push(k));
  const block = blockOf(own.map((k) => pasted[k]));
  if (block.loose) return { fault: looseText(block.loose) };
  const partOf = (k) => lines.slice(0, own[block.lines[k] - 1]).findLastIndex(Boolean), left = above.flat();
  const lists = lines.map((side, at) => {
    if (!side) return null;
    const { rows, left: notes } = unframed(block.rows.filter((_, k) => partOf(k) === at)), heads = pasted[at];
    left.push(...notes);
    const wide = Math.max(0, ...rows.map(({ length }) => length)), isRow = heads.filter(Boolean).length > 1;
    const all = isRow ? [heads.slice(Math.max(0, heads.length - wide)), ...rows] : rows;
    return { ...groupsIn(all, isRow ? undefined : [], true), side };
  }).filter(Boolean);
  const odd = lists.find(({ groups }) => groups?.length !== 1), { fault } = lists.find((one) => one.fault) ?? {};
  if (fault || odd) return fault ? { fault } : null;
  const notes = [leftText(left.filter(Boolean)), ...block.notes].filter(Boolean);
  return withLists(lists.map(({ groups: [group], side, out }) => ({ ...group, side, out })), notes);
}

/** Rows with a row for each trader of a line as “Buyers: Ann 12, Bo 10”, where there is one of each side, or of lines
 * as “Ann would buy at 12, Bo at 10”. */
function inLines(rows) {
  const own = rows.length > MOST_LISTED ? [] : rows.map((row) => {
    const line = row.filter(Boolean).join(", ").replace(/\s+/g, " "), isShort = line.length <= MOST_LINE;
    const { items, said = "" } = isShort ? saidItemsOf(line) : {};
    const side = items && said ? sideLine([said]) : undefined, isDeals = items && !said && areDeals(items);
    return side || isDeals ? { side, isDeals, some: side ? [[said], ...items] : items } : null;
  });
  const isBoth = SIDES.every((side) => own.some((one) => one?.side === side)), isAny = own.some((one) => one?.isDeals);
  return isBoth || isAny ? rows.flatMap((row, k) => own[k]?.some ?? [row]) : rows;
}

const areDeals = (items) => items.every(([name]) => nameOf(name) !== name);

/** Of a line without a number that speaks of one side alone, which. */
function sideLine(filled) {
  const isWord = filled.length > 0 && filled.every((text) => isText(text) && !/\d/.test(text));
  if (!isWord || filled.join(" ").length > MOST_LETTERS) return undefined;
  const kinds = filled.map(kindOf), sides = new Set(kinds.map(({ side }) => side).filter(Boolean));
  if (kinds.every(({ side, isWeak }) => !side || isWeak)) return undefined;
  return sides.size === 1 ? [...sides][0] : undefined;
}

/** Two lists of a name and a number that an empty line parts: whose they are has to be asked. */
function byBlankLine(pasted) {
  const kept = pasted.map((row) => row.filter(Boolean)), at = kept.findIndex((row, k) => k && !row.length);
  const parts = [kept.slice(0, at), kept.slice(at)].map((part) => part.filter((row) => row.length));
  const isPair = (row) => row.length === 2 && isText(row[0]) && isNumber(row[1]);
  const blocks = at > 0 ? parts.map((part) => (part.length ? blockOf(part).rows : [])) : [];
  if (at < 0 || !blocks.every((rows) => rows.length > 1 && rows.every(isPair))) return null;
  return { lists: blocks.map((rows) => ({ rows: rows.map(([name, price]) => ({ name, price })) })), notes: [] };
}

// ---- One block

/** Lists side by side, or one list that says of each who buys; null for other blocks. */
function inColumns(pasted) {
  const block = blockOf(pasted), { rows, left } = unframed(block.rows);
  if (block.loose || rows.some(({ length }) => length > MOST_COLUMNS)) return null;
  const { groups, out, fault, sides } = groupsIn(rows.filter((row) => !isBlank(row)));
  const notes = [leftText(left), ...block.notes].filter(Boolean);
  if (fault || !groups?.length || groups.length > 2) return fault ? { fault } : null;
  const [one, other] = groups, isShared = other && [one, other].filter(({ name }) => name).length === 1;
  if (isShared) return both(one, other, { notes, out });
  if (other) return withLists(groups.map((group, k) => ({ ...group, out: k ? [] : out })), notes);
  return bySide({ ...one, out, isLone: rows.every((row) => row.filter(Boolean).length < 3) }, sides, notes);
}

/** One list of names with two columns of prices, of which each row has one. */
function both(one, other, { notes, out }) {
  const named = one.name ? one : other, texts = (group) => group.price.texts;
  if (!one.side || !other.side) return null;
  const r = texts(one).findIndex((text, k) => text && texts(other)[k]);
  const isWeak = [one, other].every(({ isWeak }) => isWeak);
  if (r >= 0) return isWeak ? null : { fault: `${quoted(named.name.texts[r])} has two prices. ${TWO_EACH}` };
  const groups = [one, other].map((group, k) => ({ ...group, name: named.name, isPriced: true, out: k ? [] : out }));
  return withLists(groups, notes);
}

/** One list, whose rows say in a column, or in their names, who buys and who sells. */
function bySide(group, column, notes) {
  const { name, price, side } = group, texts = (column ?? name)?.texts ?? [];
  const own = texts.map(column ? sideOf : sideOfName);
  const used = price.texts.map((text, k) => k).filter((k) => price.texts[k] || name?.texts[k]);
  const isKept = SIDES.every((one) => used.some((k) => own[k] === one));
  const called = column ? name : name && { ...name, texts: name.texts.map(nameOf) };
  const listOf = (is, one, label) => {
    const pick = (one) => one && { ...one, texts: one.texts.filter((_, k) => used.includes(k) && is(k)) };
    return { ...group, name: pick(called), price: pick(price), side: one, label };
  };
  if (column && !isKept) {
    const [first = "", ...more] = new Set(used.map((k) => texts[k])), known = more.length ? undefined : sideOf(first);
    return withLists([listOf((k) => texts[k] === first, known, first),
      ...more.map((text) => ({ ...listOf((k) => texts[k] === text, undefined, text), out: [] }))], notes);
  }
  const odd = used.find((k) => !own[k] && !isSumWord(name?.texts[k] ?? ""));
  if (isKept && odd !== undefined && column) {
    return { fault: `${quoted(name?.texts[odd] || price.texts[odd])} is said to be neither a buyer nor a seller.` };
  }
  if (isKept && odd === undefined) {
    const lists = SIDES.map((one, k) => ({ ...listOf((r) => own[r] === one, one), out: k ? [] : group.out }));
    return withLists(lists, notes);
  }
  const isList = side ? !group.isWeak : group.isLone && name; // of prices without a side it is asked
  return isList && price.isPrice ? withLists([group], notes) : null;
}

// ---- The columns

/** The lists of rows, with headings or without (`[]`): {groups, out, sides}, or {fault}. A group has the columns of a
 * list: its name, if it has one, and its price. `sides` is a column that says who buys: none in rows of
 * a part, as they have one side. */
function groupsIn(rows, given, isPart = false) {
  const { heads, below } = headsOf(rows, given), wide = Math.max(0, ...rows.map(({ length }) => length));
  const columns = Array.from({ length: wide }, (_, c) => fitOf(heads[c] ?? "", below.map((row) => row[c] ?? "")))
    .filter(({ texts, head }) => head || texts.some(Boolean));
  if (columns.some(({ isBoth }) => isBoth)) return {};
  const sides = sidesAmong(columns, isPart), own = columns.filter((one) => one !== sides);
  const money = own.filter(({ isMoney }) => isMoney), groups = [];
  const isOpen = (one) => one.isNumbers || one.texts.some(Boolean);
  for (const column of own.filter((one) => !money.includes(one) && isOpen(one))) {
    const last = groups.at(-1), sides = [last?.side, column.side].filter(Boolean);
    const isOther = sides.length > 1 && sides[0] !== sides[1] && !column.isSoft;
    const isNew = !last || isOther || (!column.isNumbers && last.columns.some(({ isNumbers }) => isNumbers));
    if (isNew) groups.push({ side: column.side, columns: [column] });
    else {
      last.columns.push(column);
      last.side ??= column.side;
    }
  }
  const all = merged(groups), found = all.map(listOf), { fault } = found.find((one) => one?.fault) ?? {};
  const isOdd = found.some((one, k) => one?.isOdd || (!one && all[k].side)); // as buyer, seller and their gain
  if (isOdd && sides?.isRole) return { fault: ONE_PRICE };
  if (fault || isOdd) return isOdd ? {} : { fault };
  const kept = found.filter(Boolean), used = [...kept.flatMap(({ name, price }) => [name, price]), sides];
  const left = columns.filter((one) => !used.includes(one)), named = money.flatMap(({ texts }) => texts.map(moneyIn));
  const told = (some) => some.map(({ head, texts }) => quoted(head || texts.find(Boolean) || ""));
  const amounts = told(left.filter(isAmounts)), out = told(left.filter((one) => !isAmounts(one)));
  return { groups: kept.map((one) => ({ ...one, money: named, amounts })), out, sides };
}

/** Whether a column may say how much each trader buys or sells: numbers that differ. */
const isAmounts = ({ isNumbers, isCount, texts }) => isNumbers && !isCount && new Set(texts.filter(Boolean)).size > 1;

/** The headings, of one row or two; in two the upper one says whose the columns below are. */
function headsOf(rows, given) {
  const isHead = (row = []) => !isBlank(row) && row.filter(Boolean).every((text) => isText(text));
  if (given || !isHead(rows[0]) || rows.length < 2) return { heads: given ?? [], below: rows };
  const [one, other, ...below] = rows, spans = [];
  if (!isHead(other) || !below.length || !one.some((text) => kindOf(text).side)) {
    return { heads: one, below: rows.slice(1) };
  }
  other.forEach((_, c) => (spans[c] = one[c] || spans[c - 1] || ""));
  return { heads: other.map((text, c) => `${spans[c]} ${text}`.trim()), below };
}

/** Columns of one side are one list, wherever they stand. */
function merged(groups) {
  return groups.reduce((all, group) => {
    const own = group.side && all.find(({ side }) => side === group.side);
    if (own) own.columns.push(...group.columns);
    else all.push(group);
    return all;
  }, []);
}

/** The list of some columns: {name, price, side, head, isWeak}; {fault} in words; or {isOdd}, if several could be the
 * price; null without one. */
function listOf({ side, columns }) {
  const many = columns.find((one) => one.isQuantity && one.texts.some((text) => text && text !== "1"));
  const numbers = columns.filter((one) => one.isNumbers && !one.isQuantity && !one.isCount);
  const prices = numbers.filter(({ isPrice }) => isPrice), isAlone = numbers.length === 1;
  if (!numbers.length) return null;
  const isKnown = prices.length > 0 || side;
  if (many && isKnown) {
    const count = many.texts.find((text) => text && text !== "1");
    return { fault: `${quoted(many.head)} has ${quoted(count)}. ${ONE_EACH}` };
  }
  if (!isAlone && prices.length > 1 && side && prices.some(({ isWeak }) => !isWeak)) {
    return { fault: `${listed(prices.slice(0, 2).map(({ head }) => quoted(head)))} are both prices of the ${side}. `
      + "Leave one out; or if each is what one trader says, head it by the name of that trader alone." };
  }
  const price = isAlone ? numbers[0] : prices.length === 1 ? prices[0] : undefined;
  if (!price) return { isOdd: true };
  const words = columns.filter((one) => one !== price && !one.isQuantity && !one.isCount);
  const name = words.find((one) => one.isName) ?? words.find(({ isNumbers }) => !isNumbers);
  return { side, name, price, head: price.head, isWeak: price.isWeak };
}

/** Lists with their rows, units left out, and sums told: {lists, notes}, or {fault}. */
function withLists(groups, notes) {
  const lists = groups.map(({ name, price, side, label, head, out = [], money, amounts, isPriced }) => {
    const { rows: bare, units = [], fault } = withoutUnits(price.texts.map((text) => [text]));
    if (fault) return { fault };
    const all = bare.map(([text], k) => ({ name: name?.texts[k] ?? "", price: text }));
    const isRow = (row) => (isPriced ? row.price : row.name || row.price) && !isSumWord(row.name);
    const sums = all.filter((row) => isSumWord(row.name)), rows = all.filter(isRow);
    const open = rows.map((row) => row.price).filter((text) => UNKNOWN.test(text));
    const told = rows.map((row) => (UNKNOWN.test(row.price) ? { ...row, price: "" } : row));
    const left = [...out, ...new Set(sums.map((row) => `${quoted(row.name)}, a sum`))];
    return { side, label, head, money, amounts, rows: told, units, open, out: left };
  });
  const { fault } = lists.find((list) => list.fault) ?? {};
  return fault ? { fault } : { lists: lists.filter(({ rows }) => rows.length), notes };
}

/** Rows of one list, pasted into a cell of one: {side, at, rows, notes}, with names, prices or both; or {fault}. */
export function partOf(cell, pasted) {
  const [what, ...rest] = cell.split("."), [side, at] = what === "limits" ? rest : [what, ...rest];
  const block = blockOf(pasted), { rows: all, left } = unframed(block.rows), kept = all.filter((row) => !isBlank(row));
  const { heads, below } = headsOf(kept, kept[0]?.[1] ? undefined : []);
  const { rows, units = [], fault } = withoutUnits(below);
  const isLone = rows.every((row) => row.length === 1), isPair = rows.every((row) => row.length === 2);
  const isPrices = isLone && rows.every(([text]) => isNumber(text));
  if (fault || block.loose) return { fault: fault ?? looseText(block.loose) };
  if (!isLone && !isPair) return { fault: NO_LIST };
  const read = ([name, price]) => (isPair ? { name, price } : isPrices ? { price: name } : { name });
  const told = heads.length > 0 && `Left out: ${heads.map(quoted).join(", ")}.`;
  const notes = [leftText(left), ...block.notes, told, unitsText(units)].filter(Boolean);
  return { side, at: Number(at), rows: rows.map(read), notes };
}
