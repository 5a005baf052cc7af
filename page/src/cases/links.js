// A network that was pasted, in any of the shapes in which people have one: a square, a triangle, or a list of links.
// What is read is points, links between them, and which point is the source; or a fault in words.
//
// A block is tried as each of these, in this order (page/test/shapes.mjs has 18 shapes of one network):
//
// - A list of from, to and cost: its headings say so, or two columns are words and one is numbers. The points are in
//   the order of the rows.
// - Names above and before: words in the first row and column, or 0, 1, 2 .. or 1, 2, 3 .. in both. First come the
//   points of the one whose first name isn't in the other, then the rest.
// - Names before each row. A square has as many columns as rows, and a diagonal that is empty, zero or a dash. In the
//   lower half row k has at most k - 1 numbers. The upper half has one column less than rows, and the first cells of
//   each row are empty or the rows get shorter. In the page's own triangle row k has at most k numbers, so the source
//   has no row and comes first.
// - Numbers only, a square as above: its points have no names.
//
// The numbers of any other block go to the cells where they were pasted. The source is the point that has the source's
// name already; otherwise the only one with a name such as reservoir or Wasserwerk; otherwise the first of a half. If
// there is none, the page asks.
import { cellNumber } from "../exact/decimals.js";
import { amountsIn } from "../exact/money.js";
import { mostOf } from "../game/classes.js";
import { withEscapes } from "../game/names.js";
import { plural } from "../game/words.js";
import { blockOf, isText, withoutSums } from "./block.js";
import { unframed } from "./frames.js";
import { byCost, costsIn } from "./link-costs.js";
import {
  arePairs, clean, isNameless, isNone, listOf, numbersApart, titleOf, untitled, withEnds, withoutMail,
} from "./link-list.js";
import { withoutPages } from "./page-lines.js";
import { isSpoilt, SPOILT } from "./pasting.js";
import { answerFault } from "./saved-tables.js";
import { withoutUnits } from "./units.js";
import { partsElsewhere } from "./used-parts.js";

const MOST_POINTS = mostOf("tree") + 1; // with the source
const SOURCE = new RegExp("\\b(source|reservoir|plant|water ?works?|works|supply|supplier|hub|root|depot|origin|"
  + "(sub|power|pump(ing)?) ?station|station|well|spring|tank|tower|server|exchange|head ?end|quelle|[a-zäöü]*werk|"
  + "zentrale|speicher|pumpwerk|réservoir|centrale|usine|château d’eau|château d'eau)\\b", "iu");

const SAYS_SOURCE = new RegExp("(?<!\\p{L})(source|origin|starts? (at|in|from)|quelle|ausgangspunkt|origine|origen"
  + "|bron)(?!\\p{L})", "iu");
const MOST_SAID = 200; // letters of a sentence about the source

/** Tells numbers, names and missing links apart, by a decimal mark. */
function judgeOf(mark) {
  const isNumber = (text = "") => text !== "" && !cellNumber(text, mark).fault;
  const isName = (text) => !isNameless(text) && !isNumber(text) && !SPOILT.test(text);
  const valueOf = (text) => cellNumber(text, mark).value;
  const isZero = (text) => isNumber(text) && valueOf(text).isZero();
  const isSame = (one, other) => one === other || (isNumber(one) && isNumber(other)
    && valueOf(one).equals(valueOf(other)));
  return { isNumber, isName, isZero, isSame };
}

/** Rows of the same length, without columns at the end that are empty. */
function padded(rows) {
  const wide = rows.reduce((most, row) => Math.max(most, row.findLastIndex(Boolean) + 1), 0);
  return rows.map((row) => Array.from({ length: wide }, (_, c) => clean(row[c] ?? "")));
}

/** What a pasted block says of a whole network: {points, source, links, said}, `links` by "i-j" of the points, and the
 * `amounts` that a heading says they are; {fault}
 * if it contradicts itself; {product} if one of its columns is a price for each of another, and nobody said what the
 * `cost` is; {asked} if several `columns` may be it, and nobody said which; null if it is numbers alone, or names
 * alone, for the cells where it was pasted. */
export function networkOf(given, { mark = ".", source = "", cost, columns } = {}) {
  const { rows: pasted, pages } = withoutPages(given);
  const block = blockOf(pasted.map(numbersApart)), { rows, left: letter, odd: unread } = linksIn(block);
  const { rows: bare, left: around } = unframed(rows), { rows: framed, left: above } = untitled(bare);
  const ways = [rows, framed].map((some) => readOf(some, { mark, cost, columns })), [whole] = ways;
  const found = ways.find((one) => one && !one.fault) ?? whole, saved = answerFault(pasted)
    ?? partsElsewhere(pasted, { isSaid: Boolean(found) && !found.fault });
  if (saved) return { fault: saved };
  if (!found || block.loose) {
    const isMixed = rows.flat().some(isText) && rows.flat().some((text) => /\d/.test(text) && !isText(text));
    const odd = oddCost(rows, judgeOf(mark));
    const words = odd ? `“${withEscapes(odd)}” is no number. Write the number alone.` : noShape(unread);
    return isMixed || block.loose ? { fault: words } : null;
  }
  if (found.fault || found.product || found.asked) return found;
  const { points, shape, left = [] } = found, twice = points.find((name, i) => name && points.indexOf(name) < i);
  if (twice) return { fault: `“${withEscapes(twice)}” is there twice.` };
  if (points.length > MOST_POINTS) {
    const most = `A network has at most ${MOST_POINTS - 1} places and the source.`;
    return { fault: `These are ${points.length} points. ${most}` };
  }
  const { links, fault } = joined(found, found.judge), texts = whole === found ? letter : [...around, ...above];
  if (fault) return { fault };
  const out = [...texts, ...pages].map((text) => `“${text}”`);
  if (rows !== block.rows && !letter.length) out.push(...titleOf(pasted, block));
  out.push(...left, ...found.units.map((unit) => `“${unit}”, the unit`));
  const told = [...block.notes, ...found.told, ...wordsOf(found)], amounts = amountsIn(found.head, texts);
  return { points, links, shape, left: out, told, amounts, ...sourceOf(points, found, { named: source, texts }) };
}

/** What is told of words that say that there is no link. */
function wordsOf({ entries }) {
  const words = new Set(entries.map(([, , text]) => text).filter((text) => isNone(text) && /\p{L}{3}/u.test(text)));
  return words.size ? [`No link: ${[...words].map((text) => `“${withEscapes(text)}”`).join(", ")}.`] : [];
}

/** A cell with a number and something beside it, as "ca. 12", in a column of numbers. */
function oddCost(rows, { isNumber }) {
  const columns = rows.reduce((most, row) => (row.length > most.length ? row : most), []).map((_, c) => {
    return rows.map((row) => row[c] ?? "").filter(Boolean);
  });
  const found = columns.filter((texts) => texts.filter(isNumber).length * 2 > texts.length);
  return found.flat().find((text) => isSpoilt(text) && !isNumber(text));
}

/** A block as the first shape that fits, or {fault}, {product} or {asked}; null for others, and where no number is. */
function readOf(given, { mark, cost, columns }) {
  const hasNames = given.flat().some(isText), kept = given.filter((row) => !hasNames || row.some(Boolean));
  const { rows: bare, units = [], found: unitAt, fault } = withoutUnits(padded(kept), 1), judge = judgeOf(mark);
  if (fault) return { fault };
  const product = costsIn(bare, mark), meant = product && (product.whole ?? cost);
  if (product && meant === undefined) return { product };
  const { rows, left: out = [], told = [] } = product ? byCost(bare, product, meant) : { rows: bare };
  if (rows.length < 2 || !rows.flat().some(judge.isNumber)) return null;
  const found = cornered(rows, judge) ?? listOf(rows, { judge, said: columns, unitAt }) ?? labelledOf(rows, judge)
    ?? namedOf(rows, judge) ?? squareOf(rows, judge);
  const all = (key, ...more) => [...found[key] ?? [], ...more];
  return found && { ...found, left: all("left", ...out), told: all("told", ...told), units, judge };
}

/** The rows of a block with two ends and a number each, if they are such, and what is left out around them. */
function linksIn({ rows, loose }) {
  const own = withEnds(rows), { rows: inner, left, odd } = withoutMail(rows);
  const bare = left.length ? withEnds(inner) : inner;
  const isLetter = own === rows && !loose && bare !== inner;
  return isLetter ? { rows: bare, left } : { rows: own, left: [], odd: loose ?? odd };
}

const noShape = (odd) => `This is no list of from, to and cost, and no square or triangle with names${odd ? ": "
  + `“${withEscapes(odd)}” isn’t read as a link` : ""}. Give each link a line, such as: Well - North: 12.`;
/** The source: the point that has its name already, or that a sentence beside the links (`texts`) says to be it, or a
 * name that says so, or else the first. */
function sourceOf(points, { isFirst }, { named, texts }) {
  const lower = (text) => clean(text).toLowerCase();
  const own = points.findIndex((name) => name && lower(name) === lower(named)), spoken = saidSource(points, texts);
  if (own >= 0 || spoken >= 0) return { source: own >= 0 ? own : spoken, isSure: true };
  const saying = points.map((name, i) => (SOURCE.test(name) ? i : -1)).filter((i) => i >= 0);
  if (saying.length === 1) return { source: saying[0], isSure: true };
  return { source: 0, isSure: Boolean(isFirst) };
}

/** The one point that is named in a sentence about a source, as “Source is Ann.”; -1 where none is, or several. */
function saidSource(points, texts) {
  const about = texts.filter((text) => text.length <= MOST_SAID && SAYS_SOURCE.test(text)).map((text) => {
    return ` ${text.toLowerCase().replace(/[^\p{L}\d]+/gu, " ")} `;
  });
  const bare = (name) => name.toLowerCase().replace(/[^\p{L}\d]+/gu, " ").trim();
  const found = points.map((name, i) => (bare(name) && about.some((text) => text.includes(` ${bare(name)} `)) ? i : -1))
    .filter((i) => i >= 0);
  return found.length === 1 ? found[0] : -1;
}

// ---- One number for each link

/** The links of entries [i, j, text]. Two halves that say the same are one; one half of zeros says nothing. */
function joined({ entries, points }, judge) {
  const nameOf = (i) => withEscapes(points[i]) || `Point ${i + 1}`, links = {};
  const given = entries.filter(([, , text]) => !isNone(text));
  const own = given.find(([i, j, text]) => i === j && !judge.isZero(text));
  if (own) return { fault: `${nameOf(own[0])} has a link to itself, of ${withEscapes(own[2])}.` };
  const real = given.filter(([i, j]) => i !== j);
  const halves = [real.filter(([i, j]) => i < j), real.filter(([i, j]) => i > j)];
  const isEmpty = halves.map((half) => half.every(([, , text]) => judge.isZero(text)));
  const kept = isEmpty[0] === isEmpty[1] ? real : halves[isEmpty[0] ? 1 : 0];
  for (const [i, j, text] of kept) {
    const key = i < j ? `${i}-${j}` : `${j}-${i}`, before = links[key];
    if (before !== undefined && !judge.isSame(before, text)) {
      return { fault: `${nameOf(Math.min(i, j))} – ${nameOf(Math.max(i, j))} has two costs: ${withEscapes(before)} and `
        + `${withEscapes(text)}.` };
    }
    links[key] ??= text;
  }
  return { links };
}

// ---- Shapes

/** The same names above and before each row, with a word in the corner, as “EUR”; null for other rows. */
function cornered([[corner, ...heads], ...below], judge) {
  const isSame = judge.isName(corner) && heads.length > 1 && String(heads) === String(below.map(([name]) => name));
  const found = isSame ? labelledOf([["", ...heads], ...below], judge) : null;
  return found && !found.fault ? { ...found, left: [...found.left, `“${corner}”`], head: corner } : found;
}

/** Names above and names before each row: what they share says how the block is to be read. */
function labelledOf(given, { isNumber, isName, isZero }) {
  const { rows: [heads, ...below], left } = withoutSums(given);
  const columns = heads.slice(1), lines = below.filter((row) => row.some(Boolean)), names = lines.map(([name]) => name);
  const isSame = heads[0] === "" && String(columns) === String(names) && columns.every(Boolean);
  const isCount = columns.every((text, k) => Number(text) === Number(columns[0]) + k) && /^[01]$/.test(columns[0]);
  const isCounted = isSame && (isCount || columns.some(isName) || lines.every((row, k) => row[k + 1]));
  const isLabelled = columns.length > 0 && (columns.every(isName) || isCounted);
  const isNamed = names.every(isName) || isCounted;
  const hasWords = lines.some((row) => row.slice(1).some((text) => isName(text) && !isNone(text)));
  if (hasWords || (columns.length === 1 && heads[0] && !names.includes(columns[0]))) return null;
  if (!isLabelled || !isNamed || !lines.some((row) => row.slice(1).some(isNumber))) return null;
  const first = names.includes(columns[0]) ? [...names, ...columns] : [...columns, ...names];
  for (const some of [columns, names]) {
    const twice = some.find((name, i) => some.indexOf(name) < i);
    if (twice) return { fault: `“${withEscapes(twice)}” is there twice.` };
  }
  const points = [...new Set(first)], entries = lines.flatMap(([name, ...texts]) => texts.map((text, c) => {
    return [points.indexOf(name), points.indexOf(columns[c]), text];
  }));
  const isSquare = points.length === names.length && points.length === columns.length;
  const isHalf = [(i, j) => i < j, (i, j) => i > j].some((is) => {
    return entries.every(([i, j, text]) => !is(i, j) || isNone(text) || isZero(text));
  });
  const shape = `a ${isHalf ? "triangle" : "square"} with names`;
  return { points, entries, shape, left, isFirst: !isSquare };
}

/** Names before each row alone: a square, or a triangle whose first row is the source’s. */
function namedOf(given, judge) {
  const { rows, left } = withoutSums(given);
  const isHeading = rows[0][0] !== "" && rows[0].slice(1).every((text) => judge.isName(text) || !text)
    && rows[0].slice(1).some(Boolean);
  const lines = rows.slice(isHeading ? 1 : 0), points = lines.map(([name]) => name);
  const isLetter = points.some((name) => /[,;!?]$/.test(name)); // "Hello Martin,"
  if (!points.every(judge.isName) || isHeading || isLetter || arePairs(points)) return null;
  const block = lines.map((row) => row.slice(1)), n = points.length;
  const found = halfOf(block, n, points, judge);
  return found && { ...found, left };
}

/** Numbers alone: a square. Its points have no names. */
function squareOf(rows, judge) {
  const isNamed = !rows[0].some(judge.isNumber) && rows[0].every(judge.isName);
  const block = isNamed ? rows.slice(1) : rows, n = rows[0].length;
  if (!block.flat().some(judge.isNumber) || block.flat().some(judge.isName)) return null;
  const square = block.length === n - 1 ? [...block, Array(n).fill("")] : block;
  if (square.length !== n || n < 2 || !isHollow(square, judge)) return null;
  return squareWith(square, isNamed ? rows[0] : Array(n).fill(""));
}

const isHollow = (block, { isZero }) => block.every((row, k) => isNone(row[k]) || isZero(row[k]));

function squareWith(block, points) {
  const entries = block.flatMap((row, i) => row.map((text, j) => [i, j, text])).filter(([, j]) => j < points.length);
  return { points, entries, shape: "a square" };
}

/** A block of `n` rows with the names of its points. */
function halfOf(block, n, points, judge) {
  const wide = block[0].length;
  const isOpen = (is) => block.every((row, i) => row.every((text, c) => is(i, c) || isNone(text)));
  const entriesBy = (place) => block.flatMap((row, i) => row.map((text, c) => [i, place(i, c), text]))
    .filter(([, j, text]) => j < n || !isNone(text));
  if (wide === n && isHollow(block, judge)) return squareWith(block, points);
  if (wide <= n - 1 && isOpen((i, c) => c < i)) {
    return { points, entries: entriesBy((_, c) => c), shape: "a lower triangle", isFirst: true };
  }
  if (wide === n - 1 && isOpen((i, c) => c >= i)) {
    return { points, entries: entriesBy((_, c) => c + 1), shape: "an upper triangle", isFirst: true };
  }
  if (wide === n - 1 && isOpen((i, c) => c < n - 1 - i)) {
    return { points, entries: entriesBy((i, c) => i + 1 + c), shape: "an upper triangle", isFirst: true };
  }
  if (wide === n && isOpen((i, c) => c <= i)) { // the page's own: the source has no row
    const entries = block.flatMap((row, i) => row.map((text, c) => [i + 1, c, text]));
    return { points: ["", ...points], entries, shape: "a triangle", isFirst: true };
  }
  return null;
}

// ---- What the page makes of it

/** The cells: the source, the names of the places in their order, and the links by the page's own keys. */
export function cellsOfNetwork({ points, links, source }, k = source) {
  const order = [k, ...points.map((_, i) => i).filter((i) => i !== k)], place = new Map(order.map((i, at) => [i, at]));
  const moved = Object.entries(links).map(([key, text]) => {
    const [i, j] = key.split("-").map((end) => place.get(Number(end))).sort((a, b) => a - b);
    return [`${i}-${j}`, text];
  });
  return { source: points[k], names: order.slice(1).map((i) => points[i]), links: Object.fromEntries(moved) };
}

/** The same network with another source: place `k` (from 1) becomes it, and the old one the first place. */
export function withSource({ names, source = "", links, filled = {} }, k) {
  const points = [source, ...names], move = (some) => cellsOfNetwork({ points, links: some, source: k }).links;
  const { names: others } = cellsOfNetwork({ points, links, source: k });
  return { source: points[k], names: others, links: move(links), filled: move(filled) };
}

/** The network without place `k` (from 0): no link of it stays, and no way that was filled through it is taken back. */
export function withoutPlace({ names, links, filled = {}, ...others }, k) {
  const moved = (i) => (i > k + 1 ? i - 1 : i), kept = (entries) => {
    const own = Object.entries(entries).map(([key, value]) => [key.split("-").map(Number), value]);
    const left = own.filter(([ends]) => !ends.includes(k + 1));
    return Object.fromEntries(left.map(([ends, value]) => [ends.map(moved).join("-"), value]));
  };
  return { ...others, names: names.filter((_, i) => i !== k), links: kept(links), filled: kept(filled) };
}

/** What was taken, in a sentence or two. */
export function takenText({ points, links, shape, left = [], told = [], source, isSure }, named = "") {
  const all = (points.length * (points.length - 1)) / 2, count = Object.keys(links).length;
  const name = withEscapes(points[source]) || named || "the first point";
  return `Taken as ${shape}: ${plural(points.length, "point")}, ${plural(count, "link")}`
    + `${count < all ? ` of ${all} that could be` : ""}${isSure ? `, source: ${name}` : ""}.`
    + (left.length ? ` Left out: ${left.map(withEscapes).join(", ")}.` : "") + told.map((text) => ` ${text}`).join("")
    + (isSure ? "" : " Nothing says which point is the source.");
}
