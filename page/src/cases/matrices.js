// Cases that are a matrix: a network of links, and buyers with sellers.
import { cellNumber, typedText } from "../exact/decimals.js";
import { amountsIn } from "../exact/money.js";
import { Rational, ZERO } from "../exact/rational.js";
import { CLASSES, mostOf } from "../game/classes.js";
import { withEscapes } from "../game/names.js";
import { blockOf, isText, isValue, withoutSums } from "./block.js";
import { UNKNOWN } from "./columns.js";
import { filledLinks } from "./filled-cells.js";
import { leftText, unframed } from "./frames.js";
import { withEnds } from "./link-list.js";
import { rowsOf } from "./lists.js";
import { detoursOf } from "./detours.js";
import { GOODS } from "./price-heads.js";
import { Reading } from "./reading.js";
import { answerFault } from "./saved-tables.js";
import { withoutTexts } from "./trader-heads.js";
import { unitsText, withoutUnits } from "./units.js";

export const network = {
  id: "network",
  classes: ["tree"],
  title: "A network of links",
  teaser: "Pipes, cables or roads join everybody to one source.",
  unit: "place",
  isNetwork: true,
  grid: "network",
  filled: filledLinks,
  most: mostOf("tree"),
  help: "What would each link cost? A group by itself uses only links between its own places and the source. If a link "
    + "can’t be built, leave it empty. Paste a matrix, or a list: from, to, cost.",
  example: () => ({
    names: ["Harbour", "Mill", "Farm", "Chapel"],
    links: linksOf([["9.99", "10.25", "12", "14"], ["1.05", "3.50", "8"], ["6", "2"], ["5"]]),
  }),
  empty: () => ({ names: ["", ""], links: {} }),

  mapNumbers(typed, change) {
    const links = Object.entries(typed.links).map(([key, text]) => [key, change(text)]);
    return { ...typed, links: Object.fromEntries(links) };
  },

  read(state, mark) {
    const reading = new Reading(mark, state), n = state.names.length;
    const names = reading.names(state.names.map((typed, i) => ({ typed, cell: `names.${i}` })), "Place");
    const matrix = Array.from({ length: n + 1 }, () => Array(n + 1).fill(0n)), costs = new Map();
    for (let i = 0; i <= n; i++) {
      for (let j = i + 1; j <= n; j++) {
        const value = reading.number(`links.${i}-${j}`, state.links[`${i}-${j}`] ?? "", "The cost of this link");
        if (value) matrix[i][j] = matrix[j][i] = value.toDocument();
        costs.set(`${i}-${j}`, value);
      }
    }
    reading.close();
    const cost = (i, j) => costs.get(i < j ? `${i}-${j}` : `${j}-${i}`);
    const nameOf = (i) => (i ? names[i - 1] : sourceName(state));
    reading.odds = detoursOf({ filled: state.filled, n, cost, nameOf, mark });
    reading.isOpen = Boolean(state.isSourceOpen); // which point is the source has to be said first
    return {
      reading,
      rows: rowsOf(names),
      tree: { class: "tree", ...reading.version, ...reading.named(names, state.names), matrix },
    };
  },

  fromGame: (game) => ({
    names: game.names.map((name) => (game.named ? name : "")),
    links: linksOf(game.rows.map((row, i) => row.slice(i + 1).map((cost) => typedText(cost)))),
  }),
};

/** The source as it is shown. It is no player, so the document has no name for it. */
export function sourceName({ source = "" }) {
  return withEscapes(source.trim()) || "Source";
}

/** Links by "i-j", from rows of what stands right of the diagonal. */
function linksOf(rows) {
  return Object.fromEntries(rows.flatMap((row, i) => row.map((cost, k) => [`${i}-${i + 1 + k}`, String(cost)])));
}

export const market = {
  id: "market",
  classes: ["market", "assignment"],
  title: "Buyers and sellers",
  teaser: "Each buys one thing or sells one. Who trades with whom, and at which price?",
  unit: "trader",
  grid: "market",
  most: CLASSES.market.side,
  help: "What do each buyer and seller gain together if they trade? It is the worth to the buyer less the worth to the "
    + "seller, or 0 if that is negative. Limit prices of one like thing can be pasted, too.",
  example: () => ({
    buyers: ["Ann", "Ben", "Cem"],
    sellers: ["house", "flat"],
    values: [["5", "8"], ["7", "6"], ["6", "6"]],
  }),
  empty: () => ({ buyers: ["", ""], sellers: ["", ""], values: [["", ""], ["", ""]] }),
  emptyLimits: () => ({ ...market.empty(), limits: { buyers: ["", ""], sellers: ["", ""] } }),
  mapNumbers: ({ values, limits, least, ...typed }, change) => ({
    ...typed, values: values.map((row) => row.map(change)), ...(least && { least: least.map(change) }),
    ...(limits && { limits: { buyers: limits.buyers.map(change), sellers: limits.sellers.map(change) } }),
  }),

  read(state, mark) {
    const reading = new Reading(mark, state), { buyers, sellers } = state;
    const cells = [
      ...buyers.map((typed, i) => ({ typed, fallback: `Buyer ${i + 1}`, cell: `buyers.${i}` })),
      ...sellers.map((typed, j) => ({ typed, fallback: `Seller ${j + 1}`, cell: `sellers.${j}` })),
    ];
    const names = reading.names(cells, "Trader"), isPrices = Boolean(state.limits);
    const limits = isPrices ? readLimits(reading, state.limits) : readLeast(reading, state);
    const gains = isPrices ? gainsOf(limits) : readGains(reading, state.values);
    reading.close();
    const matrix = gains.map((row) => row.map((gain) => gain?.toDocument() ?? 0n));
    if (gains.flat().every((gain) => gain?.isWhole())) reading.version &&= {}; // though the prices have decimals
    const kind = buyers.length + sellers.length <= mostOf("assignment") ? "assignment" : "market";
    return {
      reading,
      rows: rowsOf(names), limits,
      tree: { class: kind, ...reading.version, ...reading.named(names, [...buyers, ...sellers]), matrix },
    };
  },

  fromGame: (game) => ({
    buyers: game.rows.map((_, i) => (game.named ? game.names[i] : "")),
    sellers: game.rows[0].map((_, j) => (game.named ? game.names[game.rows.length + j] : "")),
    values: game.rows.map((row) => row.map((value) => typedText(value))),
  }),
};

/** The sellers' least prices that were taken off a table; null where one isn't known. */
function readLeast(reading, { least = [], sellers }) {
  if (least.length !== sellers.length || !least.every(Boolean)) return null;
  return { sellers: least.map((typed, k) => reading.number(`least.${k}`, typed, LEAST, { canBeNegative: true })) };
}

/** The gains in the cells: a negative one counts as 0, which is told. */
function readGains(reading, values) {
  const below = [], gains = values.map((row, i) => row.map((typed, j) => {
    const value = reading.number(`values.${i}.${j}`, typed, "What they gain together", { canBeNegative: true });
    if (value?.isNegative()) below.push(`“${typed.trim()}”`);
    return value && Rational.max([ZERO, value]);
  }));
  const more = below.length > MOST_TOLD ? " …" : "", some = below.slice(0, MOST_TOLD).join(", ");
  const told = `A pair that would lose doesn’t trade. Taken as 0: ${withEscapes(some)}${more}.`;
  if (below.length) reading.notes.push(told);
  return gains;
}

const MOST_TOLD = 3;
const MOST = "The most that a buyer would pay", LEAST = "The least that a seller would take";

/** The limit prices in the cells; null for one that isn't read. */
function readLimits(reading, limits) {
  const read = (side, what) => limits[side].map((typed, k) => {
    return reading.number(`limits.${side}.${k}`, typed, what, { canBeNegative: true });
  });
  return { buyers: read("buyers", MOST), sellers: read("sellers", LEAST) };
}

/** What each pair gains by limit prices: the buyer's most less the seller's least, and nothing if that is negative. */
export function gainsOf({ buyers, sellers }) {
  return buyers.map((most) => sellers.map((least) => most && least && Rational.max([ZERO, most.minus(least)])));
}

/** The same of what was typed, as texts; those that nobody knows are empty. */
export function gainTexts({ buyers, sellers }, mark) {
  const [most, least] = [buyers, sellers].map((texts) => texts.map((text) => cellNumber(text, mark).value));
  return gainsOf({ buyers: most, sellers: least }).map((row) => row.map((gain) => (gain ? typedText(gain, mark) : "")));
}

const SIDE = (words) => new RegExp(`^(${words})(\\s*[\\\\/|].*)?$`, "iu"); // in the corner, alone or above the other
const SELLER = SIDE("sellers?|verkäufer|vendeurs?|vendedor|verkoper");
const BUYER = SIDE("buyers?|bidders?|käufer|bieter|acheteurs?|comprador|koper");
export const NO_MARKET = "This is no table of gains. Give the sellers’ names above, each buyer’s name before its row, "
  + "and in it what the two gain together, as a number, or nothing. Lists of limit prices need headings: Buyer, Bid, "
  + "Seller, Ask.";

/** What a pasted block says of a market: {buyers, sellers, values, notes} with those of the three that are there, or
 * {names, notes}; or {fault} in words. `words` are the names of columns and rows that are no traders' and are left out,
 * and `isPairs` says that it is a list of pairs. Where buyers stand above (`isAbove`), the rows are sellers. */
export function marketOf(pasted, isAbove = false) {
  const block = blockOf(pasted), { rows: framed, left } = unframed(block.rows);
  const saved = answerFault(pasted);
  if (saved) return { fault: saved };
  const { rows: given, units = [], fault } = withoutUnits(framed.filter((row) => row.some(Boolean)), 1);
  if (fault || block.loose) return { fault: fault ?? NO_MARKET };
  const { rows: bare, left: sums } = withoutSums(given), [[corner = ""]] = bare;
  const isSaid = SELLER.test(corner) || GOODS.test(corner);
  const wide = bare.reduce((most, { length }) => Math.max(most, length), 0);
  const whole = bare.map((row) => Array.from({ length: wide }, (_, c) => row[c] ?? ""));
  const { rows: even, left: texts } = withoutTexts(whole), pairs = pairsOf(bare), isTurned = isAbove || isSaid;
  const shape = pairs ?? shapeOf(isTurned ? even[0].map((_, c) => even.map((row) => row[c])) : even);
  const out = [...sums, ...(pairs ? [] : texts)];
  const notes = [leftText(left), ...block.notes, out.length > 0 && `Left out: ${out.join(", ")}.`, pairs && AS_PAIRS,
    unitsText(units), isSaid && !pairs && `“${corner}”: the rows are sellers.`].filter(Boolean);
  const isHeadless = !shape?.sellers && left.some((text) => text.split(/\s+/).length === wide - 1);
  const words = shape?.values && !pairs && texts.length ? texts : undefined;
  const head = pairs ? bare.find(([, , text]) => !isValue(text))?.[2] : corner, amounts = amountsIn(head, left);
  return shape && !isHeadless ? { ...shape, words, notes, amounts, isPairs: Boolean(pairs) } : { fault: NO_MARKET };
}

const AS_PAIRS = "Taken as a list of buyer, seller and what they gain together.";

/** A list of pairs with what each gains; null for other rows. A pair that isn’t there has no number. */
function pairsOf(given) {
  const rows = withEnds(given), hasHeads = !isValue(rows[0]?.[2]), below = rows.slice(hasHeads ? 1 : 0);
  const isPair = (row) => row.length === 3 && isText(row[0]) && isText(row[1]) && row[2] && isValue(row[2]);
  if (below.length < (hasHeads ? 1 : 2) || !below.every(isPair)) return null;
  const isTurned = hasHeads && SELLER.test(rows[0][0]), [one, other] = isTurned ? [1, 0] : [0, 1];
  const [buyers, sellers] = [one, other].map((c) => [...new Set(below.map((row) => row[c]))]);
  const worths = new Map(below.map((row) => [`${row[one]}\t${row[other]}`, row[2]]));
  if (worths.size < below.length || buyers.some((name) => sellers.includes(name))) return null;
  const isOver = Math.max(buyers.length, sellers.length) > CLASSES.market.side; // it is refused, whatever they gain
  const valueOf = (buyer, seller) => worths.get(`${buyer}\t${seller}`) ?? "";
  const values = isOver ? [] : buyers.map((buyer) => sellers.map((seller) => valueOf(buyer, seller)));
  return { buyers, sellers, values };
}

/** Names above and before the rows, or either alone, or neither; or names alone. Null for other blocks. */
function shapeOf(rows) {
  const [heads, ...below] = rows, [corner, ...above] = heads, isName = (text) => text && !isValue(text);
  const front = rows.map(([name]) => name), names = front.slice(1), others = rows.map((row) => row.slice(1));
  const hasValues = (some) => some.length > 0 && some.flat().every(isValue);
  const values = (some) => some.map((row) => row.map((text) => (UNKNOWN.test(text) ? "" : text)));
  if (rows.flat().every(isName) && (!below.length || !above.length)) return { names: rows.flat() };
  const isCorner = /^[^\p{L}\d]*$/u.test(corner) || BUYER.test(corner) || SELLER.test(corner)
    || GOODS.test(corner) || [...above, ...names].every(isName);
  if (above.length && isCorner && [...above, ...names].every(Boolean) && hasValues(others.slice(1))) {
    return { sellers: above, buyers: names, values: values(others.slice(1)) };
  }
  if (hasValues(rows)) return { values: values(rows) };
  if (above.length > 1 && front.every(isName) && hasValues(others)) return { buyers: front, values: values(others) };
  return heads.every(isName) && hasValues(below) ? { sellers: heads, values: values(below) } : null;
}
