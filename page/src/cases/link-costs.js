// What a link of a pasted list costs, where one of its columns is a price for each of another, as "price per m" beside
// "length": the product of the two, or what stands in a column of its own.
import { readNumber } from "../exact/decimals.js";
import { moneyIn } from "../exact/money.js";
import { withEscapes } from "../game/names.js";

/** That a link costs the price times the size. */
export const TIMES = 0;
const EACH = /\b(per|pro|je|par|each|unit|stück|stuk|unitaire)\b|einzel|eenheid|[\p{L}\p{Sc}]\s*\/\s*\p{L}/iu;
const PRICE = /\b(price|rate|preis|prix|prijs|tarif|tarief)\b/iu;
const SIZE = /length|distance|metres?\b|meters?\b|\bk?m\b|länge|lengte|afstand|entfernung|longueur|quantity|menge/iu;
const WHOLE = /cost|kosten|co[uû]t/iu;
const TOTAL = /total|totaal|summe?\b|gesamt|amount|betrag|bedrag|montant|\p{Sc}/iu;
const END = /^(from|von|van|to|nach|naar|start|end)(?!\p{L})/iu;
const COST = "Cost"; // of the two multiplied

/** Of a list with headings, the column of a price for each, and that of a length: {price, size} with their headings,
 * with the heading of the `whole` cost, if a column has it, or of a `total` that may be it. Undefined where a list has
 * no two such columns of numbers. */
export function costsIn([heads = [], ...below], mark) {
  const kept = below.filter((row) => row.some(Boolean));
  const isNumeric = (c) => kept.length > 0 && kept.every((row) => !readNumber(row[c], mark).fault);
  const numeric = heads.filter((head, c) => /\p{L}|\p{Sc}/u.test(head) && isNumeric(c));
  const price = numeric.find((head) => EACH.test(head)) ?? numeric.find((head) => PRICE.test(head));
  const others = numeric.filter((head) => head !== price), size = others.find((head) => SIZE.test(head));
  if (price === undefined || size === undefined) return undefined;
  const plain = others.filter((head) => head !== size && !EACH.test(head) && !END.test(head));
  const [costs, totals, prices] = [WHOLE, TOTAL, PRICE].map((is) => plain.filter((head) => is.test(head)));
  const whole = costs.find((head) => totals.includes(head)) ?? costs[0];
  return { price, size, whole, total: totals[0] ?? prices[0] };
}

/** Whether two columns that may both be the cost may be its factors, and not two years or two offers. */
export function areFactors([one, other, more]) {
  const bare = ({ head = "" }) => head.replace(/[\d\s]/g, ""), isMoney = (column) => column.texts.some(moneyIn);
  const isCost = ({ head = "" }) => WHOLE.test(head), isBoth = (is) => is(one) && is(other);
  return !more && !(one.head && bare(one) === bare(other)) && !isBoth(isMoney) && !isBoth(isCost);
}

/** How a column is named: by its heading, or by its first texts. */
export function columnLabel({ head, texts, unit }) {
  const filled = texts.filter(Boolean), some = filled.slice(0, 2).map((text) => (unit ? `${text} ${unit}` : text));
  return `“${head || some.join(", ")}${head || filled.length < 3 ? "" : " …"}”`;
}

/** The text of a link's cost: of a column, or of two that are multiplied. A link that isn't there has none. */
export function costText(row, columns, isNone) {
  const texts = columns.map((c) => row[c]);
  return texts.find(isNone) ?? texts.join("*");
}

/** The rows with one column of the cost: {rows, left, told}, where `left` are the headings that went. `cost` is its
 * heading, or TIMES. */
export function byCost([heads, ...below], { price, size, whole, total }, cost) {
  const isTimes = cost === TIMES, [at, each] = [size, price].map((head) => heads.indexOf(head));
  const gone = [size, price, whole, total].filter((head) => head !== undefined && head !== cost);
  const isKept = (_, c) => !gone.includes(heads[c]) && heads[c] !== cost;
  const costOf = (row) => (isTimes ? `${row[at]}*${row[each]}` : row[heads.indexOf(cost)]);
  const rows = below.filter((row) => row.some(Boolean)).map((row) => [...row.filter(isKept), costOf(row)]);
  const left = gone.filter((head) => !isTimes || (head !== size && head !== price));
  const [one, other, own] = [size, price, cost].map((head) => `“${withEscapes(String(head))}”`);
  const told = isTimes ? `A link costs ${one} times ${other}.` : `A link costs ${own}.`;
  return { rows: [[...heads.filter(isKept), COST], ...rows], left: left.map((head) => `“${head}”`), told: [told] };
}
