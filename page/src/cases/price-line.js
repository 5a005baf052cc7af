// A row or a column of limit prices within a table of buyers and sellers, as "Reserve": what it may mean, and the table
// without it.
import { moneyText, readNumber, readTogether, typedText } from "../exact/decimals.js";
import { amountsIn, moneyIn } from "../exact/money.js";
import { Rational, ZERO } from "../exact/rational.js";
import { blockOf, isText, isValue } from "./block.js";
import { UNKNOWN } from "./columns.js";
import { unframed } from "./frames.js";
import { GOODS, kindOf } from "./price-heads.js";
import { withoutTexts } from "./trader-heads.js";
import { withoutUnits } from "./units.js";

const LIMIT = /^(price )?limits?( price)?$/iu, BUDGET = /(?<!\p{L})budgets?(?!\p{L})/iu;
const turned = (rows) => rows[0].map((_, c) => rows.map((row) => row[c]));

/** Whose limit price a name above or before numbers says that they are; undefined for the name of a trader. */
function sideOfLine(text, beside) {
  const { side, isPrice, isBoth, isWeak } = kindOf(text);
  if (BUDGET.test(text)) return "buyers";
  if (LIMIT.test(text)) return beside;
  return isPrice && !isBoth && !(isWeak && side === "buyers") ? side : undefined; // Max may be a person
}

/** Such a line of a pasted table: {name, side, rows, at, left, amounts}, without the columns `left`, and with buyers
 * before the rows and the line `at` of them for the sellers, or with sellers before the rows and that of the buyers;
 * null if there is none, or several. */
export function priceLineOf(pasted) {
  const block = blockOf(pasted), { rows: framed, left: titles } = unframed(block.rows);
  const { rows: given = [] } = withoutUnits(framed.filter((row) => row.some(Boolean)), 1);
  const even = given.map((row) => Array.from({ length: given[0].length }, (_, c) => row[c] ?? ""));
  const { rows, left } = even.length ? withoutTexts(even) : { rows: even, left: [] };
  const [[corner = "", ...above] = [], ...below] = rows, isEven = given.every(({ length }) => length <= even[0].length);
  const isTable = isEven && above.length > 0 && below.length > 1 && above.every(isText)
    && below.every(([name, ...texts]) => name && (isText(name) || isText(corner)) && texts.every(isValue));
  if (block.loose || !isTable || kindOf(corner).isPrice) return null;
  const [before, top] = GOODS.test(corner) ? ["sellers", "buyers"] : ["buyers", "sellers"];
  const lines = [above.map((name, c) => ({ name, at: c + 1, isColumn: true, side: sideOfLine(name, before) })),
    below.map(([name], r) => ({ name, at: r + 1, side: sideOfLine(name, top) }))].flat().filter(({ side }) => side);
  const [line, other] = lines, isWide = line?.isColumn ? above.length > 2 : below.length > 1;
  if (!line || other || !isWide) return null;
  const { name, side, at, isColumn } = line;
  return { name, side, at, rows: isColumn ? turned(rows) : rows, left, amounts: amountsIn(corner, titles) };
}

/** The table without its line: of what the pairs gain, with buyers before the rows. */
export function withoutLine({ rows: [[, ...heads], ...below], at, side }) {
  const kept = [["", ...heads], ...below].filter((_, r) => r !== at);
  return side === "sellers" ? kept : turned(kept);
}

/** The same, with what sellers take at least taken off what the buyers give: {rows, least, told}, with that by the
 * sellers' names, or {fault} in words; or {doubt}, a number that can be read in two ways, until somebody says by which
 * mark (`by`). */
export function takenOff(line, entry, by) {
  const { rows, at, amounts } = line, [[, ...heads], ...below] = rows, texts = below.flatMap((row) => row.slice(1));
  const [money, otherMoney] = new Set(texts.map(moneyIn).filter(Boolean));
  if (otherMoney) return { fault: `Some prices are in ${money}, others in ${otherMoney}. Give all in one.` };
  const { read, isSettled, money: proof, by: mark } = readTogether(texts, by ?? entry, by ? "rates" : amounts);
  const doubt = texts.find((_, k) => read[k].doubt && !isSettled && !by);
  if (doubt !== undefined) return { doubt };
  const valueOf = (text) => (UNKNOWN.test(text) ? undefined : readNumber(text, mark).value);
  const least = rows[at].map(valueOf);
  const gain = (text, c) => {
    const value = valueOf(text);
    return value && least[c] ? typedText(Rational.max([ZERO, value.minus(least[c])]), mark) : "";
  };
  const gains = below.filter((_, r) => r + 1 !== at).map(([name, ...row]) => {
    return [name, ...row.map((text, c) => gain(text, c + 1))];
  });
  const leastOf = (c) => (least[c + 1] ? typedText(least[c + 1], mark) : "");
  const told = proof && moneyText(proof, mark);
  return { rows: [["", ...heads], ...gains], told, least: new Map(heads.map((name, c) => [name, leastOf(c)])) };
}
