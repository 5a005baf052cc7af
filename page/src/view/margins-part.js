// Which numbers matter: those that the shares rest on, and how far off the others may be.
import { sourceName } from "../cases/matrices.js";
import { isEmpty } from "../cases/sum-row.js";
import { groupLabel } from "../cases/tables.js";
import { Rational } from "../exact/rational.js";
import { masksBySize } from "../game/groups.js";
import { listed, plural } from "../game/words.js";
import { numbersTold, restsTold, TIES } from "../tell/margins.js";
import { button, copy, el } from "./dom.js";
import { marginsTask } from "./questions.js";
import { tabbed } from "./table-lines.js";

const MOST_NAMED = 8; // numbers in a sentence
const HUNDRED = Rational.of(100);
const ELSEWHERE = "Which numbers matter is worked out here for up to 16 players. For more uses or claims the "
  + "project’s Python package finds it (coop.sensitivity.ranges).";

/** What a worker found, null before: {decide, closest, order, free, all}, and of a number by its place, as the worker
 * counts, `nameOf`, `ownOf` and `rangeOf`, which is {low, high}; `placeOf(cell)` is undefined for other cells. */
export function marginsOf({ margins, game }, session) {
  if (!margins) return null;
  const over = (text) => (text ? new Rational(BigInt(text), BigInt(margins.unit)) : null), { typed } = session;
  const decide = new Set(margins.decide), shared = { ...margins, decide, costs: game.costs, isTable: game.isTable() };
  if (game.isTable()) {
    const bounds = margins.bounds.split("\n"), order = masksBySize(typed.names.length);
    decide.add(margins.of + 1); // that of all
    return {
      ...shared, order, free: order.length - decide.size,
      nameOf: (mask) => (mask > margins.of ? "all together" : groupLabel(typed.names, mask)),
      ownOf: (mask) => Rational.of(margins.numbers[margins.closest.indexOf(mask)]),
      rangeOf: (mask) => ({ low: null, high: null, [game.costs ? "low" : "high"]: over(bounds[mask]) }),
      placeOf: (cell) => (/^numbers\./.test(cell) ? Number(cell.split(".")[1]) : undefined),
    };
  }
  const [owns, lows, highs] = ["owns", "lows", "highs"].map((key) => margins[key].split("\n").map(over));
  const cells = cellsOf(session), order = cells.map((_, k) => k), { rows } = session.reading;
  const points = [sourceName(typed), ...rows.map(({ label }) => label)];
  const linkName = (cell) => cell.match(/\d+/g).map((i) => points[i]).join(" – ");
  return {
    ...shared, order, free: order.length - decide.size, ownOf: (k) => owns[k] ?? Rational.of(0),
    nameOf: (k) => (session.kind.isNetwork ? linkName(cells[k]) : rows[k]?.label ?? "the estate"),
    rangeOf: (k) => ({ low: lows[k], high: highs[k] }),
    placeOf: (cell) => (cells.includes(cell) ? cells.indexOf(cell) : undefined),
  };
}

/** The cells of the numbers of a list, or of a network, as the worker counts them. */
function cellsOf({ kind, typed }) {
  if (kind.isNetwork) {
    const points = [0, ...typed.names.map((_, i) => i + 1)];
    return points.flatMap((i) => points.slice(i + 1).map((j) => `links.${i}-${j}`));
  }
  const { key } = kind.columns.find(({ number }) => number);
  const cells = typed.rows.flatMap((row, r) => (isEmpty(row) ? [] : [`rows.${r}.${key}`]));
  return kind.single ? [...cells, kind.single.key] : cells;
}

/** "from 9.88 up", "from 2 to 4": ends are rounded to the safe side. */
function rangeText({ low, high }, { places, text }) {
  const ten = Rational.of(10n ** BigInt(places)), from = low && -low.times(ten).negated().floor();
  const to = high && high.times(ten).floor();
  if (low && high) return from > to ? "as it is" : `from ${text(from)} to ${text(to)}`;
  return low ? `from ${text(from)} up` : high ? `up to ${text(to)}` : "any number";
}

/** What is said of a number in the grid, by its cell: {isDeciding, text}; undefined for other cells. */
export function tipOf(cell, found, format) {
  const k = found.placeOf(cell);
  if (k === undefined) return undefined;
  const isDeciding = found.decide.has(k), range = rangeText(found.rangeOf(k), format);
  const verb = found.costs ? "cost anything" : "gain anything";
  const text = isDeciding ? "The answer rests on this number as it is, by this evidence."
    : found.isTable ? `It may ${verb} ${range}, and the shares stay: all such numbers at once.`
    : `It may be ${range}, and the shares stay, if no other number moves.`;
  return { isDeciding, text };
}

/** The part below “What if”. `session` has the names, and which numbers the page filled in. */
export function marginsPart(result, { session, format }) {
  const found = marginsOf(result, session), { typed, kind } = session;
  const isOther = result.line && !result.game.isMarket() && !result.game.ballots && !marginsTask(result.game);
  if (isOther) return result.game.n > 1 && el("p", { class: "hint screen" }, ELSEWHERE);
  if (!found) return null;
  const { order, decide, nameOf, free, isTable } = found, names = order.filter((k) => decide.has(k)).map(nameOf);
  const told = isTable ? restsTold(names.slice(0, -1), free, found, MOST_NAMED) : numbersTold(names, free, MOST_NAMED);
  const copied = (event) => copy(tabbed(boundLines(found, format)), event.target);
  return el("section", { class: "margins" }, el("h3", {}, "Which numbers matter?"), el("p", {}, told.join(" ")),
    found.isTied && el("p", { class: "hint" }, TIES),
    isTable && filledSaid(typed, found),
    found.closest.length > 0 && closestTable(found, format),
    free > 0 && el("p", { class: "tools" }, button("Copy all bounds", copied, { class: "quiet" })));
}

/** Whether one has to ask for a number that the page filled in. */
function filledSaid({ filled }, { decide, nameOf }) {
  if (!filled?.length) return null;
  const asked = filled.filter((mask) => decide.has(mask));
  const told = !asked.length ? "None of the numbers that the page filled in is among them."
    : `Of the numbers that the page filled in ${plural(asked.length, "is", "are")} among them: ${
      listed(asked.slice(0, MOST_NAMED).map(nameOf))}${asked.length > MOST_NAMED ? " …" : ""}. Ask for these first.`;
  return el("p", { class: "note" }, told);
}

/** Those with least room for their size. */
function closestTable(found, format) {
  const rows = found.closest.map((k) => {
    const own = found.ownOf(k), { low, high } = found.rangeOf(k);
    const room = Rational.min([low && own.minus(low), high && high.minus(own)].filter(Boolean));
    const part = own.isZero() ? format.by(room) : `${percent(room.times(HUNDRED).over(own.abs()), format)}\u202f%`;
    return el("tr", {}, el("th", { scope: "row" }, found.nameOf(k)), el("td", { class: "number" }, format.show(own)),
      el("td", { class: "number" }, rangeText({ low, high }, format)),
      el("td", { class: "number" }, room.isZero() ? "none" : part));
  });
  const verb = found.isTable ? `It ${found.costs ? "cost" : "gain"}s` : "It is";
  return el("div", { class: "scroll" }, el("table", { class: "bounds" }, el("thead", {}, el("tr", {},
    el("th", { scope: "col" }, "Closest"), el("th", { scope: "col", class: "number" }, verb),
    el("th", { scope: "col", class: "number" }, "The shares stay"),
    el("th", { scope: "col", class: "number" }, "Room"))), el("tbody", {}, rows)));
}

/** Per cent with one decimal, rounded down. */
function percent(value, { mark }) {
  const steps = value.times(Rational.of(10)).floor();
  return `${steps / 10n}${mark ?? "."}${steps % 10n}`;
}

function boundLines({ order, decide, nameOf, rangeOf }, format) {
  const plain = format.plain(), only = (key, bound) => {
    return bound ? rangeText({ low: null, high: null, [key]: bound }, plain).replace(/^(from|up to) | up$/g, "") : "";
  };
  return [["", "The shares stay from", "to"], ...order.map((k) => {
    const { low, high } = rangeOf(k);
    return [nameOf(k), ...(decide.has(k) ? ["it decides", ""] : [only("low", low), only("high", high)])];
  })];
}
