// The grid of a market: what each buyer gains with each seller, or two lists of limit prices that say it.
import { notNames } from "../cases/bare-names.js";
import { gainTexts, marketOf } from "../cases/matrices.js";
import { priceLineOf } from "../cases/price-line.js";
import { partOf, pricesOf } from "../cases/prices.js";
import { withoutBids } from "../cases/trader-heads.js";
import { wishesOf } from "../cases/wishes.js";
import { withEscapes } from "../game/names.js";
import { listed, plural } from "../game/words.js";
import { cellInput, moveByKeys, pasteCells, removal } from "./cells.js";
import { askAgain, button, cellOf, el, refill, unask } from "./dom.js";
import { askLine, askOut, askWhose, askWishes } from "./market-asked.js";
import { askNames } from "./names-asked.js";
import { gainsPart, priceLists } from "./price-lists.js";

export function marketGrid(kind, typed, settings) {
  return new MarketGrid(kind, typed, settings).element;
}

const NO_ROOM = "From this cell on there aren’t as many cells. Paste it into the first one, or with the names of all.";
const ONE_SIDE = "Here are limit prices of one side alone. Paste those of the other beside them or below; or if a "
  + "column is what one trader would pay, leave out the columns of words beside the names.";
const AS_PRICES = "A pair gains the buyer’s most less the seller’s least, or nothing if that is negative.";

const TO_LIMITS = "Enter limit prices instead", TO_GAINS = "Enter gains instead";
const NO_LEAST = "Leave these prices out";
const AS_MARKET = "Give the sellers’ names above, and each buyer’s name before its row of gains; or limit prices in "
  + "lines, such as “Ann buys at 12” and “Bo sells at 8”.";
const NAMED = { things: "traders", numbers: "numbers" };

/** The names of rows of one list, if they have no prices. */
const namesIn = ({ rows = [] }) => {
  return rows.length > 0 && rows.every(({ name, price }) => name && !price) ? rows.map(({ name }) => name) : undefined;
};

/** Whether some trader has several prices of one side alone: these are of pairs. */
const isTwice = (prices) => {
  const [list, other] = [prices?.buyers, prices?.sellers].filter(Boolean);
  return Boolean(list) && !other && new Set(list.map(({ name }) => name)).size < list.length;
};

class MarketGrid {
  constructor(kind, typed, { mark, onChange, readCells, remember }) {
    Object.assign(this, { kind, typed, mark, onChange, remember });
    this.holder = el("div", { class: "scroll" });
    this.tools = el("p", { class: "tools" });
    this.traders = el("details", { class: "inline traders" }, el("summary", {}, "Add or remove traders"), this.tools);
    this.gains = el("div");
    this.none = el("p", { class: "tools" });
    this.least = el("p", { class: "hint" });
    this.said = el("p", { class: "hint", role: "status" });
    this.element = el("div", {}, this.holder, this.said, this.traders, this.gains, this.none, this.least);
    this.element.more = el("p", { class: "tools" });
    this.element.tell = (reading) => refill(this.gains, typed.limits && gainsPart(typed, reading));
    moveByKeys(this.holder, (cell, step) => {
      const [what, a, b] = cell.split(".");
      if (what === "limits") return `limits.${a}.${Number(b) + step}`;
      return what === "values" ? `values.${Number(a) + step}.${b}` : `${what}.${Number(a) + step}`;
    });
    const refuse = (fault) => this.take(fault);
    pasteCells(this.holder, (cell, rows) => this.pasted(cell, rows), readCells, { refuse });
    this.show();
    askAgain(this, typed);
  }

  show() {
    const { typed, kind } = this, isPrices = Boolean(typed.limits), title = isPrices ? TO_GAINS : TO_LIMITS;
    this.traders.hidden = isPrices;
    refill(this.element.more, button(title, () => this.turn(), { class: "quiet" }));
    refill(this.least, !isPrices && this.leastText());
    if (!isPrices) return this.showMatrix();
    refill(this.none);
    return refill(this.holder, priceLists(typed, {
      most: kind.most, onInput: () => this.onChange(), add: (side) => this.addTo(side),
      remove: (side, k, label) => removal(this.holder, {
        label, next: `${side}.${Math.min(k, typed[side].length - 2)}`, remove: () => this.removeFrom(side, k, label),
      }),
    }), el("p", { class: "hint" }, AS_PRICES));
  }

  /** From gains to limit prices, and back: these make the gains then. */
  turn() {
    const { typed } = this, { limits, buyers, sellers } = typed, blank = (list) => list.map(() => "");
    this.remember(limits ? "Enter gains" : "Enter limit prices");
    this.change(() => {
      if (!limits) return void (typed.limits = { buyers: blank(buyers), sellers: blank(sellers) });
      if (Object.values(limits).flat().some((text) => text.trim())) {
        typed.values = gainTexts(limits, this.mark());
        delete typed.least;
      }
      delete typed.limits;
    });
    refill(this.said);
  }

  addTo(side) {
    const [more, others] = side === "buyers" ? [1, 0] : [0, 1], { buyers, sellers } = this.typed;
    this.remember(side === "buyers" ? "Add a buyer" : "Add a seller");
    this.change(() => this.resize(buyers.length + more, sellers.length + others));
    cellOf(this.holder, `${side}.${this.typed[side].length - 1}`)?.focus();
  }

  removeFrom(side, k, label) {
    const { typed } = this;
    this.remember(label);
    this.change(() => {
      for (const list of [typed[side], typed.limits?.[side], side === "sellers" && typed.least]) list?.splice?.(k, 1);
      if (side === "buyers") typed.values.splice(k, 1);
      else for (const row of typed.values) row.splice(k, 1);
    });
  }

  // ---- What is pasted

  /** Takes limit prices or gains; `said` has what the user said: whose the first of two lists are (`side`), and whether
   * names are of the traders here (`isSame`), columns of words are left out (`isOut`), or a line of limit prices was
   * taken out of a table (`isLine`), of which something is `told`. */
  pasted(cell, given, said = {}) {
    const { rows, told: bids, isAbove } = withoutBids(given), { limits } = this.typed;
    const line = said.isLine === undefined ? priceLineOf(rows) : null;
    const use = (more, some = given) => this.pasted(cell, some, { ...said, ...more });
    unask(this.element);
    this.element.again = (grid) => grid.pasted(cell, given, said);
    if (line) return askLine(this, { ...line, bids }, use);
    const wishes = said.isLine === undefined ? wishesOf(rows) : null;
    if (wishes) return askWishes(this, wishes, use);
    const found = marketOf(rows, isAbove), all = said.isLine ? null : pricesOf(rows, said.side);
    const prices = found.isPairs && isTwice(all) ? null : all;
    if (prices?.asked) return askWhose(this, prices.asked, (side) => use({ side }));
    if (prices) return this.takePrices(prices);
    const isGains = !limits || (found.buyers && found.sellers && found.values);
    const part = isGains ? null : partOf(cell, rows), names = part ? namesIn(part) : found.names;
    const odd = names && notNames(names, AS_MARKET);
    if (odd) return this.take(odd);
    if (names && said.isSame === undefined && this.isOver(cell, names)) {
      return askNames(this.element, this.said, NAMED, (isSame) => use({ isSame }));
    }
    if (names && said.isSame === false) return this.takeNames(cell, names);
    if (part) return this.takePart(part);
    if (found.words && !said.isOut) return askOut(this, found.words, () => use({ isOut: true }));
    const fault = found.fault ?? this.faultOf(cell, found), kept = !fault && this.keptText(cell, found);
    const told = names && `Taken as the names of ${plural(names.length, "trader")}.`;
    return this.take(fault, [bids, ...found.notes ?? [], said.told, told, kept], () => {
      delete this.typed.limits;
      this.fill(cell, found);
      this.keepLeast(said.least);
    });
  }

  /** Whether names go over others, of which some have numbers. */
  isOver(cell, names) {
    const { typed } = this, { limits, values } = typed, [what, at = "0"] = cell.split(".");
    const side = what === "sellers" || cell.startsWith("limits.sellers") ? "sellers" : "buyers";
    const first = Number(what === "limits" ? cell.split(".")[2] : at);
    const isNumber = (limits ? limits[side] : values.flat()).some((text) => text.trim());
    const before = typed[side].slice(first, first + names.length);
    return !this.isExample(cell) && isNumber && before.some((name) => name.trim());
  }

  /** Names of other traders than those of a side, without any numbers. */
  takeNames(cell, names) {
    const { typed, kind: { most } } = this, side = /^(limits\.)?sellers/.test(cell) ? "sellers" : "buyers";
    const fault = names.length > most && `A side has at most ${most} traders.`;
    this.take(fault, [`Taken as the names of ${plural(names.length, side.slice(0, -1), side)}.`], () => {
      typed[side] = [...names];
      delete typed.least;
      if (typed.limits) typed.limits[side] = names.map(() => "");
      else typed.values = [];
      this.resize(typed.buyers.length, typed.sellers.length);
    });
  }

  /** Takes something, or says why not. */
  take(fault, notes = [], doIt = undefined) {
    unask(this.element, Boolean(fault));
    refill(this.said, fault ? `${fault} Nothing was taken.` : withEscapes(notes.filter(Boolean).join(" ")));
    this.said.classList.toggle("warn", Boolean(fault));
    if (fault) return;
    this.remember("Paste");
    this.change(doIt);
  }

  /** Keeps what the sellers take at least, by their names, if that was taken off the numbers and all of it is known. */
  keepLeast(least) {
    const all = least && this.typed.sellers.map((name) => least.get(name) ?? "");
    if (all?.every(Boolean) && new Set(this.typed.sellers).size === all.length) this.typed.least = all;
  }

  /** What the sellers take at least, where it is known of all: the prices of the answer begin there. */
  leastText() {
    const { least = [], sellers } = this.typed, isKnown = least.length === sellers.length && least.every(Boolean);
    const all = least.map((text, j) => `${text} (${withEscapes(sellers[j]) || `seller ${j + 1}`})`), drop = () => {
      this.remember(NO_LEAST);
      this.change(() => delete this.typed.least);
    };
    return isKnown && [`The sellers take at least ${listed(all)}. With a seller’s part that is the price. `,
      button(NO_LEAST, drop, { class: "quiet" })];
  }

  /** Limit prices of both sides are the case; those of one take the place of its list. */
  takePrices({ buyers, sellers, amounts, notes = [], fault }) {
    const { typed, kind: { most } } = this, sides = Object.entries({ buyers, sellers }).filter(([, list]) => list);
    const isLong = sides.some(([, list]) => list.length > most), isPart = sides.length < 2 && !typed.limits;
    const why = fault ?? (isLong ? `A side has at most ${most} traders.` : isPart && ONE_SIDE);
    const told = sides.map(([side, list]) => plural(list.length, side.slice(0, -1), side)).join(" and ");
    this.take(why, [`Taken as limit prices of ${told}.`, ...notes], () => {
      typed.limits ??= {};
      delete typed.least;
      if (amounts || sides.length > 1) typed.amounts = amounts;
      for (const [side, list] of sides) {
        typed[side] = list.map(({ name }) => name);
        typed.limits[side] = list.map(({ price }) => price);
      }
      this.resize(typed.buyers.length, typed.sellers.length);
    });
  }

  /** Names or prices of one list, from a cell on. */
  takePart({ side, at, rows = [], notes, fault }) {
    const { typed, kind: { most } } = this, length = at + rows.length, isLong = length > most;
    this.take(fault ?? (isLong && `A side has at most ${most} traders.`), notes, () => {
      this.resize(...["buyers", "sellers"].map((one) => Math.max(typed[one].length, one === side ? length : 0)));
      rows.forEach(({ name, price }, k) => {
        typed[side][at + k] = name ?? typed[side][at + k];
        typed.limits[side][at + k] = price ?? typed.limits[side][at + k];
      });
    });
  }

  // ---- The matrix

  showMatrix() {
    const { buyers, sellers, values } = this.typed, none = el("td", { class: "tool" });
    const style = `--digits: ${Math.max(4, ...values.flat().map(({ length }) => length))}`;
    const seller = (_, j) => {
      return el("th", { scope: "col", class: "number" }, this.nameInput("sellers", j, `Seller ${j + 1}`));
    };
    const head = el("tr", {}, el("th", { scope: "col" }, "Buyer"), sellers.map(seller), none);
    const rows = buyers.map((name, i) => el("tr", {},
      el("th", { scope: "row" }, this.nameInput("buyers", i, `Buyer ${i + 1}`)),
      sellers.map((other, j) => el("td", {}, this.valueInput(i, j, name, other))),
      el("td", { class: "tool" }, buyers.length > 1 && this.removal(i, name))));
    refill(this.holder, el("table", { class: "grid matrix market", style }, el("thead", {}, head),
      el("tbody", {}, rows)));
    this.showTools();
  }

  removal(i, name) {
    const { buyers } = this.typed, label = `Remove ${withEscapes(name) || `buyer ${i + 1}`}`;
    const remove = () => this.removeFrom("buyers", i, label);
    return removal(this.holder, { label, remove, next: `buyers.${Math.min(i, buyers.length - 2)}` });
  }

  showTools() {
    const { buyers, sellers } = this.typed, { most } = this.kind;
    const tool = (title, more, others) => button(title, () => this.change(() => {
      this.remember(title);
      this.resize(buyers.length + more, sellers.length + others);
    }), { class: "quiet" });
    refill(this.tools, buyers.length < most && tool("Add a buyer", 1, 0),
      sellers.length < most && tool("Add a seller", 0, 1), sellers.length > 1 && tool("Remove the last seller", 0, -1));
    this.showNone();
  }

  /** Pairs without a number, where others have one, may be such as can't trade; where none has, limit prices may be
   * what somebody has. */
  showNone() {
    const all = this.typed.values.flat().map((text) => text.trim()), isAny = all.some(Boolean);
    const title = isAny ? all.includes("") && "The empty pairs can’t trade: 0" : TO_LIMITS;
    const fill = () => this.change(() => {
      this.remember(title);
      this.typed.values = this.typed.values.map((row) => row.map((text) => (text.trim() ? text : "0")));
    });
    if (this.none.textContent === (title || "")) return;
    refill(this.none, title && button(title, isAny ? fill : () => this.turn(), { class: "quiet" }));
  }

  nameInput(side, k, placeholder) {
    return cellInput({
      cell: `${side}.${k}`, value: this.typed[side][k], label: placeholder, placeholder,
      onInput: (text) => {
        this.typed[side][k] = text;
        this.onChange();
      },
    });
  }

  valueInput(i, j, buyer, seller) {
    return cellInput({
      cell: `values.${i}.${j}`, value: this.typed.values[i][j], isNumber: true,
      label: `${withEscapes(buyer) || `Buyer ${i + 1}`} with ${withEscapes(seller) || `seller ${j + 1}`}`,
      onInput: (text) => {
        this.typed.values[i][j] = text;
        this.showNone();
        this.onChange();
      },
    });
  }

  resize(buyers, sellers) {
    const { typed } = this;
    typed.buyers = Array.from({ length: buyers }, (_, i) => typed.buyers[i] ?? "");
    typed.sellers = Array.from({ length: sellers }, (_, j) => typed.sellers[j] ?? "");
    typed.least?.splice(sellers);
    typed.values = typed.buyers.map((_, i) => typed.sellers.map((_, j) => typed.values[i]?.[j] ?? ""));
    for (const side of typed.limits ? ["buyers", "sellers"] : []) {
      typed.limits[side] = typed[side].map((_, k) => typed.limits[side]?.[k] ?? "");
    }
  }

  change(doIt) {
    doIt();
    this.show();
    this.onChange();
  }

  /** Whether nothing of the user's is in the cells, or in the empty ones from the first on. */
  isExample(cell) {
    const told = ({ buyers, sellers, values }) => [buyers, sellers, values].flat(2).join("\n"), own = told(this.typed);
    return own === told(this.kind.example()) || (!own.trim() && /^(buyers|sellers|values\.0)\.0$/.test(cell));
  }

  /** Where a block goes: a whole market, and all that is pasted over the worked example, begins anew. */
  placeOf(cell, { buyers, sellers, values = [], names }) {
    const [what, a, b = a] = cell.split("."), isAnew = Boolean(buyers && sellers) || this.isExample(cell);
    const [top, left] = isAnew ? [0, 0] : [what === "sellers" ? 0 : Number(a), what === "buyers" ? 0 : Number(b)];
    const own = names && { [what === "sellers" ? "sellers" : "buyers"]: names }, sides = own ?? { buyers, sellers };
    const height = (sides.buyers ?? values).length, width = sides.sellers?.length ?? values[0]?.length ?? 0;
    return { what, isAnew, top, left, sides, bottom: top + height, right: left + width };
  }

  /** Why a block doesn't go there, in words. */
  faultOf(cell, found) {
    const { what, isAnew, sides, bottom, right } = this.placeOf(cell, found), { most } = this.kind;
    if (Math.max(bottom, right) > most) return `A side has at most ${most} traders.`;
    const { buyers, sellers } = this.typed;
    const more = [!sides.buyers && bottom - buyers.length, !sides.sellers && right - sellers.length];
    const isBeyond = more.some((count) => count > 0) && !(cell === "values.0.0" && more.every((count) => count >= 0));
    const isOdd = what === "values" ? found.names : found.values && !found.buyers === (what === "buyers");
    const isPart = isAnew ? !sides.buyers && !sides.sellers && !cell.endsWith("0.0") : isBeyond || isOdd;
    return isPart ? NO_ROOM : "";
  }

  /** What is told of rows that stay below a block with buyers. */
  keptText(cell, found) {
    const { isAnew, sides, bottom } = this.placeOf(cell, found), below = this.typed.buyers.slice(bottom);
    return !isAnew && sides.buyers && below.some(Boolean) && "The rows below stay as they were.";
  }

  /** A block, with names before and above it or without. */
  fill(cell, found) {
    const { isAnew, top, left, sides, bottom, right } = this.placeOf(cell, found), { typed } = this;
    if (isAnew) Object.assign(typed, {
      buyers: [], sellers: [], values: [], least: undefined, isMarked: undefined, amounts: found.amounts,
    });
    const least = isAnew ? 1 : 0;
    this.resize(Math.max(typed.buyers.length, bottom, least), Math.max(typed.sellers.length, right, least));
    sides.buyers?.forEach((name, k) => (typed.buyers[top + k] = name));
    sides.sellers?.forEach((name, k) => (typed.sellers[left + k] = name));
    found.values?.forEach((row, r) => row.forEach((text, c) => (typed.values[top + r][left + c] = text)));
  }
}
