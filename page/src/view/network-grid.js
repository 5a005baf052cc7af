// The grid of a network: what a link between each two places costs.
import { notNames } from "../cases/bare-names.js";
import { blockOf, isText } from "../cases/block.js";
import { junctionsOf } from "../cases/junctions.js";
import { areFactors, columnLabel, TIMES } from "../cases/link-costs.js";
import { cellsOfNetwork, networkOf, takenText, withoutPlace, withSource } from "../cases/links.js";
import { sourceName } from "../cases/matrices.js";
import { followUnused } from "../cases/unused-links.js";
import { withEscapes } from "../game/names.js";
import { listed, plural } from "../game/words.js";
import { cellInput, moveByKeys, pasteCells, removal } from "./cells.js";
import { askAgain, askIn, button, cellOf, el, refill, unask } from "./dom.js";
import { askNames } from "./names-asked.js";
import { noLinkHelp } from "./no-link.js";

const WAIT = 150; // milliseconds between the last key and filling anew
const DENSE = 6; // places from which the grid is set in smaller letters
const WIDE = 29; // rem of a grid that fit into the narrower column
const REFILL = 60000; // the question waits for what is filled anew

/** `asTable(typed, notes)` opens a table of costs that was made of the network; `help(task, what)` asks a worker. */
export function networkGrid(kind, typed, settings) {
  return new NetworkGrid(kind, typed, settings).element;
}

class NetworkGrid {
  constructor(kind, typed, { mark, onChange, onWide, readCells, help, asTable, remember }) {
    Object.assign(this, { kind, typed, mark, onChange, onWide, remember });
    this.said = el("p", { class: "note", role: "status" });
    this.holder = el("div", { class: "scroll" });
    this.tools = el("p", { class: "tools" });
    const setLinks = (links, filled) => this.change(() => Object.assign(typed, { links, filled }));
    this.nobody = el("p", { class: "note", role: "status" });
    this.help = noLinkHelp(typed, { mark, help, remember, setLinks, asTable });
    this.element = el("div", {}, this.said, this.holder, this.tools, this.nobody, this.help);
    this.element.choices = () => this.help.choices();
    moveByKeys(this.holder, (cell, step) => {
      const [what, place] = cell.split(".");
      if (what === "source") return "names.0";
      if (what === "names") return `names.${Number(place) + step}`;
      const [i, j] = place.split("-").map(Number);
      return `links.${i}-${j + step}`;
    });
    const refuse = (fault) => this.refuse(fault);
    pasteCells(this.holder, (cell, rows) => this.pasted(cell, rows), readCells, { refuse });
    this.show();
    if (typed.isSourceOpen) refill(this.said, this.sourceQuestion());
    askAgain(this, typed);
  }

  change(doIt, removed) {
    doIt();
    followUnused(this.typed, this.mark());
    this.show();
    this.onChange(undefined, removed);
  }

  show() {
    const { typed } = this, places = typed.names.map((name, i) => withEscapes(name) || `Place ${i + 1}`);
    const names = [sourceName(typed), ...places];
    const ends = names.slice(0, -1), none = el("td", { class: "tool" });
    const isDense = ends.length >= DENSE, lengths = Object.values(typed.links).map(({ length }) => length);
    const digits = Math.max(4, ...lengths);
    const titles = ends.map((name, j) => {
      return el("th", { scope: "col", class: "number" }, !isDense && "to ", j ? name : this.sourceInput());
    });
    const rows = typed.names.map((name, k) => el("tr", {},
      el("th", { scope: "row" }, this.nameInput(name, k)),
      ends.map((other, j) => {
        return el("td", {}, j <= k && this.linkInput(j, k + 1, `Link between ${names[k + 1]} and ${other}`));
      }),
      el("td", { class: "tool" }, typed.names.length > 1 && this.removal(k, names[k + 1]))));
    // a wide grid takes more of the desk
    const source = Math.min(11, Math.max(digits, sourceName(typed).length));
    this.onWide(isDense && 7 + source * 0.5 + 0.75 + (ends.length - 1) * (digits * 0.49 + 0.75) > WIDE);
    const style = `--digits: ${digits}; --source: ${source}`;
    refill(this.holder, el("table", { class: `grid matrix${isDense ? " dense" : ""}`, style },
      el("thead", {}, el("tr", {}, el("th", { scope: "col" }, "A link from"), titles, none)), el("tbody", {}, rows)));
    refill(this.tools, typed.names.length < this.kind.most
      ? button("Add a place", () => this.add(), { class: "quiet" })
      : el("span", { class: "hint" }, "16 places is the most."),
    this.sourceChoice(names));
    refill(this.nobody, this.nobodyThere());
    this.said.classList.toggle("asked", Boolean(typed.isSourceOpen));
    this.help.show();
  }

  /** Asked of places whose names look like a junction: they would pay, and a table of costs can do without them. */
  nobodyThere() {
    const { names, payers = [] } = this.typed, at = junctionsOf(names).filter((k) => !payers.includes(names[k]));
    const all = listed(at.map((k) => `“${withEscapes(names[k])}”`)), [it, pays] = at.length > 1 ? ["them", "they pay"]
      : ["it", "it pays"];
    const asked = at.length > 1 ? `Are ${all} only junctions` : `Is ${all} only a junction`, keep = () => {
      this.remember("A junction pays");
      this.change(() => (this.typed.payers = [...payers, ...at.map((k) => names[k])]));
    };
    return at.length > 0 && [`Each place pays. ${asked}, where nobody is? `,
      button(`Yes: make a table of costs without ${it}`, () => this.help.makeTable(at), { class: "quiet" }), " ",
      button(`No, ${pays}`, keep, { class: "quiet" })];
  }

  /** Which point is the source: the others pay. */
  sourceChoice(names) {
    const choose = (event) => {
      this.remember("Choose the source");
      const next = withSource(this.typed, Number(event.target.value));
      delete this.typed.isSourceOpen;
      this.change(() => Object.assign(this.typed, next));
      refill(this.said, `${sourceName(this.typed)} is the source now.`);
    };
    return el("label", { class: "hint" }, "Source ", el("select", { "data-cell": "which", on: { change: choose } },
      names.map((name, i) => el("option", { value: String(i), selected: i === 0 }, name))));
  }

  /** The source is no player: its name is for show, and isn't asked about. */
  sourceInput() {
    return cellInput({
      cell: "source", value: this.typed.source ?? "", label: "Name of the source", placeholder: "Source",
      onInput: (text) => this.change(() => (this.typed.source = text)),
    });
  }

  nameInput(name, k) {
    return cellInput({
      cell: `names.${k}`, value: name, label: `Name of place ${k + 1}`, placeholder: `Place ${k + 1}`,
      onInput: (text) => this.change(() => (this.typed.names[k] = text)),
    });
  }

  linkInput(i, j, label) {
    const key = `${i}-${j}`, how = this.typed.filled?.[key];
    const input = cellInput({
      cell: `links.${key}`, value: this.typed.links[key] ?? "", isNumber: true,
      label: `${label}${how ? ", filled by the page" : ""}`,
      onInput: (text) => {
        this.typed.links[key] = text;
        input.classList.remove("filled");
        this.typedInto(key);
      },
    });
    input.classList.toggle("filled", Boolean(how));
    return input;
  }

  /** Links that were filled follow those that are typed. */
  typedInto(key) {
    const { [key]: own, ...filled } = this.typed.filled ?? {};
    if (own) this.typed.filled = filled;
    this.help.show();
    const kinds = Object.values(filled), isWay = kinds.includes("way");
    if (!isWay && !kinds.includes("unused")) return this.onChange();
    this.onChange(REFILL);
    clearTimeout(this.refilling);
    const again = () => (isWay ? this.help.again().then(() => this.onChange(0)) : this.change(() => 0));
    this.refilling = setTimeout(again, WAIT);
    return undefined;
  }

  /** A whole network takes the place of all cells; a block of numbers, or names, goes where it was pasted. `said` has
   * what the user said: what a link costs (`cost`, or the `columns` of it), and whether names are of the places here
   * (`isSame`). */
  pasted(cell, rows, said = {}) {
    const { typed } = this, isFirst = ["source", "names.0", "links.0-1"].includes(cell);
    const { cost, columns } = said;
    const found = networkOf(rows, { mark: this.mark(), source: typed.source, cost, columns });
    const use = (more) => this.pasted(cell, rows, { ...said, ...more });
    this.element.again = (grid) => grid.pasted(cell, rows, said);
    if (found?.product) return this.productQuestion(found.product, (cost) => use({ cost }));
    if (found?.asked) return this.columnQuestion(found.asked, (columns) => use({ columns }));
    const isWhole = found && (isFirst || found.fault || found.shape.includes("list") || found.shape.includes("names"));
    const cells = isWhole ? {} : pastedCells(this.kind, typed, cell, blockOf(rows).rows, said);
    const fault = isWhole ? found.fault : cells.fault;
    if (cells.asks) return askNames(this.element, this.said, NAMED, (isSame) => use({ isSame }));
    this.refuse(fault);
    if (fault) return undefined;
    this.remember("Paste");
    if (isWhole) {
      const cells = cellsOfNetwork(found), isSourceOpen = !found.isSure && found.points.some(Boolean);
      cells.source ||= found.points[0] === "" && found.points.some(Boolean) ? typed.source ?? "" : cells.source;
      this.change(() => Object.assign(typed, cells, {
        filled: {}, isSourceOpen, isMarked: undefined, amounts: found.amounts,
      }));
      refill(this.said, takenText(found, sourceName(typed)), isSourceOpen && this.sourceQuestion());
    } else {
      const { told, ...own } = cells;
      this.change(() => Object.assign(typed, own));
      refill(this.said, told);
    }
    this.help.openIfEmpty();
    if (Object.values(this.typed.filled ?? {}).includes("way")) this.help.again();
    return undefined;
  }

  /** Says why nothing was taken, or nothing. */
  refuse(fault) {
    unask(this.element, Boolean(fault));
    refill(this.said, fault && `${fault} Nothing was taken.`);
    this.said.classList.toggle("warn", Boolean(fault));
  }

  /** Asked before anything is taken: a column is a price for each of another, and maybe a third has the product. */
  productQuestion({ price, size, total }, take) {
    const [one, other, third] = [price, size, total ?? ""].map((text) => `“${withEscapes(text)}”`);
    const way = (text, cost) => [button(text, () => take(cost), { class: "quiet" }), " "];
    const asked = `${one} looks like a price for each. Does a link cost ${one} times ${other}? `;
    askIn(this.element, this.said, [asked, way(`Yes, multiply by ${other}`, TIMES),
      way(`No, it costs ${one}`, price), total !== undefined && way(`No, it costs ${third}`, total)]);
  }

  /** Asked before anything is taken: several columns may be the cost, or two of them its factors. */
  columnQuestion(columns, take) {
    const label = (own) => withEscapes(own.map(columnLabel).join(" times "));
    const way = (own) => [button(label(own), () => take(own.map(({ c }) => c)), { class: "quiet" }), " "];
    askIn(this.element, this.said, ["Nothing was taken yet. Which column is the cost? ",
      columns.map((column) => way([column])), areFactors(columns) && way(columns)]);
  }

  /** Asked before there is an answer: nothing that was pasted says which point is the source. */
  sourceQuestion() {
    const points = [this.typed.source ?? "", ...this.typed.names];
    const names = points.map((name, i) => withEscapes(name) || `Point ${i + 1}`);
    const choose = (k) => () => {
      this.remember("Choose the source");
      if (k) Object.assign(this.typed, withSource(this.typed, k));
      delete this.typed.isSourceOpen;
      this.change(() => 0);
      refill(this.said, `${sourceName(this.typed)} is the source.`);
    };
    return [el("b", {}, " Which point is the source? "),
      names.flatMap((name, k) => [button(name, choose(k), { class: "quiet" }), " "])];
  }

  removal(k, name) {
    const remove = () => {
      this.remember(`Remove ${name}`);
      this.change(() => this.remove(k), k);
      if (Object.values(this.typed.filled ?? {}).includes("way")) this.help.again();
    };
    const next = `names.${Math.min(k, this.typed.names.length - 2)}`;
    return removal(this.holder, { label: `Remove ${name}`, remove, next });
  }

  add() {
    this.remember("Add a place");
    this.change(() => this.typed.names.push(""));
    cellOf(this.holder, `names.${this.typed.names.length - 1}`).focus();
  }

  remove(k) {
    Object.assign(this.typed, withoutPlace(this.typed, k));
  }
}

const NO_ROOM = "These don’t fit into the cells from this one on. Paste names into the first name, a triangle of "
  + "numbers into the first link, or all with their names.";

const NAMED = { things: "places", numbers: "costs" };
const AS_LINKS = "Give each link a line: from, to and cost.";

/** The cells with names, or numbers of links, put in from one on; of the worked example nothing stays. {fault} where
 * they don't fit; {asks} for names over others whose links have numbers, until it is said whether they are the same. */
function pastedCells(kind, typed, cell, block, said) {
  const kept = block.filter((row) => row.some(Boolean)), own = kept.length > 1 ? kept : kept.flat().map((one) => [one]);
  const told = ({ names, links }) => JSON.stringify([names, links]);
  const isNew = told(typed) === told(kind.example());
  const what = { isNew, own, old: isNew ? {} : typed, most: kind.most };
  return block.flat().some(isText) ? pastedNames(what, cell, said) : pastedLinks(what, cell, block);
}

function pastedNames({ isNew, own, old, most }, cell, { isSame }) {
  const [where, place = "0"] = cell.split("."), at = isNew || isSame === false ? 0 : Number(place);
  const isOdd = where !== "names" || own.some(([, other]) => other);
  const fault = notNames(own.map(([name]) => name), AS_LINKS) ?? (isOdd || at + own.length > most ? NO_ROOM : null);
  if (fault) return { fault };
  const before = old.names?.slice(at, at + own.length) ?? [], isOver = before.some((name) => name.trim());
  if (isSame === undefined && isOver && Object.values(old.links).some((text) => text.trim())) return { asks: true };
  const names = isSame === false ? [] : [...(old.names ?? [])], links = isSame === false ? {} : { ...old.links };
  own.forEach(([name], k) => (names[at + k] = name));
  const told = `Taken as the names of ${plural(own.length, "place")}.`;
  const filled = isSame === false ? {} : { ...old.filled };
  return { names, links, filled, told, ...((isNew || isSame === false) && { source: "", isSourceOpen: false }) };
}

function pastedLinks({ isNew, own, old, most }, cell, block) {
  const [what, place = "0"] = cell.split("."), { length } = own, isFirst = place === "0-1";
  if (what !== "links" || !length || (isNew && !isFirst)) return { fault: NO_ROOM };
  const names = [...(old.names ?? [])], links = { ...old.links }, filled = { ...old.filled };
  while ((isNew || isFirst) && names.length < block.filter((row) => row.some(Boolean)).length) names.push("");
  const [i0, j0] = place.split("-").map(Number), cells = block.flatMap((row, r) => {
    return row.map((text, c) => [i0 + c, j0 + r, text]).filter(([, , text]) => text);
  });
  if (names.length > most || cells.some(([i, j]) => i >= j || j > names.length)) return { fault: NO_ROOM };
  for (const [i, j, text] of cells) {
    links[`${i}-${j}`] = /^[-–—x]$/i.test(text) ? "" : text;
    delete filled[`${i}-${j}`];
  }
  return { names, links, filled, ...(isNew && { source: "" }) };
}
