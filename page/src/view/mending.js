// The text that was pasted: rows and columns that are in the way can be left out right there, and cells typed over.
// Then it is read again, here or in another case, so nobody has to go back to where it came from. It stands open where
// a text was refused, and folded where it is asked about, or was taken and nothing was changed since.
import { CASES } from "../cases/cases.js";
import { cellsOf } from "../cases/pasting.js";
import { button, cellOf, el, refill } from "./dom.js";
import { dropText } from "./untaken.js";

const MOST_ROWS = 60, MOST_COLUMNS = 12, MOST_LETTERS = 20000; // of a text that is shown
const MOST_WIDE = 60; // letters that a cell shows at most
const QUOTED = /“([^”…]{3,200})”/gu; // what a sentence quotes
const TAKING = "Paste"; // the step by which a grid takes a text
const TITLES = { asks: "None of these? Change your text", taken: "Not as you meant it? Change your text" };

const pasted = new Map(); // by the id of a case: {cell, text, last} with the last step before

/** Shows the text that was pasted into the grid of a case, below what is said of it, and gives what shows it anew. The
 * grid tells what is pasted by "pasted-text", and takes one by "take-text". */
export function mendIn(grid, kind, { steps, onUndo, onCase }) {
  const said = grid.querySelector(':scope > [role="status"]'), place = el("div", { class: "mend screen" });
  const lastStep = () => steps.past.at(-1);
  const stateOf = ({ step }) => ["asks", "refused"].find((state) => grid.classList.contains(state))
    ?? (step && step === lastStep() && "taken");
  const show = () => {
    const kept = pasted.get(kind.id), state = kept && stateOf(kept);
    const rows = state && kept.text.length <= MOST_LETTERS ? cellsOf(kept.text) : [];
    const isFit = rows.length <= MOST_ROWS && widthOf(rows) <= MOST_COLUMNS;
    const read = (text, id) => {
      if (state === "taken") onUndo(false); // it was read as something else
      if (id) readIn(id, text, { grid, onCase });
      else takeText(text, kept.cell);
    };
    const quoting = state === "refused" ? said.textContent : "";
    const shown = state && isFit && rows.flat().some(Boolean) && new Mending(rows, kind, quoting, read).element;
    refill(place, shown && (quoting ? shown : el("details", {}, el("summary", {}, TITLES[state]), shown)));
  };
  said.after(place);
  grid.addEventListener("pasted-text", ({ detail }) => {
    pasted.set(kind.id, detail && { ...detail, last: lastStep() });
  });
  grid.addEventListener("untaken", () => queueMicrotask(() => { // what is said of it, and its step, come right behind
    const kept = pasted.get(kind.id), step = lastStep();
    if (kept && step !== kept.last && step?.what === TAKING) kept.step ??= step;
    show();
  }));
  show();
  return show;
}

/** Has another case take a text that isn’t taken in this one. */
export function readIn(id, text, { grid, onCase }) {
  dropText(grid, true);
  onCase(id);
  takeText(text);
}

/** Has the case take a text as if it were pasted into a cell: the first one for a table, if none is said, or if that is
 * on another page of a long table. */
export function takeText(text, cell) {
  const body = document.getElementById("case-body"), named = cell === undefined ? null : cellOf(body, cell);
  const target = named ?? body.querySelector('[data-cell^="names."], .grid tbody [data-cell]');
  target.dispatchEvent(new CustomEvent("take-text", {
    bubbles: true, detail: { cell: cell ?? target.dataset.cell, text },
  }));
}

const widthOf = (rows) => rows.reduce((most, { length }) => Math.max(most, length), 0);

class Mending {
  /** Rows that the sentence `said` quotes are marked; `read(text, id)` reads what is left, also in another case. */
  constructor(given, kind, said, read) {
    const rows = given.length > 1 ? given : given[0].map((cell) => [cell]); // parts of one line are lines
    this.wide = widthOf(rows);
    this.rows = rows.map((row) => ({ cells: Array.from({ length: this.wide }, (_, c) => row[c] ?? ""), isIn: true }));
    this.columns = Array(this.wide).fill(true);
    const quoted = [...said.matchAll(QUOTED)].map(([, text]) => text);
    const isQuoted = ({ cells }) => quoted.some((text) => cells.join(" ").includes(text));
    this.marked = quoted.length ? this.rows.filter(isQuoted) : [];
    this.body = el("tbody");
    const submit = (event) => {
      event.preventDefault();
      read(this.text());
    };
    this.element = el("form", { on: { submit } },
      el("p", {}, "Your text: untick what is to be left out, or type over it. Then ",
        button("Read it again", undefined, { type: "submit", class: "main" }), this.leaving(read),
        this.elsewhere(kind, read)),
      el("div", { class: "scroll" }, el("table", { class: "grid" }, this.wide > 1 && this.head(), this.body)));
    this.show();
  }

  /** What is left of the text. */
  text() {
    const kept = this.rows.filter(({ isIn }) => isIn).map(({ cells }) => cells.filter((_, c) => this.columns[c]));
    return kept.map((cells) => cells.join("\t").replace(/\t+$/, "")).join("\n");
  }

  /** A button for the one row that is in the way. */
  leaving(read) {
    const [row, other] = this.marked, leave = () => {
      row.isIn = false;
      read(this.text());
    };
    return row && !other && this.rows.length > 2 && [" or ", button("Leave the marked row out", leave)];
  }

  /** The other cases, for a text that belongs to one of them. */
  elsewhere(kind, read) {
    const choose = ({ target }) => read(this.text(), target.value);
    const others = CASES.filter((other) => other !== kind).map(({ id, title }) => el("option", { value: id }, title));
    return [" ", el("label", {}, "or read it as ",
      el("select", { on: { change: choose } }, el("option", {}, "another case"), others))];
  }

  tick(label, isIn, onTick) {
    return el("td", { class: "tool" }, el("input", {
      type: "checkbox", checked: isIn, "aria-label": label, on: { change: ({ target }) => onTick(target.checked) },
    }));
  }

  head() {
    const tickOf = (isIn, c) => this.tick(`Take column ${c + 1}`, isIn, (isTaken) => {
      this.columns[c] = isTaken;
      this.show();
    });
    return el("thead", {}, el("tr", {}, el("td", { class: "tool" }), this.columns.map(tickOf)));
  }

  show() {
    refill(this.body, this.rows.map((row, r) => row.cells.some(Boolean) && this.rowOf(row, r)));
  }

  rowOf(row, r) {
    const tick = this.tick(`Take row ${r + 1}`, row.isIn, (isTaken) => {
      row.isIn = isTaken;
      this.show();
    });
    const inputOf = (text, c) => el("td", { class: row.isIn && this.columns[c] ? "" : "out" }, el("input", {
      type: "text", value: text, size: String(this.sizeOf(c)), spellcheck: "false", autocomplete: "off",
      "aria-label": `Row ${r + 1}, column ${c + 1} of your text`,
      on: { input: ({ target }) => (row.cells[c] = target.value) },
    }));
    return el("tr", { class: this.marked.includes(row) ? "marked" : "" }, tick, row.cells.map(inputOf));
  }

  /** Letters that the cells of a column show. */
  sizeOf(c) {
    return Math.min(MOST_WIDE, Math.max(4, ...this.rows.map(({ cells }) => cells[c].length)));
  }
}
