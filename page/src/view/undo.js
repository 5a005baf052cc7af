// The steps of a case: what can be undone, and done again.
import { button, el, refill } from "./dom.js";

const MOST = 20; // steps that are kept
const TYPING = "Typing";

/** Steps with their names, each with the cells that it brings back: `past` to undo, `undone` to do again. */
export class Steps {
  constructor() {
    Object.assign(this, { past: [], undone: [] });
  }

  /** Before one more step the cells held these; what was undone is forgotten then. */
  add(what, cells) {
    this.past = [...this.past, { what, cells }].slice(-MOST);
    this.undone = [];
  }

  /** Goes back one step, or on with `isRedo`: the cells there. `now(cells)` gives what stands in their place. */
  go(isRedo, now) {
    const [from, to] = isRedo ? [this.undone, this.past] : [this.past, this.undone];
    const { what, cells } = from.pop();
    to.push({ what, cells: now(cells) });
    return cells;
  }
}

/** Cells as a text; what is `offered` beside them is no step. */
const textOf = (cells) => JSON.stringify(cells, (key, one) => {
  return key === "offered" ? undefined : typeof one === "bigint" ? String(one) : one;
});

/** The two buttons, as `element`. `remember(what)` is called before a step changes the cells, and `typing(what)` before
 * a key does: what is typed is one step, until another comes. `watch(panel)` sees keys and clicks in a panel by itself,
 * and `changed()`, behind each change, says whether it was typed. What follows a step by itself belongs to it.
 * `snapshot()` gives the cells, `onUndo(isRedo)` goes. */
export class Undoing {
  constructor({ steps, snapshot, onUndo }) {
    Object.assign(this, { steps, snapshot, onUndo, element: el("span") });
    Object.assign(this, { still: null, typed: null, clicked: null }); // the cells before a key, its step, and a click
    this.show();
  }

  show() {
    const { steps, onUndo } = this, way = (word, isRedo, last) => last
      && button(`${word} “${last.what}”`, () => onUndo(isRedo), { class: "quiet" });
    refill(this.element, way("Undo", false, steps.past.at(-1)), " ", way("Redo", true, steps.undone.at(-1)));
  }

  remember(what, cells = this.snapshot()) {
    this.steps.add(what, cells);
    this.fresh = this.steps.past.at(-1);
    this.typed = this.still = null;
    this.show();
  }

  isTyping(what) {
    return this.typed !== null && this.typed === this.steps.past.at(-1) && this.typed.what === what;
  }

  typing(what, cells) {
    if (this.isTyping(what)) return;
    this.remember(what, cells);
    this.typed = this.steps.past.at(-1);
  }

  watch(panel) {
    const still = () => (this.isTyping(TYPING) ? this.typed.cells : this.snapshot());
    panel.addEventListener("input", () => { this.still = still(); }, true);
    panel.addEventListener("input", () => { this.still = null; });
    panel.addEventListener("click", ({ target }) => {
      const one = target.closest("button");
      this.clicked = one && { what: one.textContent, last: this.steps.past.at(-1), cells: this.snapshot() };
    }, true);
    panel.addEventListener("click", () => this.behindClick());
  }

  /** A button that changed cells was a step, if it didn't say so itself. */
  behindClick() {
    const { what, last, cells } = this.clicked ?? {}, isStep = this.clicked && last === this.steps.past.at(-1);
    if (isStep && textOf(cells) !== textOf(this.snapshot())) this.remember(what, cells);
    this.clicked = null;
  }

  /** What was remembered is no step if the cells are as they were. Whether that is so. */
  withoutEmpty() {
    const { fresh, steps } = this, isEmpty = fresh && fresh === steps.past.at(-1)
      && textOf(fresh.cells) === textOf(this.snapshot());
    this.fresh = null;
    if (!isEmpty) return false;
    steps.past.pop();
    this.show();
    return true;
  }

  changed() {
    const isEmpty = this.withoutEmpty(), isTyped = this.still !== null;
    if (isTyped && !isEmpty) this.typing(TYPING, this.still);
    return isTyped;
  }
}
