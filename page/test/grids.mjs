// The grids of the cases without a browser: a desk at which texts are pasted, and which says what then is read.
import { caseNamed } from "../src/cases/cases.js";
import { questions } from "../src/view/case-questions.js";
import { listGrid } from "../src/view/list-grid.js";
import { marketGrid } from "../src/view/market-grid.js";
import { networkGrid } from "../src/view/network-grid.js";
import { tableGrid } from "../src/view/table-grid.js";
import { readCase, readCells, readList } from "../src/work/cases.js";

const GRIDS = { list: listGrid, market: marketGrid, network: networkGrid, table: tableGrid };
const nothing = () => 0;

export const settled = () => new Promise(setImmediate);

/** What a grid needs of a document. */
class Element {
  nodes = []; on = {}; attributes = {}; dataset = {};
  classList = { toggle: nothing, remove: nothing, contains: nothing };

  append(...some) {
    for (const one of some) if (one instanceof Element) one.parentElement = this;
    this.nodes.push(...some);
  }

  replaceChildren(...some) { this.nodes = some; }
  setAttribute(name, value) { this.attributes[name] = value; }
  addEventListener(name, listener) { this.on[name] = listener; }
  querySelectorAll() { return []; }
  all() { return [this, ...this.nodes.flatMap((one) => (one instanceof Element ? one.all() : []))]; }
  get firstChild() { return this.nodes[0]; }
  get childElementCount() { return this.nodes.length; }
  get textContent() { return this.nodes.map((one) => one.textContent ?? one).join(""); }
  set textContent(text) { this.nodes = [text]; }
}
for (const name of ["after", "contains", "dispatchEvent", "focus", "querySelector"]) Element.prototype[name] = nothing;
globalThis.document = { createElement: (tagName) => Object.assign(new Element(), { tagName }) };
const buttonsIn = (some) => some.flatMap((one) => one.all()).filter(({ tagName }) => tagName === "button");

/** A case with its grid, which begins with its worked example. */
export class Desk {
  constructor(id, mark) {
    Object.assign(this, { id, kind: caseNamed(id), mark }).open(caseNamed(id).example());
  }

  open(typed) {
    this.typed = typed;
    this.grid = GRIDS[this.kind.grid](this.kind, typed, {
      mark: () => this.mark, onChange: nothing, onWide: nothing, remember: nothing, help: async () => ({ notes: [] }),
      readCells: async (text) => readCells({ text }), readList: async (what) => readList({ ...what, mark: this.mark }),
    });
  }

  /** Pastes a text into a cell, and awaits what the grid makes of it. */
  async paste(cell, text) {
    const { on } = this.grid.all().findLast((one) => one.on.paste), clipboardData = { getData: () => text };
    await on.paste({ target: { dataset: { cell } }, clipboardData, preventDefault: nothing });
    await settled();
  }

  /** The case that is read, beside an estate or a quota of 1; what is said and asked, and the buttons of both. */
  read() {
    const { id, kind, typed, mark } = this, own = { ...typed, ...(kind.single && { [kind.single.key]: "1" }) };
    const reading = readCase({ id, typed: kind.pack?.(own) ?? own, mark, measure: "plain", isMarked: typed.isMarked });
    const said = this.grid.all().filter(({ attributes }) => attributes.role === "status");
    const asked = reading.isAsking ? questions(reading, typed, {
      onReset: (next) => this.open(next), onChange: nothing,
      setEntry: (by) => Object.assign(this, { mark: by }) && Object.assign(typed, { isMarked: true }),
    }).flat(Infinity).filter(Boolean) : [];
    const textOf = (some) => some.map((one) => one.textContent).join(" ");
    const [buttons, answers] = [[this.grid], said].map((some) => buttonsIn([...some, ...asked]));
    return { reading, buttons, answers, said: textOf(said), asked: textOf(asked) };
  }

  /** What stands in the cells, empty ones of a row as "". */
  cells() {
    const { rows, ...others } = this.typed, keys = this.kind.columns?.map(({ key }) => key) ?? [];
    const lines = rows?.map((row) => keys.map((key) => row[key] ?? "").filter((text, c) => text || c !== 1));
    const filled = lines?.filter((line) => line.some(Boolean)).map((line) => line.join("="));
    const { source, names, numbers, links, buyers, sellers, values, limits } = others;
    const trades = limits ? [limits.sellers, limits.buyers] : values;
    const parts = [source, names, numbers?.slice(1), links && Object.entries(links), sellers, buyers, trades];
    return filled ? filled.join("|") : parts.filter(Boolean).flat(2).join("|");
  }
}
