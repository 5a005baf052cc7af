// What the grids of all cases share: a cell to type in, moving by keys, and pasting.
import { tooMuch } from "../cases/bounds.js";
import { cellsOf } from "../cases/pasting.js";
import { button, cellOf, el } from "./dom.js";

const MOST_LETTERS = 200; // of a cell: longer names and numbers are refused anyway
const LONG = 20000; // letters of a pasted text that a worker reads

/** An input with the name of its cell. */
export function cellInput({ cell, value, label, placeholder = "", isNumber = false, onInput }) {
  return el("input", {
    type: "text", value, placeholder, autocomplete: "off", spellcheck: "false", maxlength: MOST_LETTERS,
    inputmode: isNumber ? "decimal" : false, class: isNumber ? "number" : "name",
    "data-cell": cell, "aria-label": label, on: { input: (event) => onInput(event.target.value) },
  });
}

/** The × that removes a row, or a player; `next` names the cell of `element` that has the focus then. Tab passes it by,
 * so that the way through the cells is short: Alt+Delete in the cells does the same. */
export function removal(element, { label, title = label, remove, next }) {
  const onClick = () => {
    remove();
    cellOf(element, next)?.focus();
  };
  return button("×", onClick, {
    class: "remove", tabindex: "-1", "aria-label": label, "aria-keyshortcuts": "Alt+Delete", title,
  });
}

/** Alt+Delete removes the row, or the player, of a cell. */
export function removeByKey(element) {
  element.addEventListener("keydown", (event) => {
    const isKey = event.key === "Delete" && event.altKey, row = isKey && event.target.closest("tr, .player");
    if (!row) return;
    event.preventDefault();
    row.querySelector(".remove")?.click();
  });
}

/** Enter and the arrows up and down go to the cell below or above; `neighbour(cell, step)` names it. */
export function moveByKeys(element, neighbour) {
  removeByKey(element);
  element.addEventListener("keydown", (event) => {
    const step = { Enter: event.shiftKey ? -1 : 1, ArrowDown: 1, ArrowUp: -1 }[event.key];
    if (!step || event.altKey || event.ctrlKey || event.metaKey || event.target.dataset.cell === undefined) return;
    const next = cellOf(element, neighbour(event.target.dataset.cell, step) ?? "");
    event.preventDefault();
    next?.focus();
    next?.select?.();
  });
}

/** What is pasted over several cells goes to `fill(cell, rows, text)`; a text for one cell is pasted as ever, if it
 * isn't several rows (`isSeveral`). A long one is read by `readCells`, beside the page. So is a text that comes by
 * "take-text". Each is told by "pasted-text". One that is too much to be read goes to `refuse(sentence)`, in which only
 * lines of numbers may be long (`isLong`). */
export function pasteCells(element, fill, readCells, { refuse, isLong, isSeveral = () => false }) {
  const rowsOf = (text) => (text.length > LONG ? undefined : cellsOf(text));
  const take = async (cell, text, rows) => {
    element.dispatchEvent(new CustomEvent("pasted-text", { bubbles: true, detail: { cell, text } }));
    const fault = tooMuch(text, { isLong });
    if (fault) return refuse(fault);
    return fill(cell, rows ?? await readCells(text), text);
  };
  element.addEventListener("take-text", ({ detail: { cell, text } }) => take(cell, text, rowsOf(text)));
  element.addEventListener("paste", (event) => {
    const text = event.clipboardData?.getData("text/plain") ?? "", cell = event.target.dataset?.cell;
    if (cell === undefined || cell === "find") return undefined;
    const rows = rowsOf(text);
    if (rows?.length === 1 && rows[0].length < 2 && !isSeveral(rows, cell)) return undefined;
    event.preventDefault();
    return take(cell, text, rows);
  });
}

/** Marks the cells that have a fault, with its sentence. */
export function markFaults(element, faults) {
  const sentences = new Map(faults.map(({ cell, sentence }) => [cell, sentence]));
  for (const input of element.querySelectorAll("[data-cell]")) {
    const sentence = sentences.get(input.dataset.cell);
    if (sentence) {
      input.setAttribute("aria-invalid", "true");
      input.setAttribute("title", sentence);
    } else if (input.hasAttribute("aria-invalid")) {
      input.removeAttribute("aria-invalid");
      input.removeAttribute("title");
    }
  }
}

/** Marks the cells whose numbers can hardly be meant, with the sentence that says why. */
export function markOdds(element, odds) {
  const sentences = new Map(odds.map(({ cell, sentence }) => [cell, sentence]));
  for (const input of element.querySelectorAll("[data-cell]")) {
    const sentence = sentences.get(input.dataset.cell), isMarked = input.classList.contains("odd");
    input.classList.toggle("odd", Boolean(sentence));
    if (sentence) input.title = sentence;
    else if (isMarked && !input.hasAttribute("aria-invalid")) input.removeAttribute("title");
  }
}

/** Marks the cells on whose numbers the answer rests, and says of each number how far off it may be: `tips(cell)`. */
export function showTips(element, tips) {
  for (const input of element.querySelectorAll("input.number")) {
    const tip = tips?.(input.dataset.cell), place = input.parentElement;
    place.classList.toggle("decides", Boolean(tip?.isDeciding));
    place.title = tip?.text ?? "";
    if (tip) input.setAttribute("aria-description", tip.text);
    else input.removeAttribute("aria-description");
  }
}
