// A text that was pasted and isn't taken: it is asked about, or was refused. Until that is settled the cells and the
// answer are those of before, which is said of them.
import { button, refill, unask } from "./dom.js";

/** The grid in `element` whose pasted text isn't taken: {grid, isAsked}; null where none is. */
export function untakenIn(element) {
  const grid = element.querySelector(".asks, .refused");
  return grid && { grid, isAsked: grid.classList.contains("asks") };
}

/** The text of a grid goes: with its question, and, `isWhole`, with what was said of it. Whether there was one. */
export function dropText(grid, isWhole = false) {
  const isAsked = grid.classList.contains("asks");
  if (!isAsked && !grid.classList.contains("refused")) return false;
  if (isAsked || isWhole) refill(grid.querySelector(':scope > [role="status"]'));
  unask(grid);
  return true;
}

/** In a sentence, as the page and paper have it; "" where no text is `untaken`. */
export function stillText(untaken, isExample) {
  if (!untaken) return "";
  const of = `This is still the answer of the ${isExample ? "worked example" : "table before"}.`;
  return untaken.isAsked ? `${of} Nothing of your text was taken yet: first answer the question beside the cells.`
    : `${of} Your text wasn’t taken: why is said beside the cells.`;
}

/** The same with a way back to the cells as they are, of which `onKeep` is told. */
export function stillParts(untaken, isExample, onKeep) {
  const back = () => {
    onKeep();
    dropText(untaken.grid, true);
    untaken.grid.querySelector("input")?.focus();
  };
  return untaken && [stillText(untaken, isExample), " ",
    button(`Keep the ${isExample ? "worked example" : "table before"}`, back, { class: "quiet" })];
}
