// What is in the place of the answer while there is none: what is missing or wrong in the cells, and the way on.
import { plural } from "../game/words.js";
import { button, el } from "./dom.js";

const MOST_FAULTS = 3;

/** `reading` is null before anything was read. `goTo(cell)` leads to a cell, `labelOf(cell)` names it, and `choices()`
 * are ways to fill what is empty, if the case has any. */
export function waitingParts(reading, { goTo, labelOf, choices }) {
  if (!reading) return el("p", {}, "Fill in the cells, and the answer appears here.");
  const { faults, count, empty, isAsking, isPaused, notes } = reading;
  if (count) {
    const items = faults.slice(0, MOST_FAULTS).map(({ cell, sentence }) => {
      const name = labelOf(cell).replace(/^The (cost|gain) of /, "");
      return el("li", {}, button(`${name}: ${sentence}`, () => goTo(cell), { class: "fault" }));
    });
    const rest = count - items.length;
    return [el("p", {}, "There is no answer while a cell can’t be read:"),
      el("ul", {}, items, rest > 0 && el("li", {}, `and ${rest} more`))];
  }
  if (isAsking) return el("p", {}, "The answer waits for the question beside the cells.");
  if (isPaused && !empty.count) return el("p", {}, notes.at(-1)); // all is there, and no answer needed
  if (!empty.count) return el("p", {}, "Fill in the cells, and the answer appears here.");
  return [el("p", {}, `${plural(empty.count, "cell is", "cells are")} still empty. Then the answer appears here.`),
    choices?.()];
}
