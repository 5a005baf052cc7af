// What is asked of names that were pasted alone over others with numbers beside them.
import { askIn, button } from "./dom.js";

/** Asks, before anything is taken, whether the numbers here are of the names that came; `use` is told so. */
export function askNames(grid, said, { things, numbers }, use) {
  const way = (text, isSame) => button(text, () => use(isSame), { class: "quiet" });
  askIn(grid, said, [`Nothing was taken yet. These are names alone. Do the ${numbers} here belong to them? `,
    way("Yes, to the same by other names", true), " ",
    way(`No, these are other ${things}: empty the ${numbers}`, false)]);
}
