// A place to paste the list of a whole table: groups with their numbers, or numbers alone as other programs have them.
import { MANY } from "../game/words.js";
import { button, el } from "./dom.js";

const MOST_SHOWN = 20000; // letters; a longer list is read at once, since it would keep the area busy

/** `onList(text, order, close)` takes a list; one that is refused is left to be mended. */
export function pasteBox(onList) {
  const paste = (event) => {
    const text = event.clipboardData?.getData("text/plain") ?? "";
    if (text.length <= MOST_SHOWN) return;
    event.preventDefault();
    use(text);
  };
  const area = el("textarea", {
    rows: "5", on: { paste }, placeholder: "Sales\t8\nOps\t7.50\nSales+Ops\t10\n…", spellcheck: "false",
    "aria-label": "A list of groups and numbers",
  });
  const order = el("select", { "aria-label": "The order of numbers alone" },
    el("option", { value: "size" }, "by size: 1, 2, 3, 1+2, 1+3, 2+3, 1+2+3"),
    el("option", { value: "mask" }, "by masks: 1, 2, 1+2, 3, 1+3, 2+3, 1+2+3"));
  const use = (text) => onList(text, order.value, () => { box.open = false; });
  const box = el("details", { class: "inline" }, el("summary", {}, "Paste a whole list"),
    el("p", { class: "hint" }, "One line for each group: its members with + between them, and its number. The players ",
      "are those with a line of their own. Or only the numbers, one a line, without the group of nobody. ",
      MANY),
    area,
    el("p", { class: "order" }, el("label", {}, "Numbers without groups are in the order ", order)),
    el("p", {}, button("Use this list", () => use(area.value), { class: "main" })));
  return box;
}
