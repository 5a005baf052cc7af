// A table on paper.
import { el } from "./dom.js";

const MOST_ROWS = 18; // of one table; more stand in two, side by side

/** One table; if there are many rows two, side by side, with the sum below the second. */
export function halves(count, heads, line, sum) {
  const isLong = count > MOST_ROWS, middle = isLong ? Math.ceil(count / 2) : count;
  const head = el("thead", {}, el("tr", {}, heads.map((title, k) => {
    return el("th", { scope: "col", class: k ? "number" : "" }, title);
  })));
  const tables = [[0, middle], [middle, count]].filter(([from, to]) => from < to).map(([from, to]) => {
    const lines = Array.from({ length: to - from }, (_, k) => line(from + k));
    return el("table", { class: isLong ? "shares dense" : "shares" }, head.cloneNode(true), el("tbody", {}, lines),
      el("tfoot", {}, to === count && sum));
  });
  return el("div", { class: "halves" }, tables);
}
