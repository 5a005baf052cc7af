// What one landing of each type pays, where the landings of a runway have types.
import { shortText } from "../exact/decimals.js";
import { el } from "./dom.js";

/** The types of rows {type, cost}, each once: {label, r}. One that stands with several costs is told with each. */
function typesOf(rows) {
  const first = new Map();
  rows.forEach(({ type, cost }, r) => {
    const key = `${type}\n${cost}`;
    if (type && !first.has(key)) first.set(key, r);
  });
  const found = [...first.values()], isAlone = (type) => found.filter((r) => rows[r].type === type).length === 1;
  return found.map((r) => {
    const { type, cost } = rows[r];
    return { r, label: isAlone(type) ? type : `${type} needing ${shortText(cost)}` };
  });
}

/** As lines of cells; `points` are {title, each}, with the share of a landing of each row. Where no row has a type and
 * `isOfRows`, a row is one. */
export function typeLines(rows, points, { show }, isOfRows = false) {
  const found = typesOf(rows), all = !found.length && isOfRows ? rows.map(({ label }, r) => ({ label, r })) : found;
  const types = all.map(({ label, r }) => [label, show(rows[r].cost), ...points.map(({ each }) => show(each[r]))]);
  return types.length ? [["One use of", "needs", ...points.map(({ title }) => title)], ...types] : [];
}

/** Nothing where no row has a type. */
export function typesTable(rows, points, format) {
  return linesTable("What one use of each type pays", typeLines(rows, points, format));
}

/** Lines of cells as a table with a title, the first of them as its head; nothing where there are none. */
export function linesTable(title, [head, ...lines], kind = "shares") {
  const cell = (text, c) => (c ? el("td", { class: "number" }, text) : el("th", { scope: "row" }, text));
  return head && el("div", { class: "lines" }, el("h3", {}, title), el("div", { class: "scroll" },
    el("table", { class: kind },
      el("thead", {}, el("tr", {}, head.map((text, c) => el("th", { scope: "col", class: c ? "number" : "" }, text)))),
      el("tbody", {}, lines.map((line) => el("tr", {}, line.map(cell)))))));
}
