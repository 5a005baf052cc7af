// The start: the cases in plain words, and the ways to bring a document or a line.
import { CASES } from "../cases/cases.js";
import { el as tree } from "../draw/tree.js";
import { el } from "./dom.js";

/** Small line drawings, one for each case. */
const ICONS = {
  runway: ["M4 26h24", "M4 20h17", "M4 14h10", "M24 6l-6 4-5-1-2 1 4 2-3 2"],
  estate: ["M6 27V15", "M13 27V11", "M20 27V7", "M27 27V4", "M3 19h27"],
  costs: ["M5 5h22v22H5z", "M5 12h22", "M14 5v22", "M18 17h5", "M18 22h5"],
  gains: ["M5 5h22v22H5z", "M5 12h22", "M14 5v22", "M18 20h6", "M21 17v6"],
  network: [
    "M8 15l6-5", "M8 17l6 5", "M18 23l6-2",
    ...[[6, 16], [16, 8], [16, 24], [26, 20]].map(([x, y]) => `M${x - 2} ${y}a2 2 0 1 0 4 0a2 2 0 1 0-4 0`),
  ],
  market: ["M5 9h16", "M17 5l5 4-5 4", "M27 22H11", "M15 18l-5 4 5 4"],
  votes: ["M6 15h20v12H6z", "M11 15V5h10v10", "M13.5 9.5l2 2 3.5-4"],
  document: ["M8 3h11l6 6v20H8z", "M19 3v6h6", "M12 16h9", "M12 21h9"],
  check: ["M16 3l11 4v9c0 7-5 11-11 13C10 27 5 23 5 16V7z", "M11 16l4 4 7-8"],
};

function icon(name) {
  return tree("svg", { class: "icon", viewBox: "0 0 32 32", width: 32, height: 32, "aria-hidden": "true" },
    ICONS[name].map((d) => tree("path", { d })));
}

export function startCards({ onCase, onDocument, onCheck }) {
  const card = (name, title, teaser, onClick, kind = "card") => el("li", {},
    el("button", { type: "button", class: kind, on: { click: onClick } },
      icon(name), el("span", { class: "title" }, title), el("span", { class: "teaser" }, teaser)));
  return el("ul", { class: "cards" },
    CASES.map((kind) => card(kind.id, kind.title, kind.teaser, () => onCase(kind))),
    card("check", "Check an answer", "Somebody sent you an answer of this program. Two checkers say whether its shares "
      + "are right.", onCheck, "card other-start"),
    card("document", "Open a saved case", "Or a document, or a line of the program.", onDocument, "card other-start"));
}
