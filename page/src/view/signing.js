// Lines to sign, for the printed page.
import { el } from "./dom.js";

const MOST_SIGNING = 12; // parties that have a line each

/** A line to sign for each party, of airlines one for all their rows; one for all if there are many. */
export function signing(rows) {
  const who = [...new Set(rows.map(({ label, sum = label }) => sum))];
  if (who.length > MOST_SIGNING) {
    return el("p", { class: "sign" }, "Agreed on by", el("span"), "on", el("span", { class: "short" }));
  }
  return el("div", { class: "signs" }, el("p", {}, "Agreed on by"), who.map((name) => {
    return el("p", { class: "sign" }, el("b", {}, name), el("span"), "on", el("span", { class: "short" }));
  }));
}
