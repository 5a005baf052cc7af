// The limit prices of a market: a list of the buyers and one of the sellers, and what they make each pair gain.
import { shortText } from "../exact/decimals.js";
import { Rational } from "../exact/rational.js";
import { withEscapes } from "../game/names.js";
import { cellInput } from "./cells.js";
import { button, el } from "./dom.js";

const SIDES = { buyers: ["Buyer", "Pays at most"], sellers: ["Seller", "Takes at least"] };

/** The two lists. `add(side)` adds a row, and `remove(side, k, label)` gives the button that removes one. */
export function priceLists(typed, { most, onInput, add, remove }) {
  const listOf = ([side, [who, title]]) => {
    const rows = typed[side].map((_, k) => rowOf(typed, { side, who, title, k, onInput, remove }));
    const heads = [el("th", { scope: "col" }, who), el("th", { scope: "col", class: "number" }, title)];
    const more = typed[side].length < most
      && button(`Add a ${who.toLowerCase()}`, () => add(side), { class: "quiet" });
    return el("div", {}, el("table", { class: "grid" },
      el("thead", {}, el("tr", {}, heads, el("td", { class: "tool" }))), el("tbody", {}, rows)),
    el("p", { class: "tools" }, more));
  };
  return el("div", { class: "limits" }, Object.entries(SIDES).map(listOf));
}

function rowOf(typed, { side, who, title, k, onInput, remove }) {
  const named = (text) => withEscapes(text.trim()) || `${who} ${k + 1}`, name = typed[side][k];
  const cell = (key, list, settings) => cellInput({
    cell: key, value: list[k], ...settings,
    onInput: (text) => {
      list[k] = text;
      onInput();
    },
  });
  return el("tr", {},
    el("td", {}, cell(`${side}.${k}`, typed[side], { label: `${who} ${k + 1}`, placeholder: `${who} ${k + 1}` })),
    el("td", {}, cell(`limits.${side}.${k}`, typed.limits[side], {
      isNumber: true, label: `${named(name)}: ${title.toLowerCase()}`,
    })),
    el("td", { class: "tool" }, typed[side].length > 1 && remove(side, k, `Remove ${named(name)}`)));
}

/** What each pair gains by these prices, folded; nothing while that isn't known. */
export function gainsPart({ buyers }, { facts, rows }) {
  const names = rows.map(({ label }) => label), sellers = names.slice(buyers.length);
  const head = (text) => el("th", { scope: "col", class: "number" }, text);
  return facts?.limits && el("details", { class: "inline traders" }, el("summary", {}, "What each pair gains"),
    el("div", { class: "scroll" }, el("table", { class: "small gains" },
      el("thead", {}, el("tr", {}, el("th", {}), sellers.map(head))),
      el("tbody", {}, facts.rows.map((row, i) => el("tr", {}, el("th", { scope: "row" }, names[i]),
        row.map((gain) => el("td", { class: "number" }, shortText(Rational.of(gain))))))))));
}
