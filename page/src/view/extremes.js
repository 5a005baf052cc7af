// The answer in a sentence, if many pay or get.
import { el } from "./dom.js";

/** Of many: who pays or gets most, and who least. */
export function extremes({ who, totals, texts, verb }) {
  const place = (isBetter) => totals.reduce((best, value, k) => (isBetter(value, totals[best]) ? k : best), 0);
  const most = place((value, other) => other.less(value)), least = place((value, other) => value.less(other));
  const isEven = totals[most].equals(totals[least]);
  return el("p", { class: "lead" }, isEven ? `All ${who.length} ${verb.slice(0, -1)} the same, ${texts[0]} each: `
    : `${who[most]} ${verb} most, ${texts[most]}, and ${who[least]} least, ${texts[least]}: all ${who.length} `,
  `together ${texts.at(-1)}.`);
}
