// The reasons: the principle, the rule of the class, and the levels of the certificate, those of a long one folded.
// With them are the pictures and tables that the answer has no room for, and what the words mean.
import { morePictures, powerOf, tradesPart } from "./answer.js";
import { el } from "./dom.js";
import { excessesPart } from "./excesses.js";
import { meanings, monotonic, words } from "./meanings.js";
import { divisionReasons, powerReasons } from "./reasons.js";
import { holdsPart, roundingPart, sameText } from "./shares-table.js";

const WIDE = 1000; // pixels of the page above which the reasons have pictures beside them

/** All that is below “Why”; `pair` is the part for two side by side. */
export function whyBody(result, { pair, ...settings }) {
  const { game, points } = result;
  if (game.ballots) return [powerReasons(game, powerOf(points)), words()];
  const why = divisionReasons(result), isTold = why.length > 0, same = isTold && sameText(result);
  const { clientWidth } = document.querySelector("main"), half = clientWidth > WIDE ? 2 : 1;
  const wide = Math.min(900, Math.max(280, clientWidth / half - 110));
  const pictures = morePictures(result, { ...settings, wide });
  const beside = [...pictures, ...(isTold ? [holdsPart(result, settings), pair] : [])].filter(Boolean);
  return [
    tradesPart(result, { ...settings, wide }),
    el("div", { class: beside.length ? "halves-of-part" : "" }, el("div", {}, why),
      beside.length > 0 && el("div", {}, beside)),
    isTold && excessesPart(result, settings), same && el("p", { class: "hint" }, same),
    meanings(points, points.some(({ hold }) => hold), game), !game.isMarket() && monotonic(),
    roundingPart(result, settings), words(),
  ];
}
