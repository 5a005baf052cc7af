// What may be relied on, below the sentence of the answer: whether a group would do better alone, and whether the two
// checkers agree. Each says only what was found, and leads to where it is shown.
import { Namer } from "../tell/words.js";
import { button, el, refill } from "./dom.js";

/** The place of the seals; `fillSeals` fills it anew as something comes. Bare ones lead nowhere. */
export function sealsOf(result, solution, format) {
  return fillSeals(el("p", { class: "seals", role: "status" }), result, solution, format);
}

export function fillSeals(place, { game, checks, line }, solution, format, isBare = false) {
  const seal = ([part, state, text]) => (isBare ? el("span", { class: `seal ${state}` }, text)
    : button(text, () => 0, { class: `seal ${state}`, "data-part": part }));
  const found = [stableSeal(game, solution?.verdict, format), line && checkedSeal(checks)];
  if (place) refill(place, found.filter(Boolean).map(seal));
  return place;
}

/** Of the first column, which is the answer: where it leads, how it looks, and what it says. */
function stableSeal(game, verdict, { by }) {
  if (verdict === undefined) return ["why", "busy", "Asking each group …"];
  if (verdict?.isCore) return ["why", "good", "No group would do better alone"];
  if (!verdict?.group) return null; // the program doesn't say it of such a game
  const who = new Namer(game).group(verdict.group).replace(/ (alone|together)$/, "");
  return ["why", "bad", `A group would do better alone: ${who}, by ${by(verdict.excess)}`];
}

function checkedSeal({ program, anew }) {
  const words = [program && wordOf(program), anew && wordOf(anew)];
  if (words.includes("no")) return ["evidence", "bad", "A checker says no"];
  if (words.includes("none")) return ["evidence", "bad", "A checker gave no answer"];
  if (words.every((word) => word === "yes")) return ["evidence", "good", "Two checkers agree"];
  return ["evidence", "busy", words.includes("yes") ? "One checker says yes, checking …" : "Checking …"];
}

function wordOf({ fault, refusal, refused, tree }) {
  if (fault) return "none";
  return !refusal && refused === undefined && tree?.answer === "yes" ? "yes" : "no";
}
