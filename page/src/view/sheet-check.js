// The end of the one printed page: how to check it, what is proved, and by which page it was made.
import { fileNames } from "../cases/coarse.js";
import { provedText } from "../tell/proved.js";
import { quoted, ruleFile } from "../tell/rule-names.js";
import { COMPARE } from "../tell/whence.js";
import { el } from "./dom.js";

const TAKE = "Take coop.html from the project’s repository (the sender has to give you its address). ";
const OPEN = "Choose “Open a saved case”, and give it the agreed file";
const OWN = `${OPEN}, or simply type the numbers into that page. Then choose “Type your own division”, and type these `
  + "shares: the page says whether a group could do better by itself.";
const typeIn = (what) => ` Or simply type the numbers into that page: ${what} has to be the same.`;

/** By which page the sheet was made. */
export const footText = () => [...document.querySelector("footer p").cloneNode(true).childNodes];

export function checkOf({ result: { rule, answer, line, game, points }, kind, doubt, coarse, withProposal, agreed }) {
  const isOfAnswer = !agreed || agreed.key === answer; // the column that is signed
  if (doubt) return el("section", {}, el("p", { class: "hint" }, footText()));
  const hasLine = line && !game.ballots, hasRule = hasLine && (isOfAnswer || withProposal);
  const what = isOfAnswer ? "the answer" : `its column ${quoted(agreed)}`;
  const steps = agreed?.key === "proposal" ? OWN : hasLine && isOfAnswer
    ? `Choose “Check an answer”, and give it the agreed file and the line with the certificate, `
      + `${fileNames(kind.id, coarse).line}-${ruleFile(answer, game.perHead)}.json. `
      + `Two checkers that share no code, by the same makers, say whether these shares are the ${rule} of the agreed `
      + `game.${typeIn(what)}`
    : `${OPEN}. It works out the answer anew.${typeIn(what)}`;
  return el("section", {}, el("h2", {}, "How to check it"), el("p", {}, `${TAKE}${COMPARE} ${steps}`),
    el("p", { class: "hint" }, `${provedText(hasRule && rule, withProposal && points.length > 1)} `, footText()));
}
