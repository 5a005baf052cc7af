// Another division beside the answer: the user's own, and what each pays or has today.
import { comparisonPart } from "./comparison.js";
import { button, el } from "./dom.js";
import { plainPoints } from "../tell/rule-names.js";
import { keepButton } from "./pinned.js";
import { proposalTools } from "./proposal-cells.js";
import { todayTools } from "./today.js";

const KEEP = "Keep this answer, then change cells: the table shows what each pays or gets more, or less.";
const HINT = "Put it beside the answer, and see which group could do better by itself.";

const inSentence = (point) => ({ ...point, title: point.title[0].toLowerCase() + point.title.slice(1) });

/** `onBegin()` shows the column of the user's own division, or hides it, as `typed.isProposing` says. */
export function ownDivision(result, { rows, format, proposal, today, pinned, typed, onBegin }) {
  const { game, points } = result, named = { ...result, points: plainPoints(points, game).map(inSentence) };
  const hasTexts = proposal.texts?.some(Boolean), isOpen = typed.isProposing || hasTexts;
  const begin = () => {
    typed.isProposing = true;
    onBegin();
    const cell = document.querySelector('[data-cell="proposal.0"]');
    cell?.scrollIntoView({ block: "center" });
    cell?.focus();
  };
  const end = () => {
    typed.isProposing = false;
    onBegin();
  };
  return [
    proposal.canBe && [
      el("h3", {}, "Your own division"), el("p", { class: "hint" }, HINT),
      !isOpen && el("p", { class: "tools" }, button("Type your own division", begin)),
      isOpen && !hasTexts && el("p", { class: "tools" }, button("Without your own division", end, { class: "quiet" })),
      proposalTools(named, { rows, proposal, format, isOpen }),
    ],
    (proposal.canBe || today.canBe) && points.length > 0
      && comparisonPart(proposal, plainPoints(points, game)[0], game, { rows, typed }),
    todayTools(game, today),
    pinned.canBe && !pinned.pin && [el("h3", {}, "Other numbers"), el("p", { class: "hint" }, KEEP),
      el("p", { class: "tools" }, keepButton(pinned))],
  ];
}
