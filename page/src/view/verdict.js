// What the words of the checkers come to, and what is told of a line beside them.
import { Rational } from "../exact/rational.js";
import { fractionText } from "../exact/decimals.js";
import { WORTH_THE_SAME } from "../game/same-worths.js";
import { ruleName } from "../tell/rule-names.js";
import { listed } from "../game/words.js";
import { button, el } from "./dom.js";

const MOST_NAMED = 12; // whose shares are others than they should be

const lead = (sentence) => el("p", { class: "lead" }, sentence);

/** Which game it is, beside its name: what is divided, if the class has a number for that. */
function whichOf(game, format) {
  if (game?.kind === "bankruptcy") return `, an estate of ${format.show(game.single)}`;
  return game && game.costs ? `, a cost of ${format.show(game.whole())}` : "";
}

/** In what the two games differ: the sentence, or the first item where it only leads to these. */
function whereOf({ sentence, items = [] }) {
  const said = sentence.replace(/^No[.:,]?\s*/, ""), [first] = items;
  return /[:]$/.test(said.trim()) || !said.trim() ? first ?? "" : said;
}

/** What the words come to, in a sentence; null while they are asked. */
export function conclusion([same, ...checks], { answer, doubles = [], fault }, game, format) {
  if (fault) return lead("This line can’t be read, so nothing of it is checked.");
  if (checks.some(({ isYes }) => isYes === undefined)) return null;
  if (checks.some(({ isYes }) => !isYes)) return lead("No: this line doesn’t show that its shares are right.");
  const name = ruleName(answer, game?.perHead), which = whichOf(game, format);
  const agreed = same.isOfCase ? "the game of your case" : "the agreed game";
  if (doubles.length) {
    return lead("Don’t take this line: a key occurs twice in it, so its text can be read in two ways. By the last of "
      + `each, its shares are the ${name} of ${same.isYes ? agreed : "its own game"}.`);
  }
  if (same.isYes) return lead(`Yes: these shares are the ${name} of ${agreed}${which}.`);
  if (same.outcome === WORTH_THE_SAME) {
    return lead(`These shares are the ${name} of ${agreed} too${which}, since each group is worth the same there. `
      + "But it is written by other numbers, or as another class.");
  }
  const own = `The shares are the ${name} of the game in the line${which}.`;
  if (same.isYes === false) {
    return [lead(`No: it answers another game. ${whereOf(same)}`),
      el("p", { class: "hint" }, `${own} But that isn’t ${agreed}.`)];
  }
  return lead(same.isGiven ? `${own} But nobody can say whether it is ${same.isOfCase ? agreed : "the agreed one"}.`
    : `${own} See that it is the game you mean.`);
}

export function twice({ doubles = [] }) {
  return doubles.length > 0 && el("p", { class: "notice" },
    `In this text a key occurs twice: ${doubles.join(", ")}. The last one counts, for the checkers and for what is `,
    "shown here. Don’t go by the text itself, and ask for one in which each key stands once.");
}

/** That nothing is checked, since a file can't be taken; `onWithout` checks the line without the agreed one. */
export function notTaken(fault, onWithout) {
  return [
    lead("Nothing is checked."), el("p", { class: "notice bad", role: "alert" }, fault),
    onWithout && el("p", { class: "tools" }, button("Check the line without an agreed file", onWithout)),
  ];
}

/** What has to be told of the names. */
export function nameRemarks({ remarks = [] }) {
  return remarks.length > 0 && el("div", { class: "notice" }, remarks.slice(0, 12).map((one) => el("p", {}, one)));
}

/** Who has too much by the line and who too little, where the program finds other shares for its game; or that it finds
 * the same. `found` is its answer. */
export function besideRight({ answer, bare }, game, found, format) {
  if (!found?.tree?.shares) return null;
  const rule = ruleName(answer, game.perHead), verb = game.costs ? "pays" : "gets";
  const by = bare.shares.map((share, i) => Rational.of(share).minus(Rational.of(found.tree.shares[i])));
  const told = by.map((more, i) => {
    const size = format.by(more.abs()), exact = format.isExact(more) ? "" : ` (${fractionText(more.abs())})`;
    return !more.isZero() && `${game.shown[i]} ${verb} ${size}${exact} too ${more.isNegative() ? "little" : "much"}`;
  }).filter(Boolean);
  const others = told.splice(MOST_NAMED).length;
  return el("p", { class: "notice" }, told.length
    ? `Beside the ${rule} of this game, worked out anew by the program: `
      + `${listed(others ? [...told, `${others} others have other shares, too`] : told)}.`
    : `The program, asked anew for the ${rule} of this game, finds these shares all the same. It is the certificate `
      + "that doesn’t show it.");
}

/** The two checkers never disagree, as far as anybody knows; if they do, somebody should hear of it. */
export function disagreement({ program, anew }) {
  if (!program || !anew || program.fault || anew.fault) return null;
  const one = program.refusal ? "refused" : program.tree.answer, other = anew.refused ? "refused" : anew.tree.answer;
  return one !== other && el("p", { class: "notice bad" },
    "The two checkers disagree. One of them is wrong: please keep this line, and tell the makers of the program.");
}

/** Why a text is no line, and what may help. */
export function unreadable({ fault, help = [], mended, left }, onMend) {
  const tool = mended && button("Read it without what the mail program added", () => onMend(mended));
  return el("div", { class: "notice bad" }, el("p", {}, fault), help.map((sentence) => el("p", {}, sentence)),
    mended && withoutMail(tool, left));
}

/** A button that reads a text without what a mail program added, and what that leaves out. */
export function withoutMail(tool, left) {
  return el("p", { class: "tools" }, tool, el("span", { class: "hint" }, ` That leaves out ${left}.`));
}

/** What is missing in a line without a certificate, and what to ask for. */
export function bareText({ answer, isRefusal, shares }, game, bare) {
  if (isRefusal) return "This is no answer: the program refused a document, and says why in this line.";
  if (game && !shares && answer === "shares") return "This is a game without shares, so there is nothing to check.";
  const ask = "Ask for the whole line that the program printed, or that this page saved under “Send it to others”.";
  const kind = ["nucleolus", "prenucleolus", "shares"].includes(answer) ? ""
    : " Only those of the nucleolus and the prenucleolus have one.";
  const missing = game ? "It has no certificate" : "It has no game and no certificate";
  return `${missing}, so there is no evidence to check.${kind} ${bare ? "" : ask}`.trim();
}
