// What a yes of the checkers means, and what has to be trusted, in plain words.
import { ruleName } from "../tell/rule-names.js";
import { el } from "./dom.js";

// What tools/gate/try-page compares, at least.
const COMPARED = "some 7,200";
// Those of the checker are counted as the page is built.
const LINES = "/* LINES */";

const RULES = {
  nucleolus: "The nucleolus treats the group that gains least by joining as well as possible, then the next one, "
    + "and so on. It gives nobody less than it is worth alone.",
  prenucleolus: "The prenucleolus is another rule than the nucleolus. It treats the group that gains least as well as "
    + "possible, then the next one, and so on, among all divisions of the whole. So somebody may get less than alone.",
};
const PER_HEAD = "Per head is a rule of its own: what a group gains or lacks is divided by the number of its "
  + "members. Its shares mostly differ from those of the plain rule.";

const FORM = "First the form. Each group that a level lists has a member and lacks one. What a level takes from "
  + "earlier levels is listed in one of these. There are fewer levels than players.";

/** The eight conditions, in the words of docs/certificates.md. */
const CONDITIONS = [
  "The shares add to the worth of all players together.",
  "For the nucleolus, each player gets at least what it is worth alone. For the prenucleolus this isn’t asked.",
  "Each group that a level lists has exactly the level’s excess: its worth less what its members get. Per head, "
    + "that is divided by the number of members.",
  "Each weight is at least 1: those of the groups that a level lists, and those of its bounds. A bound is a player who "
    + "gets exactly what it is worth alone. If an earlier level gave a bound a weight of 1 or more, its later "
    + "weights may be smaller.",
  "At each player the weights of a level add to the same total: those of its groups that hold the player, listed or "
    + "taken from earlier levels, and that of the player’s bound.",
  "Only a player who gets exactly what it is worth alone has a bound. For the prenucleolus nobody has one.",
  "No group that is still open has an excess above the level’s. A group is open if no earlier level settles it.",
  "After the last level the share of each player is settled.",
];

export function meaning(answer = "nucleolus", isPerHead = false) {
  const known = Object.hasOwn(RULES, answer) ? answer : "nucleolus", name = ruleName(known, isPerHead);
  return el("details", { class: "meanings" },
    el("summary", {}, "What a yes means, and what is trusted"),
    el("h3", {}, "What a yes means"),
    el("p", {}, "The line has a certificate: levels of groups, with excesses and weights. If these have "
      + "their form and meet eight conditions, ",
      `the shares are the ${name} of the game in the line, and no other division is. That is a theorem `,
      "(Kohlberg 1971), proved anew for this program. ", RULES[known], isPerHead && ` ${PER_HEAD}`),
    el("p", {}, "You can check all that by hand, too. ", FORM, " Then the conditions. Go level by level for 3 to 7. "
      + "For costs, read “pays at most what it costs alone”."),
    el("ol", { class: "conditions" }, CONDITIONS.map((text) => el("li", {}, text))),
    trusted());
}

function trusted() {
  return [
    el("h3", {}, "What is trusted"),
    el("p", {}, "No proof can tell that the game in the file is the one that you mean. For the rest you may choose."),
    el("ul", { class: "plain" },
      el("li", {}, el("b", {}, "The program. "), "The prover of the Rattle kit has proved that its source does what ",
        "its contracts state. You trust these statements, that they say what is meant. You trust that prover, the ",
        "kit’s compilers, what the kit’s own crates state, the translation of the proved code to this ",
        "WebAssembly module, the few lines that give it memory (host.js), and this browser. No proof covers the ",
        `translation. On ${COMPARED} documents the module was compared with the program as it is built for Linux.`),
      el("li", {}, el("b", {}, "The page’s own checker. "), `It is ${LINES} lines of JavaScript, shares nothing `,
        "with the program, and isn’t proved. You trust these lines and this browser. In this file they are packed; ",
        "their source is page/src/check, and page/src/exact/json.js, which reads the document.")),
    el("p", {}, "Each of the two answers by itself. They share no code, but have the same makers. The project has two ",
      "more checkers, one in Python and one that Coq’s proofs cover. Nothing that you type leaves this page, and ",
      "nothing is kept."),
  ];
}
