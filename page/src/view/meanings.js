// What the divisions and the questions of the table mean, in a sentence or two.
import { el } from "./dom.js";

const SUBTITLES = {
  nucleolus: "best for those who gain least",
  prenucleolus: "the same, but some may do worse than alone",
  shapley: "average over all orders of joining",
  core: "one of many; proposes nothing",
  bird: "each pays its own link",
  proportion: "the same part of what each costs, claims or is worth alone",
  agencies: "each pays what it adds, and of the rest by what it would save",
  buyers: "the lowest prices",
  sellers: "the highest prices",
  proposal: "to be judged",
};

/** What stands below the title of a column. */
export function subtitleOf(key, { perHead }) {
  return key === "nucleolus" && perHead ? "best for those who gain least, per member" : SUBTITLES[key];
}

const MEANINGS = {
  nucleolus: "The nucleolus looks at the group that gains least by joining, and treats it as well as can be. Then it "
    + "looks at the next group, and so on. There is exactly one nucleolus. If any division satisfies all groups, this "
    + "one does (Schmeidler 1969).",
  prenucleolus: "The prenucleolus is the same rule for all divisions of the whole: it doesn’t ask that each does at "
    + "least as well as alone. If some division satisfies all groups, the two are the same.",
  shapley: "Shapley shares let the players join one by one. Each gets what it adds, on average over all orders. "
    + "No other rule is efficient, symmetric and additive, and gives nothing for nothing (Shapley 1953).",
  core: "A core point is a division by which no group does better by itself. This is one of many, so it says "
    + "nothing about who deserves what.",
  bird: "Bird’s shares let each place pay the link by which the cheapest network reaches it (Bird 1976).",
  agencies: "The agencies’ rule, separable costs and remaining benefits, comes from the Tennessee Valley: each pays "
    + "what it adds to the cost of all others, and of the rest by what it would still save against going alone. The "
    + "page itself calculates this column. Whether a group could leave is the program’s word.",
  buyers: "The two ends of the market: the lowest and the highest prices by which no buyer and seller do better "
    + "together (Shapley and Shubik 1971).",
};

const MAY_LEAVE = "By this rule it can happen that a group does better by itself";

const PROPORTION = {
  bankruptcy: "In proportion: each gets the same part of its claim, as insolvency law commonly has it. The page itself "
    + "calculates this column.",
  other: "In proportion to what each costs or is worth alone, as contracts commonly have it. It doesn’t look at what "
    + "groups could do. The page itself calculates this column. Whether a group could leave is the program’s word.",
};

const PER_HEAD = {
  nucleolus: "The nucleolus per head counts what a group gains or lacks per member, since a larger group shares it. "
    + "It looks at the group that gains least per member by joining, and treats it as well as can be; then at the "
    + "next, and so on. There is exactly one. If any division satisfies all groups, this one does (Grotte 1970).",
  prenucleolus: "The prenucleolus per head is the same, among all divisions of the whole: it doesn’t ask that each "
    + "does at least as well as alone. What a group gains or lacks is counted per member (Grotte 1970).",
};

const GROUPS = "A group could do better by itself if it is worth more than its members get together (or costs less "
  + "than they pay). If no group could, the division is in the core.";
const HOLDS = "Of two players, one has the stronger hold if the best group with it and without the other gains more by "
  + "leaving, or loses less. The pair that is named is the first in the order of the rows. It need not be the one "
  + "that differs most. If no two players differ, the division is in the prekernel";
const PLAIN_IS_EVEN = ". The prenucleolus always is. The nucleolus is if some division satisfies all groups.";
const PER_HEAD_ISNT = ". That is counted by the group as a whole, so a division per head need not be there.";

const MONOTONIC = [
  "The whole grows, and what each group does by itself stays. By the Shapley shares and by the prenucleolus per head "
    + "all get (of costs: bear) an equal part of what comes on top. By the Talmud’s rule of estates nobody gets less. "
    + "By the nucleolus somebody may get less of more (Megiddo 1974), and so by Bird’s shares and by core points.",
  "A small example: of four, 1 and 2 gain 1 together, with a third or without; 1, 3 and 4 gain 2; the other groups "
    + "nothing. If all four gain 3, the first gets 7/6 by the nucleolus, and by the Shapley shares. If they gain "
    + "4, it gets only 1 by the nucleolus, and 17/12 by the Shapley shares.",
];

const WORDS = {
  Imputation: "a division of the whole by which nobody does worse than alone.",
  Excess: "what a group is worth by itself less what its members get together (of costs: what they pay less what it "
    + "costs by itself); that much it gains by leaving.",
  Core: "all divisions by which no group does better by itself, so no excess is above 0.",
  Nucleolus: "the imputation whose excesses, from the greatest down, are as small as can be.",
  Prenucleolus: "the same of all divisions of the whole, imputations or not.",
  "Per head": "each excess is divided by the number of the group’s members first.",
  Kernel: "the imputations by which no player has a stronger hold on another, but on one who gets no more than alone.",
  Convex: "a player who joins adds no less when more have joined (to costs: no more).",
  "Shapley value": "what each adds, on average over all orders of joining; here the Shapley shares.",
};

/** Which rule gives nobody less where the whole grows. */
export function monotonic() {
  return folded("Which rule gives nobody less when the whole grows", MONOTONIC);
}

/** The words of the field, each in a sentence. */
export function words() {
  return folded("The words of the field, each in a sentence", Object.entries(WORDS).map(([word, text]) => {
    return [el("b", {}, word), `: ${text}`];
  }));
}

function folded(title, texts) {
  return el("details", { class: "meanings screen" }, el("summary", {}, title), texts.map((text) => el("p", {}, text)));
}

/** What a column means, in a sentence or two; undefined for one that has no rule. */
export function meaningOf(key, { perHead, kind, costs }) {
  if (key === "proportion") return PROPORTION[kind] ?? PROPORTION.other;
  const text = (perHead && PER_HEAD[key]) || MEANINGS[key];
  return costs ? text?.replace("Each gets", "Each pays") : text;
}

export function meanings(points, hasHolds, game) {
  const { perHead } = game, texts = points.map(({ key, verdict }) => {
    const leave = key === "shapley" && `${MAY_LEAVE}${verdict?.isCore ? "; here none does" : ""}.`;
    return [meaningOf(key, game), leave].filter(Boolean).join(" ");
  }).filter(Boolean);
  const holds = HOLDS + (perHead ? PER_HEAD_ISNT : PLAIN_IS_EVEN);
  return folded("What the columns and the questions mean", [...texts, GROUPS, ...(hasHolds ? [holds] : [])]);
}
