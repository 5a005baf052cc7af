// The ways to fill the empty groups of a table, below its cells.
import { NOTHING } from "../cases/filled-cells.js";
import { button, el, refill } from "./dom.js";

const FILLS_OF_COSTS = "The first is right if such a group would go in parts, each by a cost that is known. The second "
  + "is right if it could also take the works of a larger group.";
const FILLS_OF_GAINS = "That is right if such a group could do no more together than in parts.";

/** Shows them in `place`: as long as some group `isEmpty`, or the page filled one (`isFilled`). Players of gains who
 * have no number alone (`isLone`) can be said to gain nothing. */
export function showWays(place, { isEmpty, isFilled, isLone, isCost }, { fillBy, gainNothing }) {
  const asked = isEmpty ? "Nobody knows some of these numbers?" : isFilled ? "Fill them another way?" : "";
  const isNothing = isLone && !isCost, key = asked + (isNothing ? NOTHING : "");
  if (place.dataset.asked === key) return;
  place.dataset.asked = key;
  const way = (text, title, act) => button(text, act, { class: "quiet", title });
  refill(place, asked && el("p", { class: "tools" },
    el("span", { class: "hint" }, asked),
    way(`Fill the empty ones by the ${isCost ? "cheapest" : "best"} split`,
      "Each group without a number takes that of its best split into groups that have one", () => fillBy("split")),
    isCost && way("Fill them no dearer than a larger group",
      "The cheapest of the splits of a group, and of the larger groups that hold it", () => fillBy("larger")),
    isNothing && way(NOTHING, "Each player without a number alone gets 0 there", gainNothing),
    el("span", { class: "hint" }, isCost ? FILLS_OF_COSTS : FILLS_OF_GAINS)));
}
