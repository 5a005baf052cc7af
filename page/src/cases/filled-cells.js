// What of a case the page filled in by itself: as a file has it, and in a sentence. A kind of cases names one of these.
import { maskOf, membersOf } from "../game/groups.js";

/** The button by which players without a number alone get 0. */
export const NOTHING = "Alone they gain nothing: 0";

/** Groups of a table, by their masks; `how` says by which other groups. */
export const filledGroups = {
  key: "groups",
  isRight: (group, n) => group.length > 0 && group.length < n
    && group.every((i, k) => typeof i === "bigint" && i > (group[k - 1] ?? 0n) && i <= n),
  treeOf: ({ filled = [], how = "split" }) => (filled.length
    ? { how, groups: filled.map((mask) => membersOf(mask).map((i) => i + 1)) } : undefined),
  typedOf: (list, { how }, { isCost }) => ({
    how: how === "larger" && isCost ? "larger" : "split",
    filled: [...new Set(list.map((group) => maskOf(group.map((i) => Number(i) - 1))))],
  }),

  told({ isCost }, { names, filled, how }) {
    if (!filled.length) return null;
    const split = isCost ? "cheapest" : "best", all = 2 ** names.length - 1;
    const were = filled.length === 1 ? "wasn’t" : "weren’t";
    const given = `Of the ${all} numbers ${filled.length} ${were} given`;
    if (how === "larger") {
      return `${given}: the page took the cheapest of each group’s splits into groups that have a number, and of the `
        + "larger groups that hold it.";
    }
    return `${given}: the page took each group’s ${split} split into groups that have a number.`;
  },
};

/** Links of a network by their ends (the source is 0), each with how it was filled. */
export const filledLinks = {
  key: "links",
  isRight: ([i, j, how], n) => [i, j].every((end) => typeof end === "bigint") && i >= 0n && i < j && j <= n
    && ["way", "number", "unused"].includes(how),
  treeOf: ({ filled = {} }) => {
    const links = Object.entries(filled).map(([key, how]) => [...key.split("-").map(Number), how]);
    return links.length ? { links } : undefined;
  },
  typedOf: (list) => ({ filled: Object.fromEntries(list.map(([i, j, how]) => [`${i}-${j}`, how])) }),

  told(_, { names, filled }) {
    const kinds = Object.values(filled), all = (names.length * (names.length + 1)) / 2;
    const [ways, numbers, unused] = ["way", "number", "unused"].map((one) => kinds.filter((how) => how === one).length);
    if (!kinds.length) return null;
    const told = [
      ...(ways ? [`${ways} by the cheapest way through the others`] : []),
      ...(numbers ? [`${numbers} by what it costs to do without`] : []),
      ...(unused ? [`${unused} that no group needs, as dear as the dearer link of its two places to the source`] : []),
    ];
    const count = kinds.length;
    return `Of the ${all} links ${count} can’t be built, and the page put a number for each: ${told.join(", ")}.`;
  },
};
