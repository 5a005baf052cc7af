// Links that were typed dearer than the way through other places, in a network whose empty links take such ways: by the
// same assumption they would cost no more.
import { shortText, typedText } from "../exact/decimals.js";

/** Remarks on them, as {cell, sentence, lower}: `lower` is the cost of the way, as it is typed. Nothing if no link
 * takes a way, or some link has no cost. `cost(i, j)` is that of a link, `nameOf(i)` a point's name. */
export function detoursOf({ filled = {}, n, cost, nameOf, mark }) {
  const points = Array.from({ length: n + 1 }, (_, i) => i);
  const isWhole = points.every((i) => points.every((j) => i === j || cost(i, j)));
  if (!isWhole || !Object.values(filled).includes("way")) return [];
  const isUnused = (ends) => filled[ends.sort((a, b) => a - b).join("-")] === "unused", found = [];
  for (const i of points) {
    for (const j of points.slice(i + 1)) {
      if (filled[`${i}-${j}`]) continue;
      const isOf = (k) => k !== i && k !== j && ![[i, k], [k, j]].some((ends) => isUnused(ends));
      const by = points.filter(isOf).map((k) => ({ k, sum: cost(i, k).plus(cost(k, j)) }));
      const best = by.reduce((least, one) => (!least || one.sum.less(least.sum) ? one : least), null);
      if (!best?.sum.less(cost(i, j))) continue;
      found.push({
        cell: `links.${i}-${j}`, lower: typedText(best.sum, mark),
        sentence: `${nameOf(j)} – ${nameOf(i)} costs ${shortText(cost(i, j))}, more than the way by ${nameOf(best.k)}: `
          + shortText(best.sum),
      });
    }
  }
  return found;
}
