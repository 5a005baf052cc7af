// Help for links that don't exist: the ways through the others, or a table of what each group's cheapest network costs.
import { lcm, Rational } from "../exact/rational.js";
import { writtenAs } from "../exact/styles.js";
import { cellNumber, shortText } from "../exact/decimals.js";
import { sourceName } from "../cases/matrices.js";
import { masksBySize, membersOf } from "../game/groups.js";
import { withEscapes } from "../game/names.js";
import { listed, plural } from "../game/words.js";

/** The costs that were typed, by "i-j", those of empty cells being null; or a fault in words. */
function linksOf({ names, links, mark }) {
  const n = names.length, costs = new Map();
  for (let i = 0; i <= n; i++) {
    for (let j = i + 1; j <= n; j++) {
      const text = links[`${i}-${j}`] ?? "", { value, fault } = cellNumber(text, mark);
      if (text.trim() && (fault || value.isNegative())) return { fault: "Mend the numbers that are marked first." };
      costs.set(`${i}-${j}`, value ?? null);
    }
  }
  return { n, cost: (i, j) => costs.get(i < j ? `${i}-${j}` : `${j}-${i}`) };
}

/** The links that are typed, in whose style others are written. */
const styleIn = (links) => Object.values(links).filter((text) => text.trim());

function placeName(names, i, source) {
  return i ? withEscapes(names[i - 1].trim()) || `Place ${i}` : sourceName({ source });
}

/** Fills each empty cell by the cheapest way over links that exist, or of them those with the keys `only`, and not the
 * `unused` ones, that keep their texts: {links, ways, notes}, or {fault}. */
export function fillLinks({ names, links, unused = {}, source, mark, only = null }) {
  const { n, cost, fault } = linksOf({ names, links, mark });
  if (fault) return { fault };
  const ways = Array.from({ length: n + 1 }, (_, i) => Array.from({ length: n + 1 }, (_, j) => {
    return i === j ? Rational.of(0) : cost(i, j);
  }));
  for (let k = 0; k <= n; k++) {
    for (let i = 0; i <= n; i++) {
      for (let j = 0; j <= n; j++) {
        if (!ways[i][k] || !ways[k][j]) continue;
        const way = ways[i][k].plus(ways[k][j]);
        if (!ways[i][j] || way.less(ways[i][j])) ways[i][j] = way;
      }
    }
  }
  const told = [], lacking = [], made = [], values = [];
  for (let i = 0; i <= n; i++) {
    for (let j = i + 1; j <= n; j++) {
      if (cost(i, j) || `${i}-${j}` in unused || (only && !only.includes(`${i}-${j}`))) continue;
      const which = `${placeName(names, i, source)} – ${placeName(names, j)}`;
      if (!ways[i][j]) lacking.push(which);
      else {
        made.push(`${i}-${j}`);
        values.push(ways[i][j]);
        told.push(`${which} ${shortText(ways[i][j])}`);
      }
    }
  }
  const texts = writtenAs(values, styleIn(links), mark), fresh = made.map((key, k) => [key, texts[k]]);
  const all = { ...links, ...unused, ...Object.fromEntries(fresh) };
  const filled = (i, j) => (`${Math.min(i, j)}-${Math.max(i, j)}` in unused ? null : cost(i, j) ?? ways[i][j]);
  const dearer = told.length && !lacking.length ? dearerGroup(n, cost, filled) : null;
  return { links: all, ways: made, told, isDearer: dearer !== null, notes: notesOf(told, lacking, dearer, names) };
}

/** A smallest group that costs `more` by the ways that were filled than, `less`, by its cheapest network over places of
 * others too, as where its detours share a stretch: {mask, more, less}; null if there is none. */
function dearerGroup(n, cost, filled) {
  const { scale, costs } = scaled(n, filled), networks = new Networks(costs);
  const least = leastOf(n, costs.map((row, i) => row.map((one, j) => (i === j || cost(i, j) ? one : Infinity))));
  const mask = masksBySize(n).find((one) => least[one] < networks.join(one));
  if (mask === undefined) return null;
  const [more, less] = [networks.join(mask), least[mask]].map((value) => new Rational(BigInt(value), scale));
  return { mask, more, less };
}

function notesOf(told, lacking, dearer, names) {
  const notes = [];
  if (told.length) {
    notes.push(`${plural(told.length, "link was", "links were")} filled by the cheapest way through the others. `
      + `They are marked, and follow when another number changes. ${lacking.length ? "" : dearerText(dearer, names)}`);
  }
  if (lacking.length) notes.push(`No way leads there: ${lacking.join("; ")}.`);
  return notes.length ? notes : ["No link is empty."];
}

/** Whether a table of costs is another game than this network, and why. */
function dearerText(dearer, names) {
  if (!dearer) return "As a table of costs it is the same.";
  const { mask, more, less } = dearer, group = membersOf(mask).map((i) => placeName(names, i + 1));
  return "In a table of costs a group may build over others’ places, and a stretch that several of its detours share "
    + `counts once: ${listed(group)} ${group.length > 1 ? "cost" : "costs"} ${shortText(more)} here, and `
    + `${shortText(less)} there.`;
}

/** The table of costs of a network: a group costs the cheapest network that joins it, with or without places of others,
 * and those of `nobody`, from 0, who are no players of it. {typed, notes}, or {fault}. */
export function costsOfNetwork({ names, links, mark, nobody = [] }) {
  const { n, cost, fault } = linksOf({ names, links, mark });
  if (fault) return { fault };
  const { scale, costs } = scaled(n, cost), least = leastOf(n, costs);
  const players = names.map((_, i) => i).filter((i) => !nobody.includes(i)), count = 2 ** players.length;
  const own = Array.from({ length: count }, (_, mask) => {
    return least[players.reduce((sum, i, k) => sum + (mask & (1 << k) ? 2 ** i : 0), 0)];
  });
  if (own.at(-1) === Infinity) return { fault: "No network joins all: some place has no way to the source." };
  const values = own.slice(1).map((value) => new Rational(BigInt(value), scale));
  const numbers = ["", ...writtenAs(values, styleIn(links), mark)];
  const notes = ["Made of a network: each group costs the cheapest network that joins it, over others’ places too."];
  if (nobody.length) notes.push(`Nobody is at ${listed(nobody.map((i) => `“${withEscapes(names[i])}”`))}.`);
  return { typed: { names: players.map((i) => names[i]), numbers }, notes };
}

/** What the cheapest network costs that joins each group, by masks, with or without places of others. */
function leastOf(n, costs) {
  const least = new Float64Array(2 ** n), networks = new Networks(costs);
  for (let mask = 1; mask < 2 ** n; mask++) least[mask] = networks.join(mask);
  for (let bit = 1; bit < 2 ** n; bit *= 2) {
    for (let mask = 1; mask < 2 ** n; mask++) {
      if (!(mask & bit) && least[mask | bit] < least[mask]) least[mask] = least[mask | bit];
    }
  }
  return least;
}

/** Whole numbers over a scale; Infinity for a link that doesn't exist. */
function scaled(n, cost) {
  let scale = 1n;
  const points = Array.from({ length: n + 1 }, (_, i) => i);
  const values = points.map((i) => points.map((j) => (i === j ? Rational.of(0) : cost(i, j))));
  for (const value of values.flat()) if (value) scale = lcm(scale, value.den);
  const costs = values.map((row) => row.map((value) => (value ? Number((value.num * scale) / value.den) : Infinity)));
  return { scale, costs };
}

/** The cheapest networks of groups by themselves, one at a time: `points` in the order in which they are joined, `from`
 * where, over links of which the `dearest` is known. Costs are whole, or Infinity for a link that doesn't exist. */
export class Networks {
  constructor(costs) {
    const [points, from] = [0, 1].map(() => new Uint8Array(costs.length));
    const [near, ...tops] = [costs, ...costs].map(() => new Float64Array(costs.length));
    const rows = costs.map((row) => Float64Array.from(row));
    Object.assign(this, { rows, points, from, near, tops, count: 1, dearest: 0 });
  }

  /** Joins the members of a mask to the source, and gives the cost. */
  join(mask) {
    const { rows, points, from, near } = this;
    let left = mask, sum = 0, count = 1, dearest = 0, last = 0;
    near.fill(Infinity);
    while (left) {
      const row = rows[last];
      let next = 0;
      for (let rest = left; rest; rest &= rest - 1) {
        const point = 32 - Math.clz32(rest & -rest);
        if (row[point] < near[point]) [near[point], from[point]] = [row[point], last];
        if (!next || near[point] < near[next]) next = point;
      }
      left &= ~(1 << (next - 1));
      sum += near[next];
      if (near[next] > dearest) dearest = near[next];
      points[count++] = last = next;
    }
    [this.count, this.dearest] = [count, dearest];
    return sum;
  }

  /** The links of the network, as pairs of points. */
  links() {
    return [...this.points.subarray(1, this.count)].map((point) => [point, this.from[point]].sort((a, b) => a - b));
  }

  /** Visits each two points, the lesser first, with the dearest link on the way between them. */
  eachWay(visit) {
    const { points, from, near, tops, count } = this;
    for (let k = 1; k < count; k++) {
      const point = points[k], whence = from[point];
      for (let j = 0; j < k; j++) {
        const other = points[j], top = Math.max(near[point], tops[other][whence]);
        tops[other][point] = tops[point][other] = top;
        visit(Math.min(point, other), Math.max(point, other), top);
      }
    }
  }
}
