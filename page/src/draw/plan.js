// The cheapest network, drawn from its source to the right: each place hangs on the one that it is joined to.
import { Rational } from "../exact/rational.js";
import { el } from "./tree.js";
import { figure } from "./figure.js";
import { fitted, widthOf } from "./measure.js";

const [ROW, NAME] = [52, 130];

/** Where each point stands: how many links from the source, and in which row. */
function spotsOf(children) {
  const spots = new Map();
  let rows = 0;
  const put = (point, depth) => {
    const below = children.get(point);
    for (const child of below) put(child, depth + 1);
    const own = below.map((child) => spots.get(child).row);
    spots.set(point, { depth, row: own.length ? (own[0] + own.at(-1)) / 2 : rows++ });
  };
  put(0, 0);
  return { spots, rows, deepest: Math.max(...[...spots.values()].map(({ depth }) => depth)) };
}

/** `links` are [end, player, cost] in the order of joining, players from 1 and the source 0. */
export function planPicture(game, links, { show, wide, source = "Source" }) {
  const children = new Map([[0, []]]), cost = new Map();
  for (const [end, player, price] of links) {
    children.set(Number(player), []);
    children.get(Number(end)).push(Number(player));
    cost.set(Number(player), Rational.of(price));
  }
  const { spots, rows, deepest } = spotsOf(children), names = [source, ...game.shown];
  const label = Math.min(150, Math.max(...names.map((name) => widthOf(name))) + 24);
  const step = Math.max(Math.min(118, label - 8), Math.min(200, (wide - label - 36) / Math.max(1, deepest)));
  const x = (point) => 14 + spots.get(point).depth * step, y = (point) => 26 + spots.get(point).row * ROW;
  const curves = links.map(([end, player]) => {
    const [from, to] = [Number(end), Number(player)], bend = x(from) + step * 0.42;
    return el("path", {
      class: "link", d: `M${x(from)},${y(from)} C${bend},${y(from)} ${bend - step * 0.1},${y(to)} ${x(to)},${y(to)}`,
    });
  });
  const ends = new Map(links.map(([end, player]) => [Number(player), Number(end)]));
  const isLeaf = (point) => point > 0 && !children.get(point).length;
  const room = (point) => (isLeaf(point) ? Math.max(NAME, wide - x(point) - 20) : NAME); // to its right is nothing
  const labels = new Map(names.map((name, point) => [point, fitted(name, room(point))]));
  const points = [...spots.keys()].map((point) => placed(labels.get(point), x(point), y(point), {
    isSource: !point, isLeaf: isLeaf(point), price: point ? show(cost.get(point)) : "",
    isRising: isLeaf(point) && y(ends.get(point)) > y(point),
  }));
  const sides = [...spots.keys()].filter(isLeaf).map((point) => x(point) + widthOf(labels.get(point)) + 18);
  const size = { width: Math.max(12 + deepest * step + label, ...sides), height: rows * ROW + 10 };
  const told = links.map(([end, player]) => {
    const [from, to] = [Number(end), Number(player)];
    return `${names[to]} is joined to ${names[from]} by a link of ${show(cost.get(to))}`;
  });
  return el("svg", {
    class: "picture", viewBox: `0 0 ${size.width} ${size.height}`, width: size.width, height: size.height, role: "img",
    "aria-label": `The cheapest network. ${told.join("; ")}`,
  }, curves, points);
}

/** The number of a link is on the side of it where no line comes from. */
function placed(name, x, y, { isSource, isLeaf, isRising, price }) {
  const above = isSource ? { x: 4, y: y - 13 } : { x, y: y - 13, "text-anchor": "middle" };
  const spot = isLeaf ? { x: x + 12, y: y + 5 } : above;
  return [
    el("circle", { class: isSource ? "place source" : "place", cx: x, cy: y, r: isSource ? 7.5 : 5.5 }),
    el("text", { class: "apart", ...spot }, name),
    price && el("text", { class: "soft apart", x: x - 11, y: y + (isRising ? -7 : 16), "text-anchor": "end" }, price),
  ].filter(Boolean);
}

export const OWN_LINKS = "The cheapest network. The number at a place is its own link.";

export function plan(game, links, settings) {
  return figure("plan", "network", planPicture(game, links, settings), OWN_LINKS);
}
