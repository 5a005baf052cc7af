// The triangle of the divisions among three. A division is a point: the nearer it is to a player's corner, the more
// that player gets (the less it pays). A payment is a negative share here, and a cost a negative worth.
import { ZERO } from "../exact/rational.js";
import { shortText } from "../exact/decimals.js";
import { el } from "./tree.js";
import { listed } from "../game/words.js";
import { figure } from "./figure.js";
import { fitted, widthOf, wrapped } from "./measure.js";
import { Shape } from "./shape.js";

const LETTERS = "abcdef";
const ALONE = [[0], [1], [2]];
const PAIRS = [[1, 2], [0, 2], [0, 1]];
const MOST_TOLD = 26; // letters of the numbers at a corner
const [TOP, LINE, BESIDE] = [54, 24, 660]; // above this width the legend stands beside the triangle
const FAR = [14, 28]; // how far outside a letter may stand
const ALONG = [0.12, 0.25, 0.4, 0.6, 0.75]; // and where beside its line, if there is no room outside
const APART = 15; // between two letters
const CORNER = { wide: 70, high: 52 }; // how far the texts at a corner reach

const GREY = [
  "The core is empty",
  "The core is the one point in grey",
  "The core is the grey segment",
  "Grey: the core, where no group could do better",
];

/** The picture, and what is said below it; `most` is the longest side. */
export function trianglePicture(game, points, { wide, most = 430 }) {
  const isBeside = wide >= BESIDE, width = isBeside ? wide * 0.58 : wide, side = Math.min(most, width - 60);
  const shape = new Shape(game, points, { side, left: (width - side) / 2, top: TOP });
  const { bounds, hidden } = boundsOf(game, shape), bottom = TOP + shape.high + 56;
  const x = isBeside ? width + 8 : 14;
  const legend = [
    ...togetherOf(points).map(({ key, text }) => ({ mark: (x, y) => markOf(key, x, y), text })),
    ...bounds.map(({ letter, text }) => ({ mark: (x, y) => letterAt(letter, x, y + 5), text })),
  ].flatMap(({ mark, text }) => wrapped(text, wide - x - 30).map((line, k) => ({ mark: !k && mark, text: line })));
  const top = isBeside ? Math.max(20, (bottom - legend.length * LINE) / 2) : bottom + 8;
  const high = Math.max(bottom, top + legend.length * LINE);
  const title = `${GREY[Math.min(shape.core.length, 3)]}.`;
  const drawn = el("svg", {
    class: "picture", viewBox: `0 0 ${wide} ${Math.ceil(high)}`, width: wide, role: "img",
    "aria-label": `Triangle of the divisions. ${title} ${toldOf(game, points)}; ${bounds.map(({ text }) => text)
      .join("; ")}`,
  }, coreOf(shape), framesOf(shape), bounds.map((bound) => bound.drawn), cornersOf(game, shape, width),
  points.map((point, k) => markOf(point.key, ...shape.place(shape.shares[k]))).reverse(),
  legend.map(({ mark, text }, k) => [
    mark && mark(x + 8, top + k * LINE), el("text", { x: x + 26, y: top + k * LINE + 5 }, text),
  ]));
  return { drawn, title, hidden, isImputations: shape.isImputations };
}

/** The points, those at one place together: the mark is that of the first, which lies above the others. */
export function togetherOf(points) {
  const places = new Map();
  for (const { key, title, shares } of points) {
    const place = shares.join(), { titles = [], ...first } = places.get(place) ?? { key };
    places.set(place, { ...first, titles: [...titles, title] });
  }
  return [...places.values()].map(({ key, titles }) => {
    return { key, text: titles.length > 1 ? `${listed(titles)}: one point` : titles[0] };
  });
}

/** Where the points are, for those who don't see them. */
function toldOf(game, points) {
  return points.map(({ title, shares }) => {
    return `${title}: ${shares.map((share, i) => `${game.shown[i]} ${shortText(share)}`).join(", ")}`;
  }).join("; ");
}

export function triangle(game, points, settings) {
  const { drawn, title, hidden, isImputations } = trianglePicture(game, points, settings);
  const [nearer, worse] = game.costs ? ["the less it pays", "pays more"] : ["the more it gets", "gets less"];
  const all = isImputations ? ` The triangle has all divisions in which nobody ${worse} than alone.` : "";
  return figure("triangle", "triangle", drawn,
    `${title}${all} The nearer a point is to a player’s corner, ${nearer}.`,
    hidden.length > 0 && ` Outside of the picture: ${hidden.join("; ")}.`);
}

function coreOf({ core, place, path }) {
  if (core.length > 2) return el("polygon", { class: "core", points: path(core) });
  if (core.length === 2) return el("polyline", { class: "core thin", points: path(core) });
  if (!core.length) return [];
  const [cx, cy] = place(core[0]);
  return el("circle", { class: "core", cx, cy, r: 12 });
}

function framesOf({ isImputations, spare, path, outer, inner }) {
  const frame = el("polygon", { class: isImputations ? "frame" : "outer", points: path(outer) });
  const hasInner = !isImputations && ZERO.less(spare);
  return hasInner ? [frame, el("polygon", { class: "frame", points: path(inner) })] : [frame];
}

/** The names at the corners, and how much each gets there, in the order of the players. */
function cornersOf(game, { spots, side, outer, sign, isImputations }, width) {
  return spots.map(([x, y], i) => {
    const text = fitted(game.shown[i], i === 2 ? width - 20 : side / 2, 15, 600);
    const [name, numbers] = i === 2 ? [-36, -21] : [26, 42];
    const told = outer[i].map((share) => shortText(sign(share))).join("; "), isShort = told.length <= MOST_TOLD;
    const half = widthOf(told) / 2, middle = Math.min(Math.max(x, half), width - half); // within the picture
    return [el("text", { class: "strong", x, y: y + name, "text-anchor": "middle" }, text), isImputations && isShort
      && el("text", { class: "soft", x: middle, y: y + numbers, "text-anchor": "middle" }, told)];
  });
}

/** The lines on which a group gets just what it is worth, with their letters; and those that lie outside. */
function boundsOf(game, shape) {
  const bound = game.costs ? "at most" : "at least", get = game.costs ? "pay" : "get";
  const bounds = [], hidden = [], taken = [];
  for (const group of [...PAIRS, ...(shape.isImputations ? [] : ALONE)]) {
    const isPair = group.length === 2, who = group.map((i) => game.shown[i]).join(" and ");
    const worth = shortText(shape.sign(game.worth(group)));
    const text = `${who} ${isPair ? get : `${get}s`} ${bound} ${worth}`;
    const ends = shape.lineOf(group);
    if (!ends) {
      hidden.push(text);
      continue;
    }
    const letter = LETTERS[bounds.length], [[x1, y1], [x2, y2]] = ends;
    const line = el("line", { class: isPair ? "pair" : "single", x1, y1, x2, y2 });
    const [x, y] = roomBeside(isPair ? ends : [...ends].reverse(), shape.spots, taken);
    taken.push([x, y]);
    bounds.push({ letter, text, drawn: [line, letterAt(letter, x, y + 4)] });
  }
  return { bounds, hidden };
}

/** A place for a letter outside of an end of its line, or beside it: the first apart from other letters and corners. */
function roomBeside(ends, spots, taken) {
  const outside = FAR.flatMap((far) => ends.map((end) => outwards(end, spots, far)));
  const [[x, y], [a, b]] = ends, isPoint = Math.hypot(a - x, b - y) < 1;
  const places = [...outside, ...(isPoint ? [[x + 24, y]] : ALONG.map((part) => beside(ends, part)))];
  const isApart = ([left, top]) => ([c, d]) => Math.hypot(left - c, top - d) > APART;
  return places.find((place) => taken.every(isApart(place)) && spots.every(leaves(place))) ?? places[0];
}

/** Whether a place leaves the texts at a corner alone: they stand above the third corner, and below the others. */
function leaves([x, y]) {
  return ([a, b], i) => {
    const [low, high] = i === 2 ? [-CORNER.high, -6] : [6, CORNER.high];
    return Math.abs(x - a) > CORNER.wide || y < b + low || y > b + high;
  };
}

/** A place outside of the end of a line, so far away from it. */
function outwards([x, y], spots, far) {
  const middle = [0, 1].map((axis) => spots.reduce((sum, spot) => sum + spot[axis], 0) / 3);
  const away = Math.hypot(x - middle[0], y - middle[1]) || 1;
  return [x + ((x - middle[0]) / away) * far, y + ((y - middle[1]) / away) * far];
}

/** A place beside a line, after such a part of it. */
function beside([[x1, y1], [x2, y2]], part) {
  const long = Math.hypot(x2 - x1, y2 - y1) || 1, [across, down] = [(y2 - y1) / long, (x1 - x2) / long];
  return [x1 + (x2 - x1) * part + across * 11, y1 + (y2 - y1) * part + down * 11];
}

function letterAt(letter, x, y) {
  return el("text", { class: "letter", x, y, "text-anchor": "middle" }, letter);
}

const CORNERS = {
  core: [[0, -7], [6.5, 5], [-6.5, 5]], proposal: [[0, -8], [8, 0], [0, 8], [-8, 0]],
  buyers: [[0, 7], [6.5, -5], [-6.5, -5]], sellers: [[-7, 0], [-3.5, -6], [3.5, -6], [7, 0], [3.5, 6], [-3.5, 6]],
};

/** Each point has its own mark, told from the others without colour. */
export function markOf(key, x, y) {
  const own = { class: "own mark", "data-point": key };
  const at = (pairs) => pairs.map(([a, b]) => `${x + a},${y + b}`).join(" ");
  if (key === "shapley") return el("rect", { ...own, x: x - 5.5, y: y - 5.5, width: 11, height: 11 });
  if (CORNERS[key]) return el("polygon", { ...own, points: at(CORNERS[key]) });
  return el("circle", { ...own, cx: x, cy: y, r: key.endsWith("nucleolus") ? 6 : 4.5 });
}
