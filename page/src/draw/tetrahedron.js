// The tetrahedron of the divisions among four, with the core in it, as it is seen from some side.
import { Rational, ZERO } from "../exact/rational.js";
import { alignedTexts } from "../exact/decimals.js";
import { el } from "./tree.js";
import { coreOfFour } from "./core-of-four.js";
import { figure } from "./figure.js";
import { fitted } from "./measure.js";
import { markOf, togetherOf } from "./triangle.js";

const LINE = 24, highOf = (wide) => Math.min(420, wide * 0.78); // of the frame, above the legend
export const START = { yaw: 0.5, pitch: 0.3 };
const R = (2 * Math.SQRT2) / 3;
const ANGLES = [0, 1, 2].map((k) => (k * 2 * Math.PI) / 3);
const LOW = ANGLES.map((angle) => [R * Math.cos(angle), -1 / 3, R * Math.sin(angle)]);
const CORNERS = [...LOW, [0, 1, 0]];
const SIDES = [[0, 1, 2], [0, 1, 3], [0, 2, 3], [1, 2, 3]];
const EDGES = [[0, 1], [0, 2], [0, 3], [1, 2], [1, 3], [2, 3]];

const minus = (p, q) => p.map((value, k) => value - q[k]);
const dot = (p, q) => p.reduce((sum, value, k) => sum + value * q[k], 0);
const cross = ([a, b, c], [d, e, f]) => [b * f - c * e, c * d - a * f, a * e - b * d];
const middle = (points) => [0, 1, 2].map((k) => points.reduce((sum, point) => sum + point[k], 0) / points.length);

/** The corners of a face in their order around it. */
function around(points) {
  const centre = middle(points), u = minus(points[0], centre);
  const normals = points.map((point) => cross(u, minus(point, centre)));
  const normal = normals.reduce((best, one) => (dot(one, one) > dot(best, best) ? one : best));
  const v = cross(normal, u), long = Math.sqrt(dot(normal, normal)) || 1;
  const angle = (point) => Math.atan2(dot(minus(point, centre), v) / long, dot(minus(point, centre), u));
  return [...points].sort((one, other) => angle(one) - angle(other));
}

/** The picture of four players as it is turned in `view`, and `partsOf(view)`, what it holds as it is turned elsewhere;
 * null if there is no division in which all do as well as alone. */
export function tetrahedron(game, points, { wide, view }) {
  const sign = game.costs ? (value) => value.negated() : (value) => value;
  const own = [0, 1, 2, 3].map((i) => game.worth([i]));
  const spare = game.worth([0, 1, 2, 3]).minus(Rational.sum(own));
  if (!ZERO.less(spare)) return null;
  const { corners, faces } = coreOfFour(game), spotOf = (shares) => {
    const parts = shares.map((share, i) => share.minus(own[i]).over(spare).toNumber());
    return [0, 1, 2].map((k) => parts.reduce((sum, part, i) => sum + part * CORNERS[i][k], 0));
  };
  const spots = corners.map(spotOf), solid = faces.map(({ places }) => around(places.map((at) => spots[at])));
  const own3 = points.map(({ key, shares }) => ({ key, at: spotOf(shares.map(sign)) })).reverse();
  const said = saidOf(corners, solid);
  const legend = togetherOf(points), shapes = { spots, solid, points: own3, names: game.shown, legend, wide };
  const drawn = el("svg", {
    class: "picture turning", width: wide, role: "img",
    viewBox: `0 0 ${wide} ${highOf(wide) + legend.length * LINE + 8}`, tabindex: "0",
    "aria-label": `Tetrahedron of the divisions. The arrow keys turn it. ${said}`,
  }, partsOf(shapes, view));
  const worse = game.costs ? "pays more" : "gets less";
  const tree = el("div", {}, figure("triangle tetrahedron", "tetrahedron", drawn, `${said} The frame has all `
    + `divisions in which nobody ${worse} than alone.`, el("span", { class: "screen" },
    " Drag it, or use the arrow keys, to turn it.")),
  cornersTable(corners, game, sign));
  return { tree, partsOf: (other) => partsOf(shapes, other) };
}

function saidOf({ length }, { length: sides }) {
  if (!length) return "The core is empty.";
  if (length === 1) return "The core is the one point in grey.";
  if (length === 2) return "The core is the grey segment.";
  const faces = sides > 1 ? ` and ${sides} faces` : "";
  return `Grey: the core, where no group could do better. It has ${length} corners${faces}.`;
}

function cornersTable(corners, game, sign) {
  if (!corners.length) return null;
  const cell = (text) => el("td", { class: "number" }, text);
  const columns = game.shown.map((_, i) => alignedTexts(corners.map((x) => sign(x[i]))));
  return el("details", { class: "inline" }, el("summary", {}, "The corners of the core, exactly"),
    el("div", { class: "scroll" }, el("table", { class: "shares small" },
      el("thead", {}, el("tr", {}, game.shown.map((name) => el("th", { scope: "col", class: "number" }, name)))),
      el("tbody", {}, corners.map((_, r) => el("tr", {}, columns.map((texts) => cell(texts[r]))))))));
}

// ---- Turning

function turned([x, y, z], { yaw, pitch }) {
  const across = x * Math.cos(yaw) + z * Math.sin(yaw), deep = z * Math.cos(yaw) - x * Math.sin(yaw);
  return [across, y * Math.cos(pitch) - deep * Math.sin(pitch), y * Math.sin(pitch) + deep * Math.cos(pitch)];
}

// ---- Drawing

function partsOf({ spots, solid, points, names, legend, wide }, view) {
  const high = highOf(wide), size = high * 0.54, at = (point) => {
    const [x, y, z] = turned(point, view);
    return { x: wide / 2 + x * size, y: high * 0.56 - y * size * 0.86, z };
  };
  const path = (some) => some.map(at).map(({ x, y }) => `${x.toFixed(1)},${y.toFixed(1)}`).join(" ");
  const frame = CORNERS.map(at), marks = points.map(({ key, at: point }) => ({ key, ...at(point) }));
  return [
    ...EDGES.map((edge) => edgeOf(edge, frame, view)), ...facesOf(spots, solid, view, path, at),
    ...marks.sort((one, other) => one.z - other.z).map(({ key, x, y }) => markOf(key, x, y)),
    ...frame.map((spot, i) => nameOf(spot, names[i], wide)),
    ...legend.flatMap(({ key, text }, k) => [markOf(key, 14, high + k * LINE + 4),
      el("text", { x: 32, y: high + k * LINE + 9 }, fitted(text, wide - 40))]),
  ];
}

/** Whether a side whose corners are given is seen from outside; `inside` is a point on its other side. */
function isSeen(corners, inside, view) {
  const [p, q, r] = corners.map((corner) => turned(corner, view)), normal = cross(minus(q, p), minus(r, p));
  const away = dot(normal, minus(p, turned(inside, view)));
  return normal[2] * Math.sign(away) > 0;
}

function edgeOf(edge, frame, view) {
  const sides = SIDES.filter((side) => edge.every((i) => side.includes(i)));
  const isFront = sides.some((side) => isSeen(side.map((i) => CORNERS[i]), [0, 0, 0], view));
  const [{ x: x1, y: y1 }, { x: x2, y: y2 }] = edge.map((i) => frame[i]);
  return el("line", { class: isFront ? "edge" : "edge hidden-edge", x1, y1, x2, y2 });
}

function facesOf(spots, solid, view, path, at) {
  if (spots.length === 1) return [el("circle", { class: "core", cx: at(spots[0]).x, cy: at(spots[0]).y, r: 11 })];
  if (spots.length === 2) return [el("polyline", { class: "core thin", points: path(spots) })];
  const centre = middle(spots.length ? spots : [[0, 0, 0]]);
  const seen = solid.map((face) => ({ face, isFront: solid.length < 2 || isSeen(face, centre, view) }));
  return seen.sort((one, other) => one.isFront - other.isFront).map(({ face, isFront }) => {
    return el("polygon", { class: isFront ? "core-face" : "core-face back", points: path(face) });
  });
}

function nameOf({ x, y }, name, wide) {
  const anchor = x < wide * 0.4 ? "start" : x > wide * 0.6 ? "end" : "middle", isLow = y > highOf(wide) * 0.56;
  const left = anchor === "start" ? Math.max(4, x - 20) : anchor === "end" ? Math.min(wide - 4, x + 20) : x;
  const place = { x: left, y: y + (isLow ? 20 : -9), "text-anchor": anchor };
  return el("text", { class: "strong apart", ...place }, fitted(name, 130));
}
