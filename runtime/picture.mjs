// Shares as a picture, for a program that asks: the triangle of three players, otherwise bars.
import { readFileSync } from "node:fs";
import { barsPicture } from "../page/src/draw/bars.js";
import { pictureFile } from "../page/src/draw/figure.js";
import { fitted, widthOf } from "../page/src/draw/measure.js";
import { el, textOf } from "../page/src/draw/tree.js";
import { trianglePicture } from "../page/src/draw/triangle.js";
import { columnTexts, fullText, shortText } from "../page/src/exact/decimals.js";
import { Rational } from "../page/src/exact/rational.js";
import { shownName } from "../page/src/game/names.js";
import { Untold } from "../page/src/tell/answers.js";

const WIDE = 720, EDGE = 16, LINE = 22, TITLE = 18;
/** The kinds of divisions that have a colour and a mark each, and whose they are by their names. */
const KEYS = ["nucleolus", "shapley", "proposal", "core", "buyers", "sellers", "bird", "proportion"];
const OWN = [
  ["nucleolus", /^nucleolus/], ["shapley", /^Shapley/], ["proposal", /^proposal/], ["core", /^(core|prenucleolus)/],
  ["bird", /^Bird/], ["buyers", /buyers/], ["sellers", /sellers/],
];
const FILLED = "by the table’s numbers, filled ones among them";
const STYLES = Object.fromEntries(["palette", "picture"].map((name) => {
  return [name, readFileSync(new URL(`../page/src/${name}.css`, import.meta.url), "utf8")];
}));

/** The text of an SVG. `points` are {title, shares}; `wantsBars` asks for bars for three players, too, and `hasAdded`
 * says that there are marks at what each adds to all others. */
export function picture(game, points, { title, wantsBars = false, hasAdded = true }) {
  if (points.length > KEYS.length) {
    throw new Untold(`${points.length} divisions: a picture shows at most ${KEYS.length}`);
  }
  const named = keyed(points.map((point) => ({ ...point, title: shownName(point.title) })));
  const drawn = game.n === 3 && !wantsBars ? triangle(game, named) : bars(game, named, hasAdded);
  const { tree, attributes } = headed(game, shownName(title), drawn);
  return pictureFile(attributes, textOf(tree), STYLES);
}

/** The points with a kind each: their own, or one that no other has. */
function keyed(points) {
  const own = points.map((point) => OWN.find(([, name]) => name.test(point.title))?.[0]);
  const taken = new Set(own.filter(Boolean)), free = KEYS.filter((key) => !taken.has(key));
  return points.map((point, k) => ({ ...point, key: own[k] && own.indexOf(own[k]) === k ? own[k] : free.shift() }));
}

function triangle(game, points) {
  for (const { title, shares } of points) {
    const sum = Rational.sum(shares);
    if (!sum.equals(game.whole())) {
      throw new Untold(`the shares of ${title} add to ${sum}, so they have no place in the triangle; bars show them`);
    }
  }
  const { drawn, title, hidden, isImputations } = trianglePicture(game, points, { wide: WIDE });
  const [nearer, worse] = game.costs ? ["the less it pays", "pays more"] : ["the more it gets", "gets less"];
  return { drawn, below: [
    ...(points.length ? [] : ["No shares are given: this is the core alone."]), title,
    ...(isImputations ? [`The triangle has all divisions in which nobody ${worse} than alone.`] : []),
    `The nearer a point is to a player’s corner, ${nearer}.`, ...points.map(sharesText),
    ...(hidden.length ? [`Outside of the picture: ${hidden.join("; ")}.`] : []),
  ] };
}

/** The shares of a point in the order of the players. */
function sharesText({ title, shares }) {
  return `${title}: ${columnTexts(shares).slice(0, -1).join("; ")}`;
}

function bars(game, points, hasAdded) {
  const rows = game.shown.map((label, i) => ({ label, players: [i] }));
  const drawn = barsPicture(game, rows, points, {
    show: shortText, column: columnTexts, wide: WIDE, hasAdded, hasNumbers: true,
  });
  return { drawn, below: hasAdded && game.kind === "cost-table" ? [`What each adds: ${FILLED}.`] : [] };
}

/** A picture below its title and what all are worth, and above what is said of it. */
function headed(game, title, { drawn, below }) {
  const [, , wide, high] = drawn.attributes.viewBox.split(" ").map(Number);
  const whole = `all together: ${fullText(game.whole())}${game.perHead ? ", excess per head" : ""}`;
  const heads = rowsOf(title, wide, TITLE, 600), lower = heads.length * LINE + LINE + 6;
  const feet = below.flatMap((text) => rowsOf(text, wide, 13, 400)), end = lower + high;
  const tree = [
    ...heads.map((text, k) => el("text", { class: "title strong", x: EDGE, y: 24 + k * LINE }, text)),
    el("text", { class: "soft", x: EDGE, y: 20 + heads.length * LINE }, whole),
    el("g", { transform: `translate(${EDGE} ${lower})` }, drawn.children),
    ...feet.map((text, k) => el("text", { class: "soft", x: EDGE, y: end + 12 + k * (LINE - 4) }, text)),
  ];
  const total = Math.ceil(end + 8 + feet.length * (LINE - 4));
  const label = [title, whole, drawn.attributes["aria-label"]].join(". ");
  return { tree, attributes: { viewBox: `0 0 ${wide + 2 * EDGE} ${total}`, "aria-label": label } };
}

/** A text in rows that aren't wider than the room; a longer word is cut. */
function rowsOf(text, room, size, weight) {
  const rows = [];
  for (const word of text.split(/\s+/).filter(Boolean)) {
    const longer = rows.length ? `${rows.at(-1)} ${word}` : word;
    if (rows.length && widthOf(longer, size, weight) <= room) rows[rows.length - 1] = longer;
    else rows.push(fitted(word, room, size, weight));
  }
  return rows;
}
