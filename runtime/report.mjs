// A paper of HTML to print, for a program that asks: who gets how much, the picture, the reasons, and how to check.
import { createHash } from "node:crypto";
import { el, textOf } from "../page/src/draw/tree.js";
import { columnTexts, countText, fractionText, shortText } from "../page/src/exact/decimals.js";
import { spoken } from "../page/src/exact/marks.js";
import { Rational } from "../page/src/exact/rational.js";
import { withEscapes } from "../page/src/game/names.js";
import { ruleName } from "../page/src/tell/rule-names.js";
import { picture } from "./picture.mjs";

const STYLE = `
body { font: 11pt/1.4 Georgia, 'Liberation Serif', 'DejaVu Serif', serif; }
body { max-width: 46em; margin: 2em auto; padding: 0 1em; }
h1 { font-size: 1.5em; margin-bottom: 0; }
h2 { font-size: 1.1em; margin: 1.4em 0 0.4em; break-after: avoid; }
table { border-collapse: collapse; }
th, td { padding: 0.15em 0.9em; text-align: right; border-bottom: 1px solid #bbb; }
th:first-child, td:first-child { text-align: left; padding-left: 0; }
tr.all td { font-weight: bold; border-top: 2px solid #000; border-bottom: none; }
svg { max-width: 100%; height: auto; break-inside: avoid; }
p, ul { margin: 0.4em 0; }
pre { white-space: pre-wrap; overflow-wrap: anywhere; font-size: 8pt; border: 1px solid #bbb; padding: 0.5em; }
@media print { body { margin: 0; max-width: none; } }`;
const MOST_PRINTED = 3000; // characters: half a sheet
const XML = /^<\?xml.*\n/;
const UNSEEN = /[\p{Cc}\p{Cf}\p{Zl}\p{Zp}\p{Default_Ignorable_Code_Point}\u2800]/gu;

/** The paper of an answer. `printed` is the line as the program wrote it, and `over` by what its amounts are divided
 * above it. */
export function report({ game, answer, shares, parts, printed, title, note = "", over = 1, hasAdded = true }) {
  const rule = ruleName(answer, game.perHead), name = withEscapes(title);
  const drawn = picture(game, [{ title: rule, shares }], { title, hasAdded }).replace(XML, "");
  const body = [
    el("h1", {}, name), el("p", {}, `By the ${rule}.`), note && el("p", {}, el("strong", {}, withEscapes(note))),
    tableOf(game, shares), el("h2", {}, "The picture"), DRAWN,
    el("h2", {}, "Why"), parts.map(partOf), el("h2", {}, "How to check"), checkOf(rule, over), lineOf(printed),
  ].flat(Infinity).filter(Boolean);
  const head = `<meta charset="utf-8"><title>${textOf(name)}</title>\n<style>${STYLE}\n</style>`;
  const inside = body.map((tree) => (tree === DRAWN ? drawn.trim() : textOf(tree))).join("\n");
  return `<!DOCTYPE html>\n<html lang="en">\n<head>${head}</head>\n<body>\n${inside}\n</body>\n</html>\n`;
}

const DRAWN = Symbol("the picture");

/** Who gets how much: decimals that add to the rounded sum, and the exact fractions. */
function tableOf(game, shares) {
  const isEstate = game.kind === "bankruptcy", places = spoken.places ?? 2;
  const texts = inPlaces(places, () => columnTexts(shares)), own = (i) => (isEstate ? game.amounts[i] : game.alone(i));
  const verb = `${game.costs ? "pays" : "gets"}${spoken.unit && `, ${withEscapes(spoken.unit)}`}`;
  const alone = isEstate ? "claims" : game.costs ? "would cost alone" : "is worth alone";
  const row = (cells, kind = "td", attributes = {}) => el("tr", attributes, cells.map((cell) => el(kind, {}, cell)));
  const bare = (value) => inPlaces(spoken.places, () => shortText(value));
  return [
    el("table", {}, row(["", verb, "exactly", alone], "th"), game.shown.map((name, i) => {
      return row([el("bdi", {}, name), texts[i], fractionText(shares[i]), bare(own(i))]);
    }), row(["together", texts.at(-1), fractionText(Rational.sum(shares)),
      isEstate && bare(Rational.sum(game.amounts))], "td", { class: "all" })),
    el("p", {}, "Decimals are rounded so that they add up."),
  ];
}

/** What a call gives where numbers have so many places and no unit, which a table has in its head. */
function inPlaces(places, call) {
  const { places: before, unit } = spoken;
  Object.assign(spoken, { places, unit: "" });
  const found = call();
  Object.assign(spoken, { places: before, unit });
  return found;
}

function partOf({ title, sentences, items, last }) {
  return [
    el("p", {}, el("strong", {}, `${title}.`), ` ${sentences.join(" ")}`),
    items.length && el("ul", {}, items.map(({ label, text }) => el("li", {}, [label, text].filter(Boolean).join(" ")))),
    last && el("p", {}, last),
  ].filter(Boolean);
}

function checkOf(rule, over) {
  const code = (text) => el("code", {}, text), count = countText(over);
  const divided = ` Above all amounts are divided by ${count}: in the line they are so many times as great.`;
  return el("p", {}, "The line below is the whole answer: the game, the shares as exact fractions, and a certificate ",
    `that shows that they are the ${rule}. Anyone can check it, with Python alone: take `, code("check-anew"),
    " from the project and not from whoever sent this page, save the line as a file, and call ",
    code("python3 check-anew FILE"), "; it says yes or no, and why not. Whether the game in it is the one that was ",
    "agreed on, ", code("scripts/same-game FILE AGREED"), " says. How to do it by hand, the project’s page ",
    code("docs/certificates.md"), " says.", over > 1 && divided);
}

/** The line, with escapes of JSON for what isn't seen; of one that is too long to be printed its sum, since it has to
 * be sent beside the page. */
function lineOf(line) {
  if (line.length <= MOST_PRINTED) {
    const escape = (unit) => `\\u${unit.charCodeAt(0).toString(16).padStart(4, "0")}`;
    return el("pre", {}, line.replace(UNSEEN, (letter) => letter.split("").map(escape).join("")));
  }
  const sum = createHash("sha256").update(`${line}\n`).digest("hex");
  return [el("p", {}, "It is too long to be printed, and comes as a file. As the program wrote it, its sha256 is"),
    el("pre", {}, sum)];
}
