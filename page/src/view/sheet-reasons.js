// The reasons on the one printed page: of the answer as there is room, and of what was agreed on what it means.
import { Rational } from "../exact/rational.js";
import { listed } from "../game/words.js";
import { POWER } from "../tell/power.js";
import { sourceOf } from "../tell/rule-names.js";
import { el } from "./dom.js";
import { totalsOf } from "./format.js";
import { meaningOf } from "./meanings.js";
import { isHard } from "./why-pair.js";

const MOST_TOLD = 800; // characters of the first reason that are printed in full
const MOST_LEVELS = 1100; // characters of what the levels behind the first settle
const MOST_CUT = 4; // levels without their reason that are named
const MOST_SAVING = 8; // rows of whom each saving is named

const PRICES = "These pairs gain most together. At these prices no other pair does better.";

/** What each saves, or gets more, against going alone, as the numbers are shown; "" if somebody doesn't, or the class
 * has no such numbers. */
function savingsText(game, { shares }, rows, format) {
  if (!game.own || game.isMarket() || game.kind === "bankruptcy") return "";
  const isRunway = game.kind === "airport"; // the landings of a row need one runway, not one each
  const isShared = ({ sum }, r) => sum !== undefined && rows.some((one, k) => k !== r && one.sum === sum);
  if (isRunway && rows.some(isShared)) return ""; // nor do those of an airline
  const totals = totalsOf(rows, shares);
  const alone = isRunway ? rows.map(({ players: [i] }) => game.own[i]) : totalsOf(rows, game.own),
    unit = new Rational(10n ** BigInt(format.places));
  const steps = format.steps(totals, rows), shown = alone.map((value, r) => {
    const more = value.minus(new Rational(steps[r]).over(unit));
    return game.costs ? more : more.negated();
  });
  if (shown.some((value) => value.isNegative())) return "";
  const does = game.costs ? "saves" : "gains", sum = format.show(Rational.sum(shown));
  const told = rows.map(({ label }, r) => `${label} ${does} ${format.show(shown[r])}`);
  const most = rows[shown.findIndex((value) => value.equals(Rational.max(shown)))].label;
  return `Against going alone, ${rows.length > MOST_SAVING ? `${most} ${does} most, ${format.show(Rational.max(shown))}`
    : listed(told)}: together ${sum}.`;
}

/** Of an estate in proportion, what part of each claim is paid; "" for another column. */
function partText({ kind, single, amounts }, { key }, format) {
  if (kind !== "bankruptcy" || key !== "proportion") return "";
  const percent = single.times(Rational.of(100)).over(Rational.sum(amounts));
  return `Each gets ${format.show(percent)}\u202f% of its claim.`;
}

/** What is said for a column that was agreed on, and isn't the answer; "" for nothing. */
function meantOf({ result: { game }, rows, format, agreed }) {
  const text = [partText(game, agreed, format), savingsText(game, agreed, rows, format), meaningOf(agreed.key, game)]
    .filter(Boolean).join(" ");
  return text && el("section", {}, el("h2", {}, agreed.title), el("p", {}, text));
}

/** Why the column that the sheet is of has these shares. */
export function reasonsOf({ result, pair, rows, format, ...view }) {
  const { reasons, answer, rule, game, points } = result;
  if (view.agreed && view.agreed.key !== answer) return meantOf({ ...view, result, rows, format });
  if (game.ballots || !reasons) {
    const [title, text] = game.ballots ? ["What power is", POWER] : ["How it was found", PRICES];
    return el("section", {}, el("h2", {}, title), el("p", {}, text));
  }
  const [said, isChosen] = pair ?? [];
  const [principle, next] = reasons, levels = reasons.filter(({ isLevel }) => isLevel).length;
  const first = next && toldOf(next), { told: behind, cut } = levelsBehind(reasons, next);
  const sentences = [...principle.sentences, ...(first ?? [])], isOne = next?.isLevel && levels > 1 && !behind.length;
  if (isOne) sentences.push(`This is the first of ${levels} levels: “Why” on the page has them all.`);
  const lacking = [...(first?.isCut && next.isLevel ? [next.title] : []), ...cut];
  const { title, verdict } = points.find(({ key }) => key === answer) ?? points[0], isCore = verdict?.isCore;
  const saved = savingsText(game, points[0], rows, format);
  return el("section", {}, el("h2", {}, `Why: ${title[0].toLowerCase()}${title.slice(1)} (the ${rule})`),
    saved && el("p", {}, saved), el("p", {}, sentences.join(" ")),
    behind.length > 0 && el("ul", { class: "levels" }, behind.map((text) => el("li", {}, text))),
    el("p", {}, lacking.length > 0 && cutText(lacking), isCore && "By these shares no group does better by itself. ",
      `No other division meets the principle: there is exactly one ${rule} (${sourceOf(game.perHead)}).`),
    (isChosen || (next?.isLevel && reasons.some(isHard))) && el("p", {}, said));
}

/** What the later levels say, `told`: who is worst off, why if that can be said, and what is settled; or only what is
 * settled, as there is room. `cut` are the titles of those whose reason is left out. */
function levelsBehind(reasons, next) {
  const others = next?.isLevel ? reasons.slice(2).filter(({ isLevel }) => isLevel) : [];
  const short = others.map(({ title, brief }) => `${title}: ${brief}`);
  const long = others.map(({ title, sentences, brief, items }) => {
    const told = isHard({ isLevel: true, sentences }) ? [sentences[0], sentences[1], brief] : sentences;
    return [`${title}:`, ...(items.length ? items.map(({ label }) => label) : told)].join(" ");
  });
  const isShort = (some) => some.join(" ").length <= MOST_LEVELS, titles = (some) => some.map(({ title }) => title);
  if (isShort(long)) return { told: long, cut: titles(others.filter(isHard)) };
  return isShort(short) ? { told: short, cut: titles(others) } : { told: [], cut: [] };
}

/** Where the reasons are that are left out. */
function cutText(titles) {
  const numbers = titles.map((title) => title.replace(/^Levels? /, "")), isOne = /^Level [^,]*$/.test(titles.join());
  const some = numbers.length > MOST_CUT ? "most levels" : `level${isOne ? "" : "s"} ${listed(numbers)}`;
  return `The reasons of ${some} are longer: “Why” on the page has them. `;
}

/** The first reason: with its items, or without, or its first sentences and the last one (`isCut`), as is room. */
function toldOf({ sentences, items, last = "" }) {
  const whole = [...sentences, ...items.map(({ label }) => label), last], short = [...sentences, last];
  const isShort = (some) => some.join(" ").length <= MOST_TOLD, isCut = !isShort(short) && sentences.length > 3;
  const told = isShort(whole) ? whole : isCut ? [...short.slice(0, 2), sentences.at(-1)] : short;
  return Object.assign(told.filter(Boolean), { isCut });
}
