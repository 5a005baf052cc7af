// The answer: who gets or pays what, by several divisions side by side, with pictures.
import { decimalOf, percentText, shortText, stepsOf } from "../exact/decimals.js";
import { Rational } from "../exact/rational.js";
import { bars } from "../draw/bars.js";
import { plan } from "../draw/plan.js";
import { power, trades } from "../draw/ranges.js";
import { START } from "../draw/tetrahedron.js";
import { triangle } from "../draw/triangle.js";
import { mayBeOfRounding } from "../cases/coarse.js";
import { coarseText, dividedText } from "../tell/coarse-text.js";
import { tiesText } from "../tell/other-pairs.js";
import { plainPoints, ruleName } from "../tell/rule-names.js";
import { Namer } from "../tell/words.js";
import { enumerated, listed, times } from "../game/words.js";
import { beyondParts } from "./beyond.js";
import { extremes } from "./extremes.js";
import { el } from "./dom.js";
import { totalsOf } from "./format.js";
import { meanings } from "./meanings.js";
import { pinnedNote, pinTools } from "./pinned.js";
import { missingText } from "./questions.js";
import { sealsOf } from "./seals.js";
import { divisionReasons } from "./reasons.js";
import { roundingPart, sharesTable } from "./shares-table.js";
import { turningTetrahedron } from "./turning.js";
import { typesTable } from "./types-table.js";

/** All parts of an answer. `settings` are {rows, format, proposal, wide, source, coarse, typed, ask}, and of what the
 * page filled in {filled, remark}: what is said of it, and what of the picture. */
export function answerParts(result, settings) {
  const { game, points, refusal } = result, { proposal, wide, filled, coarse, rows } = settings;
  if (refusal) return [refused(refusal)];
  const solution = solutionOf(result);
  const own = { key: "proposal", title: "Your proposal", shares: proposal.shares };
  const seen = proposal.shares ? [...points, own] : points, { format } = settings;
  const pictured = { ...settings, wide: Math.min(wide, 900) }, missing = missingText(game);
  const deals = tradesOf(result, pictured);
  return [
    briefNotice(result),
    ...(game.ballots ? votes(result, pictured) : []),
    deals?.said,
    solution && !game.ballots && !game.isMarket() && lead(result, solution, settings),
    solution && !game.ballots && !game.isMarket() && becauseOf(result),
    solution && !game.ballots && sealsOf(result, solution, format),
    deals && !solution && deals.table,
    points.length > 0 && (!game.ballots || solution) && inPlace(result, settings),
    notices(result, format, coarse, result.odds),
    filled && el("p", { class: "note filled-note" }, filled),
    coarse && el("p", { class: "note coarse-note" }, coarseText(coarse)),
    coarse?.times && plainPoints(seen, game).map(({ title, shares }) => {
      return el("p", { class: "hint divided" }, dividedText(coarse, title, rows, totalsOf(rows, shares)));
    }),
    missing && el("p", { class: "hint missing" }, missing),
    game.kind === "airport" && typesPart(result, settings),
    result.beyond && beyondParts(result.beyond, settings),
    deals?.picture,
    ...(solution && !game.ballots && !deals ? pictures(result, seen, pictured).slice(0, 1) : []),
  ].filter(Boolean);
}

/** Who trades, and how far the price can go: of a market it belongs to the reasons, where shares are the answer. */
export function tradesPart(result, settings) {
  return solutionOf(result) ? tradesOf(result, settings)?.table : null;
}

function tradesOf({ game, points, matching }, { format, wide }) {
  const solution = solutionOf({ points: plainPoints(points, game) });
  return matching && trades(game, matching, { ...format, solution, ties: tiesText(game, matching), wide });
}

/** The pictures for which the answer has no room: those of the reasons. */
export function morePictures(result, settings) {
  const { points, game } = result, { proposal, wide } = settings;
  if (!solutionOf(result) || game.ballots) return [];
  const own = { key: "proposal", title: "Your proposal", shares: proposal.shares };
  const seen = proposal.shares ? [...points, own] : points;
  return pictures(result, seen, { ...settings, wide: Math.min(wide, 900) }).slice(result.matching ? 0 : 1);
}

const HUNDRED = Rational.of(100);
const SPLIT = "One player alone and all the others together gain least by joining. What one gains the other loses, so "
  + "no division is better for both.";
const RUNWAY = "No group pays more than it would cost alone; who gains least comes first.";

/** One sentence of the reasons: what the rule of the class says, or how those are treated that gain least. */
function becauseOf({ game, reasons }) {
  if (!reasons) return el("p", { class: "because hint" }, "Finding the reasons …");
  const level = reasons.find(({ isLevel }) => isLevel);
  const said = game.kind === "bankruptcy" ? talmud(game) : game.kind === "airport" ? RUNWAY
    : !level ? null : /^Levels/.test(level.title) ? SPLIT
    : `${level.sentences[0].replace(/\.$/, "")}. No division is better for the groups that gain least.`;
  return said && el("p", { class: "because" }, el("b", {}, "Why: "), said);
}

/** The Talmud’s rule, by the half of the claims that counts. */
function talmud({ single, amounts }) {
  const all = Rational.sum(amounts.map((claim) => Rational.min([claim, single]))), twice = single.plus(single);
  const isCut = amounts.some((claim) => single.less(claim)), is = (part, what) => {
    return `The estate is ${part} of the claims${isCut ? ", each counted up to the estate" : ""}, so each ${what} (the `
      + "Talmud’s rule).";
  };
  if (all.equals(twice)) return is("half", "gets half of its own");
  const [part, verb] = twice.less(all) ? ["less", "gets"] : ["more", "loses"];
  return is(`${part} than half`, `${verb} the same, but nobody more than half of the claim`);
}

function typesPart({ game, points }, { rows, format }) {
  const landings = rows.map(({ type, players: [i] }) => ({ type, cost: game.amounts[i] }));
  const each = ({ shares }) => rows.map(({ players: [i] }) => shares[i]);
  return typesTable(landings, plainPoints(points, game).map((point) => ({ ...point, each: each(point) })), format);
}

export function solutionOf({ points }) {
  return points.find(({ key }) => key.endsWith("nucleolus"));
}

function refused({ sentence, place }) {
  return el("div", { class: "notice bad", role: "alert" },
    el("p", {}, sentence), place && el("p", { class: "where" }, `Place: ${place}`));
}

/** All pictures of an answer, the one that tells most first. */
function pictures({ game, bird }, points, { rows, format, wide, remark, source, typed }) {
  const turn = (typed.turn ??= { ...START });
  const seen = plainPoints(points, game);
  const narrow = seen.filter(({ key }) => !["core", "buyers", "sellers"].includes(key));
  const drawn = [bars(game, rows, narrow, { ...format, wide, remark }),
    game.n === 3 && triangle(game, seen, { wide }),
    game.n === 4 && game.groups && turningTetrahedron(game, seen, { wide, view: turn })];
  return [bird && plan(game, bird.tree, { ...format, wide, source }), ...drawn].filter(Boolean);
}

function votes({ game, points }, settings) {
  const shares = powerOf(points);
  return shares ? [powerLead(game, shares, settings.format), ...powerTable(game, shares, settings)] : [];
}

/** The power of each voter, where it is known. */
export const powerOf = (points) => points.find(({ key }) => key === "shapley")?.shares;

/** Of votes the shares are another question than the answer, and folded, with their reasons. */
function inPlace(result, settings) {
  const { game, points } = result, table = sharesTable(result, settings);
  return game.ballots ? el("details", { class: "fold-part" },
    el("summary", {}, "Dividing a prize of 1 among the voters"),
    el("p", { class: "hint" }, "That is another question than power: a voter may get nothing of the prize and have ",
      "influence all the same."), table, divisionReasons(result), meanings(points, false, game),
    roundingPart(result, settings)) : table;
}

/** The power of each voter beside what was kept. */
export function powerTable(game, shares, { rows, format, wide, pinned, labelOfCell, isPaper = false }) {
  const percents = percentsOf(format), kept = pinned?.pin ? keptPower(pinned, percents) : undefined;
  const column = { key: "shapley", title: "Power", totals: shares };
  return [kept && pinnedNote(pinned, column, rows, { format: percents, labelOfCell }),
    power(game, shares, { ...format, wide, kept }),
    pinned?.pin && !isPaper && el("p", { class: "tools" }, pinTools(pinned))];
}

/** How power is shown: in per cent, with one decimal. */
function percentsOf({ mark }) {
  const text = (steps) => `${decimalOf(steps, 1, { mark })}\u202f%`;
  const stepOf = (value) => stepsOf(value.times(HUNDRED), 1);
  const show = (value) => text(stepsOf(value, 1));
  const ofChange = (value) => `${decimalOf(stepsOf(value, 1), 1, { mark })} percentage points`;
  return { places: 1, mark, text, show, ofChange, steps: (values) => values.map(stepOf) };
}

/** The kept power of each voter, of 1. */
function keptPower(pinned, percents) {
  return pinned.kept("shapley", percents)?.values.map((value) => value && value.over(HUNDRED));
}

/** Who has most power, and who has none. */
export function powerLead({ shown }, shares, { mark }) {
  const most = Rational.max(shares), of = (is) => shown.filter((_, i) => is(shares[i]));
  const strong = of((share) => share.equals(most)), none = of((share) => share.isZero());
  const part = percentText(most, { mark });
  const [has, each] = strong.length > 1 ? ["have", " each"] : ["has", ""];
  const others = none.length > 3 ? `; ${none.length} voters have none` : none.length > 0
    && `; ${listed(none)} ${none.length > 1 ? "have" : "has"} none`;
  const who = strong.length > 4 ? `${strong.length} voters` : listed(strong);
  return el("p", { class: "lead" }, `${who} ${has} most power, ${part}${each}`, others, ".");
}

// ---- What has to be said first

/** The one notice above the answer: that no division is all right. The whole of it is below the table. */
function briefNotice({ game, noImputation, core }) {
  const text = noImputation ? `In every division somebody ${game.costs ? "pays more" : "gets less"} than alone.`
    : core?.collection ? "Whatever the division, some group could do better by itself." : "";
  return text && el("p", { class: "ahead" }, text, el("span", { class: "hint" }, " The reason is below the table."));
}

/** Also on paper. `coarse` is what was done to the numbers; `odds` are remarks on them. */
export function notices({ game, noImputation, core }, { apart }, coarse, odds = []) {
  const notes = [];
  if (noImputation) {
    const { singles, total } = noImputation, [alone, together] = apart(singles, total);
    const worse = game.costs ? "pays more" : "gets less";
    const facts = game.costs
      ? `By themselves the players cost ${alone}, added; all together cost ${together}.`
      : `By themselves the players are worth ${alone}, added; all together are worth ${together}.`;
    notes.push(`${facts} So in every division somebody ${worse} than alone, and there is no nucleolus. `
      + "The prenucleolus doesn’t ask for that.");
  }
  if (core?.collection) notes.push(emptyCore(game, core, apart) + roundedCore(core, coarse)
    + oddCore(core, odds));
  return notes.length > 0 && el("div", { class: "notice" }, notes.map((note) => el("p", {}, note)));
}

/** Why no division satisfies all groups: the groups of the collection, so counted, want more than there is. */
function emptyCore(game, core, apart) {
  const namer = new Namer(game), k = Number(core.k), often = times(k);
  const groups = core.collection.map(([players, weight]) => {
    const group = namer.group(players.map((player) => Number(player) - 1));
    return `${group}${weight > 1n ? ` (${weight} times)` : ""}`;
  });
  const [value, against] = apart(Rational.of(core.value), Rational.of(core.against));
  const more = Rational.of(core.against).minus(Rational.of(core.value)).abs().over(Rational.of(core.k));
  const lacks = shortText(more);
  const all = k === 1 ? "All together" : `${k} times all together`;
  const [own, whole, need] = game.costs
    ? [`cost ${value} by themselves, added`, `cost ${against}, which is more`, `cost at least ${lacks} less`]
    : [`are worth ${value}, added`, `are worth ${against}, which is less`, `be worth at least ${lacks} more`];
  return "Whatever the division, some group could do better by itself. "
    + `Take ${enumerated(groups)}: they hold each player ${often} and ${own}. ${all} ${whole}. To satisfy `
    + `every group, all together would have to ${need}.`;
}

/** Which of these groups have a number that can hardly be meant: a mistake there may be all the reason. */
function oddCore({ collection }, odds) {
  const masks = collection.map(([players]) => players.reduce((mask, player) => mask | (1 << (Number(player) - 1)), 0));
  const all = masks.reduce((mask, one) => mask | one, 0), found = odds.filter(({ mask }) => {
    return masks.includes(mask) || mask === all;
  });
  const told = found.map(({ sentence }) => sentence).join("; ");
  return told && ` If that isn’t meant, look at this number first: ${told}.`;
}

/** That the groups want more than there is may come of rounded numbers, where it is little more. */
function roundedCore({ collection, k, value, against }, coarse) {
  const more = Rational.of(value).minus(Rational.of(against)).abs();
  const count = collection.reduce((sum, [, weight]) => sum + weight, k);
  return mayBeOfRounding(coarse, more, count) ? " But that is so little that it may come of the rounding: by the "
    + "numbers as they were given, some division may satisfy all groups." : "";
}

// ---- The answer in a sentence

const MOST_LED = 6;

export function lead({ game }, { shares, key }, { rows, format }) {
  const who = [...new Set(rows.map((row) => row.sum ?? row.label))];
  const owns = who.map((name) => rows.filter((row) => (row.sum ?? row.label) === name));
  const totals = owns.map((own) => Rational.sum(totalsOf(own, shares))), texts = format.column(totals);
  const verb = game.costs ? "pays" : "gets";
  if (who.length > MOST_LED) return extremes({ who, totals, texts, verb });
  const parts = who.map((name, k) => {
    const landings = owns[k].reduce((count, { players }) => count + players.length, 0);
    return `${name} ${verb} ${texts[k]}${landings > 1 ? ` for ${landings} uses` : ""}`;
  });
  return el("p", { class: "lead" }, `${listed(parts)}: together ${texts.at(-1)}.`,
    (key === "prenucleolus" || game.perHead) && ` (By the ${ruleName(key, game.perHead)}.)`);
}
