// What the page tells of documents, for a program that asks serve.mjs --tell: by the page's own modules, and not by the
// proved program.
//
//     tell line [SETTINGS]       LINE DOCUMENT VERDICT, in sentences: the document that was asked about gives names and
//                                numbers to a line that has no game, and the verdict is the line of a checker on a
//                                certificate; both may be empty
//     tell report [SETTINGS]     LINE PRINTED ABOUT, a line whose certificate was checked as a paper of HTML
//     tell picture [SETTINGS]    GAME ABOUT, shares as an SVG
//     tell compare [SETTINGS]    GAME ABOUT, the excesses of two divisions side by side, and which is better
//     tell margins [SETTINGS]    GAME ABOUT, which numbers of a table count
//     tell rules [SETTINGS]      GAME ABOUT, by which rules which group could do better
//     tell same                  LINE AGREED, what the two games are to each other
//     tell odds [SETTINGS]       NUMBERS of the groups of a table, {"names", "isCost", "given", "filled"}, by masks:
//                                which of the given ones can hardly be meant, each mask with a sentence
//     tell mail                  a text that is no line, what mail has done to it, and whether the page undoes it
//     tell slip COMMAND          a document, the first refusal of a command, and the first key that is given twice
//
// Several texts have a zero byte between each two. What ABOUT may have, report.mjs, picture.mjs, compare.mjs
// and rules.mjs say.
// SETTINGS are JSON: {"places": N, "unit": TEXT, "mark": TEXT, "thousands": TEXT}, how numbers are spelled. The answer
// is JSON, and the status is 0; of `same` 1 for another game, 2 where nobody can say, 3 where it is worth the same; of
// `slip` 1 where one is found; and 2 with {"fault": SENTENCE} for what can't be told.
import { oddsOf } from "../page/src/cases/odds.js";
import { columnTexts } from "../page/src/exact/decimals.js";
import { JsonFault, parseJson } from "../page/src/exact/json.js";
import { spoken } from "../page/src/exact/marks.js";
import { Rational } from "../page/src/exact/rational.js";
import { Game } from "../page/src/game/game.js";
import { membersOf } from "../page/src/game/groups.js";
import { ANOTHER, SAME, UNSAID, WORTH_THE_SAME } from "../page/src/game/same-worths.js";
import { withEscapes } from "../page/src/game/names.js";
import { answerTold, sharesTold, Untold } from "../page/src/tell/answers.js";
import { failureTold } from "../page/src/tell/conditions.js";
import { explain } from "../page/src/tell/explain.js";
import { mended, unreadable } from "../page/src/tell/mail.js";
import { REFUSALS, refusalText } from "../page/src/tell/refusals.js";
import { slipsIn } from "../page/src/tell/slips.js";
import { Namer } from "../page/src/tell/words.js";
import { compared } from "../page/src/work/lines.js";
import { entriesOf } from "../page/src/work/same-game.js";
import { compareDivisions } from "./compare.mjs";
import { picture } from "./picture.mjs";
import { report } from "./report.mjs";
import { marginsTold, rulesTold } from "./rules.mjs";

const PLAIN = { mark: ".", thousands: ",", places: null, unit: "" };
const STATUS = { [SAME]: 0, [ANOTHER]: 1, [UNSAID]: 2, [WORTH_THE_SAME]: 3 };
const TASKS = {
  line: lineTold, report: reportTold, picture: pictureTold, compare, margins: aboutGame(marginsTold),
  rules: aboutGame(rulesTold), same, odds, mail, slip,
};
const CANT = 2;
const MOST_ODDS = 64;

/** What the words after `tell` ask of the bytes of a document: a status, and the bytes of some JSON. */
export function told(engine, [task, setting, ...more], document) {
  if (!Object.hasOwn(TASKS, task) || more.length) return bytesOf({ status: CANT, fault: "there is no such word" });
  Object.assign(spoken, PLAIN, task === "slip" ? {} : JSON.parse(setting ?? "{}"));
  try {
    return bytesOf(TASKS[task](engine, document, setting));
  } catch (fault) {
    if (fault instanceof Untold) return bytesOf({ status: CANT, fault: fault.message });
    const isWrong = [JsonFault, TypeError, SyntaxError].some((kind) => fault instanceof kind);
    if (!isWrong && !/by zero/.test(fault.message)) throw fault;
    return bytesOf({ status: CANT, fault: `this isn’t a whole document or line: ${fault.message}` });
  }
}

function bytesOf({ status = 0, ...found }) {
  return { status, line: Buffer.from(`${JSON.stringify(found)}\n`) };
}

/** The texts of a request. */
const textsOf = (document) => Buffer.from(document).toString("utf8").split("\0");

function sharesOf(tree) {
  return Array.isArray(tree?.shares) ? tree.shares.map(Rational.of) : null;
}

/** Any line but a refusal. */
function lineTold(_, data) {
  const [line, document, verdict] = textsOf(data), tree = parseJson(line), beside = document && parseJson(document);
  const of = beside || tree, game = of.game ? new Game(of.game) : null;
  const failed = verdict ? parseJson(verdict) : tree;
  if (failed.answer === "no") return { parts: [{ sentences: failureTold(failed, game, of), items: [] }] };
  if (!verdict) return { parts: answerTold(tree, game, beside && sharesOf(beside)) };
  return { parts: [...explain(game, tree), allShares(game, sharesOf(tree))] };
}

/** Who gets how much, as the last part of an explanation. */
function allShares(game, shares) {
  const parts = sharesTold(shares, new Namer(game)), whole = columnTexts(shares).at(-1);
  const sentence = `They ${game.costs ? "pay" : "get"}: ${parts.join(game.n > 12 ? "; " : ", ")}. Together: ${whole}.`;
  return { sentences: [sentence], items: [] };
}

function reportTold(_, data) {
  const [line, printed, about] = textsOf(data), tree = parseJson(line), game = new Game(tree.game);
  const found = { game, answer: tree.answer, shares: sharesOf(tree), parts: explain(game, tree) };
  return { html: report({ ...found, printed, ...JSON.parse(about) }) };
}

function pictureTold(_, data) {
  const { game, points, settings } = pointsIn(data);
  return { svg: picture(game, points, settings) };
}

function compare(_, data) {
  const { game, points, settings } = pointsIn(data);
  return compareDivisions(game, points, settings);
}

/** A game, the named shares of it, and what else is said about them. */
function pointsIn(data) {
  const [game, about] = textsOf(data), { points, ...settings } = JSON.parse(about);
  const named = points.map(([title, shares]) => ({ title, shares: shares.map(Rational.of) }));
  return { game: new Game(parseJson(game)), points: named, settings };
}

/** What is told of a game by what stands beside it. */
function aboutGame(tell) {
  return (_, data) => {
    const [game, about] = textsOf(data);
    return tell(new Game(parseJson(game)), JSON.parse(about));
  };
}

function same(engine, document) {
  const [line, agreed] = textsOf(document);
  const found = compared(line, agreed, (word, text) => answer(engine, word, text));
  const entries = found.outcome === SAME ? entriesOf(parseJson(line).game) : [];
  return { ...found, entries, status: STATUS[found.outcome] };
}

/** What work/answers.js gives in a worker. */
function answer(engine, word, document) {
  const { status, line } = engine.run([word], new TextEncoder().encode(document));
  const tree = status > 3 ? {} : parseJson(new TextDecoder().decode(line));
  return { status, tree, refusal: status > 1 ? refusalText(tree, document, word) : undefined };
}

function odds(_, data) {
  const { names, isCost, given, filled } = JSON.parse(textsOf(data)[0]), values = Array(2 ** names.length).fill();
  for (const [mask, number] of Object.entries({ ...filled, ...given })) values[mask] = Rational.of(number);
  const nameOf = (mask) => membersOf(mask).map((i) => withEscapes(names[i])).join("+");
  const isGiven = (mask) => Object.hasOwn(given, mask);
  return { odds: oddsOf(values, names.length, { isCost, nameOf, isGiven, most: MOST_ODDS }) };
}

function mail(_, data) {
  const [text] = textsOf(data);
  return { done: unreadable(text).slice(0, -1), isMended: mended(text) !== null };
}

function slip(_, document, command) {
  const { slips: [first], doubles: [twice] } = slipsIn(document, command);
  return {
    slip: first && { place: "the document", ...first, name: REFUSALS[first.number] },
    twice: twice && { key: withEscapes(twice.key), place: withEscapes(twice.place) },
    status: first || twice ? 1 : 0,
  };
}
