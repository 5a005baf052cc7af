// The one printed page: who, how much, a picture, the reasons, what is agreed on, and how to check it.
import { sourceName } from "../cases/matrices.js";
import { countText, fractionText } from "../exact/decimals.js";
import { barsPicture } from "../draw/bars.js";
import { OWN_LINKS, planPicture } from "../draw/plan.js";
import {
  dealsOf, idleOf, limitsText, powerDrawn, priceOf, pricesPicture, priceText, tradesLead, tradesTable,
} from "../draw/ranges.js";
import { trianglePicture } from "../draw/triangle.js";
import { Rational } from "../exact/rational.js";
import { fileNames } from "../cases/coarse.js";
import { coarseText, dividedText } from "../tell/coarse-text.js";
import { tiesText } from "../tell/other-pairs.js";
import { OWN_PROVED } from "../tell/proved.js";
import { plainPoints } from "../tell/rule-names.js";
import { Namer } from "../tell/words.js";
import { agreedColumn, agreedText } from "./agreed.js";
import { lead, notices, powerOf, solutionOf } from "./answer.js";
import { beyondSheet } from "./beyond.js";
import { beyondPower } from "./beyond-power.js";
import { checkOf } from "./sheet-check.js";
import { columnHead, el, refill } from "./dom.js";
import { knownDigest } from "./files.js";
import { fitOnPaper } from "./fit.js";
import { halves } from "./halves.js";
import { countedText, filledLines, filledText, givenText } from "./filled.js";
import { movedText, totalsOf, withSum } from "./format.js";
import { labelOfCell } from "./cell-names.js";
import { outOfBounds } from "./own-bounds.js";
import { pinnedOf, pinnedText } from "./pinned.js";
import { CALCULATED } from "./questions.js";
import { contextOf, ownSum, sameText } from "./shares-table.js";
import { reasonsOf } from "./sheet-reasons.js";
import { signing } from "./signing.js";
import { airlineLines } from "./table-lines.js";
import { changeText, todayOf, todayTitle } from "./today.js";
import { unitOf } from "./unit.js";
import { linesTable } from "./types-table.js";
import { filedText, neededHint, votesOn } from "./votes-sheet.js";

const WIDE = 700;
const SMALL = 230; // of a side of the triangle, so that its letters can be read on paper
const PAPER_WIDE = 176; // millimetres of A4 between the margins
const [READ, SAID] = [7, 5]; // units of a picture in a millimetre at most, and millimetres of the words below it
const MOST_PICTURED = 10; // rows whose bars leave room for the rest
const MANY_ROWS = 5; // above, letters are smaller, and a picture is lower
const LONG = 900; // characters of the reasons above which they are, too
const MOST_DOCUMENT = 420; // characters of the game's document that are printed
const MOST_ALONE = 900; // the same if there is no picture

const AREA = "The grey area, if there is one, contains the divisions by which no group could do better by itself.";
const OF_FILE = " This is the SHA-256 of the file. The box below contains the same numbers, as this page writes them.";
const OF_TEXT = " This is the SHA-256 of the text in the box below, with a line end after it.";

/** Fills the sheet with the answer of a session, and returns the number of sheets of paper that it takes. Without an
 * answer the sheet is empty. */
export function showSheet(session, typed = {}) {
  const sheet = document.getElementById("sheet");
  fillSheet(sheet, session, typed);
  return fitOnPaper(sheet);
}

function fillSheet(sheet, session, typed) {
  const { result, reading } = session;
  const isBeyond = result?.beyond && !result.game;
  if (!isBeyond && (!result || result.refusal || !result.points.length)) return refill(sheet);
  const { rows } = reading, format = session.format(), today = todayOf(session, rows);
  const { heading, withProposal } = typed, unit = session.kind.isVote ? "" : unitOf(typed), { coarse } = session.typed;
  const pinned = pinnedOf(session, rows);
  const labelOf = (cell) => labelOfCell(cell, session);
  const points = isBeyond ? [] : plainPoints(result.points, result.game), chosen = agreedColumn(session, typed);
  const agreed = points.find(({ key }) => key === chosen?.key) ?? chosen;
  const view = { ...session, heading, unit, withProposal, rows, format, today, coarse, pinned, labelOfCell: labelOf,
    result: { ...result, points }, agreed };
  if (isBeyond) return beyondOn(sheet, view);
  const reasons = reasonsOf(view), isLong = rows.length > MANY_ROWS || (reasons && reasons.textContent.length > LONG);
  const isTight = isLong || Boolean(withProposal || agreed || coarse || pinned.pin || result.core?.collection);
  sheet.className = isTight ? "tight" : "";
  return refill(sheet, headOf(view), notices(result, format, coarse), agreedLine(view), answerOf(view),
    pictureOf(view), reasons, agreedOf(view), checkOf(view));
}

/** What the page calculates by itself. */
function beyondOn(sheet, view) {
  const { result: { beyond } } = view;
  sheet.className = "tight";
  refill(sheet, headOf(view), agreedLine(view), beyond.game
    ? [neededHint(view, beyond.game), beyondPower(beyond, { ...view, wide: WIDE, isPaper: true }),
      el("p", { class: "hint" }, OWN_PROVED)]
    : beyondSheet(beyond, { ...view, sign: signing(beyond.rows) }));
}

const agreedLine = ({ agreed }) => agreed && el("p", { class: "agreed" }, el("b", {}, agreedText(agreed)));

function headOf({ heading, kind }) {
  return el("header", {}, el("h1", {}, heading?.trim() || kind.title), el("p", { class: "hint day" }, dayText()));
}

export function dayText() {
  return new Date().toLocaleDateString("en-GB", { dateStyle: "long" });
}

// ---- Who, and how much

/** The column that the sheet is of: that which was agreed on, or the answer. */
const mainOf = ({ result, agreed }) => agreed ?? solutionOf(result) ?? result.points[0];

/** All columns of rules on the sheet. */
const shownPoints = (view) => (view.withProposal ? view.result.points : [mainOf(view)]);

/** Who trades, at what prices, and by which limit prices. */
function tradesOn({ agreed, result: { game, matching, ...result }, format }) {
  const deals = dealsOf(game, matching, agreed ?? solutionOf(result));
  return el("section", {}, tradesLead(deals, idleOf(game, matching), matching.value, format),
    tradesTable(deals, format), el("p", { class: "hint" },
      `${limitsText(game, format)}${priceText(deals)} ${tiesText(game, matching)}`));
}

function answerOf(view) {
  const { result, rows, format, unit, today, coarse, pinned, agreed } = view, { game } = result;
  if (game.ballots) return votesOn(view);
  const point = mainOf(view);
  if (!point) return null;
  if (result.matching) return tradesOn(view);
  const { title } = point, totals = totalsOf(rows, point.shares);
  const context = contextOf(game, rows, format), texts = format.column(totals, rows);
  const hasExact = totals.some((total) => !format.isExact(total)), who = game.costs ? "Who pays" : "Who gets";
  const beside = othersOf(view, point), steps = format.steps(totals, rows);
  const kept = pinned.pin && !point.totals ? pinned.kept(point.key, format) : null;
  const others = [...todaysOf(today, steps, game, format), ...keptsOf(kept, steps, format), ...beside];
  const own = columnHead(point, agreed && "agreed on"), exactly = hasExact ? "exactly" : undefined;
  const heads = [who, context?.title, own, exactly,
    ...others.flatMap((other) => (other.exact ? [columnHead(other), "exactly"] : [columnHead(other)]))];
  const line = (r) => el("tr", {},
    el("th", { scope: "row" }, rows[r].label, rows[r].players.length > 1 && ` (${rows[r].players.length} uses)`),
    context && el("td", { class: "number" }, context.texts[r]),
    el("td", { class: "number strong" }, texts[r]),
    hasExact && el("td", { class: "number" }, format.isExact(totals[r]) ? "" : fractionText(totals[r])),
    others.map((other) => [el("td", { class: "number" }, other.texts[r]), other.exact?.(r)]));
  const sum = el("tr", { class: "sum" }, el("th", { scope: "row" }, "together"),
    context && el("td", { class: "number" }, context.sum),
    el("td", { class: "number strong" }, texts.at(-1)), hasExact && el("td"),
    others.map((other) => [el("td", { class: "number" }, other.texts.at(-1)), other.exact && el("td")]));
  return el("section", {},
    !game.isMarket() && (airlinesOf(view, point) ?? lead(result, point, { rows, format })),
    unit && el("p", { class: "hint" }, `All amounts are in ${unit}.`),
    halves(rows.length, heads.filter((head) => head !== undefined), line, [goneLines(kept, heads, format), sum]),
    format.isMoved(totals, rows) && el("p", { class: "hint" }, `${movedText(rows)} The fractions are exact.`),
    coarse?.times && [{ title, totals }, ...beside].map((one) => {
      return el("p", { class: "hint" }, dividedText(coarse, one.title, rows, one.totals));
    }),
    kept && el("p", { class: "hint" }, pinnedText(pinned, { ...point, totals }, rows, view)),
    saidOfAll(view, point, beside));
}

/** Who was there before and isn't any more: so that what was before adds up. */
function goneLines(kept, heads, format) {
  const shown = heads.filter((head) => head !== undefined), place = shown.findIndex(([text]) => text === "Before");
  return (kept?.gone ?? []).map(({ label, value }) => el("tr", { class: "gone" },
    el("th", { scope: "row" }, `${label} (gone since)`), shown.slice(1).map((_, k) => {
      return el("td", { class: "number" }, k + 1 === place && format.show(value));
    })));
}

/** What was kept to compare, and how much more the share is now. */
function keptsOf(kept, steps, format) {
  if (!kept) return [];
  const all = [...kept.values, kept.sum];
  const told = (say) => withSum(steps).map((step, r) => (all[r] ? say(all[r], step) : ""));
  return [{ title: "Before", texts: told(format.show) },
    { title: "Change", texts: told((now, step) => changeText(step, now, format)) }];
}

/** The bill: what each airline pays for all its rows, by the columns that are shown; null if no airline has several. */
function airlinesOf({ result: { points }, rows, format, withProposal, proposal, today }, shown) {
  const others = withProposal ? points.filter((point) => point !== shown) : [];
  const columns = [shown, ...others].map(({ title, shares }) => ({ title, totals: totalsOf(rows, shares) }));
  const { totals } = proposal ?? {}, isOwn = withProposal && totals && !shown.totals;
  const own = isOwn ? [{ title: "Your proposal", totals }] : [];
  const lines = withTodays(airlineLines(rows, [...columns, ...own], format), { rows, format, today, shown });
  return lines.length ? linesTable("What each user pays", lines, "shares dense") : null;
}

/** Adds what each airline pays today, and the change, if the user typed it for all its rows. */
function withTodays(lines, { rows, format, today, shown }) {
  if (!lines.length || !today.texts?.some(Boolean)) return lines;
  const steps = format.steps(totalsOf(rows, shown.shares), rows), all = rows.map((_, r) => r);
  const told = ([name], k) => {
    if (!k) return [todayTitle({ costs: true }), "Change"];
    const of = k === lines.length - 1 ? all : all.filter((r) => rows[r].sum === name), now = ownSum(of, today);
    return now ? [format.show(now), changeText(withSum(of.map((r) => steps[r])).at(-1), now, format)] : ["", ""];
  };
  return lines.map((line, k) => [...line.slice(0, 3), ...told(line, k), ...line.slice(3)]); // behind the first column
}

/** What each pays or has today, and how much more the share is, if the user typed it. */
function todaysOf({ texts, values }, steps, game, format) {
  if (!texts?.some(Boolean)) return [];
  const told = (say) => withSum(steps).map((step, r) => (values[r] ? say(values[r], step) : ""));
  return [{ title: todayTitle(game), texts: told(format.show) },
    { title: "Change", texts: told((now, step) => changeText(step, now, format)) }];
}

/** A line for each column that is judged. The first column has one if others are beside it, or if a group does better
 * by itself. Columns with the same verdict share a line. */
function saidOfAll({ result, rows, format, agreed }, { title, ...point }, others) {
  const { game } = result, { verdict, totals } = point;
  const own = { title, said: saidOf(game, { verdict, totals }, rows, format) };
  const lines = others.length || agreed || verdict?.group ? [own, ...others] : [];
  const titles = (text) => lines.filter(({ said }) => said === text).map((one) => `“${one.title}”`).join(", ");
  const told = [...new Set(lines.map(({ said }) => said))].filter(Boolean).map((text) => `${titles(text)}: ${text}`);
  const same = others.length > 0 && sameText(result);
  return [...told, same].map((text) => text && el("p", { class: "hint" }, text));
}

/** The other columns, and the user's proposal, if the user wants them: {title, texts, totals, exact, said}. `exact`
 * returns the cell of a row with its fraction, which is to the right of the number as in the first column. */
function othersOf({ result, rows, format, withProposal, proposal, judged }, shown) {
  if (!withProposal) return [];
  const { game, points } = result, isOwn = proposal?.totals && !shown.totals; // and not what was agreed on
  const own = isOwn && { title: "Your proposal", ...proposal, ...judged };
  if (own && shown !== solutionOf(result)) own.comparison = null; // that is one with the answer
  return [...points.filter((point) => point !== shown), own].filter(Boolean).map((point) => {
    const totals = point.totals ?? totalsOf(rows, point.shares), texts = format.column(totals, rows);
    const hasExact = !CALCULATED.includes(point.key) && totals.some((total) => !format.isExact(total));
    const exact = (r) => el("td", { class: "number exact" }, format.isExact(totals[r]) ? "" : fractionText(totals[r]));
    const { title, name } = point, said = saidOf(game, point, rows, format);
    return { title, name, texts, totals, exact: hasExact ? exact : null, said };
  });
}

/** Says whether a group does better by itself, of an own division (that has `totals`) whom it gives too much, and how a
 * proposal compares with the solution. */
function saidOf(game, { verdict, comparison, totals }, rows, { by, apart }) {
  const parts = [];
  if (verdict?.isCore) parts.push("no group does better by itself.");
  if (verdict?.group) {
    const who = new Namer(game).group(verdict.group).replace(/ (alone|together)$/, "");
    parts.push(`a group does better by itself: ${who}, by ${by(verdict.excess)}.`);
  }
  if (verdict?.sum) {
    const [sum, total] = apart(verdict.sum, verdict.total);
    parts.push(`it adds to ${sum} instead of ${total}.`);
  }
  parts.push(outOfBounds(game, rows, totals));
  if (comparison && comparison.better !== "same") {
    const k = comparison.differs - comparison.first, [mine, theirs] = comparison.lists.map((list) => list[k]);
    parts.push(`If what each group could gain by leaving is listed, the greatest first, place ${comparison.differs} is `
      + `the first that differs: ${mine.excess} (${mine.group}) here, and ${theirs.excess} (${theirs.group}) by the `
      + "division above.");
  }
  return parts.filter(Boolean).join(" ");
}

// ---- The picture

function pictureOf({ result, rows, format, ...session }) {
  const { game, points, bird } = result, solution = session.agreed ?? solutionOf(result);
  const few = rows.length <= MOST_PICTURED;
  const settings = { ...format, wide: WIDE, source: sourceName(session.typed) };
  const holder = (drawn, said) => el("figure", { style: highOf(drawn, said) }, drawn,
    said && el("figcaption", { class: "hint" }, said));
  if (game.ballots) return few ? holder(powerDrawn(game, powerOf(points), format, WIDE)) : null;
  if (result.matching) {
    const deals = dealsOf(game, result.matching, solution);
    return deals.length > 0 && few ? holder(pricesPicture(deals, priceOf(format), format.show, WIDE)) : null;
  }
  if (!solution) return null;
  if (bird && few) return holder(planPicture(game, bird.tree, settings), OWN_LINKS);
  if (game.n === 3) return holder(trianglePicture(game, [solution], { ...settings, most: SMALL }).drawn, AREA);
  return few ? holder(barsPicture(game, rows, [solution], settings), filledLines(session, rows)) : null;
}

/** How high a picture is on paper, across the whole page, and at least, so that its letters can be read. */
function highOf(drawn, said) {
  const [, , wide, high] = drawn.attributes.viewBox.split(" ").map(Number);
  const least = Math.round(high / READ) + (said ? SAID : 0);
  return `--high: ${Math.round((PAPER_WIDE * high) / wide)}mm; --least: ${least}mm`;
}

// ---- What is agreed on

/** Names the file with the numbers: the file that was opened, as long as they are its own, otherwise the page's. */
function numbersOf({ file, kind, coarse, result: { text } }) {
  const isOpened = file?.made === text, digest = isOpened ? file.digest : knownDigest(`${text}\n`);
  const sum = el("span", { class: "digest" }, digest ?? "(this browser can’t calculate it)");
  if (isOpened) return [`The numbers of the game are in the file ${file.name}. Its SHA-256 is `, sum, "."];
  const { game: own } = fileNames(kind.id, coarse);
  return [`The numbers of the game are in a file that this page writes, ${own}. Its SHA-256 is `, sum, ".",
    file && ` Numbers were changed since ${file.name} was opened.`];
}

function agreedOf(view) {
  const { result: { text }, rows, doubt, fills, coarse } = view, filled = filledText(view);
  const isShort = text.length <= (rows.length > MOST_PICTURED ? MOST_ALONE : MOST_DOCUMENT);
  const given = (filled || !isShort) && givenText(view);
  const ofBox = isShort && (view.file?.made === text ? OF_FILE : OF_TEXT);
  const what = el("p", {}, numbersOf(view), ofBox, filled && ` ${filled}`,
    filled && ` ${countedText(view, shownPoints(view), view.result.game)}`, given && ` ${given}`,
    fills?.text === text && ` ${fills.told(shownPoints(view).map(({ title }) => title))}`,
    coarse && ` ${coarseText(coarse)}`,
    view.result.game.ballots && ` ${filedText(view.result.game)}`);
  return el("section", {}, el("h2", {}, doubt ? "Not agreed on" : "What is agreed on"),
    doubt && el("p", {}, doubt), what,
    isShort ? el("p", { class: "document" }, text)
      : el("p", { class: "hint" }, `The file, ${countText(new TextEncoder().encode(text).length + 1)} bytes as the `
        + "page writes it, isn’t printed. Keep it with this sheet."),
    !doubt && signing(rows));
}
