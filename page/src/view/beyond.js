// Runways of more landings than the program takes: what the page calculates by itself, and that it says so.
import { countText } from "../exact/decimals.js";
import { OWN_PROVED } from "../tell/proved.js";
import { plainPoints, quoted } from "../tell/rule-names.js";
import { Rational } from "../exact/rational.js";
import { extremes } from "./extremes.js";
import { columnHead, el } from "./dom.js";
import { footText } from "./sheet-check.js";
import { movedText, withSum } from "./format.js";
import { keepButton, pinnedNote, pinnedText, pinTools, sinceKept } from "./pinned.js";
import { linesOf, ownSum, shareCell } from "./shares-table.js";
import { ownInput } from "./proposal-cells.js";
import { airlineLines, besideLines, csvButton, roundingLines, shareLines } from "./table-lines.js";
import { changeBelow, todayTitle, todayTools } from "./today.js";
import { typeLines, typesTable } from "./types-table.js";

const OURS = "So the page itself calculated these shares, by a formula, in exact fractions. These numbers do NOT "
  + "come from the proved program, and there is no certificate of them.";
const THEOREMS = {
  nucleolus: "for the nucleolus the theorem payments_are_the_nucleolus (Littlechild’s payments; Littlechild 1974)",
  shapley: "for the Shapley shares the theorem shapley_is_by_step (equal parts of each step of the costs; Littlechild "
    + "and Owen 1973)",
};
const SCALED = "Don’t scale the uses down to have fewer: by the nucleolus users may pay other shares then. (By "
  + "the Shapley shares each user pays the same, where all are scaled alike.)";

/** What has to be said of these numbers: that they aren't the program's, and why they are those of the rule. */
export function beyondTexts({ isAll, all, points }) {
  const limit = isAll ? `These are ${countText(all)} uses, and the program takes 64.`
    : `These are ${all} uses, and the program works out Shapley shares up to 32.`;
  const proved = points.map(({ key }) => THEOREMS[key]).join(", and ");
  return [`${limit} ${OURS}`, `That the formula gives the rule, for any number of uses, says ${proved}. What isn’t `
    + "proved is the page’s own calculation; where the program answers too, tests compare the two."];
}

/** One line of it, and the rest below a fold. */
function beyondNotice(beyond) {
  const [said, laws] = beyondTexts(beyond);
  return el("div", { class: "notice" }, el("p", {}, said),
    el("details", { class: "inline" }, el("summary", {}, "Why the formula is right"), el("p", {}, laws)));
}

/** What these runways are as a game. */
export const COSTS = { costs: true, kind: "airport" };

/** A number rounded to so many decimals. */
function roundedTo(value, places) {
  const unit = new Rational(10n ** BigInt(places));
  return new Rational(value.times(unit).plus(new Rational(1n, 2n)).floor()).over(unit);
}

/** The parts of the answer that the page calculates. */
export function beyondParts(beyond, { format, today, pinned, labelOfCell, said }) {
  const { isAll, rows, points } = beyond;
  const plain = format.plain(), named = plainPoints(points, COSTS), tables = () => [
    shareLines(rows, named, plain, isAll ? besideLines(rows, named, { today, pinned, game: COSTS }, plain) : []),
    airlineLines(rows, named, plain), typeLines(rows, named, plain, true), roundingLines(points, plain)];
  return el("div", { class: "beyond" }, isAll && leadOf(beyond, format),
    el("h3", {}, isAll ? "Above 64 uses" : "Shapley shares above 32 uses"),
    beyondNotice(beyond),
    isAll && pinnedNote(pinned, named[0], rows, { format, labelOfCell }),
    said && el("p", { class: "note own-said", role: "status" }, said),
    el("div", { class: "scroll" }, table(beyond, { format, today, pinned, own: (row, r) => {
      return ownInput(row, r, today, "today", todayTitle(COSTS));
    } })),
    points.some(({ totals }) => format.isMoved(totals, rows)) && el("p", { class: "hint moved" }, movedText(rows)),
    isAll && el("div", { class: "tools" }, keepButton(pinned), pinTools(pinned), todayTools(COSTS, today)),
    isAll && typesTable(rows, named, format),
    isAll && alikeTexts(beyond, format).map((text) => el("p", { class: "alike" }, text)),
    isAll && feesTexts(rows, named, format).map((text) => el("p", { class: "hint" }, text)),
    isAll && el("p", { class: "hint" }, SCALED),
    el("p", { class: "tools" }, csvButton("runway-calculated", tables, format)));
}

/** Who pays most by the nucleolus, and who least. */
function leadOf({ rows, points: [{ totals }] }, format) {
  const who = [...new Set(rows.map(({ sum }) => sum))];
  const sums = who.map((name) => Rational.sum(totals.filter((_, r) => rows[r].sum === name)));
  return extremes({ who, totals: sums, texts: format.column(sums), verb: "pays" });
}

/** Why many pay alike by the nucleolus: those up to a cost share what of it isn't paid yet, and one part more if others
 * need more. */
function alikeTexts({ rows, points }, { show }) {
  const point = points.find(({ key }) => key === "nucleolus"), order = rows.map((_, r) => r);
  order.sort((one, other) => rows[one].cost.compare(rows[other].cost));
  const told = [];
  let paid = new Rational(0n);
  while (point && order.length) {
    const [first] = order, own = order.filter((r) => point.each[r].equals(point.each[first])), last = own.at(-1);
    const count = own.reduce((sum, r) => sum + rows[r].count, 0), isLast = own.length === order.length;
    const left = rows[last].cost.minus(paid), parts = Rational.of(count + (isLast ? 0 : 1));
    if (!left.over(parts).equals(point.each[first])) return [];
    const cost = paid.isZero() ? show(left) : `(${show(rows[last].cost)} − ${show(paid)})`;
    const from = paid.isZero() ? "" : `from ${rows[first].label} `, all = `All ${from}up to ${rows[last].label}`;
    if (own.length > 1) {
      told.push(`${all} pay alike: ${cost} / ${isLast ? count : `(${count} + 1)`} = ${show(point.each[first])} a use.`);
    }
    paid = paid.plus(point.each[first].times(Rational.of(count)));
    order.splice(0, own.length);
  }
  return told;
}

/** What fees for a landing, rounded to the decimals that are shown, bring in. */
function feesTexts(rows, points, { places, show, by }) {
  return points.flatMap(({ each, totals, ...point }) => {
    const fees = each.map((share, r) => roundedTo(share, places).times(Rational.of(rows[r].count)));
    const [sum, whole] = [fees, totals].map((values) => Rational.sum(values)), rest = whole.minus(sum);
    return rest.isZero() ? [] : [`${quoted(point)}: at fees with ${places} decimals, all uses pay ${show(sum)}, `
      + `which is ${by(rest.abs())} ${rest.isNegative() ? "more" : "less"} than the cost of ${show(whole)}.`];
  });
}

/** `own(row, r)` is in the column of today. If the program answers too, what each pays today and the kept answer are in
 * its table. */
function table({ isAll, rows, points }, { format, today, pinned, own }, kind = "shares") {
  const columns = plainPoints(points, COSTS).map((point) => {
    return { ...point, steps: format.steps(point.totals, rows), kept: pinned.pin && pinned.kept(point.key, format) };
  });
  const head = (title, side = "number") => el("th", { scope: "col", class: side }, title);
  const hasToday = isAll && today.texts;
  const isKept = isAll && pinned.pin, view = {
    rows, columns, format, values: today.texts ? today.values : [], own: hasToday && own, isKept,
  };
  return el("table", { class: kind },
    el("thead", {}, el("tr", {}, head("Who pays", ""), head("Uses"), head("Each use needs", "number context"),
      hasToday && head(todayTitle(COSTS), "number today"), isKept && head("Kept", "number kept"),
      columns.map((point) => el("th", { scope: "col", class: "number", "data-point": point.key },
        columnHead(point, "calculated by the page"))))),
    el("tbody", {}, linesOf(rows).map((line) => (line.of ? sumRow(line, view) : rowOf(line, view)))),
    el("tfoot", {}, sumRow({ of: rows.map((_, r) => r) }, view)));
}

function rowOf({ row, r }, { columns, format, values, own, isKept }) {
  const before = columns[0].kept?.values[r];
  return el("tr", {}, el("th", { scope: "row" }, row.label),
    el("td", { class: "number" }, String(row.count)), el("td", { class: "number context" }, format.show(row.cost)),
    own && el("td", { class: "number today" }, own(row, r)),
    isKept && el("td", { class: "number kept" }, before ? format.show(before) : "–"),
    columns.map(({ steps, each, totals, kept }) => {
      const since = sinceKept(steps[r], totals[r], kept, r, format);
      const changes = [changeBelow(steps[r], values[r], format), since];
      return shareCell(format.text(steps[r]), each[r], row.count, format, changes);
    }));
}

/** The sum of the rows of an airline, or of all. */
function sumRow({ sum, of }, { rows, columns, format, values, own, isKept }) {
  const count = of.reduce((all, r) => all + rows[r].count, 0), now = ownSum(of, { values });
  return el("tr", { class: sum === undefined ? "sum" : "subtotal" },
    el("th", { scope: "row" }, sum === undefined ? "together" : `${sum}, together`),
    el("td", { class: "number" }, String(count)), el("td", { class: "context" }),
    own && el("td", { class: "number today" }, now ? format.show(now) : "–"),
    isKept && el("td", { class: "number kept" }, sum === undefined && columns[0].kept
      ? format.show(columns[0].kept.sum) : ""),
    columns.map(({ steps, totals }) => {
      const step = withSum(of.map((r) => steps[r])).at(-1), exact = Rational.sum(of.map((r) => totals[r]));
      return shareCell(format.text(step), exact, 1, format, changeBelow(step, now, format));
    }));
}

/** The columns of the one page: of what was agreed on that alone, or first. */
function shownPoints(points, agreed, isAll) {
  const own = points.filter(({ key }) => key === agreed?.key), others = points.filter((point) => !own.includes(point));
  return own.length && !isAll ? own : [...own, ...others];
}

/** The same on the one page; what one landing pays stands there by its type, where each has one. */
export function beyondSheet(whole, { format, unit, today, pinned, labelOfCell, sign, agreed, withProposal }) {
  const beyond = { ...whole, points: shownPoints(whole.points, agreed, withProposal) };
  const { rows, points } = beyond, named = plainPoints(points, COSTS);
  const shown = today.texts?.some(Boolean) ? today : {};
  const own = (_, r) => shown.values[r] && format.show(shown.values[r]);
  const kind = `shares dense fees${rows.every(({ type }) => type) ? " whole" : ""}`;
  return [
    el("section", {}, leadOf(beyond, format),
      unit && el("p", { class: "hint" }, `All amounts are in ${unit}.`),
      table(beyond, { format, today: shown, pinned, own }, kind),
      pinned.pin && el("p", { class: "hint" }, pinnedText(pinned, named[0], rows, { format, labelOfCell })),
      points.some(({ totals }) => format.isMoved(totals, rows)) && el("p", { class: "hint" }, movedText(rows))),
    el("section", {}, typesTable(rows, named, format)),
    el("section", {}, el("h2", {}, "How it was found"), beyondTexts(beyond).map((text) => el("p", {}, text)),
      el("p", {}, OWN_PROVED)),
    sign,
    el("section", {}, el("p", { class: "hint" }, footText())),
  ];
}
