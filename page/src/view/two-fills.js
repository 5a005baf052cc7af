// How much the answer depends on what the page filled in: the shares by both ways to fill a table of costs.
import { Rational, ZERO } from "../exact/rational.js";
import { packed } from "../cases/tables.js";
import { quoted } from "../tell/rule-names.js";
import { changesOf, changesTable } from "./changes.js";
import { el, refill } from "./dom.js";

const MOST_PLAYERS = 10;
const HEADS = { split: "by splits", larger: "by larger groups" };
const HINT = "By the one way a group costs its cheapest split into groups that have a number; by the other no more "
  + "than a larger group that holds it, either.";

/** What is asked of the two ways to fill; null for a case in which nothing was filled. */
export function fillsAsked({ kind, typed, result }, mark) {
  const { filled, how } = typed, { n, perHead } = result.game ?? {};
  if (!kind.isCost || !filled?.length || n > MOST_PLAYERS) return null;
  return { id: kind.id, typed: packed(typed), mark, filled, how, perHead };
}

/** How much the shares of those who stay depend on it, in a sentence. */
export async function fillsOfRest({ fills, ask, format }, who, rows, without) {
  const both = fills && await ask("compareFills", { ...fills, who });
  return both ? largestOf(both.rules.map((rule) => changesOf(rule, rows, format)), { rows, format }, without) : "";
}

/** The part for a case in which something was filled; `session.fills` keeps what is said of it on paper, of the rules
 * that stand there. */
export function fillsPart(session, view) {
  const { result } = session, { fills: what } = view;
  session.fills = null;
  if (!what) return null;
  const said = el("span", {}), found = el("div", { class: "found" });
  session.reader.ask("compareFills", what).then((both) => {
    const columns = both?.rules.map((rule) => changesOf(rule, view.rows, view.format)) ?? [];
    const sentence = both ? largestOf(columns, view) : "By both ways the same numbers are filled.";
    session.fills = { text: result.text, told: (titles) => both ? ofRules(titles, columns, view) : sentence };
    refill(said, sentence);
    if (both) refill(found, tableOf(both, columns, { ...view, game: result.game, hasExact: false }));
  }).catch(() => refill(said, "It couldn’t be worked out."));
  return el("details", { class: "other fills" },
    el("summary", {}, "How much the answer depends on what was filled. ", said),
    el("p", { class: "hint" }, HINT), found);
}

function tableOf({ how }, columns, view) {
  const other = how === "split" ? "larger" : "split";
  return changesTable(columns, view, [HEADS[how], HEADS[other], "change"]);
}

/** The same of the rules that stand on paper; of all where these are others. */
function ofRules(titles, columns, view) {
  const shown = columns.filter(({ title }) => titles.includes(title)), count = shown.length;
  const isPart = count > 0 && count < columns.length;
  return largestOf(count ? shown : columns, view, isPart ? " of what stands here" : "");
}

/** The largest change of a share, in a sentence; `which` shares these are. */
function largestOf(columns, { rows, format }, which = "") {
  const all = columns.flatMap((column) => column.differences.map((value, r) => ({ column, value, r })));
  const most = all.reduce((best, one) => (best.value.abs().less(one.value.abs()) ? one : best), { value: ZERO });
  if (most.value.isZero()) return `Filled by the other way, no share${which} changes.`;
  const way = most.value.isNegative() ? "less" : "more", size = format.by(Rational.of(most.value).abs());
  return `Filled by the other way, the largest change${which} is that of ${rows[most.r].label}: ${size} ${way} (`
    + `${quoted(most.column)}).`;
}
