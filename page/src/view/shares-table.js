// The table of the answer: a row for each who pays or gets, a column for each division, and what is asked of them.
import { Rational } from "../exact/rational.js";
import { decimal, fractionText } from "../exact/decimals.js";
import { votesText } from "../draw/ranges.js";
import { plainPoints } from "../tell/rule-names.js";
import { Namer } from "../tell/words.js";
import { listed, plural } from "../game/words.js";
import { againstOf } from "./comparison.js";
import { breakable, button, columnHead, el } from "./dom.js";
import { labelOf, movedText, totalsOf, withSum } from "./format.js";
import { subtitleOf } from "./meanings.js";
import { pinnedNote, pinTools, sinceKept } from "./pinned.js";
import { outOfBounds } from "./own-bounds.js";
import { stayingText } from "./own-rows.js";
import { ownInput, proposalSum } from "./proposal-cells.js";
import { powerLines } from "./power-lines.js";
import { CALCULATED } from "./questions.js";
import { airlineLines, besideLines, roundingLines, shareLines } from "./table-lines.js";
import { changeBelow, todayTitle } from "./today.js";

const BRIEF = 8; // rows that are kept on one printed page
const NARROW = 520;
const FEW = 3; // landings that are named one by one
const MOST_DIGITS = 12; // of a fraction that is shown unfolded
const MOST_NAME = 18; // letters of a name that stay in one line where columns need room
const BY_PAGE = "by the page itself";

export function sharesTable(result, settings) {
  const { game, points } = result, { rows, format, proposal } = settings;
  const context = contextOf(game, rows, format);
  const columns = plainPoints(points, game).map((point) => {
    const totals = totalsOf(rows, point.shares), steps = format.steps(totals, rows);
    return { ...point, totals, steps, texts: format.texts(withSum(steps)) };
  });
  const against = againstOf(points[0], rows, proposal, format), isNarrow = settings.wide < NARROW;
  const beside = [proposal.canBe, against, settings.today.texts, settings.pinned?.pin].filter(Boolean);
  const span = columns.length + beside.length - (against && isNarrow ? 1 : 0); // that column isn’t shown there
  const pinned = game.ballots ? null : settings.pinned; // of votes the power is compared
  const kept = new Map(columns.map(({ key }) => [key, pinned?.pin && pinned.kept(key, format)]));
  const view = { ...settings, pinned, kept, game, context, columns, against, isNarrow, span };
  const isOwn = proposal.texts?.some(Boolean) || settings.typed.isProposing;
  const kinds = ["shares", isOwn ? "proposing" : "", pinned?.pin ? "comparing" : "",
    proposal.totals ? "" : "unproposed", rows.length <= BRIEF ? "brief" : ""];
  return el("div", {},
    pinned && pinnedNote(pinned, columns[0], rows, settings),
    settings.said && el("p", { class: "note own-said", role: "status" }, settings.said),
    settings.stays?.length > 0 && el("p", { class: "note", role: "status" }, stayingText(settings.stays), " ",
      button("Clear it", () => proposal.setAll([], "", "Clear your division"), { class: "quiet" })),
    el("div", { class: "scroll" }, el("table", { class: kinds.filter(Boolean).join(" "), style: roomOf(view) },
      headOf(view), el("tbody", {}, linesOf(rows).map((line) => (line.of ? sumRow(line, view) : shareRow(line, view))),
        (kept.get(columns[0].key)?.gone ?? []).map((one, k) => goneRow(one, k, view))),
      footOf(view))),
    proposal.told && el("p", { class: "hint" }, proposal.told),
    leavingLines(view),
    proposal.canBe && outLine(outOfBounds(game, rows, proposal.totals)),
    proposal.shares && sameAs(columns, proposal.shares),
    isMoved(points, rows, format) && el("p", { class: "hint exact" }, "Rounded so that the shares add up."),
    pinned?.pin && el("div", { class: "tools" }, pinTools(pinned)));
}

/** How wide the names are at least, in one line where they are short, and what is typed, which stays whole. */
function roomOf({ rows, proposal, today }) {
  const longest = (texts) => Math.max(0, ...texts.map(({ length }) => length));
  const own = longest([...proposal.texts ?? [], ...today.texts ?? []].map(String));
  return `--name: ${Math.min(MOST_NAME, longest(rows.map(({ label }) => label)))}ch; --own-digits: ${own}`;
}

/** By which columns a group could do better alone, a line each; the table itself says it beside a proposal, where its
 * cells have room for a sentence. */
function leavingLines({ game, columns, format, proposal: { verdict }, isNarrow }) {
  const own = isNarrow ? [{ title: "Your proposal", verdict }] : [];
  const blocked = [...columns, ...own].filter((one) => one.verdict?.group);
  const lines = blocked.map(({ title, note, verdict: found }) => {
    return el("li", {}, el("b", {}, [title, note].filter(Boolean).join(" ")), ": ", leavingText(game, found, format));
  });
  return lines.length > 0 && el("ul", { class: `leaving screen ${isNarrow ? "narrow" : ""}` }, lines);
}

function isMoved(points, rows, format) {
  return points.some(({ shares }) => format.isMoved(totalsOf(rows, shares), rows));
}

/** How the shares were rounded, if some were moved so that all add up; it belongs to the reasons. */
export function roundingPart({ points }, { rows, format }) {
  return isMoved(points, rows, format) && el("details", { class: "meanings moved screen" },
    el("summary", {}, "How the shares are rounded"),
    el("p", {}, `${movedText(rows)} “Options” shows the exact shares, too.`));
}

/** Why there is no column of the prenucleolus. */
export function sameText({ hasOneNucleolus, game }) {
  return hasOneNucleolus && `The prenucleolus${game.perHead ? " per head" : ""} is the same as the nucleolus here.`;
}

function outLine(text) {
  return text && el("p", { class: "same-as" }, el("b", {}, "Your proposal"), ": ", el("span", { class: "bad" }, text));
}

/** Which division of the table a proposal is. */
function sameAs(points, shares) {
  const same = points.filter((point) => point.shares.every((share, i) => share.equals(shares[i])));
  return same.length > 0 && el("p", { class: "same-as" },
    `Your proposal is exactly the column ${listed(same.map(({ title }) => `“${title}”`))}.`);
}

/** A row with its name in front; on a narrow page above it, where no number that is scrolled goes behind it. */
function named({ isNarrow, span }, kind, name, cells) {
  if (!isNarrow) return el("tr", { class: kind }, el("th", { scope: "row" }, name), cells);
  return [
    el("tr", { class: `above ${kind}` }, el("th", { scope: "rowgroup", colspan: String(span) }, el("span", {}, name))),
    el("tr", { class: kind }, cells),
  ];
}

function headOf({ game, context, columns, proposal, today, pinned, against, isNarrow }) {
  const column = (point, k) => {
    const { key, name, note } = point, isOwn = CALCULATED.includes(key);
    return el("th", { scope: "col", class: kindOf(k), "data-point": key, title: subtitleOf(key, game) },
      columnHead(point, note, isOwn ? BY_PAGE : !name && subtitleOf(key, game)));
  };
  return el("thead", {}, el("tr", {},
    !isNarrow && el("th", { scope: "col" }, game.costs ? "Who pays" : "Who gets"),
    context && el("th", { scope: "col", class: "number context" }, context.title),
    today.texts && el("th", { scope: "col", class: "number today" }, todayTitle(game)),
    pinned?.pin && el("th", { scope: "col", class: "number kept" }, "Kept", el("small", {}, "the answer before")),
    columns.map(column),
    proposal.canBe && el("th", { scope: "col", class: "number proposed", "data-point": "proposal" },
      "Your proposal", el("small", {}, subtitleOf("proposal", game))),
    against && el("th", { scope: "col", class: "number against" }, against.title)));
}

/** The first column is the answer. */
function kindOf(k) {
  return `number${k ? "" : " main"}`;
}

function shareRow({ row, r }, view) {
  const { game, context, columns, format, proposal, today, pinned, against } = view, count = row.players.length;
  const kept = (key) => view.kept.get(key)?.values[r];
  return named(view, "", [breakable(row.label), count > 1 && el("small", {}, plural(count, "use"))], [
    context && el("td", { class: "number context" }, context.texts[r]),
    today.texts && el("td", { class: "number today" }, ownInput(row, r, today, "today", todayTitle(game))),
    pinned?.pin && el("td", { class: "number kept" }, kept(columns[0].key) ? format.show(kept(columns[0].key)) : "–"),
    columns.map(({ key, texts, steps, shares, totals }, k) => {
      const since = sinceKept(steps[r], totals[r], view.kept.get(key), r, format, k === 0);
      const changes = [changeOf(steps[r], r, today, format), since];
      const share = shares[row.players[0]];
      const each = !k && count > 1 && el("small", {}, `${eachText(share, format)} each`);
      return shareCell(texts[r], share, count, format, [each, ...changes], kindOf(k));
    }),
    proposal.canBe && el("td", { class: "number proposed" },
      ownInput(row, r, proposal, "proposal", "Your proposal")),
    against && el("td", { class: "number against" }, against.texts[r]),
  ]);
}

/** What one of several pays, with a decimal more where it isn't exact, so that times their number it is the share. */
function eachText(share, { places, mark, thousands, isExact }) {
  return decimal(share, isExact(share) ? places : places + 1, { mark, thousands });
}

/** Who was there when the answer was kept, and isn't any more: so that the kept column adds up. */
function goneRow({ label }, g, view) {
  const { context, columns, format, proposal, today, against } = view;
  const [first, ...others] = columns.map(({ key }) => view.kept.get(key)?.gone[g]?.value);
  return named(view, "gone", [breakable(label), el("small", {}, "gone since")], [
    context && el("td", { class: "number context" }), today.texts && el("td"),
    el("td", { class: "number kept" }, format.show(first)), el("td", { class: "number main" }, "–"),
    others.map((value, k) => el("td", { class: kindOf(k + 1) }, "–",
      value && el("small", { class: "was" }, `was ${format.show(value)}`))),
    proposal.canBe && el("td", { class: "number proposed" }), against && el("td", { class: "against" }),
  ]);
}

/** A share, and below it what is told of it: of several what one pays, and the fraction, folded if it is long. */
export function shareCell(text, share, count, format, change, kind = "number") {
  const fraction = !format.isExact(share) && fractionText(share);
  const isLong = fraction && fraction.replace(/\D/g, "").length > MOST_DIGITS;
  const short = !isLong && fraction, each = count > 1 && `${count} × ${format.show(share)}`;
  return el("td", { class: kind }, text, change,
    each && el("small", { class: "exact each" }, each, short && el("span", { class: "fraction" }, ` (${short})`)),
    short && !each && el("small", { class: "exact" }, short),
    isLong && el("details", { class: "inline exact" }, el("summary", {}, "exact"), el("small", {}, fraction)));
}

/** How much more it is than today, where that was typed. */
function changeOf(step, r, { texts, values }, format) {
  return texts && changeBelow(step, values[r], format);
}

/** The rows, and behind the last row of an airline with several rows its sum. */
export function linesOf(rows) {
  const found = rows.map((row, r) => ({ row, r }));
  return found.flatMap((line) => {
    const same = found.filter(({ row }) => row.sum !== undefined && row.sum === line.row.sum);
    const isLast = same.length > 1 && same.at(-1) === line;
    return isLast ? [line, { sum: line.row.sum, of: same.map(({ r }) => r) }] : [line];
  });
}

function sumRow({ sum, of }, view) {
  const { rows, context, columns, format, proposal, today, pinned, against } = view;
  const now = today.texts && ownSum(of, today), proposed = proposal.canBe && ownSum(of, proposal);
  const cells = columns.map(({ shares, steps }, k) => {
    const exact = Rational.sum(totalsOf(of.map((r) => rows[r]), shares)), shown = withSum(of.map((r) => steps[r]));
    const change = now && changeBelow(shown.at(-1), now, format);
    return shareCell(format.text(shown.at(-1)), exact, 1, format, change, kindOf(k));
  });
  return named(view, "subtotal", [breakable(sum), ", together"], [
    context && el("td", { class: "context" }), today.texts && el("td", { class: "number" }, now && format.show(now)),
    pinned?.pin && el("td", { class: "kept" }), cells,
    proposal.canBe && el("td", { class: "number proposed" }, proposed && format.show(proposed)),
    against && el("td", { class: "against" }),
  ]);
}

/** What the user typed for the rows of an airline, added; null where one lacks. */
export function ownSum(of, { values }) {
  const own = of.map((r) => values[r]);
  return own.every(Boolean) ? Rational.sum(own) : null;
}

function footOf(view) {
  const { game, rows, context, columns, format, proposal, today, pinned, against, isNarrow } = view;
  const last = rows.length, kept = view.kept.get(columns[0].key);
  const sum = named(view, "sum", "together", [
    context && el("td", { class: "number context" }, context.sum),
    today.texts && el("td", { class: "number today" }, today.values[last] ? format.show(today.values[last]) : "–"),
    pinned?.pin && el("td", { class: "number kept" }, kept && format.show(kept.sum)),
    columns.map(({ texts, steps }, k) => {
      return el("td", { class: kindOf(k) }, texts.at(-1), changeOf(withSum(steps).at(-1), last, today, format));
    }),
    proposal.canBe && el("td", { class: "number proposed" }, proposalSum(game, proposal, format)),
    against && el("td", { class: "number against" }, against.texts.at(-1)),
  ]);
  const isJudged = columns.some(({ verdict }) => verdict !== null);
  const isLong = Boolean(against && !isNarrow && (proposal.verdict?.group || proposal.verdict?.refusal));
  const asked = (title, told, own) => named(view, "verdict", title, [
    context && el("td", { class: "context" }), today.texts && el("td"), pinned?.pin && el("td", { class: "kept" }),
    columns.map((point, k) => el("td", { class: kindOf(k) }, told(point))),
    proposal.canBe && el("td", { class: "number proposed", colspan: isLong ? "2" : false, role: "status" },
      proposal.shares ? told(own) : "–"), against && !isLong && el("td", { class: "against" }),
  ]);
  return el("tfoot", {}, sum,
    isJudged && asked("Could a group do better alone?", (one) => verdictText(game, one.verdict, view), proposal));
}

/** Whether one player has a stronger hold on another, a line for each division; null if nothing is known of it. */
export function holdsPart({ points, game }, { rows, format, proposal }) {
  const own = proposal.shares && { title: "Your proposal", hold: proposal.hold };
  const known = [...plainPoints(points, game), own].filter((one) => one?.hold);
  if (!known.length) return null;
  return el("div", { class: "holds" }, el("h3", {}, "Does one player have a stronger hold on another?"),
    el("ul", { class: "plain" }, known.map(({ title, hold }) => {
      return el("li", {}, el("b", {}, `${title}: `), holdText(rows, hold, format));
    })));
}

/** Whether a row has several landings; where none has, nothing is told of landings. */
const isSeveral = (rows) => rows.some(({ players }) => players.length > 1);

/** What is known of each beside the shares, and its sum where one may add it up. */
export function contextOf(game, rows, { show, column }) {
  if (game.isMarket()) return null;
  const of = (values, title) => ({ title, texts: rows.map(({ players: [i] }) => show(values[i])) });
  const votes = game.ballots?.[0].votes;
  if (votes) {
    const texts = rows.map(({ players: [i] }) => votesText(votes[i]));
    return { title: "Votes", texts, sum: votesText(Rational.sum(votes)) };
  }
  if (game.kind === "bankruptcy") {
    const texts = column(rows.map(({ players: [i] }) => game.amounts[i]));
    return { title: "Claim", texts, sum: texts.at(-1) };
  }
  if (game.kind === "airport") return of(game.amounts, isSeveral(rows) ? "Each use needs" : "Needs alone");
  return of(game.own, game.costs ? "Costs alone" : "Worth alone");
}

function verdictText(game, verdict, { format, isNarrow }) {
  if (verdict === undefined) return "…";
  if (verdict === null) return "not said";
  if (verdict.refusal) return verdict.refusal.sentence;
  if (verdict.isCore) return el("span", { class: "good" }, "No");
  if (verdict.sum) return el("span", { class: "bad" }, "doesn’t add up");
  return isNarrow ? el("span", { class: "bad" }, "Yes") : leavingText(game, verdict, format);
}

/** Who could do better alone, and by how much. */
function leavingText(game, { group, excess }, { show, by }) {
  const who = needingAtMost(game, group, show) ?? new Namer(game).group(group).replace(/ (alone|together)$/, "");
  const alone = group.length > 1 ? "by themselves" : "alone";
  return el("span", { class: "bad" }, `${who} would do better ${alone}, by ${by(excess)}`);
}

/** Of a runway the groups of all landings up to an amount, as a sentence names them; null for other groups. */
function needingAtMost({ kind, amounts, n, landings }, group, show) {
  if (kind !== "airport" || group.length < FEW) return null;
  const most = Rational.max(group.map((i) => amounts[i]));
  const isAll = amounts.every((amount, i) => most.less(amount) || group.includes(i));
  return isAll && group.length < n ? `all ${landings ? "uses " : ""}that need at most ${show(most)}` : null;
}

function holdText(rows, hold, { by }) {
  if (hold === undefined) return "…";
  if (hold === null) return "–";
  if (hold.isEven) return "No";
  const [strong, weak] = [hold.strong, hold.weak].map((i) => labelOf(rows, i));
  return `Yes, for example ${strong} on ${weak}, by ${by(hold.by)}`;
}

/** The table for a spreadsheet, as lines of cells, what each airline pays, and how all is rounded. */
export function tablesOf({ points, game }, { rows, format, coarse, today, pinned, proposal }) {
  const own = plainPoints(points, game).map(({ key, title, note, shares }) => {
    return { key, title: [title, note].filter(Boolean).join(" "), totals: totalsOf(rows, shares) };
  });
  const beside = besideLines(rows, own, { today, pinned: game.ballots ? null : pinned, proposal, game }, format);
  const proposed = proposal?.totals ? [{ title: "Your proposal", totals: proposal.totals }] : [];
  const power = game.ballots && points.find(({ key }) => key === "shapley"); // before the division of a prize
  return [...(power ? [powerLines(game, power.shares, format)] : []), shareLines(rows, own, format, beside),
    airlineLines(rows, [...own, ...proposed], format), roundingLines(own, format, coarse)];
}
