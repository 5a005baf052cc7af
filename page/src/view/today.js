// What each pays or has today, beside the divisions: a column that the user may fill. It changes no answer, and the
// format of documents has no place for it.
import { Rational, ZERO } from "../exact/rational.js";
import { decimal } from "../exact/decimals.js";
import { button, el } from "./dom.js";
import { proposalOf } from "./proposal.js";

/** What was typed of today, read by rows, and how to change it; `texts` is null where the user doesn't compare. */
export function todayOf(session, rows) {
  const { todays, result } = session, setAll = (...what) => session.setTodays(...what);
  const canBe = !result.game || (!result.game.isMarket() && !result.game.ballots); // of many landings there is no game
  if (!todays || !canBe) return { canBe, texts: null, setAll };
  const set = (r, text) => setAll(Object.assign([...todays], { [r]: text }));
  const { texts, values: own, faults, told } = proposalOf(todays, rows, session.marks.beside());
  const values = own.every(Boolean) ? [...own, Rational.sum(own)] : own, labels = rows.map(({ label }) => label);
  return { canBe, texts, faults, told, labels, set, setAll, values };
}

export function todayTitle({ costs }) {
  return costs ? "Pays today" : "Has now";
}

/** How much more a number that is shown, in steps of the last place, is than that of today: "+1.20 (+31.0 %)". */
export function changeText(step, now, { places, mark, show }) {
  const change = new Rational(step).over(new Rational(10n ** BigInt(places))).minus(now);
  const sign = ZERO.less(change) ? "+" : "", part = change.over(now.isZero() ? Rational.of(1) : now.abs());
  const percent = decimal(part.times(Rational.of(100)), 1, { mark });
  return sign + show(change) + (now.isZero() ? "" : ` (${sign}${percent}\u202f%)`);
}

/** The same below a share, in small print; nothing where today isn't known. */
export function changeBelow(step, now, format) {
  return now && el("small", { class: "change" }, changeText(step, now, format));
}

/** The way to the column, and what is said of it. */
export function todayTools({ costs }, { canBe, texts, told, setAll }) {
  const what = costs ? "what each pays today" : "what each has now";
  if (!canBe) return null;
  const way = (title, next) => button(title, () => setAll(next, "", title), { class: "quiet" });
  if (!texts) return el("p", { class: "tools" }, way(`Compare with ${what}`, []));
  return el("p", { class: "tools" }, way(`Without ${what}`, null),
    el("span", { class: "hint" }, "Each share shows how much more or less it is. The column is for the table and for "
      + `paper.${told ? ` ${told}` : ""}`));
}
