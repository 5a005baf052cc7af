// An answer that was kept to compare: a column beside the new one, and which cells have changed since.
import { Rational } from "../exact/rational.js";
import { withEscapes } from "../game/names.js";
import { listed, plural } from "../game/words.js";
import { quoted } from "../tell/rule-names.js";
import { button, el } from "./dom.js";
import { changeBelow } from "./today.js";
import { totalsOf, withSum } from "./format.js";
import { placesIn } from "./own-rows.js";

const MOST_NAMED = 4; // changed cells that a sentence names

/** What each row pays or gets by each rule, also by those that the page calculates: {key, title, totals}. */
function columnsOf({ points, beyond }, rows) {
  return [...points.map((point) => ({ ...point, totals: totalsOf(rows, point.shares) })), ...(beyond?.points ?? [])];
}

/** What is kept of the answer that a session shows: the rows' names, what each pays or gets by each rule, the cells. */
function pinOf({ result, reading: { rows }, typed }) {
  const shares = columnsOf(result, rows).map(({ key, totals }) => [key, totals.map(String)]);
  const names = rows.map(({ label }) => label), sums = rows.map(({ sum = "" }) => sum);
  return { names, sums, shares: Object.fromEntries(shares), typed: structuredClone(typed) };
}

/** What was kept, for these rows, and how to keep another; `pin` is null if nothing is kept. `kept(key, format)` are
 * the kept numbers of a rule as they were shown, {values, sum}, null for a row that wasn't there. */
export function pinnedOf(session, rows) {
  const { pinned: pin, result, typed } = session, canBe = columnsOf(result, rows).length > 0;
  const set = (next) => session.setPinned(next);
  if (!canBe || !pin) return { canBe, pin: null, keep: () => set(pinOf(session)) };
  return {
    canBe, pin, ...othersOf(pin.names, rows), changed: changedCells(pin.typed, typed),
    kept: (key, format) => keptOf(pin, key, rows, format),
    keep: () => set(pinOf(session)), drop: () => set(null),
  };
}

/** The names that were kept and have gone, and those that came since. */
function othersOf(names, rows) {
  const labels = rows.map(({ label }) => label), places = placesIn(names, labels);
  return { gone: names.filter((_, k) => !places.includes(k)), fresh: labels.filter((_, r) => places[r] < 0) };
}

/** Rounded as they were: so that they add up, with those of an airline. */
function keptOf({ names, sums = [], shares }, key, rows, format) {
  if (!shares[key]) return null;
  const own = names.map((label, k) => ({ label, sum: sums[k] || undefined }));
  const steps = format.steps(shares[key].map(Rational.of), own), unit = new Rational(10n ** BigInt(format.places));
  const places = placesIn(names, rows.map(({ label }) => label)), valueOf = (k) => new Rational(steps[k]).over(unit);
  const values = places.map((k) => (k < 0 ? null : valueOf(k)));
  const exact = places.map((k) => (k < 0 ? null : Rational.of(shares[key][k])));
  const isGone = (k) => !places.includes(k), at = [...own.keys()].filter(isGone);
  const gone = at.map((k) => ({ label: own[k].label, value: valueOf(k) }));
  return { values, exact, gone, sum: new Rational(withSum(steps).at(-1)).over(unit) };
}

/** What a saved case has of it: the old texts of the cells that have changed since, beside what was kept. */
export function keptTree({ names, sums = [], shares, typed: before }, typed) {
  const changed = changedCells(before, typed), own = sums.some(Boolean) ? { names, sums, shares } : { names, shares };
  if (!changed) return own;
  return { ...own, cells: Object.fromEntries(changed.map(({ cell, before: old }) => [cell, old])) };
}

/** What was kept, as a saved case has it, with all cells as they were. */
export function pinOfTree({ names, sums, shares, cells }, typed) {
  const before = cells ? structuredClone(typed) : null;
  for (const [cell, text] of Object.entries(cells ?? {})) {
    const keys = cell.split("."), last = keys.pop(), place = keys.reduce((one, key) => one?.[key], before);
    if (place && Object.hasOwn(place, last)) place[last] = text;
  }
  return { names, sums, shares, typed: before };
}

const valueAt = (typed, cell) => cell.split(".").reduce((one, key) => one?.[key], typed);

/** The numbers that differ from what was kept: {cell, before, after}; null if the players are others, or in another
 * order. Of a list those in rows of the same name. */
export function changedCells(before, after) {
  const who = ({ names = [], source = "", buyers, sellers, limits }) => JSON.stringify([names, source, buyers, sellers,
    Boolean(limits)]);
  const found = [];
  if (!before || who(before) !== who(after)) return null;
  const compare = (cell) => {
    const [old, fresh] = [before, after].map((typed) => String(valueAt(typed, cell) ?? "").trim());
    if (old !== fresh) found.push({ cell, before: old, after: fresh });
  };
  for (const key of ["estate", "quota", "secondQuota"]) if (key in after) compare(key);
  for (const key of Object.keys(after.links ?? {})) compare(`links.${key}`);
  (after.numbers ?? []).forEach((_, mask) => mask && compare(`numbers.${mask}`));
  (after.values ?? []).forEach((row, i) => row.forEach((_, j) => compare(`values.${i}.${j}`)));
  for (const [side, prices] of Object.entries(after.limits ?? {})) {
    prices.forEach((_, k) => compare(`limits.${side}.${k}`));
  }
  for (const [r, row] of (after.rows ?? []).entries()) {
    const isSame = before.rows?.[r]?.name === row.name;
    for (const key of Object.keys(row)) if (isSame && key !== "name") compare(`rows.${r}.${key}`);
  }
  return found;
}

/** Marks the cells that have changed since. */
export function markChanged(element, changed) {
  const cells = new Map((changed ?? []).map((one) => [one.cell, one]));
  for (const input of element.querySelectorAll("[data-cell]")) {
    const one = cells.get(input.dataset.cell), isMarked = input.classList.contains("changed");
    input.classList.toggle("changed", Boolean(one));
    if (one) input.title = `Kept: ${one.before || "empty"}`;
    else if (isMarked) input.removeAttribute("title");
  }
}

/** How much more a row has than the kept one by the same rule, in small print; with the kept one, where that isn't in a
 * column of its own. The rounding that makes all add up is no change. */
export function sinceKept(step, total, kept, r, format, isBeside = true) {
  const before = kept?.values[r];
  if (!before) return null;
  const isSame = format.text(step) === format.show(before) || total.equals(kept.exact[r]);
  if (isSame) return el("small", { class: "same" }, "as before");
  return [!isBeside && el("small", { class: "was" }, `was ${format.show(before)}`), changeBelow(step, before, format)];
}

/** Who bears the change, in sentences: by one rule, {key, title, name, totals}, for the numbers that are shown. */
export function pinnedText({ changed, gone, fresh, kept }, point, rows, { format, labelOfCell }) {
  const cells = (changed ?? []).slice(0, MOST_NAMED).map(({ cell, before: old, after }) => {
    return `${labelOfCell(cell)}: ${withEscapes(old) || "empty"} → ${withEscapes(after) || "empty"}`;
  });
  const more = (changed ?? []).length - cells.length;
  return [
    againstKept(kept(point.key, format), point, rows, { format, fresh, gone }),
    cells.length > 0 && `Changed since: ${cells.join("; ")}${more ? `; and ${plural(more, "more cell")}` : ""}.`,
    fresh.length > 0 && `New: ${fresh.join(", ")}.`,
    gone.length > 0 && `Kept, and gone since: ${gone.join(", ")}.`,
  ].filter(Boolean).join(" ");
}

/** Who has more or less than in the kept answer, by name; or why nobody can be compared. */
function againstKept(before, point, rows, { format, fresh, gone }) {
  const { title, totals } = point, by = title === "Power" ? "in power" : `by ${quoted(point)}`;
  if (fresh.length === rows.length) return "Nobody here is in the kept answer, so nothing is compared.";
  if (!before) return `The kept answer has no shares ${by}, so nothing is compared.`;
  const steps = format.steps(totals, rows), unit = new Rational(10n ** BigInt(format.places));
  const more = rows.map((_, r) => before.values[r] && new Rational(steps[r]).over(unit).minus(before.values[r]));
  const isOther = (r) => more[r] && !more[r].isZero() && !totals[r].equals(before.exact[r]);
  const told = rows.map(({ label }, r) => isOther(r) && signed(label, more[r], format)).filter(Boolean);
  const rest = told.length < rows.length - fresh.length ? "; the others as before" : "";
  if (told.length) return `Against the kept answer, ${by}: ${listed(told)}${rest}.`;
  return fresh.length || gone.length ? "Those who were there before have the shares of the kept answer."
    : "The shares are those of the kept answer.";
}

function signed(label, by, { show, ofChange = show }) {
  return `${label} ${by.isNegative() ? "" : "+"}${ofChange(by)}`;
}

/** The same beside the table. */
export function pinnedNote(pinned, column, rows, settings) {
  return pinned.pin && el("p", { class: "note pinned", role: "status" }, pinnedText(pinned, column, rows, settings));
}

/** Keeps the answer; nothing where there is none, or one is kept. */
export function keepButton({ canBe, pin, keep }) {
  return canBe && !pin && button("Keep this answer to compare", keep, { class: "quiet" });
}

/** The buttons below the table where an answer is kept. */
export function pinTools({ pin, keep, drop }) {
  return pin && [button("Keep the new answer instead", keep, { class: "quiet" }),
    button("Stop comparing", drop, { class: "quiet" })];
}
