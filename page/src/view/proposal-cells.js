// The column of the user's proposal: its cells, its sum, and ways to fill it.
import { Rational, ZERO } from "../exact/rational.js";
import { decimal, fullText, placesOf, readNumber, typedText } from "../exact/decimals.js";
import { button, el } from "./dom.js";
import { stepsOfRows, totalsOf } from "./format.js";
import { isOfRows, pastedDivision } from "./proposal.js";

/** The column that has changed, and what was said of it, come into the window, also out of a table that scrolls. */
function bringIntoView(cell) {
  for (const where of [`[data-cell="${cell}"]`, "#answer .own-said"]) {
    document.querySelector(where)?.scrollIntoView({ block: "nearest", inline: "center" });
  }
}

/** A cell of a column that the user fills: `own` are its texts, `key` its name, `title` what it is. A text of
 * several lines that is pasted is of all rows. */
export function ownInput({ label }, r, own, key, title) {
  const fault = own.faults[r];
  return el("input", {
    type: "text", class: "number", inputmode: "decimal", autocomplete: "off", maxlength: 200,
    "data-cell": `${key}.${r}`, value: own.texts[r],
    "aria-label": `${title} for ${label}`, "aria-invalid": fault ? "true" : false, title: fault ?? false,
    on: {
      input: (event) => own.set(r, event.target.value),
      keydown: (event) => {
        if (event.key !== "Enter") return;
        document.querySelector(`[data-cell="${key}.${r + (event.shiftKey ? -1 : 1)}"]`)?.focus();
      },
      paste: (event) => {
        const pasted = event.clipboardData?.getData("text/plain").trim() ?? "";
        if (!isOfRows(pasted, own.labels, r)) return;
        event.preventDefault();
        const place = { first: r, isOfWhole: key === "proposal" };
        const { texts, said, fault } = pastedDivision(pasted, own.labels, { ...place, before: own.texts });
        own.setAll(texts ?? own.texts, fault ?? said, "Paste your amounts");
        bringIntoView(`${key}.${r}`);
      },
    },
  });
}

export function proposalSum(game, { totals }, { show, isExact }) {
  if (!totals) return "–";
  const sum = Rational.sum(totals), rest = game.whole().minus(sum);
  if (rest.isZero()) return show(sum);
  const size = isExact(rest) ? show(rest.abs()) : fullText(rest.abs());
  return [show(sum), el("small", { class: "bad" }, rest.isNegative() ? `${size} too much` : `${size} is missing`)];
}

/** Ways to divide the whole that people name first: {title, totals}. */
function ways({ game, points }, rows) {
  const counts = rows.map(({ players }) => Rational.of(players.length)), all = Rational.sum(counts);
  const whole = game.whole(), own = game.kind === "bankruptcy" ? game.amounts : game.own;
  const weights = rows.map(({ players: [i] }, r) => own[i].times(counts[r])), sum = Rational.sum(weights);
  const canWeigh = ZERO.less(sum) && !weights.some((weight) => weight.isNegative());
  const others = points.filter(({ key }) => ["shapley", "core", "bird"].includes(key));
  const [first] = points, what = game.kind === "bankruptcy" ? "the claims" : game.costs ? "costs alone" : "worth alone";
  return [
    first && { title: `${first.title}, rounded`, totals: () => totalsOf(rows, first.shares) },
    ...others.map(({ title, shares }) => ({ title, totals: () => totalsOf(rows, shares) })),
    { title: "equal parts", totals: () => counts.map((count) => whole.times(count).over(all)) },
    canWeigh && {
      title: `in proportion to ${what}`,
      totals: () => weights.map((weight) => whole.times(weight).over(sum)),
    },
  ].filter(Boolean);
}

/** Rounded totals as texts that add to the whole: with as many decimals as it has, or the greatest takes the rest. */
function wholeTexts(totals, rows, whole, { places, mark }) {
  const count = Math.max(places, placesOf(whole)), unit = new Rational(10n ** BigInt(count));
  const values = stepsOfRows(totals, rows, count).map((step) => new Rational(step).over(unit));
  const rest = whole.minus(Rational.sum(values)), most = values.indexOf(Rational.max(values));
  values[most] = values[most].plus(rest);
  return values.map((value) => {
    if (10n ** BigInt(count) % value.den) return typedText(value, mark);
    const text = (places) => decimal(value, places, { mark, grouped: false }).replace("−", "-");
    return text(readNumber(text(count)).doubt ? count + 1 : count);
  });
}

export function proposalTools(result, { rows, proposal, format, isOpen }) {
  const fill = (title, totals) => {
    proposal.setAll(wholeTexts(totals, rows, result.game.whole(), format), "", `Fill it with ${title}`);
    bringIntoView("proposal.0");
  };
  return el("p", { class: "tools fill" }, el("span", {}, isOpen ? "Fill it with " : "Or fill it with "),
    ways(result, rows).map(({ title, totals }) => button(title, () => fill(title, totals()), { class: "quiet" })),
    proposal.texts.some(Boolean) && button("clear", () => {
      proposal.setAll([], "", "Clear your division");
      document.querySelector('[data-cell="proposal.0"]')?.focus(); // the button is gone
    }, { class: "quiet" }));
}
