// The user's proposal beside the program's division, as the nucleolus compares them.
import { spoken } from "../exact/marks.js";
import { quoted } from "../tell/rule-names.js";
import { el } from "./dom.js";
import { labelOf, signedDifferences, totalsOf } from "./format.js";

/** Who gets or pays more than by the program's division, and who less, row by row: {title, texts}; null where nothing
 * whole is proposed. */
export function againstOf(point, rows, { totals }, format) {
  if (!totals || !point?.key.endsWith("nucleolus")) return null;
  const texts = signedDifferences(totals, totalsOf(rows, point.shares), rows, format);
  return { title: "against the answer", texts };
}

/** The part that opens: it stays open while another proposal is typed, which `typed` remembers. `point` is the
 * program's division. */
export function comparisonPart({ shares, comparison, verdict, hold }, point, game, { rows, typed }) {
  const isAsked = shares && verdict === undefined && typed.isCompared;
  if (!comparison && !isAsked) return null;
  const details = el("details", { class: "comparison", open: Boolean(typed.isCompared), on: {
    toggle: () => (typed.isCompared = details.open),
  } },
  el("summary", {}, `Your proposal beside ${quoted(point)}`),
  comparison ? comparisonOf(comparison, point, game, { rows, hold }) : el("p", {}, "…"));
  return details;
}

/** `found` is what work/compare.js says. */
function comparisonOf(found, point, game, { rows: all, hold }) {
  const { title, key } = point, name = quoted(point), place = (k) => found.first + k;
  const { lists: [own, other], differs } = found;
  const texts = alike([...own, ...other].map(({ excess }) => excess));
  const cell = ({ group }, k) => [el("td", { class: "number" }, texts[k]), el("td", {}, group)];
  const rows = own.map((entry, k) => el("tr", { class: place(k) === differs ? "differs" : "" },
    el("th", { scope: "row", class: "number" }, String(place(k))), cell(entry, k), cell(other[k], own.length + k)));
  return [
    el("p", {}, principleOf(name, key, game)),
    el("div", { class: "scroll" }, el("table", { class: "shares small" },
      el("thead", {}, el("tr", {}, ["", "Yours", "by whom", title, "by whom"].map((head, k) => {
        return el("th", { scope: "col", class: k % 2 ? "number" : "" }, head || "Place");
      }))),
      el("tbody", {}, rows))),
    el("p", {}, [
      savedText(found, name, game), sentenceOf(found, name, game),
    ].join(" ").trim()),
    el("p", { class: "field-name" }, prenucleolusText(found, key, game, all, hold).join(" ")),
  ];
}

const [OF_DIGIT, OF_MARK] = ["\u2007", "\u2008"]; // blanks as wide as these

/** Numbers of a table with blanks behind them, so that their decimals stand in line: zeros there may be wrong. As they
 * are if one is a fraction. */
function alike(texts) {
  const form = new RegExp(`^([^/]*?\\d)(?:[${spoken.mark}](\\d+))?(\\D*)$`);
  const parts = texts.map((text) => text.match(form));
  if (!parts.every(Boolean)) return texts;
  const most = Math.max(...parts.map(([, , decimals = ""]) => decimals.length));
  return parts.map(([, , decimals = ""], k) => {
    return `${texts[k]}${decimals || !most ? "" : OF_MARK}${OF_DIGIT.repeat(most - decimals.length)}`;
  });
}

/** Why a proposal isn't the prenucleolus either. */
function prenucleolusText({ better }, key, { perHead }, rows, hold) {
  const rule = `prenucleolus${perHead ? " per head" : ""}`, isListed = better === "other" && key === "nucleolus";
  const isHeld = !perHead && better !== "same" && hold?.strong !== undefined;
  const start = isListed ? "Holds show it without a list: the prenucleolus" : "It isn’t the prenucleolus: that";
  return [
    isListed && `So it isn’t the ${rule} either: the nucleolus is itself a division of the whole, with a lesser list.`,
    isHeld && `${start} always lies in the prekernel, and here ${labelOf(rows, hold.strong)} has a stronger hold `
      + `on ${labelOf(rows, hold.weak)}.`,
  ].filter(Boolean);
}

function principleOf(name, key, { costs, perHead }) {
  const allowed = key === "prenucleolus" ? "Of all divisions"
    : `Of all divisions in which nobody ${costs ? "pays more" : "gets less"} than alone,`;
  return `What each group could gain by leaving${perHead ? ", per member" : ""} (with a minus: what it would lose), `
    + `the greatest first. ${allowed} ${name} has the least list: at the first place that differs it has the lesser `
    + "number.";
}

/** The first place in plain words, where it differs and nobody would leave; "" otherwise. */
function savedText({ differs, better, lists: [[own], [other]] }, name, { costs, perHead }) {
  const [mine, theirs] = [own, other].map(({ excess }) => (excess === "0" ? "0" : excess.match(/^[-−](.*)/)?.[1]));
  if (differs !== 1 || better !== "other" || perHead || !mine || !theirs) return "";
  return `Your proposal leaves ${own.group} ${costs ? "a saving" : "a gain"} of only ${mine}; by ${name} each `
    + `group has at least ${theirs}.`;
}

function sentenceOf({ differs, better, of }, name, { costs }) {
  if (better === "same") return `Both lists are the same, so this proposal is ${name}.`;
  const place = `At place ${differs} of ${of} they differ for the first time`;
  return better === "other"
    ? `${place}: there your proposal has the greater number, so it treats that group worse than ${name} treats any `
      + "that is left."
    : `${place}, and there your proposal has the lesser number. It isn’t among the divisions that the rule allows: in `
      + `it somebody ${costs ? "pays more" : "gets less"} than alone.`;
}
