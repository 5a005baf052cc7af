// The same game with other amounts: several estates side by side, and who bears an overrun.
import { Rational } from "../exact/rational.js";
import { fractionText } from "../exact/decimals.js";
import { nameOfMark } from "../exact/marks.js";
import { listed } from "../game/words.js";
import { quoted } from "../tell/rule-names.js";
import { changesOf, changesTable, movedHint } from "./changes.js";
import { button, el, refill } from "./dom.js";
import { totalsOf } from "./format.js";
import { movingPart } from "./moving-whole.js";
import { leavingPart } from "./who-leaves.js";

const MOST_OVERRUN = 12; // players of other games than tables
const MOST_MOVED = 16; // claims whose estate moves

/** The parts for this game. `settings` are {rows, format, typed, mark, ask, assumed}: `ask(task, what)` goes to a
 * worker, `typed` keeps what was typed, and `assumed(groups)` says whether the page filled the number of any. */
export function otherAmounts({ game, answer }, settings) {
  const view = { game, answer, ...settings };
  if (game.kind === "bankruptcy") return [estatesPart(view), game.n > 1 && game.n <= MOST_MOVED && movingPart(view)];
  const isTable = game.isTable(), isOther = ["airport", "tree"].includes(game.kind) && game.n <= MOST_OVERRUN;
  if ((isTable || isOther) && !game.ballots && game.n > 1) {
    return [overrunPart(view), movingPart(view), leavingPart(view)];
  }
  const isLarge = game.kind === "tree" && game.n > MOST_OVERRUN; // of a runway the answer says it, with all it lacks
  return isLarge && el("p", { class: "hint screen" }, "If the whole costs more than planned: who bears it is worked ",
    `out for up to ${MOST_OVERRUN} players, and here are ${game.n}.`);
}

/** A part that opens, with one field, and what comes of it. */
function part({ title, hint, label, key, task, show, placeholder = "" }, { typed, mark, ask }) {
  const found = el("div", { class: "found", "aria-live": "polite" });
  const workOut = async (isAsked) => {
    const put = (...parts) => (found.classList.remove("stale"), refill(found, parts)), now = typed[key] ?? "";
    if (!now.trim()) return put(isAsked && "The field is empty.");
    try {
      const answer = await ask(task, { typed: now, mark });
      return now === typed[key] && put(show(answer));
    } catch (fault) {
      return fault.message === "stopped" || refill(found, el("p", { class: "bad" }, fault.message));
    }
  };
  const work = (isAsked) => { typed.working = workOut(isAsked); }; // paper waits for it
  const field = el("input", {
    type: "text", value: typed[key] ?? "", "aria-label": label, "data-cell": key, autocomplete: "off", maxlength: 200,
    placeholder, on: { change: () => work(), input: (event) => {
      typed[key] = event.target.value;
      found.classList.add("stale");
    } },
  });
  const details = el("details", { class: "other", open: Boolean(typed.open?.[key]), on: {
    toggle: () => { typed.open = { ...typed.open, [key]: details.open }; },
  } }, el("summary", {}, title), el("p", { class: "hint" }, hint),
  el("p", { class: "tools" }, el("span", { class: "field" }, label), field,
    button("Work it out", () => work(true))), found);
  if (typed.open?.[key]) work();
  return details;
}

// ---- Several estates

function estatesPart(view) {
  return part({
    title: "Several amounts side by side", key: "amounts", task: "estates", label: "Amounts",
    hint: "What would each get from other estates, with the same claims? Put semicolons between them: "
      + "500; 1\u00a0200\u00a0000.",
    show: (found) => estatesTable(found, view),
  }, view);
}

function estatesTable(found, { rows, format, setEntry }) {
  const columns = found.filter(({ shares }) => shares).map(({ amount, shares }) => {
    const totals = totalsOf(rows, shares.map(Rational.of));
    return { title: format.show(Rational.of(amount)), texts: format.column(totals), isMoved: format.isMoved(totals) };
  });
  const faults = found.filter(({ fault }) => fault).map(({ amount, fault }) => {
    return el("p", { class: "bad" }, amount ? `${format.show(Rational.of(amount))}: ${fault}` : fault);
  });
  const way = (mark) => button(`No, the ${nameOfMark(mark)}`, () => setEntry(mark), { class: "quiet" });
  const notes = found.filter(({ note }) => note).map(({ note, other }) => {
    return el("p", { class: "note" }, note, " ", other && setEntry && way(other));
  });
  if (!columns.length) return [...notes, ...faults];
  const names = [...rows.map(({ label }) => label), "together"], titles = columns.map(({ title }) => title);
  const lines = names.map((name, r) => [name, ...columns.map(({ texts }) => texts[r])]);
  return [...notes, tableOf(["Estate", ...titles], lines), movedHint(columns, rows), ...faults];
}

function tableOf(heads, lines) {
  return el("div", { class: "scroll" }, el("table", { class: "shares small" },
    el("thead", {}, el("tr", {}, heads.map((head, k) => el("th", { scope: "col", class: k ? "number" : "" }, head)))),
    el("tbody", {}, lines.map(([name, ...cells]) => el("tr", { class: name === "together" ? "sum" : "" },
      el("th", { scope: "row" }, name), cells.map((cell) => el("td", { class: "number" }, cell)))))));
}

// ---- An overrun

function overrunPart(view) {
  const { costs } = view.game;
  return part({
    title: costs ? "If the whole costs more than planned" : "If all together gain more, or less",
    key: "more", task: "overrun",
    label: costs ? "It costs more by" : "They gain more by",
    placeholder: "37.15 or 10 %",
    hint: "An amount or a percentage. Only the whole changes; what each group could do by itself stays. (If that "
      + `changes too, keep the answer to compare, and change the cells.) Who ${costs ? "bears" : "gets"} it depends on `
      + "the rule, so a contract should name the rule beforehand.",
    show: (found) => overrunTable(found, view),
  }, view);
}

function overrunTable({ fault, more, whole, rules, ...core }, view) {
  if (fault) return el("p", { class: "bad" }, fault);
  const { game, rows, format } = view, change = Rational.of(more), before = Rational.of(whole);
  const columns = rules.map((rule) => changesOf(rule, rows, format)), verb = game.costs ? "It costs" : "They gain";
  const [own, after] = format.apart(before, before.plus(change));
  const head = `${verb} ${sizeOf(change, format)}: ${after} in place of ${own}.`;
  return [
    el("p", {}, el("b", {}, head)),
    ...columns.map((column) => el("p", {}, overrunSentence(column, rows, change, game, format))),
    unstable(core, game), changesTable(columns, view), promises(columns, game),
  ];
}

/** "37.15 less". */
function sizeOf(change, { by }) {
  return `${by(change.abs())} ${change.isNegative() ? "less" : "more"}`;
}

/** Which rules keep everybody from paying less in every case, and what is meant by the one per head. */
function promises(columns, { costs }) {
  const even = columns.filter(isEven), perHead = columns.find((column) => column.perHead);
  return [
    el("p", { class: "hint" }, "If only the whole changes, each ", costs ? "bears" : "gets", " an equal part of it by ",
      listed(even.map(quoted)), ", in every case (Young, Okada and Hashimoto 1982). So by ",
      even.length > 1 ? "these" : "this", " nobody ",
      costs ? "pays less when the whole costs more. " : "gets less when all together gain more. ",
      quoted(columns[0]), " doesn’t promise that (Megiddo 1974)."),
    perHead && el("p", { class: "hint" }, quoted(perHead), " counts what a group gains per member, and ",
      "looks at all divisions of the whole. An answer per head looks only at those by which nobody ",
      costs ? "pays more" : "gets less", " than alone, so it may be another."),
  ];
}

/** Whether all bear the same by a rule if only the whole changes, in every game. */
const isEven = ({ key, perHead }) => key === "shapley" || perHead;

/** Where no division keeps all groups any more: that has to be known before a rule is agreed on. */
function unstable({ wasStable, isStable }, { costs }) {
  if (isStable || !wasStable) return null;
  return el("p", { class: "notice" }, "With this change no division satisfies all groups: by any rule some group "
    + `would ${costs ? "pay less" : "get more"} by itself.`);
}

function overrunSentence(column, rows, change, game, format) {
  const { differences, texts, worst } = column, { show, isExact } = format;
  const isUp = (value) => value.isNegative() !== change.isNegative() && !value.isZero();
  const against = differences.map((value, r) => ({ value, r })).filter(({ value }) => isUp(value));
  const [verb, costs] = game.costs ? ["pays", "costs"] : ["gets", "gains"], name = quoted(column);
  if (against.length) {
    const told = against.map(({ value, r }) => {
      const size = /[1-9]/.test(texts[2][r]) ? texts[2][r].replace(/^[+−]/, "") : format.by(value.abs());
      return `${rows[r].label} ${verb} ${size} ${value.isNegative() ? "less" : "more"}`;
    });
    const although = `although the whole ${costs} ${sizeOf(change, format)}`;
    return `${name}: ${although}, ${listed(told)}.${reasonOf(worst, format)}`;
  }
  const isAlike = differences.every((value) => value.equals(differences[0]));
  const each = isExact(differences[0]) ? "" : ` (${fractionText(differences[0])})`;
  const where = isEven(column) ? ", as in every case" : " here";
  const all = game.costs ? "all bear" : "all get";
  if (isAlike) return `${name}: ${all} the same${where}, ${show(differences[0])}${each} each.`;
  const way = change.isNegative() ? "more" : "less";
  return `${name}: nobody ${verb} ${way} here.`;
}

/** Why a share may go against the change: other groups are looked at first. */
function reasonOf(worst, { show }) {
  const [old, fresh] = worst ?? [], told = ({ who, by }) => {
    const gain = Rational.of(by).negated();
    return `${who} (${show(gain.abs())} ${gain.isNegative() ? "lost" : "gained"})`;
  };
  if (!worst || old.who === fresh.who) return "";
  return " The rule looks first at those who gain least by joining, and these are others then: before, "
    + `${told(old)}; after, ${told(fresh)}. The rest may be moved either way.`;
}
