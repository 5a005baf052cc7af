// What is printed: one page for a council or a court, the check of a line, or everything.
import { groupLabel } from "../cases/tables.js";
import { countText } from "../exact/decimals.js";
import { masksBySize } from "../game/groups.js";
import { OWN_PROVED, provedText } from "../tell/proved.js";
import { plainPoints, quoted } from "../tell/rule-names.js";
import { agreedChoice, agreedColumn, agreedText } from "./agreed.js";
import { button, el, refill } from "./dom.js";
import { dayText, showSheet } from "./sheet.js";
import { unitOf, unitText } from "./unit.js";

const MOST_GROUPS = 1023; // that are printed, all groups of ten players
const ON_SCREEN = 63; // of the groups, those that stand in the grid

const STALE = "What was typed last isn’t worked out yet: an answer here is of the cells before.";

const at = (id) => document.getElementById(id);

/** The choice of what is printed, and the heading of the page. */
export function paperPart(session, typed) {
  const field = (key, label, value, wide) => el("label", { class: "single" }, el("span", { class: "field" }, label),
    el("input", {
      type: "text", value: value, "data-cell": `paper.${key}`, maxlength: 200, class: wide ? "wide" : "",
      autocomplete: "off", on: { input: (event) => { typed[key] = event.target.value; } },
    }));
  const own = el("input", {
    type: "checkbox", checked: Boolean(typed.withProposal), "data-cell": "paper.withProposal",
    on: { change: (event) => { typed.withProposal = event.target.checked; } },
  });
  const said = el("p", { class: "note", role: "status" });
  const printed = (what) => async () => {
    await typed.working; // what was typed last may be worked out still
    const isSheet = what === "sheet" && !document.body.classList.contains("answer-hidden");
    const count = isSheet ? showSheet(session, typed) : 1;
    refill(said, count > 1 && [`That takes ${count} sheets, in small letters and without a picture too. `,
      button("Print them", () => printAs(what), { class: "quiet" })]);
    if (count === 1) printAs(what);
  };
  const { isVote } = session.kind, agreed = el("div");
  const element = el("div", { class: "paper-part" },
    el("p", { class: "hint" }, "One page for a board or a court: who, how much, a picture, the reasons, what is ",
      "agreed on, and how to check it. Or everything on this page, with the amounts that were worked out, and a ",
      "check of a line against this case."),
    agreed,
    field("heading", "Heading", typed.heading ?? session.kind.title, true),
    typed.isPastedOver && typed.heading && el("p", { class: "hint" }, `The heading is still “${typed.heading}”.`),
    !isVote && [field("unit", "Unit of money", unitOf(typed), false), el("p", { class: "hint" }, unitText(typed)),
      el("label", { class: "single" }, own, " Put the other columns on the one page too")],
    el("p", { class: "tools" },
      button("Print one page", printed("sheet"), { class: "main" }), button("Print everything", printed("all"))), said);
  element.showAgreed = () => showAgreed(agreed, session, typed);
  return element;
}

/** Fills the place of what was agreed on: the choice, and, as long as nothing is, what the one page has. */
function showAgreed(place, session, typed) {
  const { line, game, points = [] } = session.result ?? {};
  const choice = agreedChoice(session, typed, () => showAgreed(place, session, typed));
  const [first] = choice && line ? plainPoints(points, game) : [], isOpen = first && !agreedColumn(session, typed);
  refill(place, isOpen && el("p", { class: "hint" }, "As long as nothing is agreed on, the one page has ",
    `${quoted(first)}.`), choice);
}

function printAs(what) {
  document.body.dataset.print = what;
  print();
}

/** Fills what stands on paper alone, as soon as the browser begins to print: paper can't wait. */
export class Paper {
  /** `view.typed` has the heading and the unit. */
  constructor(session, view) {
    Object.assign(this, { session, view });
  }

  print(what) {
    printAs(what);
  }

  before() {
    const { session, view } = this, { dataset } = document.body, isCase = dataset.view === "case";
    let what = dataset.print ?? (isCase ? "sheet" : dataset.view === "verify" ? "check" : "all");
    if (isCase && (view.isHidden || this.still()) && what === "sheet") what = "all"; // the case alone, or what is open
    if (what === "sheet") showSheet(session, view.typed);
    if (what === "sheet" && !(isCase && at("sheet").childElementCount)) what = "all";
    dataset.print = what;
    refill(at("paper-head"), what === "sheet" ? [] : this.head(what, isCase));
    refill(at("paper-groups"), what === "all" && isCase && this.groups());
  }

  /** Why the answer isn't of what was given last, in a sentence; "" where it is. */
  still() {
    return this.view.still || (this.session.isStale ? STALE : "");
  }

  after() {
    delete document.body.dataset.print;
    for (const id of ["paper-head", "paper-groups"]) refill(at(id));
  }

  /** The heading, the day and the unit of what isn't the one page. */
  head(what, isCase) {
    const { heading } = this.view.typed, unit = unitOf(this.view.typed);
    const own = what === "check" ? "The check of a line" : (isCase && heading?.trim()) || "";
    return [
      el("p", {}, own && el("b", {}, own), own && " – ", dayText()),
      what === "all" && isCase && this.still() && el("p", {}, el("b", {}, this.still())),
      what === "all" && isCase && this.agreed(),
      what === "all" && unit && !(isCase && this.session.kind.isVote) && el("p", {}, `All amounts are in ${unit}.`),
      what === "all" && isCase && !this.view.isHidden && this.proved(),
    ];
  }

  /** What was agreed on. */
  agreed() {
    const text = agreedText(agreedColumn(this.session, this.view.typed));
    return text && el("p", {}, el("b", {}, text));
  }

  /** What is proved of the answer. */
  proved() {
    const { line, rule, game, points = [], beyond } = this.session.result ?? {};
    if (points.length) return el("p", { class: "hint" }, provedText(line && rule, points.length > 1));
    return beyond && el("p", { class: "hint" }, OWN_PROVED);
  }

  /** All groups of a table with their numbers, where the grid shows a part of them. */
  groups() {
    const { kind, typed } = this.session;
    if (!kind?.isTable) return null;
    const { names } = typed, count = 2 ** names.length - 1, filled = new Set(typed.filled);
    const remark = (mask) => (filled.has(mask) ? ", filled by the page" : "");
    if (count <= ON_SCREEN) return null;
    const all = countText(count);
    if (count > MOST_GROUPS) {
      return el("p", { class: "hint" }, `Of ${all} groups the first ${ON_SCREEN} are printed; the file has all.`);
    }
    return [el("h3", {}, `All ${all} groups`), el("ol", {}, masksBySize(names.length).map((mask) => {
      return el("li", {}, `${groupLabel(names, mask)}: ${typed.numbers[mask] || "–"}${remark(mask)}`);
    }))];
  }
}
