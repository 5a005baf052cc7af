// The panels below a case: the answer, its settings, the reasons and the evidence.
import { sourceName } from "../cases/matrices.js";
import { MARKS, nameOfMark } from "../exact/marks.js";
import { agreedColumn, agreedText } from "./agreed.js";
import { answerParts, solutionOf } from "./answer.js";
import { beyondParts } from "./beyond.js";
import { beyondPower } from "./beyond-power.js";
import { labelOfCell } from "./cell-names.js";
import { pictureButtons } from "./save-picture.js";
import { button, cellOf, copy, el, refill } from "./dom.js";
import { evidenceParts } from "./evidence.js";
import { fitAcross } from "./fit-across.js";
import { countedText, filledLines, filledText, isFilled } from "./filled.js";
import { otherAmounts } from "./other-amounts.js";
import { ownDivision } from "./own-division.js";
import { paperPart } from "./paper.js";
import { pinnedOf } from "./pinned.js";
import { marginsPart } from "./margins-part.js";
import { takesPerHead } from "./questions.js";
import { powerReasons } from "./reasons.js";
import { fillSeals } from "./seals.js";
import { tablesOf } from "./shares-table.js";
import { csvButton, tabbed } from "./table-lines.js";
import { todayOf } from "./today.js";
import { unitIn } from "./unit.js";
import { stillParts, stillText, untakenIn } from "./untaken.js";
import { waitingParts } from "./waiting.js";
import { fillsAsked, fillsPart } from "./two-fills.js";
import { whyBody } from "./why.js";
import { pairPart } from "./why-pair.js";

const PLACES = [0, 1, 2, 3, 4, 6];
const MEASURES = [["plain", "as a whole"], ["per-head", "per head: each player is one"]];

const PARTS = ["why", "what-if", "evidence", "paper", "files"];
const BODIES = ["answer-measure", "answer-settings", "answer-body", "own-body", "margins", "answer-more", "why-body",
  "evidence-body", "paper-body", "files-body"];
/** Which parts of an answer are drawn anew as something comes: all at first, or if it isn't named here. */
const DRAWN = {
  reasons: ["body", "why"], divisions: ["settings", "body", "why", "own", "evidence", "files", "agreed"],
  verdicts: ["body", "why"],
  checks: ["seals", "evidence"], margins: ["margins"], proposal: ["body", "why", "own", "agreed"],
  todays: ["body", "own"], pinned: ["body", "own"],
};
const LINKS = { "what-if": "What if", evidence: "Evidence", paper: "On paper", files: "Files" };

const OF_FRACTIONS = "Fractions have ÷ so that no spreadsheet takes them for dates.";

const at = (id) => document.getElementById(id);

export class AnswerView {
  constructor(session) {
    this.session = session;
    this.typed = {}; // what was typed into the parts of the answer, of this case
    this.isHidden = false; // whether the case alone is shown, and printed
    this.isExact = false; // whether exact fractions are shown
  }

  /** What was typed for another case is of no use here; `typed` is what was for this one. */
  clear(typed = {}) {
    this.typed = typed;
    this.shownMore = this.shownPaper = this.drawn = null;
    for (const id of BODIES) refill(at(id));
    this.hush();
  }

  stale() {
    for (const id of ["answer", "parts"]) at(id).classList.add("stale");
  }

  /** Shows the answer: all of it, or the parts in which it is seen what `came`. */
  show(came) {
    const { result, isStale } = this.session;
    for (const id of ["answer", "parts"]) at(id).classList.toggle("stale", isStale);
    if (result && isStale) return; // what stands there is of the old cells; the next answer is drawn anew
    this.showPanels(result);
    if (!result) return this.hush();
    if (this.isHidden && !result.refusal) return this.showHidden();
    if (!result.game) return this.showBeyond(result);
    this.draw(result, this.viewOf(result), this.drawn === result ? DRAWN[came] : undefined);
    this.drawn = result;
  }

  /** Draws some parts of an answer, or all. */
  draw(result, view, some) {
    const parts = {
      settings: () => this.showSettings(result),
      body: () => (refill(at("answer-body"), answerParts(result, view)), this.say()),
      seals: () => fillSeals(at("answer-body").querySelector(".seals"), result, solutionOf(result), view.format),
      margins: () => refill(at("margins"), marginsPart(result, { ...view, session: this.session })),
      more: () => this.showMore(result, view),
      why: () => refill(at("why-body"), whyBody(result, { ...view, pair: this.pair })),
      own: () => refill(at("own-body"), ownDivision(result, { ...view, onBegin: () => this.show("proposal") })),
      evidence: () => refill(at("evidence-body"), evidenceParts(result, this.session, view.filled)),
      files: () => this.made && this.showFiles(this.made),
      links: () => this.showLinks(), agreed: () => this.showAgreed(),
    };
    for (const part of result.refusal ? ["settings", "body"] : some ?? Object.keys(parts)) parts[part]();
    this.fit();
  }

  /** Tables as wide as their place is now, which has no width while another view is shown. */
  fit() {
    for (const id of ["case-body", "answer-body"]) fitAcross(at(id));
  }

  showSettings(result) {
    const measures = !result.refusal && takesPerHead(result.game) && this.measures(result.game);
    // a question that few ask, and of votes and markets hardly anybody; where it was asked it stands beside the answer
    const isAside = result.game.ballots || result.game.isMarket() || !this.session.wasPerHead;
    const hadFocus = document.activeElement?.dataset.cell === "measure";
    refill(at("answer-settings"), result.refusal ? [] : [this.settings(result), isAside && measures]);
    refill(at("answer-measure"), !isAside && measures);
    if (hadFocus) cellOf(at("answer"), "measure")?.focus({ preventScroll: true }); // it may stand elsewhere now
  }

  /** What all parts of the answer are drawn by. */
  viewOf(result) {
    const { session } = this, { rows } = session.reading, wide = at("answer-body").clientWidth || 640;
    const proposal = {
      ...session.proposal,
      set: (r, text) => session.setProposal(Object.assign([...session.texts], { [r]: text })),
      setAll: (texts, said, what) => session.setProposal(texts, said, what), labels: rows.map(({ label }) => label),
    };
    return {
      rows, format: session.format(), proposal, wide, today: todayOf(session, rows),
      filled: `${filledText(session) ?? ""} ${countedText(session, result.points ?? [], result.game)}`.trim(),
      pinned: pinnedOf(session, rows), labelOfCell: (cell) => labelOfCell(cell, session), result,
      remark: filledLines(session, rows), source: sourceName(session.typed),
      coarse: session.typed.coarse, typed: this.typed, ask: session.askAbout(result),
      said: session.ownSaid, stays: session.ownStays,
    };
  }

  /** Which parts are there at all. */
  showPanels(result) {
    const isWhole = Boolean(result) && !result.refusal;
    at("answer").hidden = !result;
    at("waiting").hidden = Boolean(result);
    for (const id of PARTS) if (id !== "files") at(id).hidden = !isWhole;
    if (!result) refill(at("next"));
    this.showPeek(result);
  }

  /** While a pasted text isn't taken, nothing of the answer of before can be saved or printed as another. */
  showUntaken() {
    const { session } = this, untaken = untakenIn(at("case-body")), isExample = !session.isTyped;
    this.still = stillText(untaken, isExample);
    if (untaken && !untaken.isAsked) this.pastedUnit = undefined;
    refill(at("still"), stillParts(untaken, isExample, () => { this.pastedUnit = undefined; }));
    for (const id of ["answer", "parts"]) at(id).classList.toggle("still", Boolean(untaken));
    for (const id of ["answer-body", "parts"]) at(id).inert = Boolean(untaken);
    if (session.result) this.showPeek(session.result);
  }

  /** What is in the place of the answer while there is none; `panel` is that of the case. */
  showWaiting(reading, { goTo, choices }) {
    const labelOf = (cell) => labelOfCell(cell, this.session);
    refill(at("waiting"), waitingParts(reading, { goTo, labelOf, choices }));
  }

  /** The way on from the answer: one step that most want, and the other parts. */
  showLinks() {
    const isThere = (id) => !at(id).hidden, first = isThere("why") ? "why" : null;
    const link = (id, title, kind) => button(title, () => 0, {
      class: kind, "data-part": id, "aria-controls": id, "aria-expanded": String(at(id).open),
    });
    refill(at("next"), first && link(first, this.session.kind.isVote ? "Why this power?" : "Why these shares?", "main"),
      Object.entries(LINKS).filter(([id]) => isThere(id)).map(([id, title]) => link(id, title, "quiet")));
  }

  /** Above narrow pages' lower edge: what the answer says, as a way to it. */
  showPeek(result) {
    const said = result && !this.isHidden ? at("answer-body").querySelector(".lead")?.textContent : "";
    at("peek").hidden = !result;
    at("peek").textContent = this.still || said || "See the answer";
  }

  /** Saving: `made` are the case and its document, as the panel of the case has them. */
  showFiles(made) {
    this.made = made;
    const { session } = this, { reading, result, kind } = session, hasMade = made.childElementCount > 0;
    const points = result?.points ?? [], format = session.format().plain(), tables = () => {
      const { rows } = session.reading, beside = { today: todayOf(session, rows), pinned: pinnedOf(session, rows) };
      const { coarse } = session.typed, filled = filledText(session), { proposal } = session;
      const all = tablesOf(session.result, { rows, format, coarse, proposal, ...beside });
      const notes = [all.flat(2).some((text) => /^-?\d+\/\d+$/.test(text)) && OF_FRACTIONS, filled,
        agreedText(agreedColumn(session, this.typed))].filter(Boolean);
      return [...all, notes.map((note) => [note])];
    };
    at("files").hidden = !hasMade;
    if (!hasMade || !reading) return;
    const isShown = points.length > 0 && !this.isHidden, copied = (event) => copy(tabbed(tables()[0]), event.target);
    refill(at("files-body"), made, isShown && el("p", { class: "tools" },
      csvButton(`${kind.id}-answer`, tables, format), button("Copy the table", copied, { class: "quiet" }),
      pictureButtons([at("answer-body"), at("why-body")])));
  }

  /** Hides the answer, with the reasons, the evidence and the check of a line, or shows it again. */
  hide(isHidden) {
    this.isHidden = isHidden;
    this.drawn = null;
    document.body.classList.toggle("answer-hidden", isHidden);
    this.shownMore = null;
    if (isHidden) this.showHidden();
    else this.show();
    at("answer-settings").querySelector(".hiding")?.focus(); // its name is another one, so it lost that
  }

  hiding() {
    const title = this.isHidden ? "Show the answer" : "Hide the answer";
    return button(title, () => this.hide(!this.isHidden), { class: "quiet hiding" });
  }

  /** Nothing of the answer stands in the page then. */
  showHidden() {
    for (const id of ["why", "what-if", "evidence"]) at(id).hidden = true;
    for (const id of ["why-body", "own-body", "margins", "answer-more", "evidence-body"]) refill(at(id));
    refill(at("answer-settings"), this.hiding());
    refill(at("answer-measure"));
    refill(at("answer-body"), el("p", { class: "hint" }, "The answer is hidden: only the case is shown and printed."),
      el("p", { class: "tools" }, button("Show it", () => this.hide(false))));
    this.shownMore = "hidden";
    this.showPaper();
    this.showPeek(null);
    this.showLinks();
    this.hush();
  }

  /** What the page calculates by itself has no evidence, and, but for power, no reasons. */
  showBeyond({ beyond }) {
    for (const id of ["why", "evidence", "what-if"]) at(id).hidden = id !== "why" || !beyond.game;
    refill(at("why-body"), beyond.game && powerReasons(beyond.game, beyond.shares));
    refill(at("answer-settings"), this.formats(), this.fractions(), this.hiding());
    refill(at("answer-measure"));
    const view = this.viewOf(this.session.result);
    refill(at("answer-body"), beyond.game ? beyondPower(beyond, view) : beyondParts(beyond, view));
    this.fit();
    this.showPaper();
    this.showAgreed();
    this.showLinks();
    this.say();
  }

  /** An answer that no longer stands isn't said either. */
  hush() {
    at("said").textContent = "";
  }

  /** Tells those who hear the page what it answers, once for each answer. */
  say() {
    const text = at("answer-body").querySelector(".lead, .notice, .hint")?.textContent ?? "";
    if (at("said").textContent !== text) at("said").textContent = text;
    this.showPeek(this.session.result);
  }

  /** The unit of the amounts of a pasted table waits until the table is taken; a single number says nothing of it. */
  seeUnit(text) {
    if (/[\t\n;]/.test(text.trim())) this.pastedUnit = unitIn(text);
  }

  /** The cells have changed: those of a table that was pasted have its unit, and what is typed drops the table. */
  takeUnit(isTyped) {
    const { pastedUnit } = this;
    this.pastedUnit = undefined;
    if (isTyped || pastedUnit === undefined) return;
    Object.assign(this.typed, { pastedUnit, isPastedOver: true });
    this.shownPaper = null;
    if (at("paper-body").childElementCount) this.showPaper();
  }

  showPaper() {
    if (this.shownPaper === this.session.kind && at("paper-body").childElementCount) return;
    this.shownPaper = this.session.kind;
    refill(at("paper-body"), paperPart(this.session, this.typed));
    this.showAgreed();
  }

  showAgreed() {
    at("paper-body").firstElementChild?.showAgreed();
  }

  /** The parts with fields of their own are kept while answers come, and made anew for another game or other decimals.
   * */
  showMore(result, { rows, format, filled, ask }) {
    const { session } = this;
    const mark = session.marks.beside(), isSettled = session.reading.settled !== null;
    this.showPaper();
    const { places, mark: shown, thousands } = format;
    const key = [result.text, places, shown, thousands, filled, mark, isSettled].join("\n");
    if (this.shownMore === key) return;
    this.shownMore = key;
    const settings = {
      rows, format, mark, typed: this.typed, setEntry: isSettled ? null : (other) => {
        session.on.step(`The ${nameOfMark(other)} before decimals`);
        session.setEntry(other);
      },
      ask, assumed: (groups) => isFilled(session, groups),
      fills: fillsAsked(session, mark), network: filledNetwork(session, mark),
    };
    session.pair = [];
    this.pair = pairPart(result, { ...settings, onSaid: (...said) => { session.pair = said; } });
    refill(at("answer-more"), fillsPart(session, settings), otherAmounts(result, settings));
  }

  settings(result) {
    return [this.formats(), this.fractions(), this.corePoint(result), this.hiding()];
  }

  /** Whether exact fractions stand below the decimals, and below the rules what the field calls them. */
  fractions() {
    return checkbox("exact", "Exact fractions, and the field’s names", this.isExact, (isOn) => {
      this.isExact = isOn;
      at("answer").classList.toggle("exact-on", isOn);
      this.fit();
    });
  }

  /** A core point is one of many, and looks like a rule: so it is shown on request alone. */
  corePoint({ core }) {
    return core?.shares && checkbox("core", "One core point", this.session.wantsCore, (isOn) => {
      this.session.setCore(isOn);
    });
  }

  formats() {
    const { session } = this, choice = (title, options, now, onChange) => el("label", {}, `${title} `,
      el("select", { on: { change: (event) => onChange(event.target.value) } }, options.map(([value, name]) => {
        return el("option", { value: String(value), selected: value === now }, String(name));
      })));
    const places = choice("Decimals", PLACES.map((count) => [count, count]), session.places, (value) => {
      session.places = Number(value);
      this.show();
    });
    const mark = choice("Decimal mark", MARKS, session.marks.shown, (value) => session.setMark(value));
    return [places, mark];
  }

  /** Per head is a rule of its own, so it isn't among the settings of what is shown. */
  measures(game) {
    const now = game.perHead ? "per-head" : "plain";
    return el("label", {}, "A group’s loss counts ", el("select", {
      "data-cell": "measure", on: { change: ({ target }) => {
        this.session.on.step(`Count ${target.value === "plain" ? "as a whole" : "per head"}`);
        this.session.setMeasure(target.value);
      } },
    }, MEASURES.map(([value, title]) => el("option", { value, selected: value === now }, title))));
  }

  // ---- At work, and faults

  busy(isBusy) {
    refill(at("busy"), isBusy && [
      el("span", {}, "Working it out … "), button("Stop", () => this.session.stop()),
    ]);
  }

  /** What is said where no answer came. A fault that nobody has foreseen isn't shown as it is. */
  fault({ message }) {
    const sentence = /^(The program|Stopped)/.test(message) ? message
      : "The program failed at this document, which it never should, so there is no answer. Please save the document, "
        + "and send it to its makers.";
    const canSave = this.made?.childElementCount > 0;
    for (const id of ["answer", ...PARTS]) at(id).hidden = id !== "answer" && !(id === "files" && canSave);
    refill(at("files-body"), this.made); // the case can be saved still, and no table of an answer
    at("waiting").hidden = true;
    for (const id of ["answer", "parts"]) at(id).classList.remove("stale");
    for (const id of ["answer-measure", "answer-settings", "margins", "answer-more"]) refill(at(id));
    this.showLinks();
    this.shownMore = this.drawn = null;
    refill(at("answer-body"), el("div", { class: "notice bad", role: "alert" }, el("p", {}, sentence),
      button("Try again", () => this.session.changed(0))));
  }
}

/** A setting that is on or off. */
function checkbox(cell, title, isOn, onChange) {
  return el("label", {}, el("input", {
    type: "checkbox", checked: isOn, "data-cell": cell, on: { change: ({ target }) => onChange(target.checked) },
  }), ` ${title}`);
}

/** A network with ways that the page filled, as it has to be filled anew without a place; undefined for another. */
function filledNetwork({ kind, typed: { names, links, filled = {}, source } }, mark) {
  const hasWays = kind.isNetwork && Object.values(filled).includes("way");
  return hasWays ? structuredClone({ names, links, filled, source, mark }) : undefined;
}
