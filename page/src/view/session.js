// The case that is worked on: what was typed, what was read of it, and the answers of the program.
import { isLong, Marks } from "../exact/marks.js";
import { Rational } from "../exact/rational.js";
import { calculated } from "./calculated.js";
import { formatOf } from "./format.js";
import { Helper } from "./helper.js";
import { carried, knownRows, staying, withoutRow } from "./own-rows.js";
import { proposalOf } from "./proposal.js";
import { askAll, judge } from "./questions.js";

const WAIT = 200; // milliseconds between the last key and the question
const BUSY = 400; // milliseconds after which the page says that it is at work

const textsOf = (list) => Array.from(list, (text) => text ?? "");
/** Whether lists of amounts are the same, where some have no texts for the last rows. */
const isSame = (one, other) => (one && other
  ? [...one, ...other].every((_, r) => (one[r] ?? "") === (other[r] ?? "")) : one === other);

export class Session {
  /** `on` is called as things happen: `stale`, `read`, `answer(came)`, `whole` once no part of it is to come,
   * `busy(isBusy)` and `fault(fault)`; and before the user's own numbers change, `step(what, isTyping)`. */
  constructor(on) {
    this.on = on;
    this.engine = new Helper();
    this.checker = new Helper();
    this.reader = new Helper();
    this.kind = null;
    this.turn = 0;
    this.isStale = false; // whether something was typed that the answer doesn't know yet
    this.isRead = false; // whether all that was typed is read
    this.marks = new Marks(new Intl.NumberFormat().format(0.5).includes(",") ? "," : ".");
    this.isTyped = false; // whether the cells aren't those of a worked example
    this.wantsCore = false; // whether a core point is shown
  }

  /** Starts the workers, so that the first question needn't wait for them. */
  warmUp() {
    for (const helper of [this.engine, this.checker]) helper.ask("warmUp").catch(() => 0);
  }

  /** `doubt` is why the game isn't taken for the agreed one, in words; `file` is that which was opened: {name, digest},
   * and `made`, the document that the page makes of it. The marks are those of `Marks.open`. The user's own amounts are
   * of the rows `ownRows`, if these are known; by their names, if they `isMoved`. */
  open(kind, typed, { isFile = false, isTyped = isFile, ...settings } = {}) {
    const { measure = "plain", texts = [], todays = null, pinned = null, doubt = "", file = null } = settings;
    const { places = kind.places ?? 2, mark, entry, marks, thousands, ownRows = null, isMoved = false } = settings;
    Object.assign(this, { kind, typed, measure, texts, todays, pinned, doubt, places, isTyped, ownSaid: "" });
    // whether rows may stand elsewhere than those of the own amounts, and who still has amounts of another game
    Object.assign(this, { ownRows, isMoved, isAnew: isMoved, ownStays: [] });
    this.wasPerHead = measure === "per-head"; // whether that was asked, by the case or by a person
    this.marks.open({ isFile, mark, entry, thousands, before: marks });
    Object.assign(this, { reading: null, result: null, judged: {}, proposal: proposalOf([], [], this.marks.entry) });
    this.changed(0);
    this.file = file;
  }

  /** Something was typed, or chosen, that changes the game. A file that hasn't been read yet is forgotten: the case no
   * longer counts as that file. */
  changed(wait = WAIT) {
    if (!this.file?.made) this.file = null;
    this.turn += 1;
    this.isStale = true;
    this.isRead = false;
    this.on.stale();
    clearTimeout(this.timer);
    this.timer = setTimeout(() => this.work(), wait);
  }

  /** The mark of what is shown; no number is read anew by it. */
  setMark(mark) {
    this.marks.choose(mark);
    this.changed(0);
  }

  /** The mark of the numbers of this case that can be read both ways, as the user says. */
  setEntry(mark) {
    this.marks.enter(mark);
    this.typed.isMarked = true;
    this.changed(0);
  }

  /** How numbers are shown; of another game by its `facts`. */
  format(facts) {
    return formatOf(this.places, this.marks.spelling(facts ? isLong(facts) : undefined));
  }

  setMeasure(measure) {
    this.measure = measure;
    this.wasPerHead ||= measure === "per-head";
    this.changed(0);
  }

  setCore(wantsCore) {
    this.wantsCore = wantsCore;
    this.changed(0);
  }

  /** The helpers as functions that ask about a case; a question that nobody needs any more isn't asked. */
  asking(turn, about) {
    const one = (helper) => (task, what) => {
      return this.turn === turn ? helper.ask(task, what, about) : Promise.reject(new Error("stopped"));
    };
    return { engine: one(this.engine), checker: one(this.checker) };
  }

  /** The helper that the parts of an answer ask about its case: `ask(task, what)`. */
  askAbout({ about }) {
    return (task, what) => this.checker.ask(task, what, about);
  }

  async work() {
    const mine = (this.turn += 1), isMine = () => this.turn === mine;
    for (const helper of [this.engine, this.checker]) helper.stopIfSlow();
    const slow = setTimeout(() => isMine() && this.on.busy(true), BUSY), about = { number: mine };
    const { engine, checker } = this.asking(mine, about);
    try {
      const { kind, marks, measure } = this, typed = kind.pack?.(this.typed) ?? this.typed;
      const { isMarked } = this.typed, before = JSON.stringify(marks.spelling());
      const read = await engine("read", { id: kind.id, typed, mark: marks.entry, measure, isMarked });
      if (!isMine()) return;
      const reading = marks.take(read, this.isTyped);
      if (this.file) this.file.made ??= reading.text;
      if (JSON.stringify(marks.spelling()) !== before) return void this.changed(0); // for the notes, too
      Object.assign(this, { reading, judged: {}, isRead: true });
      this.carryOwn(reading);
      this.on.read();
      if (reading.facts) await this.ask(about, { engine, checker }, isMine);
      else this.withoutProgram(reading);
      if (isMine()) this.on.whole();
    } catch (fault) {
      if (isMine() && fault.message !== "stopped") this.on.fault(fault);
    } finally {
      clearTimeout(slow);
      if (isMine()) this.on.busy(false);
    }
  }

  async ask(about, helpers, isMine) {
    this.readProposal();
    const onPart = (result, came) => isMine() && this.answered(result, came);
    await askAll(this.reading, about, { ...helpers, onPart, wantsCore: this.wantsCore });
    if (isMine()) await this.judge();
  }

  /** If the program takes no such game, the page has calculated what it can; otherwise the cells aren't right. */
  withoutProgram({ isRight, beyond }) {
    if (isRight) this.proposal = proposalOf([], [], this.marks.beside());
    this.answered(isRight ? { beyond: calculated(beyond), points: [] } : null);
  }

  /** `came` says what of the answer is new: all, unless it is named. */
  answered(result, came) {
    this.result = result;
    this.isStale = false;
    this.on.answer(came);
  }

  stop() {
    this.turn += 1;
    this.engine.stop();
    this.checker.stop();
    this.on.busy(false);
    this.on.fault(new Error("Stopped. Change a number, or try again."));
  }

  // ---- The proposal

  /** Rows changed otherwise than by typing; `removed` is the place of the only one that went, if it is known. */
  moveRows(removed) {
    const { ownRows: rows, texts, todays } = this;
    if (removed === undefined || this.isMoved || !rows?.[removed]) this.isMoved = true;
    else this.takeOwn(withoutRow({ rows, texts, todays }, removed));
  }

  /** The user's own amounts go with their rows. */
  carryOwn({ rows: read, facts }) {
    const { ownRows: before, texts, todays, isMoved } = this;
    if (!read?.length) return;
    const rows = knownRows(read, facts, before ?? []);
    this.isAnew ||= isMoved;
    const fresh = this.isAnew && facts && before ? staying({ rows: before, texts }, rows) : [];
    this.ownStays = fresh.length ? fresh : this.ownStays.filter((name) => rows.some(({ label }) => label === name));
    this.isAnew &&= !facts; // until the cells are right
    this.isMoved = false;
    this.takeOwn({ rows, ...(before ? carried({ rows: before, texts, todays }, rows, !isMoved) : { texts, todays }) });
  }

  takeOwn({ rows, texts, todays, gone }) {
    Object.assign(this, { ownRows: rows, texts, todays }, gone && { ownSaid: gone });
  }

  /** What is divided; null while nobody knows. */
  whole() {
    const { whole, kind } = this.reading.facts ?? {};
    return whole === undefined || kind === "market" ? null : Rational.of(whole);
  }

  readProposal() {
    const canBe = this.reading.facts.kind !== "market";
    this.proposal = { canBe, ...proposalOf(this.texts, this.reading.rows, this.marks.beside(), this.whole()),
      ...this.judged };
  }

  /** `said` is told of a text that was pasted; `what` is the step, if it isn't typing. */
  setProposal(texts, said = "", what = "") {
    const own = textsOf(texts);
    if (!isSame(own, this.texts)) this.on.step(what || "Typing your division", !what);
    Object.assign(this, { ownSaid: said, ownStays: [], texts: own });
    this.judged = {};
    this.readProposal();
    this.on.answer("proposal");
    clearTimeout(this.judging);
    this.judging = setTimeout(() => this.judge().catch(this.on.fault), WAIT);
  }

  /** The answer that is kept to compare; null for none. No answer changes. */
  setPinned(pinned) {
    this.on.step(pinned ? "Keep this answer" : "Stop comparing");
    this.pinned = pinned;
    this.on.read();
    this.on.answer("pinned");
  }

  /** What each pays or has today, a text for each row; null where the user doesn't compare. No answer changes. */
  setTodays(texts, said = "", what = "") {
    const own = texts && textsOf(texts);
    if (!isSame(own, this.todays)) this.on.step(what || "Typing what each has", !what);
    Object.assign(this, { ownSaid: said, todays: own });
    this.on.answer("todays");
  }

  async judge() {
    const { result, turn, texts } = this, { shares } = this.proposal;
    if (!shares || !result || result.refusal || this.isStale) return; // the next answer has it judged
    const isMine = () => this.turn === turn && this.texts === texts;
    const { engine, checker } = this.asking(turn, result.about);
    try {
      const judged = await judge(result, shares, engine), [solution] = result.points;
      const isComparable = judged.verdict && !judged.verdict.sum && result.line;
      if (isComparable && isMine()) judged.comparison = await this.compared(checker, shares, solution);
      if (!isMine()) return;
      this.judged = judged;
      this.readProposal();
      this.on.answer("proposal");
    } catch (fault) {
      if (fault.message !== "stopped") throw fault;
    }
  }

  compared(checker, shares, solution) {
    return checker("compare", { divisions: [shares, solution.shares].map((list) => list.map(String)) });
  }
}
