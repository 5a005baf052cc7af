// The page: puts its parts together.
import { caseText } from "../cases/case-file.js";
import { caseNamed } from "../cases/cases.js";
import { coarseOfSums, coarserStill } from "../cases/coarse.js";
import { costs } from "../cases/tables.js";
import { agreedColumn } from "./agreed.js";
import { AnswerView } from "./answer-view.js";
import { casePanel } from "./case-panel.js";
import { Documents } from "./documents.js";
import { takeDrops } from "./drops.js";
import { el, measureByCanvas, refill } from "./dom.js";
import { holdClicks } from "./held.js";
import { unpackWorkers } from "./helper.js";
import { marginsOf, tipOf } from "./margins-part.js";
import { takeText } from "./mending.js";
import { Paper } from "./paper.js";
import { changedCells, keptTree, pinOfTree } from "./pinned.js";
import { Session } from "./session.js";
import { demo } from "./demo.js";
import { startCards } from "./start.js";
import { Steps } from "./undo.js";
import { verifyPanel } from "./verify.js";
import { showPart, showView, viewOfAddress, watchAnswer, watchParts } from "./views.js";

const at = (id) => document.getElementById(id);
const OPENED = "Open a document";
const WAYS = { round: "Round all to four decimals", whole: "All times a power of ten" };
const kept = new Map(); // what was typed in cases that aren't shown

const unsaved = new Set(); // cases that were changed since they were saved or opened

let panel = null, verify = null, steps = new Steps();

measureByCanvas();

const session = new Session({
  stale: () => view.stale(),
  read: () => {
    panel.tell(session.reading);
    view.showFiles(panel.made);
    view.showWaiting(session.reading, panel);
    verify.beside(session.reading.text ?? null);
    view.fit();
    doHeld(true);
  },
  answer: (came) => {
    view.show(came);
    if (!came || came === "margins") panel.setTips(tipsOf());
  },
  whole: () => doHeld(),
  busy: (isBusy) => view.busy(isBusy),
  fault: (fault) => view.fault(fault),
  step: (what, isTyping) => {
    unsaved.add(session.kind);
    if (isTyping) panel.undo.typing(what);
    else panel.undo.remember(what);
  },
});
const view = new AnswerView(session);
const paper = new Paper(session, view);
const doHeld = holdClicks(session);

/** What is said of the numbers in the cells; null while nobody knows. */
function tipsOf() {
  const found = session.result && !view.isHidden ? marginsOf(session.result, session) : null;
  return found && ((cell) => tipOf(cell, found, session.format()));
}

// ---- Cases

/** Opens a case. `past` are its steps that can be undone, `notes` are said above the grid; `paper` is what was typed
 * below the answer, as the heading; among the settings, `file` is that of its game. */
function openCase(kind, typed, { past = new Steps(), notes = [], doubt = "", paper, ...settings } = {}) {
  if (session.kind) kept.set(session.kind, { ...nowTyped(), past: steps });
  steps = past;
  session.open(kind, typed, { ...settings, doubt });
  at("desk").classList.remove("wide");
  view.clear(paper);
  panel = casePanel(kind, typed, {
    ...asked(kind), steps, notes: doubt ? [doubt, ...notes] : notes,
    onChange: (wait, { isTyped, isDropped, removed }) => {
      session.isTyped = true;
      unsaved.add(kind);
      view.takeUnit(isTyped || isDropped);
      if (isTyped) session.ownSaid = "";
      else session.moveRows(removed);
      session.changed(wait);
    },
    onWide: (isWide) => at("desk").classList.toggle("wide", isWide),
    onReset: (next, what, how) => reset(kind, next, what, how),
    onUndo: (isRedo) => undo(kind, isRedo), onCase: show,
    snapshot: () => structuredClone(cellsNow()),
    coarsen: (how) => coarsen(kind, how),
    asTable: (table, said) => {
      const coarse = coarseOfSums(typed.coarse, typed.names.length);
      const { isTyped } = session, before = kept.get(costs)?.past?.past.at(-1);
      const past = replaced(costs, "Make a table of costs"), gone = past.past.at(-1) !== before && REPLACED;
      const notes = [...said, gone, keptText(kind)].filter(Boolean);
      openCase(costs, { ...table, coarse }, { notes, doubt, isTyped, past });
    },
  });
  at("case-title").textContent = kind.title;
  refill(at("case-body"), panel.element);
  view.showUntaken();
  showView(kind.id);
}

/** Other cells for those of a case, as a step. `how` says how far the case stays the same: with all beside its cells,
 * and if only names changed ("named"), with each of the own amounts in its row. */
function reset(kind, next, what, how) {
  const { file, typed, ...same } = structuredClone(cellsNow()), { paper, places } = nowTyped();
  unsaved.add(kind);
  steps.add(what, how ? { file, typed, ...same } : { file, typed, ...same, paper, places });
  openCase(kind, next, { ...(how && { ...same, paper, places, isMoved: how !== "named" }), past: steps });
  view.takeUnit(false);
}

/** What a case asks for: marks, workers, and itself as a file. */
function asked(kind) {
  return {
    changed: () => session.pinned && changedCells(session.pinned.typed, session.typed),
    mark: () => session.marks.ofCells(), setEntry: (mark) => session.setEntry(mark),
    setMeasure: (measure) => session.setMeasure(measure),
    readList: (what) => session.reader.ask("readList", { ...what, mark: session.marks.ofCells() }),
    readCells: (text) => session.reader.ask("readCells", { text }),
    help: (task, what) => session.reader.ask(task, what),
    caseText: () => {
      const { pinned, reading, marks } = session, kept = pinned ? keptTree(pinned, session.typed) : undefined;
      const { shown: mark, thousands } = marks, { text, settled } = reading, entry = settled ?? reading.entry;
      unsaved.delete(kind);
      const { typed } = view, sheet = { ...typed, agreed: agreedColumn(session, typed)?.key };
      return caseText({ ...nowTyped(), paper: sheet, kind, kept, mark, thousands, entry, text });
    },
  };
}

/** Undoes a step, or does it again. Within a case it brings back the cells: heading, unit and decimals stay. */
function undo(kind, isRedo) {
  const { paper, places } = nowTyped(), { marks } = cellsNow();
  const cells = steps.go(isRedo, (old) => ({ ...structuredClone(cellsNow()), ...(old.paper && { paper, places }) }));
  const shown = marks.isChosen && !cells.paper ? { marks } : {}; // what was chosen under Options stays
  const then = { ...(cells.paper ?? paper), pastedUnit: cells.pastedUnit };
  openCase(kind, cells.typed, { places, ...cells, ...shown, paper: then, past: steps });
}

/** The steps of a case whose cells are replaced; where nothing stood there but its worked example, it is none. */
function replaced(kind, what) {
  const { past = new Steps(), ...old } = session.kind === kind ? { ...nowTyped(), past: steps } : kept.get(kind) ?? {};
  if (old.typed && JSON.stringify(old.typed) !== JSON.stringify(kind.example())) past.add(what, old);
  return past;
}

const REPLACED = "What stood here before is replaced: “Undo” brings it back.";
const keptText = ({ title }) => `Your case “${title}” is kept as it is: go to “All cases”, and choose it there.`;

/** What becomes of the cells that stood there before a document was opened: "" where nobody had typed any. */
function whereBefore(kind, past, before) {
  if (past.past.at(-1) !== before) return REPLACED;
  const { kind: other, isTyped } = session;
  return isTyped && other && other !== kind ? keptText(other) : "";
}

/** Makes the numbers of a case coarser, as the user chose, or gives a fault in words. */
async function coarsen(kind, how) {
  const { typed } = session, before = structuredClone(cellsNow()), { paper, places } = nowTyped();
  const what = { id: kind.id, typed: kind.pack?.(typed) ?? typed, mark: session.marks.ofCells(), how };
  const { typed: changed, coarse: fresh, fault } = await session.reader.ask("coarser", what);
  if (fault || session.typed !== typed) return fault;
  const next = { ...typed, ...(kind.unpack?.(changed) ?? changed), coarse: coarserStill(typed.coarse, fresh) };
  const { file, ...same } = before, none = how === "whole" ? { texts: [], pinned: null, todays: null } : {};
  steps.add(WAYS[how], before);
  openCase(kind, next, { ...same, ...none, paper, places, past: steps }); // other amounts are of the old numbers
  return undefined;
}

/** What stands in the cells of the case that is shown. */
function cellsNow() {
  const { typed, measure, texts, todays, pinned, doubt, file, isTyped, ownRows, isMoved, marks } = session;
  return {
    typed, measure, texts, todays, pinned, entry: marks.entry, doubt, file, isTyped, ownRows, isMoved,
    marks: marks.kept(), pastedUnit: view.typed.pastedUnit,
  };
}

/** The same with the decimals, and what was typed below the answer. */
function nowTyped() {
  return { ...cellsNow(), places: session.places, paper: view.typed };
}

/** Shows a part of the page; a case as it was left. What was typed is the game that a line is checked by at first. */
function show(name) {
  const kind = caseNamed(name), { isTyped, reading } = session, isOwn = reading?.text && !view.still;
  if (name === "verify") verify.fromCase(isOwn ? { ...reading, title: session.kind.title, isTyped } : null);
  if (kind && session.kind !== kind) openCase(kind, kept.get(kind)?.typed ?? kind.example(), kept.get(kind));
  else showView(name);
  view.fit();
}

// ---- What happens to the page as a whole

/** A table that is pasted beside all fields is for the case that is shown. */
function takeBeside(event) {
  const { target, clipboardData, defaultPrevented } = event, text = clipboardData?.getData("text/plain").trim() ?? "";
  const isBeside = document.body.dataset.view === "case" && !target.closest?.("input, textarea, select");
  if (defaultPrevented || !isBeside || !/[\t\n;,]/.test(text)) return;
  event.preventDefault();
  takeText(text);
}

/** Gives a text that was dropped to the case that is shown, or tells why there is none. Whether a case is shown. */
function toCase(text, fault) {
  const isShown = document.body.dataset.view === "case";
  if (isShown && fault) panel.say(fault);
  else if (isShown) takeText(text);
  return isShown;
}

/** What nobody has foreseen is told in a sentence, and what was typed stays. */
function tellUnforeseen() {
  const tell = (event) => {
    event.preventDefault();
    if (event.reason?.message === "stopped") return;
    console.error(event.error ?? event.reason);
    refill(at("busy"), el("span", { class: "bad" }, "Something went wrong in this page. What you typed is still here: ",
      "save the document, and open the page anew."));
  };
  addEventListener("error", tell);
  addEventListener("unhandledrejection", tell);
}

function listen() {
  for (const home of document.querySelectorAll("[data-home]")) home.addEventListener("click", () => show(""));
  document.addEventListener("click", (event) => {
    const link = event.target.closest?.("[data-part], [data-show]");
    if (!link) return;
    event.preventDefault();
    if (link.dataset.part) showPart(link.dataset.part);
    else show(link.dataset.show);
  });
  watchAnswer();
  watchParts();
  at("case").addEventListener("untaken", () => view.showUntaken());
  const seeUnit = (text) => view.seeUnit(text ?? "");
  at("case").addEventListener("paste", ({ clipboardData: data }) => seeUnit(data?.getData("text/plain")), true);
  at("case").addEventListener("take-text", ({ detail }) => seeUnit(detail.text), true);
  addEventListener("paste", takeBeside);
  let width = innerWidth;
  addEventListener("resize", () => {
    if (innerWidth !== width && session.result) {
      view.show();
      for (const one of document.querySelectorAll("#answer .scroll")) one.scrollLeft = 0; // the first columns in sight
    }
    width = innerWidth;
  });
  addEventListener("beforeprint", () => paper.before());
  addEventListener("afterprint", () => paper.after());
  addEventListener("popstate", () => show(viewOfAddress()));
  addEventListener("beforeunload", (event) => unsaved.size && event.preventDefault());
}

/** The example of the start: asked for when the start is seen. */
function beginDemo() {
  const example = demo({
    helpers: session, spelling: () => session.marks.spelling(),
    onOpen: (typed) => openCase(costs, structuredClone(typed), { past: replaced(costs, "Open this example") }),
  });
  refill(at("demo"), example.element);
  if (!viewOfAddress()) example.start();
}

function begin() {
  tellUnforeseen();
  refill(at("cards"), startCards({
    onCase: (kind) => show(kind.id), onDocument: () => show("document"), onCheck: () => show("verify"),
  }));
  const documents = new Documents({
    mark: () => session.marks.usual(), onLine: (text, from) => verify.setLine(text, from),
    onTable: (id, text) => (show(id), takeText(text)),
    onOpen: (kind, typed, settings) => {
      const { kept: tree, ...others } = settings, pinned = tree ? pinOfTree(tree, typed) : null;
      const before = (session.kind === kind ? steps : kept.get(kind)?.past)?.past.at(-1);
      const past = replaced(kind, OPENED), notes = [...others.notes, whereBefore(kind, past, before)].filter(Boolean);
      openCase(kind, typed, { ...others, pinned, isFile: true, past, notes });
      unsaved.delete(kind);
    },
  });
  verify = verifyPanel({
    format: (facts) => session.format(facts),
    onOpen: (text, doubt, from) => documents.open(text, { doubt, isChecked: true, from }),
    onPrint: () => paper.print("check"),
  });
  refill(at("verify-body"), verify.element);
  takeDrops({
    toLine: (text, from) => (show("verify"), verify.setLine(text, from)),
    toDocument: (text, from) => (show("document"), documents.open(text, { from })), toCase,
  });
  listen();
  session.places = 2;
  session.warmUp();
  beginDemo();
  if (viewOfAddress()) show(viewOfAddress());
  at("page-code").remove(); // its packed text isn’t needed any more
}

unpackWorkers().then(begin);
