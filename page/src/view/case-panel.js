// The panel of a case: its grid, what is wrong with it, and the document that it makes.
import { fileNames } from "../cases/coarse.js";
import { coarseNumbers, coarseText } from "../tell/coarse-text.js";
import { writtenBy } from "../exact/marks.js";
import { plural } from "../game/words.js";
import { questions } from "./case-questions.js";
import { markFaults, markOdds, showTips } from "./cells.js";
import { button, cellOf, copy, download, el, refill } from "./dom.js";
import { shown } from "./files.js";
import { landingsList } from "./landings-list.js";
import { listGrid } from "./list-grid.js";
import { marketGrid } from "./market-grid.js";
import { networkGrid } from "./network-grid.js";
import { numbered, shortened, withNames } from "../cases/mended-names.js";
import { mendIn } from "./mending.js";
import { markChanged } from "./pinned.js";
import { tableGrid } from "./table-grid.js";
import { Undoing } from "./undo.js";
import { dropText } from "./untaken.js";

const MOST_FAULTS = 6;
const DECIDES = "The answer rests on these numbers. How far off the others may be, “What if” says.";
const GRIDS = { list: listGrid, market: marketGrid, network: networkGrid, table: tableGrid };
const KEYS = { player: "Alt+Delete in a name removes the player.", row: "Alt+Delete in a row removes it." };

/** `settings` are {mark, setEntry, notes, onReset, steps, snapshot, onUndo, onCase} and what the grids
 * need. */
export function casePanel(kind, typed, settings) {
  const unread = el("div", { class: "screen", role: "alert" }); // why a file can't be
  const sample = sampleLine(kind, typed, settings), change = settings.onChange, undo = new Undoing(settings);
  let grid = null, mend = null; // while they are made, cells may change
  const onChange = (wait, removed) => {
    for (const gone of [sample, unread]) refill(gone);
    const isDropped = grid !== null && dropText(grid);
    change(wait, { isTyped: undo.changed(), isDropped, removed });
    mend?.();
  };
  const { onReset, notes = [] } = (settings = { ...settings, onChange });
  grid = GRIDS[kind.grid](kind, typed, { ...settings, remember: (what) => undo.remember(what) });
  mend = mendIn(grid, kind, settings);
  const faults = el("div", { class: "faults", role: "status" }), made = el("div", { class: "made" });
  const coarse = el("div"), legend = el("p", { class: "hint legend screen" });
  const element = el("div", { class: "case" },
    el("p", { class: "help" }, kind.help), sample, unread,
    notes.map((note) => el("p", { class: "note" }, note)), coarse, grid, legend, faults,
    el("div", { class: "tools bottom" }, moreTools(kind, typed, grid.more, onReset), undo.element));
  undo.watch(element);

  /** Shows what the reading of the cells says. */
  function tell(reading) {
    grid.tell?.(reading);
    markFaults(grid, reading.faults);
    markOdds(grid, reading.odds ?? []);
    markChanged(grid, settings.changed?.());
    refill(coarse, coarseNote(typed, settings));
    refill(faults, toldOf(reading, grid, { kind, typed, settings }));
    refill(made, madeOf(reading, kind, typed, settings));
  }

  const say = (sentence) => refill(unread, el("p", { class: "note" }, sentence));
  return {
    element, tell, say, made, undo, goTo: (cell) => goTo(grid, cell), choices: () => grid.choices?.(),
    setTips: (tips) => showDeciding(grid, legend, tips),
  };
}

/** What is said and asked of the cells. */
function toldOf(reading, grid, { kind, typed, settings }) {
  const { notes, odds = [], isTooFine } = reading;
  return [
    notes.map((note) => el("p", { class: "note" }, note)), questions(reading, typed, settings),
    emptyCells(reading, kind, grid), faultList(reading, grid), nameHelp(reading, typed, settings),
    oddList(odds, grid, () => settings.onReset(lowered(typed, odds), "Lower the links", true)),
    isTooFine && finenessHelp(settings),
  ];
}

/** The document that a case makes, or the list of more landings than a document has. */
function madeOf(reading, kind, typed, settings) {
  const { text, beyond } = reading;
  if (text) return documentOf(kind, text, typed, settings);
  return beyond?.points && landingsList(typed, beyond, writtenBy(reading));
}

/** Marks the numbers on which the answer rests, and says what the mark means. */
function showDeciding(grid, legend, tips) {
  (grid.setTips ?? ((some) => showTips(grid, some)))(tips);
  const dot = el("span", { class: "dot", "aria-hidden": "true" });
  const said = grid.setTips ? ` ${DECIDES}` : el("span", { title: DECIDES }, " decides the shares");
  refill(legend, tips && [dot, said]);
}

function moreTools(kind, typed, others, onReset) {
  const reset = (title, next) => button(title, () => onReset(next(), title), { class: "quiet" });
  return el("details", { class: "inline more-tools" }, el("summary", {}, "More for the cells"),
    el("p", { class: "hint keys" }, kind.isTable ? KEYS.player : KEYS.row), el("div", { class: "tools" }, others,
      reset("Clear all", () => cleared(kind, typed)), reset("Fill in the worked example", () => kind.example())));
}

/** What the cells hold before anybody has typed, and what to do with them; gone with the first change. */
function sampleLine(kind, typed, { onReset }) {
  const isFilled = (row) => Object.values(row).some(Boolean); // a list has an empty row below
  const own = ({ rows, ...others }) => JSON.stringify([others, rows?.filter(isFilled)]);
  const is = (other) => own(typed) === own(other);
  const empty = () => onReset(cleared(kind, typed), "Clear all");
  return el("div", { class: "sample screen" }, is(kind.example()) && [
    el("b", {}, "Worked example."), " Type over it, paste your own table into any cell, or ",
    button("start empty", empty, { class: "link" }), "."],
  is(cleared(kind, typed)) && "Fill in the cells, or paste a table from a spreadsheet into any of them.");
}

/** A vote by two quotas stays one, and a market by limit prices. */
function cleared(kind, { secondQuota, limits }) {
  if (limits) return kind.emptyLimits();
  return { ...kind.empty(), ...(secondQuota === undefined ? {} : { secondQuota: "" }) };
}

/** A way out for names that occur twice, or are too long. */
function nameHelp({ faults }, typed, { onReset }) {
  const isTwice = faults.some(({ sentence }) => sentence.includes("occurs twice"));
  const isLong = faults.some(({ sentence }) => sentence.startsWith("A name has at most"));
  const way = (title, change) => button(title, () => onReset(withNames(typed, change), title, "named"),
    { class: "quiet" });
  return (isTwice || isLong) && el("p", { class: "tools" },
    isTwice && way("Number the names that occur twice", numbered), isLong && way("Shorten the long names", shortened));
}

function faultList({ faults, count }, grid) {
  if (!count) return null;
  const items = faults.slice(0, MOST_FAULTS).map(({ cell, sentence }) => {
    return el("li", {}, button(sentence, () => goTo(grid, cell), { class: "fault" }));
  });
  return el("ul", {}, items, count > MOST_FAULTS && el("li", {}, `and ${count - MOST_FAULTS} more`));
}

function oddList(odds, grid, onLower) {
  if (!odds.length) return null;
  const isLower = odds.some(({ lower }) => lower);
  const items = odds.map(({ cell, sentence }) => {
    return el("li", {}, button(sentence, () => goTo(grid, cell), { class: "fault gentle" }));
  });
  const asked = odds.length > 1 ? "Are these numbers right?" : "Is this number right?";
  return el("div", { class: "note asked" }, el("p", {}, asked), el("ul", { class: "odds" }, items),
    isLower && el("p", { class: "tools" }, button("Lower them to the cheapest way", onLower, { class: "quiet" })));
}

/** The links with the ways in the place of dearer ones. */
function lowered(typed, odds) {
  const links = { ...typed.links }, filled = { ...typed.filled };
  for (const { cell, lower } of odds) {
    const key = cell.split(".")[1];
    [links[key], filled[key]] = [lower, "way"];
  }
  return { ...typed, links, filled };
}

/** Goes to a cell, also to one on another page of the groups. */
function goTo(grid, cell) {
  if (!cellOf(grid, cell)) grid.dispatchEvent(new CustomEvent("show-cell", { detail: cell }));
  const input = cellOf(grid, cell);
  input?.focus();
  input?.select?.();
}

/** Two ways for numbers with too many decimals, as other programs give them. */
function finenessHelp({ coarsen }) {
  const said = el("span", { role: "status" });
  const way = (title, how) => button(title, async () => refill(said, (await coarsen(how)) ?? ""), { class: "quiet" });
  return el("p", { class: "tools" }, way("Round all to four decimals", "round"),
    way("All times a power of ten, as whole numbers", "whole"), said);
}

function emptyCells({ empty: { count, first } }, { isNetwork }, grid) {
  if (count > 0 && isNetwork && grid.querySelector(".no-link").open) {
    return el("p", { class: "hint" }, `${plural(count, "cell is", "cells are")} still empty. If such a link can’t be `,
      "built, choose above what a group without it does.");
  }
  const said = `${plural(count, "cell is", "cells are")} still empty. Go to the first.`;
  return count > 0 && button(said, () => goTo(grid, first), { class: "fault gentle" });
}

function documentOf(kind, text, { coarse }, { caseText }) {
  const { game: file } = fileNames(kind.id, coarse), numbers = coarse && coarseNumbers(coarse);
  return el("div", {},
    el("p", { class: "tools" },
      button("Save the case", () => download(`${kind.id}-case.json`, caseText()), { class: "main" })),
    el("p", { class: "hint screen" }, "Open it here later and go on: it keeps the cells as you typed them, what the ",
      "page filled in, the decimal mark, the heading, the unit, your own division, and the answer that you kept to ",
      "compare."),
    el("p", { class: "tools" },
      button(`Save the document${numbers ? ` (${numbers})` : ""}`, () => download(file, `${text}\n`), {
        class: "quiet",
      }),
      button("Copy it", (event) => copy(text, event.target), { class: "quiet", "aria-label": "Copy the document" })),
    el("p", { class: "hint screen" }, "The program reads the document. It holds the numbers only."),
    coarse && el("p", { class: "note" }, `${coarseText(coarse)} The document holds only the ${numbers}, and has no `,
      `place to say so: the file is named ${file}, and this page says so when it is opened under that name. Under `,
      "another name nobody can see it. A saved case holds it."),
    shown("The document that this makes", text));
}

/** What was done to all numbers, for as long as they are these. */
function coarseNote(typed, { onChange }) {
  const other = () => {
    delete typed.coarse;
    onChange(0);
  };
  return typed.coarse && el("p", { class: "note" }, coarseText(typed.coarse), " ",
    button("These are other numbers now", other, { class: "quiet" }));
}
