// The grid of a table: the players, and a cell for each group, by size. Of many groups a page is shown at a time.
import { isBareName } from "../cases/bare-names.js";
import { blockOf, isNumbers } from "../cases/block.js";
import { NOTHING } from "../cases/filled-cells.js";
import { groupLabel, hasGroups, packed, unpacked, withoutPlayer, withPlayer } from "../cases/tables.js";
import { masksBySize, membersOf } from "../game/groups.js";
import { countText } from "../exact/decimals.js";
import { withEscapes } from "../game/names.js";
import { cellInput, moveByKeys, pasteCells, removal, removeByKey, showTips } from "./cells.js";
import { askAgain, askIn, button, cellOf, copy, el, refill, unask } from "./dom.js";
import { numbersIn } from "../cases/vectors.js";
import { plural } from "../game/words.js";
import { listAsked, namedGroups, placeOf } from "./lists-asked.js";
import { readIn } from "./mending.js";
import { askNames } from "./names-asked.js";
import { pasteBox } from "./paste-box.js";
import { showWays } from "./ways-to-fill.js";

const NAMED = { things: "players", numbers: "numbers" };
const MOST_WHOLE = 6; // players whose groups are all shown
const [PAGE, LONG] = [42, 30]; // groups of more players that are shown at a time; letters that need the whole width
const ASKED = "First say how the numbers are read: it is asked below.";
const UNSAID = { opened: undefined, isUnnamed: false, filled: undefined, coarse: undefined, isMarked: undefined };
const [WAIT, REFILL] = [150, 60000]; // milliseconds: from the last key to filling anew, for which the question waits
const SEVERAL = "A cell takes one number, and these lines have several, so nothing was pasted. Give a column of "
  + "numbers, or lines of a group and its number.";
const OTHER = "These aren’t as many numbers as groups from this cell on. Nothing was taken. Paste those of all groups "
  + "into the first cell, or lines of a group and its number.";
const SIZES = ["", "Alone", "Two together", "Three together", "Four together", "Five together", "Six together"];

/** `readList({text, names, order})` reads a pasted list, beside the page; `remember(what)` offers to undo it. */
export function tableGrid(kind, typed, settings) {
  return new TableGrid(kind, typed, settings).element;
}

class TableGrid {
  constructor(kind, typed, { readCells, ...settings }) {
    const { onChange, onCase, readList, help, mark, remember } = settings;
    Object.assign(this, { kind, typed, onChange, onCase, readList, help, mark, remember });
    const [players, pages, list, fills, tools] = ["players", "pages", "groups", "fills", "tools"].map((name) => {
      return el("div", { class: name });
    });
    this.message = el("div", { class: "note", role: "status" });
    Object.assign(this, { players, pages, tools, list, fills, start: 0, wanted: "" });
    this.element = el("div", {}, players, this.message, pages, list, fills);
    this.element.more = tools;
    this.element.setTips = (tips) => this.setTips(tips);
    this.element.tell = (reading) => this.tell(reading);
    this.order = masksBySize(typed.names.length);
    this.element.addEventListener("show-cell", ({ detail }) => this.showCell(detail));
    removeByKey(players);
    moveByKeys(list, (cell, step) => `numbers.${this.order[this.placeOf(cell) + step]}`);
    const door = { isLong: true, isSeveral: hasGroups, refuse: (fault) => this.say(fault, " Nothing was taken.") };
    pasteCells(list, (cell, rows, text) => this.paste(cell, rows, text), readCells, door);
    pasteCells(players, (cell, rows, text) => this.pasteNames(cell, rows, text), readCells, door);
    this.show();
    if (!askAgain(this, typed)) this.tellFilled();
  }

  /** Names take the place of those from a cell on, and of all of the worked example; any other text is a list. If they
   * go over others with numbers it is asked whether they are the same players (`isSame`). */
  pasteNames(cell, pasted, text, isSame) {
    const { rows, loose } = blockOf(pasted), cells = rows.length > 1 ? rows : rows[0].map((one) => [one]);
    const isName = ([name, other]) => !other && /^[^+=:|]*\p{L}[^+=:|]*$/u.test(name) && isBareName(name);
    const own = cells.filter((row) => row.some(Boolean)), { most } = this.kind, { typed } = this;
    if (loose || !own.every(isName)) return this.takeList(text);
    const isEmpty = ![...typed.names, ...typed.numbers].some(Boolean);
    const isNew = this.isExample() || isEmpty || isSame === false;
    const first = isNew ? 0 : Number(cell.split(".")[1]), before = typed.names.slice(first, first + own.length);
    if (isSame === undefined && !isNew && before.some(Boolean) && Array.from(typed.numbers).some(Boolean)) {
      this.element.again = (grid) => grid.pasteNames(cell, pasted, text);
      return askNames(this.element, this.message, NAMED, (isIt) => this.pasteNames(cell, pasted, text, isIt));
    }
    let next = isNew ? { names: [], numbers: [""], filled: undefined } : typed;
    if (first + own.length > most) return this.say(`A table has at most ${most} players. Nothing was taken.`);
    while (next.names.length < first + own.length) next = { ...next, ...withPlayer(next) };
    const names = this.ownNames().length ? [...next.names] : next.names.map(() => "");
    this.remember("Paste");
    own.forEach(([name], k) => (names[first + k] = name));
    this.change({ ...next, names });
    return this.say(`Taken as the names of ${plural(own.length, "player")}.`);
  }

  placeOf(cell) {
    return this.order.indexOf(Number(cell.split(".")[1]));
  }

  change(next, removed) {
    Object.assign(this.typed, next);
    this.filling = (this.filling ?? 0) + 1; // what is being filled is of the old table
    [this.order, this.start] = [masksBySize(this.typed.names.length), 0];
    this.show();
    this.onChange(undefined, removed);
  }

  show() {
    this.showPlayers();
    this.showGroups();
    this.showTools();
  }

  // ---- Players

  showPlayers() {
    const { names } = this.typed, isFull = names.length >= this.kind.most;
    const add = isFull ? el("span", { class: "hint" }, "16 players is the most.") : button("Add a player", () => {
      this.remember("Add a player");
      this.change(withPlayer(this.typed));
      cellOf(this.players, `names.${this.typed.names.length - 1}`)?.focus();
    }, { class: "quiet" });
    refill(this.players, el("span", { class: "field" }, "Players"), names.map((name, i) => this.player(name, i)), add);
  }

  player(name, i) {
    const input = cellInput({
      cell: `names.${i}`, value: name, label: `Name of player ${i + 1}`, placeholder: `Player ${i + 1}`,
      onInput: (text) => {
        this.typed.names[i] = text;
        this.showGroups();
        this.onChange();
      },
    });
    const { length } = this.typed.names, remove = length > 1 && removal(this.players, {
      label: `Remove ${withEscapes(name) || `player ${i + 1}`}`, title: "Remove this player, with all its groups",
      remove: () => this.remove(i), next: `names.${Math.min(i, length - 2)}`,
    });
    return el("span", { class: "player" }, input, remove);
  }

  /** The rest of the table stays. What all who stay cost was filled mostly, so it has to be typed. */
  remove(i) {
    this.remember(`Remove ${withEscapes(this.typed.names[i].trim()) || `player ${i + 1}`}`);
    this.change(withoutPlayer(this.typed, i), i);
    this.say();
    if (this.typed.filled.length) this.fillSplits(true);
  }

  // ---- Groups

  /** The groups that hold all players whose names are wanted. */
  found() {
    const words = this.wanted.toLowerCase().split(/[,+;]/).map((word) => word.trim()).filter(Boolean);
    if (!words.length) return this.order;
    const { names } = this.typed;
    const label = (name, i) => (name.trim() || `Player ${i + 1}`).toLowerCase();
    const ids = words.map((word) => names.findIndex((name, i) => label(name, i).startsWith(word)));
    return this.order.filter((mask) => ids.every((i) => i >= 0 && (mask >> i) & 1));
  }

  showGroups() {
    this.showFills();
    const bySize = new Map(), { names } = this.typed, isLong = (mask) => groupLabel(names, mask).length > LONG;
    for (const mask of this.found().slice(this.start, this.start + this.page())) {
      const count = membersOf(mask).length;
      bySize.set(count, [...(bySize.get(count) ?? []), mask]);
    }
    refill(this.list, [...bySize].map(([count, masks]) => [
      el("h3", {}, count === names.length ? "All together" : SIZES[count] ?? `${count} together`),
      el("ol", { class: count > 4 || masks.some(isLong) ? "long" : "" }, masks.map((mask) => this.groupRow(mask))),
    ]));
    this.list.classList.toggle("few", names.length <= 3);
    showTips(this.list, this.tips);
  }

  setTips(tips) {
    this.tips = tips;
    showTips(this.list, tips);
  }

  groupRow(mask) {
    const label = groupLabel(this.typed.names, mask), isFilled = this.typed.filled?.includes(mask);
    const input = cellInput({
      cell: `numbers.${mask}`, value: this.typed.numbers[mask] ?? "", isNumber: true,
      label: `${this.kind.what} of ${label}${isFilled ? ", filled by the page" : ""}`,
      onInput: (text) => {
        this.typed.numbers[mask] = text;
        input.classList.remove("filled");
        this.typedInto(mask);
      },
    });
    input.classList.toggle("filled", Boolean(isFilled));
    return el("li", {}, el("span", { class: "group" }, label), input);
  }

  /** Numbers that were filled follow those that are typed. */
  typedInto(mask) {
    const { filled = [] } = this.typed;
    this.showFills();
    this.filling = (this.filling ?? 0) + 1;
    this.typed.filled = filled.filter((other) => other !== mask);
    if (!filled.length) this.say();
    if (!filled.length) return this.onChange();
    this.onChange(REFILL);
    clearTimeout(this.refilling);
    this.refilling = setTimeout(() => this.fillSplits(true), WAIT);
    return undefined;
  }

  /** A column of numbers fills the cells below; any other text, and one for another number of players, is a list of the
   * whole table. */
  paste(cell, rows, text) {
    const place = this.placeOf(cell), count = this.order.length - place, isColumn = isNumbers(rows);
    const own = rows.filter((row) => row.some(Boolean)), kept = place === 0 && own.length === count ? own : rows;
    const isOver = kept.length > count || (this.isExample() && kept.length < count);
    if (place > 0 && !isColumn && numbersIn(text)) return this.say(SEVERAL);
    if (!isColumn || (isOver && place === 0)) return this.takeList(text);
    if (isOver || (place > 0 && this.isExample())) return this.say(OTHER);
    this.remember("Paste");
    if (place === 0 && kept.length === count) this.forgetExample();
    const masks = this.order.slice(place, place + kept.length);
    masks.forEach((mask, k) => (this.typed.numbers[mask] = kept[k].find(Boolean) ?? ""));
    const { filled = [] } = this.typed;
    this.typed.filled = filled.filter((mask) => !masks.includes(mask));
    this.showGroups();
    const isKept = this.order.slice(place + kept.length).some((mask) => this.typed.numbers[mask]);
    this.say(isKept && "The numbers below stay as they were.");
    return filled.length ? this.fillSplits(true) : this.onChange();
  }

  /** Names of the worked example, and what was done to the old numbers, don't stay with numbers that are pasted over
   * all of it. */
  forgetExample() {
    delete this.typed.coarse;
    if (this.ownNames().length) return;
    this.typed.names = this.typed.names.map(() => "");
    this.showPlayers();
  }

  // ---- Tools

  showTools() {
    refill(this.pages, this.typed.names.length > MOST_WHOLE && this.pager());
    refill(this.tools,
      pasteBox((text, order, close) => this.takeList(text, order, close)),
      button("Copy the list", (event) => copy(this.spreadsheet(), event.target), {
        class: "quiet", title: "With names, for a spreadsheet",
      }));
    this.showFills();
  }

  /** Ways to fill what is empty, as long as some group is, or was before the page filled it. */
  showFills() {
    const { kind, typed } = this, lone = this.emptyLone();
    const isEmpty = this.order.some((mask) => !(typed.numbers[mask] ?? "").trim());
    const ways = { isEmpty, isLone: lone.length > 0, isFilled: typed.filled?.length > 0, isCost: kind.isCost };
    showWays(this.fills, ways, { fillBy: (how) => this.fillBy(how), gainNothing: () => this.gainNothing() });
  }

  /** The players without a number alone. */
  emptyLone() {
    if (this.typed.names.length < 2) return [];
    return this.typed.names.map((_, i) => 1 << i).filter((mask) => !(this.typed.numbers[mask] ?? "").trim());
  }

  /** Players without a number alone gain 0, as the user says. */
  gainNothing() {
    this.remember(NOTHING);
    for (const mask of this.emptyLone()) this.typed.numbers[mask] = "0";
    this.showGroups();
    this.say();
    return this.typed.filled?.length ? this.fillSplits(true) : this.onChange();
  }

  fillBy(how) {
    if (this.isAsking) return this.say(ASKED);
    return this.fillSplits(false, how);
  }

  /** Numbers that were filled follow the answer to how the typed ones are read. */
  tell({ entry, isAsking }) {
    const isOther = this.entry !== undefined && this.entry !== entry && this.typed.filled?.length > 0;
    if (this.isAsking && !isAsking && this.message.textContent === ASKED) this.say();
    Object.assign(this, { entry, isAsking });
    if (isOther) this.fillSplits(true);
  }

  /** Fills the empty groups; `again` those that were filled before. */
  async fillSplits(again = false, how = this.typed.how) {
    const mine = (this.filling = (this.filling ?? 0) + 1), { filled } = this.typed;
    const isMarked = Boolean(this.typed.isMarked), costs = Boolean(this.kind.isCost);
    const what = { typed: packed(this.typed), mark: this.mark(), costs, filled, how, again, isMarked };
    const { state, filled: fresh, notes, above = [], fault } = await this.help("fillSplits", what);
    if (mine !== this.filling) return;
    if (state && !again) this.remember("Fill the empty ones");
    if (state) Object.assign(this.typed, unpacked(state), { filled: fresh, how });
    this.showGroups();
    this.say(fault ?? notes.join(" "), namedGroups(above));
    this.onChange(0);
  }

  /** Of a case that was opened with filled groups it is told how, and which are dearer than larger ones. */
  async tellFilled() {
    const { filled, how } = this.typed, costs = Boolean(this.kind.isCost), mark = this.mark();
    if (!filled?.length) return;
    const mine = (this.filling = (this.filling ?? 0) + 1);
    const what = { typed: packed(this.typed), mark, costs, filled, how, again: true };
    const { notes = [], above = [] } = await this.help("fillSplits", what);
    if (mine === this.filling) this.say(notes.join(" "), namedGroups(above));
  }

  /** How many groups are shown at a time. */
  page() {
    return this.typed.names.length > MOST_WHOLE ? PAGE : this.order.length;
  }

  pager() {
    const masks = this.found(), last = Math.floor(Math.max(0, masks.length - 1) / PAGE) * PAGE;
    const turn = (by) => () => this.go(Math.max(0, Math.min(this.start + by, last)));
    const find = el("input", {
      type: "search", value: this.wanted, placeholder: "names, with commas", "data-cell": "find", maxlength: 200,
      "aria-label": "Show groups with these players",
      on: { input: (event) => {
        this.wanted = event.target.value;
        this.go(0);
      } },
    });
    const end = Math.min(this.start + PAGE, masks.length), all = countText(masks.length);
    return el("span", { class: "pager" },
      el("label", {}, "Groups with ", find),
      button("‹", turn(-PAGE), { "aria-label": "Groups before", disabled: this.start === 0 }),
      el("span", {}, masks.length ? `${this.start + 1}–${end} of ${all}` : "none"),
      button("›", turn(PAGE), { "aria-label": "Groups after", disabled: this.start >= last }),
      button("First empty one", () => this.firstEmpty(), { class: "quiet" }));
  }

  go(start) {
    this.start = start;
    this.showGroups();
    this.showTools();
  }

  firstEmpty() {
    const place = this.order.findIndex((mask) => !(this.typed.numbers[mask] ?? "").trim());
    if (place < 0) return this.say("No group is empty.");
    this.wanted = "";
    this.go(Math.floor(place / this.page()) * this.page());
    return cellOf(this.list, `numbers.${this.order[place]}`)?.focus();
  }

  /** Turns to the page of a group. */
  showCell(cell) {
    const place = this.placeOf(cell);
    if (!cell.startsWith("numbers.") || place < 0) return;
    this.wanted = "";
    this.go(Math.floor(place / this.page()) * this.page());
  }

  spreadsheet() {
    const { names, numbers } = this.typed;
    return `${this.order.map((mask) => `${groupLabel(names, mask)}\t${numbers[mask] ?? ""}`).join("\n")}\n`;
  }

  /** Takes a list, and then `close`s where it was pasted. */
  async takeList(text, order = "size", close = null, said = {}) {
    if (close) this.element.dispatchEvent(new CustomEvent("pasted-text", { detail: null })); // it is mended in its box
    this.say("Reading the list …");
    const what = { text, names: this.ownNames(), order, said: { ...said, isCost: Boolean(this.kind.isCost) } };
    const found = await this.readList(what), { state, told, isOdd } = found;
    this.element.again = (grid) => grid.takeList(text, order, null, said);
    const use = (more) => () => (more.goTo ? readIn(more.goTo, text, { grid: this.element, onCase: this.onCase })
      : this.takeList(text, order, close, { ...said, ...more }));
    const [asked, ...answers] = listAsked(found, this.kind, said) ?? [];
    const way = ([title, more]) => [" ", button(title, use(more), { class: "quiet" })];
    if (asked) return askIn(this.element, this.message, [`Nothing was taken yet. ${asked}`, answers.map(way)]);
    if (!state) return this.say(found.fault, " Nothing was taken.");
    close?.();
    this.remember(said.what ?? (close ? "Use this list" : "Paste"));
    this.change({ ...unpacked(state), ...UNSAID, amounts: state.amounts });
    const { names, numbers } = this.typed, lacking = this.order.filter((mask) => !numbers[mask]).length;
    const rest = lacking ? `; ${plural(lacking, "group has", "groups have")} no number` : "";
    return this.say(`Read${told ? { size: " by size", mask: " by masks" }[told.order] : ""}: `
      + `${plural(names.length, "player")}, ${plural(this.order.length - lacking, "group")}${rest}.`
      + `${found.remark ?? ""}${told ? placeOf(told, names) : ""}`,
    isOdd && this.otherOrder(text, told.order), found.way && way(found.way));
  }

  /** A hint that the list may stand in the other order. */
  otherOrder(text, order) {
    const [other, title] = order === "size" ? ["mask", "by masks"] : ["size", "by size"];
    const what = `Read it ${title}`, read = () => this.takeList(text, other, null, { what });
    return [" So read, some group has a lesser number than a smaller one within it; in the other order none has. ",
      button(what, read, { class: "quiet" })];
  }

  /** The names, but for those of the worked example, which are nobody's. */
  ownNames({ names } = this.typed) {
    return names.join("\n") === this.kind.example().names.join("\n") ? [] : names;
  }

  isExample() {
    const given = this.kind.example(), textOf = (some) => Array.from(some).join("\n");
    return ["names", "numbers"].every((key) => textOf(given[key]) === textOf(this.typed[key]));
  }

  say(...parts) {
    unask(this.element, /nothing was/i.test(parts.join(" ")));
    refill(this.message, parts);
  }
}
