// The grid of a list: a runway, an estate, a vote. A row is added while the last one is filled.
import { NONE, UNKNOWN } from "../cases/columns.js";
import { isClause } from "../cases/clauses.js";
import { partedInLine } from "../cases/in-line.js";
import { withoutLack } from "../cases/lack-row.js";
import { SPOILT } from "../cases/pasting.js";
import { isProse, sheetOf } from "../cases/sheets.js";
import { withoutSum } from "../cases/sum-row.js";
import { readNumber } from "../exact/decimals.js";
import { withEscapes } from "../game/names.js";
import { cellInput, moveByKeys, pasteCells, removal } from "./cells.js";
import { askAgain, askIn, button, el, refill, unask } from "./dom.js";
import {
  askBroken, askClause, askHead, askPair, offersOf, stillText, unsay, withoutGone,
} from "./list-offers.js";
import { askNames } from "./names-asked.js";

const ROWS = "rows."; // what the cells of the list are called by
const NAMED = { things: "names", numbers: "numbers" }, MOST_HEAD = 40; // letters of a heading

export function listGrid(kind, typed, settings) {
  return new ListGrid(kind, typed, settings).element;
}

class ListGrid {
  constructor(kind, typed, { mark, onChange, readCells, remember }) {
    Object.assign(this, { kind, typed, mark, onChange, remember });
    [this.head, this.body] = [el("thead"), el("tbody")];
    this.tools = el("div", { class: "singles" });
    this.keys = [...kind.columns, ...(kind.second ? [kind.second.column] : [])].map(({ key }) => key);
    const table = el("table", { class: "grid list" }, this.head, this.body);
    this.said = el("div", { class: "hint pasted", role: "status" });
    this.element = el("div", {}, this.tools, el("div", { class: "scroll" }, table), this.said);
    this.element.more = el("p", { class: "tools" });
    moveByKeys(table, (cell, step) => {
      const [, r, key] = cell.split(".");
      return `rows.${Number(r) + step}.${key}`;
    });
    const isSeveral = (rows, cell) => cell.startsWith(ROWS)
      && (partedInLine(rows).isParted || isProse(rows) || (kind.isVote && rows.some(isClause)));
    const first = `${ROWS}0.${this.keys[0]}`; // of what is pasted over the estate or a quota
    const fill = (cell, rows) => this.fill(cell.startsWith(ROWS) ? cell : first, rows);
    pasteCells(this.element, fill, readCells, { isSeveral, refuse: (why) => this.say(`${why} Nothing was taken.`) });
    this.showSingles();
    this.show();
    if (!askAgain(this, typed)) this.offerAgain();
  }

  /** The columns that are shown. */
  columns() {
    return this.allColumns().filter((column) => !column.optional || this.hasColumn(column));
  }

  allColumns() {
    const { typed, kind: { columns, second } } = this;
    return typed.secondQuota === undefined ? columns : [...columns, second.column];
  }

  /** The title of a column: of second votes their heading, if they were pasted below one. */
  headOf({ key, title }) {
    return key === "second" && this.typed.secondHead ? withEscapes(this.typed.secondHead) : title;
  }

  /** An optional column is there where the user wants it, or where a cell of it is filled. */
  hasColumn({ key }) {
    return this.typed.more?.includes(key) || this.typed.rows.some((row) => row[key]?.trim());
  }

  blank() {
    return Object.fromEntries(this.keys.map((key) => [key, ""]));
  }

  isBlank(row) {
    return this.columns().every(({ key }) => !(row[key] ?? "").trim());
  }

  show() {
    const { rows } = this.typed;
    if (this.kind.columns.some(({ optional }) => optional)) this.showSingles();
    if (!rows.length || !this.isBlank(rows.at(-1))) rows.push(this.blank());
    this.head.parentElement.classList.toggle("more", this.columns().some(({ optional }) => optional));
    const headOf = (one) => el("th", { scope: "col", class: one.number ? "number" : "" }, this.headOf(one));
    refill(this.head, el("tr", {}, this.columns().map(headOf), el("td", { class: "tool" })));
    refill(this.body, rows.map((row, r) => this.rowOf(row, r)));
  }

  rowOf(row, r) {
    const { rows } = this.typed, canGo = rows.length > 1 && !(this.isBlank(row) && r === rows.length - 1);
    const remove = canGo && removal(this.body, { label: `Remove row ${r + 1}`, remove: () => {
      this.remember(`Remove ${withEscapes((row.name ?? "").trim()) || `row ${r + 1}`}`);
      const place = rows.slice(0, r).filter((one) => !this.isBlank(one)).length;
      rows.splice(r, 1);
      this.show();
      this.onChange(undefined, place);
    }, next: `rows.${r}.${this.keys[0]}` });
    const cells = this.columns().map((column) => this.cellIn(row, r, column));
    return el("tr", { class: this.isBlank(row) ? "blank" : "" }, cells, el("td", { class: "tool" }, remove));
  }

  cellIn(row, r, column) {
    const byType = column.key === "name" && (row.type ?? "").trim(); // without airlines each type is one
    const named = column.placeholder && !this.typed.isNamed && (byType || `${column.placeholder} ${r + 1}`);
    return el("td", { class: column.wide ? "wide" : column.short ? "short" : "" }, cellInput({
      cell: `rows.${r}.${column.key}`, value: row[column.key] ?? "", isNumber: column.number,
      label: `${this.headOf(column)}, row ${r + 1}`, placeholder: this.isBlank(row) ? "" : named || this.greyOf(column),
      onInput: (text) => {
        const wasBlank = this.isBlank(row), isLast = r === this.typed.rows.length - 1;
        row[column.key] = text;
        const isGiven = this.begin(row, column, wasBlank);
        if (column.grey) this.showGrey(column);
        if (wasBlank || isGiven || (this.isBlank(row) && isLast)) this.show();
        this.onChange();
      },
    }));
  }

  /** What an empty cell counts as, as long as all of its column are empty. */
  greyOf({ key, grey = "" }) {
    return this.typed.rows.some((row) => row[key]?.trim()) ? "" : grey;
  }

  showGrey({ key, grey }) {
    for (const input of this.body.querySelectorAll(`[data-cell$=".${key}"]`)) {
      input.placeholder = this.greyOf({ key, grey });
    }
  }

  /** A row that begins gets what its columns begin with, and loses that where nothing else is left in it. Whether such
   * a cell changed. */
  begin(row, column, wasBlank) {
    const columns = this.columns(), given = columns.filter(({ fallback }) => fallback);
    const others = columns.filter(({ fallback }) => !fallback);
    const isLeft = !column.fallback && others.every(({ key }) => !(row[key] ?? "").trim());
    const before = given.map(({ key }) => row[key] ?? "");
    for (const { key, fallback } of given) {
      if (isLeft && row[key] === fallback) row[key] = "";
      else if (wasBlank && !isLeft && !row[key]?.trim()) row[key] = fallback;
    }
    return given.some(({ key }, k) => row[key] !== before[k]);
  }

  /** Takes what was pasted into a cell; `said` has what the user said of its columns. Names are for the first column,
   * wherever they are pasted. */
  fill(cell, pasted, said = { choice: {}, out: [] }) {
    const [, r] = cell.split("."), { sheet, first } = this.sheetIn(cell, pasted, said), { single } = this.kind;
    if (!sheet) return;
    const other = this.kind.refusal?.(pasted) ?? sheet.fault;
    const fault = other ?? (first ? this.wordsFault(pasted, this.columns()[first]) : undefined);
    if (fault) return this.say(`${fault} Nothing was taken.`);
    const most = this.kind.most * 4, count = sheet.rows?.length ?? 0;
    if (count > most) return this.say(`These are ${count} rows, and at most ${most} fit. Nothing was taken.`);
    const use = (more) => this.fill(cell, pasted, more);
    this.element.again = (grid) => grid.fill(cell, pasted, said);
    if (sheet.asked) return this.askWhich(sheet.asked, said, use);
    const old = single && this.typed[single.key], isOther = sheet.number && old !== sheet.number;
    const isOpen = !isOther || said.amount || this.isOpen(single.key), kept = this.keptOf(sheet);
    if (said.isSame === undefined && this.isOver(sheet, Number(r))) {
      this.say("");
      return askNames(this.element, this.said, NAMED, (isSame) => use({ ...said, isSame }));
    }
    if (!isOpen && kept !== "none") return this.askSingle(single.title, [old, sheet.number], said, use);
    this.remember("Paste");
    if (!isOpen) sheet.notes.push(`${single.title} was ${old} before.`);
    if (said.isSame === false) this.emptied(Number(r), count);
    this.take({ ...sheet, number: said.amount ?? sheet.number, kept }, Number(r));
    this.typed.offered = { cell, pasted, said, told: this.said.textContent };
    return this.offerOf(sheet, this.typed.offered);
  }

  /** What a pasted text is in the columns from that of a cell on, the `first`; no sheet where the cell is gone. */
  sheetIn(cell, pasted, said) {
    const [, , key] = cell.split("."), columns = this.columns(), place = columns.findIndex((one) => one.key === key);
    if (place < 0) return {};
    const isName = (text) => /\p{L}/u.test(text) && !SPOILT.test(text) && readNumber(text).fault;
    const first = pasted.slice(1).some((row) => row.length > 1 && row.some(isName)) ? 0 : place;
    const { single } = this.kind, own = first ? columns.slice(first) : this.allColumns();
    const sheet = sheetOf(pasted, own, {
      mark: this.mark(), usual: columns.slice(first), isFirst: !first, ...said,
      single: single?.heads && { ...single, second: this.kind.second },
    });
    if (!sheet.rows) return { sheet, first };
    const known = single && !this.isOpen(single.key) ? this.typed[single.key] : undefined;
    const whole = withoutLack(sheet, known);
    return { sheet: { ...whole, ...withoutSum(whole) }, first };
  }

  /** Offers what a text says beside its rows, until that is used or other rows come. */
  offerOf(sheet, { cell, pasted, said }) {
    this.offers = offersOf(this, sheet, said, (more) => this.fill(cell, withoutGone(pasted, sheet, this.typed), more));
    return this.showOffers();
  }

  /** The same of cells that were shown before, as behind a question that took a row out, or behind Undo. */
  offerAgain() {
    const { offered } = this.typed, { sheet } = offered ? this.sheetIn(offered.cell, offered.pasted, offered.said) : {};
    if (!sheet?.rows) return;
    this.said.textContent = offered.told;
    this.offerOf(sheet, offered);
  }

  /** Why words alone don’t go into a column of numbers. */
  wordsFault(pasted, { number, title }) {
    const texts = pasted.flat().filter(Boolean), isBegun = (text) => /^\P{L}*[\d?]/u.test(text);
    const isWord = (text) => !isBegun(text) && readNumber(text).fault && !UNKNOWN.test(text);
    const words = `These are no numbers, and this column is “${title}”. Paste names into the first column.`;
    return number && texts.every(isWord) ? words : undefined;
  }

  /** Whether names alone, below the first row, go over others with numbers. */
  isOver({ rows, targets }, r) {
    const [{ key }] = this.kind.columns, hasMore = (row) => this.keys.some((one) => one !== key && row[one]?.trim());
    const isAlone = targets.some((own) => own?.key === key) && targets.every((own) => !own || own.key === key);
    const over = this.typed.rows.slice(r, r + rows.length);
    return r > 0 && isAlone && !this.isExample() && over.some((row) => row[key]?.trim() && hasMore(row));
  }

  /** Empties some rows, whose numbers aren’t of the names that come. */
  emptied(r, count) {
    const { rows } = this.typed;
    for (let k = r; k < Math.min(r + count, rows.length); k++) rows[k] = this.blank();
  }

  /** What was offered goes when it is done. */
  showOffers() {
    for (const { isStill, element } of this.offers ?? []) if (!isStill()) refill(element);
  }

  /** The quotas above the list, one or two; none of the worked example votes by them. */
  setQuotas([quota, other]) {
    const { typed } = this;
    this.remember("The quotas");
    if (this.isExample()) typed.rows = [];
    if (this.element.classList.contains("asks")) this.say(""); // of clauses alone
    typed.quota = quota;
    if (other) typed.secondQuota = other;
    this.showSingles();
    this.showOffers();
    this.show();
    this.onChange();
  }

  /** Whether pasted rows are "all" those that are here, by their names, "some" of them, or "none". */
  keptOf({ rows, targets }) {
    const [{ key }] = this.kind.columns, at = targets.findIndex((target) => target?.key === key);
    const namesOf = (list) => list.map((name) => (name ?? "").trim()).filter(Boolean).sort();
    const old = namesOf(this.typed.rows.map((row) => row[key])), names = namesOf(rows.map((row) => row[at]));
    if (names.join("\n") === old.join("\n")) return "all";
    return at < 0 || names.some((name) => old.includes(name)) ? "some" : "none";
  }

  /** Asks which estate is meant, the one above the list or the one in pasted rows of the same people. */
  askSingle(title, [own, other], said, use) {
    const way = (text, where) => button(`${withEscapes(text)}, ${where}`, () => use({ ...said, amount: text }), {
      class: "quiet",
    });
    this.say("");
    askIn(this.element, this.said, [`Nothing was taken yet. ${title} has one amount above, and another in these rows. `
      + "Which is it? ", way(own, "as above"), " ", way(other, "as pasted")]);
  }

  /** Whether nothing of the user's stands in the cell above the list. */
  isOpen(key) {
    return !this.typed[key].trim() || (this.isExample() && this.typed[key] === this.kind.example()[key]);
  }

  /** Asks which of several pasted columns is meant; `use` takes the list by what is said then. */
  askWhich({ heads, pair, clause, broken, column: { key, title } = {}, at = [], isOnly, canNone }, said, use) {
    if (heads) return askHead(this, heads, (isHead) => use({ ...said, isHead }));
    if (clause) return askClause(this, clause);
    if (broken) return askBroken(this, broken, (isBroken) => use({ ...said, isBroken }));
    if (pair) return askPair(this, pair, said, use);
    const { choice, out } = said;
    const others = (own) => (isOnly ? at.map(({ c }) => c).filter((c) => c !== own) : []);
    const say = (c) => ({ ...said, choice: { ...choice, [key]: c }, out: [...out, ...others(c)] });
    const way = (text, c) => button(text, () => use(say(c)), { class: "quiet" });
    const shown = ({ head, texts }) => `“${withEscapes(head || texts.slice(0, 2).join(", "))}${head ? "" : " …"}”`;
    const both = () => {
      this.remember("Two quotas");
      this.turnDouble();
      use(said);
    };
    const isTwo = this.kind.second && this.typed.secondQuota === undefined && key === "votes" && at.length > 1;
    this.say("");
    askIn(this.element, this.said, [`Nothing was taken yet. Which column is “${title}”? `,
      at.map((one) => [way(shown(one), one.c), " "]),
      isTwo && button("Both, with two quotas", both, { class: "quiet" }), canNone && way("None", NONE)]);
  }

  /** A list with names that begins in the first row is the case; and nothing of the worked example stays beside it. */
  take({ rows, targets, headings, notes, number, other, asks, isPercent, kept, beside, amounts }, at) {
    const { kind, typed } = this, isExample = this.isExample();
    const hasNames = targets.some((target) => target?.key === kind.columns[0].key), r = isExample && hasNames ? 0 : at;
    const isFree = (row) => targets.every((own) => !row[own?.key]?.trim()), isBlank = (row) => this.isBlank(row);
    const isNew = !typed.rows.every(isBlank) && typed.rows.every(isFree); // columns beside what is there
    const isWhole = r === 0 && (isExample || (hasNames && !isNew && (headings || rows.length > 1)));
    const isOther = (row, k) => !this.isBlank(row) && (isWhole || k >= r + rows.length);
    const isOver = !isExample && !(isWhole && kept === "all") && typed.rows.some(isOther)
      && (isWhole ? `The rows before are gone (Undo).${stillText(this, number)}` : "The rows below stay as they were.");
    if (isWhole) this.leave(isExample);
    Object.assign(typed, { ...asks, notTwice: false, beside, amounts, ...(kind.isVote && { isPercent }) });
    if (number) typed[kind.single.key] = number;
    if (other) typed[kind.second.single.key] = other;
    const head = headings?.[targets.findIndex((own) => own?.key === "second")];
    if (head) typed.secondHead = head.slice(0, MOST_HEAD);
    const filled = rows.map((row, k) => {
      const target = (typed.rows[r + k] ??= this.blank());
      row.forEach((text, c) => targets[c] && (target[targets[c].key] = text));
      if (hasNames && !target.name) target.name = row.find((text, c) => !targets[c] && /\p{L}/u.test(text)) ?? "";
      return target;
    });
    this.say([...notes, isOver, ...this.complete(filled, targets)].filter(Boolean).join(" "));
    this.showSingles();
    this.show();
    this.onChange();
  }

  /** Says what became of a pasted list; a column or line that was left out, or nothing taken, is seen at once. */
  say(text) {
    const isRefused = /Nothing was/.test(text);
    unask(this.element, isRefused);
    this.said.textContent = withEscapes(text);
    this.said.classList.toggle("warn", isRefused);
  }

  /** What wasn't pasted begins as a typed row does, and that is told; a list with names has them in each row. */
  complete(filled, targets) {
    const isPasted = ({ key }) => targets.some((target) => target?.key === key), [{ key }] = this.kind.columns;
    if (isPasted({ key }) && filled.some((row) => row[key])) this.typed.isNamed = true;
    return this.columns().filter((column) => column.fallback && !isPasted(column)).map((column) => {
      const open = targets.some(Boolean) ? filled.filter((row) => !row[column.key]?.trim()) : [];
      for (const row of open) row[column.key] = column.fallback;
      const put = `${column.fallback} was put into each of its open cells.`;
      return open.length > 0 && `No “${column.title}” were pasted: ${put}`;
    });
  }

  /** Whether nothing stands in the rows but the worked example. */
  isExample() {
    const { columns } = this.kind, told = (rows) => JSON.stringify(rows.filter((row) => !this.isBlank(row))
      .map((row) => columns.map(({ key }) => row[key] ?? "")));
    return told(this.typed.rows) === told(this.kind.example().rows);
  }

  /** Nothing of another list counts beside one that takes its place: no row, nothing that was said of it, and of the
   * worked example no estate or quota. */
  leave(isExample) {
    const { typed, kind } = this, { key } = kind.single ?? {};
    Object.assign(typed, { rows: [], isPasted: true });
    const own = ["notSums", "notWhole", "coarse", "isMarked", "isNamed", "offered", "secondHead"];
    for (const said of own) delete typed[said];
    if (isExample && key && typed[key] === kind.example()[key]) typed[key] = "";
  }

  // ---- The number above the list: the estate, a quota, or two

  showSingles() {
    const { kind, typed } = this, isDouble = typed.secondQuota !== undefined;
    const way = isDouble ? "Only one quota" : "Two quotas at once";
    const turn = button(way, () => this.turnDouble(), { class: "quiet" });
    refill(this.tools, kind.single && this.single(kind.single), isDouble && this.single(kind.second.single));
    refill(this.element.more, kind.second && turn,
      kind.columns.filter((column) => column.optional).map((column) => this.moreOf(column)));
  }

  /** From one quota to two, and back. */
  turnDouble() {
    if (this.typed.secondQuota === undefined) this.typed.secondQuota = "";
    else delete this.typed.secondQuota;
    this.showSingles();
    this.showOffers();
    this.show();
    this.onChange();
  }

  /** The way to an optional column, as long as it isn't there. */
  moreOf({ key, title }) {
    return !this.hasColumn({ key }) && button(`Add a column “${title}”`, () => {
      this.typed.more = [...(this.typed.more ?? []), key];
      this.showSingles();
      this.show();
    }, { class: "quiet" });
  }

  single({ key, title, help }) {
    return el("label", { class: "single" }, el("span", { class: "field" }, title), cellInput({
      cell: key, value: this.typed[key], isNumber: true, label: title,
      onInput: (text) => {
        this.typed[key] = text;
        unsay(this, key);
        this.showOffers();
        this.onChange();
      },
    }), el("span", { class: "hint" }, help));
  }
}
