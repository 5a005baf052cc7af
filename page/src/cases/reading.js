// Reads what a person typed into the cells of a case, and keeps what is wrong, cell by cell.
import { bytesOf } from "../game/words.js";
import { lcm } from "../exact/rational.js";
import { cellNumber, countText, shortText, Shown, thousandsIn } from "../exact/decimals.js";
import { isMark, MARKS, otherMark } from "../exact/marks.js";
import { moneyIn } from "../exact/money.js";
import { LIMITS } from "../game/classes.js";
import { isTime, UNKNOWN } from "./columns.js";
import { remarksOf, withEscapes } from "../game/names.js";

const MOST_SCALE = BigInt(LIMITS.denominator);
const MOST = 2n ** BigInt(LIMITS.bits), MOST_NAME = LIMITS["bytes of a name"];
const MOST_TOLD = 3; // numbers that are worked out, of which that is told
const MOST_SHOWN = 40; // letters of what is no number
const MOST_KEPT = 200; // faults that are kept with their cells; of the others only the number

const DATE = /^\s*(0\d\/\d{1,2}|\d{1,2}\/0\d)\s*$/;

const LARGE = /\d\s*(?:k|t|m|mn|mio|mia|tsd|bn|million(?:en|s)?|thousand|tausend)\.?\s*(?:\p{Sc}|[a-z]{3})?$/iu;

/** What to write in the place of some texts. */
function hintOf(text) {
  if (/^[-–—] ?\p{Sc}?$|^(nil|zero|none|null|keine?)$/iu.test(text)) return " Write 0, or remove it.";
  if (isTime(text)) return " It is a time or a date. Write the number, or paste the column that has it.";
  if (UNKNOWN.test(text)) return " Write the number, or clear the cell.";
  if (/^[\d.,]+ ?%$/.test(text)) return " Write the amount, or a product such as 1/4 * 1000.";
  if (LARGE.test(text)) return " Write it out, as 1 200 000, or leave the word away in all cells.";
  return /\d/.test(text) ? " Write the number alone, without words and signs."
    : " Write a number: 0, if there is none.";
}

/** All cells are read by one mark: where some show which, that one settles those that can be read both ways, unless the
 * user chose how these are read, by a `mark` of none or of both. `read(mark)` gives {reading, ..}. */
export function byOneMark(read, mark) {
  const first = read(mark), settled = first.reading.settles();
  const isSettled = first.reading.doubts.size > 0 && settled !== null && isMark(mark);
  return isSettled && settled !== mark ? read(settled) : first;
}

export class Reading {
  /** `opened` are the names of a document in whose cells nothing was typed yet; `isUnnamed` says that it has none. */
  constructor(mark, { opened = [], isUnnamed = false, beside, amounts } = {}) {
    Object.assign(this, { mark, opened: new Set(opened), isUnnamed });
    this.faults = []; // {cell, sentence}
    this.count = 0; // of faults
    this.empty = { count: 0, first: null }; // cells that are empty and may not be
    this.doubts = new Map(); // of numbers that the decimal mark decides, by how they were read: the first, and how many
    this.thousands = new Set(); // signs between thousands
    this.shown = new Shown(amounts); // of marks that stand in front of decimals
    if (beside) this.shown.add(beside.text, { by: beside.mark }); // of a column that was pasted with these
    this.money = undefined; // which the first number names that names one
    this.asked = null; // a row that may be the sum of the others: {r, name}
    this.mixed = null; // a number that would have decimals, though it hardly looks so: {typed, proof, count, value}
    this.unsure = null; // a number that can be read both ways, where nothing shows which: {typed, ways, count}
    this.isUneven = false; // whether some number shows its mark by other than three decimals
    this.either = null; // a whole number that is one by both marks, as 5.000: {typed, ways}, each [value, mark]
    this.isOpen = false; // whether the grid itself has a question
    this.part = null; // a quota in per cent that may be a rounded fraction: {cell, typed, text, ways}
    this.rest = null; // a part of votes that are per cent and not all: {cell, typed, ways}, each [all, least]
    this.notes = []; // what was changed for the program, and what is remarkable
    this.numbers = [];
    this.texts = new Map();
  }

  /** What a text is read as. Tables have many cells with the same text, so it is kept. */
  known(typed) {
    if (!this.texts.has(typed)) {
      const found = cellNumber(typed, this.mark), { value, by, isWorkedOut } = found;
      if (value && !isWorkedOut) this.thousands.add(thousandsIn(typed, found));
      if (by && !new RegExp(`\\${by}\\d{3}\\D*$`).test(typed)) this.isUneven = true;
      if (value && isWorkedOut) this.tellWorkedOut(typed, value);
      this.texts.set(typed, found);
    }
    return this.texts.get(typed);
  }

  /** Of the first few each by itself. */
  tellWorkedOut(typed, value) {
    this.workedOut = (this.workedOut ?? 0) + 1;
    if (this.workedOut <= MOST_TOLD) {
      this.notes.push(`“${withEscapes(typed.trim())}” is worked out: ${shortText(value)}.`);
    } else if (this.workedOut === MOST_TOLD + 1) this.notes.push("So are others like it.");
  }

  fault(cell, sentence) {
    this.count += 1;
    if (this.faults.length < MOST_KEPT) this.faults.push({ cell, sentence });
    return null;
  }

  /** Whether a cell is still empty, or something is asked of those that are read: before that no sum is known. */
  isAsking(isMarked) {
    this.askOfMixed(isMarked);
    this.askOfUnsure(isMarked);
    return Boolean(this.asked || this.mixed || this.unsure || this.empty.count);
  }

  /** The value of a cell, or null; `hint` says what to write instead. What the page `isFilled` with is in no doubt. */
  number(cell, typed, what, { canBeNegative = false, isFilled = false, hint = "" } = {}) {
    const { value, fault, doubt, by } = this.known(typed);
    if (doubt && !isFilled) this.doubt(doubt, typed, value);
    this.shown.add(typed, { by, doubt: isFilled ? undefined : doubt });
    if (fault === "is empty") return this.open(cell);
    if (DATE.test(typed)) return this.fault(cell, `${what} looks like a date: “${typed.trim()}”.`);
    if (fault) {
      const text = typed.trim().replace(/\s+/g, " ");
      const short = text.length > MOST_SHOWN ? `${text.slice(0, MOST_SHOWN)}…` : text;
      const shown = fault === "is no number" ? `: “${withEscapes(short)}”` : "";
      return this.fault(cell, `${what} ${fault}${shown}.${hint}${hintOf(text)}`);
    }
    if (value.isNegative() && !canBeNegative) {
      const read = /^\(/.test(typed.trim()) ? `: “${typed.trim()}” is ${shortText(value)}` : "";
      return this.fault(cell, `${what} can’t be negative${read}.`);
    }
    const money = moneyIn(typed);
    if (money && this.money && money !== this.money) {
      return this.fault(cell, `${what} is in ${money}, and another number in ${this.money}.`);
    }
    this.money ??= money;
    this.numbers.push({ cell, value, what });
    return value;
  }

  /** A cell that is empty and may not be. */
  open(cell) {
    this.empty.count += 1;
    this.empty.first ??= cell;
    return null;
  }

  doubt(how, typed, value) {
    const known = this.doubts.get(how) ?? { how, typed, value: String(value), count: 0 };
    this.doubts.set(how, known);
    known.count += 1;
    if (/0\D*$/.test(typed)) known.isRound = true;
  }

  /** Where numbers as 90,000 would be read with decimals, and others show the mark by other than three of them, or show
   * both marks, it is asked what they are, unless the user said it. */
  askOfMixed(isMarked) {
    const odd = this.doubts.get("decimals"), { marks } = this.shown, [proof] = marks.values(), isClash = marks.size > 1;
    if (isMarked || !odd || !proof || !(isClash || (odd.isRound && this.isUneven))) return;
    this.mixed = { ...odd, proof, whole: String(cellNumber(odd.typed, "").value) };
  }

  /** Where numbers can be read both ways, as 1.200, and nothing shows which, it is asked, unless the user said it. */
  askOfUnsure(isMarked) {
    const [doubt] = this.doubts.values();
    if (isMarked || !doubt || this.shown.proofs(this.mark).size || this.either || !isMark(this.mark)) return;
    const ways = MARKS.map(([mark]) => [cellNumber(doubt.typed, mark).value, mark]);
    ways.sort(([one], [other]) => other.abs().compare(one.abs())); // the whole number first, be it negative
    const count = [...this.doubts.values()].reduce((all, one) => all + one.count, 0);
    this.unsure = { typed: doubt.typed, count, ways: ways.map(([value, mark]) => [String(value), mark]) };
  }

  /** The one mark that all other numbers show; null where none does, or both stand there. */
  settles() {
    return this.shown.settles(this.mark);
  }

  /** A whole number. One as 1.234 that would have decimals shows that its mark parts thousands; of one as 5.000, which
   * is whole in both ways, the other numbers say what it is, or the user is asked (`askOfEither`). */
  whole(cell, typed, what, low, high) {
    const { value, fault, doubt, by } = this.known(typed), isWhole = value?.isWhole();
    if (fault === "is empty") return this.open(cell);
    if (doubt) this.doubt(doubt, typed, value);
    if (doubt && !this.either) this.either = eitherOf(typed);
    const shown = doubt ? this.markOfWhole(typed, isWhole) : by;
    this.shown.add(typed, { by: shown, doubt }, false);
    if (!isWhole) return this.fault(cell, `${what} is a whole number.${value ? "" : hintOf(typed)}`);
    const number = value.toNumber();
    if (number >= low && number <= high) return number;
    return this.fault(cell, `${what} is from ${low} to ${countText(high)}.`);
  }

  /** The mark that a whole number shows, by which alone it is whole; none if it is whole by both. */
  markOfWhole(typed, isWhole) {
    if (!isWhole) return otherMark(/[.,]/.exec(typed)[0]);
    const other = isMark(this.mark) && cellNumber(typed, otherMark(this.mark)).value;
    return other && !other.isWhole() ? this.mark : undefined;
  }

  /** Where a whole number is one by both marks, no other number shows which comes before decimals, and the user
   * hasn't said it (`isMarked`), it is asked. */
  askOfEither({ isMarked }) {
    if (isMarked || this.settles() !== null || !isMark(this.mark)) this.either = null;
  }

  /** A name as it counts: that of a document to the letter, else without blanks around it, of composed letters. */
  nameOf(typed = "") {
    return this.opened.has(typed) ? typed : typed.trim().normalize("NFC");
  }

  /** The names for the document; none for one that was opened without, as long as nobody typed one. */
  named(names, typed) {
    return this.isUnnamed && !typed.some((text) => text?.trim()) ? {} : { names };
  }

  /** Names, each with its cell; an empty one is the word with its number, or, in a list with names, still open. */
  names(cells, word, { isNamed = false, isList = false } = {}) {
    const names = cells.map(({ typed, fallback }, i) => this.nameOf(typed) || (fallback ?? `${word} ${i + 1}`));
    const first = new Map();
    for (const { typed, cell } of isNamed ? cells : []) if (!typed.trim()) this.open(cell);
    names.forEach((name, i) => {
      if (bytesOf(name) > MOST_NAME) {
        this.fault(cells[i].cell, `A name has at most ${MOST_NAME} letters (${MOST_NAME / 2} with accents).`);
      }
      const isTwice = first.has(name) && !isList;
      if (isTwice) this.fault(cells[i].cell, `The name “${withEscapes(name)}” occurs twice.`);
      else first.set(name, i);
    });
    this.remark(names);
    return names;
  }

  remark(names) {
    this.notes.push(...remarksOf(names));
  }

  /** What the program asks of all numbers together: one denominator, and sizes below a limit. */
  close() {
    let scale = 1n;
    for (const { cell, value, what } of this.numbers) {
      if (scale % value.den) scale = lcm(scale, value.den);
      if (scale > MOST_SCALE) {
        this.isTooFine = true;
        return this.fault(cell, `${what} is too fine: with the others it needs a common denominator above 65,536. `
          + "Up to four decimals always fit.");
      }
    }
    for (const { cell, value, what } of this.numbers) {
      if ((value.abs().num * scale) / value.den >= MOST) {
        return this.fault(cell, `${what} is too large: with its decimals it may have about twelve digits.`);
      }
    }
    this.version = scale > 1n ? { version: 2n } : {};
    return null;
  }

  /** What keeps the program from being asked and is no slip, as in a list that isn't whole yet. */
  pause(note) {
    this.isPaused = true;
    this.notes.push(note);
  }

  isRight() {
    return !this.isOpen && !this.count && !this.empty.count && !this.asked && !this.either && !this.mixed
      && !this.unsure && !this.part && !this.rest && !this.isPaused;
  }
}

/** What a text is by each mark, the lesser number first; null where it isn't whole by both. */
function eitherOf(typed) {
  const ways = MARKS.map(([mark]) => [cellNumber(typed, mark).value, mark]);
  if (!ways.every(([value]) => value.isWhole())) return null;
  ways.sort(([one], [other]) => one.compare(other));
  return { typed, ways: ways.map(([value, mark]) => [String(value), mark]) };
}
