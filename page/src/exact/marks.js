// The decimal mark: what one is, what texts show of it, and by which numbers are read and shown. With it goes the sign
// between thousands, by which nothing is read.

/** The usual sign between thousands: a narrow blank, so that it is no decimal mark. */
export const BLANK = "\u202f";

const POINT = ".", COMMA = ",", NAMES = { [POINT]: "point", [COMMA]: "comma" };

/** How numbers are read that can be read both ways, if the user says that no mark comes before decimals, or each. */
export const WHOLE = "";
export const DECIMALS = POINT + COMMA;

/** The marks to choose from, each with its name. */
export const MARKS = Object.entries(NAMES);

/** How numbers are spelled in sentences, as those of the answer are; each worker is told. Who asks Node may want so
 * many places of each, and a unit behind it. On the page, `addsUp`, shares are rounded as in its table. */
export const spoken = { mark: POINT, thousands: BLANK, places: null, unit: "", addsUp: false };

/** Whether it is one of the two, and not a way to read numbers against both. */
export const isMark = (text) => text === POINT || text === COMMA;

export const nameOfMark = (mark) => NAMES[mark];

export const otherMark = (mark) => (mark === POINT ? COMMA : POINT);

/** The one mark that these show beyond doubt; null if they show none, or both. */
export function onlyMark(marks) {
  const shown = new Set([...marks].filter(Boolean));
  return shown.size === 1 ? [...shown][0] : null;
}

/** By which mark the numbers of a reading are written: the one that they show, or else the one they were read by. */
export const writtenBy = ({ settled, mark }) => settled ?? mark;

/** Whether a number of a game has five digits before its decimals. */
export function isLong({ whole, single, amounts, alone, worths, rows }) {
  const digits = (text) => Number((text ?? "0").split("/")[0]) / Number((text ?? "1").split("/")[1] ?? 1);
  return [whole, single, amounts, alone, worths, rows].flat(2).some((text) => Math.abs(digits(text)) >= 10000);
}

/** The marks of the page and its case: by which numbers are shown, and by which those are read that don't show it. */
export class Marks {
  /** `own` is that of the user's system. */
  constructor(own) {
    Object.assign(this, { own, last: own, chosen: null, shown: own, isChosen: false });
    this.open({});
  }

  /** A case is opened. `mark`, `thousands` and `entry` are those of a saved case, `entry` also of the cells before a
   * step, and `before` how the case was shown when it was left. One without any follows the last; a file doesn't. */
  open({ isFile = false, mark, entry, thousands = null, before = null }) {
    const saved = before?.saved ?? thousands;
    Object.assign(this, { saved, thousands: saved, isLong: false }); // the sign that numbers show; are some long
    this.shown = before?.shown ?? mark ?? (isFile ? this.usual() : this.chosen ?? this.last);
    this.isChosen = before?.isChosen ?? Boolean(mark ?? this.chosen); // by the user, or in the file
    this.entry = entry ?? (isFile ? this.shown : this.own); // by which the next reading is made
    this.isFresh = isFile;
    this.reading = null;
    this.speak();
  }

  /** How numbers are shown. A sign between thousands that is the decimal mark now gives way to the usual one. Four
   * digits are parted beside longer ones, in all that is told of a case. */
  spelling(isLong = this.isLong) {
    const isClear = this.thousands && this.thousands !== this.shown;
    return { mark: this.shown, thousands: isClear ? this.thousands : BLANK, least: isClear || isLong ? 3 : 4 };
  }

  speak() {
    Object.assign(spoken, this.spelling(), { addsUp: true });
  }

  /** The user chooses by which numbers are shown. */
  choose(mark) {
    this.isChosen = true;
    this.chosen = this.shown = mark;
    this.speak();
  }

  /** The user says by which those are read that can be read both ways: numbers are shown by it, too. */
  enter(mark) {
    this.entry = mark;
    if (isMark(mark) && !this.isChosen) this.shown = this.last = mark;
  }

  /** How the case is shown, to be so again. */
  kept() {
    const { shown, isChosen, saved } = this;
    return { shown, isChosen, saved };
  }

  /** Takes over what a reading says of its marks, and returns the reading: numbers are then shown as the cells show it,
   * by their mark until the user chooses one. The next case follows those that are typed (`isTyped`). */
  take(reading, isTyped) {
    const { settled, doubts } = reading, isOpen = this.isFresh && settled === null && !doubts?.length;
    this.isFresh = false;
    if (isOpen) this.entry = this.shown; // no cell of a file shows one, so all beside them is read by what is shown
    this.isTyped = isTyped;
    this.reading = isOpen ? { ...reading, entry: this.shown, mark: this.shown } : reading;
    if (!this.isChosen && settled) this.shown = settled;
    if (!this.isChosen && isTyped && settled) this.last = settled;
    this.thousands = reading.thousands ?? this.saved;
    if (reading.facts) this.isLong = isLong(reading.facts);
    this.speak();
    return this.reading;
  }

  /** By which a file is opened that shows none. */
  usual() {
    return this.chosen ?? this.own;
  }

  /** By which the cells were read: what the user chose for those that can be read both ways, or one mark. */
  ofCells() {
    return this.reading?.entry ?? this.entry;
  }

  /** By which numbers beside the cells are read: the mark that the cells show, unless they are a worked example. */
  beside() {
    const { settled, mark } = this.reading ?? { settled: null, mark: this.own };
    return (this.isTyped ? settled : null) ?? mark;
  }
}
