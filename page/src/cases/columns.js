// Which column of ours each pasted one is for: by its heading, and otherwise by what stands in it. If several could be
// one, the user has to say which.
import { readNumber } from "../exact/decimals.js";

/** What says that nobody knows a number. */
export const UNKNOWN = new RegExp("^(\\?+|n/?a|n\\.a\\.|k\\. ?a\\.|[-–—]|unknown|pending|open|offen|unbekannt|inconnue?"
  + "|tb[acd]|not (?:yet )?(?:known|asked|costed|quoted|given|available)|no (?:quote|figure|data)|missing|fehlt"
  + "|to be (?:costed|quoted|agreed|confirmed|determined)"
  + "|keine angabe|nicht (?:bekannt|angefragt)|pas de devis|non (?:connue?|chiffrée?))$", "iu");
const NUMBERING = /(^|\s)(no|nr|num|number|nummer|id|ref|lp|pos)\.?$|[#№]/iu; // what numbers things is no amount
/** The choice of a column that wasn’t pasted. */
export const NONE = -1;

const TIME = /^(?:\d{1,2}[:h]\d\d(?::\d\d)?(?:\s?[ap]\.?m\.?|\s?Uhr)?|\d{1,2}\s?(?:[ap]\.?m\.?|Uhr))$/iu;
const DATE = /^(?:\d{1,2}[./-]\d{1,2}[./-](?:\d\d)?\d\d|\d{4}-\d\d-\d\d)$/;
const MAIL = /^\S{1,80}@\S{1,80}\.\p{L}{2,}$/u;
/** Whether a text is a time or a date, and no amount. */
export const isTime = (text) => TIME.test(text) || DATE.test(text);

/** How many cells a row has, without empty ones behind. */
const lastOf = (row) => row.reduce((last, text, c) => (text ? c + 1 : last), 0);

/** The columns of pasted rows, each with what its texts are. */
function pastedColumns(rows, headings, mark) {
  const wide = rows.reduce((most, row) => Math.max(most, lastOf(row)), headings?.length ?? 0);
  const valueOf = (text) => readNumber(text, mark).value;
  return Array.from({ length: wide }, (_, c) => {
    const head = headings?.[c], texts = rows.slice(headings ? 1 : 0).map((row) => row[c]).filter(Boolean);
    const known = texts.filter((text) => !UNKNOWN.test(text)), values = known.map(valueOf).filter(Boolean);
    return {
      c, head, texts, isWords: texts.filter((text) => /\p{L}/u.test(text)).length * 2 >= texts.length
        && (c === 0 || texts.filter((text) => /^\P{L}*\d/u.test(text)).length * 2 <= texts.length), // and no amounts
      hasNumbers: values.length > 0, isWhole: values.every((value) => value.isWhole()),
      isFull: rows.slice(headings ? 1 : 0, -1).every((row) => row[c]), // but for a sum
      isNumbers: texts.length > 0 && (!known.length || values.length * 2 > known.length),
      isCount: NUMBERING.test(head ?? ""), // what numbers the rows
      isTimes: known.length > 0 && known.every((text) => isTime(text) || MAIL.test(text)), // no names, and no amounts
    };
  });
}

const isTitle = (text, { title }) => text?.toLowerCase() === title.toLowerCase();
/** Whether a text is known as a heading of one of our columns. */
export const isKnownHead = (text, columns) => columns.some((own) => isTitle(text, own) || isHeadOf(text, own));
/** The first row as headings, if one of numbers is known and none of it is a number, or all others are years. */
export function knownHeads([first = []], columns) {
  const [word, ...others] = first.filter(Boolean), isYear = (text) => /^(19|20)\d\d$/.test(text);
  const isWord = (text) => /^\P{N}*\p{L}\P{N}*$/u.test(text), numbers = columns.filter(({ number }) => number);
  const isOf = others.every(isWord) && others.some((text) => isKnownHead(text, numbers));
  const isDated = others.length > 0 && others.every(isYear) && /^\p{L}+$/u.test(word) && isKnownHead(word, columns);
  return (isOf && isWord(word)) || isDated ? first : null;
}

const isHeadOf = (text, { heads, short }) => Boolean(heads?.test(text)) && (short || !NUMBERING.test(text));

/** The column of ours for each pasted one, or none: {targets, isGuess}: `isGuess` says that the order of two columns of
 * numbers decided. Or {asked: {column, at, isOnly, canNone}}: which of the places `at` is for a column. `choice` has
 * what the user said, by keys, and `out` what is for none. Nothing is asked of two columns of numbers without headings
 * that may be a pair (`isPair`): somebody else asks of them. */
export function columnsFor(columns, headings, more = {}) {
  const { rows = [], mark = ".", choice = {}, out = [], units = new Map(), isPair } = more;
  const all = pastedColumns(rows, headings, mark);
  const fit = new Fit(columns, all, { headings, choice, out, units, isPair });
  const asked = fit.rivals() ?? fit.words() ?? fit.amounts();
  if (asked) return { asked };
  fit.rest();
  return { targets: fit.targets, isGuess: Boolean(fit.isGuess), isUnclear: fit.isUnclear };
}

class Fit {
  constructor(columns, all, { headings, choice, out, units, isPair }) {
    const times = all.filter((one) => one.isTimes).map(({ c }) => c);
    Object.assign(this, { columns, all, headings, choice, out: [...out, ...times], units, most: isPair ? 2 : 1 });
    this.targets = all.map(({ c }) => columns.find(({ key }) => choice[key] === c));
    const hasWords = all.some((one) => one.isWords && one.isFull && !one.isNumbers); // then no numbers are names
    const hasOther = (one) => all.some((other) => other !== one && other.isNumbers && !other.isCount); // "1-40"
    const isIts = (one, { number }) => (number ? one.hasNumbers || !hasOther(one) : !one.isNumbers || !hasWords);
    const isOf = (one, own) => isHeadOf(one.head, own) && isIts(one, own);
    for (const is of [(one, own) => isTitle(one.head, own), isOf]) {
      for (const one of all) if (this.isOpen(one)) this.give([one], this.free((own) => is(one, own)).slice(0, 1));
    }
  }

  isOpen({ c }) {
    return !this.targets[c] && !this.out.includes(c);
  }

  /** The pasted columns that are for none yet. */
  open(is = () => true) {
    return this.all.filter((one) => this.isOpen(one) && one.texts.length > 0 && is(one));
  }

  /** Our columns for which none is yet. */
  free(is = () => true) {
    return this.columns.filter((own) => !this.targets.includes(own) && this.choice[own.key] !== NONE && is(own));
  }

  give(some, own) {
    some.slice(0, own.length).forEach(({ c }, k) => (this.targets[c] = own[k]));
  }

  /** Columns of numbers whose headings all say that they are for the same column. */
  rivals() {
    for (const column of this.columns.filter(({ key, number }) => number && this.choice[key] === undefined)) {
      const isIts = (one) => this.targets[one.c] === column || this.isOpen(one);
      const at = this.all.filter((one) => one.isNumbers && isIts(one) && isHeadOf(one.head, column));
      if (at.length > 1) return { column, at, isOnly: true };
    }
    return null;
  }

  /** Words are names first; numbers are names only if no heading says what they are, and somebody says so. */
  words() {
    const isType = ({ optional }) => optional, [column] = this.free(({ wide }) => wide);
    const words = this.open(({ isNumbers, isWords }) => isWords && !isNumbers);
    const hasTypes = this.targets.some((own) => own && isType(own)), isNot = ({ head = "" }) => column?.not?.test(head);
    const at = this.open((one) => one.isNumbers && !(hasTypes && isNot(one)));
    const isMore = at.length > this.free(({ number }) => number).length, isRemark = isMore && !words[0]?.isFull;
    const first = at.find(({ isCount }) => !isCount) ?? at[0];
    if (column && this.headings && isRemark && words.length === 1) return { column, at: [first, ...words] };
    if (column && this.headings && words.length > 1) return { column, at: words };
    const ahead = words.filter(({ c, isFull }) => isFull && at.length > 0 && at.every((one) => one.c > c));
    const isTwo = !this.headings && ahead.length > 1 && !this.free(isType).length;
    if (column && isTwo) return { column, at: ahead, isOnly: true };
    const isNamed = ({ isFull, texts }) => isFull && new Set(texts).size === texts.length;
    const named = words[0]?.isFull ? words[0] : words.find(isNamed) ?? words[0]; // remarks have gaps
    this.give(column && named ? [named] : [], [column]);
    this.give(this.headings ? [] : words.filter((one) => this.isOpen(one) && one.isFull), this.free(isType));
    if (!column || words.length || !at.length) return null;
    const isClear = this.headings && at.length === 1 && !hasTypes && !this.free(({ number }) => number).length;
    const plain = at.filter(({ c }) => !this.units.has(c)); // a name has no unit
    if (!isClear) return { column, at: plain.length ? plain : at, canNone: true };
    this.give(at, [column]);
    return null;
  }

  /** Below headings that don't say which is which it is asked, unless one alone has decimals, and so is no count. */
  amounts() {
    const own = this.free(({ number }) => number), [column, other] = own, isNot = ({ not }, head) => not?.test(head);
    const all = this.open(({ isNumbers, head }) => isNumbers && !own.every((one) => isNot(one, head)));
    const real = all.filter(({ isCount }) => !isCount), numbers = real.length ? real : all;
    const isPair = Boolean(other?.short) && numbers.length === 2, whole = numbers.filter(({ isWhole }) => isWhole);
    const isClear = isPair && whole.length === 1, least = column?.fallback ? 0 : 1;
    const [, ...more] = this.all.filter((one) => one.isWords && !one.isNumbers); // names beside names have numbers each
    const isBeside = more.some(({ c }) => numbers.some((one) => one.c > c));
    const isWide = !this.headings && !isBeside && numbers.length > own.length - 1 + this.most;
    const hasNames = this.targets.some((own) => own?.wide) || this.all.some((one) => one.isWords && !one.isNumbers);
    this.isUnclear = isWide && !hasNames && numbers.some(isCounting); // numbers that count may be names
    if (this.isUnclear) return null;
    if ((this.headings || isWide) && column && !isClear && numbers.length > least) {
      return { column, at: numbers, isOnly: own.length === 1, canNone: !least };
    }
    this.isGuess = isPair && !isClear;
    this.give(isClear && numbers[0] === whole[0] ? numbers.reverse() : numbers, own);
    return null;
  }

  /** What is neither, as amounts with something wrong: the cells say so. */
  rest() {
    const isPlain = !this.headings, isAmount = ({ number, fallback }) => number && !fallback;
    this.give(this.open(({ isCount, hasNumbers }) => !isCount && (isPlain || hasNumbers)), this.free(isAmount));
  }
}

/** Whether the numbers of a column are 1, 2, .., which may number the rows or be names. */
function isCounting({ texts }) {
  const counts = texts.filter((text) => /^\d+[.)]?$/.test(text)).map((text) => Number.parseInt(text, 10));
  return counts.length > 1 && counts.every((count, k) => count === k + 1);
}

/** Why rows without headings that are wider than their columns can't be taken; null if they aren't. What was said to be
 * for none (`out`), and remarks behind the numbers, are no part of their width. */
export function widthFault(rows, headings, { targets, isUnclear }, columns, out = []) {
  const spare = new Set([...out, ...remarksIn(rows, targets)]);
  const isLost = rows.some((row) => row.some((text, c) => text && !targets[c] && !spare.has(c)));
  const titles = columns.map(({ title }) => `“${title}”`).join(", "), be = columns.length > 1 ? "are" : "is";
  if (headings || !(isLost || isUnclear)) return null;
  return `These rows have ${targets.length} cells, and here ${be} ${titles}. Copy those alone, or all with their `
    + "headings.";
}

/** The places of remarks, of which none is a number, behind the numbers of rows. */
function remarksIn(rows, targets) {
  const isAmount = (text = "") => /^\P{L}*\d/u.test(text), isOf = (c) => rows.some((row) => isAmount(row[c]));
  const last = targets.findLastIndex((own, c) => own?.number && isOf(c));
  const isWords = (text) => /\p{L}/u.test(text) && (text.startsWith("(") || !isAmount(text));
  const isRemark = (text = "") => !text || isTime(text) || isWords(text);
  const isTyped = targets.some((own) => own?.optional); // then other words may be types, too
  const all = targets.map((_, c) => c).filter((c) => last >= 0 && c > last && !targets[c] && !isTyped);
  return all.filter((c) => rows.every((row) => isRemark(row[c])));
}
