// Decimals: those that people type, and those that are shown.
import { BLANK, DECIMALS, isMark, onlyMark, otherMark, spoken } from "./marks.js";
import { isOfMoney, withoutMoney } from "./money.js";
import { Rational } from "./rational.js";

const HALF = new Rational(1n, 2n);
const MOST_LETTERS = 61; // of a number that is typed: a fraction of 30 digits each
const MOST_POWER = 40; // of ten, in a number as 1e-05
const BLANKS = "[\\s\u00a0\u202f'’_]";
const PARTED = new RegExp(`\\d${BLANKS}+\\d`), PARTED_BEHIND = new RegExp(`${BLANKS}\\d`);
const BY_THREE = new RegExp(`^\\D*\\d{1,3}(?:${BLANKS}\\d{3})+(?!\\d)(\\D.*)?$`, "s");
const LAKHS = /^-?[1-9]\d?(?:,\d\d)+,\d{3}(\.\d+)?$/; // thousands as in India: 12,34,567
const NO_CENTS = /^(.{0,60}\d)(?:([.,])[-–—]{1,2}|[:/][-–])(\D{0,9})$/u; // 12,- and 12.– and 12/- and 12:-
const PARTS_OF_ONE = Object.fromEntries("½1/2 ⅓1/3 ⅔2/3 ¼1/4 ¾3/4 ⅕1/5 ⅖2/5 ⅗3/5 ⅘4/5 ⅙1/6 ⅚5/6 ⅛1/8 ⅜3/8 ⅝5/8 ⅞7/8"
  .split(" ").map(([sign, ...parts]) => [sign, parts.join("")]));
const WITH_PART = /^(-?)(\d{0,15})([½⅓⅔¼¾⅕⅖⅗⅘⅙⅚⅛⅜⅝⅞])$/; // 2½
const SCIENTIFIC = /^(-?)(\d*)(?:([.,])(\d*))?e([+-]?\d{1,3})$/i;

/** Shares in steps of the last place, which add to the rounded sum, or to one that is given: all are rounded down
 * first, and what then lacks goes to those who lost most, among equals to the first. */
export function roundedSteps(shares, places, given) {
  const unit = new Rational(10n ** BigInt(places));
  const exact = shares.map((share) => share.times(unit));
  const steps = exact.map((share) => share.floor());
  const whole = given ?? Rational.sum(exact).plus(HALF).floor();
  const lacking = Number(whole - steps.reduce((total, step) => total + step, 0n));
  const lost = exact.map((share, i) => share.minus(new Rational(steps[i])));
  const order = steps.map((_, i) => i).sort((i, j) => lost[j].compare(lost[i]) || i - j);
  for (const i of order.slice(0, lacking)) steps[i] += 1n;
  return steps;
}

export function stepsOf(value, places) {
  return value.times(new Rational(10n ** BigInt(places))).plus(HALF).floor();
}

/** Steps of the last place as a decimal: 1234567 in two places is "12 345.67". */
export function decimalOf(steps, places, spelling = {}) {
  const { mark = ".", thousands = BLANK, grouped = true, least = thousands === BLANK ? 4 : 3 } = spelling;
  const digits = String(steps < 0n ? -steps : steps).padStart(places + 1, "0");
  const whole = digits.slice(0, digits.length - places);
  const shown = grouped && whole.length > least ? whole.replace(/(?=(\d{3})+$)(?!^)/g, thousands) : whole;
  return (steps < 0n ? "−" : "") + shown + (places ? mark + digits.slice(-places) : "");
}

export function decimal(value, places, options) {
  return decimalOf(stepsOf(value, places), places, options);
}

/** A part of 1 in per cent, with one decimal. */
export function percentText(part, { mark } = spoken) {
  return `${decimal(part.times(Rational.of(100)), 1, { mark })}\u202f%`;
}

/** How many there are, as numbers are shown: no comma that might stand in front of decimals. */
export function countText(count) {
  return decimalOf(BigInt(count), 0);
}

/** A fraction for the eye: "3/2", "−7". */
export function fractionText(value) {
  return value.toString().replace("-", "−");
}

/** A number as a sentence has it, exact: a decimal where four places do, two at least as in tables, else a fraction; a
 * very long one about. */
export function shortText(value) {
  return bareText(value) + unitText();
}

/** The same, said to be about so much where it is rounded, or one of the numbers that it is worked out of. */
export function saidText(value, ...of) {
  return ([value, ...of].some(isRounded) ? "about " : "") + shortText(value);
}

/** The same; of a fraction the decimals, in `steps` of the last place, come first, as they are what is read. */
export function fullText(value, steps = stepsOf(value, 2)) {
  const text = bareText(value);
  return text.includes("/") ? `${decimalOf(steps, 2, spoken)} (exactly ${text})${unitText()}` : saidText(value);
}

/** The shares of all as texts, and their sum: decimals of named places are rounded so that they add up. */
export function columnTexts(shares) {
  if (spoken.places === null) return [...shares, Rational.sum(shares)].map(shortText);
  const steps = roundedSteps(shares, spoken.places);
  const all = [...steps, steps.reduce((sum, step) => sum + step, 0n)];
  return all.map((step) => decimalOf(step, spoken.places, { least: 3, ...spoken }) + unitText());
}

/** The shares of all as sentences have them: those of a column, where places are named. On the page decimals add up,
 * too, but where equal shares would differ by it. */
export function shareTexts(shares, textOf = fullText) {
  if (spoken.places !== null) return columnTexts(shares).slice(0, -1);
  const steps = spoken.addsUp ? roundedSteps(shares, 2) : [];
  const isEven = new Set(shares.map(String)).size === new Set(shares.map((share, i) => `${share} ${steps[i]}`)).size;
  return shares.map((share, i) => textOf(share, isEven ? steps[i] : undefined));
}

function bareText(value) {
  const places = placesOf(value);
  if (spoken.places !== null) return decimal(value, spoken.places, spoken);
  if (places >= 0) return decimal(value, places && Math.max(places, 2), spoken);
  const text = fractionText(value);
  return text.length <= 15 ? text : `about ${decimal(value, 4, spoken)}`;
}

/** The unit of sentences, with a blank before it. */
function unitText() {
  return spoken.unit ? ` ${spoken.unit}` : "";
}

/** Whether a sentence has another number than the exact one. */
export function isRounded(value) {
  return spoken.places !== null && 10n ** BigInt(spoken.places) % value.den !== 0n;
}

const MOST_APART = 12;

/** Numbers that a sentence compares: with so many decimals that those which differ are seen to; with more than asked
 * for it shows how far they do, too. */
export function apartTexts(values, places, options = spoken) {
  const kinds = new Set(values.map(String)).size, texts = (count) => values.map((one) => decimal(one, count, options));
  const differ = (count) => new Set(texts(count)).size === kinds;
  if (differ(places)) return texts(places);
  for (let count = places + 1; count <= MOST_APART; count++) {
    const isExact = values.every(({ den }) => 10n ** BigInt(count) % den === 0n);
    if (differ(count) && (isExact || differ(count - 1))) return texts(count);
  }
  return values.map(fractionText);
}

/** The same, exact where that is short. */
export function shortTexts(values) {
  const texts = values.map(shortText), kinds = new Set(values.map(String)).size;
  return new Set(texts).size === kinds ? texts : apartTexts(values, 4);
}

/** The same of a column: with equally many decimals, where these write all of it. */
export function alignedTexts(values) {
  const places = values.map(placesOf), most = Math.max(...places);
  if (spoken.places !== null || places.includes(-1)) return values.map(shortText);
  return values.map((value) => decimal(value, most && Math.max(most, 2), spoken) + unitText());
}

/** How many decimals write a value exactly, to 4; -1 where these don't. */
export function placesOf(value) {
  return [0n, 1n, 2n, 3n, 4n].findIndex((places) => 10n ** places % value.den === 0n);
}

/** A value as a sentence quotes what was typed: a decimal if four places are enough, otherwise a fraction. */
export function quotedText(value, mark) {
  const places = placesOf(value);
  return places < 0 ? fractionText(value) : decimal(value, places, { mark, grouped: false });
}

/** A value as one would type it: a decimal where four places do, else a fraction. It can be read in one way only, so
 * 1.708 gets a fourth decimal. */
export function typedText(value, by = ".") {
  const places = placesOf(value), mark = isMark(by) ? by : ".";
  if (places < 0) return value.toString();
  const text = (count) => decimal(value, count, { mark, grouped: false }).replace("−", "-");
  return text(readNumber(text(places)).doubt ? places + 1 : places);
}

/** The same with a sign between thousands, as a cell may have it; without, if it could be read otherwise. */
export function groupedText(value, by, thousands) {
  const plain = typedText(value, by), places = placesOf(value);
  if (places < 0 || !isMark(by) || !thousands || thousands === by) return plain;
  const text = decimal(value, places, { mark: by, thousands, least: 3 }).replace("−", "-");
  const { value: read, doubt } = readNumber(text, by);
  return read?.equals(value) && !doubt ? text : plain;
}

/** A text without blanks, where these part nothing but thousands, and without a sign of money; null for "5 3 2". */
function joined(typed) {
  const rest = PARTED.test(typed) ? BY_THREE.exec(typed) : [];
  if (!rest || PARTED_BEHIND.test(rest[1] ?? "")) return null;
  return withoutMoney(typed).replace(/[\s\u00a0\u202f'’_]/g, "").replace(/^[−–]/, "-");
}

/** A decimal with a power of ten, as programs print it: 1e-05 is 0.00001. */
function scientific(text) {
  const [, sign, whole, by, decimals = "", power] = SCIENTIFIC.exec(text) ?? [];
  if (power === undefined || !(whole + decimals)) return null;
  if (Math.abs(Number(power)) > MOST_POWER) return { fault: "is too large or too small" };
  const value = withDecimals(sign + whole, decimals), ten = new Rational(10n ** BigInt(Math.abs(Number(power))));
  return { value: Number(power) < 0 ? value.over(ten) : value.times(ten), by };
}

/** The number that a person typed or a spreadsheet gave: {value}, or {fault} in words. Points and commas may part
 * thousands or stand in front of decimals. Where a text can be read both ways, as 1,234, the mark in front of decimals
 * decides (by "" none stands there, by ".," each does), and `doubt` says how it was read, "whole" or "decimals"; `by`
 * is the mark in front of decimals where the text itself shows it. */
export function readNumber(typed, mark = ".") {
  if (/^\d{1,15}$/.test(typed)) return { value: new Rational(BigInt(typed)) };
  const [, before, by, behind] = NO_CENTS.exec(typed) ?? [];
  if (before) return withoutCents(readNumber(before + behind, ""), before.includes(by) ? undefined : by);
  const text = joined(typed);
  if (text === "") return { fault: "is empty" };
  if (text === null || text.length > MOST_LETTERS) return { fault: "is no number" };
  if (/^-?\d{1,30}[/÷]\d{1,30}$/.test(text)) { // ÷ is that of a saved table
    const [num, den] = text.split(/[/÷]/).map(BigInt);
    return den ? { value: new Rational(num, den) } : { fault: "is divided by nothing" };
  }
  if (/^\(\d[\d.,]*\)$/.test(text)) return readNumber("-" + text.slice(1, -1), mark);
  const [, sign, whole, part] = WITH_PART.exec(text) ?? [], partial = part && Rational.of(PARTS_OF_ONE[part]);
  if (part) return { value: partial.plus(Rational.of(`${whole || 0}`)).times(Rational.of(`${sign}1`)) };
  if (!/^-?[\d.,]*\d[\d.,]*$/.test(text)) return scientific(text) ?? { fault: "is no number" };
  return marked(text, mark);
}

/** What was read in front of a sign for no cents: whole, so that "1.250,-" and "1.250.-" are 1250. */
function withoutCents(found, by) {
  if (found.value && !found.value.isWhole()) return { fault: "is no number" };
  return { ...found, doubt: undefined, ...(by && { by }) };
}

const BY_MARK = /\d([.,])\d{3}(?!\d)/;

/** What numbers that are read together show of the mark before decimals: beyond doubt (`marks`, each with a text that
 * shows it), or else by an amount of money, which has no three decimals. `amounts` is what a heading says of them. */
export class Shown {
  constructor(amounts) {
    Object.assign(this, { amounts, marks: new Map(), ofThousands: new Set(), ofMoney: undefined });
  }

  /** A number as it was read; one that can't be `money` may be in thousands, too. */
  add(typed, { doubt, by }, isMoney = isOfMoney(typed, this.amounts)) {
    if (doubt && isMoney) this.ofMoney ??= typed;
    if (doubt) this.ofThousands.add(otherMark(BY_MARK.exec(typed)[1])); // by which it would be in thousands
    if (by && !this.marks.has(by)) this.marks.set(by, typed);
  }

  /** The amount of money that shows the mark, if no other number does, unless the user said otherwise by a `mark`. */
  proofOfMoney(mark) {
    return this.marks.size || mark === DECIMALS || !onlyMark(this.ofThousands) ? undefined : this.ofMoney;
  }

  /** The marks that stand before decimals, each with a text that shows it. */
  proofs(mark) {
    const money = this.proofOfMoney(mark);
    return money === undefined ? this.marks : new Map([[onlyMark(this.ofThousands), money]]);
  }

  /** The one mark that all of them show; null where none does, or both stand there. */
  settles(mark) {
    return onlyMark(this.proofs(mark).keys());
  }
}

/** What is told of an amount of money that shows the mark. */
export function moneyText(typed, by) {
  const value = quotedText(readNumber(typed, by).value);
  return `“${typed.trim()}” is read as ${value}, since money has no three decimals.`;
}

/** Texts that are read by one mark: the one that some of them show, or else the given one. `isSettled` says that they
 * show it, and `money` is the amount that does, if money alone does. */
export function readTogether(texts, mark, amounts) {
  const first = texts.map((text) => readNumber(text, mark)), shown = new Shown(amounts);
  texts.forEach((text, k) => shown.add(text, first[k]));
  const settled = shown.settles(mark), by = settled ?? mark, money = shown.proofOfMoney(mark);
  const read = by === mark ? first : texts.map((text) => readNumber(text, by));
  return { isSettled: settled !== null, by, money, read };
}

/** The sign between the thousands of a number that was read, {by, doubt}; null if that is a blank, or there is none. */
export function thousandsIn(typed, { by, doubt }) {
  const [, sign] = /\d(['’.,])\d{3}(?!\d)/.exec(typed) ?? [];
  if (!sign || sign === by || doubt === "decimals" || LAKHS.test(typed.trim())) return null;
  return sign === "'" ? "’" : sign;
}

const MOST_WORKED_OUT = 200; // letters: what may be typed into a cell

/** The number of a cell, in which one may add and multiply, too: "27400*1.12 + 300". `isWorkedOut` says so. All its
 * numbers are read by the mark that some of them show. */
export function cellNumber(typed, mark = ".") {
  if (!/[\d.,)\s][*×+]/.test(typed) || SCIENTIFIC.test(typed.trim())) return readNumber(typed, mark);
  if (typed.length > MOST_WORKED_OUT) return { fault: "is too long to be worked out" };
  const terms = typed.trim().replace(/^=/, "").split("+").map((term) => term.split(/[*×]/).map((text) => text.trim()));
  const { read: all } = readTogether(terms.flat(), mark, "rates"), left = [...all]; // as many as have a price each
  if (all.some(({ fault }) => fault)) return { fault: "is no number" };
  const products = terms.map(({ length }) => left.splice(0, length).reduce((product, { value }) => {
    return product.times(value);
  }, Rational.of(1)));
  const { doubt } = all.find((one) => one.doubt) ?? {}, { by } = all.find((one) => one.by) ?? {};
  return { value: Rational.sum(products), doubt, by, isWorkedOut: true };
}

function marked(text, mark) {
  const marks = text.replace(/[^.,]/g, "");
  const last = marks.at(-1), other = last === "." ? "," : ".";
  if (!marks) return { value: new Rational(BigInt(text)) };
  if (LAKHS.test(text)) return { value: withDecimals(...`${text.replaceAll(",", "")}.`.split(".")), by: "." };
  const thousands = (by) => new RegExp(`^-?[1-9]\\d{0,2}(\\${by}\\d{3})+$`);
  if (marks.length > 1 && marks === last.repeat(marks.length)) {
    if (!thousands(last).test(text)) return { fault: "is no number" };
    return { value: new Rational(BigInt(text.replaceAll(last, ""))), by: other };
  }
  if (marks.length > 1) {
    const [whole, decimals] = text.split(last);
    const isRight = thousands(other).test(whole) && !decimals.includes(other);
    const read = () => ({ value: withDecimals(whole.replaceAll(other, ""), decimals), by: last });
    return isRight ? read() : { fault: "is no number" };
  }
  const isBoth = thousands(last).test(text);
  if (isBoth && !mark.includes(last)) return { value: new Rational(BigInt(text.replace(last, ""))), doubt: "whole" };
  const value = withDecimals(...text.split(last));
  return isBoth ? { value, doubt: "decimals" } : { value, by: last };
}

function withDecimals(whole, decimals) {
  const digits = BigInt((whole.replace("-", "") || "0") + decimals);
  return new Rational(whole.startsWith("-") ? -digits : digits, 10n ** BigInt(decimals.length));
}
