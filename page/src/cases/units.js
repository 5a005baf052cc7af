// Units behind pasted numbers, as in "12 km": one that a column has throughout is left out, and told.
import { readNumber } from "../exact/decimals.js";
import { isOfMoney, moneyIn, withoutMoney } from "../exact/money.js";
import { isTime } from "./columns.js";

const MOST_LETTERS = 80; // of a number with its unit
const SHORT = 4; // letters of a unit that may be one more than a singular
const WORD = "\\p{L}[\\p{L}.²³]{0,11}";
const PER = `\\s*/\\s*${WORD}|\\s+(?:per|pro|par|por|je|im|al|an?|p\\.) ?${WORD}`
  + `|\\s+(?:\\p{L}+(?:ly|lich)|net|gross|netto|brutto|(?:incl|excl|inkl|exkl|zzgl|plus|ohne)\\.? ${WORD})`;
const BEHIND = new RegExp(`^(.*\\d.*?)(${PER})$`, "u");
const MONEY = "(?:\\p{Sc}|[A-Z]{3})", UNIT = `(?:[kKMT]?\\p{Sc}|[%‰]|${WORD}(?: ?${MONEY})?)(?:${PER})?`;
const SCALED = new RegExp("^([kKMT](?:\\p{Sc}|EUR|CHF|USD|GBP)|\\p{Sc}(?:[kKmM]|mn|bn))\\s?([-−]?\\d[\\d.,'’]*)$", "u");
const MILLIONS = /^(?:m|mn|bn|b)\b/iu; // behind money
const WITH_UNIT = new RegExp(`^((?:${MONEY} ?)?[-−]?\\d[\\d.,'’\\s\u202f]*?)\\s*(${UNIT})$`, "u");
const OF_MANY = /^(k|[kKMT]?\p{Sc}|tsd|tausend|thousand|mio|mill?ion(s|en)?|mln|mn|mrd|bn)\b\.?/iu;

const CHANGE = /^(?:less|more|fewer|extra|weniger|mehr|moins|minder|meer)$/iu;

const OF_WHOLE = /^(\d[\d.,'’]*)\s?(\/\s?1[.,'’ ]?0[.,'’ 0]{1,8})$/; // 120,5/1000

/** The same of a part of a round number, as "120,5/1000": the number and "/1000"; null for another text. */
function partOf(text) {
  const [, number, unit] = OF_WHOLE.exec(text) ?? [];
  return number && !readNumber(number).fault ? { number, unit: unit.replace(/\s/g, ""), isSure: true } : null;
}

/** The number and the unit of a text, as "12 km" and "1200 EUR/year"; null for another text, and for one that is a
 * number as it stands. A sign of money before "per year" is of the number. `isSure` says that the number is an amount,
 * and no part of a name: it is in thousands, or for each of something. */
export function parted(text) {
  if (text.length > MOST_LETTERS || !readNumber(text).fault || isTime(text)) return null;
  const [, scaled, amount] = SCALED.exec(text) ?? [];
  if (scaled) return { number: amount, unit: scaled, isSure: true };
  if (OF_WHOLE.test(text)) return partOf(text);
  const [, before, per] = BEHIND.exec(text) ?? [], isMoney = before && !readNumber(before).fault;
  const [, number, unit = ""] = isMoney ? [text, before, per] : WITH_UNIT.exec(text) ?? [];
  const isSure = Boolean(isMoney) || OF_MANY.test(unit) || (MILLIONS.test(unit) && moneyIn(number) !== undefined);
  return number ? { number, unit: unit.trim().replace(/\s*\/\s*/, "/"), isSure } : null;
}

/** The units of some numbers, each once; of "vote" beside "votes" the second. */
function unitsOf(own) {
  const all = [...new Set(own.map(({ unit }) => unit))];
  const isOne = (unit) => all.some((other) => other !== unit && other.startsWith(unit)
    && /^(?:e?[sn]|er?)$/.test(other.slice(unit.length)));
  return all.filter((unit) => unit.length < SHORT || !isOne(unit));
}

/** Rows without units: {rows, units}, or {fault} in words where the numbers of a column have several. The first `from`
 * columns are names. A number without a unit beside such with one may only be 0. */
export function withoutUnits(rows, from = 0) {
  const wide = rows.reduce((most, { length }) => Math.max(most, length), 0), found = new Map(), signs = new Set();
  for (let c = from; c < wide; c++) {
    const texts = rows.map((row) => row[c] ?? "").filter(Boolean);
    const isParts = texts.some((text) => parted(text) && partOf(text)); // then 201/1000 is one, too
    const unitIn = (text) => parted(text) ?? (isParts ? partOf(text) : null), own = texts.map(unitIn).filter(Boolean);
    const [unit, other] = unitsOf(own), isBare = (text) => /[1-9]/.test(text) && !unitIn(text);
    const isNumber = (text) => !readNumber(text).fault, isMixed = texts.some((text) => isBare(text) && isNumber(text));
    const change = own.find((one) => CHANGE.test(one.unit));
    if (change) return { fault: `“${change.number} ${change.unit}” says a difference. Write the amounts themselves.` };
    if (!unit || isMixed || own.length * 2 < texts.length - 1) continue;
    if (other) return { fault: `The numbers have several units: “${unit}” and “${other}”. Give all in one.` };
    const sign = moneyBeside(own.map(({ number }) => number));
    if (sign) signs.add(c);
    found.set(c, sign && /^\p{L}/u.test(unit) ? `${sign} ${unit}` : sign + unit);
  }
  const isPart = (c) => found.get(c)?.startsWith("/1");
  const numberOf = (text = "", c) => (parted(text) ?? (isPart(c) ? partOf(text) : null))?.number ?? text;
  const bare = (text, c) => (signs.has(c) ? withoutMoney(numberOf(text, c)) : found.has(c) ? numberOf(text, c) : text);
  return { rows: found.size ? rows.map((row) => row.map(bare)) : rows, units: [...new Set(found.values())], found };
}

/** The money of numbers with a unit behind, as "1.459 €/l", if some can be read both ways: as these needn't be in
 * thousands, it goes with the unit. "" for none. */
function moneyBeside(numbers) {
  const [money, other] = new Set(numbers.map((text) => moneyIn(text) ?? "")), isOpen = (text) => readNumber(text).doubt;
  const isAny = money && other === undefined && numbers.some((text) => isOpen(text) && isOfMoney(text));
  return isAny ? numbers[0].replace(/[\d.,\s'’\u202f−-]/g, "") : "";
}

/** What is told of units behind numbers. */
export function unitsText(units) {
  const are = units.length > 1 ? "are taken as their units" : "is taken as their unit";
  return units.length > 0 && `${units.map((unit) => `“${unit}”`).join(" and ")} behind the numbers ${are}.`;
}
