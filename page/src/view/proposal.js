// The division that the user proposes, or that stands today: a text for each row of the answer.
import { countText, moneyText, readNumber, readTogether, shortText } from "../exact/decimals.js";
import { isMark, nameOfMark, otherMark } from "../exact/marks.js";
import { moneyIn } from "../exact/money.js";
import { Rational } from "../exact/rational.js";
import { isNothing } from "../cases/block.js";
import { tooMuch } from "../cases/bounds.js";
import { linesByName, linesByNumber, PAYS } from "../cases/in-line.js";
import { withoutSigns } from "../cases/signs.js";
import { unitsText, withoutUnits } from "../cases/units.js";
import { isSumWord, withEscapes } from "../game/names.js";
import { listed, plural } from "../game/words.js";
import { meantRows, meantText } from "./meant-rows.js";
import { buttonFor, isPart, withParts } from "./whole-parts.js";

const ENDS = "\\d|%|\\p{Sc}|\\d\\s?[A-Z]{3}|half|third|quarter|nothing|rest|hälfte|drittel|viertel|nichts|moitié|tiers"
  + "|rien"; // of amounts
const IN_LINE = new RegExp(`[,;]\\s+(?=\\p{L})|(?<=${ENDS})\\s+(?:and|und|et|y|e)\\s+(?=\\p{L})`, "giu"); // there
const LINE = /^(?<name>.*?\p{L}.*?)(?:\s*[:=;,]\s*|\s+(?:[-–—]\s+)?)(?<number>[-−(]?\p{Sc}?\s?\d.*)$/u;
const BESIDE = /^\s*[:=;,]?\s*(?:[-–—](?=\s))?\s*|\s*\(.*\p{L}.*\)$/gu; // of a number behind a name
const VERB = new RegExp(`^(?:${PAYS})\\s+`, "iu");
const EACH = /,?\s+(?:each|je|chacune?)\.?$/iu, MOST_EACH = 400; // letters of such a line
const REST_TO = /^((?:the |den |le )?(?:reste?|remainder|balance))\s+(?:goes )?(?:to|for|für|an|pour|à)\s+(\S.*)$/iu;
const BRACKETS = /^\(([^()]*)\)$/;
const AND = /\s*(?:[,;+&]|(?<!\p{L})(?:and|und|et|y|e)(?!\p{L}))\s*/u; // between names that share an amount
const MOST_LINES = 40, MOST_LINE = 2000; // of a mail, and letters
const LONG = `A line has more than ${countText(MOST_LINE)} letters. Give each row a line: its name and its amount.`;
const BETWEEN = /(?<=\d) *[\t|][\t| ]*(?=[-−(]?\p{Sc}?\d)/gu; // numbers in two cells
const NUMBER = /^[-−(]?\p{Sc}?\s?\d[\d.,'’\s/]*(?:\p{Sc}|[A-Z]{3})?\)?$/u;

/** What a pasted text gives the rows, by their `labels`: {texts, said}, or {fault} in words. Lines with a name go to
 * the row that is called so, or that alone is meant; numbers alone go on below from a row. A unit behind all numbers
 * goes. */
export function pastedDivision(pasted, labels, { first, before, isOfWhole = false }) {
  const isOdd = labels.some((label) => /["|]/.test(label)), plain = isOdd ? (line) => line
    : (line) => line.replace(/^ *"([^"]*)"/, "$1").replace(BETWEEN, "; ").replace(/ *\| */g, " ");
  const bare = (line) => plain(line).trim().replace(/\s+/g, " ");
  const isSaid = isOfWhole ? isPart : isNothing, byButton = isOfWhole && buttonFor(pasted);
  if (byButton) return { fault: `${byButton} Nothing was taken.` };
  const much = isLong(pasted) ? LONG : tooMuch(pasted);
  if (much) return { fault: `${much} Nothing was taken.` };
  const text = amountsInLine(pasted, labels.length - first)?.join("\n") ?? pasted;
  const named = partedLines(text, labels), own = named?.text ?? (isLine(text) ? text.replace(IN_LINE, "\n") : text);
  const given = own.split(/\r\n?|\n/).map(bare).filter((line) => /[^-: ]/.test(line));
  const lines = withoutSigns(given.map((line) => [line])).rows.flat(), alone = withoutUnit(lines);
  const isAlone = alone.fault === undefined && alone.numbers.every((line) => NUMBER.test(line) || isSaid(line));
  const apart = lines.flatMap((line) => ofEach(line, labels));
  const found = isAlone ? numbersBelow(alone, labels.length - first) : namedAmounts(apart, labels, isSaid);
  if (found.fault) return { fault: `${found.fault} Nothing was taken.` };
  const { amounts, at = (r) => r - first } = found, said = [found.said, outText(named?.left ?? [])];
  return { texts: before.map((own, r) => amounts[at(r)] ?? own), said: said.filter(Boolean).join(" ") };
}

const partedLines = (text, labels) => {
  const all = isLine(text) ? ofEach(text.trim().replace(/\s+/g, " "), labels) : [];
  if (all.length > 1) return { text: all.join("\n"), left: [] };
  return linesByName(text, labels) ?? linesByNumber(text, labels) ?? lineOfMail(text, labels);
};

/** A line of several rows that have the same amount each, as "Bo and Cleo 50 each", as a line of each; and the row
 * before its rest in "the rest to Bo". */
function ofEach(line, labels) {
  const [, rest, name] = line.length <= MOST_EACH ? REST_TO.exec(line) ?? [] : [];
  if (name) return [`${name} ${rest}`];
  if (line.length > MOST_EACH || !EACH.test(line)) return [line];
  const words = line.replace(EACH, "").split(" "), rows = new Set(labels.map((label) => label.toLowerCase()));
  const namesIn = (k) => words.slice(0, k).join(" ").split(AND).filter(Boolean);
  const isOwn = (_, k) => namesIn(k).length > 1 && namesIn(k).every((name) => rows.has(name.toLowerCase()));
  const end = words.findLastIndex(isOwn), amount = words.slice(end).join(" ").replace(VERB, "");
  return end > 0 ? namesIn(end).map((name) => `${name} ${amount}`) : [line];
}

const isLine = (text) => !/[\r\n]/.test(text.trim());
const isLong = (text) => text.split(/[\r\n]/).some(({ length }) => length > MOST_LINE);

/** The one line of a mail that has each name with its amount, where no number stands in another; else null. */
function lineOfMail(text, labels) {
  const lines = text.split(/[\r\n]+/).map((line) => line.trim()).filter(Boolean);
  if (lines.length < 2 || lines.length > MOST_LINES) return null;
  const found = lines.map((line) => linesByName(line, labels)), own = found.filter(Boolean);
  const others = lines.filter((_, k) => !found[k]);
  if (own.length !== 1 || others.some((line) => /\d/.test(line))) return null;
  return { text: own[0].text, left: [...own[0].left, ...others] };
}

/** Amounts in a line for so many rows, as "50/30/20", or the cells of a spreadsheet; null for another text. Of two,
 * "6/4" is a fraction, but for parts of 100. */
function amountsInLine(text, most) {
  if (!isLine(text) || text.length > MOST_LINE || most < 2) return null;
  const parts = text.trim().split(/\s*[\t/;:|]\s*|,\s+|\s+(?:and|und|et|y|e)\s+/u);
  const isAll = parts.length === most && parts.every((one) => NUMBER.test(one) && !/[/\s]/.test(one));
  const [one, other] = parts.map(Number), isFraction = most === 2 && text.includes("/") && one + other !== 100;
  return isAll && !isFraction ? parts : null;
}

/** Whether a pasted text is of several rows, and not of one cell. */
export const isOfRows = (text, labels, first = 0) => isLong(text) || !isLine(text) || Boolean(buttonFor(text))
  || amountsInLine(text, labels.length - first) !== null || text.trim().replace(IN_LINE, "\n").includes("\n")
  || partedLines(text, labels) !== null;

/** What is told of lines and words that were left out. */
function outText(texts) {
  const quoted = texts.slice(0, 3).map((text) => `“${shownLine(text)}”`);
  return texts.length > 0 && `Left out: ${quoted.join(", ")}${texts.length > 3 ? " …" : ""}.`;
}

/** Numbers alone for so many rows: one more that is the sum of the others is none. */
function numbersBelow({ numbers, told }, most) {
  const { read } = readTogether(numbers, "."), values = read.map(({ value }) => value);
  const isSum = (k) => values.every(Boolean) && Rational.sum(values).equals(values[k].plus(values[k]));
  const sum = numbers.length > 2 && numbers.length === most + 1 ? [most, 0].find(isSum) : undefined;
  if (sum === undefined && numbers.length > most) {
    return { fault: `These are ${numbers.length} numbers for ${plural(most, "row")}.` };
  }
  const left = sum !== undefined && `“${numbers[sum]}” is the sum of the others, and was left out.`;
  return { amounts: numbers.filter((_, k) => k !== sum), said: [told, left].filter(Boolean).join(" ") };
}

/** Amounts beside names: {amounts, at, said}, `at(r)` being the place of that of a row, or {fault}. */
function namedAmounts(lines, labels, isSaid) {
  const { places, strangers, out, twice } = namedLines(lines, labels);
  if (twice !== undefined) return { fault: `${withEscapes(labels[twice])} is there twice.` };
  const others = meantBeside(strangers, labels, places, isSaid), { meant = [], names = [] } = others;
  if (others.fault) return others;
  meant.forEach((place, k) => places.set(place, names[k].number));
  const called = [...places.keys()], { numbers, told, fault } = withoutUnit([...places.values()]);
  if (fault) return { fault };
  const odd = numbers.findIndex((number) => readNumber(number).fault && !isSaid(number));
  const label = withEscapes(labels[called[odd]] ?? "");
  if (odd >= 0) return { fault: `${oddText(label, numbers[odd])}. Write one amount beside each name, such as 12.50.` };
  if (!places.size) return { fault: "Give a number a line, or a name and a number in each." };
  const rest = out.filter((line) => names.every((one) => one.line !== line));
  const exact = called.slice(0, called.length - meant.length);
  const left = outText(rest);
  const taken = exact.length > 0 && `Taken by name: ${listed(exact.map((i) => withEscapes(labels[i])))}.`;
  const more = meantText(names.map(({ name }) => name), meant, labels);
  return { amounts: numbers, at: (r) => called.indexOf(r), said: [taken, more, told, left].filter(Boolean).join(" ") };
}

/** Lines of other names with an amount, as `names`, and the rows that they have to mean: {meant, names}, or {fault}. */
function meantBeside(strangers, labels, places, isSaid) {
  const { unit } = withoutUnit(places.size ? [...places.values()] : strangers.map(({ number }) => number));
  const bare = (number) => (unit && number.endsWith(unit) ? number.slice(0, -unit.length).trim() : number);
  const names = strangers.filter(({ number }) => NUMBER.test(bare(number)) || isSaid(bare(number)));
  const { places: meant, fault } = meantRows(names.map(({ name }) => name), labels, places);
  return { meant, names, fault };
}

/** Lines by the row that they name: {places, strangers, out, twice}, the text beside each name, lines of other names
 * with a number, what is left out, and a row that is named twice. */
function namedLines(lines, labels) {
  const called = [...labels.keys()].sort((i, j) => labels[j].length - labels[i].length);
  const placeOf = (line) => called.find((i) => line.toLowerCase().startsWith(labels[i].toLowerCase())
    && !/^[\p{L}\d]/u.test(line.slice(labels[i].length)));
  const places = new Map(), strangers = [], out = [];
  let twice;
  for (const line of lines) {
    const place = placeOf(line), { name, number } = LINE.exec(line)?.groups ?? {};
    const more = place === undefined ? "" : (name ?? "").slice(labels[place].length).trim();
    const isLonger = /\p{L}/u.test(more) && !VERB.test(`${more} `) && !(more && moneyIn(`${more} 1`));
    if (place === undefined || isLonger) {
      out.push(line);
      if (name && !isSumWord(name)) strangers.push({ name, number, line });
    } else if (places.has(place)) twice ??= place;
    else places.set(place, besideName(line.slice(labels[place].length)));
  }
  return { places, strangers, out, twice };
}

const besideName = (text) => text.replace(BESIDE, "").replace(VERB, "").replace(/[.;,]$/, "").trim();

/** Numbers without the unit that all have, which is told: {numbers, unit, told}, or {fault}. Per cent is none. */
function withoutUnit(texts) {
  const isInBrackets = texts.length > 1 && texts.every((text) => BRACKETS.test(text)); // "Ann (20)" is no loss
  const bare = isInBrackets ? texts.map((text) => BRACKETS.exec(text)[1]) : texts;
  if (bare.every((text) => isPart(text))) return { numbers: bare, told: "" };
  const { rows = [], units: [unit] = [], fault } = withoutUnits(bare.map((text) => [text]));
  if (fault || unit === "%") return { fault, numbers: bare, told: "" };
  return { numbers: rows.flat(), unit, told: unit ? unitsText([unit]) : "" };
}

/** Why what stands beside a name is no amount. */
function oddText(label, text) {
  if (!text) return `No amount stands beside ${label}`;
  const isTwo = text.split(/[; ]+/).every((word) => !readNumber(word).fault);
  return isTwo ? `Two numbers stand beside ${label}: “${text}”` : `“${shownLine(text)}” beside ${label} is no amount`;
}

const shownLine = (line) => withEscapes(line.replace(/\t/g, " ").slice(0, 40));

/** What the texts say for these rows. `totals` and `shares` are null until each row has a number. If only one of the
 * decimal marks gives the `whole` that is divided, that one is meant. */
export function proposalOf(texts, rows, mark, whole = null) {
  const typed = rows.map((_, r) => texts[r] ?? ""), ways = isMark(mark) ? [mark, otherMark(mark)] : [mark];
  const found = [readTogether(typed, mark), ...ways.map((by) => readTogether(typed, by, "rates"))];
  const isWhole = ({ read }) => {
    return whole && read.every(({ value }) => value) && Rational.sum(read.map(({ value }) => value)).equals(whole);
  };
  const chosen = found.find(isWhole) ?? found[0], { by } = chosen;
  const { read, told } = withParts(typed, chosen.read, { whole, mark: by, show: shortText });
  const isFault = ({ fault }, r) => fault && typed[r].trim();
  const totals = rows.length && read.every(({ value }) => value) ? read.map(({ value }) => value) : null;
  return {
    texts: typed, totals, shares: totals && sharesOf(rows, totals), values: read.map(({ value = null }) => value),
    faults: read.map((one, r) => (isFault(one, r) ? buttonFor(typed[r]) || `It ${one.fault}.` : null)),
    told: chosen !== found[0] ? `Read with the ${nameOfMark(by)} before decimals: so they add to the whole.`
      : [told, chosen.money && moneyText(chosen.money, by)].filter(Boolean).join(" "),
  };
}

/** What each player pays or gets, where the players of a row share alike. */
function sharesOf(rows, totals) {
  const shares = [];
  rows.forEach(({ players = [] }, r) => { // of many landings the page knows no players
    for (const i of players) shares[i] = totals[r].over(Rational.of(players.length));
  });
  return shares;
}
