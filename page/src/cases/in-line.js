// Names and numbers in one line, as a sentence has them: "Vance 41, Ruiz 26.5 and Ott 7.5".
import { isSumWord } from "../game/names.js";
import { quotasIn } from "./clauses.js";
import { WHOEVER } from "./leaders.js";
import { QUOTA, WHOM } from "./quota.js";
import { ESTATE } from "./whole-words.js";

const MOST_LETTERS = 2000; // of a text with such a line
const NUMBER = "\\p{Sc}?\\s?\\d(?:[\\d.,'’]*\\d)?(?:\\s?(?:\\p{Sc}|%|[A-Z]{3}))?";
const END = "(?=\\s*(?:;|[,.](?!\\d)|\\s(?:and|und|et|e|y|en)\\s|$))"; // and not within 8,300
const UNIT = "(?:\\s(?!(?:and|und|et|e|y|en)\\s)\\p{Ll}{2,12})?"; // as in "41 shares"
const ITEM = new RegExp(`\\s*([^\\d,;:]*\\p{L}[^\\d,;:]*?)\\s*[ :=]\\s*(${NUMBER}${UNIT})${END}\\s*(?:[,;.]\\s*)*`
  + "(?:(?:and|und|et|e|y|en)\\s+)?", "uy");
/** What stands between who pays or gets and the amount. */
export const PAYS = "(?:(?:should|would|will|soll|wird) )?(?:pays?|gets?|takes?|bears?|receives?|zahlt|bekommt|trägt|"
  + "übernimmt|erhält|paie|paye|reçoit|prend|paga|recibe)";
const IN_BRACKETS = new RegExp("\\s*([^\\d,;:()]*\\p{L}[^\\d,;:()]*?)\\s*"
  + `\\((${NUMBER}${UNIT})\\)${END}\\s*(?:[,;.]\\s*)*(?:(?:and|und|et|e|y|en)\\s+)?`, "uy"); // Labour (26)
const BEHIND = new RegExp(`^\\)?\\s*(?:[:=]|[–-](?=\\s)|(?:${PAYS})\\s)?\\s*(${NUMBER})(?![.,'’]?\\d)`, "u");
const ENDS = new RegExp(`^(?:${END}|\\s\\()`, "u"), HAS_WORDS = /^\s\p{L}+\s\p{L}/u; // behind a number
const VERB = /\s(?:owes|has|holds|claims|gets|pays|wants|schuldet|hat|hält|fordert|bekommt|zahlt|doit)$/u;
const SHORT = /^\D{1,60}\s\p{Sc}?\d[\d.,]*$/u; // a line of a name and its number
const SAID = [/^([^:]{1,200}):\s+(?=\p{L})(.*)$/u, /^(.{1,300}):\s+(?=\p{L})([^:]*)$/u]; // before such a list

/** The names and numbers of a line of nothing else, each name once; null for another. */
function itemsOf(line) {
  return itemsBy(ITEM, line) ?? itemsBy(IN_BRACKETS, line);
}

function itemsBy(way, line) {
  const found = [];
  way.lastIndex = 0;
  while (way.lastIndex < line.length) {
    const item = way.exec(line);
    if (!item || WHOEVER.test(item[1])) return null;
    found.push([item[1].trim().replace(VERB, ""), item[2].trim()]);
  }
  return found.length > 1 && new Set(found.map(([name]) => name)).size === found.length ? found : null;
}

const OF_VOTES = new RegExp(`\\s(?:${WHOM})$`, "iu");

/** Items without the word for votes behind some of the numbers, as in "Ghent has 12 votes, Lyon 9". */
function bareItems(items) {
  const count = items.filter(([, number]) => OF_VOTES.test(number)).length;
  if (!count || count === items.length) return items;
  return items.map(([name, number, ...more]) => [name, number.replace(OF_VOTES, ""), ...more]);
}

/** The same of what stands behind a colon: {items, said}, `said` being the words before it. */
export function saidItemsOf(line) {
  const items = itemsOf(line), ways = items ? [] : SAID.map((one) => one.exec(line) ?? []);
  const found = ways.map(([, said, rest]) => ({ items: rest ? itemsOf(rest) : null, said }));
  return found.find((one) => one.items) ?? { items };
}

/** A line by its sentences, if it is no list as a whole, and one of them is. */
function sentencesOf(line) {
  const some = saidItemsOf(line).items ? [line] : line.split(/(?<=\d\)?|\p{L}{3})[.;]\s+(?=\p{L})/u);
  return some.filter((one) => saidItemsOf(one).items).length === 1 ? some : [line];
}

const YEARS = /(?<!\d)(?:19|20)\d\d(?!\d)/g;
/** Whether words beside a list in one line say nothing that counts: no quota, no number but of a year or an item. */
const isTalk = (text) => /^\d{1,2}$/.test(text) || (!/\d/.test(text.replace(YEARS, "")) && !quotasIn(text).length);

/** Rows with a row for each name of a line of names and numbers, if one line is such and none is another row: {rows,
 * isParted, left}. Of two such lines with the same names each row has both numbers. Words before a list are a line
 * above; in prose, of several sentences, they are `left` out. */
export function partedInLine(rows) {
  const all = rows.map((row) => row.join(",").trim().replace(/\s+/g, " "));
  if (all.reduce((sum, { length }) => sum + length, 0) > MOST_LETTERS) return { rows, isParted: false, left: [] };
  const parts = all.map(sentencesOf), lines = parts.flat(), left = [];
  const inProse = new Set(parts.filter(({ length }) => length > 1).flat());
  const found = lines.map(saidItemsOf), [one, two, other] = found.filter(({ items }) => items);
  const numberOf = (name) => two.items.find(([own]) => own === name)?.[1];
  const isPair = two && !other && two.items.length === one.items.length && one.items.every(([own]) => numberOf(own));
  const isWhole = (line) => [QUOTA, ESTATE].some((one) => one.test(line.replace(/\s\P{L}*$/u, "")));
  const isOther = (line, k) => !found[k].items && SHORT.test(line) && !isWhole(line);
  if (!one || (two && !isPair) || lines.some(isOther)) return { rows, isParted: false, left };
  const whole = (line) => [line.replace(/,(?=\S)(?!\d)/g, ", ")];
  const own = bareItems(one.items).map((item) => (isPair ? [...item, numberOf(item[0])] : item));
  const rowsOf = ({ items, said }, k) => {
    const text = said ?? lines[k], isLeft = inProse.has(lines[k]) && isTalk(text) && (said || !items);
    if (isLeft) left.push(text);
    return [...(isLeft || (items && !said) ? [] : [whole(text)]), ...(found[k] === one ? own : [])];
  };
  return { rows: found.flatMap(rowsOf), isParted: true, left };
}

const MONEY = "(?=(?:\\p{Sc}|[A-Z]{3})?\\s?\\d)", NEXT = `[;,]?\\s+(?:and|und|et|y|e|en)\\s+${MONEY}|[;,]\\s+${MONEY}`;
const FOR = "(?:for|to|für|an|pour|à|voor|aan|para)\\s(?:the\\s|die\\s)?";
const GIVEN = new RegExp(`^([\\p{L}\\s.,:’']{0,80}?)((?:[A-Z]{3}\\s)?${NUMBER})\\s${FOR}(\\D{1,80}?)[.;,]?$`, "u");

/** Lines of a name and its number of a text that has the number before each, as "8,300 for Ops and 9,000 for Sales":
 * {text, left}, `left` being the words before them, which are none of the `names`. Null for another text. */
export function linesByNumber(text, names) {
  if (text.length > MOST_LETTERS) return null;
  const lines = text.trim().split(new RegExp(`${NEXT}|[\\r\\n]+`, "u")).map((line) => line.trim().replace(/\s+/g, " "));
  const found = lines.map((line) => GIVEN.exec(line)), [before = "", ...others] = found.map((one) => one?.[1].trim());
  const isName = names.some((name) => before.toLowerCase().includes(name.toLowerCase()));
  if (!others.length || !found.every(Boolean) || others.some(Boolean) || isName) return null;
  const own = found.map(([, , number, name]) => `${name}\t${number}`);
  return { text: own.join("\n"), left: [before].filter(Boolean) };
}

const UNIT_LINE = /[\r\n]+All amounts are in \S.{0,20}\.\s*$/; // below the page's own sentence, on paper
const BETWEEN = /^(?:[\s,;.:/+&–-]|(?:and|und|et|e|y|en)(?=\s|$))+|[\s,;:–-]+$/gu;
const AMOUNT = /(?:^|\s)\p{Sc}?\d[\d.,'’]*$/u; // behind a name

/** The place of each name in a line with the number beside it: {name, number, from, to}; null where one has none. */
function placesOf(line, names) {
  const found = names.map((name) => {
    const plain = name.replace(/[.*+?^${}()|[\]\\]/g, "\\$&");
    const all = [...line.matchAll(new RegExp(`(?<![\\p{L}\\d])${plain}(?![\\p{L}\\d])`, "giu"))];
    const from = all.length === 1 ? all[0].index : line.length, end = from + name.length;
    const [said, number] = BEHIND.exec(line.slice(end)) ?? [];
    return said && { name, number: number.trim(), from, to: end + said.length };
  });
  return found.every(Boolean) ? found : null;
}

/** A text in one line as lines of a name and its number, if each of the `names` is in it once, with one number beside:
 * {text, left}, `left` being the words around them, which name no other row. Null for another text. */
export function linesByName(text, names) {
  const own = text.replace(UNIT_LINE, "").trim(), line = own.replace(/\s+/g, " ");
  if (/[\r\n\t]/.test(own) || names.length < 2 || line.length > MOST_LETTERS) return null;
  const found = placesOf(line, names), inOrder = found && [...found].sort((one, other) => one.from - other.from);
  if (!found) return null;
  const behind = line.slice(inOrder.at(-1).to), last = inOrder.length - 1;
  const [before, ...between] = inOrder.map(({ from }, k) => line.slice(inOrder[k - 1]?.to ?? 0, from));
  const isEnd = ({ to }, k) => ENDS.test(line.slice(to))
    || (k === last ? HAS_WORDS.test(behind) || /^:\s/.test(behind) : /^\s*[/+&]?\s*$/.test(between[k]));
  const bare = (words) => words.replace(BETWEEN, "");
  const isRow = (words) => AMOUNT.test(bare(words)) && !isSumWord(bare(words).replace(AMOUNT, ""));
  const isOdd = isRow(behind) || (!/:\s*$/.test(before) && isRow(before)) || between.some((words) => /\d/.test(words));
  if (isOdd || !inOrder.every(isEnd)) return null;
  const lines = found.map(({ name, number }) => `${name}\t${number}`);
  return { text: lines.join("\n"), left: [before, ...between, behind].map(bare).filter(Boolean) };
}
