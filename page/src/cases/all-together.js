// The line of all players together, by whatever name: "All", "Total", "les trois", "Joint order". Where its words
// aren't certain it is asked about.
import { readNumber } from "../exact/decimals.js";
import { Rational } from "../exact/rational.js";
import { isSumWord } from "../game/names.js";

export const WITH = "together|jointly|zusammen|gemeinsam|ensemble|insieme|junt[oa]s|samen";
const COUNTS = ["two|zwei|beiden?|both|allebei|ambos|entramb[ie]|deux|due|dos|twee", "three|drei|trois|tre|tres|drie",
  "four|vier|quatre|quattro|cuatro", "five|fünf|cinq|cinque|cinco|vijf", "six|sechs|sei|seis|zes", "seven|sieben|sept",
  "eight|acht|huit"];
export const COUNT = `\\d+|${COUNTS.join("|")}`;
const COUNTED = new RegExp(`(?:^|\\s)(${COUNT})(?=\\s|$)`, "iu");
const WORDS = new RegExp("^(?:(?:(?:all|alle|tous|toutes|tutt[ie]|tod[oa]s|allemaal)"
  + `(?: of (?:them|us)| the| les| e| l[oa]s)?(?: (?:${COUNT}))?`
  + "|both(?: of them)?|beide|alle beide|allebei|ambos|entramb[ie])"
  + `(?: (?:${WITH}))?|everybody|everyone|us all|[Σ∑]|${WITH}|grand coalition|(?:the )?whole group)$`, "iu");
const PERHAPS = new RegExp(`^(?:(?:the|die|les?|i|los|las|de) )?(?:${COUNT})(?: of them)?(?: (?:${WITH}))?$`, "iu");
const SHARED = new RegExp(`(?<!\\p{L})(?:${WITH}|joint|shared|common|combined|collective|everybody|everyone|both`
  + "|alle[nr]?|(?:gemeinsam|gesamt|sammel|gezamenlijk)\\p{L}*|tous|toutes|en commun|groupée?s?|tutti"
  + "|tutte|in comune|todos|todas|conjunt[oa]|iedereen)(?!\\p{L})|^(?:one|a single) ", "iu");
const SUMMED = /(?<!\p{L})(?:(?:sub)?totals?|sums?|summe|somme|suma|totale|totaal|insgesamt)(?!\p{L})/iu;
const REST = /^(?:(?:the|total|joint) )?(?:savings?|ersparnis|einsparung|économies?|besparing|risparmio|ahorro)$/iu;
const OF_ALL = /(?<!\p{L})(?:[Aa]ll|ALL)(?![\p{L}'’-]| \p{Lu})/u; // and no "All Saints"

export const isLone = ({ members }) => members.length === 1;
const textOf = ({ members: [one] }) => one;

/** Whether a text says that it is everybody. */
export const isAllWord = (text) => WORDS.test(text);

/** How many a text says that there are; undefined if it doesn't. */
export function countIn(text) {
  const [, word] = COUNTED.exec(text) ?? [];
  const place = COUNTS.findIndex((one) => new RegExp(`^(${one})$`, "iu").test(word));
  return word === undefined ? undefined : place < 0 ? Number(word) : place + 2;
}

/** Whether a number is the sum of those of lines, by one of the two decimal marks. */
function isSumOf(number, lines) {
  return [".", ","].some((mark) => {
    const [own, ...values] = [number, ...lines.map((line) => line.number)].map((text) => readNumber(text, mark).value);
    return Boolean(own) && values.every(Boolean) && own.equals(Rational.sum(values));
  });
}

/** A line whose words say that it is a sum, and that is that of the lines of one player each, beside one of all. */
export function sumBeside(read) {
  const lone = read.filter(isLone), isNamed = (line) => isAllWord(textOf(line)) || SUMMED.test(textOf(line));
  const named = lone.filter(isNamed), others = lone.filter((line) => !isNamed(line));
  const hasAll = named.length > 1 || read.some(({ members }) => members.length === others.length && others.length > 1);
  return hasAll ? named.find((line) => SUMMED.test(textOf(line)) && isSumOf(line.number, others)) : undefined;
}

/** Lines that may be all together: {lines, players}, and who then are the players. They say so, or how many they are;
 * or one stands behind all groups, or is left where each other group is there. */
function mayBeAll(read, roles, more) {
  const lone = read.filter(isLone), groups = read.flatMap((line) => (isLone(line) ? [] : line.members));
  const inside = new Set([...groups, ...more]);
  const names = [...new Set([...lone.map(textOf), ...inside])], n = names.length - 1;
  const free = lone.filter((line) => !inside.has(textOf(line)) && roles[textOf(line)] !== "player");
  const isNamed = (text) => isAllWord(text) || isSumWord(text)
    || [SHARED, SUMMED, REST, OF_ALL].some((words) => words.test(text));
  const named = free.filter((line) => roles[textOf(line)] || isNamed(textOf(line)));
  const counted = free.filter((line) => PERHAPS.test(textOf(line)) && countIn(textOf(line)) === n);
  const isLast = (line) => free.length === 1 && read.length === 2 ** n - 1;
  const isBehind = (line) => line === read.at(-1) && read.length > 1 && !isLone(read.at(-2));
  const hasAll = read.some(({ members }) => members.length === n);
  const rest = n > 2 && !hasAll ? free.filter((line) => isLast(line) || isBehind(line)) : [];
  const lines = [named, counted, rest].find(({ length }) => length) ?? [];
  return { lines, players: names.filter((name) => !lines.some((line) => textOf(line) === name)) };
}

/** Puts all players into the place of a line for all together, and gives the lines to be left `out`; or what is `asked`
 * of a line, with all `players`: whether it is they (`isSum`: or only a sum; `hasAll`: they have a line). `roles` has
 * what was said of lines by their texts: "all", "player" or "out"; `more` are players whom no such line names. */
export function wholeOf(read, roles = {}, more = []) {
  const { lines, players } = mayBeAll(read, roles, more), n = players.length;
  if (n < 2) return { out: [] };
  const others = read.filter((line) => isLone(line) && !lines.includes(line)), roleOf = (line) => roles[textOf(line)];
  const isSum = (line) => SUMMED.test(textOf(line)) && isSumOf(line.number, others);
  const isNamed = (text) => (isAllWord(text) || isSumWord(text)) && [undefined, n].includes(countIn(text));
  const isWhole = (line) => roleOf(line) === "all" || (!roleOf(line) && isNamed(textOf(line)) && !isSum(line));
  const hasAll = (line) => read.some((one) => one !== line && (one.members.length === n
    || (lines.includes(one) && isWhole(one))));
  const open = lines.find((line) => !roleOf(line) && (hasAll(line) || !isWhole(line)));
  if (open) return { asked: textOf(open), players, isSum: isSum(open), hasAll: hasAll(open) };
  const [out, whole] = [true, false].map((isOut) => lines.filter((line) => (roleOf(line) === "out") === isOut));
  for (const line of whole) Object.assign(line, { members: players, words: textOf(line) });
  return { out };
}
