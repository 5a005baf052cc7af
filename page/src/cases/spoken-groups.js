// Groups in sentences, as a mail has them: "a minibus for the Tigers alone would be £480, for the Rovers alone £420".
// Each amount has to stand beside words that name its group plainly: one with "alone", several with "and", or all.
import { countIn, COUNT, WITH } from "./all-together.js";
import { LONE } from "./group-words.js";
import { MONTH } from "./ledger.js";

const MOST_LETTERS = 4000, MOST_NAME = 40, MOST_WORDS = 4, MOST_NAMES = 16;
const CODE = "(?<!\\p{L})[A-Z]{3}(?!\\p{L})", MONEY = `(?:\\p{Sc}|${CODE})`;
const DIGITS = "(?:\\d{1,3}(?:[\u00a0 ]\\d{3}){1,4}(?!\\d)|\\d(?:[\\d.,'’\u202f]{0,15}\\d)?)";
const AMOUNT = new RegExp(`(?:(?<=\\s)[-−])?(?:${MONEY}\\s?)?(?<![\\p{L}\\d.,])${DIGITS}(?![\\p{L}\\d%/])`
  + `(?:\\s?${MONEY})?`, "gu");
const UNIT = /^\s\p{L}+(?=[,;])/u; // behind an amount
const BLANK = /\d[\u00a0 ]\d/, NAMED = /(?<!\p{L})\p{Lu}\p{L}*\s*$/u;
const HAS_MONEY = new RegExp(MONEY, "u");
const MARKS = /^\s*(?:>\s*)*(?:[-–•*]\s+|\d{1,2}[.)]\s+)?/u; // of a list or a quotation
const YEAR = "(?:19|20)\\d\\d", DAY = "\\d{1,2}(?:st|nd|rd|th|\\.)?", OF = `(?:,? ${YEAR})?`;
const DATED = new RegExp(`(?<!\\p{L})(?:${DAY} ?${MONTH}${OF}|${MONTH} ${DAY}${OF}`
  + `|(?:in|im|year|jahr|season|saison|en) ${YEAR}`
  + "|(?:item|top|punkt|point|page|seite|section|§) ?\\d{1,3}|\\d{1,2}[:.]\\d\\d (?:h|uhr|am|pm))"
  + "(?![\\d\\p{L}.,]\\d|\\p{L})", "giu");
const WRAPPED = /[^.:;!?\d\s\p{Sc}]\s*$/u, GOES_ON = /^(?:\p{Ll}|\p{Sc}?\d)/u; // a line that the next one goes on
const END = /(?<=[\d\p{Sc})%]|\p{Ll}{3})[.!?]\s+|;\s+/u; // of a sentence
const AND = "(?:and|und|et|en|e|y|och|with|mit|avec|met|con)";
const ARTICLE = "(?:the|die|der|das|den|les?|la|de|het|il|los?|las|gli|i|el)";
const STRONG = `(?:${AND}|for|about|if|that|für|wenn|dass|pour|si|que|voor|als|dat|per|se|para|go|only)`;
const capital = (words) => `(?:${words}|${words.replace(/(?<![\p{L}])\p{Ll}(?=\p{L})/gu, (one) => one.toUpperCase())})`;
const CUT = new RegExp(`^.*(?:[,:(–]|(?<!\\p{L})${capital(STRONG)}(?=\\s))\\s*`, "u");
const LEAST = new RegExp(`^(?:.*(?<![\\p{L}]|\\p{Lu}\\p{L}{0,30}\\s)${ARTICLE}\\s+|${capital(ARTICLE)}\\s+)`, "u");
const GOING = /\s+(?:would |to )?(?:go(?:es|ing)?|do(?:es)? it|travels?|fahren|fährt|vont|va|gaat|gaan)$/u;
const NAME = /^[\p{L}\d][\p{L}\d .'’&-]*$/u;
const LONE_WORD = new RegExp(`(?<!\\p{L})(?:${LONE})(?!\\p{L})`, "iu");
const WITH_WORD = new RegExp(`(?<!\\p{L})(?:${WITH})(?!\\p{L})`, "iu");
const ALL_OF = "(?:all|alle|tous|toutes|tutt[ie]|tod[oa]s|allemaal)";
const ALL = new RegExp("(?<!\\p{L})(?:"
  + `(?:${WITH}),? (?:all )?(?:they|the|die|les|i|los|las|de)? ?(?:${COUNT})|`
  + `${ALL_OF}(?: of (?:them|us)| the| les| e| l[oa]s)? (?:${COUNT}|${WITH})|${ALL_OF} of (?:them|us)`
  + `|(?:both|beide|allebei)(?: of them)?|(?:the|die|les|i|los|las|de) (?:${COUNT}) (?:${WITH})|everybody|everyone`
  + ")(?!\\p{L})", "iu");
const OTHERWISE = new RegExp("(?<!\\p{L})(?:each|per (?:head|person|team|club|child|day|week|month|year|seat|km)|apiece"
  + "|jeweils|je|pro|chacune?s?|par|less|more|than|discount|rebate|deposit|instead|extra|cheaper|dearer|except"
  + "|thousand|millions?|tausend|mille|duizend|plus|an? (?:day|week|month|year|head)"
  + "|without|unless|not|neither|nor|or|between|ohne|nicht|statt|oder|sans|pas|ou|zonder|niet|of which|davon"
  + ")(?!\\p{L})", "iu");
const SAVED = /(?<!\p{L})(?:sav(?:e|es|ed|ing|ings)|spar(?:en|t)|économi\p{L}*|bespa\p{L}*)(?!\p{L})/iu;
const SPOKEN = new RegExp(`(?<!\\p{L})(?:(?:${LONE})|${AND}\\s.{1,80}\\s(?:${WITH}))\\s(?!kr\\s)\\p{Ll}{2}`, "u");
const BARE = /^(\p{Lu}[\p{L}\d .'’&-]{0,39}?)\s*[:=–]?\s*$/u; // a name alone before an amount
const VERB = /\s(?:is|are|was|were|be|costs?|to|at|of|ist|sind|wäre|kostet|est|sont|coûte|kost)$/u;
const JOINER = new RegExp(`^\\s*(?:[,&+]|,?\\s*${AND}(?!\\p{L}))\\s*(?:${capital(ARTICLE)}\\s+)?$`, "u");
const CAPITAL_END = new RegExp(`(?<!\\p{L})(?!${capital(`${STRONG}|${ARTICLE}`)}\\s)\\p{Lu}[\\p{L}’'-]*\\s+$`, "u");
const GOES_FURTHER = new RegExp(`^\\s*(?:[&+]|,?\\s*${AND}\\s+(?:${ARTICLE}\\s+)?\\p{Lu}|\\p{Lu})`, "u");
const SEVERAL = new RegExp(`\\s(?:&|${AND})\\s`, "u");
const FROM = new RegExp(`\\S.*(?:,|&|\\+|(?<!\\p{L})${AND})\\s*(?:${ARTICLE}\\s+)?$`, "u");

/** A text with signs in the place of digits that are of a day, a year or an item. */
const undated = (text) => text.replace(DATED, (one) => one.replace(/\d/g, "_"));

/** The sentences of a text, each with the number of its line; lines that a mail program broke are one. */
function sentencesOf(text) {
  const lines = [];
  text.split(/\r\n?|\n/).forEach((given, k) => {
    const line = given.replace(MARKS, "").trim().replace(/\s+/g, " "), last = lines.at(-1);
    if (last && WRAPPED.test(last.text) && GOES_ON.test(line)) last.text += ` ${line}`;
    else lines.push({ text: line, line: k + 1 });
  });
  return lines.flatMap(({ text: one, line }) => one.split(END).map((part) => ({ text: part.trim(), line })))
    .filter((one) => one.text);
}

/** A sentence as its amounts, and the words around them: one more than amounts. */
function partsOf(given) {
  const text = undated(given), found = [...text.matchAll(AMOUNT)];
  const ends = found.map(({ index, 0: own }) => index + own.length);
  const words = [...found, { index: text.length }].map(({ index }, k) => text.slice(ends[k - 1] ?? 0, index));
  return { amounts: found.map(([own]) => own.trim()), words };
}

/** The name that stands alone before the one amount of a line. */
function bareName([words, behind, more]) {
  const [, name = ""] = BARE.exec(words) ?? [], isOne = more === undefined && /^\P{L}*$/u.test(behind);
  const isName = isOne && !VERB.test(name) && !ALL.test(name) && !LONE_WORD.test(name) && !WITH_WORD.test(name);
  return isName && !SEVERAL.test(name) ? name : undefined;
}

/** The name before "alone" in some words; undefined if there is none. */
function nameIn(words) {
  const { index } = LONE_WORD.exec(words) ?? {}, before = words.slice(0, index ?? 0).trim();
  const name = before.replace(GOING, "").replace(CUT, "").replace(LEAST, "").trim();
  const isName = name.length <= MOST_NAME && name.split(" ").length <= MOST_WORDS && NAME.test(name);
  return isName ? name : undefined;
}

/** The members of the group that some words name; undefined if they name none, and null where it isn't sure. */
function groupIn(words, names, isCost) {
  const plain = names.map((name) => name.replace(/[.*+?^${}()|[\]\\]/g, "\\$&")).join("|");
  const found = [...words.matchAll(new RegExp(`(?<![\\p{L}\\d])(?:${plain})(?![\\p{L}\\d])`, "giu"))];
  const [all] = ALL.exec(words) ?? [], isAlone = LONE_WORD.test(words);
  if (OTHERWISE.test(words) || (isCost && SAVED.test(words))) return null;
  if (!found.length && all) return !isAlone && [undefined, names.length].includes(countIn(all)) ? names : null;
  if (!found.length) return isAlone || WITH_WORD.test(words) ? null : undefined;
  const endOf = ({ index, 0: own }) => index + own.length, last = endOf(found.at(-1)), [{ index: first }] = found;
  const before = words.slice(0, first), behind = words.slice(last);
  const isRun = found.every((one, k) => !k || JOINER.test(words.slice(endOf(found[k - 1]), one.index)));
  const isOpen = CAPITAL_END.test(before) || GOES_FURTHER.test(behind) || /\d/.test(before + behind)
    || FROM.test(before.replace(UNIT, "").replace(/^\W+/u, ""));
  const isOne = found.length === 1, isCounted = !all || [undefined, found.length].includes(countIn(all));
  const isBare = isOne && BARE.exec(words)?.[1] === found[0][0];
  if (!isRun || isOpen || (isAlone !== isOne && !isBare) || !isCounted) return null;
  return found.map(([own]) => names.find((name) => name.toLowerCase() === own.toLowerCase()));
}

/** The amounts of a sentence with their groups, as [group, amount]: each behind the words of its group, or each before
 * them; null where it isn't sure, and undefined if no group is named. */
function groupsOf({ amounts, words }, names, isCost) {
  const groups = words.map((one) => groupIn(one, names, isCost));
  if (groups.every((group) => group === undefined)) return undefined;
  if (amounts.some((one, k) => BLANK.test(one) && NAMED.test(words[k]))) return null; // "Lot 1 480"
  const ways = [groups.slice(0, -1), groups.slice(1)], rests = [groups.at(-1), groups[0]];
  const way = ways.findIndex((some, k) => some.every(Array.isArray) && rests[k] === undefined);
  return way < 0 ? null : ways[way].map((group, k) => [group.join("+"), amounts[k]]);
}

/** What sentences say of groups: {rows, lines, left}, a row for each group with its number, and the sentences without
 * one; or {odd}, a sentence with its line of which it isn't sure. Null for another text. */
export function spokenGroups(text, isCost) {
  if (text.length > MOST_LETTERS || /[\t|]/.test(text)) return null;
  const all = sentencesOf(text).map((one) => ({ ...one, ...partsOf(one.text) }));
  const said = all.filter((one) => /\d/.test(undated(one.text))), pieces = said.flatMap(({ words }) => words);
  const isMarked = (one) => LONE_WORD.test(one) || WITH_WORD.test(one);
  const isSpoken = said.some(({ words }) => words.some((one) => SPOKEN.test(one)));
  if (!isSpoken && !said.some(({ words }) => words.filter(isMarked).length > 1)) return null;
  const called = [...pieces.map(nameIn), ...said.map(({ words }) => bareName(words))];
  const names = [...new Set(called.filter(Boolean))], [first] = said;
  const unsure = (odd) => (isSpoken ? { odd } : null);
  if (names.length < 2 || names.length > MOST_NAMES) return unsure(first);
  const found = said.map((one) => ({ ...one, rows: groupsOf(one, names, isCost) }));
  const own = found.filter(({ rows }) => rows), isPaid = own.every(({ amounts }) => amounts.every(isMoney));
  const isBeside = ({ rows, amounts }) => rows === undefined && isPaid && !amounts.some(isMoney); // a date
  const odd = found.find((one) => !one.rows && !isBeside(one));
  if (odd || !own.length) return unsure(odd ?? first);
  const texts = new Set(own.map((one) => one.text));
  return {
    rows: own.flatMap(({ rows }) => rows), lines: own.flatMap(({ rows, line }) => rows.map(() => line)),
    left: all.map((one) => one.text).filter((one) => !texts.has(one)),
  };
}

/** Whether a text is a sentence with several numbers, and nothing for one cell. */
export const isSentence = (text) => text.length <= MOST_LETTERS && text.match(/\d[\d.,'’]*/gu)?.length > 1
  && text.match(/\p{L}{2,}/gu)?.length > MOST_WORDS;

const isMoney = (amount) => HAS_MONEY.test(amount);
