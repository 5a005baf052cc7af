// A quota as people say it: a part of all votes, in per cent, as a fraction, or in words.
import { readNumber, shortText } from "../exact/decimals.js";
import { otherMark } from "../exact/marks.js";
import { lcm, Rational, ZERO } from "../exact/rational.js";
import { withEscapes } from "../game/names.js";

/** What says "more than" before a part, and "at least". */
export const MORE_THAN = "more than|over|mehr als|über|plus de|meer dan|más de|più di|oltre";
export const AT_LEAST = "at least|mindestens|au moins|minstens|ten ?minste|al menos|por lo menos|almeno";
const MORE = new RegExp(`^(${MORE_THAN}|above|>(?!=))\\s*`), LEAST = new RegExp(`^(${AT_LEAST}|>=|≥)\\s*`);
/** The words for a majority. */
export const MAJORITIES = "majority|mehrheit|majorité|meerderheid|mayoría|maggioranza";
const KINDS = "simple|absolute|qualified|two-thirds|2/3|einfache|qualifizierte|erforderliche|nötige|benodigde|gewone";
const NAME = `(?:the |die |la |de )?(?:(?:${KINDS})[ -])?(?:`
  + `quota|quorum|quórum|threshold|quotum|${MAJORITIES}|(?:ja-?stimmen |stimmen |sitze )?`
  + `(?:benötigt|erforderlich|nötig|nodig|vereist)|${AT_LEAST}`
  + "|(?:(?:votes|seats|shares|members|inhabitants) )?(?:needed|required))"
  + "(?: needed| required| absolue| requise| requerida| richiesta)?(?: (?:for|to) [^:]*)?(?: \\(.*\\))?";
const NAMED = new RegExp(`^${NAME}\\s*[:=]\\s*`, "iu");
/** Whose a quota may be. */
export const WHOM = "votes|seats|shares|weights?|capital|members|shareholders|inhabitants|habitants|einwohner|communes"
  + "|stimmen|sitze|(?:miteigentums)?anteile|aktien|mitglieder|voix|sièges|stemmen|zetels|votos|escaños|acciones|voti"
  + "|seggi|azioni";
const BEHIND = new RegExp("\\s*(?:of (?:all|the)|(?:of (?:all |the )*|aller |der |des |van (?:de |alle )?"
  + "|de (?:los |las )?|del? |dei |delle )?"
  + `(?:${WHOM})(?: present| cast)?)$`, "iu");
const MAJORITY = new RegExp("^((the|a|die|la|de|een) )?((simple|absolute|einfache|gewone|volstrekte) )?"
  + `(${MAJORITIES})( simple| absolue| absoluta| semplice| assoluta)?$`);
const UNANIMOUS = /^(all|everybody|unanim(ity|ous)|alle|einstimmig|unanimité|unanimidad|unanimità)$/;
const OF_MAJORITY = new RegExp(`[ -]*(?:${MAJORITIES})$|^(?:${MAJORITIES}) (?:of|des|de|di|von|van) `);
// without what each object has, since people type any word
const SIGNS = { __proto__: null, "½": "1/2", "⅓": "1/3", "⅔": "2/3", "¼": "1/4", "¾": "3/4", "⅗": "3/5", "⅘": "4/5" };
const COUNTS = {
  __proto__: null, one: 1, two: 2, three: 3, four: 4, five: 5, six: 6, seven: 7, eight: 8, ein: 1, zwei: 2, drei: 3,
  un: 1, deux: 2, trois: 3, a: 1, twee: 2, drie: 3, dos: 2, tres: 3, due: 2, tre: 3,
};
/** The words for how many parts. */
export const COUNT_WORDS = Object.keys(COUNTS).join("|");
/** The words for halves, thirds, quarters and fifths. */
export const PART_WORDS = ["half|hälfte|moitié|helft|mitad|metà", "thirds?|dritteln?|tiers|derden?|tercios?|terzi",
  "quarters?|vierteln?|quarts?|kwart|cuartos?|quarti", "fifths?|fünftel|vijfde|quintos?|quinti"];
const PARTS = PART_WORDS.map((words) => new RegExp(`^(${words})$`));
const PER_CENT = /^(.*?)\s*(?:%|per ?cent|prozent|pour cent|procent|por ciento|per cento)$/;
const SOME_OF = /^(\S+) (?:out of|of|von|sur|di|van|de)(?: the| den| les| las| los)? (\S+)$/; // "3 of 5"
const FRACTIONS = [3, 6, 7].flatMap((den) => Array.from({ length: den - 1 }, (_, k) => [k + 1, den]));

/** What names the quota above a list of votes. */
export const QUOTA = new RegExp(`^${NAME}[:.]?$`, "iu");

/** A quota without its name, and without whose votes it is a part of. */
export const bareQuota = (typed = "") => typed.trim().replace(/\s+/g, " ").replace(NAMED, "").replace(BEHIND, "");

/** Whether a text says a quota. */
export const isQuota = (text) => !readNumber(bareQuota(text)).fault || partIn(text, ".", []) !== null
  || SOME_OF.test(bareQuota(text).toLowerCase().replace(LEAST, ""));

/** What part of all votes a text says: {part, isMore}; null for another text, such as a number of votes. */
function partIn(typed, mark, votes) {
  const text = bareQuota(typed).toLowerCase();
  const isOneMore = /\S ?(\+ ?1|plus one|plus eins|plus un)$/.test(text), isMore = MORE.test(text) || isOneMore;
  const bare = text.replace(MORE, "").replace(LEAST, "").replace(/ ?(\+ ?1|plus one|plus eins|plus un)$/, "");
  if (MAJORITY.test(bare)) return { part: Rational.of("1/2"), isMore: true };
  const [, some, many] = SOME_OF.exec(bare) ?? [], whole = Rational.sum(votes);
  const [count, of] = [some, many].map((word) => Rational.of(String(COUNTS[word] ?? (/^\d+$/.test(word) ? word : 0))));
  if (!count.isZero() && whole.equals(of)) return { part: count.over(of), isMore };
  if (UNANIMOUS.test(bare)) return { part: Rational.of(1), isMore: false };
  const short = bare.replace(OF_MAJORITY, ""), part = ofWords(short) ?? ofNumbers(short, mark, votes);
  return part && { part, isMore };
}

/** The part of a whole that a text says in words or in per cent; null for another text. */
export function partSaid(text, mark) {
  const bare = text.toLowerCase();
  return ofWords(bare) ?? (PER_CENT.test(bare) ? ofNumbers(bare, mark, []) : null);
}

/** "Two thirds", "zweidrittel", "¾". */
function ofWords(text) {
  if (SIGNS[text]) return Rational.of(SIGNS[text]);
  const count = Object.keys(COUNTS).find((word) => text.startsWith(word)) ?? /^\d+(?=[ -]\p{L})/u.exec(text)?.[0];
  const rest = text.slice(count?.length ?? 0).replace(/^[ -]+|^(die|la|de|een) /, "");
  const den = PARTS.findIndex((one) => one.test(rest)) + 2;
  return den > 1 ? Rational.of(`${COUNTS[count] ?? count ?? 1}/${den}`) : null;
}

/** "60 %", "66 2/3 %", "2/3": a fraction below 1 is a part, and so is a decimal that is below each vote. */
function ofNumbers(text, mark, votes) {
  const [, percent] = PER_CENT.exec(text) ?? [], isFraction = /^\d+ ?\/ ?\d+$/.test(text);
  if (percent === undefined && !isFraction) {
    const { value } = readNumber(text, mark), given = votes.filter((one) => !one.isZero());
    return value && ZERO.less(value) && [Rational.of(1), ...given].every((one) => value.less(one)) && given.length > 1
      ? value : null;
  }
  const [, whole = "0", rest = percent ?? text] = /^(\d+) (\d+ ?\/ ?\d+)$/.exec(percent ?? "") ?? [];
  const sign = SIGNS[rest.at(-1)], bare = sign ? rest.slice(0, -1).trim() || "0" : rest;
  const [value, other] = [mark, otherMark(mark)].map((by) => readNumber(bare, by).value), hundred = Rational.of(100);
  if (!value) return null;
  const isOther = percent !== undefined && other && hundred.less(value) && !hundred.less(other); // 66,667 %
  if (isOther) return other.over(hundred);
  const all = value.plus(Rational.of(whole)).plus(Rational.of(sign ?? 0));
  if (isFraction) return all.less(Rational.of(1)) ? all : null;
  return all.over(hundred);
}

/** The least number of votes that reaches the part of `all` that a text says, among the sums that votes can have; null
 * for another text. */
export function leastOf(typed, votes, mark, all = Rational.sum(votes)) {
  const said = partIn(typed ?? "", mark, votes);
  if (!said) return null;
  const unit = Rational.of(votes.reduce((den, one) => lcm(den, one.den), 1n)), steps = all.times(said.part).times(unit);
  return Rational.of(said.isMore ? steps.floor() + 1n : -steps.negated().floor()).over(unit);
}

/** Of two quotas, {text, whom}, those that differ: the first, if both ask for as many of these votes, and of nobody
 * else's. */
export function apartQuotas(quotas, votes, mark) {
  const leastIn = ({ text }) => String(leastOf(text, votes, mark) ?? readNumber(bareQuota(text), mark).value);
  const [one, other] = quotas, whom = new Set(quotas.map((quota) => quota.whom).filter(Boolean));
  const isOne = quotas.length === 2 && whom.size < 2;
  return isOne && votes.length > 0 && leastIn(one) === leastIn(other) ? [one] : quotas;
}

/** What is needed of a ballot, of how many: "75 % of 320 votes, so at least 240", "12 of 17 votes". */
export function neededText(typed, { votes, quota }, mark) {
  const [all, least] = [Rational.sum(votes), quota].map(shortText);
  const bare = bareQuota(typed).toLowerCase().replace(MORE, "").replace(LEAST, "");
  if (!leastOf(typed, votes, mark) || SOME_OF.test(bare)) return `${least} of ${all} votes`;
  return `${withEscapes(bareQuota(typed))} of ${all} votes, so at least ${least}`;
}

/** 66.67 % of 90 votes is a little more than 60, and two thirds are 60. If a rounded fraction asks for another number
 * of votes: {text, ways}, the fraction and the two numbers; else null. */
export function roundedPart(typed, votes, mark) {
  const [, whole, decimals] = /(\d+)[.,](\d+) ?%/.exec(typed) ?? [];
  if (!decimals) return null;
  const unit = Rational.of(10n ** BigInt(decimals.length)), given = Rational.of(BigInt(whole + decimals));
  const isNear = ([num, den]) => {
    const off = Rational.of(100 * num).over(Rational.of(den)).times(unit).minus(given);
    return off.abs().less(Rational.of(1));
  };
  const found = FRACTIONS.find(isNear);
  const text = found && typed.replace(/\d+[.,]\d+ ?%/, found.join("/"));
  const ways = text ? [typed, text].map((one) => leastOf(one, votes, mark)) : [];
  return text && !ways[0].equals(ways[1]) ? { text, ways: ways.map(String) } : null;
}
