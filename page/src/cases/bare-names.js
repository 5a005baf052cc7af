// Names that were pasted alone, without numbers: each is short, and no sentence, and has no amount in it.
import { withEscapes } from "../game/names.js";

const MOST_LETTERS = 64, MOST_WORDS = 7, FEW_WORDS = 4; // in small letters, and of a name with a point behind
const MOST_SHOWN = 60;
const AMOUNT = new RegExp("\\p{Sc}|(?<!\\p{L})[A-Z]{3}\\s?\\d|\\d\\s?(?:[A-Z]{3}|%)(?!\\p{L})|\\d[.,'’]\\d{2,3}(?!\\d)"
  + "|[:=]\\s*\\S{0,4}\\s?\\d|\\s\\d+ (?:for|für|pour) ", "u");

/** Whether a text may be a name. */
export function isBareName(text) {
  const words = text.trim().split(/\s+/), { length } = words, isLower = (word) => /^\p{Ll}/u.test(word);
  const isLong = length > MOST_WORDS && words.filter(isLower).length * 2 > length; // "Ministry of .." has few such
  const isSentence = isLong || (length > FEW_WORDS && /[.!?]$/.test(text)) || /[,;!?=]$/.test(text);
  return text.length <= MOST_LETTERS && !isSentence && !AMOUNT.test(text);
}

/** Why texts aren't taken as names, by the first that is none; undefined if all may be. `way` says what to give. */
export function notNames(texts, way) {
  const odd = texts.find((text) => text && !isBareName(text));
  const shown = withEscapes((odd ?? "").slice(0, MOST_SHOWN)), more = odd?.length > MOST_SHOWN ? " …" : "";
  return odd === undefined ? undefined : `“${shown}${more}” is no name, and no row of names and numbers. ${way}`;
}
