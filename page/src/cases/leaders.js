// Lines of a document whose names and numbers stand apart by dots, as "Football ..... 21 votes", or end with what is
// counted, as "Football 21 votes". The paragraphs around them are no rows.
import { isBareName } from "./bare-names.js";

const AMOUNT = "(?:\\p{Sc}|[A-Z]{3})?\\s?\\d";
const LED = new RegExp(`^(.*[\\p{L}\\d)\\]])\\s*(?:[.…·_]\\s?){3,}\\s*(${AMOUNT}.*)$`, "u");
const COUNTED = new RegExp("^(\\p{L}.*[\\p{L}\\d)])\\s+(\\d[\\d.,'’]*\\s(?:votes?|seats?|shares?|stimmen?|sitze?"
  + "|anteile?|voix|sièges?|parts|stem(?:men)?|zetels?|votos?|voti|escaños|seggi)[.,;]?)$", "iu");
const VERB = /\s(?:has|have|holds?|hat|haben|besitzt|a|ont|heeft|tiene|ha|with|mit|[-–:=])$/iu;
const NAME = /^(?:\p{Lu}|(?:de|den|van|von|du|la|le|di)\s)/u; // begins so
/** How a name begins that is no person, as "each other member". */
export const WHOEVER = /^(?:each|every|all|any|no|jede[rs]?|alle|kein\p{L}*|chaque|tous|toutes|elke?|cada|ogni)\s/iu;
const PARAGRAPH = /^(?:§|art(?:icle|ikel)?\.?\s\d|[([]?(?:\d+|[a-z])[.)\]]\s|\(\d+\))/iu;

const SAYS = /[:=]\s*[^\s:=]*\d\S*(?:\s\S+){0,3}$/u; // a line of a name, a colon and a number

const isOther = (text) => WHOEVER.test(text) || !NAME.test(text);

/** Rows of one cell each with a colon before the number of each such line, if two or more are: {rows, left}, where
 * `left` are the sentences and the numbered paragraphs, which aren't among the rows. */
export function ledRows(rows) {
  const texts = rows.map((row) => row.find(Boolean) ?? ""), isOne = rows.every((row) => row.filter(Boolean).length < 2);
  const found = texts.map((text) => LED.exec(text) ?? (isOther(text) ? null : COUNTED.exec(text)));
  if (!isOne || found.filter(Boolean).length < 2) return { rows, left: [] };
  const isSentence = (text) => !isBareName(text) && !SAYS.test(text);
  const isText = (text) => [PARAGRAPH, WHOEVER].some((one) => one.test(text)) || isSentence(text);
  const isOut = (text, k) => text && !found[k] && isText(text);
  const own = (text, k) => [found[k] ? `${found[k][1].replace(VERB, "")}: ${found[k][2].trim()}` : text];
  return { rows: texts.map(own).filter((_, k) => !isOut(texts[k], k)), left: texts.filter(isOut) };
}
