// Amounts of a division that are said by the whole: "50 %", "a third", "the rest", "nothing".
import { readNumber } from "../exact/decimals.js";
import { Rational, ZERO } from "../exact/rational.js";
import { isNothing } from "../cases/block.js";
import { partSaid } from "../cases/quota.js";
import { withEscapes } from "../game/names.js";
import { listed } from "../game/words.js";

const MOST_LETTERS = 40;
const REST = /^(?:the |den |le |la |el |il |de )?(?:rest|remainder|remaining|balance|reste|resto|übrige)$/iu;
const OF = /\s+(?:of (?:it|all|the (?:whole|total|cost))|davon|vom ganzen|du total)$/iu; // behind a part
const EVEN = /^(?:equal(?:ly| parts| shares)?|evenly|zu gleichen teilen|à parts égales|.{0,12}\beach|each .{1,12})$/iu;
const WEIGHED = /^(?:pro ?rata|proportional(?:ly|)|in proportion|anteilig|verhältnismäßig|au prorata)$/iu;

/** The part of the whole that a text says, {part}, or that it takes the `rest`; null for another text. A fraction
 * alone, as "1/2", is a number. */
function partOf(typed, mark) {
  const text = typed.trim().replace(/\s+/g, " ");
  if (!text || text.length > MOST_LETTERS || !readNumber(text, mark).fault) return null;
  if (REST.test(text)) return { isRest: true };
  if (isNothing(text)) return { part: ZERO };
  const part = partSaid(text.replace(OF, ""), mark);
  return part && { part };
}

/** Whether a text says an amount by the whole. */
export const isPart = (text) => partOf(text, ".") !== null;

/** What can be done by a button, of a text that says how all is divided. */
export function buttonFor(typed) {
  const text = typed.trim();
  if (EVEN.test(text)) return "“Fill it with” has equal parts, below “What if”.";
  return WEIGHED.test(text) ? "“Fill it with” has parts in proportion, below “What if”." : "";
}

/** Numbers that were read of `texts`, with those that are said by the `whole`: {read, told}. The rest is known if all
 * others are, and one takes it. */
export function withParts(texts, read, { whole, mark, show }) {
  const isKnown = (one) => one && (whole || one.part?.isZero()), parts = texts.map((text) => partOf(text, mark));
  const said = parts.map((one) => (isKnown(one) ? one : null)), of = whole ?? ZERO;
  if (!said.some(Boolean)) return { read, told: "" };
  const known = read.map((one, r) => (said[r]?.part ? { value: of.times(said[r].part) } : one));
  const rests = said.flatMap((one, r) => (one?.isRest ? [r] : [])), [rest, another] = rests;
  const others = known.filter((_, r) => r !== rest), values = others.map(({ value }) => value);
  const left = rest !== undefined && another === undefined && values.every(Boolean)
    ? whole.minus(Rational.sum(values)) : null;
  const open = { fault: another === undefined ? "is known once all others have an amount" : "stands twice" };
  const now = known.map((one, r) => (!said[r]?.isRest ? one : left ? { value: left } : open));
  const shown = said.flatMap((one, r) => (one && now[r].value ? [`“${withEscapes(texts[r].trim())}” is ${
    show(now[r].value)}`] : []));
  const all = [...new Set(shown)];
  return { read: now, told: whole && all.length ? `Of the whole, ${show(whole)}: ${listed(all)}.` : "" };
}
