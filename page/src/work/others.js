// The same game with another amount to divide: several estates side by side, and an overrun.
import { Rational } from "../exact/rational.js";
import { moneyText, readNumber, readTogether, shortText } from "../exact/decimals.js";
import { nameOfMark, otherMark } from "../exact/marks.js";
import { withEscapes } from "../game/names.js";
import { solutionOf } from "./answers.js";
import { amountsOf, byEachRule, isStable, sideOf, worstOf } from "./changes.js";

const MOST_ESTATES = 12;
const PARTING = /[;\n]|,\s/; // a comma in front of a blank stands in no number

const UNIT = /^\s*(?:[A-Z]{3}|\p{Sc})\s*(?=[\d-])|(?<=[\d-])\s*(?:[A-Z]{3}|\p{Sc})\s*$/gu;

/** The amounts that a person listed: [{value, note}] or [{fault}]. Semicolons and lines part them; without these blanks
 * do, but where the whole is one number with its thousands parted. All are read by one mark, as cells are. */
export function amountsIn(typed, mark) {
  const isParted = PARTING.test(typed.trim()), plain = typed.replace(UNIT, "");
  const isOne = !isParted && /\S\s\S/.test(plain) && !readNumber(plain, mark).fault;
  const texts = isOne ? [typed] : plain.split(isParted ? PARTING : /\s+/);
  const found = texts.map((text) => text.trim()).filter(Boolean), kept = found.slice(0, MOST_ESTATES);
  const all = moneyRead(kept, plain !== typed, mark);
  const read = kept.map((text, k) => amountOf(text, all.read[k], { ...all, isOne }));
  if (found.length > MOST_ESTATES) read.push({ fault: `Only the first ${MOST_ESTATES} amounts are shown.` });
  return read;
}

/** Amounts that are read together without their units, which are money if there `isUnit`. */
const moneyRead = (texts, isUnit, mark) => readTogether(texts.map((text) => text.replace(UNIT, "").trim()), mark,
  isUnit ? "money" : undefined);

/** One amount; `note` says how it is read where that could be doubted, and `other` by which mark it would be another.
 * */
function amountOf(text, { value, fault, doubt }, { by: mark, isOne, isSettled, money }) {
  const shown = withEscapes(text.slice(0, 20)), other = otherMark(mark);
  if (fault) return { fault: `“${shown}” ${fault}.` };
  if (doubt && money) return { value, note: moneyText(text.replace(UNIT, ""), mark) };
  if (doubt && !isSettled) {
    return { value, note: `“${shown}” is read as ${shortText(value)}: the ${nameOfMark(mark)} comes before decimals, `
      + `and the ${nameOfMark(other)} between thousands.`, other };
  }
  const note = isOne && `This is read as one amount, ${shortText(value)}. Part several by semicolons.`;
  return note ? { value, note } : { value };
}

/** The shares of an estate for several amounts: [{amount, shares, note, other}], or a fault in the place of one's
 * shares. */
export function estates({ typed, mark }, { tree: game }) {
  return amountsIn(typed, mark).map(({ value, fault, ...told }) => {
    if (fault) return { fault };
    const { version, ...others } = game, estate = value.toDocument();
    const isWhole = value.isWhole() && version === undefined;
    try {
      const tree = { ...others, ...(isWhole ? {} : { version: 2n }), estate };
      return { amount: String(value), shares: solutionOf(tree).shares, ...told };
    } catch (refused) {
      return { amount: String(value), fault: refused.message };
    }
  });
}

/** What is typed as an amount, or as a percentage of the whole. */
function changeOf(typed, whole, mark) {
  const isPart = /%\s*$/.test(typed), number = typed.replace(/%\s*$/, "").trim();
  const { read: [{ value, fault }] } = moneyRead([number], !isPart && number !== number.replace(UNIT, ""), mark);
  if (fault) return { fault: `“${withEscapes(typed.trim().slice(0, 20))}” ${fault}. Give an amount, or a percentage.` };
  return { more: isPart ? whole.times(value).over(Rational.of(100)) : value };
}

/** Who bears it where the whole costs, or is worth, more: for each rule the shares before and after, and whether a
 * group does better by itself. */
export function overrun({ typed, mark }, game) {
  const amounts = amountsOf(game), { more, fault } = changeOf(typed, game.whole(), mark);
  if (fault) return { fault };
  const after = [...amounts.slice(0, -1), amounts.at(-1).plus(more)];
  const sides = [amounts, after].map((one) => sideOf(game, one)), [wasStable, isStableNow] = sides.map(isStable);
  const [nucleolus, ...others] = byEachRule(sides);
  const worst = [worstOf(sides[0], nucleolus.before), worstOf(sides[1], nucleolus.after)];
  const rules = [{ ...nucleolus, worst }, ...others];
  return { whole: String(amounts.at(-1)), more: String(more), wasStable, isStable: isStableNow, rules };
}
