// What is said where numbers can be read in two ways, or show two marks, and the buttons that read them otherwise.
import { Rational } from "../exact/rational.js";
import { cellNumber, countText, moneyText, quotedText } from "../exact/decimals.js";
import { DECIMALS, isMark, nameOfMark, otherMark, WHOLE } from "../exact/marks.js";
import { withEscapes } from "../game/names.js";
import { listed } from "../game/words.js";
import { button, el } from "./dom.js";

const BY = { whole: WHOLE, decimals: DECIMALS }; // how all are read, whatever the others show, if the user chose it

const quoted = (typed) => `“${withEscapes(typed.trim())}”`;

/** The notes for what was read; `setEntry(mark)` reads the case anew. No number is read in one of two ways in silence.
 * Those read with decimals come first: where others show otherwise, they are the odd ones. */
export function doubtNotes({ doubts: found, entry, mark, shown, isByMoney }, { setEntry }) {
  const doubts = [...found].sort((one, other) => one.how.localeCompare(other.how));
  const [[, one] = [], [, two] = []] = shown, isClash = shown.length > 1;
  const clash = isClash && el("p", { class: "note" }, `In ${quoted(one)} and ${quoted(two)} the point and the comma `,
    "change places. Each of the two can be read in one way only, so it is read as it shows.");
  if (!doubts.length) return clash;
  const proof = isClash ? undefined : one, isChosen = !isMark(entry);
  if (isByMoney && !isChosen) return moneyNote(doubts, { mark, proof }, setEntry);
  const isOwn = doubts.some(({ typed }) => typed === proof);
  const because = proof && (isOwn ? "it can only be whole, so " : `${quoted(proof)} shows that `);
  const why = isChosen ? "as you chose" : `${because ?? ""}the ${nameOfMark(mark)} comes before decimals`;
  const read = listed(doubts.map((doubt) => readAs(doubt, mark, doubts.length)));
  const [{ count }] = doubts, isMany = doubts.length === 1 && count > 1;
  const more = isMany ? ` So are the ${count} numbers here that can be read in two ways.` : "";
  return [clash, el("p", { class: "note" }, `${read}${isChosen ? ", " : ": "}${why}.${more} `,
    waysOut({ doubts, mark, proof, isChosen }, setEntry))];
}

/** The note where money alone shows the mark, with the other reading. */
function moneyNote(doubts, { mark, proof }, setEntry) {
  const count = doubts.reduce((all, one) => all + one.count, 0) - 1;
  const like = count > 0 ? ` So ${count > 1 ? `are the ${countText(count)} others` : "is the other"} like it.` : "";
  const other = quotedText(cellNumber(proof, DECIMALS).value, mark);
  return el("p", { class: "note" }, `${moneyText(proof, mark)}${like} `,
    button(`No: read it as ${other}${like && ", and all like it"}`, () => setEntry(DECIMALS), { class: "quiet" }));
}

/** Of several kinds of readings each says how many are like it. */
function readAs({ typed, value: text, how, count }, mark, kinds) {
  const value = Rational.of(text), like = kinds > 1 && count > 1 ? ` (and ${count - 1} like it)` : "";
  return `${quoted(typed)}${like} is read as ${toldAs(value, how, mark)}`;
}

function shownAs(value, how, mark) {
  const behind = how === "whole" ? ", whole" : value.isWhole() ? "" : ", with decimals";
  return `${quotedText(value, mark)}${behind}`;
}

function toldAs(value, how, mark) {
  return how === "whole" ? `the whole number ${value}` : `${quotedText(value, mark)}, with decimals`;
}

/** If nothing shows the mark, it may be the other one; otherwise the first of the kinds is read otherwise. */
function waysOut({ doubts, mark, proof, isChosen }, setEntry) {
  const way = (title, by) => button(title, () => setEntry(by), { class: "quiet" });
  if (isChosen) return [way("Read them by one mark again", mark)];
  const [odd] = doubts, how = odd.how === "decimals" ? "whole" : "decimals";
  const { value } = cellNumber(odd.typed, BY[how]), other = otherMark(mark), by = cellNumber(odd.typed, other);
  const others = odd.count > 1 ? ", and all like it" : "";
  return [
    !proof && by.value && way(`No: ${odd.typed.trim()} is ${shownAs(by.value, how, mark)}`, other),
    (proof || doubts.length > 1) && way(`Read ${quoted(odd.typed)} as ${toldAs(value, how, mark)}${others}`, BY[how]),
  ];
}
