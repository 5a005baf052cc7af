// What has to be settled before there is an answer: questions beside the cells, each with its ways out.
import { countText, quotedText, shortText, typedText } from "../exact/decimals.js";
import { DECIMALS, WHOLE } from "../exact/marks.js";
import { Rational } from "../exact/rational.js";
import { withEscapes } from "../game/names.js";
import { button, el } from "./dom.js";
import { doubtNotes } from "./doubts.js";

/** What has to be settled before there is an answer, and how numbers were read. */
export function questions(reading, typed, settings) {
  const { asked, swap, steps, merged, perHead, mixed, unsure, part, rest, either } = reading;
  return [
    asked && (asked.ways ? twiceQuestion : asked.amount ? wholeQuestion : sumQuestion)(asked, typed, settings),
    swap && swapQuestion(swap, typed, settings), steps && stepsQuestion(steps, typed, settings),
    merged && mergedQuestion(merged, typed, settings),
    perHead && perHeadQuestion(perHead, settings), mixed && mixedQuestion(mixed, reading, settings),
    rest ? restQuestion(rest, typed, reading, settings) : part && partQuestion(part, typed, settings),
    unsure && unsureQuestion(unsure, reading, settings),
    either ? eitherQuestion(either, settings) : !mixed && !unsure && doubtNotes(reading, settings),
  ];
}

/** Asks whether a row is the sum of the others: until that is settled there is no answer. */
function sumQuestion({ r, name, isLast, off }, typed, { onReset, onChange }) {
  const without = () => onReset({ ...typed, rows: typed.rows.filter((_, k) => k !== r) }, "Remove the sum", true);
  const keep = () => {
    typed.notSums = [...(typed.notSums ?? []), name];
    onChange(0);
  };
  const [which, rest] = name ? [`, “${withEscapes(name)}”.`, " "] : [" has no name.", " If not, give it a name. "];
  const row = isLast ? "The last row" : `Row ${r + 1}`, others = isLast ? "the others" : "others";
  const isPart = name && /of which|thereof|davon|dont/i.test(name), sum = isPart ? "a part" : "the sum";
  const [own, all] = (off ?? []).map((text) => shortText(Rational.of(text)));
  const told = off ? `It says ${own}, the others add to ${all}. ` : "";
  const asked = `${row}${which} Is it ${sum} of ${others}? ${told}It would count as one more.${rest}`;
  return el("p", { class: "note asked" }, asked,
    button("Yes, remove it", without, { class: "quiet" }), " ",
    name && button("No, it counts", keep, { class: "quiet" }));
}

/** Asks whether a row is what there is to divide, and no claim. One that `isBelow` the sum may be neither; one of
 * `isOther` name may only be a claim. */
function wholeQuestion({ r, name, amount, isBelow, isOther }, typed, { onReset, onChange }) {
  const rows = typed.rows.filter((_, k) => k !== r), keep = () => {
    typed.notWhole = [...(typed.notWhole ?? []), name];
    onChange(0);
  };
  const take = () => onReset({ ...typed, estate: amount, rows }, "The estate", true);
  const leave = () => onReset({ ...typed, rows }, "Leave it out", true);
  const way = (title, use) => [button(title, use, { class: "quiet" }), " "];
  const row = `“${withEscapes(name)}”, ${withEscapes(amount)},`;
  const asked = isOther ? `${row} stands below the sum. Is it a claim, too? `
    : `Is ${row} what there is to divide, and no claim? `;
  return el("p", { class: "note asked" }, asked, !isOther && way("Yes, it is the estate", take),
    way(isOther ? "Yes, a claim" : "No, a claim", keep), isBelow && way("No, leave it out", leave));
}

/** Asks what rows of one name are, or rows that are the same: `ways` are the rows that each answer makes. */
function twiceQuestion({ name, more, ways, canKeep }, typed, { onReset, onChange }) {
  const way = (title, rows) => button(title, () => onReset({ ...typed, rows }, title, true), { class: "quiet" });
  const keep = () => {
    typed.notTwice = true;
    onChange(0);
  };
  const occurs = more ? ` and ${more} more occur` : " occurs";
  return el("p", { class: "note asked" }, `“${withEscapes(name)}”${occurs} twice. What is it? `,
    ways.map(([title, rows]) => [way(title, rows), " "]),
    canKeep && button("Both count", keep, { class: "quiet" }));
}

/** Asks whether costs stand where landings belong: until that is settled there is no answer. */
function swapQuestion({ count, cost, name }, typed, { onReset, onChange }) {
  const rows = typed.rows.map((row) => ({ ...row, cost: row.count, count: row.cost }));
  const next = { ...typed, rows, isUnordered: false, offered: undefined }; // what was said of the columns is no more
  const swapped = () => onReset(next, "Swap the columns", true);
  const keep = () => {
    typed.isUnordered = false;
    onChange(0);
  };
  const shown = (text) => `“${withEscapes(text.trim())}”`;
  return el("p", { class: "note asked" },
    `Are ${shown(count)} the uses of ${name}, and does one need ${shown(cost)}? `,
    button("No, swap the columns", swapped, { class: "quiet" }), " ",
    button("Yes, so it is", keep, { class: "quiet" }));
}

/** Asks whether costs come on top of those above: until that is settled there is no answer. */
function stepsQuestion({ head, sums, name }, typed, { onReset, onChange }) {
  const left = [...sums], isRow = ({ cost = "" }) => cost.trim();
  const rows = typed.rows.map((row) => (isRow(row) ? { ...row, cost: left.shift() } : row));
  const added = () => onReset({ ...typed, rows, steps: undefined, offered: undefined }, "Add the costs above", true);
  const keep = () => {
    typed.steps = undefined;
    onChange(0);
  };
  return el("p", { class: "note asked" },
    `Do the costs below “${withEscapes(head)}” each come on top of those above? Then ${withEscapes(name)} needs `
    + `${sums[1]} alone. `, button("Yes, add those above", added, { class: "quiet" }), " ",
    button("No, each is all that one use needs", keep, { class: "quiet" }));
}

/** Asks whether a user stands once for all rows below: rows without a user are open otherwise. */
function mergedQuestion({ names, type, name }, typed, { onReset }) {
  const rows = typed.rows.map((row, r) => ({ ...row, name: names[r] ?? row.name }));
  return el("p", { class: "note asked" },
    `Beside “${withEscapes(type)}” stands no user. Is it “${withEscapes(name)}”, as above? If not, type who it is. `,
    button("Yes, each as above", () => onReset({ ...typed, rows, offered: undefined }, "Fill in the users", true),
      { class: "quiet" }));
}

/** Per head is another rule, so nobody gets other shares without a word. */
function perHeadQuestion(players, { setMeasure }) {
  return el("p", { class: "note asked" },
    "A group’s loss was to count per head. That is worked out for up to 8 players, ",
    `and here are ${countText(players)}. By the group as a whole the shares are others. `,
    button("Count it as a whole", () => setMeasure("plain"), { class: "quiet" }));
}

/** Asks how many landings a number says: until that is settled there is no answer. */
function eitherQuestion({ typed, ways: [[less, one], [more, other]] }, { setEntry }) {
  const way = (count, mark) => button(`${count} ${count === "1" ? "use" : "uses"}`, () => setEntry(mark), {
    class: "quiet",
  });
  return el("p", { class: "note asked" },
    `“${withEscapes(typed.trim())}” can be read as ${less} or as ${more}, and no `,
    "other number here shows which. Which is it? ", way(less, one), way(more, other));
}

/** Asks whether numbers as 90,000 have decimals, though another number shows that they would: until that is settled
 * there is no answer. */
function mixedQuestion({ typed, value, whole, proof, count }, { settled, mark }, { setEntry }) {
  const quoted = (text) => `“${withEscapes(text.trim())}”`, more = count > 1 ? ` and ${count - 1} like it` : "";
  const way = (text, by) => button(text, () => setEntry(by), { class: "quiet" });
  const shown = quotedText(Rational.of(value), mark);
  return el("p", { class: "note asked" },
    `${quoted(proof)} shows which mark comes before decimals. So ${quoted(typed)}${more} `,
    `would be ${shown}, with decimals. Or are these whole numbers, as ${countText(whole)}? `,
    way(`${countText(whole)}, whole`, WHOLE), way(`${shown}, with decimals`, settled ?? DECIMALS));
}

/** Asks what numbers as 1.200 are, where nothing shows it: until that is settled there is no answer. */
function unsureQuestion({ typed, count, ways: [[more, one], [less, other]] }, { mark }, { setEntry }) {
  const shown = (text) => quotedText(Rational.of(text), mark), quoted = `“${withEscapes(typed.trim())}”`;
  const way = (text, by, how) => button(`${shown(text)}, ${how}`, () => setEntry(by), { class: "quiet" });
  const others = count > 2 ? `the ${count - 1} other numbers` : "one other number";
  const like = count > 1 ? ` So can ${others} like it.` : "";
  return el("p", { class: "note asked" }, `${quoted} can be read as ${shown(more)} or as ${shown(less)}, and no other `,
    `number here shows which.${like} Which is it? `, way(more, one, "whole"), " ", way(less, other, "with decimals"));
}

/** Asks whether a quota in per cent is a rounded fraction: until that is settled there is no answer. */
function partQuestion({ cell, typed, text, ways: [exact, rounded] }, state, { onReset, onChange }) {
  const keep = () => {
    state.exactParts = [...(state.exactParts ?? []), typed];
    onChange(0);
  };
  const votes = (count) => `${shortText(Rational.of(count))} votes`;
  return el("p", { class: "note asked" }, `“${withEscapes(typed.trim())}” asks for ${votes(exact)}, and ${text} for `,
    `${votes(rounded)}. Which is meant? `,
    button(`${text}, ${votes(rounded)}`, () => onReset({ ...state, [cell]: text }, `Take ${text}`, true), {
      class: "quiet",
    }), " ", button(`Exactly that, ${votes(exact)}`, keep, { class: "quiet" }));
}

/** Asks whether a part is one of all 100 %, if the votes in per cent are more or fewer. */
function restQuestion({ cell, typed, ways: [[, ofAll], [sum, ofThese]] }, state, { mark }, { onReset, onChange }) {
  const shown = (text) => shortText(Rational.of(text)), { isPercent, ...others } = state;
  const [most, wanted, all] = [sum, ofAll, 100].map((text) => Rational.of(text)), isOut = most.less(wanted);
  const ofHundred = { ...others, [cell]: typedText(wanted, mark) }, quoted = `“${withEscapes(typed.trim())}”`;
  const keep = () => {
    state.isPercent = false;
    onChange(0);
  };
  const asked = isOut ? `Of all 100 % ${quoted} is ${shown(ofAll)}, which these never reach. If others vote, add them. `
    : `Is ${quoted} meant of all 100 %${most.less(all) ? ", of which others have the rest and don’t vote" : ""}? `;
  return el("p", { class: "note asked" }, `The votes add to ${shown(sum)} %. ${asked}`,
    !isOut && button(`Of 100 %: at least ${shown(ofAll)}`, () => onReset(ofHundred, "Of 100 %", true), {
      class: "quiet",
    }), " ", button(`Of these: at least ${shown(ofThese)}`, keep, { class: "quiet" }));
}
