// The decimal marks of a page and its case: what is shown, and by which numbers in and beside the cells are read.
import { decimal, readNumber, readTogether } from "../src/exact/decimals.js";
import { BLANK, isLong, Marks, onlyMark, spoken, writtenBy } from "../src/exact/marks.js";
import { Rational } from "../src/exact/rational.js";
import { beyondTexts } from "../src/view/beyond.js";
import { questions } from "../src/view/case-questions.js";
import { proposalOf } from "../src/view/proposal.js";
import { todayOf, todayTools } from "../src/view/today.js";
import { amountsIn } from "../src/work/others.js";
import { Desk } from "./grids.mjs";

const FREE = { entry: ".", mark: ".", settled: null, doubts: [] }; // cells that show no mark, read by the point
const COMMAS = { ...FREE, settled: "," }; // 12,50
const POINTS = { ...FREE, settled: "." }, LEFT = { shown: ".", isChosen: false };
const DOUBTFUL = { ...FREE, doubts: [{}] }; // 1,234 only
const WHOLE = { ...FREE, entry: "", settled: ",", mark: "," }; // 12,50 and 90,000, which the user calls whole

const example = ["open", {}], typed = (reading) => ["take", reading, true];
const file = (settings) => ["open", { isFile: true, ...settings }];

/** What is done to marks whose system has the point, and what comes of it: the mark of what is shown, that by which the
 * cells are read, and that of numbers beside them. */
const STEPS = [
  ["a worked example", [example, ["take", FREE, false]], ".", ".", "."],
  ["a worked example is shown as its cells", [example, ["take", COMMAS, false]], ",", ".", "."],
  ["but no other case follows it", [example, ["take", COMMAS, false], example], ".", ".", "."],
  ["an example after commas", [example, typed(COMMAS), example, ["take", POINTS, false]], ".", ".", "."],
  ["a case as it was left", [example, typed(COMMAS), ["open", { before: LEFT }]], ".", ".", "."],
  ["typed numbers are followed", [example, typed(COMMAS)], ",", ".", ","],
  ["but doubtful ones aren't", [example, typed(DOUBTFUL)], ".", ".", "."],
  ["nor any when the user has chosen", [example, ["choose", "."], typed(COMMAS)], ".", ".", ","],
  ["a choice changes no reading", [example, ["choose", ","], typed(FREE)], ",", ".", "."],
  ["read as whole numbers by the user", [example, typed(WHOLE)], ",", "", ","],
  ["the next case is shown alike", [example, typed(COMMAS), example, typed(FREE)], ",", ".", "."],
  ["a file is shown by the usual mark", [example, typed(COMMAS), file()], ".", ".", "."],
  ["a file is shown by the chosen mark", [["choose", ","], file(), typed(FREE)], ",", ",", ","],
  ["a file that shows a mark keeps it", [["choose", "."], file(), typed(COMMAS)], ".", ".", ","],
  ["a file with doubtful numbers", [["choose", ","], file(), typed({ ...DOUBTFUL, entry: "," })], ",", ",", "."],
  ["a saved case has its own", [file({ mark: ",", entry: "," }), typed(FREE)], ",", ",", ","],
  ["a saved case isn't followed away", [file({ mark: ".", entry: "," }), typed(COMMAS)], ".", ".", ","],
  ["before anything is read", [file({ entry: "," })], ".", ",", "."],
  ["an undo brings the cells' mark back", [example, typed(COMMAS), ["open", { entry: "," }]], ",", ",", "."],
];

const keptSign = ["open", { isFile: true, mark: ".", thousands: "," }];

let faults = 0, count = 0;
function expect(what, found, wanted) {
  count += 1;
  if (JSON.stringify(found) === JSON.stringify(wanted)) return;
  faults += 1;
  console.log(`${what}: ${JSON.stringify(found)}, and not ${JSON.stringify(wanted)}`);
}

for (const [what, steps, wanted] of [
  ["a saved case parts thousands by the sign that it keeps", [keptSign, ["take", FREE, true]], [",", 3]],
  ["and by the usual sign without such", [file({ mark: "." }), ["take", FREE, true]], [BLANK, 4]],
]) {
  const marks = new Marks(".");
  for (const [step, ...words] of steps) marks[step](...words);
  const { thousands, least } = marks.spelling();
  expect(what, [thousands, least], wanted);
}
expect("another game by its own numbers", new Marks(".").spelling(isLong({ whole: "12000" })).least, 3);

for (const [what, steps, shown, cells, beside] of STEPS) {
  const marks = new Marks(".");
  for (const [step, ...words] of steps) marks[step](...words);
  expect(what, [marks.shown, marks.ofCells(), marks.beside()], [shown, cells, beside]);
  expect(`${what}: sentences`, spoken.mark, shown);
}

/** The sign between thousands that is shown after cells that show one. */
const SIGNS = [
  ["as typed", [example, typed({ ...COMMAS, thousands: "." })], "."],
  ["of a worked example", [example, ["take", { ...COMMAS, thousands: "." }, false]], "."],
  ["of a saved case", [file({ mark: ",", thousands: "." }), typed(FREE)], "."],
  ["none typed", [example, typed({ ...COMMAS, thousands: null })], BLANK],
  ["that is the mark now", [example, typed({ ...COMMAS, thousands: "." }), ["choose", "."]], BLANK],
  ["that is no mark now", [["choose", ","], example, typed({ ...FREE, thousands: "," }), ["choose", "."]], ","],
  ["in the next case", [example, typed({ ...COMMAS, thousands: "." }), example], BLANK],
];
for (const [what, steps, wanted] of SIGNS) {
  const marks = new Marks(".");
  for (const [step, ...words] of steps) marks[step](...words);
  expect(`the sign between thousands ${what}`, spoken.thousands, wanted);
  expect(`${what}, as numbers are shown`, decimal(Rational.of("12345/2"), 1, spoken),
    `6${wanted === BLANK ? "" : wanted}172${spoken.mark}5`);
}

const german = new Marks(",");
german.open({});
expect("where the system has the comma", [german.shown, german.ofCells(), german.beside()], [",", ",", ","]);

const [landings] = beyondTexts({ isAll: true, all: 12345, points: [] });
expect("a count has no comma", landings.startsWith(`These are 12${BLANK}345 uses, `), true);

expect("one mark", onlyMark([undefined, ",", ",", null]), ",");
expect("both marks", onlyMark([".", ","]), null);
expect("no mark", onlyMark([undefined]), null);
expect("written by the mark that numbers show", [COMMAS, FREE, WHOLE].map(writtenBy), [",", ".", ","]);

/** Texts that are read together, and what they are. */
const TOGETHER = [
  [["1.234", "12,50"], ".", ["1234", "25/2"], true], [["1.234", "1,5", "2.5"], ".", ["617/500", "3/2", "5/2"], false],
  [["1,234", ""], ".", ["1234", null], false], [["1,234"], ",", ["617/500"], false],
  [["£1,234", "2,000"], ",", ["1234", "2000"], true], [["1.234 €", "12.50"], ",", ["617/500", "25/2"], true],
  [["1.234"], ".", ["1234"], true, "money"], [["€ 1.234"], ".", ["617/500"], false, "rates"],
  [["1.234 €", "1,234 €"], ".", ["617/500", "1234"], false], [["€ 1.234"], ".,", ["617/500"], false],
];
for (const [texts, mark, values, isSettled, amounts] of TOGETHER) {
  const { read, ...found } = readTogether(texts, mark, amounts);
  expect(texts.join("; "), read.map(({ value }) => (value ? String(value) : null)), values);
  expect(`${texts.join("; ")}: settled`, found.isSettled, isSettled);
}
/** Numbers with parts of one, without cents, and with money in front or behind, and what they are. */
for (const [text, mark, wanted] of [
  ["½", ".", "1/2"], ["2½", ",", "5/2"], ["1 ¾", ".", "7/4"], ["-⅔", ".", "-2/3"],
  ["£2½", ".", "5/2"], ["½2", ".", null], ["2.5½", ".", null], ["120:-", ".", "120"], ["1.200:-", ",", "1200"],
  ["12.5:-", ".", null], ["kr 120", ".", "120"], ["120,00 kr.", ",", "120"], ["1 200 zł", ".", "1200"],
  ["US$ 1,200.50", ".", "2401/2"], ["A$5", ".", "5"], ["A $5", ".", null], ["-£120", ".", "-120"],
  ["(£120)", ".", "-120"], ["£-120", ".", "-120"], ["120-", ".", null], ["120 Kč", ".", "120"],
  ["Rs. 1,200", ".", "1200"], ["Fr. 1'200.-", ".", "1200"],
]) {
  expect(text, String(readNumber(text, mark).value ?? null), String(wanted));
}

/** Amounts of money that alone show the mark, in a case: what is said of them, and of the button. */
const OF_MONEY = [
  ["estate", "Ann\t1.200 €\nBo\t80 €",
    "“1.200 €” is read as 1200, since money has no three decimals. No: read it as 1,2"],
  ["estate", "Ann\t£38,400\nBo\t£12,300", "“£38,400” is read as 38400, since money has no three decimals. "
    + "So is the other like it. No: read it as 38.4, and all like it"],
  ["costs", "Group\tCost (EUR)\nA\t1.200\nB\t1.300\nA+B\t2.000", "“1.200” is read as 1200, since money has no "
    + "three decimals. So are the 2 others like it. No: read it as 1,2, and all like it"],
];
for (const [id, text, wanted] of OF_MONEY) {
  const desk = new Desk(id, "."), none = () => 0, noted = () => questions(desk.read().reading, desk.typed, {
    onReset: none, onChange: none, setEntry: (by) => Object.assign(desk, { mark: by }),
  }).flat(Infinity).filter(Boolean);
  await desk.paste(id === "costs" ? "numbers.1" : "rows.0.name", text);
  const [note] = noted();
  expect(text, note.textContent, wanted);
  note.nodes.findLast(({ tagName }) => tagName === "button")?.on.click();
  expect(`${text}, the other way`, /is read as [\d.]+, with decimals, as you chose/.test(noted()[0].textContent), true);
}

/** Own divisions, and what is said of them. */
const ROWS = [{ label: "A", players: [0] }, { label: "B", players: [1] }];
for (const [texts, mark, whole, values, told] of [
  [["1.200 €", "800 €"], ".", "2000", "1200 800", /“1\.200 €” is read as 1200, since money has no three decimals/],
  [["1.200 €", "0.8 €"], ",", "2", "6/5 4/5", /^$/],
  [["1.200 €", "800.000 €"], ".", "8", "1200 800000", /since money/],
  [["1.200 €", "2.300 €"], ".", "7/2", "6/5 23/10", /Read with the point before decimals: so they add to the whole/],
  [["1.200", "800"], ".", null, "6/5 800", /^$/],
]) {
  const found = proposalOf(texts, ROWS, mark, whole && Rational.of(whole));
  expect(`a division ${texts}`, [found.values.join(" "), told.test(found.told)], [values, true]);
}

/** What is said of today's amounts. */
const today = todayOf({ todays: ["1.200 €", "80 €"], result: {}, marks: { beside: () => "." } }, ROWS);
expect("today", [String(today.values[0]), / “1\.200 €” is read as 1200, since money has no three decimals\.$/
  .test(todayTools({ costs: true }, today).textContent)], ["1200", true]);

/** Several estates in a field, and what is said of the first. */
for (const [typed, mark, values, note] of [
  ["1.200 EUR; 2.400 EUR", ".", "1200 2400", /“1\.200” is read as 1200, since money has no three decimals/],
  ["1.200 kr; 800 kr", ".", "1200 800", /since money/], ["1.200; 800", ".", "6/5 800", /the point comes before/],
  ["1.200 XYZ; 900 XYZ", ".", "1200 900", /since money/], ["€ 1.200; 12.50", ".", "6/5 25/2", /^$/],
]) {
  const found = amountsIn(typed, mark);
  expect(`estates ${typed}`, [found.map(({ value }) => String(value)).join(" "), note.test(found[0].note ?? "")],
    [values, true]);
}
console.log(`decimal marks: ${count} expectations, ${faults} faults`);
process.exitCode = faults ? 1 : 0;
