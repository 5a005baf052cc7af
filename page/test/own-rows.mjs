// The user's own amounts beside rows that are pasted anew, removed, put in or renamed, and what is said of those that
// go. Also which kept numbers belong to which rows, and what a kept answer says of them.
import { caseNamed } from "../src/cases/cases.js";
import { withoutPlace } from "../src/cases/links.js";
import { withoutPlayer } from "../src/cases/tables.js";
import { formatOf } from "../src/view/format.js";
import { outOfBounds } from "../src/view/own-bounds.js";
import { pinnedOf, pinnedText } from "../src/view/pinned.js";
import { proposalOf } from "../src/view/proposal.js";
import { Session } from "../src/view/session.js";
import { Rational } from "../src/exact/rational.js";
import { readCase } from "../src/work/cases.js";

const rowsOf = (text) => text.split(", ").map((row) => {
  const [name, cost, count = "1"] = row.split(" ");
  return { name, claim: cost, cost, votes: cost, count, type: "", second: "" };
});
const list = (text, others = {}) => ({ estate: "9", quota: "3", rows: rowsOf(text), ...others });
const table = (...names) => ({ names, numbers: Array.from({ length: 2 ** names.length }, (_, k) => String(k || "")) });
const LINKS = { "0-1": "1", "0-2": "2", "0-3": "3", "1-2": "4", "1-3": "5", "2-3": "6" };
const ways = (...names) => ({ names, links: LINKS });
const [THREE, SORTED] = [list("Ann 3, Bo 4, Cy 5"), list("Cy 5, Ann 3, Bo 4")];
const NONE = /^No name here is in your own column, so its amounts are gone\. Undo brings them back\.$/;

/** A case, its cells before, what then happens (rows "moved", "typed", or the place of one that is removed), the cells
 * after, the own amounts of 10, 20 and 30 then, and what is said. */
const CARRIED = [
  ["estate", THREE, "moved", SORTED, "30,10,20"], ["runway", THREE, "moved", SORTED, "30,10,20"],
  ["votes", THREE, "moved", SORTED, "30,10,20"],
  ["network", ways("A", "B", "C"), "moved", ways("C", "A", "B"), "30,10,20"],
  ["costs", table("A", "B", "C"), "moved", table("C", "A", "B"), "30,10,20"],
  ["gains", table("A", "B", "C"), "moved", table("B", "A", "C"), "20,10,30"],
  ["estate", THREE, 0, list("Bo 4, Cy 5"), "20,30", /^Gone from your own column, with the row: Ann\. Undo brings it/],
  ["runway", THREE, 1, list("Ann 3, Cy 5"), "10,30", /: Bo\./],
  ["estate", list(" 3,  4,  5"), 0, list(" 4,  5"), "20,30", /Gone/],
  ["costs", table("A", "B", "C"), 0, withoutPlayer(table("A", "B", "C"), 0), "20,30", /: A\./],
  ["network", ways("A", "B", "C"), 1, withoutPlace(ways("A", "B", "C"), 1), "10,30", /: B\./],
  ["estate", THREE, "moved", list("Ann 3, Di 2, Bo 4, Cy 5"), "10,,20,30"],
  ["estate", THREE, "moved", list("Di 2, Eve 4, Flo 7"), ",,", NONE],
  ["costs", table("A", "B", "C"), "moved", table("D", "E", "F"), ",,", NONE],
  ["estate", THREE, "moved", list("Di 2, Ann 3"), ",10", /with the rows: Bo and Cy\./],
  ["estate", THREE, "typed", list("Ann 3, Bea 4, Cy 5"), "10,20,30"],
  ["estate", THREE, "typed", list("Cy 3, Bo 4, Ann 5"), "10,20,30"],
  ["estate", THREE, "typed", list("Ann 3, Bo 4, Cy 5, Di 6"), "10,20,30,"],
  ["costs", table("A", "B", "C"), "typed", table("A", "Zoe", "C"), "10,20,30"],
  ["runway", list("Ann 3, Ann 4, Bo 5"), "moved", list("Bo 5, Ann 3, Ann 4"), "30,10,20"],
  ["runway", list("Ann 3, Bo 4, Cy 5"), "typed", list("Ann 3, Bo 4, Cy 5, Ann 9"), "10,20,30,"],
  ["estate", list("Ann 3, Bo 4, Ann 5", { notTwice: true }), "moved", list("Bo 4, Ann 5, Ann 3", { notTwice: true }),
    "20,10,30"],
];

function sessionOf() {
  const nothing = () => 0, on = ["stale", "read", "answer", "busy", "fault", "step"].map((word) => [word, nothing]);
  const session = new Session(Object.fromEntries(on));
  session.engine.ask = session.checker.ask = async (task, what) => {
    if (task !== "read") throw new Error("stopped");
    return readCase(what);
  };
  return session;
}

async function read(session) {
  clearTimeout(session.timer);
  await session.work();
}

async function carriedBy([id, before, how, after]) {
  const session = sessionOf();
  session.open(caseNamed(id), before, { texts: ["10", "20", "30"], todays: ["10", "20", "30"], isTyped: true });
  await read(session);
  session.typed = after;
  if (how !== "typed") session.moveRows(how === "moved" ? undefined : how);
  await read(session);
  return { texts: session.texts.join(), todays: session.todays.join(), said: session.ownSaid,
    stays: session.ownStays.join(", ") };
}

/** A case, its cells before and after, and who still has the own amounts of before: the others' numbers changed. */
const STAYING = [
  ["estate", THREE, "moved", list("Ann 3, Bo 4, Cy 5, Di 6", { estate: "12" }), "Ann, Bo, Cy"],
  ["estate", THREE, "moved", list("Bo 4, Ann 5, Di 6"), "Bo, Ann"],
  ["estate", THREE, "moved", SORTED, ""], ["estate", THREE, "moved", list("Ann 3, Di 2, Bo 4, Cy 5"), ""],
  ["estate", THREE, "typed", list("Ann 7, Bo 4, Cy 5"), ""], ["estate", THREE, 0, list("Bo 4, Cy 5"), ""],
  ["estate", THREE, "moved", list("Di 2, Eve 4, Flo 7"), ""],
  ["runway", THREE, "moved", list("Cy 8, Ann 3, Bo 4"), "Cy, Ann, Bo"],
  ["network", ways("A", "B", "C"), "moved", ways("C", "A", "B"), "C, A, B"],
];

/** A game in which three claim, or cost alone, 3, 4 and 5, what an own division gives them, and what is said. */
const BOUNDS = [
  [{ kind: "bankruptcy" }, "4 5 0", "Ann and Bo get more than they claim."],
  [{ kind: "bankruptcy" }, "3 5 5", "Bo gets more than it claims."],
  [{ kind: "bankruptcy" }, "3 4 -1", "Cy gets less than nothing."], [{ kind: "bankruptcy" }, "3 4 5", ""],
  [{ kind: "cost-table", costs: true }, "4 4 5", "Ann pays more than alone."],
  [{ kind: "table", costs: false }, "9 -1 -2", "Bo and Cy get less than nothing."],
];

let faults = 0;
function expect(what, found, wanted) {
  if (wanted instanceof RegExp ? wanted.test(found) : found === wanted) return;
  faults += 1;
  console.log(`${what}: ${found}, and not ${wanted}`);
}

for (const row of CARRIED) {
  const [id, before, how, after, texts, said = /^$/] = row, found = await carriedBy(row);
  const what = `${id}: ${JSON.stringify(before)}, ${how}, ${JSON.stringify(after)}`;
  expect(what, found.texts, texts);
  expect(`${what}, of today`, found.todays, texts);
  expect(`${what}, said`, found.said, said);
}

for (const row of STAYING) {
  const [id, , how, after, stays] = row;
  expect(`${id}: ${how}, ${JSON.stringify(after)}, who stays`, (await carriedBy(row)).stays, stays);
}

const [amounts, threeRows] = [["3", "4", "5"].map(Rational.of), rowsOf("Ann, Bo, Cy").map(({ name }, i) => {
  return { label: name, players: [i] };
})];
for (const [game, texts, wanted] of BOUNDS) {
  const totals = texts.split(" ").map(Rational.of), whole = { amounts, own: amounts, ...game };
  expect(`${game.kind}, ${texts}`, outOfBounds(whole, threeRows, totals), wanted);
}

/** Kept rows, the rows now with what each pays, and what is said of the two. */
const KEPT = [
  ["Ann Bo", "Ann Bo", "1 2", "The shares are those of the kept answer."],
  ["Ann Bo", "Cy Di", "1 2", "Nobody here is in the kept answer, so nothing is compared. New: Cy, Di. Kept, and gone "
    + "since: Ann, Bo."],
  ["Ann Bo", "Ann Di", "1 2", "Those who were there before have the shares of the kept answer. New: Di. Kept, and gone "
    + "since: Bo."],
  ["Ann Bo", "Bo Ann", "2 1", "The shares are those of the kept answer."],
  ["Ann Bo", "Bo Ann", "3 1", /^Against the kept answer, .*: Bo \+1\.00; the others as before\.$/],
  ["Ann Ann", "Ann Ann", "1 3", /^Against the kept answer, .*: Ann \+1\.00; the others as before\.$/],
];
for (const [before, now, totals, wanted] of KEPT) {
  const rows = now.split(" ").map((label, i) => ({ label, players: [i] }));
  const point = { key: "nucleolus", title: "Nucleolus", shares: totals.split(" ").map(Rational.of) };
  const pinned = { names: before.split(" "), shares: { nucleolus: ["1", "2"] }, typed: null };
  const seen = pinnedOf({ pinned, typed: {}, result: { points: [point] } }, rows);
  const settings = { format: formatOf(2, { mark: "." }), labelOfCell: (cell) => cell };
  expect(`${before}, ${now}`, pinnedText(seen, { ...point, totals: point.shares }, rows, settings), wanted);
}
/** Amounts that are said by the whole, 90, and what they are, or what is said of them. */
const BY_WHOLE = [
  [["50 %", "30", "the rest"], "45,30,15", /Of the whole, 90: “50 %” is 45 and “the rest” is 15\./],
  [["half", "a third", "nothing"], "45,30,0"], [["1/2", "1/3", "1/6"], "1/2,1/3,1/6"],
  [["33,5 %", "Rest", "0"], "603/20,1197/20,0"], [["rest", "30", ""], ",30,", /known once all others have an amount/],
  [["rest", "30", "rest"], ",30,", /It stands twice/], [["100", "the rest", "0"], "100,-10,0"],
  [["equally", "", ""], ",,", /“Fill it with” has equal parts/],
  [["half of it", "pro rata", ""], "45,,", /in proportion/],
];
for (const [texts, wanted, told = /^/] of BY_WHOLE) {
  const rows = texts.map((label) => ({ label })), found = proposalOf(texts, rows, ".", Rational.of(90));
  expect(`${texts}, of 90`, found.values.join(), wanted);
  expect(`${texts}, of 90, told`, [found.told, ...found.faults].join(" "), told);
}
expect("50 % of nothing known", proposalOf(["50 %"], [{ label: "Ann" }], ".").faults[0], "It is no number.");
console.log(`${CARRIED.length} cases whose rows changed beside own amounts, ${KEPT.length} beside a kept answer, `
  + `${faults} faults`);
process.exit(faults ? 1 : 0);
