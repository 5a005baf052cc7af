// Networks in the shapes in which people paste them, numbers that can hardly be meant, and the core of four players:
// what the page's modules make of them, against what was written down or found by plain searches.
import { cellsOf } from "../src/cases/pasting.js";
import { cellsOfNetwork, networkOf, withSource } from "../src/cases/links.js";
import { detoursOf } from "../src/cases/detours.js";
import { numbered, shortened } from "../src/cases/mended-names.js";
import { oddsOf } from "../src/cases/odds.js";
import { costs } from "../src/cases/tables.js";
import { coreOfFour } from "../src/draw/core-of-four.js";
import { Rational } from "../src/exact/rational.js";
import { countedText } from "../src/view/filled.js";

let tried = 0, faults = 0;

function expect(what, found, wanted) {
  tried += 1;
  if (wanted instanceof RegExp ? wanted.test(found) : String(found) === String(wanted)) return;
  faults += 1;
  console.log(`${what}: found ${JSON.stringify(found)}, wanted ${String(wanted)}`);
}

// ---- Four points, and six links between them

const P = ["Reservoir", "Alby", "Brook", "Carle"], LAST = ["Alby", "Brook", "Carle", "Reservoir"];
const COSTS = { "0-1": 10, "0-2": 12, "0-3": 14, "1-2": 55, "1-3": 6, "2-3": 7 };
const priceOf = (one, other) => COSTS[[P.indexOf(one), P.indexOf(other)].sort((a, b) => a - b).join("-")];
const text = (rows) => rows.map((row) => row.join("\t")).join("\n");
const full = (names, own) => names.map((one) => names.map((other) => (one === other ? own : priceOf(one, other))));
const headed = (names, block, corner = "") => [[corner, ...names], ...block.map((row, i) => [names[i], ...row])];
const half = (is, blank = "") => P.map((one, i) => P.map((other, j) => (is(i, j) ? priceOf(one, other) : blank)));
const listed = Object.entries(COSTS).map(([key, price]) => [...key.split("-").map((i) => P[i]), price]);

const SHAPES = {
  "a square with zeros": headed(P, full(P, 0)), "with dashes": headed(P, full(P, "-")), "empty": headed(P, full(P, "")),
  "with a word in the corner": headed(P, full(P, ""), "from / to"), "the source last": headed(LAST, full(LAST, 0)),
  "the lower half": headed(P, half((i, j) => j < i)), "the upper half": headed(P, half((i, j) => j > i)),
  "zeros in the other half": headed(P, half((i, j) => j > i, 0)),
  "the lower half without the last column": headed(P, half((i, j) => j < i)).map((row) => row.slice(0, 4)),
  "the upper half without the first column": headed(P, half((i, j) => j > i)).map((row) => [row[0], ...row.slice(2)]),
  "without headings": full(P, "").map((row, i) => [P[i], ...row]),
  "the lower half without headings": half((i, j) => j < i).map((row, i) => [P[i], ...row.slice(0, i)]),
  "the upper half without headings": half((i, j) => j > i).map((row, i) => [P[i], ...row]),
  "rows that get shorter": half((i, j) => j > i).map((row, i) => [P[i], ...row.slice(i + 1)]),
  "a list": listed, "a list with headings": [["From", "To", "Cost"], ...listed],
  "a list with more columns": [["Pipe", "From", "To", "Length", "Cost (EUR)"],
    ...listed.map(([one, other, price], k) => [`p${k}`, one, other, price * 3, price])],
  "a list of both directions": listed.flatMap(([one, other, price]) => [[price, one, other], [price, other, one]]),
};

for (const [name, rows] of Object.entries(SHAPES)) {
  const found = networkOf(cellsOf(text(rows))), cells = found?.points && cellsOfNetwork(found);
  expect(`${name}: source`, cells?.source, "Reservoir");
  for (const [key, price] of Object.entries(COSTS)) {
    const all = [cells?.source, ...(cells?.names ?? [])], ends = key.split("-").map((i) => all.indexOf(P[i]));
    expect(`${name}: ${key}`, cells?.links[ends.sort((a, b) => a - b).join("-")], price);
  }
}

const plain = networkOf(cellsOf(text(full(P, ""))));
expect("numbers alone", JSON.stringify(cellsOfNetwork(plain).links), JSON.stringify(
  Object.fromEntries(Object.entries(COSTS).map(([key, price]) => [key, String(price)]))));
const without = (price) => (price === 55 ? "n/a" : price === 14 ? "x" : String(price));
const gaps = headed(P, full(P, "").map((row) => row.map(without)));
expect("missing links", Object.keys(networkOf(gaps).links).sort().join(), "0-1,0-2,1-3,2-3");
const clash = headed(P, full(P, "").map((row, i) => row.map((price) => (i === 2 && price === 55 ? 56 : price))));
const { fault } = networkOf(clash.map((row) => row.map(String)));
expect("halves that differ", fault, "Alby – Brook has two costs: 55 and 56.");
expect("the page's own triangle", cellsOfNetwork(networkOf(cellsOf("A\t1\nB\t2\t3"))).links["1-2"], "3");
expect("a block is no network", networkOf(cellsOf("1\n2\t3")), null);
const moved = withSource({ source: "S", names: ["A", "B"], links: { "0-1": "1", "0-2": "2", "1-2": "3" } }, 2);
expect("another source", `${moved.source} ${moved.names} ${JSON.stringify(moved.links)}`,
  'B S,A {"1-2":"1","0-1":"2","0-2":"3"}');

// ---- Sums, loose ends, and what can be read in two ways

const readOf = (rows) => networkOf(cellsOf(text(rows))), withHeads = [["From", "To", "Cost"], ...listed];
for (const sum of [["Total", "", 104], ["", "", 104], ["Total cost", "", 104]]) {
  const found = readOf([...withHeads, sum]);
  expect(`${sum}: points`, found.points.length, 4);
  expect(`${sum}: left out`, found.left.length, 1);
}
const summed = readOf([...headed(P, full(P, "")).map((row, i) => [...row, i ? 99 : "Sum"]), ["Total", 9, 9, 9, 9, 9]]);
expect("a row and a column of sums", `${summed.points.length} ${summed.left}`, "4 “Sum”, a sum,“Total”, a sum");
expect("one end only", readOf([withHeads[0], ["Alby", "", 7], ...listed]).fault, /“Alby; 7” a link has one end only/);
const lengths = listed.map(([one, other, price], k) => [one, other, price * (k + 2), price]);
expect("two columns of numbers", readOf(lengths).asked.map(({ c }) => c).join(), "2,3");
expect("row numbers", Object.values(readOf(listed.map((row, k) => [...row, k + 1])).links).join(), "10,12,14,55,6,7");
expect("a source that nothing names", readOf(headed(["A", "B"], [["", 3], [3, ""]])).isSure, false);

// ---- Names that are mended, and links dearer than a detour

expect("numbered", numbered(["A", "B", "A", "A 2", "A"]).join(), "A,B,A 3,A 2,A 4");
const long = shortened(["x".repeat(80), "x".repeat(90), "Bee"]);
expect("shortened", long.map((name) => Buffer.byteLength(name) <= 64).join(), "true,true,true");
expect("and not the same", new Set(long).size, 3);
const link = { "0-1": 5, "0-2": 3, "1-2": 1 };
const cost = (i, j) => Rational.of(link[[i, j].sort().join("-")]);
const detours = (filled) => detoursOf({ filled, n: 2, cost, nameOf: (i) => "SAB"[i], mark: "." });
expect("a detour", JSON.stringify(detours({ "0-2": "way" })),
  '[{"cell":"links.0-1","lower":"4","sentence":"A – S costs 5, more than the way by B: 4"}]');
expect("none where no way was filled", detours({}).length, 0);

// ---- Numbers that can hardly be meant

const odds = (numbers, isCost) => oddsOf(numbers.map((one) => (one === null ? undefined : Rational.of(one))), 3, {
  isCost, nameOf: (mask) => String(mask),
}).map(({ mask }) => mask).join();
expect("costs that fit", odds([null, 8, 7, 10, 6, 10, 10, 12], true), "");
expect("dearer than apart", odds([null, 8, 7, 20, 6, 10, 10, 12], true), "3");
expect("cheaper than a part", odds([null, 8, 7, 10, 6, 10, 10, 5], true), "7");
expect("gains that fit", odds([null, 1, 2, 4, 0, 2, 3, 9], false), "");
expect("gains less than apart", odds([null, 4, 4, 6, 0, 5, 5, 12], false), "3");

const many = Array.from({ length: 2 ** 12 }, (_, mask) => Rational.of(mask.toString(2).split("1").length - 1));
many[2 ** 11] = Rational.of(9);
expect("one of twelve players", oddsOf(many, 12, { isCost: true, nameOf: String }).map(({ mask }) => mask).join(),
  2 ** 11);

const wild = Array.from({ length: 2 ** 6 }, (_, mask) => Rational.of((mask * 37) % 50));
const general = oddsOf(wild, 6, { isCost: false, nameOf: String });
expect("many that don't fit are one remark", general.map(({ sentence }) => sentence).join(),
  /^\d+ groups gain less than/);
expect("and it is the only one", general.length, 1);

// ---- The core of four players

const worth = [0, 0, 0, 1, 0, 2, 1, 4, 0, 3, 2, 5, 1, 4, 3, 10];
const game = { worth: (group) => Rational.of(worth[group.reduce((mask, i) => mask | (1 << i), 0)]) };
const { corners, faces } = coreOfFour(game);
expect("corners and faces", `${corners.length} ${faces.length}`, "20 14");
for (const x of corners) {
  const tight = worth.filter((own, mask) => {
    const sum = x.reduce((all, share, i) => ((mask >> i) & 1 ? all + share.toNumber() : all), 0);
    expect(`${x} in the core`, sum >= own - 1e-9, true);
    return mask > 0 && mask < 15 && Math.abs(sum - own) < 1e-9;
  });
  expect(`${x} is a corner`, tight.length >= 3, true);
}

// numbers that the program doesn't take are a fault, and never remarked upon: as floats they say what isn't so
const readTwo = (...numbers) => costs.read({ names: ["a", "b"], numbers: ["", ...numbers] }, ".").reading;
expect("too fine", readTwo("50725.8268377066885", "47599.0843136912730", "98324.9111513979615").odds.length, 0);
const huge = readTwo(`1e40${"*1e40".repeat(7)}`, "1", "2");
expect("too large", `${huge.faults[0].cell} ${huge.odds.length}`, "numbers.1 0");
expect("too long", readTwo(`1${"*9e39".repeat(2000)}`, "1", "2").faults[0].sentence, /too long to be worked out/);
expect("as before", readTwo("10", "8", "20").odds.length, 1);
const levelWith = (group) => ({ excess: "0", coalitions: [[group, 1]], earlier: [], bounds: [], total: 1 });
const restsOn = (...groups) => countedText({
  kind: costs, typed: { names: ["a", "b", "c"], filled: [3] },
  result: { line: JSON.stringify({ certificate: { levels: groups.map(levelWith) } }) },
}, [{ key: "nucleolus", title: "" }, { key: "shapley", title: "" }], { costs: true });
expect("the first rule rests on a filled number", restsOn([2], [1, 2]), /of “Fairest .*” and “By what each adds” rest/);
expect("the first rule doesn’t", restsOn([2], [1]), /of “By what each adds” rest/);
const readFilled = (...filled) => {
  return costs.read({ names: ["a", "b"], numbers: ["", "10", "8", "26,000"], filled }, ".").reading;
};
expect("a given number is asked about", [readFilled().odds.length, readFilled().doubts.size].join(), "1,1");
expect("one that the page filled in isn’t", [readFilled(3).odds.length, readFilled(3).doubts.size].join(), "0,0");

console.log(`${tried} expectations of shapes, ${faults} faults`);
process.exit(faults ? 1 : 0);
