// Cases of each kind, saved and opened again: the cells, their readings and all that is kept beside them come back as
// they were typed; and cells that make another document than that of the file are left out, and told.
import { caseText } from "../src/cases/case-file.js";
import { caseNamed, CASES } from "../src/cases/cases.js";
import { unitIn, unitOf, unitText } from "../src/view/unit.js";
import { openText } from "../src/work/case-files.js";
import { readCase } from "../src/work/cases.js";
import { warmUp } from "../src/work/engine.js";
import { fillSplits } from "../src/work/splits.js";
import { codeOf } from "./page-worker.mjs";

const TOWNS = ["Ashford", "Brook", "Carlow", "Denby", "Elmton"], VOTES = ["12", "9", "7", "3", "1"];
const INHABITANTS = ["2,400", "1,900", "900", "800", "310"];
const towns = (cells) => TOWNS.map((name, r) => ({ name, ...cells(r) }));
const table = { names: ["North ", "South", "Isle"], numbers: ["", "130,000", "95,000", "225,000", "60,000"] };
const twice = towns((r) => ({ votes: VOTES[r], second: INHABITANTS[r] }));

/** What the page holds of some cases, by their names. */
const HELD = {
  "votes by two quotas": ["votes", { quota: "2/3", secondQuota: "more than 1/2", rows: twice, isMarked: true }],
  "votes of a part": ["votes", { quota: "75 %", rows: towns((r) => ({ votes: VOTES[r], second: "" })) }],
  "votes with a common divisor": ["votes", {
    quota: "2/3", rows: towns(() => ({ votes: "2,000", second: "" })), isMarked: true,
  }],
  "landings with types": ["runway", { rows: [
    { name: "Aer", type: "A320", cost: "20,50", count: "3" }, { name: "Aer", type: "DH8", cost: "8", count: "12" },
    { name: "", type: "", cost: "1.040,00", count: "1" },
  ] }, { entry: "," }],
  "an estate": ["estate", { estate: "84.500", isMarked: true, rows: [
    { name: "Adler", claim: "60.000" }, { name: "", claim: "35.250" }, { name: "Chopra ", claim: "12.000" },
  ] }, { entry: ",", mark: ",", thousands: ".", todays: ["10", "", "3"] }],
  "numbers of both marks": ["estate", { estate: "20,000", rows: [
    { name: "A", claim: "12.500" }, { name: "B", claim: "9,500" },
  ], isMarked: true }, { entry: "" }],
  "costs that were filled": ["costs", { ...table, numbers: [...table.numbers, "190000", "155000", "285000"],
    filled: [5, 6], how: "split", isMarked: true }, {
    texts: ["130,000", "", "60000.5"], heading: "Pump house", unit: "£" }],
  "gains": ["gains", { ...table, numbers: [...table.numbers, "1/3", "2e5", "300,000.25"], isMarked: true }],
  "a network": ["network", { names: ["Mill", "", "Farm"], source: "Well ", filled: { "0-3": "way" }, links: {
    "0-1": "1,200", "0-2": "900.50", "0-3": "2,050", "1-2": "700", "1-3": "850", "2-3": "4.25",
  } }, { withProposal: true, pastedUnit: "EUR" }],
  "a market": ["market", { buyers: ["Ann", ""], sellers: ["house"], values: [["5.50"], ["1,700.25"]] }],
  "limit prices": ["market", { buyers: ["Ann", "Ben"], sellers: ["Cem"], values: [["3.5"], ["1"]],
    limits: { buyers: ["10.50", "8 €"], sellers: ["7 €"] } }],
};

/** Pasted tables, and the unit that they show. */
const SHOWN = [
  ["Ann\t120 €\nBo\t80 €", "€"], ["Cost (€)\tGroup\n3\tA", "€"], ["Ann\t12 CHF\nBo\t8 €", ""],
  ["EUR 1000\tWell\tNord\nWell\t\t420\nNord\t420\t", ""], ["120 €\tAnn\n80 €\tBo", "€"],
  ["Ann £120\nBo £80", "£"], ["Ann: CHF 120\nBo: CHF 80 (niece)", "CHF"], ["Ann 120 kr\nBo 80 kr", "kr"],
  ["Ann 120 zł\nBo £80", ""], ["Ann US$ 1,200\nBo US$ 800", "US$"], ["Ann T€ 12\nBo T€ 8", "T€"], ["Lot A 120", ""],
];

/** What is said of the unit on paper: that of a pasted table goes with it, and one that was typed stays. */
const UNITS = [
  [{ pastedUnit: "£" }, "£", /“£” is that of the table/], [{ pastedUnit: "" }, "", /^$/],
  [{ unit: "EUR", pastedUnit: "£" }, "EUR", /“EUR” was typed, and the table that was pasted has “£”\./],
  [{ unit: "EUR", pastedUnit: "" }, "EUR", /^$/], [{ unit: "£ ", pastedUnit: "£" }, "£", /^$/],
];

let tried = 0, faults = 0;

function expect(what, found, wanted) {
  tried += 1;
  const [own, other] = [found, wanted].map((one) => JSON.stringify(one));
  if (own === other) return;
  faults += 1;
  console.log(`${what}: ${own}\n    and not ${other}`);
}

/** A case of what the page holds: {text}, its file, and {document}. */
function savedOf(id, typed, { entry = ".", mark = ".", thousands = null, texts = [], todays = null, ...paper }) {
  const kind = caseNamed(id), { text, faults: wrong, ...asked } = readCase({ id, typed, mark: entry });
  if (!text) throw new Error(JSON.stringify({ wrong, asked }));
  const settings = { places: 2, mark, entry, thousands, texts, todays, paper };
  return { text: caseText({ kind, typed, text, ...settings }), document: text };
}

/** What a part of a page would hold of the file. */
function openedOf(text) {
  const { id, typed, refusal, more, texts, settings, notes, measure } = openText({ text, mark: "," });
  if (refusal) return { refusal };
  const plain = { ...caseNamed(id).unpack?.(typed) ?? typed, ...more };
  return { id, typed: plain, texts, ...settings, notes, measure };
}

const sorted = (one) => Object.fromEntries(Object.keys(one).filter((key) => one[key] !== undefined).sort()
  .map((key) => [key, one[key]]));

globalThis.self = { program: codeOf("program") };
await warmUp();
for (const [name, [id, typed, settings = {}]] of Object.entries(HELD)) {
  const { text, document } = savedOf(id, typed, settings), { notes = [], ...found } = openedOf(text);
  expect(`${name}: refused`, found.refusal, undefined);
  if (found.refusal) continue;
  expect(`${name}: its kind`, found.id, id);
  expect(`${name}: the cells`, sorted({ ...found.typed, rows: found.typed.rows?.map(sorted) }),
    sorted({ ...typed, rows: typed.rows?.map(sorted) }));
  expect(`${name}: the document`, readCase({ id: found.id, typed: found.typed, mark: found.entry }).text, document);
  const { entry = ".", mark = ".", texts = [], todays = null, heading, unit, pastedUnit, withProposal } = settings;
  expect(`${name}: marks`, [found.entry, found.mark], [entry, mark]);
  expect(`${name}: own amounts`, [found.texts, found.todays], [texts, todays]);
  expect(`${name}: on paper`, sorted(found.paper), sorted({ heading, unit, pastedUnit, withProposal }));
  expect(`${name}: notes`, notes.length, 1);
}
for (const kind of CASES) {
  expect(`${kind.id}, tried`, Object.values(HELD).some(([id]) => id === kind.id), true);
  const typed = kind.example(), { text } = savedOf(kind.id, typed, {});
  expect(`the example of ${kind.id}`, openedOf(text).notes?.length, 1);
}

// What was pasted stays out of the file, but for what is in cells.
const [, ofEstate] = HELD["an estate"], offered = { pasted: [["Dear Mr Lyle,"], ["Adler 60.000"]], said: {}, told: "" };
expect("no letter in a file", savedOf("estate", { ...ofEstate, offered }, { entry: "," }).text.includes("Lyle"), false);

/** Files that somebody changed. */
const [, ofVotes, ofPrices] = [null, HELD["votes by two quotas"], HELD["limit prices"]].map((held) => {
  return held && savedOf(held[0], held[1], {}).text;
});
const CHANGED = [
  [ofVotes, '"2/3"', '"3/4"', /make another document than the one in it/],
  [ofVotes, '"votes":"12"', '"votes":12', /Place: cells/], [ofVotes, '"rows":', '"row":', /Place: cells/],
  [ofVotes, '"case":"votes"', '"case":"vote"', /Place: case/],
  [ofPrices, '"10.50"', '"11.50"', /make another document/], [ofPrices, '{"buyers":["10', '{"buyer":["10', /Place: ce/],
];
for (const [text, from, to, wanted] of CHANGED) {
  const { refusal, notes = [] } = openedOf(text.replace(from, to));
  const said = refusal ? `${refusal.sentence} Place: ${refusal.place}` : notes.join(" ");
  expect(`${from} as ${to}: ${said}`, wanted.test(said), true);
}
for (const [text, unit] of SHOWN) expect(`the unit in ${JSON.stringify(text)}`, unitIn(text), unit);
for (const [typed, unit, said] of UNITS) {
  expect(`the unit of ${JSON.stringify(typed)}`, [unitOf(typed), said.test(unitText(typed))], [unit, true]);
}

/** What is told of players without a number alone, when the rest is filled. */
for (const [costs, said] of [[true, /Type what each player costs alone\.$/], [false, /gains alone, or press “Alone/]]) {
  const typed = { names: ["A", "B"], numbers: ["", "", "2", "9"].join("\n") };
  const told = fillSplits({ typed, mark: ".", costs }).notes.join(" ");
  expect(`of an empty player alone is told: ${told}`, said.test(told), true);
}
console.log(`${tried} parts of cases saved and opened again, ${faults} faults`);
process.exit(faults || !tried ? 1 : 0);
