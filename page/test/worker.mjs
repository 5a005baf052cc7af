// The page's worker, as it is in page/coop.html, asked about cases by their numbers: a worker that read the cells and
// one that was sent the document say the same, and a case that comes between changes nothing.
import { CASES } from "../src/cases/cases.js";
import { writeJson } from "../src/exact/json.js";
import { started } from "./page-worker.mjs";

let tried = 0, faults = 0;
const shown = (one) => (one instanceof Error ? `a fault: ${one.message}` : writeJson(structured(one)));

/** A result as a tree that can be written. */
function structured(one) {
  if (Array.isArray(one)) return one.map(structured);
  if (typeof one !== "object" || one === null) return typeof one === "number" ? String(one) : one ?? null;
  return Object.fromEntries(Object.entries(one).map(([key, value]) => [key, structured(value)]));
}

function expect(what, found, wanted) {
  tried += 1;
  if (found === wanted && !found.startsWith("a fault")) return;
  faults += 1;
  console.log(`${what}: ${found.slice(0, 300)}, and not ${wanted.slice(0, 300)}`);
}

const WORDS = ["nucleolus", "shapley", "core", "convex", "check"];

/** What is asked about a case, as the page does. */
function questionsOf(kind, shares, last) {
  const words = kind.id === "votes" ? WORDS.slice(0, 2) : WORDS, players = [shares.length - 1];
  const asked = words.map((word) => ["ask", { word }]), isTable = kind.isTable || kind.isNetwork;
  return [
    ...asked, ["ask", { word: "propose", shares }], ["ask", { word: "kernel", shares }], ["explain"], ["checkLine"],
    ["compare", { divisions: [shares, last] }], ["excessLists", { divisions: [shares, last], most: 5 }],
    ["pair", { shares, i: 0, j: 1 }], ...(isTable ? [["overrun", { typed: "10 %", mark: "." }]] : []),
    ...(isTable ? [["leave", { who: players }]] : []),
    ...(kind.isTable ? [["margins"]] : []),
    ...(kind.id === "estate" ? [["estates", { typed: "100; 2000", mark: "." }]] : []),
    ...(kind.isMarket ? [["ask", { word: "matching" }]] : []),
  ];
}

const BETWEEN = { text: '{"game":{"class":"airport","costs":[1]}}', rows: [] };
const reader = started(), other = started();
let number = 0;
for (const kind of CASES) {
  const cells = kind.example(), typed = kind.pack?.(cells) ?? cells, own = (number += 1), between = (number += 1);
  const { text, rows } = await reader("read", { id: kind.id, typed, mark: "." }, { number: own });
  const { line, tree: { shares } } = await reader("ask", { word: "nucleolus" }, { number: own });
  const last = (await reader("ask", { word: "shapley" }, { number: own })).tree.shares ?? shares;
  const known = { text, rows, line };
  for (const [task, what] of questionsOf(kind, shares, last)) {
    await other("ask", { word: "nucleolus" }, { number: between, known: BETWEEN });
    const [one, two] = [await reader(task, what, { number: own }), await other(task, what, { number: own, known })];
    expect(`${kind.id}: ${task} ${JSON.stringify(what ?? "")}`, shown(two), shown(one));
  }
}
console.log(`${tried} questions to the page's worker about cases by their numbers, ${faults} faults`);
process.exit(faults || !tried ? 1 : 0);
