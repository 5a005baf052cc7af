// Documents that are opened, by the worker of page/coop.html: what the page makes of one that nobody edited has its
// names to the letter, or none where it has none; and an edited name is read as a typed one.
import { parseJson, writeJson } from "../src/exact/json.js";
import { started } from "./page-worker.mjs";

// names that reading a cell would change, or that the page itself could have given to other players
const ODD = ["b ", " a", "\u00a0", "e\u0301", "\u00e9", "\ufeff", "Aer", "Aer 1", "Aer 2", "Aer, A320", "Aer, DH8",
  "Bee 1", "Place 2", "Player 1", "=1+1", "x\u200by", "Total", "\u2212 3", "A, B 2", "a\tb", "\u30c9", "\u30c8\u3099",
  "1", "."];
const COUNT = 400;

let seed = 11;
const below = (most) => ((seed = (seed * 48271) % 2147483647) % most);
const some = (count, make) => Array.from({ length: count }, make);

function namesOf(count) {
  const left = [...ODD];
  return some(count, () => left.splice(below(left.length), 1)[0]);
}

/** A game of some class, with names or without. */
function gameOf(k) {
  const n = 2 + below(3), number = () => 1 + below(9), numbers = some(n, number);
  const table = (one) => ({ class: one, players: n, worths: some(2 ** n - 1, number) });
  const square = some(n + 1, () => Array(n + 1).fill(0));
  for (let i = 0; i <= n; i++) for (let j = 0; j < i; j++) square[i][j] = square[j][i] = number();
  const games = [() => table("table"), () => table("cost-table"), () => ({ class: "tree", matrix: square }),
    () => ({ class: "airport", costs: numbers }), () => ({ class: "voting", weights: numbers, quota: 2 }),
    () => ({ class: "bankruptcy", claims: numbers, estate: 2 }),
    () => ({ class: "assignment", matrix: some(n, () => some(2, number)) })];
  const game = games[k % games.length](), players = game.class === "assignment" ? n + 2 : n;
  return k % 5 ? { ...game, names: namesOf(players) } : game;
}

const ask = started();
let tried = 0, faults = 0, number = 0;

function expect(what, found, wanted) {
  tried += 1;
  if (found === wanted) return;
  faults += 1;
  console.log(`${what}: ${found}, and not ${wanted}`);
}

/** The names of the document that the page makes of cells. */
async function madeOf(id, typed) {
  const { text, faults: found } = await ask("read", { id, typed, mark: "." }, { number: (number += 1) });
  return text ? writeJson(parseJson(text).game.names ?? null) : writeJson(found.map(({ sentence }) => sentence));
}

for (let k = 0; k < COUNT; k++) {
  const game = gameOf(k), text = JSON.stringify({ game });
  const { id, typed, refusal } = await ask("openDocument", { text, mark: "." });
  if (refusal) {
    expect(text, refusal.sentence, "opened");
    continue;
  }
  expect(text, await madeOf(id, typed), JSON.stringify(game.names ?? null));
}
const spaced = { game: { class: "bankruptcy", claims: [3, 4], estate: 5, names: ["b ", "c"] } };
const { id, typed } = await ask("openDocument", { text: JSON.stringify(spaced), mark: "." });
typed.rows[0].name = "d ";
expect("an edited name", await madeOf(id, typed), '["d","c"]');
console.log(`${tried} documents opened and made again, ${faults} faults`);
process.exit(faults || !tried ? 1 : 0);
