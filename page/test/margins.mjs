// Which numbers decide, against the program's check and the page's own checker, on random games by a fixed seed. Of
// tables: at their bounds, or within them, all numbers at once leave the line proved; one beyond its bound never does.
// Of runways, estates and networks the same of each number alone. And how long it takes for 12 and 16 players. Of
// markets whether there are ties.
import { readFileSync } from "node:fs";
import { checkAnew } from "../src/check/check-anew.js";
import { parseJson, writeJson } from "../src/exact/json.js";
import { Rational } from "../src/exact/rational.js";
import { Game } from "../src/game/game.js";
import { otherPairs } from "../src/tell/other-pairs.js";
import { membersOf } from "../src/game/groups.js";
import { margins } from "../src/work/margins.js";
import { numberMargins } from "../src/work/number-margins.js";
import { lineOf } from "./program.mjs";
import { tallied } from "./tally.mjs";

const ROUNDS = 300, MOST_SECONDS = { 12: 1, 16: 3 }, SLACK = Number(process.env.SLACK ?? 3);
const { draw, expect, count } = tallied(11);
let beyond = 0;

/** A line with other numbers of its game, and all else as it was. */
function withNumbers(tree, values) {
  const { game: { players, class: kind, excess } } = tree, worths = values.slice(1).map((value) => value.toDocument());
  const game = { class: kind, version: 2n, players, worths, ...(excess ? { excess } : {}) };
  return writeJson({ ...tree, game });
}

/** What both checkers say. */
function words(text) {
  const own = checkAnew(new TextEncoder().encode(text)), { answer } = parseJson(lineOf("check", text));
  return `${answer} ${own.refused ?? JSON.parse(own.line).answer}`;
}

const over = (unit) => (text) => (text === "" ? null : new Rational(BigInt(text), BigInt(unit)));

/** One line: all at the bounds, all anywhere within them, and one beyond its own. */
function tryLine(name, line) {
  const tree = parseJson(line), game = new Game(tree.game), found = margins(tree, game);
  const bounds = found.bounds.split("\n").map(over(found.unit)), way = Rational.of(game.costs ? 1 : -1);
  const free = bounds.flatMap((bound, mask) => (bound ? [mask] : []));
  expect(`${name}: each group but all`, free.length + found.decide.length, found.of);
  const changed = (change) => game.amounts.map((own, mask) => (bounds[mask] ? change(bounds[mask], mask) : own));
  expect(`${name}: at the bounds`, words(withNumbers(tree, changed((bound) => bound))), "yes yes");
  const within = (bound) => bound.plus(way.times(new Rational(BigInt(draw(500)), 7n)));
  expect(`${name}: within them`, words(withNumbers(tree, changed(within))), "yes yes");
  for (const mask of free.length ? [free[draw(free.length)], ...found.closest] : []) {
    const past = bounds[mask].minus(way.times(new Rational(1n, 7n)));
    const alone = changed((_, other) => (mask === other ? past : game.amounts[other]));
    expect(`${name}: ${membersOf(mask)} beyond`, words(withNumbers(tree, alone)), "no no");
    beyond += 1;
  }
}

for (let round = 0; round < ROUNDS; round++) {
  const n = 2 + draw(5), costs = draw(2), isPerHead = draw(3) === 0, word = draw(2) ? "prenucleolus" : "nucleolus";
  const top = [3, 60, 1000][draw(3)];
  const worths = Array.from({ length: 2 ** n - 1 }, (_, k) => BigInt(draw(top * membersOf(k + 1).length + 1)));
  const game = { class: costs ? "cost-table" : "table", players: BigInt(n), worths };
  const document = writeJson({ game: isPerHead ? { ...game, excess: "per-head" } : game });
  const line = lineOf(word, document);
  if (parseJson(line).certificate) tryLine(document.slice(0, 200), line);
}

/** The examples of the repository: Lund's water, and the Tennessee Valley. */
function tryExample(name, decide, closest, bound) {
  const document = readFileSync(new URL(`../../examples/${name}.json`, import.meta.url), "utf8");
  const line = lineOf("nucleolus", document), tree = parseJson(line), game = new Game(tree.game);
  const found = margins(tree, game), told = (mask) => membersOf(mask).map((i) => game.names[i]).join("+");
  tryLine(name, line);
  expect(`${name}: those that decide`, found.decide.map(told).sort().join(", "), decide);
  expect(`${name}: the closest`, told(found.closest[0]), closest);
  const least = found.bounds.split("\n").map(over(found.unit))[found.closest[0]];
  expect(`${name}: its bound`, String(least), bound);
}

tryExample("lund-water", "A, A+H+K+M+T, A+H+L, A+K+L+M+T, H+K+L, M, M+T, T", "A+H", "10384/3");
const TVA = "flood control, navigation, power";
tryExample("tennessee-valley", TVA, "navigation+power", "366330");

// ---- Runways, estates and networks

/** The keys of a class, its rows, and its tree with another number at a place. */
const CLASSES = {
  airport: (n, top) => {
    const costs = Array.from({ length: n }, () => BigInt(1 + draw(top))), kinds = [...new Set(costs)];
    const rows = kinds.map((cost) => ({ players: costs.flatMap((own, i) => (own === cost ? [i] : [])) }));
    const change = (tree, k, value) => ({ ...tree, costs: costs.map((own) => (own === kinds[k] ? value : own)) });
    return { game: { class: "airport", costs }, rows, change };
  },
  bankruptcy: (n, top) => {
    const claims = Array.from({ length: n }, () => BigInt(1 + draw(top))), all = claims.reduce((sum, one) => sum + one);
    const change = (tree, k, value) => (k === n ? { ...tree, estate: value }
      : { ...tree, claims: claims.map((own, i) => (i === k ? value : own)) });
    return { game: { class: "bankruptcy", claims, estate: BigInt(draw(Number(all) + 1)) }, change };
  },
  tree: (n, top) => {
    const keys = [], matrix = Array.from({ length: n + 1 }, () => Array(n + 1).fill(0n));
    for (let i = 0; i <= n; i++) for (let j = i + 1; j <= n; j++) keys.push([i, j]);
    for (const [i, j] of keys) matrix[i][j] = matrix[j][i] = BigInt(draw(top));
    const change = (tree, k, value) => {
      const [i, j] = keys[k], other = matrix.map((row) => [...row]);
      other[i][j] = other[j][i] = value;
      return { ...tree, matrix: other };
    };
    return { game: { class: "tree", matrix }, change };
  },
};

/** One line: each number at its ends, within them, and beyond. */
function tryNumbers(kind, n, top, measure) {
  const { game, rows, change } = CLASSES[kind](n, top), document = writeJson({ game: { ...game, ...measure } });
  const tree = parseJson(lineOf("nucleolus", document)), found = numberMargins(tree, new Game(tree.game), rows);
  const read = (key) => found[key].split("\n").map(over(found.unit));
  const [owns, lows, highs] = ["owns", "lows", "highs"].map(read);
  const step = new Rational(1n, 7n), decide = new Set(found.decide);
  const say = (k, value, wanted, what) => {
    if (value.isNegative()) return;
    const other = { ...change(tree.game, k, value.toDocument()), version: 2n };
    const said = words(writeJson({ ...tree, game: other }));
    expect(`${document.slice(0, 300)}: number ${k} ${what}, ${value}`, said, wanted);
    beyond += wanted === "no no";
  };
  owns.forEach((own, k) => {
    const [low, high] = [lows[k], highs[k]];
    if (decide.has(k)) {
      if (kind !== "bankruptcy" || k < n) say(k, own.plus(step), "no no", "decides");
      return void (kind !== "bankruptcy" && say(k, own.minus(step), "no no", "decides"));
    }
    say(k, low ?? Rational.of(0), "yes yes", "at its low");
    say(k, high ?? own.times(Rational.of(9)).plus(step), "yes yes", "at its high");
    if (low) say(k, low.minus(step), "no no", "too low");
    if (high) say(k, high.plus(step), "no no", "too high");
  });
}

for (let round = 0; round < ROUNDS; round++) {
  const kind = Object.keys(CLASSES)[round % 3], measure = draw(4) ? {} : { excess: "per-head" };
  tryNumbers(kind, 2 + draw(5), [3, 20, 1000][draw(3)], measure);
}

// ---- Markets: ties, by going through all pairs

/** All sets of pairs that gain something, with what they gain: {pairs, gain}. */
function allTrades(matrix, buyer = 0, taken = []) {
  if (buyer === matrix.length) return [{ pairs: "", gain: 0 }];
  const others = allTrades(matrix, buyer + 1, taken);
  return others.concat(matrix[buyer].flatMap((worth, k) => (taken.includes(k) || !worth ? []
    : allTrades(matrix, buyer + 1, [...taken, k]).map(({ pairs, gain }) => {
      return { pairs: `${buyer}-${matrix.length + k} ${pairs}`, gain: gain + worth };
    }))));
}

function tryMarket() {
  const matrix = Array.from({ length: 1 + draw(4) }, () => []), wide = 1 + draw(4), top = 2 + draw(9);
  for (const row of matrix) for (let k = 0; k < wide; k++) row.push(draw(top));
  const tree = { class: "market", matrix: matrix.map((row) => row.map(BigInt)) }, all = allTrades(matrix);
  const matching = parseJson(lineOf("matching", writeJson({ game: tree })));
  const others = otherPairs(new Game(tree), matching);
  const best = Math.max(...all.map(({ gain }) => gain)), ties = all.filter(({ gain }) => gain === best);
  const name = `a market of ${JSON.stringify(matrix)}`;
  expect(`${name}: ties`, Boolean(others), ties.length > 1);
  const fresh = others?.map(([buyer, seller]) => `${buyer}-${seller} `) ?? [];
  expect(`${name}: such pairs`, ties.some(({ pairs }) => fresh.every((pair) => pairs.includes(pair))), true);
  expect(`${name}: other ones`, matching.pairs.some(([i, j]) => fresh.includes(`${i - 1n}-${j - 1n} `)), false);
  return ties.length > 1;
}

let ties = 0;
for (let round = 0; round < ROUNDS; round++) ties += tryMarket();
expect("markets with and without ties", ties > ROUNDS / 9 && ties < ROUNDS, true);

for (const [n, most] of Object.entries(MOST_SECONDS)) {
  for (const kind of Object.keys(CLASSES)) {
    const { game, rows } = CLASSES[kind](Number(n), 1000), tree = parseJson(lineOf("nucleolus", writeJson({ game })));
    const start = performance.now(), { decide, of } = numberMargins(tree, new Game(tree.game), rows);
    const seconds = (performance.now() - start) / 1000;
    console.log(`${kind} of ${n}: ${decide.length} of ${of} numbers decide, found in ${seconds.toFixed(2)} s`);
    expect(`${kind} of ${n} within ${most} s`, seconds < most * SLACK, true);
  }
}

for (const [n, most] of Object.entries(MOST_SECONDS)) {
  const worths = Array.from({ length: 2 ** n - 1 }, (_, k) => BigInt(membersOf(k + 1).length ** 2 * 10 + draw(40)));
  const line = lineOf("nucleolus", writeJson({ game: { class: "table", players: BigInt(n), worths } }));
  const tree = parseJson(line), game = new Game(tree.game), start = performance.now();
  const { decide } = margins(tree, game), seconds = (performance.now() - start) / 1000;
  console.log(`${n} players: ${decide.length} numbers decide, found in ${seconds.toFixed(2)} s`);
  expect(`${n} players within ${most} s`, seconds < most * SLACK, true);
}
const { tried, faults } = count;
console.log(`${tried} expectations of which numbers decide, ${beyond} of them beyond a bound; ${faults} faults`);
process.exit(faults || !tried ? 1 : 0);
