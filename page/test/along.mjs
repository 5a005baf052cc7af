// The shares while the whole moves, against the program at amounts within each piece, and against the page's checker at
// its lines, on random tables and estates by a fixed seed; at the bends the pieces meet. And how long one takes.
import { checkAnew } from "../src/check/check-anew.js";
import { parseJson, writeJson } from "../src/exact/json.js";
import { Rational } from "../src/exact/rational.js";
import { Game } from "../src/game/game.js";
import { membersOf } from "../src/game/groups.js";
import { along } from "../src/work/along.js";
import { ask as asked, lineOf } from "./program.mjs";
import { tallied } from "./tally.mjs";

const ROUNDS = 40, MOST_SECONDS = { 12: 1, 16: 3 }, SLACK = Number(process.env.SLACK ?? 3);
const ask = (word, document) => ({ ...asked(word, document), line: lineOf(word, document) });
const { draw, expect, count } = tallied(5);
let pieces = 0, bends = 0;

/** All pieces of a range, from the least amount. */
function pathOf(game, rule, range) {
  const todo = [range], found = [];
  while (todo.length) {
    const [low, high] = todo.pop(), piece = along({ low, high, rule }, game, ask);
    expect(`${writeJson(game.tree).slice(0, 200)}: a piece from ${low} to ${high}`, Boolean(piece), true);
    if (!piece) continue;
    found.push(piece);
    const [from, to] = piece.covers, isWide = (a, b) => Rational.of(a).less(Rational.of(b));
    if (isWide(low, from)) todo.push([low, from]);
    if (isWide(to, high)) todo.push([to, high]);
  }
  return found.sort((a, b) => Rational.of(a.covers[0]).compare(Rational.of(b.covers[0])));
}

/** The game's tree with another whole. */
function withWhole(tree, whole) {
  const own = whole.toDocument(), isEstate = tree.class === "bankruptcy";
  return { ...tree, version: 2n, ...(isEstate ? { estate: own } : { worths: [...tree.worths.slice(0, -1), own] }) };
}

function tryPath(tree, rule, range) {
  const game = new Game(tree), name = `${rule} ${writeJson(tree).slice(0, 300)}`, found = pathOf(game, rule, range);
  pieces += found.length;
  bends += found.length - 1;
  found.forEach(({ ends, shares, lines }, k) => {
    if (!ends) return;
    for (const line of lines) {
      const word = checkAnew(new TextEncoder().encode(line));
      expect(`${name}: the other checker`, word.refused ?? JSON.parse(word.line).answer, "yes");
    }
    const [low, high] = ends.map(Rational.of), part = new Rational(BigInt(1 + draw(9)), 10n);
    const whole = low.plus(high.minus(low).times(part)), [first, last] = shares.map((list) => list.map(Rational.of));
    const between = first.map((share, i) => String(share.plus(last[i].minus(share).times(part))));
    const document = writeJson({ game: withWhole(tree, whole) }), { tree: said } = asked(rule, document);
    if (said.shares) expect(`${name}: at ${whole}`, between.join(), said.shares.join());
    const next = found[k + 1];
    const isNext = next?.ends && next.ends[0] === ends[1];
    if (isNext) expect(`${name}: at ${ends[1]}`, shares[1].join(), next.shares[0].join());
  });
}

for (let round = 0; round < ROUNDS; round++) {
  const n = 2 + draw(4), costs = draw(2), isPerHead = draw(3) === 0, top = [3, 60, 1000][draw(3)];
  const worths = Array.from({ length: 2 ** n - 1 }, (_, k) => BigInt(draw(top * membersOf(k + 1).length + 1)));
  const excess = isPerHead ? { excess: "per-head" } : {}, sum = (some) => some.reduce((all, one) => all + one, 0n);
  const table = { class: costs ? "cost-table" : "table", players: BigInt(n), worths, ...excess };
  tryPath(table, "prenucleolus", ["0", String(2 * top * n)]);
  const alone = sum(worths.filter((_, k) => membersOf(k + 1).length === 1));
  const [low, high] = costs ? [0n, alone] : [alone, alone + BigInt(top * n)];
  if (low < high) tryPath(table, "nucleolus", [String(low), String(high)]);
  const claims = Array.from({ length: n }, () => BigInt(1 + draw(top))), all = sum(claims);
  tryPath({ class: "bankruptcy", claims, estate: all / 2n, ...excess }, "nucleolus", ["0", String(all)]);
}

/** The Talmud's estate has its bends where half of a claim is reached, from either side. */
const talmud = new Game({ class: "bankruptcy", claims: [100n, 200n, 300n], estate: 200n });
const ends = pathOf(talmud, "nucleolus", ["0", "600"]).map(({ covers }) => covers[1]);
expect("the Talmud's bends", ends.join(), "150,250,350,450,600");
const refusing = (word, document) => (word === "check" ? { tree: { answer: "no" } } : ask(word, document));
expect("lines that check doesn't take", along({ low: "0", high: "600", rule: "nucleolus" }, talmud, refusing), null);

for (const [n, most] of Object.entries(MOST_SECONDS)) {
  const worths = Array.from({ length: 2 ** n - 1 }, (_, k) => BigInt(membersOf(k + 1).length ** 2 * 10 + draw(40)));
  const game = new Game({ class: "table", players: BigInt(n), worths }), whole = worths.at(-1);
  const start = performance.now(), range = { low: String(whole), high: String(2n * whole), rule: "nucleolus" };
  const { covers } = along(range, game, ask) ?? { covers: ["none"] };
  const seconds = (performance.now() - start) / 1000;
  console.log(`${n} players: a piece from ${covers.join(" to ")} found in ${seconds.toFixed(2)} s`);
  expect(`${n} players within ${most} s`, seconds < most * SLACK, true);
}
console.log(`${count.tried} expectations of ${pieces} pieces with ${bends} bends; ${count.faults} faults`);
process.exit(count.faults || bends < ROUNDS ? 1 : 0);
