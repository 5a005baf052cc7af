// What the page works out by itself to help with cells, against plain slow searches on small cases by a fixed seed:
// ways and costs of a network whose links are partly missing, and groups that are filled by their best split.
import { placesOf, readNumber } from "../src/exact/decimals.js";
import { parseJson, writeJson } from "../src/exact/json.js";
import { Rational } from "../src/exact/rational.js";
import { runway } from "../src/cases/lists.js";
import { network } from "../src/cases/matrices.js";
import { packed, unpacked } from "../src/cases/tables.js";
import { followUnused, isPaid, unusedOf, withUnused } from "../src/cases/unused-links.js";
import { Game } from "../src/game/game.js";
import { membersOf } from "../src/game/groups.js";
import { missingText } from "../src/view/questions.js";
import { compare } from "../src/work/compare.js";
import { costsOfNetwork, fillLinks } from "../src/work/networks.js";
import { fillSplits } from "../src/work/splits.js";
import { tryPowers } from "./powers.mjs";
import { tryRunways } from "./runways.mjs";
import { tallied } from "./tally.mjs";

const { draw, expect, count } = tallied(5);

// ---- Networks

function someLinks(n) {
  const links = {};
  for (let i = 0; i <= n; i++) for (let j = i + 1; j <= n; j++) links[`${i}-${j}`] = draw(3) ? String(draw(20)) : "";
  return links;
}

/** The points that the source, or another, reaches over some links. */
function reached(edges, from) {
  const found = new Set([from]);
  for (let grows = true; grows;) {
    grows = false;
    for (const [i, j] of edges) {
      if (found.has(i) === found.has(j)) continue;
      found.add(i).add(j);
      grows = true;
    }
  }
  return found;
}

/** The least cost of any set of links that joins all of these to the source; Infinity where none does. */
function leastCost(edges, targets, from = 0) {
  let least = Infinity;
  for (let some = 0; some < 2 ** edges.length; some++) {
    const chosen = edges.filter((_, k) => (some >> k) & 1), cost = chosen.reduce((sum, [, , price]) => sum + price, 0);
    if (cost >= least) continue;
    const found = reached(chosen, from);
    if (targets.every((target) => found.has(target))) least = cost;
  }
  return least;
}

function tryNetwork(n) {
  const names = Array(n).fill(""), links = someLinks(n), what = { names, links, mark: "." };
  const edges = Object.entries(links).filter(([, cost]) => cost)
    .map(([key, cost]) => [...key.split("-").map(Number), Number(cost)]);
  const told = JSON.stringify(links), all = names.map((_, i) => i + 1), { typed, fault } = costsOfNetwork(what);
  expect(`a fault for ${told}`, Boolean(fault), leastCost(edges, all) === Infinity);
  for (let mask = 1; typed && mask < 2 ** n; mask++) {
    const group = membersOf(mask).map((i) => i + 1);
    expect(`${group} of ${told}`, Number(typed.numbers[mask]), leastCost(edges, group));
  }
  const { typed: others } = costsOfNetwork({ ...what, nobody: [0] }); // nobody is at the first place
  for (let mask = 1; others && mask < 2 ** (n - 1); mask++) {
    const group = membersOf(mask).map((i) => i + 2);
    expect(`${group} of ${told} without a place`, Number(others.numbers[mask]), leastCost(edges, group));
  }
  const { links: filled, told: made, isDearer } = fillLinks(what), costs = treeCosts(n, filled);
  const isOf = made.length > 0 && costs.some((cost, k) => cost > Number(typed?.numbers[k + 1]));
  if (typed) expect(`a group of ${told} is dearer than in a table of costs`, isDearer, isOf);
  for (const [key, text] of Object.entries(filled)) {
    const [i, j] = key.split("-").map(Number), least = leastCost(edges, [j], i);
    if (!links[key]) expect(`the way ${key} of ${told}`, text === "" ? Infinity : Number(text), least);
  }
}

/** What each group pays by a network without empty links: the least tree of it and the source, by trying all. */
function treeCosts(n, links) {
  return Array.from({ length: 2 ** n - 1 }, (_, k) => {
    const group = [0, ...membersOf(k + 1).map((i) => i + 1)], edges = Object.entries(links).flatMap(([key, text]) => {
      const ends = key.split("-").map(Number);
      return ends.every((end) => group.includes(end)) && text ? [[...ends, Number(text)]] : [];
    });
    return leastCost(edges, group.slice(1));
  });
}

/** Links that nobody uses: each group pays what it pays where the link doesn't exist, or costs more. A price to do
 * without is paid by a group just where it changes what one pays. */
function tryUnused(n) {
  const links = someLinks(n), names = Array(n).fill(""), typed = { names, links }, keys = unusedOf(typed, ".");
  const own = Object.keys(links).filter((key) => !links[key] && key.split("-").every((i) => i > 0 && links[`0-${i}`]));
  const told = JSON.stringify(links);
  expect(`unused of ${told}`, String(keys), String(own));
  const [all, filled] = withUnused(typed, keys, "."), without = treeCosts(n, links).join();
  expect(`groups of ${told}`, treeCosts(n, all).join(), without);
  expect(`filled of ${told}`, Object.values(filled).every((how) => how === "unused"), true);
  const dear = Object.fromEntries(keys.map((key) => [key, "99"]));
  expect(`groups of ${told} with dear links`, treeCosts(n, { ...links, ...dear }).join(), without);
  for (const key of keys) {
    const price = draw(20), other = { ...links, [key]: String(price) };
    const isChanged = treeCosts(n, other).join() !== without;
    expect(`${key} at ${price} of ${told}`, isPaid({ links: other }, [key], "."), isChanged);
  }
  const state = { names, links: { ...all, "0-1": all["0-1"] && "25" }, filled };
  followUnused(state, ".");
  for (const key of keys) {
    const wanted = Math.max(...key.split("-").map((end) => Number(state.links[`0-${end}`])));
    expect(`${key} follows in ${told}`, Number(state.links[key]), wanted);
  }
  const whole = Object.values(all).every(Boolean) && network.read({ names, links: all }, ".");
  if (whole) expect(`the document of ${told}`, new Game(whole.tree).n, n);
}

// ---- Splits

/** The best sum of groups with numbers that split a group; null where there is none. */
function bestSum(mask, known, isBetter) {
  if (!mask) return 0;
  let best = null;
  for (const [group, value] of known) {
    if ((group & mask) !== group || !(group & mask & -mask)) continue;
    const rest = bestSum(mask & ~group, known, isBetter);
    if (rest !== null && (best === null || isBetter(rest + value, best))) best = rest + value;
  }
  return best;
}

function trySplits(n, costs) {
  const numbers = Array.from({ length: 2 ** n }, (_, mask) => (mask && draw(3) ? String(draw(40) - 5) : ""));
  const isBetter = costs ? (a, b) => a < b : (a, b) => a > b;
  const known = numbers.flatMap((text, mask) => (text ? [[mask, Number(text)]] : []));
  const { state: sent } = fillSplits({ typed: packed({ names: Array(n).fill(""), numbers }), mark: ".", costs });
  unpacked(sent).numbers.forEach((text, mask) => {
    const isAll = mask === 2 ** n - 1; // what is divided is never filled
    const wanted = numbers[mask] ? Number(numbers[mask]) : isAll ? null : bestSum(mask, known, isBetter);
    if (mask) expect(`group ${mask} of ${JSON.stringify(numbers)}`, text === "" ? null : Number(text), wanted);
  });
}

// ---- Two divisions side by side

/** What each group could gain by leaving, from the greatest down. */
function excessList(game, shares) {
  const all = 2 ** game.n - 1, sign = Rational.of(game.costs ? -1 : 1), list = [];
  for (let mask = 1; mask < all; mask++) {
    const group = membersOf(mask), got = Rational.sum(group.map((i) => shares[i])).times(sign);
    const heads = Rational.of(game.perHead ? group.length : 1);
    list.push(game.worth(group).minus(got).over(heads));
  }
  return list.sort((a, b) => b.compare(a));
}

function tryComparison(n, name, excess) {
  const worths = Array.from({ length: 2 ** n - 1 }, () => draw(30));
  const text = JSON.stringify({ game: { class: name, excess, players: n, worths } });
  const some = () => Array.from({ length: n }, () => `${draw(40) - 9}/${1 + draw(7)}`);
  const game = new Game(parseJson(text).game), [one, other] = [some(), some()];
  const lists = [one, other].map((shares) => excessList(game, shares.map(Rational.of)));
  const differs = lists[0].findIndex((value, k) => !value.equals(lists[1][k])), divisions = [one, other];
  const found = compare({ divisions }, game);
  expect(`the first difference of ${text}`, found.differs, differs + 1);
  found.lists.forEach((list, which) => list.forEach((entry, k) => {
    const value = lists[which][found.first - 1 + k], shown = readNumber(entry.excess).value;
    const isNear = shown.minus(value).abs().less(Rational.of("1/100")), isExact = placesOf(value) >= 0;
    expect(`place ${k} of ${text}: ${entry.excess}`, isExact ? shown.equals(value) : isNear, true);
    expect(`place ${k} of ${text}: ${entry.excess} is no fraction`, entry.excess.includes("/"), false);
  }));
}

// ---- Runways

const gameOf = (rows) => new Game(runway.read({ rows }, ".").tree);
const rowsText = (rows) => rows.map(({ name, cost, count }) => `${name} ${cost}x${count}`).join("; ");

/** Rows of some airlines come back from the document that they make, each to its airline. */
function tryRunway() {
  const rows = Array.from({ length: 1 + draw(5) }, () => ({
    name: ["Aer", "Bee", "Boeing 737", ""][draw(4)], cost: String(10 * (1 + draw(3))), count: String(1 + draw(3)),
  })).filter(({ name, cost }, r, all) => !r || all[r - 1].name !== name || (name && all[r - 1].cost !== cost));
  const [game, again] = [gameOf(rows), gameOf(runway.fromGame(gameOf(rows)).rows)];
  expect(`the document of ${rowsText(rows)}`, writeJson(again.tree), writeJson(game.tree));
  const named = rows.map((row, r) => ({ ...row, name: row.name || `User ${r + 1}` }));
  const isOne = new Set(named.map(({ name }) => name)).size === 1 && named.length > 1;
  if (!isOne) expect("opened again", rowsText(runway.fromGame(game).rows), rowsText(named));
}

function tryNames(names, costs, wanted) {
  const found = rowsText(runway.fromGame(new Game({ class: "airport", costs, names })).rows);
  expect(`rows of ${names}`, found, wanted);
}

tryNames(["Aer 1", "Aer 2", "Aer 3", "Aer 4", "Bee"], [20, 20, 40, 60, 60], "Aer 20x2; Aer 40x1; Aer 60x1; Bee 60x1");
tryNames(["Aer 1", "Bee", "Aer 2"], [20, 30, 60], "Aer 20x1; Bee 30x1; Aer 60x1");
tryNames(["Boeing 737", "Boeing 747", "Bee"], [20, 20, 60], "Boeing 737 20x1; Boeing 747 20x1; Bee 60x1");
tryNames(["User 1", "User 2", "Bee"], [20, 20, 60], "User 1 20x1; User 2 20x1; Bee 60x1");
tryNames(["Flight 1", "Flight 2"], [20, 60], "Flight 1 20x1; Flight 2 60x1");
tryNames(["Aer 1", "Aer 2"], [20, 20], "Aer 20x2");

for (const [k, wanted] of [["Terminal 1", "Terminal 2"], ["Aer 1", "Bee"], ["Gate 1 1", "Gate 1 2"]].entries()) {
  const rows = wanted.map((name) => ({ name, cost: "5", count: "1" }));
  expect(`apart ${k}`, rowsText(runway.fromGame(gameOf(rows)).rows), rowsText(rows));
}
const typedRows = [["Aer", "DH8", 2], ["Aer", "A320", 1], ["Bee", "DH8", 1]].map(([name, type, count], k) => {
  return { name, type, cost: String(20 + k), count: String(count) };
});
const withTypes = (rows) => rows.map(({ name, type, cost, count }) => `${name}/${type} ${cost}x${count}`).join("; ");
expect("types, opened again", withTypes(runway.fromGame(gameOf(typedRows)).rows), withTypes(typedRows));
const alike = typedRows.map((row) => ({ ...row, name: "Aer", type: "DH8", cost: "20" }));
expect("labels", new Set(runway.read({ rows: alike }, ".").rows.map(({ label }) => label)).size, 3);

const many = runway.read({ rows: ["9000", "18000"].map((count) => ({ name: "", cost: "9", count })) }, ".");
expect("faults of many landings", many.reading.count, 0);
expect("no document of many landings", many.tree, null);
const MISSING = [[8, false], [12, "head up to 8."], [32, "hold, up to 12."], [33, "hold, up to 12."]];
for (const [n, wanted] of MISSING) {
  const found = missingText({ kind: "airport", n });
  expect(`what is missing for ${n} landings: ${found}`, found && found.endsWith(wanted), Boolean(wanted));
}
expect("nothing of an estate", missingText({ kind: "bankruptcy", n: 40 }), false);

tryRunways(expect, draw);
tryPowers(expect, draw);
for (let k = 0; k < 40; k++) {
  tryRunway();
  tryNetwork(1 + (k % 4));
  tryUnused(2 + (k % 3));
  tryComparison(2 + (k % 3), k % 2 ? "table" : "cost-table", k % 5 ? "plain" : "per-head");
  trySplits(2 + (k % 4), k % 2 === 0);
}
console.log(`${count.tried} numbers of the page's own, ${count.faults} faults`);
process.exit(count.faults || !count.tried ? 1 : 0);
