// The document of a certificate, its game and the form of its levels, read anew. What is wrong is told in a sentence.
import { isObject, parseJson, writeJson } from "../exact/json.js";
import { maskOf, orderOf } from "./coalitions.js";

const MOST_BYTES = 8388608;
export const COSTS = ["cost-table", "airport", "tree"];
const TABLE_KEYS = [["players", "worths"], ["players", "sparse"], ["players", "sparse", "default"]];
const KEYS = {
  table: TABLE_KEYS,
  "cost-table": TABLE_KEYS,
  airport: [["costs"]],
  bankruptcy: [["claims", "estate"]],
  tree: [["matrix"]],
  assignment: [["matrix"]],
  voting: [["weights", "quota"]],
};
const ARRAYS = { airport: ["costs", 64], bankruptcy: ["claims", 64], voting: ["weights", 32] };
const DOCUMENT_KEYS = ["answer", "certificate", "game", "shares"];
const LEVEL_KEYS = ["excess", "coalitions", "earlier", "bounds", "total"];

/** What is wrong with a document. */
export class Refused extends Error {}

export function need(fact, sentence) {
  if (!fact) throw new Refused(sentence);
}

function needKeys(tree, choices, what, others = []) {
  const found = Object.keys(tree).filter((key) => !others.includes(key));
  const isChoice = (keys) => keys.length === found.length && keys.every((key) => found.includes(key));
  if (choices.some(isChoice)) return;
  const strange = found.find((key) => !choices.some((keys) => keys.includes(key)));
  const missing = choices[0].find((key) => !found.includes(key));
  need(strange === undefined, `${what} has the key ${JSON.stringify(strange)?.slice(0, 40)}, which has no place there`);
  need(false, missing ? `${what} lacks the key ${missing}` : `${what} has keys that don't go together`);
}

// ---- Whole numbers and fractions

export function gcd(a, b) {
  a = a < 0n ? -a : a;
  b = b < 0n ? -b : b;
  while (b) [a, b] = [b, a % b];
  return a;
}

export function lcm(a, b) {
  return (a / gcd(a, b)) * b;
}

/** A fraction as [numerator, denominator], in lowest terms. */
export function reduced(num, den) {
  const common = gcd(num, den);
  return [num / common, den / common];
}

export function textOfFraction([num, den]) {
  return den === 1n ? String(num) : `${num}/${den}`;
}

function fits([num, den]) {
  return num >= -(2n ** 127n) && num < 2n ** 127n && den < 2n ** 127n;
}

/** The value of an integer, or of a fraction text in lowest terms. */
function fraction(tree, what) {
  if (typeof tree === "bigint") return [tree, 1n];
  need(typeof tree === "string" && /^-?[0-9]{1,39}(\/0*[1-9][0-9]{0,38})?$/.test(tree), `${what} is no fraction`);
  const [num, den = "1"] = tree.split("/");
  const value = reduced(BigInt(num), BigInt(den));
  need(textOfFraction(value) === tree && fits(value), `${what} isn't in lowest terms, or is too long: ${tree}`);
  return value;
}

// ---- The document

export function readDocument(data) {
  need(data.length <= MOST_BYTES, "it has more than 8,388,608 bytes");
  const tree = readTree(data);
  need(isObject(tree), "it isn't an object");
  need(!("refused" in tree || "usage" in tree), `the program answered ${writeJson(tree).slice(0, 80)}`);
  needKeys(tree, [DOCUMENT_KEYS], "the document");
  need(tree.answer === "nucleolus" || tree.answer === "prenucleolus", "its answer isn't nucleolus or prenucleolus");
  const game = new Game(tree.game);
  const shares = array(tree.shares, game.n, game.n, "shares").map((share) => fraction(share, "a share"));
  return { answer: tree.answer, game, shares, ...readCertificate(tree.certificate, game) };
}

function readTree(data) {
  try {
    return parseJson(data);
  } catch (fault) {
    throw new Refused(`it is no JSON text in UTF-8: ${fault.message}`);
  }
}

function array(tree, low, high, what) {
  need(Array.isArray(tree), `${what} isn't an array`);
  const range = low < high ? `${low} to ${high}` : low;
  need(low <= tree.length && tree.length <= high, `${what} has ${tree.length} items, and not ${range}`);
  return tree;
}

/** An integer that the page may count with. */
function integer(tree, low, high, what) {
  need(typeof tree === "bigint" && low <= tree && tree <= high, `${what} isn't an integer from ${low} to ${high}`);
  return Number(tree);
}

/** The game of a document: its class, how many players it has, and its numbers, which are whole, over the scale. */
class Game {
  constructor(tree) {
    need(isObject(tree), "the game isn't an object");
    this.kind = tree.class;
    need(
      typeof this.kind === "string" && Object.hasOwn(KEYS, this.kind),
      `its class is none of ${Object.keys(KEYS).join(", ")}`,
    );
    needKeys(tree, KEYS[this.kind], `a game of class ${this.kind}`, ["class", "names", "excess", "version"]);
    const measure = "excess" in tree ? tree.excess : "plain";
    need(measure === "plain" || measure === "per-head", "excess isn't plain or per-head");
    this.perHead = measure === "per-head";
    const version = "version" in tree ? integer(tree.version, 1, 2, "version") : 1;
    this.hasFractions = version === 2 && this.kind !== "voting";
    this.n = this.countPlayers(tree);
    need(this.n <= 16 || !this.perHead, "excess per head is for at most 16 players");
    this.names = this.readNames(tree);
    this.setNumbers(this.listed(tree).map((number) => this.readNumber(number)));
    if ("matrix" in tree) this.setRows(tree.matrix[0].length);
  }

  isTable() {
    return this.kind.endsWith("table");
  }

  countPlayers(tree) {
    if ("players" in tree) return integer(tree.players, 1, 16, "players");
    if ("matrix" in tree) {
      const rows = array(tree.matrix, 1, 17, "the matrix");
      const columns = array(rows[0], 1, 17, "a row").length;
      const players = this.kind === "tree" ? rows.length - 1 : rows.length + columns;
      return integer(BigInt(players), 1, 16, "the number of players");
    }
    const [key, most] = ARRAYS[this.kind];
    return array(tree[key], 1, most, key).length;
  }

  readNames(tree) {
    if (!("names" in tree)) return [];
    const names = array(tree.names, this.n, this.n, "names");
    const bytes = (name) => new TextEncoder().encode(name).length;
    need(names.every((name) => typeof name === "string" && name && bytes(name) <= 64), "a name hasn't 1 to 64 bytes");
    need(new Set(names).size === this.n, "a name stands twice");
    return names;
  }

  /** The numbers in one list: a table by masks, with 0 for nobody; a matrix row by row; claims and the estate. */
  listed(tree) {
    if ("worths" in tree) return [0n, ...array(tree.worths, 2 ** this.n - 1, 2 ** this.n - 1, "worths")];
    if ("sparse" in tree) return this.filled(
      array(tree.sparse, 0, Infinity, "sparse"),
      "default" in tree ? tree.default : 0n,
    );
    if ("matrix" in tree) {
      const columns = this.kind === "tree" ? this.n + 1 : tree.matrix[0].length;
      return tree.matrix.flatMap((row) => array(row, columns, columns, "a row"));
    }
    const last = ["estate", "quota"].filter((key) => key in tree).map((key) => tree[key]);
    return [...tree[ARRAYS[this.kind][0]], ...last];
  }

  /** The table of a sparse one, and the default behind it, which counts for the scale too. */
  filled(sparse, byDefault) {
    const table = new Map([[0, 0n]]);
    for (const item of sparse) {
      const [coalition, number] = array(item, 2, 2, "an item of sparse");
      const players = array(coalition, 1, this.n, "a coalition of sparse").map((member) => this.readPlayer(member));
      need(new Set(players).size === players.length, "a player stands twice in a coalition of sparse");
      need(!table.has(maskOf(players)), "a coalition of sparse stands twice");
      table.set(maskOf(players), number);
    }
    const numbers = Array.from({ length: 2 ** this.n }, (_, mask) => (table.has(mask) ? table.get(mask) : byDefault));
    return [...numbers, byDefault];
  }

  readPlayer(member) {
    if (typeof member !== "string") return integer(member, 1, this.n, "a member") - 1;
    need(this.names.includes(member), `${JSON.stringify(member)} isn't among the names`);
    return this.names.indexOf(member);
  }

  readNumber(tree) {
    need(typeof tree === "bigint" || this.hasFractions, "a number of the game isn't an integer");
    return fraction(tree, "a number of the game");
  }

  setNumbers(fractions) {
    let scale = 1n;
    for (const [, den] of fractions) {
      scale = lcm(scale, den);
      need(scale <= 65536n, "the numbers have no common denominator to 65,536");
    }
    const whole = fractions.map(([num, den]) => num * (scale / den));
    need(
      whole.every((number) => number < 2n ** 40n && number > -(2n ** 40n)),
      "a number, times the common denominator, is 2^40 or more",
    );
    this.scale = scale;
    this.numbers = whole.map(Number); // below 2^40, so sums of 64 are exact
    need(this.isTable() || this.numbers.every((number) => number >= 0), "a number is negative");
    const last = this.numbers.at(-1), others = this.numbers.slice(0, -1).reduce((total, number) => total + number, 0);
    if (this.kind === "bankruptcy") need(last <= others, "the claims add to less than the estate");
    if (this.kind === "voting") {
      need(
        1 <= last && last <= others && others <= 1000,
        "the weights add to more than 1,000, or the quota isn't 1 to that",
      );
    }
  }

  setRows(columns) {
    this.rows = [];
    for (let start = 0; start < this.numbers.length; start += columns) {
      this.rows.push(this.numbers.slice(start, start + columns));
    }
    if (this.kind !== "tree") return;
    const isEven = this.rows.every((row, i) => row.every((entry, j) => entry === this.rows[j][i]));
    need(isEven, "the links differ by their direction");
    need(this.rows.every((row, i) => row[i] === 0), "a link from a point to itself costs something");
  }
}

function readCertificate(tree, game) {
  need(isObject(tree), "the certificate isn't an object");
  needKeys(tree, [["mode", "levels"]], "the certificate");
  need(tree.mode === "players" || tree.mode === "span", "mode isn't players or span");
  need(tree.mode === "players" || game.n <= 16, "mode span is for at most 16 players");
  const levels = [], listed = new Set();
  for (const level of array(tree.levels, 0, game.n - 1, "levels")) {
    levels.push(readLevel(level, game, listed));
    for (const { players } of levels.at(-1).coalitions) listed.add(orderOf(players));
  }
  return { mode: tree.mode, levels };
}

function readLevel(tree, game, listed) {
  need(isObject(tree), "a level isn't an object");
  needKeys(tree, [LEVEL_KEYS], "a level");
  need(typeof tree.excess === "string", "the excess of a level isn't a text");
  const excess = fraction(tree.excess, "an excess");
  need(fits(reduced(excess[0] * game.scale, excess[1])), "an excess is too long");
  const total = weightOf(tree.total);
  const coalitions = readPairs(tree.coalitions, 1, "coalitions", (place) => properCoalition(place, game.n));
  const earlier = readPairs(tree.earlier, 0, "earlier", (place) => properCoalition(place, game.n));
  const bounds = readPairs(tree.bounds, 0, "bounds", (place) => [integer(place, 1, game.n, "a player of bounds") - 1]);
  need(
    earlier.every(({ players }) => listed.has(orderOf(players))),
    "a coalition of earlier stands in no level in front",
  );
  return { excess, total, coalitions, earlier, bounds };
}

/** Pairs of players and a weight, in strictly ascending mask order. */
function readPairs(tree, least, what, read) {
  const pairs = array(tree, least, 65536, what).map((item) => {
    const [place, weight] = array(item, 2, 2, `an item of ${what}`);
    return { players: read(place), weight: weightOf(weight) };
  });
  const orders = pairs.map(({ players }) => orderOf(players));
  need(orders.every((order, k) => k === 0 || orders[k - 1] < order), `${what} don't ascend`);
  return pairs;
}

function weightOf(tree) {
  need(typeof tree === "bigint" && tree > -(2n ** 63n), "a weight or a total isn't an integer below 2^63 in size");
  return tree;
}

function properCoalition(tree, n) {
  const players = array(tree, 1, n - 1, "a coalition").map((player) => integer(player, 1, n, "a member") - 1);
  need(players.every((player, k) => k === 0 || players[k - 1] < player), "the members of a coalition don't ascend");
  return players;
}
