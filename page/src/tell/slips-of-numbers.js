// What is wrong with the numbers of a game, and with its groups.
import { readNumber, stepsOf } from "../exact/decimals.js";
import { lcm, Rational } from "../exact/rational.js";
import { Inexact, writeJson } from "../exact/json.js";
import { LIMITS, mostOf } from "../game/classes.js";
import { withEscapes } from "../game/names.js";
import { plural } from "../game/words.js";

const MOST = 2n ** BigInt(LIMITS.bits), MOST_SCALE = BigInt(LIMITS.denominator), MOST_VOTES = BigInt(LIMITS.votes);

/** The common denominator of the numbers. `form` says whether the game is a table, whose numbers may be negative,
 * whether it has fractions, and whether it is a vote, which has none. */
export function numberSlips(tree, form, add) {
  const reader = new NumberReader(form, add);
  const list = (items, path) => items.forEach((item, i) => reader.read(item, `${path}, item ${i + 1}`));
  for (const key of ["worths", "costs", "claims", "weights"]) {
    if (Array.isArray(tree[key])) list(tree[key], `game.${key}`);
    else if (key in tree) add(3, `${key} is an array.`, `game.${key}`);
  }
  for (const key of ["estate", "default", "quota"]) if (key in tree) reader.read(tree[key], `game.${key}`);
  if (Array.isArray(tree.matrix)) {
    tree.matrix.forEach((row, i) => {
      const path = `game.matrix, row ${i + 1}`;
      if (Array.isArray(row)) list(row, path);
      else add(3, "A row is an array.", path);
    });
  }
  if (Array.isArray(tree.sparse)) sparseSlips(tree, reader, add);
  else if ("sparse" in tree) add(3, "sparse is an array of pairs.", "game.sparse");
  if (reader.isFine && !form.isVote) {
    const most = LIMITS.denominator.toLocaleString("en");
    add(5, `The numbers have no common denominator up to ${most}. Give fewer decimals.`, "game");
  } else if (reader.scale > 1n && !reader.most.times(new Rational(reader.scale)).less(new Rational(MOST))) {
    add(5, `A number, times the common denominator ${reader.scale}, is 2^40 or more.`, "game");
  }
  return reader.scale;
}

class NumberReader {
  constructor({ isTable, hasFractions, isVote }, add) {
    Object.assign(this, { isTable, add, hasFractions: hasFractions && !isVote });
    this.scale = 1n;
    this.most = new Rational(0n);
    this.isFine = false;
  }

  read(item, place) {
    if (typeof item === "bigint") return this.size(item, 1n, place);
    if (item instanceof Inexact) {
      return this.add(5, `${item.text.slice(0, 30)} is no whole number.${this.advice(item.text)}`, place);
    }
    if (typeof item === "string") return this.fraction(item, place);
    const shown = withEscapes(writeJson(item).slice(0, 30)), isLink = item === null && place.startsWith("game.matrix");
    const hint = isLink ? " A link that doesn’t exist needs a number, too." : "";
    return this.add(3, `${shown} is where a number belongs.${hint}`, place);
  }

  /** What a number with a point may mean; with fewer decimals where it is too fine for a document. */
  advice(text) {
    const value = meantBy(text), isSaid = this.hasFractions || value?.isWhole();
    const version = isSaid ? "" : ", and \"version\":2 in the game";
    if (!value) return " Write a fraction as a text, \"25/2\".";
    if (value.den <= MOST_SCALE) return ` Write ${written(value)}${version}.`;
    return ` Write fewer decimals, such as ${written(rounded(value))}${version}; or multiply all numbers (--scaled of `
      + "scripts/from-vector).";
  }

  fraction(item, place) {
    const shown = withEscapes(item.slice(0, 30));
    if (!this.hasFractions) {
      return this.add(3, `“${shown}” is in quotes. Fractions need "version":2 in the game.`, place);
    }
    const slip = fractionSlip(item);
    if (slip) return this.add(5, slip + (FORM.test(item) ? "" : this.advice(item)), place);
    const [num, den = 1n] = item.split("/").map(BigInt);
    this.scale = this.isFine ? 1n : lcm(this.scale, den);
    this.isFine ||= this.scale > MOST_SCALE;
    return this.size(num, den, place);
  }

  size(num, den, place) {
    const size = num < 0n ? -num : num;
    if (num < 0n && !this.isTable) this.add(5, "A number here can’t be negative.", place);
    if (size >= MOST * den) this.add(5, "A number is 2^40 (about a million millions) or more.", place);
    else if (this.most.num * den < size * this.most.den) this.most = new Rational(size, den);
  }
}

const FORM = /^(-?(?:0|[1-9]\d{0,38}))(?:\/([1-9]\d{0,38}))?$/;
const MOST_PART = 2n ** 127n;

/** What is wrong with a text that should be a fraction in lowest terms; "" where nothing is. */
export function fractionSlip(text) {
  const shown = withEscapes(text.slice(0, 30)), parts = FORM.exec(text);
  if (!parts) return `“${shown}” is no fraction, as "25/2".`;
  const num = BigInt(parts[1]), den = BigInt(parts[2] ?? 1);
  if (!fits(num, den)) return `“${shown}…” is longer than 128 bits.`;
  const value = String(new Rational(num, den));
  return value === text ? "" : `“${shown}” isn’t in lowest terms; write ${written(Rational.of(value))}.`;
}

/** Whether the program has room for a fraction. */
export function fits(num, den) {
  return num >= -MOST_PART && num < MOST_PART && den < MOST_PART;
}

/** A number as a document has it. */
function written(value) {
  return value.isWhole() ? `${value}` : `"${value}"`;
}

/** What a text that is no number of a document may mean; null if nobody knows. */
function meantBy(text) {
  const { value } = text.length <= 60 ? readNumber(text.replace(",", ".").replaceAll(" ", ""), ".") : {};
  return value && value.num < 10n ** 30n ? value : null;
}

/** To four decimals. */
function rounded(value) {
  return new Rational(stepsOf(value, 4), 10_000n);
}

// ---- Groups of a table

function sparseSlips(tree, reader, add) {
  const seen = new Map();
  tree.sparse.forEach((item, i) => {
    const place = `game.sparse, item ${i + 1}`;
    if (!Array.isArray(item) || item.length !== 2 || !Array.isArray(item[0])) {
      return add(3, "An item is a pair of a group, as an array, and a number.", place);
    }
    reader.read(item[1], place);
    const members = item[0].map((member) => memberOf(member, tree, place, add));
    if (!members.length) add(7, "A group has no member.", place);
    if (new Set(members).size < members.length) add(7, "A player occurs twice in a group.", place);
    const key = [...members].sort().join();
    if (seen.has(key)) add(7, `The group is at item ${seen.get(key)} already.`, place);
    else seen.set(key, i + 1);
    return undefined;
  });
}

function memberOf(member, { names, players }, place, add) {
  if (typeof member === "string") {
    const i = Array.isArray(names) ? names.indexOf(member) : -1;
    if (i < 0) add(6, `“${withEscapes(member.slice(0, 64))}” isn’t among the names.`, place);
    return i + 1;
  }
  if (member instanceof Inexact) return add(7, `There is no player ${member.text.slice(0, 30)}.`, place), NaN;
  if (typeof member !== "bigint") return add(3, "A member is a number or a name.", place), NaN;
  const most = typeof players === "bigint" ? players : BigInt(mostOf("table"));
  if (member < 1n || member > most) add(7, `There is no player ${member}.`, place);
  return Number(member);
}

// ---- The numbers together

export function wholeSlips(tree, kind, add) {
  if (kind === "voting") voteSlips(tree, add);
  if (kind === "bankruptcy" && Rational.sum(tree.claims.map(Rational.of)).less(Rational.of(tree.estate))) {
    add(8, "The claims add to less than the estate. Then each gets its claim, and no rule is needed.", "game.estate");
  }
  if ("matrix" in tree) matrixSlips(tree, kind, add);
}

function voteSlips({ weights, quota }, add) {
  const votes = weights.reduce((total, item) => total + item, 0n);
  if (votes > MOST_VOTES) {
    const advice = "Divide all by a common divisor.";
    const most = LIMITS.votes.toLocaleString("en");
    add(13, `The votes add to ${votes}, and the program takes ${most}. ${advice}`, "game.weights");
  } else if (quota < 1n || quota > votes) {
    add(13, `The quota has to be from 1 to ${votes}, the votes of all.`, "game.quota");
  }
}

function matrixSlips({ matrix }, kind, add) {
  const width = kind === "tree" ? matrix.length : matrix[0].length;
  matrix.forEach((row, i) => {
    const place = `game.matrix, row ${i + 1}`;
    if (row.length !== width) add(9, `Row ${i + 1} has ${plural(row.length, "item")}, and not ${width}.`, place);
    if (kind === "tree") row.forEach((item, j) => linkSlip(matrix, item, i, j, add));
  });
}

function linkSlip(matrix, item, i, j, add) {
  const place = `game.matrix, row ${i + 1}, item ${j + 1}`;
  if (i === j && item !== 0n) add(9, "From a point to itself a link costs 0.", place);
  if (j < i && item !== matrix[j]?.[i]) add(9, "A link costs the same in both directions; these two differ.", place);
}
