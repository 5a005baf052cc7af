// What is wrong with shares, and with the form of a certificate.
import { lcm, Rational } from "../exact/rational.js";
import { Inexact, isObject, writeJson } from "../exact/json.js";
import { CLASSES, LIMITS, mostOf } from "../game/classes.js";
import { withEscapes } from "../game/names.js";
import { fits, fractionSlip } from "./slips-of-numbers.js";
import { isOrAre, plural } from "../game/words.js";

const MOST_DENOMINATOR = 2n ** 63n;
const MOST_SHARE = 2n ** 110n;
const MOST_WEIGHT = 2n ** 63n;
const MOST_PLAYERS = Math.max(...Object.keys(CLASSES).map(mostOf)), MOST_IN_SPAN = LIMITS["mode span"];
const MOST_ITEMS = 65_536;
const LEVEL_KEYS = ["bounds", "coalitions", "earlier", "excess", "total"];

// ---- Shares

/** `scale` is the common denominator of the numbers of the game, and `n` is 0 where nobody knows how many players it
 * has. */
export function shareSlips({ shares }, n, scale, add) {
  if (!Array.isArray(shares)) return add(3, "shares is an array, with a share for each player.", "shares");
  if (n > 0 && shares.length !== n) {
    add(10, `There ${isOrAre(shares)} ${plural(shares.length, "share")} for ${plural(n, "player")}.`, "shares");
  }
  const isRead = shares.map((share, i) => shareIsRead(share, `shares, item ${i + 1}`, add));
  return isRead.every(Boolean) ? finenessSlips(shares, scale, add) : undefined;
}

function shareIsRead(share, place, add) {
  if (typeof share === "bigint") return true;
  if (share instanceof Inexact) {
    add(5, `${share.text.slice(0, 30)} is no whole number. Write a fraction as a text, "25/2".`, place);
  } else if (typeof share !== "string") {
    add(3, `${withEscapes(writeJson(share).slice(0, 30))} is where a share belongs.`, place);
  } else {
    const slip = fractionSlip(share);
    if (slip) add(5, slip, place);
    return !slip;
  }
  return false;
}

/** Where the common denominator of the shares, times the scale, or a share over it, gets too large. */
function finenessSlips(shares, scale, add) {
  const values = shares.map((share) => Rational.of(share).times(new Rational(scale)));
  let common = 1n;
  for (const [i, { den }] of values.entries()) {
    common = lcm(common, den);
    if (common > MOST_DENOMINATOR) {
      const sentence = "With this share the common denominator of all shares gets above 2^63. Give rounder shares.";
      return add(11, sentence, `shares, item ${i + 1}`);
    }
  }
  const great = values.findIndex(({ num, den }) => (num < 0n ? -num : num) * (common / den) >= MOST_SHARE);
  if (great < 0) return undefined;
  return add(11, "Over the common denominator of all shares this one is too large.", `shares, item ${great + 1}`);
}

// ---- The form of a certificate

const isNumber = (tree) => typeof tree === "bigint" || tree instanceof Inexact;

/** What isn't of its JSON kind, or has other keys or words, is of number 3, and all else of number 12. */
export function certificateSlips({ certificate: tree }, players, scale, add) {
  const n = players > 0 ? players : MOST_PLAYERS; // what is told of fewer comes behind what is wrong with the game
  const shape = (sentence, place) => add(3, sentence, place), form = (sentence, place) => add(12, sentence, place);
  if (!isObject(tree)) return shape("The certificate is an object of mode and levels.", "certificate");
  const keys = Object.keys(tree).sort().join();
  if (keys !== "levels,mode") return shape("A certificate has the keys mode and levels, and no other.", "certificate");
  if (tree.mode !== "players" && tree.mode !== "span") return shape("mode is players or span.", "certificate.mode");
  if (!Array.isArray(tree.levels)) return shape("levels is an array.", "certificate.levels");
  if (tree.mode === "span" && n > MOST_IN_SPAN) {
    form(`Mode span is for at most ${MOST_IN_SPAN} players.`, "certificate.mode");
  }
  if (tree.levels.length >= n) {
    form(`There are fewer levels than players, and not ${tree.levels.length} for ${n}.`, "certificate.levels");
  }
  const listed = new Set(), reader = new LevelReader(n, scale, shape, form);
  tree.levels.forEach((level, k) => reader.read(level, `certificate, level ${k + 1}`, listed));
  return undefined;
}

class LevelReader {
  constructor(n, scale, shape, form) {
    Object.assign(this, { n, scale, shape, form });
  }

  /** `listed` are the masks of the coalitions of levels in front; those of this level are added. */
  read(level, place, listed) {
    if (!isObject(level)) return this.shape("A level is an object.", place);
    if (Object.keys(level).sort().join() !== LEVEL_KEYS.join()) {
      return this.shape(`A level has the keys ${LEVEL_KEYS.join(", ")}, and no other.`, place);
    }
    if (typeof level.excess !== "string") this.shape("The excess is a text.", `${place}, excess`);
    else this.excess(level.excess, `${place}, excess`);
    this.weight(level.total, "The total", `${place}, total`);
    const [coalitions, earlier] = ["coalitions", "earlier"].map((key) => {
      return this.pairs(level[key], `${place}, ${key}`, (players) => this.coalition(players));
    });
    this.pairs(level.bounds, `${place}, bounds`, (player) => this.player(player));
    if (!coalitions.length) this.form("A level has at least one coalition.", `${place}, coalitions`);
    if (Math.max(coalitions.length, earlier.length) > MOST_ITEMS) this.form("A level has 65,536 items at most.", place);
    earlier.forEach((mask, k) => {
      const where = `${place}, earlier, item ${k + 1}`;
      if (mask !== null && !listed.has(mask)) this.form("No earlier level lists this coalition.", where);
    });
    for (const mask of coalitions) listed.add(mask);
    return undefined;
  }

  excess(text, place) {
    if (fractionSlip(text)) return this.form("The excess is a fraction in lowest terms.", place);
    const { num, den } = Rational.of(text).times(new Rational(this.scale));
    if (!fits(num, den)) this.form("The excess, times the common denominator of the game, has over 128 bits.", place);
    return undefined;
  }

  /** The masks of some pairs, which have to ascend; null for a wrong one. */
  pairs(pairs, place, maskOf) {
    if (!Array.isArray(pairs)) return this.shape("This is an array of pairs.", place), [];
    let last = 0n;
    return pairs.map((pair, k) => {
      const where = `${place}, item ${k + 1}`;
      if (!Array.isArray(pair) || pair.length !== 2) return this.shape("An item is a pair with a weight.", where), null;
      this.weight(pair[1], "A weight", where);
      const { mask, isShape, sentence } = maskOf(pair[0]);
      if (sentence) return (isShape ? this.shape : this.form)(sentence, where), null;
      if (mask <= last) this.form("The items have to ascend, in the order of their masks.", where);
      last = mask;
      return mask;
    });
  }

  player(player) {
    const sentence = `A player is a number from 1 to ${this.n}.`;
    if (!isNumber(player)) return { isShape: true, sentence };
    const isRight = typeof player === "bigint" && player >= 1n && player <= BigInt(this.n);
    return isRight ? { mask: 1n << (player - 1n) } : { sentence };
  }

  coalition(players) {
    if (!Array.isArray(players) || !players.every(isNumber)) {
      return { isShape: true, sentence: "A coalition is a list of numbers of players." };
    }
    const masks = players.map((player) => this.player(player).mask), { n } = this;
    const isAscending = masks.every((mask, k) => mask !== undefined && (k === 0 || masks[k - 1] < mask));
    if (isAscending && masks.length && masks.length < n) return { mask: masks.reduce((sum, mask) => sum | mask, 0n) };
    return { sentence: `A coalition is a list of some, not all, of the players 1 to ${n}, ascending.` };
  }

  weight(weight, what, place) {
    const sentence = `${what} is a whole number below 2^63 in size.`;
    if (!isNumber(weight)) this.shape(sentence, place);
    else if (typeof weight !== "bigint" || weight <= -MOST_WEIGHT || weight >= MOST_WEIGHT) this.form(sentence, place);
  }
}
