// The numbers by which a certificate fails a condition, beside its sentence.
import { fullText, shortText } from "../exact/decimals.js";
import { Rational } from "../exact/rational.js";
import { everyoneOf, membersOf, without } from "../game/groups.js";
import { failureText } from "./failures.js";
import { excessOf } from "./judged.js";
import { levelOf, Settled } from "./levels.js";
import { Namer } from "./words.js";

const MOST = 16; // players among whose groups the one that is open and worse off is sought

/** The sentences of a no to a document: the condition, and the numbers of the document that fail it, by its game. */
export function failureTold(line, game = null, document = null) {
  const { condition, sentence } = failureText(line, game);
  const numbers = game && document?.certificate ? new Failure(game, document).numbers(line) : "";
  return [`The certificate fails condition ${condition}.`, sentence, numbers].filter(Boolean);
}

class Failure {
  constructor(game, { answer, shares, certificate }) {
    Object.assign(this, { game, answer, mode: certificate.mode, shares: shares.map(Rational.of) });
    this.levels = certificate.levels.map(levelOf);
    this.namer = new Namer(game);
    [this.pays, this.costs] = game.costs ? ["pays", "costs"] : ["gets", "is worth"];
  }

  /** What the document has where the condition asks for something else; "" if its sentence says all. */
  numbers({ reason, level: number, player, coalition, excess }) {
    const i = Number(player) - 1, level = this.levels[Number(number) - 1];
    if (reason === 1n) {
      const whole = `all together ${this.game.costs ? "cost" : "are worth"} ${shortText(this.game.whole())}`;
      return `They add to ${shortText(Rational.sum(this.shares))}, and ${whole}.`;
    }
    if (reason === 2n) return this.alone(i);
    if (reason === 3n) {
      const found = excessOf(this.game, this.shares, coalition.map((one) => Number(one) - 1));
      return `The level has the excess ${fullText(level.excess)}, and it is ${fullText(found)}.`;
    }
    if (reason === 5n) return this.sum(i, level);
    if (reason === 6n) return this.answer === "prenucleolus" ? "A prenucleolus has no bounds." : this.alone(i);
    return reason === 7n ? this.open(Number(number) - 1, Rational.of(excess)) : "";
  }

  alone(i) {
    const share = fullText(this.shares[i]), own = fullText(this.game.alone(i));
    return `${this.namer.names[i]} ${this.pays} ${share}, and ${this.costs} ${own} alone.`;
  }

  sum(i, { coalitions, earlier, bounds, total }) {
    const own = [...coalitions, ...earlier, ...bounds].filter(([group]) => group.includes(i));
    return `They add to ${own.reduce((sum, [, weight]) => sum + weight, 0n)}, and the total is ${total}.`;
  }

  /** The first group that is open before the level and has the excess. */
  open(place, excess) {
    const { game, shares } = this, level = `The level has the excess ${fullText(this.levels[place].excess)}`;
    if (game.n > MOST) return `${level}.`;
    const before = this.levels.slice(0, place);
    for (let mask = 1; mask < 2 ** game.n - 1; mask++) {
      const group = membersOf(mask);
      if (excessOf(game, shares, group).equals(excess) && this.isOpen(group, before)) {
        return `${level}. It is ${this.namer.group(group)}.`;
      }
    }
    return `${level}.`;
  }

  /** Whether the levels before don't settle a group. */
  isOpen(group, before) {
    const { n } = this.game;
    if (this.mode === "span") {
      const settled = new Settled(n);
      for (const level of before) settled.addLevel(level);
      const { rank } = settled;
      settled.add(group);
      return settled.rank > rank;
    }
    const listed = before.flatMap(({ coalitions }) => coalitions.map(([some]) => some));
    const bound = before.flatMap(({ bounds }) => bounds.filter(([, weight]) => weight > 0n).map(([some]) => some));
    const others = listed.map((some) => without(n, some));
    const alone = new Set([...listed, ...others, ...bound].filter((some) => some.length === 1).flat());
    const free = everyoneOf(n).filter((i) => !alone.has(i)).map((i) => group.includes(i));
    return free.includes(true) && free.includes(false);
  }
}
