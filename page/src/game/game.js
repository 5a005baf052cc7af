// The game of a document, as far as the page has to know it: names, and what a group is worth.
import { Rational, ZERO } from "../exact/rational.js";
import { CLASSES, keysOf } from "./classes.js";
import { everyoneOf, maskOf, membersOf, without } from "./groups.js";
import { shownName } from "./names.js";

const LISTS = keysOf("list"), SINGLES = keysOf("single");

/** A game that the program has read, or that the page has made: its form is right. */
export class Game {
  constructor(tree) {
    this.tree = tree;
    this.kind = tree.class;
    this.costs = CLASSES[this.kind]?.costs ?? false;
    this.perHead = tree.excess === "per-head";
    this.worths = new Map();
    if (this.kind in LISTS) this.readList(tree);
    else if ("matrix" in tree) this.readMatrix(tree);
    else this.n = Number(tree.players);
    this.named = "names" in tree;
    this.names = this.named ? tree.names : everyoneOf(this.n).map((i) => `player ${i + 1}`);
    this.shown = this.names.map(shownName);
    if (this.isTable()) this.readTable(tree);
  }

  isTable() {
    return this.kind.endsWith("table");
  }

  isMarket() {
    return this.kind === "assignment" || this.kind === "market";
  }

  readList(tree) {
    this.amounts = tree[LISTS[this.kind]].map((number) => Rational.of(number));
    this.n = this.amounts.length;
    if (this.kind in SINGLES) this.single = Rational.of(tree[SINGLES[this.kind]]);
  }

  readMatrix(tree) {
    this.rows = tree.matrix.map((row) => row.map((number) => Rational.of(number)));
    this.n = this.kind === "tree" ? this.rows.length - 1 : this.rows.length + this.rows[0].length;
  }

  readTable(tree) {
    if ("worths" in tree) {
      this.amounts = [ZERO, ...tree.worths.map((number) => Rational.of(number))];
      return;
    }
    this.amounts = Array(2 ** this.n).fill(Rational.of(tree.default ?? 0n));
    this.amounts[0] = ZERO;
    const place = (member) => (typeof member === "string" ? this.names.indexOf(member) : Number(member) - 1);
    for (const [group, number] of tree.sparse) {
      const members = group.map(place);
      this.amounts[maskOf(members)] = Rational.of(number);
    }
  }

  everyone() {
    return everyoneOf(this.n);
  }

  /** What a group gets by itself; minus its cost where the numbers are costs. */
  worth(group) {
    if (this.isTable()) {
      const amount = this.amounts[maskOf(group)];
      return this.costs ? amount.negated() : amount;
    }
    if (!group.length) return ZERO;
    const key = group.join();
    if (!this.worths.has(key)) this.worths.set(key, this.worthByClass(group));
    return this.worths.get(key);
  }

  worthByClass(group) {
    if (this.kind === "airport") return Rational.max(group.map((i) => this.amounts[i])).negated();
    if (this.kind === "bankruptcy") {
      const left = this.single.minus(Rational.sum(without(this.n, group).map((i) => this.amounts[i])));
      return left.isNegative() ? ZERO : left;
    }
    if (this.kind === "voting") {
      return Rational.of(Rational.sum(group.map((i) => this.amounts[i])).less(this.single) ? 0 : 1);
    }
    return this.kind === "tree" ? this.network(group).negated() : this.trade(group);
  }

  /** What a group costs, or is worth, as people say it: a cost is no negative number. */
  told(group) {
    const worth = this.worth(group);
    return this.costs ? worth.negated() : worth;
  }

  whole() {
    return this.told(this.everyone());
  }

  alone(i) {
    return this.told([i]);
  }

  /** What a player adds to all others. */
  added(i) {
    return this.whole().minus(this.told(without(this.n, [i])));
  }

  /** The least cost of a network that joins the group to the source. */
  network(group) {
    let cost = ZERO;
    const links = new Map(group.map((i) => [i + 1, this.rows[0][i + 1]]));
    while (links.size) {
      const [next, link] = [...links].reduce((best, other) => (other[1].less(best[1]) ? other : best));
      links.delete(next);
      cost = cost.plus(link);
      for (const [point, known] of links) links.set(point, Rational.min([known, this.rows[next][point]]));
    }
    return cost;
  }

  /** What the buyers and the sellers of a group are worth together: the smaller side is given out bit by bit. */
  trade(group) {
    const buyers = group.filter((i) => i < this.rows.length);
    const sellers = group.filter((i) => i >= this.rows.length);
    const isFew = sellers.length <= buyers.length, few = isFew ? sellers : buyers;
    let best = Array(2 ** few.length).fill(ZERO);
    for (const one of isFew ? buyers : sellers) {
      best = best.map((value, taken) => {
        const trades = membersOf(taken).map((k) => {
          const [buyer, seller] = isFew ? [one, few[k]] : [few[k], one];
          return best[taken & ~(1 << k)].plus(this.rows[buyer][seller - this.rows.length]);
        });
        return Rational.max([value, ...trades]);
      });
    }
    return best.at(-1);
  }
}
