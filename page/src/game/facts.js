// What the page has to know of a game to show its answer. The worker, which has the whole game, sends it as texts.
import { Rational } from "../exact/rational.js";
import { everyoneOf, maskOf, membersOf } from "./groups.js";

const MOST_GROUPS = 4; // players of whose groups the page knows what each is worth: those of a tetrahedron

/** The facts of a game as a worker can send them. `ballots` are the votes and the quota of each ballot, where the case
 * is a vote, and `limits` the limit prices of buyers and sellers, where a market is given by these. */
export function factsOf(game, ballots = null, limits = null) {
  const texts = (values) => values?.map(String);
  const groups = game.n <= MOST_GROUPS ? everyoneOf(2 ** game.n).map((mask) => game.worth(membersOf(mask))) : null;
  return {
    kind: game.kind, costs: game.costs, perHead: game.perHead, n: game.n, named: game.named, shown: game.shown,
    amounts: game.isTable() ? null : texts(game.amounts), single: game.single && String(game.single),
    rows: game.isMarket() ? game.rows.map(texts) : null,
    ...sumsOf(game), worths: texts(groups),
    ballots: ballots?.map(({ votes, quota }) => ({ votes: texts(votes), quota: String(quota) })),
    limits: limits && { buyers: texts(limits.buyers), sellers: texts(limits.sellers) },
  };
}

/** What all are worth, what each is worth alone, and what it adds to all others. Those of a market of many traders take
 * long, and nothing asks for them. */
function sumsOf(game) {
  if (game.kind === "market") return { whole: "0" };
  const each = (value) => game.everyone().map((i) => String(value(i)));
  return { whole: String(game.whole()), alone: each((i) => game.alone(i)), added: each((i) => game.added(i)) };
}

export class Facts {
  constructor({ amounts, single, rows, whole, alone, added, worths, ballots, limits, ...others }) {
    const values = (texts) => texts?.map(Rational.of);
    Object.assign(this, others, {
      amounts: values(amounts), single: single && Rational.of(single), rows: rows?.map(values),
      total: Rational.of(whole), own: values(alone), adds: values(added), groups: values(worths),
      ballots: ballots?.map(({ votes, quota }) => ({ votes: values(votes), quota: Rational.of(quota) })),
      limits: limits && { buyers: values(limits.buyers), sellers: values(limits.sellers) },
    });
  }

  isTable() {
    return this.kind.endsWith("table");
  }

  isMarket() {
    return this.kind === "assignment" || this.kind === "market";
  }

  everyone() {
    return everyoneOf(this.n);
  }

  whole() {
    return this.total;
  }

  alone(i) {
    return this.own[i];
  }

  added(i) {
    return this.adds[i];
  }

  /** What a group of at most four players is worth; a cost is negative. */
  worth(group) {
    return this.groups[maskOf(group)];
  }
}
