// Where the divisions among three lie in a triangle: its frame, the core, and the lines of groups.
import { Rational, ZERO } from "../exact/rational.js";

const ALONE = [[0], [1], [2]];
const PAIRS = [[1, 2], [0, 2], [0, 1]];

/** The three divisions that give two players their least and the third all that is left. */
function cornersAbove(low, total) {
  const left = total.minus(Rational.sum(low));
  return [0, 1, 2].map((i) => low.map((least, j) => (i === j ? least.plus(left) : least)));
}

/** A convex figure cut along the line where the gain is 0: what is left has a gain of 0 or more. */
function halved(corners, gain) {
  return corners.flatMap((a, k) => {
    const b = corners[(k + 1) % corners.length], here = gain(a), there = gain(b);
    const kept = here.isNegative() ? [] : [a];
    if (!here.times(there).isNegative()) return kept;
    const part = here.over(here.minus(there));
    return [...kept, a.map((p, i) => p.plus(b[i].minus(p).times(part)))];
  });
}

/** The least that each gets in the picture, where shares lie outside of the imputations or there are none. */
function frameAround(shares, own, spare, total) {
  const three = Rational.of(3), middle = [own.map((least) => least.plus(spare.over(three)))];
  const seen = [...shares, ...(spare.isNegative() ? middle : cornersAbove(own, total))];
  const least = own.map((_, i) => Rational.min(seen.map((x) => x[i])));
  const needed = [total.minus(Rational.sum(least)), spare.times(Rational.of(-2)), new Rational(1n, 1000n)];
  const room = Rational.max(needed).over(Rational.of(8));
  return least.map((value) => value.minus(room));
}

export class Shape {
  constructor(game, points, { side, left, top }) {
    this.game = game;
    this.sign = game.costs ? (value) => value.negated() : (value) => value;
    this.total = game.worth([0, 1, 2]);
    this.shares = points.map((point) => point.shares.map(this.sign));
    const own = ALONE.map((group) => game.worth(group));
    this.spare = this.total.minus(Rational.sum(own));
    const isWithin = this.shares.every((x) => x.every((share, i) => !share.less(own[i])));
    this.isImputations = ZERO.less(this.spare) && isWithin;
    this.frame = this.isImputations ? own : frameAround(this.shares, own, this.spare, this.total);
    this.extent = this.total.minus(Rational.sum(this.frame));
    this.high = (side * Math.sqrt(3)) / 2;
    this.side = side;
    this.spots = [[left, top + this.high], [left + side, top + this.high], [left + side / 2, top]];
    this.place = this.place.bind(this);
    this.path = (corners) => corners.map((x) => this.place(x).map((n) => n.toFixed(1)).join(",")).join(" ");
    this.outer = cornersAbove(this.frame, this.total);
    this.inner = cornersAbove(own, this.total);
    this.core = this.coreOf();
  }

  place(x) {
    const parts = x.map((share, i) => share.minus(this.frame[i]).over(this.extent).toNumber());
    return [0, 1].map((axis) => parts.reduce((sum, part, i) => sum + part * this.spots[i][axis], 0));
  }

  coreOf() {
    let core = this.outer;
    for (const group of [...ALONE, ...PAIRS]) {
      const worth = this.game.worth(group);
      core = halved(core, (x) => Rational.sum(group.map((i) => x[i])).minus(worth));
    }
    const isSame = (x, y) => y.every((share, i) => share.equals(x[i]));
    return core.filter((x, k) => core.findIndex((y) => isSame(x, y)) === k);
  }

  /** The ends of the line on which a group gets just what it is worth; null where it lies outside. */
  lineOf(group) {
    const isPair = group.length === 2, k = isPair ? [0, 1, 2].find((i) => !group.includes(i)) : group[0];
    const worth = this.game.worth(group), value = isPair ? this.total.minus(worth) : worth;
    const part = value.minus(this.frame[k]).over(this.extent);
    if (part.isNegative() || Rational.of(1).less(part)) return null;
    const rest = this.extent.times(Rational.of(1).minus(part));
    return [0, 1, 2].filter((i) => i !== k).map((other) => this.place(this.frame.map((least, i) => {
      if (i === k) return least.plus(this.extent.times(part));
      return i === other ? least.plus(rest) : least;
    })));
  }
}
