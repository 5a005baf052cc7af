// What the page calculates beyond the program, as its worker sends it in texts: the shares of many landings, or power
// by two quotas. `points` are like those of the program, except that they are by rows.
import { Rational } from "../exact/rational.js";

const values = (texts) => texts.map(Rational.of);

/** It with numbers; undefined if there is none. */
export function calculated(sent) {
  return sent && (sent.power ? powerOf(sent) : landingsOf(sent));
}

function landingsOf({ rows, points, ...others }) {
  return {
    ...others, rows: rows.map((row) => ({ ...row, cost: Rational.of(row.cost) })),
    points: points.map(({ key, title, each }) => {
      const shares = values(each), totals = shares.map((share, r) => share.times(Rational.of(rows[r].count)));
      return { key, title, each: shares, totals };
    }),
  };
}

/** `game` is what a picture of power needs. */
function powerOf({ power, ballots, rows }) {
  const shown = rows.map(({ label }) => label), shares = values(power);
  return {
    rows, shares, points: [{ key: "shapley", title: "Power", totals: shares }], game: {
      shown, everyone: () => shown.map((_, i) => i),
      ballots: ballots.map(({ votes, quota }) => ({ votes: values(votes), quota: Rational.of(quota) })),
    },
  };
}
