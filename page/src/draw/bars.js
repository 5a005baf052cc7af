// Bars of what each gets or pays, with marks at what it is worth alone and at what it adds to all others.
import { shortText } from "../exact/decimals.js";
import { Rational, ZERO } from "../exact/rational.js";
import { spoken } from "../exact/marks.js";
import { chart } from "./chart.js";
import { figure } from "./figure.js";

const MOST_ROWS = 12; // of landings that have a bar each

/** `rows` are {label, players}: players of a row have equal shares, and the bar is that of one. `hasAdded` says
 * that there are marks at what each adds to all others, and `hasNumbers` that the shares are beside the bars. */
export function barsPicture(game, rows, points, { show, column, wide, hasAdded = true, hasNumbers = false }) {
  const first = rows.map(({ players: [i] }) => i);
  const alone = first.map((i) => game.alone(i)), added = hasAdded ? first.map((i) => game.added(i)) : [];
  const values = [ZERO, ...added, ...points.flatMap((point) => first.map((i) => point.shares[i]))];
  const most = Rational.max(values), isFar = most.times(Rational.of(4)).less(Rational.max(alone));
  const low = Rational.min([...values, ...alone]).toNumber();
  const high = isFar ? most.toNumber() * 1.1 : Rational.max([...values, ...alone]).toNumber();
  const own = game.costs ? "costs alone" : game.kind === "bankruptcy" ? "is left if all others are paid in full"
    : "is worth alone";
  const isSeveral = rows.some(({ players }) => players.length > 1);
  const isWhole = !isSeveral && rows.length === game.n; // then the numbers are those of the table, which add up
  const texts = points.map(({ shares }) => {
    const own = first.map((i) => shares[i]);
    return isWhole ? column(own) : own.map(show);
  });
  const within = (value) => (value.toNumber() <= high ? value.toNumber() : null);
  return chart({
    title: game.costs ? "What each pays" : "What each gets",
    low, high: high > low ? high : low + 1, wide, text: tickText,
    legend: [
      ...(isSeveral ? [{ kind: "text", title: "A bar is what one use pays" }] : []),
      ...points.map(({ key, title }) => ({ key, title })),
      { kind: "alone", title: own + (isFar ? " (an arrow: far more)" : "") },
      ...(hasAdded ? [{ kind: "adds", title: `adds to the ${game.costs ? "cost" : "worth"} of all others` }] : []),
    ],
    columns: hasNumbers ? points.map(({ title }, k) => ({ title, texts: texts[k] })) : [],
    rows: rows.map(({ label, players }, r) => ({
      label, note: players.length > 1 ? `each of ${players.length}` : "", end: high,
      told: `${label}: ${[
        ...points.map((point, k) => `${point.title} ${texts[k][r]}`),
        `${own} ${show(alone[r])}`, ...(hasAdded ? [`adds ${show(added[r])} to all others`] : []),
      ].join(", ")}`,
      bars: points.map((point) => ({ key: point.key, value: point.shares[players[0]].toNumber() })),
      marks: [...(hasAdded ? [{ kind: "adds", value: added[r].toNumber() }] : []),
        { kind: "alone", value: within(alone[r]) }],
    })),
  });
}

export function bars(game, rows, points, settings) {
  const drawn = game.kind === "airport" && rows.length > MOST_ROWS ? byType(game, rows) : rows;
  return figure("bars", "shares", barsPicture(game, drawn, points, settings), settings.remark);
}

/** One row for all landings of a type that need the same, from the least. */
function byType({ amounts }, rows) {
  const kinds = new Map(), costOf = ({ players: [i] }) => amounts[i];
  for (const row of [...rows].sort((one, other) => costOf(one).compare(costOf(other)))) {
    const key = `${row.type}\n${costOf(row)}`;
    kinds.set(key, [...(kinds.get(key) ?? []), row]);
  }
  return [...kinds.values()].map((own) => ({
    label: [own[0].type, `needs ${shortText(costOf(own[0]))}`].filter(Boolean).join(", "),
    players: own.flatMap(({ players }) => players),
  }));
}

export function tickText(tick) {
  const spelled = (sign) => (sign === "," ? spoken.thousands : spoken.mark);
  const useGrouping = spoken.least === 3 ? "always" : "min2"; // as in the table
  return Number(tick.toPrecision(10)).toLocaleString("en", { useGrouping }).replace(/[,.]/g, spelled).replace("-", "−");
}
