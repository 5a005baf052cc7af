// Players and groups of players in words, by their names.
import { without } from "../game/groups.js";
import { enumerated, listed } from "../game/words.js";

/** The same game, with the landings of a runway named by the rows of the answer: each by its row, and which part of
 * it. */
export function nameByRows(game, rows) {
  if (game.kind !== "airport") return game;
  const named = Object.create(game);
  named.shown = [...game.shown];
  for (const row of rows) for (const i of row.players) named.shown[i] = partOf(row, 1);
  named.landings = rows.some(({ players }) => players.length > 1) ? rows : null;
  return named;
}

function partOf({ label, players }, count) {
  const all = players.length;
  if (all === 1) return label;
  return count === all ? `${label} (${all} uses)` : `${label} (${count} of ${all} uses)`;
}

/** Names the players and the groups of a game. */
export class Namer {
  constructor(game) {
    this.n = game.n;
    this.names = game.shown;
    this.isNamed = game.named;
    this.landings = game.landings;
  }

  /** Some players: of many those that are left out, or the first and the last, or the first ones. */
  players(some, most = 12) {
    const ids = [...some].sort((i, j) => i - j), out = without(this.n, ids);
    const name = (i) => this.names[i];
    if (ids.length > 3 && !out.length) return "all players";
    if (ids.length > most / 2 && out.length <= 3) return `all but ${listed(this.ofRows(out) ?? out.map(name))}`;
    const ofRows = this.ofRows(ids), parts = ofRows ?? this.runs(ids);
    if (ofRows?.length > most) return `${parts.slice(0, most - 2).join(", ")} and ${parts.length - most + 2} others`;
    if (ofRows) return listed(parts);
    if (parts.length < ids.length && parts.length <= most) return listed(parts);
    if (this.isNamed && ids.length > 4 && ids.at(-1) - ids[0] === ids.length - 1) {
      return `${name(ids[0])} to ${name(ids.at(-1))} (${ids.length} in a row)`;
    }
    if (ids.length <= most) return listed(ids.map(name));
    return `${ids.slice(0, most - 2).map(name).join(", ")} and ${ids.length - most + 2} others`;
  }

  /** Landings by their rows, each with how many of it; undefined where no row has several. */
  ofRows(ids) {
    const some = new Set(ids), among = ({ players }) => players.filter((i) => some.has(i)).length;
    const counted = this.landings?.map((row) => [row, among(row)]);
    return counted?.filter(([, count]) => count).map(([row, count]) => partOf(row, count));
  }

  /** Names in a row that are numbered alike, as those of landings are, are put together: "Aer 1 to 3". */
  runs(ids) {
    const runs = [];
    for (const i of ids) {
      const [, base, number] = /^(.*) (\d+)$/.exec(this.names[i]) ?? [];
      const last = runs.at(-1);
      if (base !== undefined && last?.base === base && Number(number) === last.to + 1) last.to += 1;
      else runs.push({ base, from: Number(number), to: Number(number), name: this.names[i] });
    }
    return runs.flatMap(({ base, from, to, name }) => {
      if (base === undefined || from === to) return [name];
      return to === from + 1 ? [name, `${base} ${to}`] : [`${base} ${from} to ${to}`];
    });
  }

  /** One group, by its members or by those that are left out. */
  group(group) {
    const out = without(this.n, group);
    if (group.length === 1) return `${this.names[group[0]]} alone`;
    if (group.length > out.length + 1) return `all but ${this.players(out)}`;
    return `${this.players(group)} together`;
  }

  /** A group that is counted with others. */
  inSum(group) {
    if (group.length === 1) return this.names[group[0]];
    return `the group of ${this.group(group).replace(/ together$/, "")}`;
  }

  /** Several groups; of many, those of one player and those without one player are put together. */
  groups(groups) {
    if (groups.length <= 4 && !this.landings) return enumerated(groups.map((group) => this.group(group)));
    const alone = groups.filter((group) => group.length === 1);
    const butOne = groups.filter((group) => group.length > 1 && group.length === this.n - 1);
    const rest = groups.filter((group) => group.length > 1 && group.length < this.n - 1);
    return enumerated([...this.eachAlone(alone), ...this.eachLeftOut(butOne), ...this.firstAndCount(rest)]);
  }

  eachAlone(groups) {
    if (groups.length < 2) return groups.map((group) => this.group(group));
    return [groups.length === this.n ? "each player alone" : `each of ${this.players(groups.flat())} alone`];
  }

  eachLeftOut(groups) {
    if (groups.length < 2) return groups.map((group) => this.group(group));
    if (groups.length === this.n) return ["all but one, whichever is left out"];
    return [`all but one, whichever of ${this.players(groups.flatMap((group) => without(this.n, group)))} is left out`];
  }

  firstAndCount(groups, most = 8) {
    const alike = new Map(); // groups of landings may have one name
    for (const group of groups) alike.set(this.group(group), [...(alike.get(this.group(group)) ?? []), group.length]);
    const parts = [...alike].slice(0, most).map(([text, { length }]) => {
      return length > 1 ? `${text} (${length} such groups)` : text;
    });
    const sizes = [...alike.values()].slice(most).flat();
    if (!sizes.length) return parts;
    const low = Math.min(...sizes), high = Math.max(...sizes);
    return [...parts, `${sizes.length} more groups, of ${low < high ? `${low} to ${high}` : low} players`];
  }

  /** What players get, by the texts of all shares, those with equal ones together: "A gets 1; B and C get 2 each". */
  whatTheyGet(texts, ids, get) {
    const equal = new Map();
    for (const i of [...ids].sort((a, b) => a - b)) equal.set(texts[i], [...(equal.get(texts[i]) ?? []), i]);
    return [...equal].map(([text, who]) => {
      return `${this.players(who)} ${who.length > 1 ? `${get} ${text} each` : `${get}s ${text}`}`;
    }).join("; ");
  }
}
