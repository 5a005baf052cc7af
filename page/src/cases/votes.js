// Votes: by one quota, which is a game of its own class, or by two at once, which is a table of who wins.
import { gcd, Rational } from "../exact/rational.js";
import { countText, shortText, typedText } from "../exact/decimals.js";
import { LIMITS, mostOf } from "../game/classes.js";
import { inWhole } from "../game/ballots.js";
import { membersOf } from "../game/groups.js";
import { withEscapes } from "../game/names.js";
import { quotaLine } from "./clauses.js";
import { numbersMapped, readList } from "./lists.js";
import { bareQuota, isQuota, leastOf, neededText, QUOTA, roundedPart } from "./quota.js";
import { askOfSum } from "./sum-row.js";
import { askOfTwice } from "./twice.js";

const MOST = mostOf("voting"), MOST_IN_TABLE = mostOf("table");
const MOST_VOTES = BigInt(LIMITS.votes);
const HUNDRED = Rational.of(100);
const BOTH_WIN = "Two groups without a common voter can both reach this quota. A majority is “more than 1/2”.";
const WRITE = " Write a number of votes, or a part such as 2/3, 60 % or “more than 1/2”.";
const WHOLE = "a whole number, the least number of votes that is enough; or a part, as 2/3 or 60 %.";
const VOTER = new RegExp("voter|state|party|member|country|holder|owner|partner|name|staat|land|partei|mitglied|aktion|"
  + "eigentümer|gemeinde|fraktion|état|pays|parti|propriét|commune|associé|accionista|azionista|aandeelhouder|gemeente|"
  + "eigenaar|socio", "iu");
const VOTES = new RegExp("vote|seat|share(?!holder)|weight|delegates|stimme|sitz|anteil|aktien|\\bmea\\b|tausendstel|"
  + "voix|siège|délégués|tantièmes|millièmes|part\\b|zetel|\\bstem|aandelen|voto|escaño|acciones|seggi|azioni|"
  + "millesimi|population|bevölkerung", "iu");

export const votes = {
  id: "votes",
  classes: ["voting"],
  title: "Votes",
  teaser: "How much power does each voter have, with one quota or two?",
  unit: "voter",
  grid: "list",
  mapNumbers: numbersMapped,
  isVote: true,
  places: 3,
  single: {
    key: "quota", title: "Votes needed", heads: QUOTA, reads: isQuota, lineOf: quotaLine,
    help: "The least number that is enough, or a part of all votes: 2/3, 60 %, more than 1/2.",
  },
  columns: [
    { key: "name", title: "Who votes", wide: true, placeholder: "Voter", heads: VOTER },
    { key: "votes", title: "Votes", number: true, heads: VOTES },
  ],
  second: {
    single: { key: "secondQuota", title: "Needed of the second", help: "A motion has to reach both." },
    column: { key: "second", title: "Second votes", number: true, grey: "1", heads: VOTES },
  },
  help: "One row for each voter, party or shareholder.",
  most: MOST,
  example: () => ({
    quota: "12",
    rows: [["France", 4], ["Germany", 4], ["Italy", 4], ["Belgium", 2], ["Netherlands", 2], ["Luxembourg", 1]]
      .map(([name, count]) => ({ name, votes: String(count), second: "" })),
  }),
  empty: () => ({ quota: "", rows: [1, 2].map(() => ({ name: "", votes: "", second: "" })) }),

  read(state, mark) {
    const isDouble = state.secondQuota !== undefined;
    const rows = state.rows.map(({ name, votes }) => ({ name, votes }));
    const { opened, isUnnamed, beside, amounts } = state, own = { rows, opened, isUnnamed, beside, amounts };
    const list = readList(own, mark, "votes", "The number of votes", "Voter"), { reading, names } = list;
    for (const ask of [askOfSum, askOfTwice]) ask(reading, state, isDouble ? ["votes", "second"] : ["votes"]);
    const ballots = [readBallot(reading, state.quota, "quota", "The quota", list, state)], [{ quota }] = ballots;
    const isLow = !isDouble && quota && !Rational.sum(list.values).less(quota.plus(quota));
    if (isLow) reading.notes.push(BOTH_WIN);
    if (isDouble) ballots.push(readSecond(reading, state, mark, names));
    if (!isDouble) reading.close();
    if (names.length > MOST) {
      reading.pause(`These are ${names.length} voters, and here up to ${MOST} are counted. The Python package counts `
        + "any number (coop.votes).");
    }
    if (!reading.isRight()) return { ...list, tree: {} };
    const game = isDouble ? null : votingGame(reading, list, ballots[0]);
    if (game) return { ...list, tree: game, ballots };
    if (names.length > MOST_IN_TABLE) return { ...list, tree: null, ballots, isBeyond: true };
    return { ...list, tree: tableOfWins(list, ballots), ballots };
  },

  fromGame: (game) => ({
    quota: typedText(game.single),
    rows: game.amounts.map((count, i) => {
      return { name: game.named ? game.names[i] : "", votes: typedText(count), second: "" };
    }),
  }),
};

/** The quota of some votes: a number, or a part of all. With decimals it may have some, too. As long as other cells
 * can't be read, or a row is asked about, nothing is said of it. */
function readBallot(reading, typed, cell, what, { values, cells }, state) {
  const isKnown = !reading.count && !reading.isAsking(state.isMarked), bare = bareQuota(typed);
  const part = leastOf(typed, values, reading.mark);
  const quota = part ?? reading.number(cell, bare, what, { hint: WRITE });
  const all = Rational.sum(values), isWhole = values.every((value) => value.isWhole());
  if (quota && isKnown && all.isZero()) reading.fault(cells[0], "The votes add to 0, so nobody can decide.");
  if (!quota || !isKnown || all.isZero()) return { values };
  if (part) tellPart(reading, { typed, cell, what, values, part }, state);
  const fault = isWhole && !quota.isWhole() ? WHOLE
    : quota.isZero() || quota.isNegative() || all.less(quota)
      ? `${isWhole ? `from 1 to ${all}` : `above 0, and at most ${shortText(all)}`}, the votes of all.` : null;
  if (!fault) return { votes: values, quota };
  reading.fault(cell, `${what} is ${fault}`);
  return { values };
}

/** Says how many votes a part of all is, and asks what it is a part of. */
function tellPart(reading, { typed, cell, what, values, part }, { exactParts = [], isPercent = false }) {
  const all = Rational.sum(values);
  const rounded = !exactParts.includes(typed) && roundedPart(typed, values, reading.mark);
  if (rounded) reading.part = { cell, typed, ...rounded };
  if (isPercent && !all.equals(HUNDRED)) reading.rest = restOf(cell, typed, values, reading.mark);
  if (reading.part || reading.rest) return; // the question says it
  reading.notes.push(`${what}: ${neededText(typed, { votes: values, quota: part }, reading.mark)}.`);
}

/** The second votes, in the rows that have a name or votes. As long as all are empty each counts as 1; once one is
 * typed, the others are asked for. */
function readSecond(reading, state, mark, names) {
  const kept = state.rows.map((row, r) => ({ row, r })).filter(({ row }) => row.name.trim() || row.votes.trim());
  const isAny = kept.some(({ row }) => row.second?.trim()), values = [], cells = [];
  for (const { row, r } of kept.slice(0, names.length)) {
    cells.push(`rows.${r}.second`);
    const typed = isAny ? row.second ?? "" : "1";
    values.push(reading.number(cells.at(-1), typed, "The second number of votes") ?? Rational.of(0));
  }
  if (!isAny) reading.notes.push("No second votes are typed, so each voter has one.");
  const own = { ...state, isPercent: false };
  return readBallot(reading, state.secondQuota, "secondQuota", "The second quota", { values, cells }, own);
}

/** Votes in per cent that aren't 100 together: a part may be of these, or of 100. */
function restOf(cell, typed, values, mark) {
  const ways = [HUNDRED, Rational.sum(values)].map((all) => [all, leastOf(typed, values, mark, all)]);
  return { cell, typed, ways: ways.map((way) => way.map(String)) };
}

/** The game of one quota; null where the votes are more than its class takes. */
function votingGame(reading, { named }, ballot) {
  const { votes, quota } = inWhole(ballot), all = votes.reduce((sum, one) => sum + one, 0n);
  const common = votes.reduce(gcd, quota) || 1n;
  // votes alone decide which sums are reached, so the quota is rounded up where only the votes have a common divisor
  const ofVotes = votes.reduce(gcd, 0n) || 1n, by = all > MOST_VOTES ? ofVotes : 1n;
  if (all / by > MOST_VOTES) {
    reading.notes.push("The votes have too many digits for a document: it lists which groups win, and not the votes.");
    return null;
  }
  if (by > 1n) {
    const rounded = common === by ? "" : ", rounded up";
    reading.notes.push(`The program counts up to ${countText(MOST_VOTES)} votes. So all are divided by ${by}, and the `
      + `quota with them${rounded}: which groups win stays the same.`);
  }
  return { class: "voting", ...named, quota: (quota + by - 1n) / by, weights: votes.map((one) => one / by) };
}

/** A table with 1 for each group that reaches all quotas, and else 0. */
function tableOfWins({ names, named }, ballots) {
  const counted = ballots.map(inWhole);
  const wins = (mask) => counted.every(({ votes, quota }) => {
    return membersOf(mask).reduce((sum, i) => sum + votes[i], 0n) >= quota;
  });
  const worths = Array.from({ length: 2 ** names.length - 1 }, (_, k) => (wins(k + 1) ? 1n : 0n));
  return { class: "table", ...named, players: BigInt(names.length), worths };
}
