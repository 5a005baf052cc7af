// What the page counts of votes by two quotas above the program's limit, against the program's Shapley shares below it;
// and its reasons of power: the smallest winning groups against a look at all groups, and the sentences.
import { writeJson } from "../src/exact/json.js";
import { Rational } from "../src/exact/rational.js";
import { neededText } from "../src/cases/quota.js";
import { votes } from "../src/cases/votes.js";
import { smallestWinning, standingOf, wins } from "../src/game/ballots.js";
import { Facts, factsOf } from "../src/game/facts.js";
import { Game } from "../src/game/game.js";
import { membersOf } from "../src/game/groups.js";
import { powerParts } from "../src/tell/power.js";
import { filedText } from "../src/view/votes-sheet.js";
import { powerBeyond } from "../src/work/double-power.js";
import { ask } from "./program.mjs";

const FEW_VOTERS = 8; // of whom all groups are looked at
const FEW = 60; // lists of 2 to 7 voters; then one list for each number from 8 to 16

export function tryPowers(expect, draw) {
  for (let k = 0; k < FEW + 9; k++) {
    const count = k < FEW ? 2 + draw(6) : k - FEW + 8, den = [1, 1, 10][draw(3)], most = [2, 4, 30][draw(3)];
    const number = (high) => new Rational(BigInt(draw(high)), BigInt(den));
    const rows = Array.from({ length: count }, (_, i) => {
      const own = number(40 * den);
      return { name: `V${i}`, votes: i ? String(own.toNumber()) : "7", second: String(i ? draw(most) : 1) };
    });
    const read = votes.read({ rows, quota: `${30 + draw(60)} %`, secondQuota: `${1 + draw(90)} %` }, ".");
    expect("two quotas are read", JSON.stringify(read.reading.faults), "[]");
    const { tree } = ask("shapley", writeJson({ game: read.tree })), shares = tree.shares.map(Rational.of);
    expect(`power of ${JSON.stringify(rows)}`, String(powerBeyond(read.ballots, read.rows).power), String(tree.shares));
    for (const some of [read.ballots, read.ballots.slice(0, 1)]) tryGroups(expect, some);
    tryStandings(expect, read.ballots, shares);
  }
  for (const one of SAID) trySaid(expect, ...one);
}

function tryGroups(expect, ballots) {
  const { groups, isAll } = smallestWinning(ballots), n = ballots[0].votes.length, found = new Set(groups.map(String));
  expect("all groups", isAll && found.size === groups.length, true);
  if (n > FEW_VOTERS) return;
  for (let mask = 0; mask < 2 ** n; mask++) {
    const own = membersOf(mask), isLeast = wins(ballots, own) && own.every((i) => {
      return !wins(ballots, own.filter((j) => j !== i));
    });
    expect(`a smallest winning group: ${own}`, found.has(String(own)), isLeast);
  }
}

/** Who has a veto is in all smallest winning groups, who wins alone is one of them, who has no influence is in none. */
function tryStandings(expect, ballots, shares) {
  const { groups } = smallestWinning(ballots);
  shares.forEach((share, i) => {
    const { vetoes, isEnough, isIdle } = standingOf(i, share, ballots), own = groups.filter((one) => one.includes(i));
    expect("a veto", vetoes.length > 0, own.length === groups.length);
    expect("wins alone", isEnough, own.some(({ length }) => length === 1));
    expect("no influence", isIdle, !own.length);
  });
}

const OFFICE = [10400, 6250, 4100, 3000, 1250], NINE = Array(9).fill(1);

/** Votes, the quota as typed, and that of second votes; what is needed, what stands in the file, and what is said of
 * power. */
const SAID = [
  [OFFICE, "75 %", null, /^75 % of 25\s000 votes, so at least 18\s750$/, /votes and quota are divided by 50: the same/,
    [/In the order of the table that is V2: before, there are 16\s650 votes, with V2 there are 20\s750 votes, and 18/,
      /5 voters can join in 120 orders\. It is:\|V0: in 56 of 120 orders, 46\.7\s%, exactly 7\/15\|V1: in 26/,
      /There are 3 such groups:\|V0, V1 and V2: 20\s750 votes\|V0, V1 and V3: 19\s650 votes\|V0, V2, V3 and V4: 18/,
      /V0 has a veto: without V0 the others have 14\s600 of 25\s000 votes \(58\.4\s%\), and 18\s750 \(75\.0\s%\) are/,
      /Nobody wins alone: .* Everybody matters/]],
  [[4, 4, 4, 2, 2, 1], "12", null, /^12 of 17 votes$/, /^$/,
    [/There are 4 such groups/, /Nobody has a veto/, /V5 never matters: no smallest winning group has this voter\./]],
  [[41.6, 25, 33.4], "more than 1/2", null, /^more than 1\/2 of 100 votes, so at least 50\.20$/, /taken times 5/,
    [/V0 and V1: 66\.60 votes/]],
  [[5, 1, 1], "4", null, /^4 of 7 votes$/, /^$/,
    [/V0 has a veto: .* V0 wins alone: 5 votes are enough\. V1 and V2 never matter: /]],
  [NINE, "5", null, /^5 of 9 votes$/, /^$/, [/There are 126 such groups\. The first of them:\|V0, V1, V2, V3 and V4: 5/,
    /^(?!.*can join in)/]],
  [[40, 30, 20, 10], "51", "3", /^51 of 100 votes$/, /^The file has no votes: 1 stands there for each group that wins/,
    [/that is V2: before, there are 70 first votes and 2 second/, /V0, V1 and V2: 90 first votes and 3 second votes/,
      /In such a group both quotas are reached/, /no voter’s own votes are enough for both quotas/]],
];

function trySaid(expect, counts, quota, secondQuota, needed, filed, parts) {
  const rows = counts.map((count, i) => ({ name: `V${i}`, votes: String(count), second: secondQuota ? "1" : "" }));
  const { tree, ballots } = votes.read({ rows, quota, ...(secondQuota && { secondQuota }) }, ".");
  const facts = new Facts(factsOf(new Game(tree), ballots)), says = (text, form) => {
    expect(`${quota} of ${counts}: ${text} says ${form}`, form.test(text), true);
  };
  const shares = ask("shapley", writeJson({ game: tree })).tree.shares.map(Rational.of);
  says(neededText(quota, ballots[0], "."), needed);
  says(filedText(facts), filed);
  const text = powerParts(facts, shares, smallestWinning(ballots)).flatMap(({ sentences, items }) => {
    return [sentences.join(" "), ...items.map(({ label, text: own }) => `${label} ${own}`)];
  }).join("|");
  for (const form of parts) says(text, form);
}
