// What the page asks the program about a game, and the answers in the order in which they come.
import { Rational } from "../exact/rational.js";
import { COMMANDS, mostFor } from "../game/classes.js";
import { Facts } from "../game/facts.js";
import { inProportion, remainingBenefits } from "../game/practice.js";
import { ruleName } from "../tell/rule-names.js";
import { nameByRows } from "../tell/words.js";
import { capital } from "../game/words.js";
import { calculated } from "./calculated.js";

const MOST_PER_HEAD = COMMANDS.nucleolus["per head"], MOST_HELD = 12, MOST_LISTED = 16; // players
/** The columns that the page itself calculates. */
export const CALCULATED = ["proportion", "agencies"];

export function takes(question, game) {
  return game.n <= mostFor(question, game.kind);
}

/** What isn't there of a runway of many landings, and up to how many it is. */
export function missingText({ kind, n }) {
  const limits = [["shares per head", MOST_PER_HEAD], ["an overrun, and who has the stronger hold,", MOST_HELD]];
  const parts = limits.filter(([, most]) => n > most).map(([what, most]) => `${what} up to ${most}`);
  return kind === "airport" && parts.length > 0 && `Worked out for fewer uses only: ${parts.join("; ")}.`;
}

/** Whether a game may be asked about with excess per head, too. */
export function takesPerHead(game) {
  return game.n > 1 && game.n <= MOST_PER_HEAD && game.kind !== "market";
}

/** Asks all that is asked of a game. `read` is what a worker read of the case `about`, as helpers are told of it;
 * `onPart(result, came)` is called as answers come, with the word for what came: at first that is all. A core point is
 * no rule, and is shown only if somebody `wantsCore`. */
export async function askAll(read, about, { engine, checker, onPart, wantsCore = false }) {
  const { rows, text, beyond, odds } = read, game = nameByRows(new Facts(read.facts), rows);
  const result = { about: Object.assign(about, { text, rows }), game, text, points: [], checks: {}, odds };
  result.beyond = calculated(beyond);
  const ask = async (word) => checked(await engine("ask", { word }));
  await askSolution(result, ask);
  if (result.refusal) return onPart(result), result;
  if (result.line) onPart(result);
  const beside = result.line ? askBeside(result, checker, onPart) : null;
  beside?.catch(() => 0); // it is told where it is waited for
  await askOthers(result, ask, wantsCore);
  onPart(result, "divisions");
  for (const point of result.points) {
    Object.assign(point, await judge(result, point.shares, engine, !CALCULATED.includes(point.key)));
  }
  if (takes("convex", result.game) && !result.game.ballots && result.game.n > 1) {
    result.convexity = await engine("convexity");
  }
  onPart(result, "verdicts");
  if (result.line) {
    result.checks.program = await settled(ask("check"));
    onPart(result, "checks");
  }
  await beside;
  return result;
}

/** What another worker does meanwhile: the sentences, and the second checker's word. */
async function askBeside(result, checker, onPart) {
  result.reasons = await checker("explain");
  onPart(result, "reasons");
  result.checks.anew = await settled(checker("checkLine"));
  onPart(result, "checks");
  const task = marginsTask(result.game);
  if (!task) return;
  result.margins = await checker(task);
  onPart(result, "margins");
}

/** What a worker is asked for the numbers that matter; undefined where nobody works that out. */
export function marginsTask(game) {
  if (game.n < 2 || game.n > MOST_LISTED || game.ballots) return undefined;
  const isClass = ["airport", "bankruptcy", "tree"].includes(game.kind);
  return game.isTable() ? "margins" : isClass ? "numberMargins" : undefined;
}

/** A checker that fails is told as a fault, and doesn't keep the other from its word. */
export function settled(promise) {
  return promise.catch((fault) => {
    if (fault.message === "stopped") throw fault;
    return { fault: fault.message };
  });
}

/** The answer of the program, where there is one. */
function checked(answer) {
  if (answer.status <= 3) return answer;
  if (answer.status === 7) throw new Error("The program found no memory for this.");
  throw new Error(`The program ended with status ${answer.status}.`);
}

async function askSolution(result, ask) {
  if (!takes("nucleolus", result.game)) return;
  let answer = await ask("nucleolus");
  if (answer.refusal) {
    result.refusal = answer.refusal;
    return;
  }
  if (answer.status === 1) {
    const { singles, total } = answer.tree;
    result.noImputation = { singles: Rational.of(singles), total: Rational.of(total) };
    answer = await ask("prenucleolus");
  }
  result.line = result.about.line = answer.line;
  result.answer = answer.tree.answer;
  result.rule = ruleName(result.answer, result.game.perHead);
  addPoint(result, result.answer, capital(result.rule), answer.tree.shares);
}

async function askOthers(result, ask, wantsCore) {
  const { game } = result;
  if (takes("shapley", game)) addPoint(result, "shapley", "Shapley shares", (await ask("shapley")).tree.shares);
  if (game.isTable() && !game.ballots) {
    result.core = (await ask("core")).tree;
    if (result.core.collection && !result.noImputation) await askPrenucleolus(result, ask);
    result.hasOneNucleolus = result.answer === "nucleolus" && result.points.every(({ key }) => key !== "prenucleolus");
    if (wantsCore && result.core.shares) addPoint(result, "core", "A core point", result.core.shares);
  }
  if (game.kind === "tree") {
    result.bird = (await ask("bird")).tree;
    addPoint(result, "bird", "Bird’s shares", result.bird.shares);
  }
  addPractice(result);
  if (game.isMarket()) {
    result.matching = (await ask("matching")).tree;
    addPoint(result, "buyers", "Best for buyers", result.matching["buyers best"]);
    addPoint(result, "sellers", "Best for sellers", result.matching["sellers best"]);
  }
}

/** Where no division satisfies all groups the prenucleolus may be another; elsewhere it is the nucleolus. */
async function askPrenucleolus(result, ask) {
  const { tree } = await ask("prenucleolus"), [{ shares: own }] = result.points;
  if (!tree.shares || tree.shares.every((share, i) => own[i].equals(Rational.of(share)))) return;
  addPoint(result, "prenucleolus", capital(ruleName("prenucleolus", result.game.perHead)), tree.shares);
}

/** What courts, contracts and agencies mostly use: the page's own calculations. */
function addPractice(result) {
  const { game } = result;
  if (game.n < 2 || game.ballots || game.isMarket()) return;
  const found = [["proportion", "In proportion", inProportion(game)],
    ["agencies", "Separable costs, remaining benefits", game.kind !== "bankruptcy" && remainingBenefits(game)]];
  for (const [key, title, shares] of found) if (shares) addPoint(result, key, title, shares);
}

function addPoint(result, key, title, shares) {
  result.points.push({ key, title, shares: shares.map(Rational.of) });
}

/** What the program says of shares: whether a group could do better by itself (`verdict`), and whether one of two has
 * the stronger hold on the other (`hold`), which is asked of rules (`isRule`); null for what it doesn't say. */
export async function judge({ game }, values, engine, isRule = true) {
  const shares = values.map(String), ask = async (word) => checked(await engine("ask", { word, shares }));
  const found = { verdict: null, hold: null };
  if (takes("propose", game)) found.verdict = verdictOf(await ask("propose"));
  const isHeld = isRule && takes("kernel", game) && !game.ballots && game.n > 1 && game.n <= MOST_HELD;
  if (isHeld) found.hold = holdOf((await ask("kernel")).tree);
  return found;
}

function verdictOf({ tree, refusal }) {
  if (refusal) return { refusal };
  if (tree.answer === "core") return { isCore: true };
  if (tree.answer !== "blocked") return { sum: Rational.of(tree.sum), total: Rational.of(tree.total) };
  return { group: tree.coalition.map((player) => Number(player) - 1), excess: Rational.of(tree.excess) };
}

/** Of the first two who aren't in balance: who has the stronger hold on whom, and by how much. */
function holdOf({ answer, i, j, ij, ji }) {
  if (answer === "prekernel") return { isEven: true };
  if (answer !== "not prekernel") return null;
  const more = Rational.of(ij).minus(Rational.of(ji)), pair = [Number(i) - 1, Number(j) - 1];
  const [strong, weak] = more.isNegative() ? pair.reverse() : pair;
  return { strong, weak, by: more.abs() };
}
