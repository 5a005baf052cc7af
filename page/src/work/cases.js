// What was typed into a case: read, made a document, and told to the page as far as it is shown.
import { parseJson, writeJson } from "../exact/json.js";
import { Rational } from "../exact/rational.js";
import { typedText } from "../exact/decimals.js";
import { isMark, onlyMark } from "../exact/marks.js";
import { tooMuch } from "../cases/bounds.js";
import { caseNamed, caseOfClass } from "../cases/cases.js";
import { cellsOf } from "../cases/pasting.js";
import { byOneMark } from "../cases/reading.js";
import { packed, tableOf } from "../cases/tables.js";
import { factsOf } from "../game/facts.js";
import { Game } from "../game/game.js";
import { withEscapes } from "../game/names.js";
import { ruleName } from "../tell/rule-names.js";
import { slipsOf } from "../tell/slips.js";
import { answer } from "./answers.js";
import { powerBeyond } from "./double-power.js";
import { beyondProgram } from "./runways.js";

const MOST_PER_HEAD = 8;
const TOO_MANY = "With so many different votes the page counts the power of up to 16 voters only.";
const ANSWERS = ["nucleolus", "prenucleolus", "shapley"];
const MOST_BYTES = 2097152;
// of a reading, for the user
const QUESTIONS = ["asked", "either", "mixed", "unsure", "swap", "steps", "merged", "part", "rest"];

/** What the cells say: the rows of the answer, what is wrong, and, if nothing is, the document, its facts and game. */
export function readCase({ id, typed, mark, measure, isMarked = typed.isMarked }) {
  const found = byOneMark((by) => caseNamed(id).read(typed, by), mark);
  const { reading, rows, tree, ballots, landings, limits, isBeyond } = found;
  reading.askOfMixed(isMarked);
  reading.askOfUnsure(isMarked);
  const power = isBeyond && reading.isRight() ? powerBeyond(ballots, rows) : null;
  if (isBeyond && !power) reading.pause(TOO_MANY);
  const perHead = measure === "per-head" && tooManyPerHead(tree ? rows : landings ?? rows, tree);
  if (perHead) reading.isOpen = true;
  const { faults, count, empty, notes, isTooFine = false, odds = [], isOpen, isPaused = false } = reading;
  const questions = Object.fromEntries(QUESTIONS.map((key) => [key, reading[key]]));
  const isAsking = isOpen || Object.values(questions).some(Boolean), isRight = reading.isRight();
  const read = {
    rows, faults, count, empty, notes, ...questions, perHead, isTooFine, isAsking, odds, isPaused, isRight,
    ...marksOf(reading),
  };
  if (!read.isRight) return read;
  if (landings) read.beyond = beyondProgram(landings, rows);
  if (power) read.beyond = power;
  if (!tree) return read; // the program takes no such game
  const { class: name, ...others } = tree, isMeasured = measure === "per-head" && playersOf(rows) > 1;
  const game = new Game(isMeasured ? { class: name, excess: "per-head", ...others } : tree);
  return { ...read, text: writeJson({ game: game.tree }), facts: factsOf(game, ballots, limits), game };
}

const playersOf = (rows) => rows.reduce((sum, { players, count = 1 }) => sum + (players?.length ?? count), 0);

/** How many players there are, where these are more than the program finds shares per head for; else false. Without
 * being told nobody gets the shares of another rule. */
function tooManyPerHead(rows, tree) {
  const players = playersOf(rows);
  return players > 1 && (players > MOST_PER_HEAD || !tree || tree.class === "market") && players;
}

/** By which mark the numbers were read (`entry`; `mark` where one is needed to write them), which of them could be read
 * otherwise, and which show the mark; `settled` is the one that they show, if it is one, and `thousands` the sign
 * between thousands. */
function marksOf(reading) {
  const { mark: entry, doubts } = reading, settled = reading.settles(), thousands = onlyMark(reading.thousands);
  const mark = isMark(entry) ? entry : settled ?? ".", isByMoney = reading.shown.proofOfMoney(entry) !== undefined;
  const shown = [...reading.shown.proofs(entry).entries()];
  return { entry, mark, settled, thousands, doubts: [...doubts.values()], shown, isByMoney };
}

/** The rows of what was pasted. */
export function readCells({ text }) {
  return cellsOf(text);
}

/** A table from a pasted list. */
export function readList({ text, names, order, mark, said }) {
  const fault = tooMuch(text, { isLong: true });
  if (fault) return { fault };
  const { state, ...found } = tableOf(text, names, order, mark, said);
  return state ? { ...found, state: packed(state) } : found;
}

/** A document as a case with what a person would have typed, or what is wrong with it. */
export function openDocument({ text, mark }) {
  const [slip] = slipsOf(text);
  if (slip?.number === 2) return { refusal: slip };
  const tree = parseJson(text), isObject = typeof tree === "object" && tree !== null && !Array.isArray(tree);
  // the program is asked whether it takes the document; what it refuses it says, and the page finds the place
  const document = writeJson({ shares: [], ...(isObject ? withinLimit(tree, text) : {}) });
  const { status, tree: said, refusal } = answer(tree?.game?.class === "market" ? "matching" : "propose", document);
  if (status > 3) throw new Error(`The program ended with status ${status}.`);
  if (status > 1 && Number(said.number) !== 10) return { refusal: slip?.number === refusal.number ? slip : refusal };
  const game = new Game(tree.game), kind = caseOfClass(game.kind), typed = kind.fromGame(game);
  const isProposal = Array.isArray(tree.shares) && !("answer" in tree) && tree.shares.length === game.n;
  typed.notSums = true; // a document's players are players, whatever their names
  if (game.named) typed.opened = namesIn(typed).filter((name) => game.names.includes(name)); // others are rows
  else typed.isUnnamed = true;
  const { rows } = kind.read(typed, ".");
  return {
    id: kind.id, typed: kind.pack?.(typed) ?? typed, measure: game.perHead ? "per-head" : "plain",
    texts: isProposal ? textsOf(rows, tree.shares, mark) : [], other: otherShares(tree, game),
  };
}

/** The names in the cells of a case, in which they stand to the letter as long as nobody edits them. */
function namesIn({ names = [], buyers = [], sellers = [], rows = [] }) {
  return [...names, ...buyers, ...sellers, ...rows.flatMap(({ name, type = "" }) => [name, type])].filter(Boolean);
}

/** The shares of a line, in a sentence, where the program finds others for its game; null where it finds the same. */
function otherShares({ answer: word, shares, game: tree }, game) {
  if (!ANSWERS.includes(word) || !Array.isArray(shares) || shares.length !== game.n) return null;
  const { status, tree: found } = answer(word, writeJson({ game: tree }));
  if (status > 1) return null;
  const differs = shares.findIndex((share, i) => String(share) !== String(found.shares?.[i]));
  if (differs < 0) return null;
  const verb = game.costs ? "pays" : "gets";
  const rule = ruleName(word, game.perHead), theirs = withEscapes(String(shares[differs]));
  return `by the ${rule} ${game.shown[differs]} ${verb} ${theirs}.`;
}

/** A line with a long certificate may be above what the program takes for other questions; its game isn't. */
function withinLimit(tree, text) {
  if (text.length <= MOST_BYTES) return tree;
  const { certificate, ...others } = tree;
  return others;
}

/** Proposed shares as texts of the rows; none where players of a row get different shares. */
function textsOf(rows, shares, mark) {
  const values = shares.map((share) => Rational.of(share));
  const isEven = rows.every(({ players }) => players.every((i) => values[i].equals(values[players[0]])));
  if (!isEven) return [];
  return rows.map(({ players }) => {
    return typedText(values[players[0]].times(Rational.of(players.length)), mark);
  });
}
