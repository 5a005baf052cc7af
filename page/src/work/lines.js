// A line that came from others: what it says, and whether it is of the agreed game.
import { Rational } from "../exact/rational.js";
import { isObject, JsonFault, readJson, writeJson } from "../exact/json.js";
import { factsOf } from "../game/facts.js";
import { isCaseFile } from "../cases/is-case-file.js";
import { CLASSES, mostOf } from "../game/classes.js";
import { Game } from "../game/game.js";
import { remarksOf, withEscapes } from "../game/names.js";
import { UNSAID } from "../game/same-worths.js";
import { leftOut, mended, unreadable } from "../tell/mail.js";
import { refusalText } from "../tell/refusals.js";
import { answer } from "./answers.js";
import { bothRead } from "./both-read.js";
import { found, sameGame } from "./same-game.js";

/** What the page sees in a line before anybody checks it, and whether the agreed file has its game, if there is one.
 * `ask(word, document)` asks the program. */
export function lookAtLine({ line, agreed }, ask = answer) {
  const seen = lineOf(line), other = agreed.trim() ? gameFileOf(agreed) : null;
  const same = other && bothRead(sameGame(seen, other), seen, other, ask);
  const file = other && { ...aboutFile(other), ...(other.isText ? helpOf(agreed) : {}) };
  if (seen.isInWords) return { fault: `${seen.fault} ${IN_WORDS}`, same, file };
  if (seen.fault) return { fault: seen.fault, ...(seen.isText ? helpOf(line) : {}), same, file };
  const { tree, game, shares, doubles } = seen;
  const hasCertificate = tree.certificate !== undefined;
  return {
    same, file, doubles: doubles.map((key) => withEscapes(key.slice(0, 60))),
    answer: typeof tree.answer === "string" ? withEscapes(tree.answer.slice(0, 40)) : "shares",
    hasCertificate, isRefusal: "refused" in tree || "usage" in tree,
    facts: game && factsOf(game), shares: shares?.map(String) ?? null,
    remarks: game?.named ? remarksOf(game.names) : [],
    bare: bareOf(tree, game, other),
  };
}

/** Whether what was checked is the game of a document: the line's own, or the agreed one. */
export function isOfGame({ line, agreed, text }, ask = answer) {
  const document = gameFileOf(text), checked = [lineOf(line), ...(agreed.trim() ? [gameFileOf(agreed)] : [])];
  return checked.some((seen) => bothRead(sameGame(seen, document), seen, document, ask).isYes === true);
}

/** Whether the program reads two files of games, and they are of the same game. */
export function areOfOneGame(one, other, ask = answer) {
  const [mine, theirs] = [one, other].map(gameFileOf);
  return bothRead(sameGame(mine, theirs), mine, theirs, ask).isYes === true;
}

/** What the game of a line, or of any document, is to the agreed one. Nobody can say where a key stands twice. */
export function compared(line, agreed, ask) {
  const [mine, theirs] = [lineOf(line), gameFileOf(agreed)], [twice] = mine.doubles ?? [];
  if (twice === undefined) return bothRead(sameGame(mine, theirs), mine, theirs, ask);
  const key = withEscapes(twice.slice(0, 60));
  return found(UNSAID, `In the line a key occurs twice: ${key}. Nobody can say which one is meant.`);
}

function helpOf(line) {
  const text = mended(line);
  return { help: unreadable(line, text !== null), mended: text, left: text === null ? "" : leftOut(line) };
}

/** For asking the program anew: the shares as texts, and the game of which they may be, its own or the agreed. */
function bareOf({ shares }, own, agreed) {
  const game = own ?? agreed?.game, listed = Array.isArray(shares) ? shares.map(shareOf) : [];
  if (!game || listed.length !== game.n || !listed.every(Boolean)) return null;
  const text = writeJson({ game: game.tree });
  return { text, shares: listed.map(String), isOwn: Boolean(own), facts: factsOf(game) };
}

const SAVED_CASE = "It is a saved case of this page, and no answer with evidence. “Open a saved case”, where the page "
  + "begins, opens it.";

const SAVED_GAME = "It is a saved case of this page. “Open a saved case”, where the page begins, opens it, and then "
  + "its game is offered here.";

/** What is said of a mail with names and amounts. */
const IN_WORDS = "Shares in words are judged in a case: there “What if” has “Your own division”, which takes them.";

/** What has to be known of the agreed file, beside whether it is the game of the line. */
function aboutFile({ fault, tree, game }) {
  return { isGame: !fault && Boolean(game), isLine: !fault && tree.certificate !== undefined };
}

function lineOf(text) {
  try {
    const { tree, doubles } = readJson(text);
    if (!isObject(tree)) return { fault: "It isn’t an object, as a line is." };
    if (isCaseFile(tree)) return { fault: SAVED_CASE };
    if ("refused" in tree) return { fault: `The program refused a document. ${refusalText(tree).sentence}` };
    return { ...partsOf(tree), doubles: doubles.map(({ key }) => key) };
  } catch (fault) {
    if (!(fault instanceof JsonFault)) throw fault;
    if (!text.includes("{")) return { fault: "It is no text of the program, which begins with “{”.", isInWords: true };
    const place = `in line ${fault.line}, column ${fault.column}`;
    return { fault: `It is no JSON text: ${fault.sentence}, ${place}.`, isText: true };
  }
}

/** The agreed file; one that has the game alone counts as well. */
function gameFileOf(text) {
  const file = lineOf(text);
  if (file.fault === SAVED_CASE) return { fault: SAVED_GAME };
  if (file.fault || file.tree.game !== undefined || file.tree.class === undefined) return file;
  return { ...partsOf({ game: file.tree }), doubles: file.doubles, isBare: true };
}

function partsOf(tree) {
  const game = isObject(tree.game) ? gameOf(tree.game) : null;
  const hasShares = game && Array.isArray(tree.shares) && tree.shares.length === game.n;
  const shares = hasShares ? tree.shares.map(shareOf) : null;
  return { tree, game, shares: shares?.every(Boolean) ? shares : null };
}

/** The game of a tree that nobody has tested yet; null where it isn’t one. */
function gameOf(tree) {
  const isLarge = "players" in tree && !(typeof tree.players === "bigint" && tree.players <= mostOf("table"));
  if (isLarge || [tree.matrix, tree.matrix?.[0]].some((line) => line?.length > CLASSES.market.side + 1)) return null;
  try {
    const game = new Game(tree), areNames = (names) => names.every((name) => typeof name === "string");
    if (game.kind === "assignment" && game.n > mostOf("assignment")) return null;
    const isWhole = Array.isArray(game.names) && game.names.length === game.n && areNames(game.names);
    return isWhole && factsOf(game) ? game : null;
  } catch {
    return null;
  }
}

function shareOf(share) {
  const isText = typeof share === "string" && /^-?\d{1,39}(\/0*[1-9]\d{0,38})?$/.test(share);
  return typeof share === "bigint" || isText ? Rational.of(share) : null;
}
