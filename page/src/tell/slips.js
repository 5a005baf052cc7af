// What is wrong with a document: the number of a refusal, a sentence and a place each, in the order in which the
// program tests. The first is that which the program names. Of later ones not all are found.
import { countText } from "../exact/decimals.js";
import { Inexact, isObject, JsonFault, readJson } from "../exact/json.js";
import { CLASSES, COMMANDS, keysOf, LIMITS, mostOf } from "../game/classes.js";
import { bytesOf, isOrAre, MANY, plural } from "../game/words.js";
import { withEscapes } from "../game/names.js";
import { whoseOf } from "./places.js";
import { certificateSlips, shareSlips } from "./slips-of-evidence.js";
import { numberSlips, wholeSlips } from "./slips-of-numbers.js";

const TABLE = CLASSES.table.keys, KEYS = keysOf("keys"), LISTS = keysOf("list");
const COMMON = ["class", "names", "excess", "version"], MOST_NAME = LIMITS["bytes of a name"];

/** The place of a refusal in the order in which the program tests: that of a quota, 13, behind an estate, 8. */
const rankOf = ({ number }) => (number === 13 ? 8.5 : number);

/** The slips of a document, a text or its bytes, for a command: {number, sentence, place}. Of parts that the command
 * doesn’t need none is told. */
export function slipsOf(data, command = "") {
  return slipsIn(data, command).slips;
}

/** The same, and the keys that stand twice in an object: {slips, doubles}. */
export function slipsIn(data, command) {
  const slips = [], add = (number, sentence, place) => slips.push({ number, sentence, place });
  const { needs = [], bytes: most = Infinity } = COMMANDS[command] ?? {}, size = sizeOf(data);
  if (size > most) {
    add(1, `It has ${countText(size)} bytes, above ${countText(most)}. Leave out the blanks.`, "the document");
    return { slips, doubles: [] };
  }
  let found = { doubles: [] };
  try {
    found = readJson(data);
    const { tree } = found;
    documentSlips(tree, needs.filter((key) => key !== "game"), slips, add);
    for (const slip of slips) slip.place = whoseOf(slip.place, tree.game);
  } catch (fault) {
    if (!(fault instanceof JsonFault)) throw fault;
    add(2, ...notJson(fault, data));
  }
  slips.sort((one, other) => rankOf(one) - rankOf(other));
  return { slips, doubles: found.doubles };
}

function sizeOf(data) {
  return typeof data === "string" ? bytesOf(data) : data.length;
}

/** The sentence and the place of what is no JSON. */
function notJson({ sentence, line, column }, data) {
  const text = typeof data === "string" ? data : new TextDecoder("utf-8", { ignoreBOM: true }).decode(data);
  if (!text.trim()) return ["It is empty.", "the document"];
  const isMany = /behind the document$/.test(sentence) && /^\s*\{.*\}\s*\n\s*\{/.test(text);
  const advice = isMany ? ` ${MANY}` : adviceAt(text, line, column);
  return [`It is no JSON text: ${sentence}.${advice}`, line ? `line ${line}, column ${column}` : undefined];
}

/** What people write that JSON doesn’t have. */
function adviceAt(text, line, column) {
  const rest = text.split("\n")[line - 1]?.slice(column - 1) ?? "";
  if (text.startsWith("\ufeff")) return " There is a byte order mark: save the file as UTF-8 without one.";
  if (rest.startsWith("'")) return " JSON has double quotes, not single ones.";
  if (/^[\]}]/.test(rest)) return ` There is a comma before ${rest[0]}.`;
  return /^[/#]/.test(rest) ? " JSON has no comments." : "";
}

function documentSlips(tree, needed, slips, add) {
  if (!isObject(tree)) return add(3, "A document is an object, {\"game\":{…}}.", "the document");
  if ("class" in tree && !("game" in tree)) {
    return add(3, "This is a game alone; write {\"game\":{…}} around it.", "the document");
  }
  strangeKeys(tree, ["answer", "certificate", "game", "shares"], "", add);
  for (const key of needed.filter((one) => !(one in tree))) add(3, `The key “${key}” is missing.`, "the document");
  if (needed.includes("answer") && "answer" in tree && !["nucleolus", "prenucleolus"].includes(tree.answer)) {
    add(3, "answer is “nucleolus” or “prenucleolus”.", "answer");
  }
  if (!isObject(tree.game)) return add(3, "The key game, with an object, is missing.", "game");
  const { n, scale } = gameSlips(tree.game, slips, add), has = (key) => needed.includes(key) && key in tree;
  if (has("shares")) shareSlips(tree, n, scale, add);
  return has("certificate") ? certificateSlips(tree, n, scale, add) : undefined;
}

function strangeKeys(tree, known, path, add) {
  for (const key of Object.keys(tree).filter((one) => !known.includes(one))) {
    const near = known.find((word) => distance(word, key) <= 2), shown = withEscapes(key.slice(0, 40));
    add(3, `The key “${shown}” has no place here${near ? `; is it “${near}”?` : "."}`, path + shown);
  }
}

/** What is wrong with a game; and its number of players, 0 where nobody knows it, with the scale of its numbers. */
function gameSlips(tree, slips, add) {
  const kind = tree.class, isKnown = typeof kind === "string" && Object.hasOwn(KEYS, kind);
  if (!isKnown) return add(3, classFault(kind), "game.class"), { n: 0, scale: 1n };
  strangeKeys(tree, [...COMMON, ...KEYS[kind]], "game.", add);
  keySlips(tree, kind, add);
  const isTable = KEYS[kind].includes("players");
  const playersOf = isTable ? playersOfTable : kind in LISTS ? playersOfList : playersOfMatrix;
  const n = playersOf(tree, add);
  nameSlips(tree, n, add);
  const form = { isTable, hasFractions: tree.version === 2n, isVote: Boolean(CLASSES[kind].whole) };
  const scale = numberSlips(tree, form, add);
  if (!slips.length) wholeSlips(tree, kind, add);
  return { n, scale };
}

function classFault(kind) {
  const near = typeof kind === "string" && Object.keys(KEYS).find((word) => distance(word, kind.toLowerCase()) <= 2);
  return `The class is none of ${Object.keys(KEYS).join(", ")}.${near ? ` Is it “${near}”?` : ""}`;
}

function keySlips(tree, kind, add) {
  for (const key of KEYS[kind].filter((one) => !TABLE.slice(1).includes(one) && !(one in tree))) {
    add(3, `The key “${key}” is missing.`, "game");
  }
  if (KEYS[kind].includes("players")) {
    if ("worths" in tree === "sparse" in tree) add(3, "A table has either worths or sparse.", "game");
    if ("default" in tree && "worths" in tree) add(3, "default goes with sparse alone.", "game.default");
  }
  if ("excess" in tree && !["plain", "per-head"].includes(tree.excess)) {
    add(3, "excess is “plain” or “per-head”.", "game.excess");
  }
  if ("version" in tree && tree.version !== 1n && tree.version !== 2n) {
    add(3, "version is 1 or 2, without quotes.", "game.version");
  }
}

function playersOfTable({ class: kind, players, worths }, add) {
  if (typeof players !== "bigint") {
    return add(players instanceof Inexact ? 4 : 3, "players is a whole number, without quotes.", "game.players"), 0;
  }
  const most = mostOf(kind);
  if (players < 1n || players > BigInt(most)) {
    return add(4, `A table has 1 to ${most} players, and not ${players}.`, "game.players"), 0;
  }
  const n = Number(players), count = 2 ** n - 1;
  if (Array.isArray(worths) && worths.length !== count) {
    const found = plural(worths.length, "item");
    const hint = worths.length === count + 1 ? " The empty group has none." : "";
    const groups = `${plural(n, "player")} ${n === 1 ? "has" : "have"} ${plural(count, "group")}`;
    add(4, `${groups}, and worths has ${found}.${hint}`, "game.worths");
  }
  return n;
}

function playersOfList(tree, add) {
  const key = LISTS[tree.class], most = mostOf(tree.class);
  if (!Array.isArray(tree[key])) return 0;
  const n = tree[key].length;
  if (n < 1 || n > most) add(4, `${key} has 1 to ${most} items, and not ${n}.`, `game.${key}`);
  return n;
}

function playersOfMatrix({ class: kind, matrix }, add) {
  if (!Array.isArray(matrix) || !matrix.every(Array.isArray)) {
    return add(3, "The matrix is an array of rows.", "game.matrix"), 0;
  }
  const rows = matrix.length, columns = matrix[0]?.length ?? 0, n = kind === "tree" ? rows - 1 : rows + columns;
  const { side = Infinity } = CLASSES[kind], isWithin = n >= 1 && n <= mostOf(kind) && rows <= side && columns <= side;
  if (rows < 1 || columns < 1 || !isWithin) {
    add(4, `A matrix of ${rows} rows and ${columns} columns is too large or too small.`, "game.matrix");
  }
  return n;
}

function nameSlips({ names }, n, add) {
  if (names === undefined) return;
  if (!Array.isArray(names) || !names.every((name) => typeof name === "string")) {
    add(3, "names is an array of texts.", "game.names");
    return;
  }
  if (n > 0 && names.length !== n) {
    add(6, `There ${isOrAre(names)} ${plural(names.length, "name")} for ${plural(n, "player")}.`, "game.names");
  }
  names.forEach((name, i) => {
    const place = `game.names, item ${i + 1}`, shown = withEscapes(name.slice(0, 20));
    if (!name) add(6, "A name is empty.", place);
    if (bytesOf(name) > MOST_NAME) add(6, `The name “${shown}…” is longer than ${MOST_NAME} bytes.`, place);
    if (names.indexOf(name) < i) add(6, `The name “${withEscapes(name)}” occurs twice.`, place);
  });
}

/** How many letters have to change to make one word of another. */
function distance(one, other) {
  if (other.length > 40) return other.length;
  let row = Array.from({ length: other.length + 1 }, (_, j) => j);
  for (let i = 1; i <= one.length; i++) {
    const next = [i];
    for (let j = 1; j <= other.length; j++) {
      next.push(Math.min(next[j - 1] + 1, row[j] + 1, row[j - 1] + (one[i - 1] === other[j - 1] ? 0 : 1)));
    }
    row = next;
  }
  return row.at(-1);
}
