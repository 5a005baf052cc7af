// Whether two texts are of the same game, by one definition for the page, the scripts and the package.
import { Rational } from "../exact/rational.js";
import { countText, shortText } from "../exact/decimals.js";
import { firstDifference, Inexact, isObject, writeJson } from "../exact/json.js";
import { keysOf } from "../game/classes.js";
import { membersOf } from "../game/groups.js";
import { differenceOf, shownName, withEscapes } from "../game/names.js";
import { ANOTHER, areKnownWorthTheSame, firstOther, SAME, UNSAID, WORTH_THE_SAME } from "../game/same-worths.js";
import { Namer } from "../tell/words.js";
import { capital } from "../game/words.js";

const MOST_TOLD = 10, MOST_LISTED = 300;
const MOST_EXPONENT = 400;
const LISTS = keysOf("list");
const SINGLES = Object.fromEntries(Object.entries(keysOf("single")).map(([kind, key]) => [kind, [key, `the ${key}`]]));
const MEASURES = { plain: "“as a whole”", "per-head": "“per head”" };

/** What a rule may look at beside the worths of groups. */
const LOOKED_AT = {
  airport: "what each needs", bankruptcy: "the claims", voting: "the votes", tree: "the links",
  assignment: "the pairs", market: "the pairs",
};

const UNALIKE = "Nobody can say: entry for entry no difference is found, but some group is worth otherwise.";
const ORDERED = "Yes: they have the same names and numbers, in another order. So go by the names.";
const WORTH = "Worth the same, but written otherwise: each group is worth the same. So nucleolus, core, Shapley shares "
  + "and all that look at no more are the same. A rule that looks at # may give other shares.";
const OTHER_CLASS = " The program doesn’t answer the same questions for both classes.";
const TOO_LARGE = "Nobody can say: they are written by other numbers, and have too many groups to compare what each is "
  + "worth.";

const isList = (kind) => Object.hasOwn(LISTS, kind);

/** What the line’s game is to the agreed one: {outcome, isYes, sentence, items}. `isYes` is true for the same, false
 * for another, and else null. */
export function sameGame(line, agreed) {
  const unsaid = (sentence) => found(UNSAID, sentence);
  if (agreed.fault) return unsaid(`Nobody can say: the agreed file can’t be read. ${agreed.fault}`);
  if (line.fault) return unsaid(`Nobody can say: the line can’t be read. ${line.fault}`);
  if (!isObject(agreed.tree.game)) return unsaid("Nobody can say: the agreed file has no game in it.");
  if (!isObject(line.tree.game)) return unsaid("Nobody can say: the line has no game in it.");
  if (agreed.doubles.length) {
    const keys = agreed.doubles.map((key) => withEscapes(key.slice(0, 60))).join(", ");
    return unsaid(`In the agreed file a key occurs twice: ${keys}. Nobody can say which one was agreed on.`);
  }
  const told = toldOf(line, agreed);
  const bare = agreed.isBare ? " (The agreed file is the game alone, without {\"game\":…} around it.)" : "";
  return { ...told, sentence: told.sentence + bare };
}

export function found(outcome, sentence, items = []) {
  return { outcome, isYes: outcome === SAME ? true : outcome === ANOTHER ? false : null, sentence, items };
}

function toldOf(line, agreed) {
  try {
    return verdict(line, agreed);
  } catch {
    return found(UNSAID, "Nobody can say: one of the two games doesn’t have the form of a game.");
  }
}

function verdict(line, agreed) {
  const [mine, other] = [line.tree.game, agreed.tree.game];
  const path = firstDifference(mine, other);
  if (!path) return found(SAME, "Yes: the two games are the same, entry for entry.");
  const { order, items } = differences(mine, other), where = path.filter((key) => typeof key === "string");
  if (items.length) return byWorths(line.game, agreed.game, order, items);
  if (line.game && agreed.game && firstOther(line.game, agreed.game, order)) return found(UNSAID, UNALIKE);
  if (order) return found(SAME, ORDERED);
  return found(SAME, `Yes: they are written differently (${withEscapes(where.join(", "))}), but each name and each `
    + "number is the same.");
}

/** Of two games that differ as they are written, whether each group is worth the same. A game that nobody could read is
 * refused by the program, too. */
function byWorths(mine, other, order, items) {
  const areTables = mine?.isTable() && other?.isTable(); // whose numbers are the worths
  const group = mine && other && (areTables ? [] : firstOther(mine, other, order));
  if (!mine || !other || group) return another(mine, other, order, items, group);
  if (!areKnownWorthTheSame(mine, other)) return found(UNSAID, TOO_LARGE, firstOf(items));
  const looked = [...new Set([mine, other].map(({ kind }) => LOOKED_AT[kind]).filter(Boolean))];
  const isOtherClass = mine.kind !== other.kind;
  const sentence = WORTH.replace("#", looked.join(" or ")) + (isOtherClass ? OTHER_CLASS : "");
  return found(WORTH_THE_SAME, order ? `${sentence} The players stand in another order.` : sentence, firstOf(items));
}

/** Two games that aren’t the same, with the places; of two classes with the first group that is worth otherwise. */
function another(mine, other, order, items, group) {
  const places = [...items];
  if (group?.length && mine.kind !== other.kind) {
    const theirs = order ? group.map((i) => order[i]).sort((i, j) => i - j) : group;
    const [value, wanted] = [mine.told(group), other.told(theirs)].map(shortText);
    const name = group.length === mine.n ? "all together" : new Namer(mine).group(group);
    places.push(`${name} ${mine.costs ? "cost" : "are worth"} ${value} by the line, and ${wanted} by the agreed file.`);
  }
  return places.length > 1 ? found(ANOTHER, "No. They differ at:", firstOf(places))
    : found(ANOTHER, `No. ${capital(places[0])}`);
}

function firstOf(items) {
  const more = items.length - MOST_TOLD, count = more === 1 ? "one" : countText(more);
  return more > 0 ? [...items.slice(0, MOST_TOLD), `and ${count} more ${more === 1 ? "place" : "places"}.`] : items;
}

/** The entries of a game that was read, for one who compares them with a paper: each number by its place. */
export function entriesOf(tree) {
  const view = viewOf(tree), [, single] = SINGLES[view.kind] ?? [];
  const numbers = [...view.values].map(([key, value]) => `${placeOf(view, key)}: ${value}`);
  if (view.byDefault !== "nothing") numbers.push(`every other group: ${view.byDefault}`);
  const rest = numbers.splice(MOST_LISTED).length;
  return [
    `the class: ${view.kind}, ${view.n} players; how a group’s loss counts: ${view.measure}`,
    ...(single ? [`${single}: ${view.single}`] : []), ...numbers,
    ...(rest ? [`and ${countText(rest)} more numbers`] : []),
  ];
}

// ---- Where two games differ

/** Each place where the games differ, in words, and the other order in which the names stand, if they do. */
function differences(line, agreed) {
  const [mine, unordered] = [line, agreed].map(viewOf), order = orderOf(mine, unordered);
  const isOne = mine.kind === unordered.kind, names = order?.map((j) => unordered.names[j]);
  const other = !order ? unordered : isOne ? reordered(unordered, order) : { ...unordered, names }, items = [];
  const tell = (what, one, two, remark = "") => {
    items.push(`${what}: the line has ${one}, the agreed file ${two}${remark ? ` (${remark})` : ""}.`);
  };
  if (mine.kind !== other.kind) tell("the class", mine.kind, other.kind);
  if (mine.measure !== other.measure) tell("how a group’s loss counts", mine.measure, other.measure);
  if (mine.n !== other.n) tell("the players", `${mine.n} of them`, String(other.n));
  nameDifferences(mine, other, tell);
  const open = [["line", mine], ["agreed file", other]].find(([, { isOpen }]) => isOpen);
  if (open && !items.length) items.push(`a group in the ${open[0]} names a player whom it doesn’t have.`);
  if (open) return { items, order };
  if (mine.kind !== other.kind || mine.n !== other.n) return { items, order };
  if (mine.single !== other.single) tell(SINGLES[mine.kind][1], mine.single, other.single);
  for (const [key, value] of mine.values) {
    const theirs = other.values.get(key) ?? other.byDefault;
    if (value !== theirs) tell(placeOf(mine, key), value, theirs);
  }
  for (const [key, value] of other.values) {
    if (!mine.values.has(key) && value !== mine.byDefault) tell(placeOf(mine, key), mine.byDefault, value);
  }
  if (mine.byDefault !== other.byDefault && groupsOf(mine, other) < 2 ** mine.n - 1) {
    tell("every group that isn’t listed", mine.byDefault, other.byDefault);
  }
  return { items, order };
}

/** How many groups one of the two games lists. */
function groupsOf(mine, other) {
  return new Set([...mine.values.keys(), ...other.values.keys()]).size;
}

function nameDifferences(mine, other, tell) {
  if (!mine.names !== !other.names) {
    return tell("the names", mine.names ? "names" : "none", other.names ? "has names" : "none");
  }
  mine.names?.forEach((name, i) => {
    const theirs = other.names[i];
    if (name === theirs || theirs === undefined) return;
    const quoted = (text) => `“${shownName(text)}”`;
    tell(`name ${i + 1}`, quoted(name), quoted(theirs), differenceOf(name, theirs) ?? "");
  });
  return undefined;
}

/** A game as it is compared. `values` has a text for each place, by its key; `byDefault` is that of any other. Whether
 * a group names somebody whom the names don’t have is `isOpen`. */
function viewOf(tree) {
  const kind = String(tree.class), measure = MEASURES[tree.excess ?? "plain"] ?? textOf(tree.excess);
  const areNames = Array.isArray(tree.names) && tree.names.every((name) => typeof name === "string");
  const names = areNames ? tree.names : null, [single] = Object.hasOwn(SINGLES, kind) ? SINGLES[kind] : [];
  const view = { kind, measure, names, n: playersOf(tree, kind), single: single && textOf(tree[single]) };
  return { ...view, ...valuesOf(tree, kind, names) };
}

function playersOf(tree, kind) {
  if (isList(kind)) return tree[LISTS[kind]]?.length ?? 0;
  if (Array.isArray(tree.matrix)) return tree.matrix.length + (kind === "tree" ? -1 : tree.matrix[0]?.length ?? 0);
  return Number(tree.players ?? 0);
}

function valuesOf(tree, kind, names) {
  const values = new Map(), byDefault = "nothing";
  const list = isList(kind) ? tree[LISTS[kind]] : null;
  if (Array.isArray(list)) list.forEach((one, i) => values.set(String(i), textOf(one)));
  if (Array.isArray(tree.matrix)) {
    tree.matrix.forEach((row, i) => [row].flat().forEach((one, j) => values.set(`${i}-${j}`, textOf(one))));
    if (kind === "tree") inOneDirection(values);
    return { values, byDefault, rows: tree.matrix.length };
  }
  if (Array.isArray(tree.worths)) tree.worths.forEach((one, k) => values.set(String(k + 1), textOf(one)));
  if (!Array.isArray(tree.sparse)) return { values, byDefault };
  const place = (member) => (typeof member === "string" ? names?.indexOf(member) ?? -1 : Number(member) - 1);
  const groups = tree.sparse.map((item) => [[item].flat(1)[0]].flat().map(place));
  groups.forEach((places, k) => {
    values.set(String(places.reduce((mask, i) => mask + 2 ** i, 0)), textOf([tree.sparse[k]].flat(1)[1]));
  });
  return { values, byDefault: textOf(tree.default ?? 0n), isOpen: groups.flat().includes(-1) };
}

/** A link that costs the same both ways is told once. */
function inOneDirection(values) {
  for (const [key, value] of [...values]) {
    const [i, j] = key.split("-").map(Number);
    if (i > j && values.get(`${j}-${i}`) === value) values.delete(key);
  }
}

/** A number by its value, however it is written; what is none as it stands there. */
function textOf(tree) {
  if (tree === undefined) return "nothing";
  const value = exactOf(tree);
  if (value) return shortText(value).startsWith("about") ? String(value) : shortText(value);
  const text = withEscapes(writeJson(tree));
  return text.length > 60 ? `${text.slice(0, 60)} …` : text;
}

function exactOf(tree) {
  if (typeof tree === "bigint") return Rational.of(tree);
  const text = tree instanceof Inexact ? tree.text : tree;
  if (typeof text !== "string" || text.length > 90) return null;
  if (/^-?\d+\/0*[1-9]\d*$/.test(text)) return Rational.of(text);
  const form = /^(-?)(\d+)(?:\.(\d+))?(?:[eE]([+-]?\d{1,4}))?$/;
  const [, sign, whole, decimals = "", exponent = "0"] = form.exec(text) ?? [];
  if (whole === undefined || Math.abs(Number(exponent)) > MOST_EXPONENT) return null;
  const power = BigInt(exponent) - BigInt(decimals.length), digits = BigInt(sign + whole + decimals);
  return power < 0n ? new Rational(digits, 10n ** -power) : new Rational(digits * 10n ** power);
}

// ---- Players in another order

/** Where each player of the line stands in the agreed file, if both have the same names in another order. */
function orderOf(mine, other) {
  if (!mine.names || !other.names || mine.n !== other.n) return null;
  if (mine.names.length !== mine.n || new Set(mine.names).size < mine.n) return null;
  const order = mine.names.map((name) => other.names.indexOf(name));
  if (order.includes(-1) || new Set(order).size < mine.n || order.every((j, i) => i === j)) return null;
  const isBuyer = (i) => i < mine.rows, isMarket = mine.rows !== undefined && mine.kind !== "tree";
  const isOne = isMarket && mine.kind === other.kind;
  return isOne && order.some((j, i) => isBuyer(i) !== isBuyer(j)) ? null : order;
}

function reordered(view, order) {
  const back = new Map(order.map((j, i) => [j, i])), values = new Map();
  const columns = view.kind === "tree" ? 0 : view.rows;
  for (const [key, value] of view.values) {
    if (view.rows !== undefined) {
      const [i, j] = key.split("-").map(Number), point = (k) => (k ? back.get(k - 1) + 1 : 0);
      values.set(columns ? `${back.get(i)}-${back.get(j + columns) - columns}` : `${point(i)}-${point(j)}`, value);
      if (!columns && !view.values.has(`${j}-${i}`)) values.set(`${point(j)}-${point(i)}`, value); // it was told once
    } else if (isList(view.kind)) values.set(String(back.get(Number(key))), value);
    else values.set(String(membersOf(Number(key)).reduce((mask, j) => mask + 2 ** back.get(j), 0)), value);
  }
  if (view.kind === "tree") inOneDirection(values);
  return { ...view, values, names: order.map((j) => view.names[j]) };
}

/** A place in words, by the names of the line. */
function placeOf({ kind, names, rows }, key) {
  const name = (i) => (names?.[i] === undefined ? `player ${i + 1}` : shownName(names[i]));
  if (isList(kind)) {
    const i = Number(key), own = { airport: "what # needs", bankruptcy: "the claim of #", voting: "the votes of #" };
    return `${own[kind].replace("#", () => name(i))} (item ${i + 1})`;
  }
  if (rows !== undefined) {
    const [i, j] = key.split("-").map(Number), point = (k) => (k ? name(k - 1) : "the source");
    return kind === "tree" ? `the link from ${point(i)} to ${point(j)}` : `what ${name(i)} and ${name(j + rows)} gain`;
  }
  return `the group ${membersOf(Number(key)).map(name).join(" + ")}`;
}
