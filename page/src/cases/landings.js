// Landings of airlines: how each is named in a document, and which airline a name is of.
import { shortText } from "../exact/decimals.js";
import { shownName } from "../game/names.js";

const UNNAMED = ["User", "Airline"]; // with a number, of rows without a name; older files have the second

/** What the landings of a row are named by: the airline, and the type where one is given. */
export function baseOf({ airline, type }) {
  return type ? `${airline}, ${type}` : airline;
}

/** The rows as they are shown, {label, sum, type}: no two have the same label. */
export function labelsOf(kept) {
  const bases = kept.map((row) => shownName(baseOf(row)));
  const needing = (text, k) => (isAlone(bases, text) ? text : `${text} needing ${shortText(kept[k].cost)}`);
  const labels = bases.map(needing), numbered = (text, k) => (isAlone(labels, text) ? text : `${text} (row ${k + 1})`);
  return labels.map((text, k) => {
    return { label: numbered(text, k), sum: shownName(kept[k].airline), type: shownName(kept[k].type) };
  });
}

function isAlone(texts, text) {
  return texts.indexOf(text) === texts.lastIndexOf(text);
}

/** The landings of rows {airline, type, cost, count}: what each row shows, and the names and costs of all. A name that
 * another airline’s landing could have gets the number of its own landing, as "Terminal 1 1"; but names that were
 * `opened` with a document, a landing each, stay as they are. */
export function landingsOf(kept, opened = new Set()) {
  const costs = [], players = kept.map(({ cost, count }) => {
    return Array.from({ length: count }, () => costs.push(cost.toDocument()) - 1);
  });
  const isOpened = kept.every(({ airline, type, count }) => count === 1 && !type && opened.has(airline))
    && new Set(kept.map(baseOf)).size === kept.length;
  const plain = namesOf(kept, new Set()), found = airlinesOf({ names: plain, amounts: costs });
  const taken = kept.filter(({ count }, k) => count === 1 && found[players[k][0]] !== undefined).map(baseOf);
  const names = isOpened ? kept.map(baseOf) : namesOf(kept, new Set(taken));
  distinct(names);
  return { rows: labelsOf(kept).map((row, k) => ({ ...row, players: players[k] })), names, costs };
}

/** Landings of one base are numbered from 1; a single one has none, but for those that are `numbered`. */
function namesOf(kept, numbered) {
  const all = new Map(), done = new Map();
  for (const row of kept) all.set(baseOf(row), (all.get(baseOf(row)) ?? 0) + row.count);
  return kept.flatMap((row) => {
    const base = baseOf(row), before = done.get(base) ?? 0;
    done.set(base, before + row.count);
    const isNumbered = all.get(base) > 1 || numbered.has(base);
    return Array.from({ length: row.count }, (_, k) => (isNumbered ? `${base} ${before + k + 1}` : base));
  });
}

/** Makes names distinct, in place: a name that stands already gets a mark behind it. */
function distinct(names) {
  const seen = new Set();
  names.forEach((name, i) => {
    let mended = name;
    while (seen.has(mended)) mended += " ·";
    seen.add((names[i] = mended));
  });
}

/** The airline of each landing that is named as the page names them: all of "Aer", in their order, are "Aer 1" to the
 * last. Where that would be one airline alone, of a landing of each cost, the names are those of players. */
export function airlinesOf({ names, amounts }) {
  const bases = names.map((name) => /^(.*\S) \d+$/.exec(name)?.[1]), made = new Set(bases);
  for (const base of made) {
    const own = names.filter((_, i) => bases[i] === base), isSeveral = own.length > 1 || / \d+$/.test(base);
    const isOther = !isSeveral || UNNAMED.includes(base) || names.includes(base);
    if (isOther || own.some((name, k) => name !== `${base} ${k + 1}`)) made.delete(base);
  }
  const isOne = made.size === 1 && made.has(bases[0]) && bases.every((base) => base === bases[0]);
  if (isOne && new Set(amounts.map(String)).size === names.length) return [];
  return bases.map((base) => (made.has(base) ? base : undefined));
}

/** The rows of a document: landings of one airline at one cost, in a row, are one, where the page would give just these
 * names to such rows; else each landing has a row. */
export function rowsOfLandings(game) {
  const airlines = game.named ? airlinesOf(game) : [], apart = game.amounts.map((cost, i) => ({
    airline: game.named ? game.names[i] : "", type: "", cost, count: 1,
  }));
  const rows = [];
  apart.forEach((row, i) => {
    const last = rows.at(-1), base = airlines[i];
    if (base && last?.base === base && last.cost.equals(row.cost)) last.count += 1;
    else rows.push({ ...row, airline: base ?? row.airline, base });
  });
  const typed = withTypes(rows), isOwn = (some) => String(landingsOf(some).names) === String(game.names);
  return game.named ? [typed, rows, apart].find((some, k) => k === 2 || isOwn(some)) : apart;
}

/** "Aer, A320" is an airline and a type where all names are so, and some airline has several types. */
function withTypes(rows) {
  const parts = rows.map(({ airline }) => /^([^,]+), ([^,]+)$/.exec(airline));
  if (!parts.every(Boolean)) return rows;
  const isSeveral = new Set(parts.map(([whole]) => whole)).size > new Set(parts.map(([, airline]) => airline)).size;
  return isSeveral ? rows.map((row, k) => ({ ...row, airline: parts[k][1], type: parts[k][2] })) : rows;
}
