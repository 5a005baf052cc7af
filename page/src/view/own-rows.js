// Amounts of the user's own, and those of a kept answer, go with the rows that they belong to.
import { listed, plural } from "../game/words.js";

/** What a row is known by: of a runway its airline and type, since the label may hold a cost; else its label. */
const keyOf = ({ label, sum, type = "" }) => (sum === undefined ? label : `${sum}\t${type}`);

/** For each of `now` its place in `before`, or -1: it has the same name, and of several of one name the same order. */
export function placesIn(before, now) {
  const left = new Map();
  before.forEach((name, k) => left.set(name, [...(left.get(name) ?? []), k]));
  return now.map((name) => left.get(name)?.shift() ?? -1);
}

/** The rows with what is known of each, `of`; as long as the cells aren't right, what was known of it before. */
export function knownRows(rows, facts, before = []) {
  const { amounts, alone, whole } = facts ?? {}, places = placesIn(before.map(keyOf), rows.map(keyOf));
  return rows.map((row, r) => {
    const [i] = row.players ?? [], old = before[places[r]];
    return { ...row, of: facts ? `${amounts?.[i] ?? alone?.[i]} of ${whole}` : old?.of };
  });
}

/** Who of the rows `now` still has an own amount of `own`, where it is another game: names. */
export function staying({ rows, texts }, now) {
  const places = placesIn(rows.map(keyOf), now.map(keyOf));
  const isOther = now.some(({ of }, r) => of && rows[places[r]]?.of && rows[places[r]].of !== of);
  return isOther ? now.filter((_, r) => texts[places[r]]).map(({ label }) => label) : [];
}

/** The amounts for the rows `now`, of `own`, {rows, texts, todays}: {texts, todays, gone}, `gone` in a sentence. Rows
 * that were only typed into stay where they are, whatever their names. */
export function carried({ rows, texts, todays }, now, isTyped) {
  const [old, fresh] = [rows, now].map((some) => some.map(keyOf));
  const places = isTyped && rows.length === now.length ? fresh.map((_, r) => r) : placesIn(old, fresh);
  const take = (list) => list && (list.some(Boolean) ? places.map((k) => list[k] ?? "") : list);
  const isOwn = (k) => Boolean(texts[k] || todays?.[k]);
  const gone = rows.filter((_, k) => isOwn(k) && !places.includes(k));
  return { texts: take(texts), todays: take(todays), gone: goneText(gone, places.every((k) => k < 0)) };
}

/** The amounts without those of a row that was removed. */
export function withoutRow({ rows, texts, todays }, r) {
  const rest = (list) => list && list.filter((_, k) => k !== r);
  const gone = texts[r] || todays?.[r] ? [rows[r]] : [];
  return { rows: rest(rows), texts: rest(texts), todays: rest(todays), gone: goneText(gone, rows.length === 1) };
}

const MOST_NAMED = 4;

/** Names in a sentence, of many the first. */
export function namedFirst(labels) {
  const names = labels.slice(0, MOST_NAMED), more = labels.length - names.length;
  return listed(more ? [...names, plural(more, "more row")] : names);
}

/** What is said of those who still have amounts of another game. */
export const stayingText = (labels) => `“Your proposal” still has the amounts of before for ${namedFirst(labels)}.`;

function goneText(gone, isAll) {
  if (!gone.length) return "";
  if (isAll) return "No name here is in your own column, so its amounts are gone. Undo brings them back.";
  const who = namedFirst(gone.map(({ label }) => label));
  return `Gone from your own column, with the ${gone.length > 1 ? "rows" : "row"}: ${who}. Undo brings it back.`;
}
