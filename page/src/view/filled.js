// What the page filled in by itself, in sentences: it has to be told wherever the answer goes.
import { groupLabel } from "../cases/tables.js";
import { parseJson } from "../exact/json.js";
import { maskOf, masksBySize, membersOf } from "../game/groups.js";
import { listed } from "../game/words.js";
import { levelOf, listedIn } from "../tell/levels.js";
import { plainPoints } from "../tell/rule-names.js";

const MOST_TOLD = 5; // players, with 31 groups
const MOST_GIVEN = 1500; // characters of groups with their numbers

/** The sentence for the cells of a case; null where nothing was filled. */
export function filledText({ kind, typed }) {
  return (typed?.filled && kind.filled?.told(kind, typed)) ?? null;
}

/** The groups of a table that have a number which the page didn't fill, each with it; "" where
 * these are too many for a page. */
export function givenText({ kind, typed }) {
  if (!kind.isTable || typed.names.length > MOST_TOLD) return "";
  const masks = masksBySize(typed.names.length).filter((mask) => !typed.filled?.includes(mask));
  const told = masks.map((mask) => `${groupLabel(typed.names, mask)} ${(typed.numbers[mask] ?? "").trim()}`).join("; ");
  return told.length > MOST_GIVEN ? "" : `Given were: ${told}.`;
}

/** Whose shares rest on filled numbers, in a sentence: the first rule’s by its certificate, and those of the rules that
 * count them whatever they are; "" for none. */
export function countedText({ kind, typed: { filled = [], names }, result }, points, game) {
  const isOfRest = (mask) => membersOf(mask).length === names.length - 1, keys = ["shapley"];
  if (!kind.isTable || !filled.length) return "";
  if (filled.some(isOfRest)) keys.push("agencies");
  if (restsOn(result?.line, filled)) keys.push(points[0]?.key);
  const titles = plainPoints(points, game).filter(({ key }) => keys.includes(key)).map(({ title }) => `“${title}”`);
  return titles.length ? `The shares of ${listed(titles)} rest on filled numbers.` : "";
}

/** Whether the certificate of a line lists one of these groups. */
function restsOn(line, masks) {
  const { certificate } = line ? parseJson(line) : {};
  const listed = listedIn(certificate?.levels.map(levelOf) ?? []);
  return masks.some((mask) => listed.has(mask));
}

/** Whether the page filled the number of one of these groups. */
export function isFilled({ kind, typed }, groups) {
  return Boolean(kind.isTable && typed.filled?.length && groups.some((group) => typed.filled.includes(maskOf(group))));
}

/** Whose line in the picture of what each adds stands on a filled number, in a sentence. */
export function filledLines(session, rows) {
  if (!session.kind.isTable) return "";
  const everyone = rows.flatMap(({ players }) => players), names = (some) => listed(some.map(({ label }) => label));
  const isIn = ({ players }) => isFilled(session, [everyone.filter((i) => !players.includes(i))]);
  const whose = rows.filter(isIn), others = rows.filter((row) => !isIn(row));
  if (!whose.length) return "";
  const who = !others.length ? "each" : whose.length > others.length ? `all but ${names(others)}` : names(whose);
  return `The line “adds to the ${session.kind.isCost ? "cost" : "worth"} of all others” of ${who} stands on a number `
    + "that the page filled.";
}
