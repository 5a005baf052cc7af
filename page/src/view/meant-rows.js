// Which row a pasted name means, if it isn't the row's name to the letter.
import { withEscapes } from "../game/names.js";
import { listed } from "../game/words.js";

const TITLES = new Set(("mr mrs ms miss mx dr prof sir dame herr hr frau fr familie family monsieur m madame mme mlle "
  + "señor señora sr sra the").split(" ").map(plain));
const LEAST = 3; // letters that may stand for a longer name

function plain(text) {
  return text.normalize("NFD").replace(/\p{M}/gu, "").toLowerCase();
}

/** The words of a name without titles and accents, with a blank around each: so one text is within another by words. */
function wordsOf(name) {
  const words = plain(name).match(/[\p{L}\d]+/gu) ?? [], own = words.filter((word) => !TITLES.has(word));
  return ` ${(own.length ? own : words).join(" ")} `;
}

/** Whether a pasted name is within a row's by its words, or begins it, or has the row's at its begin or end. */
function means(name, row) {
  const begins = name.trim().length >= LEAST && row.startsWith(name.trimEnd());
  return row.includes(name) || begins || name.startsWith(row) || name.endsWith(row);
}

/** The rows that pasted `names` mean, as places in `labels`, none of those that are `taken`: {places}, or {fault} in
 * words, with the rows that are left. Each has to mean one row only, and no two the same. */
export function meantRows(names, labels, taken) {
  const rows = labels.map(wordsOf), shown = (k) => withEscapes(labels[k]), places = [];
  const quoted = (name) => `“${withEscapes(name.slice(0, 40))}”`;
  const left = [...labels.keys()].filter((k) => !taken.has(k));
  const rest = left.length ? ` Rows without an amount: ${listed(left.map(shown))}.` : "";
  for (const name of names) {
    const words = wordsOf(name), found = words.trim() ? [...rows.keys()].filter((k) => means(words, rows[k])) : [];
    const exact = found.filter((k) => rows[k] === words), [place, other] = exact.length === 1 ? exact : found;
    if (place === undefined) return { fault: `No row is called ${quoted(name)}.${rest}` };
    if (other !== undefined) return { fault: `${quoted(name)} can be ${shown(place)} or ${shown(other)}.` };
    const before = places.indexOf(place);
    if (before >= 0) return { fault: `${quoted(names[before])} and ${quoted(name)} would both be ${shown(place)}.` };
    if (taken.has(place)) return { fault: `${quoted(name)} would be ${shown(place)}, which has an amount.${rest}` };
    places.push(place);
  }
  return { places };
}

/** What is told of them. */
export function meantText(names, places, labels) {
  const pairs = names.map((name, k) => `“${withEscapes(name)}” for ${withEscapes(labels[places[k]])}`);
  return pairs.length > 0 && `Taken: ${listed(pairs)}.`;
}
