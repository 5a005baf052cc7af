// Names that a document can't have, mended: those that occur twice are numbered, and long ones are cut.
import { bytesOf } from "../game/words.js";

const MOST_BYTES = 60;

/** What was typed with other names; `change` takes all of them. */
export function withNames(typed, change) {
  if (typed.rows) {
    const names = change(typed.rows.map(({ name }) => name));
    return { ...typed, rows: typed.rows.map((row, r) => ({ ...row, name: names[r] })) };
  }
  if (typed.names) return { ...typed, names: change(typed.names) };
  const all = change([...typed.buyers, ...typed.sellers]), { length } = typed.buyers;
  return { ...typed, buyers: all.slice(0, length), sellers: all.slice(length) };
}

/** Each name that stands earlier already with a number that makes it another. */
export function numbered(names) {
  const taken = new Set(names.map((name) => name.trim())), seen = new Set();
  return names.map((name) => {
    const own = name.trim();
    if (!own || !seen.has(own)) {
      seen.add(own);
      return name;
    }
    let k = 2;
    while (taken.has(`${own} ${k}`)) k += 1;
    taken.add(`${own} ${k}`);
    return `${own} ${k}`;
  });
}

/** Long names cut, with an ellipsis, and numbered if they are then the same. */
export function shortened(names) {
  return numbered(names.map((name) => {
    if (bytesOf(name.trim()) <= MOST_BYTES + 4) return name;
    let cut = [...name.trim()];
    while (bytesOf(cut.join("")) > MOST_BYTES - 4) cut = cut.slice(0, -1);
    return `${cut.join("").trim()}…`;
  }));
}
