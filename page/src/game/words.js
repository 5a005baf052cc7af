// Words and texts that need no game: lists, counts, how long a text is.

/** What is said where several games are given. */
export const MANY = "One game at a time here; for many, scripts/many --lines of the project answers a document in each "
  + "line, and scripts/from-vector makes these of a table with a game a row.";

export function bytesOf(text) {
  return new TextEncoder().encode(text).length;
}

export function listed(parts) {
  return parts.length < 2 ? parts.join("") : `${parts.slice(0, -1).join(", ")} and ${parts.at(-1)}`;
}

/** Parts that have commas or an "and" themselves. */
export function enumerated(parts) {
  return parts.length < 2 ? parts.join("") : `${parts.slice(0, -1).join("; ")}; and ${parts.at(-1)}`;
}

export function times(count) {
  return { 1: "once", 2: "twice" }[count] ?? `${count} times`;
}

export function plural(count, one, several = one + "s") {
  return `${count} ${count === 1 ? one : several}`;
}

export function capital(text) {
  return text.replace(/^./u, (letter) => letter.toUpperCase());
}

export function isOrAre(list) {
  return list.length === 1 ? "is" : "are";
}
