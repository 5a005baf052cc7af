// Worths as textbooks write them, several in a line or one: v(1) = v(2) = 0, v(12) = 90; or {1}: 0, {1,2}: 90.
const MOST_LETTERS = 100000, MOST_LINE = 4000;
const GROUP = "(?:[vVcCwWuU]\\s?\\(\\s?\\{?[^(){}=]{0,200}\\}?\\s?\\)|\\{[^(){}=]{0,200}\\})";
const FIRST = new RegExp(`^${GROUP}\\s?[=:]`, "u");
const START = new RegExp(`(?<![\\p{L}\\d])${GROUP}\\s?[=:]`, "u");
const ALL = /^[vc]\s?\(\s?N\s?\)$/i;
const SENTENCE = /^([^\p{L}]{1,40}?)[.;,]?\s+(?:(?=\p{Lu}\p{Ll}+\s)|(?=\p{Ll}{2,}\s+\p{L}))(.*)$/u; // behind a number
const CHAIN = new RegExp(`^(${GROUP})\\s*([=:]|(?=\\d|$))\\s*`, "u");
const NEXT = new RegExp(`\\s*(?:[,;.]|\\s(?:and|und|et|y|e|en)(?=\\s))?\\s*(?=${GROUP}\\s?[=:])`, "u");
const EACH = new RegExp("^(\\S{1,40}),?\\s+(?:(?:for|if|für|wenn|pour|si|para)\\s.{0,60})?"
  + "(?:single|alone|each|every|all i\\b|i ?=|\\|S\\| ?= ?1|einzel|allein|seul)", "iu");

/** The groups of a line with their numbers: {rows, left}, with the words before and behind; null where it has none. */
function rowsIn(line) {
  const rows = [], open = [], { index: begin = -1 } = START.exec(line) ?? {}, left = [line.slice(0, begin).trim()];
  let rest = begin < 0 ? "" : line.slice(begin);
  while (rest) {
    const [taken, group, sign] = CHAIN.exec(rest) ?? [];
    if (!taken || !sign) return null;
    open.push(ALL.test(group) ? "all" : group.replace(/^\p{L}\s*/u, ""));
    rest = rest.slice(taken.length);
    if (FIRST.test(rest)) continue;
    const { index = rest.length, 0: gap = "" } = NEXT.exec(rest) ?? {}, text = rest.slice(0, index);
    const [, each] = EACH.exec(text) ?? [], [number, behind] = each ? [each, ""] : partedNumber(text);
    if (!/\d/.test(number)) return null;
    rows.push(...open.splice(0).map((one) => [each === undefined ? one : "alone", number]));
    left.push(behind);
    rest = rest.slice(index + gap.length);
  }
  return open.length || !rows.length ? null : { rows, left: left.filter((one) => /[\p{L}\d]/u.test(one)) };
}

/** A number without the sentence behind it, and this. */
function partedNumber(text) {
  const [, number, behind] = SENTENCE.exec(text) ?? [];
  return number === undefined ? [text.trim().replace(/[.,;]$/, ""), ""] : [number.trim(), behind];
}

/** The rows of a text of such worths: {rows, lines, left}, with the number of each row's line, and texts that are none;
 * null for other texts. */
export function textbookRows(text) {
  if (text.length > MOST_LETTERS || !/[=:]/.test(text)) return null;
  const all = text.split(/\r\n?|\n/).map((given, k) => ({ text: given.trim(), line: k + 1 })).filter((one) => one.text);
  const found = all.map((one) => ({ ...one, found: one.text.length <= MOST_LINE ? rowsIn(one.text) : null }));
  const own = found.filter((one) => one.found), rows = own.flatMap((one) => one.found.rows);
  const isOther = (one) => !one.found && (START.test(one.text) || one.text.includes("\t"));
  const isInside = (one) => !one.found && one.line > own[0].line && one.line < own.at(-1).line;
  if (rows.length < 3 || found.some((one) => isOther(one) || isInside(one))) return null;
  const left = found.flatMap((one) => (one.found ? one.found.left : [one.text]));
  return { rows, lines: own.flatMap((one) => one.found.rows.map(() => one.line)), left };
}
