// Groups whose members are written shortly: side by side, as AB, 12 or Ann Bo; by a part of each name, as A + B for
// Hospital A and Hospital B; or by those who lack, as "without Ann".
import { withEscapes } from "../game/names.js";
import { isAllWord, isLone } from "./all-together.js";

const MOST_LETTERS = 200; // of a group, and of names that stand side by side
const MOST_NAMES = 16, MOST_GLUED = 3; // players, and letters of a name without a blank behind
const MOST_TRIES = 500; // ways to part a text
const MOST_TOLD = 4; // groups that are named
const CODE = /^(?:[A-Z]{1,9}|[1-9]{1,9})$/;
const GAP = /^(?:\s+|\s?[-–·*×]\s?)/u;
const WITHOUT = new RegExp("^(?:(?:all|alle|everyone|everybody|tous|toutes|tutti|todos),? )?(?:without|except"
  + "|(?:all )?but(?: not)?|ohne|außer|sans|sauf|zonder|senza|sin|sem|utan|uden|bez) (.{1,200})$", "iu");

const textOf = ({ members: [one] }) => one;
const isAscending = (text) => [...text].every((one, k) => !k || one > text[k - 1]);
const quoted = (text) => `“${withEscapes(text)}”`;

/** The names of which a text consists, each once, without signs or with blanks between; undefined if there are none, or
 * several ways. */
function namesIn(text, names, tries = { left: MOST_TRIES }) {
  tries.left -= 1;
  if (tries.left < 0) return undefined;
  const found = names.filter((name) => text.startsWith(name)).flatMap((name) => {
    const rest = text.slice(name.length), gap = GAP.exec(rest)?.[0] ?? "";
    if (!rest) return [[name]];
    if (!gap && name.length > MOST_GLUED) return [];
    const more = namesIn(rest.slice(gap.length), names.filter((one) => one !== name), tries);
    return more ? [[name, ...more]] : [];
  });
  return found.length === 1 ? found[0] : undefined;
}

/** The letters or digits of codes such as AB, AC and BC, if each is in several of them; none of other texts. */
function lettersOf(texts) {
  const isOf = texts.length > 2 && texts.every((text) => CODE.test(text) && isAscending(text));
  const letters = isOf ? [...new Set(texts.join(""))] : [];
  const countOf = (letter) => texts.filter((text) => text.includes(letter)).length;
  return letters.every((letter) => countOf(letter) > 1) ? letters : [];
}

/** The texts that are names side by side, each with these: names are those of the texts that are no such. */
function sideBySide(texts) {
  const names = lettersOf(texts), hasLetters = names.length > 0, found = [];
  const short = texts.filter((text) => text && text.length <= MOST_LETTERS).sort((a, b) => a.length - b.length);
  for (const text of short) {
    const own = namesIn(text, names);
    if (own?.length > 1) found.push([text, own]);
    else if (!hasLetters && names.length < MOST_NAMES) names.push(text);
  }
  return found;
}

/** Whether texts are all groups of some players: 1, 2 and 12. */
export function areAllGroups(texts) {
  const all = new Set(texts), found = sideBySide([...all]), inside = new Set(found.flatMap(([, own]) => own));
  return all.size === texts.length && inside.size > 1 && texts.length === 2 ** inside.size - 1;
}

/** Gives lines of names side by side their members: {words}; or {fault, ways}, a question where not every group is
 * there, until somebody said whether they are groups (`isRun`). */
export function parted(read, isRun) {
  const used = new Set(read.flatMap(({ members }) => (members.length > 1 ? members : [])));
  const all = read.filter((line) => isLone(line) && !used.has(textOf(line)));
  const lone = all.filter((line) => !isAllWord(textOf(line))), texts = [...new Set(lone.map(textOf))];
  const found = isRun === false ? [] : sideBySide(texts), groups = new Map(found);
  if (!groups.size) return { words: [] };
  const names = [...new Set(found.flatMap(([, own]) => own))];
  const count = groups.size + all.length - lone.length;
  const isWhole = lone.length === texts.length && count >= 2 ** names.length - 1 - names.length
    && texts.every((text) => groups.has(text) || names.includes(text));
  if (!isWhole && !isRun) return questionOf(found);
  for (const line of lone) if (groups.has(textOf(line))) line.members = groups.get(textOf(line));
  return { words: [...groups.keys()] };
}

function questionOf(found) {
  const [[text, own]] = found, some = found.slice(0, MOST_TOLD).map(([one]) => quoted(one)).join(", ");
  const fault = found.length > 1
    ? `Are ${some}${found.length > MOST_TOLD ? " and others" : ""} groups, of the players whose names stand there?`
    : `Is ${quoted(text)} a group, of ${own.map(quoted).join(" and ")}?`;
  const [yes, no] = found.length > 1 ? ["Yes, groups", "No, players of their own"] : ["Yes, a group", "No, one player"];
  return { fault, ways: [[yes, { isRun: true }], [no, { isRun: false }]] };
}

/** Whether a name may be written shortly so: by a word of it, its beginning, or its initials. */
function isShort(text, name) {
  const [small, whole] = [text, name].map((one) => one.toLowerCase().replace(/\.$/, "")), words = whole.split(/[\s-]+/);
  return whole.startsWith(small) || words.includes(small) || words.map(([letter]) => letter).join("") === small;
}

/** Gives members that no line has alone the one name that they are short for: what is told. `partsOf` parts a text that
 * has no +, beside the names that have a line. */
export function fullNames(read, partsOf) {
  const lone = read.filter(isLone), names = new Set(lone.map(textOf)), told = new Map();
  const several = read.filter((line) => !isLone(line)).map((line) => ({ line, parts: line.members }));
  const joined = lone.map((line) => ({ line, parts: partsOf(textOf(line), names), words: textOf(line) }))
    .filter(({ parts }) => parts.length > 1);
  const groups = [...several, ...joined], all = new Set(groups.flatMap(({ parts }) => parts));
  for (const { words } of joined) names.delete(words);
  const free = [...names].filter((name) => !all.has(name)), fullOf = (part) => {
    const some = names.has(part) ? [part] : free.filter((name) => isShort(part, name));
    return some.length === 1 ? some[0] : undefined;
  };
  for (const { line, parts, words } of groups) {
    const full = parts.map(fullOf), isOf = full.every(Boolean) && parts.some((part) => !names.has(part));
    if (!isOf) continue;
    Object.assign(line, { members: full }, words && { words });
    parts.forEach((part, k) => part !== full[k] && told.set(part, full[k]));
  }
  return [...told].map(([part, name]) => ` ${quoted(part)} is ${quoted(name)}.`).join("");
}

/** Takes the lines of all but some out of `read`: {rest, lacking}, each with the names that it `lacks`. */
export function withoutSome(read, partsOf) {
  const found = read.filter(isLone).map((line) => {
    const [, names] = WITHOUT.exec(textOf(line)) ?? [];
    return names && { line, lacks: partsOf(names), words: textOf(line) };
  }).filter(Boolean);
  const names = new Set(read.flatMap(({ members }) => members));
  const isOf = found.length > 1 || found.every(({ lacks }) => lacks.every((name) => names.has(name)));
  const lacking = isOf ? found : [], lines = lacking.map(({ line }) => line);
  return { rest: read.filter((line) => !lines.includes(line)), lacking };
}

/** The lines of all but some, once it is known who all are. */
export function withAllBut(read, lacking) {
  const names = [...new Set([...read.flatMap(({ members }) => members), ...lacking.flatMap(({ lacks }) => lacks)])];
  for (const { line, lacks, words } of lacking) {
    Object.assign(line, { members: names.filter((name) => !lacks.includes(name)), words });
  }
  return [...read, ...lacking.map(({ line }) => line)];
}
