// Groups as people write them without a + between their members: "Villars seul", "North and South", "les trois". What
// is so read is told, and asked where it isn't certain.
import { readNumber } from "../exact/decimals.js";
import { withEscapes } from "../game/names.js";
import { isLone, sumBeside, wholeOf, WITH } from "./all-together.js";
import { fullNames, parted, withAllBut, withoutSome } from "./short-groups.js";

const MOST_TOLD = 4; // groups in other words that are named
export const NOBODY = /^(∅|none|nobody|no ?one|empty( set)?|niemand|personne|[-–—]|0|)$/i;
const AND = /\s*(?:[&,/;|]|(?<=\s)(?:and|und|et|y|e|en|och|with|mit|avec)(?=\s)|(?<=\s)u\.(?=\s))\s*/u;
const TOGETHER = new RegExp(`[\\s,]+(?:${WITH})$`, "iu");
const RANGE = /^(.{1,60}?) (\d{1,2})(?:\s?[-–]\s?| (?:to|bis|à) )(\d{1,2})$/u;
export const LONE = "alone|only|(?:all )?by (?:itself|themselves|himself|herself)|on (?:its|his|her|their) own|"
  + "alleine?|für sich|(?:tout )?seule?s?|(?:da )?sol[oa]|alleen|sozinh[oa]";
const ALONE = [ // a name and such a word
  new RegExp(`^(?<name>.+?)(?:\\s*[,(–-]\\s*|\\s+)(?<word>${LONE})\\)?$`, "iu"),
  /^(?<word>only|just|nur|allein|seulement|solo|alleen|soltanto|solamente) (?<name>.+)$/iu,
];
const EACH = new RegExp("^(?:(?:each|every(?:one|body)?|any(?:one|body)|jede[rs]?|chacune?|ciascun[oa]|cada un[oa]|"
  + `ieder(?:een)?)(?: one| of them)? )?(?:${LONE}|einzeln|individually|separately|singly)$`, "iu");

/** Whether a text says that each is alone. */
export const isAloneWord = (text) => EACH.test(text);

const quoted = (texts) => texts.slice(0, MOST_TOLD).map((text) => `“${withEscapes(text)}”`).join(", ")
  + (texts.length > MOST_TOLD ? " and others" : "");
const partsOf = (text) => text.replace(TOGETHER, "").split(AND).filter(Boolean);

/** The members of a group, as A+B, {A, B} or v(A, B). */
export function membersIn(group) {
  const [, inside] = /^[vc]?[({[]+([^(){}[\]]*)[)}\]]+$/i.exec(group) ?? [], text = (inside ?? group).normalize("NFC");
  return text.split(inside === undefined ? /[+∪]/ : /[+∪,;&|]/).map((member) => member.trim());
}

/** Finds groups that are written without +, as "North & South" where both have a line, or "All", and leaves out that of
 * nobody: {read, told}, or {fault}, which may have `ways` on, or what is {asked} of a line that may be all together.
 * `roles` has what was said of such lines, `isRun` whether names side by side are a group. Lines are {members, number,
 * line}, which is changed. */
export function inOtherWords(all, { roles, isRun } = {}) {
  const used = new Set(all.flatMap(({ members }) => (members.length > 1 ? members : [])));
  const alone = all.filter((line) => isLone(line) && !used.has(line.members[0]));
  const nobody = alone.filter(({ members: [one] }) => NOBODY.test(one));
  const odd = nobody.find(({ number }) => /[1-9]/.test(number));
  if (odd) return { fault: `${odd.line}Here is a number without a group. Write its members before it.` };
  const each = alone.find(({ members: [one] }) => EACH.test(one));
  const some = all.filter((line) => !nobody.includes(line) && line !== each);
  const { rest: given, lacking } = withoutSome(some, partsOf);
  const words = withoutAlone(given, used), alike = namedAlike(given) + fullNames(given, partsLike);
  for (const line of andGroups(given, used)) Object.assign(line, { members: line.parts, words: line.members[0] });
  const spare = sumBeside(given), read = given.filter((line) => line !== spare);
  const { words: runs = [], ...question } = parted(read.filter((line) => roleOf(line, roles) === undefined), isRun);
  if (question.fault) return question;
  const { out = [], ...asked } = wholeOf(read, roles, lacking.flatMap(({ lacks }) => lacks));
  if (asked.asked) return asked;
  const kept = withAllBut(read.filter((line) => !out.includes(line)), lacking);
  const { read: full, told: ofEach = "", fault: clash } = each ? withEach(kept, each) : { read: kept };
  if (clash) return { fault: clash };
  const told = alike + leftOut(spare, out) + ofGroups([...kept.map((line) => line.words).filter(Boolean), ...runs])
    + (words.length ? ` ${quoted(words)} beside the names was left out.` : "") + ofEach;
  return { read: full, told: told + (nobody.length ? " The group of nobody was left out." : "") };
}

const roleOf = ({ members: [one] }, roles = {}) => roles[one];

/** What is told of a sum that is left out, and of lines that somebody said to leave out. */
function leftOut(spare, out) {
  const ofSum = spare ? ` “${withEscapes(spare.members[0])}” was left out, as a sum of other lines.` : "";
  return ofSum + out.map(({ members: [one] }) => ` “${withEscapes(one)}” was left out.`).join("");
}

/** What is told of texts that were read as groups. */
const ofGroups = (texts) => (texts.length > 0
  ? ` ${quoted(texts)} ${texts.length > 1 ? "are groups" : "is a group"}.` : "");

/** The one of the names that a part of a group has but for the size of its letters, or for words that stand beside the
 * `first` part, as in "Flats 1 + 2", or behind all, as in "Ann + Bo together"; undefined if none has, or several. */
function nameLike(lone, part, k, [first]) {
  if (lone.has(part)) return part;
  const [head, ...rest] = first.split(" "), bare = part.replace(TOGETHER, ""), tail = k ? bare : rest.join(" ");
  const small = (text) => text.toLowerCase(), alike = [...lone].filter((one) => {
    const [word, ...more] = one.split(" "), longer = head.length - word.length;
    const isHead = small(head).startsWith(small(word)) && longer < 3;
    return small(one) === small(bare) || (more.length > 0 && more.join(" ") === tail && isHead);
  });
  return alike.length === 1 ? alike[0] : undefined;
}

/** Gives members of groups the names that lines of one player have: what is told. */
function namedAlike(read) {
  const lone = new Set(read.filter(isLone).map(({ members: [one] }) => one)), told = new Map();
  const nameOf = (member, k, all) => {
    const name = nameLike(lone, member, k, all) ?? member;
    if (name !== member) told.set(member, name);
    return name;
  };
  for (const line of read) if (!isLone(line)) line.members = line.members.map(nameOf);
  return [...told].map(([one, name]) => ` “${withEscapes(one)}” is “${withEscapes(name)}”.`).join("");
}

/** Takes words such as "alone" from names, if several have one, or the name is in another line without: the words. */
function withoutAlone(read, used) {
  const shown = new Set(read.flatMap(({ members }) => members.flatMap((one) => [one, ...partsOf(one)])));
  const found = read.filter((line) => isLone(line) && !used.has(line.members[0])).map((line) => {
    const [text] = line.members, own = ALONE.map((one) => one.exec(text)?.groups).find(Boolean);
    return own && { line, ...own };
  }).filter(Boolean);
  const kept = found.filter(({ name }) => found.length > 1 || shown.has(name));
  for (const { line, name } of kept) line.members = [name.trim()];
  return [...new Set(kept.map(({ word }) => word))];
}

/** The names in a text that joins several of them; undefined for another text. */
export function joinedOf(text, names) {
  const parts = partsLike(text, names);
  return parts.length > 1 && parts.every((part) => names.has(part)) ? parts : undefined;
}

/** The parts of a text, with the names that they are like. */
function partsLike(text, names) {
  const parts = rangeIn(text) ?? partsOf(text);
  return parts.map((part, k) => nameLike(names, part, k, parts) ?? part);
}

/** The lines of groups without +, each with its `parts`: all have a line; or no part is in one such line only. */
function andGroups(read, used) {
  const lines = new Set(read.filter(isLone).map(({ members: [one] }) => one));
  const all = read.filter((line) => isLone(line) && !used.has(line.members[0])).map((line) => {
    return Object.assign(line, { parts: partsLike(line.members[0], lines) });
  }).filter(({ parts }) => parts.length > 1);
  const known = all.filter(({ parts }) => parts.every((part) => lines.has(part)));
  if (known.length) return known;
  const countOf = (part) => all.filter(({ parts }) => parts.includes(part)).length;
  return all.length > 2 && all.every(({ parts }) => parts.every((part) => countOf(part) > 1)) ? all : [];
}

/** The parts of "Lots 1-3"; undefined for another text. */
function rangeIn(text) {
  const [, head, from, to] = RANGE.exec(text) ?? [], count = to - from + 1;
  const numbers = Array.from({ length: Math.max(0, count || 0) }, (_, k) => String(Number(from) + k));
  return count > 1 ? [`${head} ${from}`, ...numbers.slice(1)] : undefined;
}

/** Gives each player without a number alone that of the line `each`: {read, told}, or {fault} where all have others. */
function withEach(read, { members: [word], number, line }) {
  const names = [...new Set(read.flatMap(({ members }) => members))], valueOf = (text) => readNumber(text).value;
  const ownOf = (name) => read.find((one) => isLone(one) && one.members[0] === name);
  const open = names.filter((name) => !ownOf(name)?.number), text = withEscapes(word), said = valueOf(number);
  const other = names.find((name) => !open.includes(name) && !(said && valueOf(ownOf(name).number)?.equals(said)));
  if (!open.length && other !== undefined) {
    return { fault: `${line}“${text}” says ${withEscapes(number) || "nothing"}, and “${withEscapes(other)}” has `
      + "another number alone. Leave that line out." };
  }
  if (!open.length) return { read, told: ` “${text}” was left out: all have a line.` };
  const fresh = open.filter((name) => !ownOf(name)).map((name) => ({ members: [name], number, line }));
  for (const name of open) Object.assign(ownOf(name) ?? {}, { number });
  return { read: [...fresh, ...read], told: ` “${text}” is the number of each alone: ${quoted(open)}.` };
}
