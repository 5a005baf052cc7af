// Links that were pasted as a list: a link a row, with its two ends and its cost, in a column each, or as "A - B: 12".
import { readNumber } from "../exact/decimals.js";
import { isSumWord, withEscapes } from "../game/names.js";
import { isMail, isText } from "./block.js";
import { columnLabel, costText } from "./link-costs.js";
import { isSpoilt } from "./pasting.js";

const NONE = new RegExp("^([-–—.x×∞]|n/?a|#n/?a|#?nv|none|null|inf|infinity|kein(e|er)?|aucun(e)?|no|no (link|way|road"
  + "|connection)|(not|im)[ -]?(possible|feasible)|(nicht|un)[ -]?möglich|keine verbindung|(pas|im)[ -]?possible"
  + "|niet mogelijk|(no|im)[ -]?posible)?$", "iu"); // no such link
const PLACES = (words) => `node ?${words}|point ?${words}|end ?${words}|place ?${words}`;
const HEADS = [
  new RegExp("^(from|von|van|desde|de|da|od|från|fra|start|begin|origen?|origine|d[eé]part|source|a|i|tail"
    + `|${PLACES("1")})(?!\\p{L})`, "iu"),
  new RegExp("^(to|nach|naar|hasta|bis|à|vers|do|till|til|destin\\p{L}*|arriv[eé]e|end(?! ?1)|finish|ende|ziel|target|b"
    + `|j|head|${PLACES("2")})(?!\\p{L})`, "iu"),
  new RegExp("cost|price|amount|kosten|kostnad|koszt|custo|preis|pri[js]s?(?!\\p{L})|precio|prezzo|betrag|bedrag"
    + "|co[uû]t|prix|montant|\\p{Sc}", "iu"),
];
const LIKE_COST = [/\b(euros?|eur|usd|gbp|chf)\b/iu, // where no heading names a cost
  /weight|length|distance|value|gewicht|länge|longueur|valeur/iu];
const YEAR = /^(19|20)\d\d$/, MOST_LETTERS = 300, MOST_ROWS = 1000;

export const isNone = (text = "") => NONE.test(text.trim());
export const isNameless = (text = "") => /^[-–—.]?$/.test(text.trim());
export const clean = (text) => text.normalize("NFC").trim();
const PAIR = /^(?:[Ff]rom (?=.* to ))?(.{1,99}?)(?: (?:to|[-–—/]) |\s?(?:[–—→]|->)\s?|(?<=\S)-(?=\S))(.{1,99})$/u;
const LINK = "links?|pipes?|cables?|roads?|lines?|leitung|rohr|kabel|straße|strecke|verbindung|weg|conduite|route|câble"
  + "|tuyau|lien|tubería|carretera|cable|leiding";
const SPOKEN = [["from|von|vom|van|från|fra", "to|nach|zum|zur|zu|naar|till|til"], ["de|du|desde", "à|au|aux|hasta|a"],
  ["between|zwischen|tussen|entre|mellan", "and|und|en|et|y|och"]].map(([one, other]) => {
  const before = `(?:(?:\\p{L}{1,12} )?(?:${LINK}) )?`; // as "the pipe"
  return new RegExp(`^${before}(?:${one}) (\\S.{0,98}?) (?:${other}) (\\S.{0,98})$`, "iu");
});

/** The two ends that a text names, as "Alby - Brook" and "the pipe from Alby to Brook"; undefined without them. */
function pairOf(text = "") {
  const own = text.slice(0, MOST_LETTERS), [found] = SPOKEN.map((way) => way.exec(own)).filter(Boolean);
  return (found ?? PAIR.exec(own))?.slice(1);
}

const SIGN = /\S\s*([–—→]|->)\s*\S|\S (-|to) \S/u; // between the ends of a link, and not within a name
const COSTS = /,?(?:\s(?:it|that|this|would|will)){0,2}\s(?:costs?|is|kostet(?: es)?|coûte|cuesta|kost(?: het)?)$/iu;
const LONG = /\s\d[\d.,]*\s?(k?m|met(re|er)s?|ft|yd)$/iu; // behind an end

const POINT = /(?<=\d|\d\s?(?:\p{Sc}|[A-Z]{3}))\.$/u; // of a sentence that ends with a number

/** A row as "Alby - Brook: 40 m, 1,240 EUR", in a cell or two, with a cell for each number, and without the point of a
 * sentence. */
export function numbersApart(given) {
  const row = given.filter(Boolean).length === 1 ? given.map((text) => text.replace(POINT, "")) : given;
  const [, ends = "", behind = ""] = /^([^:]{1,200}):\s*(?=[\d\p{Sc}])(.{1,200})$/u.exec(row[0]) ?? [];
  const numbers = [...behind.split(/[,;]\s+(?=[\d\p{Sc}])/u), ...row.slice(1)];
  return pairOf(ends) && numbers.length > 1 ? [ends, ...numbers] : row;
}

const endsOf = (text) => pairOf(text)?.map(clean);
const isOdd = ([one, other]) => one.includes(": ") || LONG.test(other) || /: \p{L}/u.test(other);
const isLink = ([text, ...others]) => {
  const ends = endsOf(text);
  return Boolean(ends) && !isOdd(ends) && others.some((one) => one && !readNumber(one).fault);
};

/** Whether one of some ends is a place of the links among these rows, if there are any. */
function nearIn(rows) {
  const places = new Set(rows.filter(isLink).flatMap(([text]) => endsOf(text)).map((end) => end.replace(COSTS, "")));
  return (ends) => !places.size || ends.some((end) => places.has(end));
}

/** Rows as "Alby-Brook" and 12, in a cell or two, as rows of two ends and a number, if all are such below a heading and
 * some place has several links: "Anne-Marie" and "Jean-Luc" are places. */
export function withEnds(given) {
  const rows = given.filter((row) => row.some(Boolean)).map((row) => {
    return row.length > 1 ? row : row[0].split(/\s*:\s*(?=\d)/);
  });
  const last = rows.at(-1) ?? [], isSum = rows.length > 2 && isSumWord(last[0] ?? "") && !pairOf(last[0]);
  const ends = rows.map(([one]) => pairOf(one)?.map((end) => clean(end.replace(COSTS, ""))));
  const below = ends.slice(ends[0] ? 0 : 1, isSum ? -1 : undefined), all = below.flat();
  const isWord = (text) => isText(text) && /^\p{L}/u.test(text), isNear = nearIn(rows);
  const isLoose = ends.some((own, k) => own && k && !isLink(rows[k]) && !isNear(own));
  const isPlain = rows.slice(1).every(([, ...others]) => !others.some(isWord)), isPairs = below.every(Boolean);
  const isShared = new Set(all).size < all.length; // some place has several links
  if (!isPlain || !isPairs || below.length < 2 || below.some(isOdd) || isLoose || !isShared) return given;
  return rows.map(([one, ...others], k) => [...(ends[k] ?? (k ? [one, ""] : ["From", "To"])), ...others]);
}

/** Rows of links as "Alby-Brook" and 12 without the lines of a mail around them: {rows, left, odd}. `left` are these
 * lines, and `odd` is the first other one that is no such link. A line that may be a link without its cost is no line
 * of a mail. */
export function withoutMail(rows) {
  const texts = rows.map((row) => row.filter(Boolean).join("; ")), own = rows.map(isLink), first = own.indexOf(true);
  const last = own.lastIndexOf(true), isLone = (row) => row.filter(Boolean).length < 2;
  const isNear = nearIn(rows), isOpen = (r) => isNear(endsOf(texts[r]) ?? []);
  const isBeyond = (r) => (r < first ? isMail(texts.slice(r, first), false)
    : isMail(texts.slice(last + 1, r + 1), true));
  const isOut = (r) => (r < first || r > last) && isLone(rows[r]) && isBeyond(r) && !isOpen(r);
  if (first < 0 || rows.length > MOST_ROWS) return { rows, left: [] };
  const out = rows.map((_, r) => isOut(r)), odd = texts.find((text, r) => {
    return text && !own[r] && !out[r] && (r > first ? !isSumWord(rows[r][0]) : isLone(rows[r]) || /\d/.test(texts[r]));
  });
  return { rows: rows.filter((_, r) => !out[r] && texts[r]), left: texts.filter((text, r) => text && out[r]), odd };
}

/** Whether names look like the two ends of a link each. */
export const arePairs = (names) => names.filter((name) => SIGN.test(name)).length * 2 > names.length;

/** The line above links whose ends share a cell, if it is no word for them: told as it was. */
export function titleOf(pasted, { rows, lines }) {
  const k = rows.findIndex((row) => row.some(Boolean)), text = (pasted[lines[k] - 1] ?? []).filter(Boolean).join("; ");
  return pairOf(rows[k][0]) || HEADS.some((head) => head.test(text)) ? [] : [`“${text}”, a heading`];
}

/** A list, with headings or without: {points, entries, shape, left, told}, or {fault}; or {asked}, the columns of which
 * each may be the cost, until it is `said`. Null for other rows. */
export function listOf(rows, { judge, said, unitAt }) {
  const isHeading = isHeadOfLinks(rows, judge), heads = isHeading ? rows[0] : [], wide = rows[0].length;
  const given = rows.slice(isHeading ? 1 : 0).filter((row) => row.some(Boolean)), below = withoutSum(given, judge);
  const found = wide > 2 && below.length > 0 && columnsOf(below, heads, judge);
  if (!found) return null;
  const { from, to, priced } = found;
  const partOf = (c) => ({ c, head: heads[c], texts: below.map((row) => row[c]), unit: unitAt.get(c) });
  if (!said && priced.length > 1) return { asked: priced.map(partOf) };
  const cost = said ?? priced, label = (c) => columnLabel(partOf(c));
  const loose = below.find((row) => isNameless(row[from]) || isNameless(row[to]));
  if (loose) return { fault: `In “${withEscapes(loose.filter(Boolean).join("; "))}” a link has one end only.` };
  const { points, called, same } = pointsOf(below.flatMap((row) => [row[from], row[to]]));
  const place = (name) => points.indexOf(called.get(name));
  const entries = below.map((row) => {
    const [i, j] = [place(row[from]), place(row[to])].sort((a, b) => a - b);
    return [i, j, costText(row, cost, isNone)];
  });
  const rest = wide > 3 ? rows[0].map((_, c) => c).filter((c) => ![from, to, ...cost].includes(c)) : [];
  const lost = below.length < given.length ? [`“${given.at(-1).filter(Boolean).join("; ")}”, a sum`] : [];
  const told = [...(said ? [`A link costs ${cost.map(label).join(" times ")}.`] : []), ...same];
  const head = cost.length === 1 ? heads[cost[0]] : undefined; // a product has its own
  return { points, entries, shape: "a list of from, to, cost", left: [...rest.map(label), ...lost], told, head };
}

const THE = /^(?:the|der|die|das|dem|den|la|le|les|el|het) (?=\S)/iu;

/** The points that some ends name: {points, called, same}, with that of each end (`called`), and what is told of ends
 * that differ from one before by capitals or an article only, and are the same. */
function pointsOf(ends) {
  const keyOf = (name) => (name.length > 2 ? name.toLowerCase().replace(THE, "") : name), first = new Map();
  for (const name of ends) if (!first.has(keyOf(name))) first.set(keyOf(name), name);
  const called = new Map(ends.map((name) => [name, first.get(keyOf(name))]));
  const same = [...called].filter(([name, own]) => name !== own).map(([name, own]) => {
    return `“${withEscapes(name)}” was taken as “${withEscapes(own)}”.`;
  });
  return { points: [...first.values()], called, same };
}

/** The columns of a list: {from, to, priced}, where each of `priced` may be the cost; null if it is none. */
function columnsOf(below, heads, judge) {
  const columns = below[0].map((_, c) => c), all = (c, is) => below.every((row) => is(row[c]));
  const headOf = (head) => columns.find((c) => head.test(heads[c] ?? "")), headed = HEADS.map(headOf);
  headed[2] ??= LIKE_COST.map(headOf).find((c) => c !== undefined);
  const isHeaded = headed.every((c) => c !== undefined) && new Set(headed).size === 3;
  const names = columns.filter((c) => all(c, judge.isName));
  const costs = columns.filter((c) => !names.includes(c) && all(c, (text) => judge.isNumber(text) || isNone(text))
    && below.some((row) => judge.isNumber(row[c])));
  const isFew = columns.length === 3 || costs.length < 3 || heads.length > 0;
  const isPlain = names.length === 2 && costs.length > 0 && isFew;
  if (!isHeaded && (!isPlain || below.every((row) => SIGN.test(row[names[0]])))) return null;
  const [from, to] = isHeaded ? headed : names, own = costs.filter((c) => {
    return c !== from && c !== to && !isCountIn(below, c); // and no row numbers
  });
  const by = (head) => own.filter((c) => head.test(heads[c] ?? "")), some = [by(HEADS[2]), by(LIKE_COST[0]), own];
  return { from, to, priced: some.find((list) => list.length) ?? [isHeaded ? headed[2] : costs[0]] };
}

/** Whether a column numbers the rows. */
const isCountIn = (below, c) => below.every((row, k) => row[c].replace(/[.)]$/, "") === String(k + 1));

/** Rows below lines of one text above a list, as a title: {rows, left}, these texts. */
export function untitled(rows) {
  const filled = rows.map((row) => row.filter(Boolean)), first = filled.findIndex(({ length }) => length > 1);
  const above = filled.slice(0, Math.max(0, first)).filter(([text]) => text).flat();
  const isLink = ([one, other, ...more]) => isText(one) && isText(other) && more.length > 0;
  const isTitle = above.length > 0 && above.every(isText) && filled.slice(first).every(isLink);
  return isTitle ? { rows: rows.slice(first), left: above } : { rows, left: [] };
}

/** Whether the first row of a list has headings: no number, and a word above each column of numbers; below "From" and
 * "To" it may be a year, or "x". A first link whose cost is missing, or is "ca. 12", has none. */
function isHeadOfLinks([first, ...below], { isNumber }) {
  const isNumeric = (c) => below.filter((row) => isNumber(row[c])).length * 2 > below.length;
  const isCost = (c) => isNumeric(c) && !isCountIn(below, c);
  const isEnds = [0, 1].every((c) => first[c]?.length > 1 && HEADS[c].test(first[c]));
  const isYear = (text) => isEnds && YEAR.test(text), isWord = (text) => isYear(text) || !isSpoilt(text);
  return below.length > 0 && first.every((text, c) => {
    return (isYear(text) || !isNumber(text)) && (!isCost(c) || (isWord(text) && (isEnds || !isNone(text))));
  });
}

/** The rows of a list without the last one, if it is named as a sum, or has a number and lacks an end. */
function withoutSum(rows, { isNumber }) {
  const last = rows.at(-1) ?? [], isShort = last.filter(Boolean).length < 3 && last.some(isNumber);
  return rows.length > 1 && (isShort || isSumWord(last.find(Boolean) ?? "")) ? rows.slice(0, -1) : rows;
}
