// A clause of statutes that names a quota or two: "carried if at least 8 of the 13 seats and 55 % of the votes agree".
import { readNumber } from "../exact/decimals.js";
import { AT_LEAST, COUNT_WORDS, isQuota, MAJORITIES, MORE_THAN, PART_WORDS, QUOTA as NAME, WHOM } from "./quota.js";

const MOST_LETTERS = 600;
const NAMES = new RegExp(`${MAJORITIES}|${AT_LEAST}|quota|quorum|quórum|consent|threshold|zustimm`
  + "|requires?|required|\\bneed(?:s|ed)?\\b|bedarf|bedürfen|braucht|brauchen|requiert|exige|vereis|\\bnodig\\b|requier"
  + "|richied|\\bpass(?:es|ed)? (?:with|by)|\\b(?:carried|adopted)\\b", "iu");
/** What decides, at the head of a short sentence. */
const MOTIONS = /^(?:resolutions?|decisions?|motions?|beschlüsse|décisions|besluiten|acuerdos|decisiones|delibere) /iu;
const NUMBER = "\\d(?:[\\d.,'’\u202f]*\\d)?";
const [MORE, LEAST, PARTS] = [MORE_THAN, AT_LEAST, PART_WORDS.join("|")];
/** What says how much, in a clause: a part, so many of all, a number of votes or behind "at least", a majority. */
const QUOTA = new RegExp("(?<![\\p{L}\\d.,])"
  + `(?:(${MORE}|>(?!=)) ?(?:the |der |die |la )?|(?:(${LEAST}|>=|≥) ?)?(?:the |a |der |die )?)(?:`
  + `(?<part>${NUMBER}(?: \\d/\\d)? ?(?:%|per ?cent|prozent|pour cent|procent|por ciento)|\\d+ ?/ ?\\d+`
  + `|(?:${COUNT_WORDS})[ -](?:${PARTS})(?!\\p{L})|zweidrittel|dreiviertel|tweederde|${PART_WORDS[0]})`
  + `|(?<some>\\d+) (?:out of|of|von|der|sur|van|des) (?:the |den |les |de )?(?<many>\\d+)`
  + `|(?<count>${NUMBER})(?<whom> (?:\\p{L}+ )?(?:${WHOM})(?!\\p{L}))?`
  + `|(?<most>(?:simple |absolute |einfache[nr]? |absolute[nr]? )?(?:${MAJORITIES})) (?:of|der|des|de|van|dei)(?= )`
  + `|(?<plain>(?:simple|absolute|einfache[nr]?|absolute[nr]?|gewone|volstrekte) (?:${MAJORITIES})|(?:${MAJORITIES}) `
  + "(?:simple|absolue|absoluta|semplice|assoluta)))", "giu");

const OF = new RegExp("^(?: of)?(?: (?:all|the|der|des|aller|de|van|los|las|les|dei)){0,4} "
  + `((?:\\p{L}+ ){0,2}(?:${WHOM}))(?!\\p{L})`, "iu");
const ONE_MORE = /^[^,;.\d]{0,40}(?:\+ ?1|plus (?:one|1|eins|un))(?!\p{L})/iu;

/** What a text says of how much, in its order: {text, whom}, the `whom` being whose it is where it says so; null for a
 * number of something else. */
function saidIn(text) {
  return [...text.slice(0, MOST_LETTERS).matchAll(QUOTA)].flatMap(({ 1: more, 2: least, index, 0: own, groups }) => {
    const { part, some, many, count, whom, most } = groups, rest = text.slice(index + own.length);
    const [, of = ""] = OF.exec(rest) ?? [], bare = part ?? (some ? `${some} of ${many}` : count) ?? "more than 1/2";
    if (most && !of) return []; // "a majority of two thirds"
    if (count && !more && !least && !whom) return [null];
    return [{ text: more || ONE_MORE.test(rest) ? `more than ${bare}` : bare, whom: (whom ?? of).trim() }];
  });
}

/** The quotas that a text says. */
export const quotasIn = (text) => saidIn(text).filter((one) => one && isQuota(one.text));

const NUMBERING = /^\P{L}*(?:art\p{L}*\.? ?\d+[.)]?)?|\d{1,2}\.? \p{L}+ (?:19|20)\d\d|(?:19|20)\d\d/giu; // or a date

/** Whether a row of cells is such a clause, and no voter: a sentence that names a quota or two, and no other number. */
export function isClause(row) {
  const cells = row.filter(Boolean), text = cells.join(", ");
  const isRow = cells.length > 1 && !readNumber(cells.at(-1)).fault;
  const [, word, rest] = /^([^:=]{1,80})[:=](.+)$/u.exec(text.slice(0, MOST_LETTERS)) ?? [];
  const isNamed = cells.length === 1 && word && NAME.test(word) && readNumber(rest).fault; // "Needed: all present"
  if (isRow || text.length > MOST_LETTERS || !(isNamed || NAMES.test(text))) return false;
  const small = text.split(/\s+/).filter((word) => /^\p{Ll}/u.test(word)).length;
  if (isNamed || (cells.length === 1 && isQuota(text))) return true; // "two-thirds majority"
  const said = saidIn(text.replace(NUMBERING, ""));
  const isSaid = said.length > 0 && said.length < 3 && said.every((one) => one && isQuota(one.text));
  return isSaid && (small > 3 || MOTIONS.test(text));
}

/** Of some texts those that name a quota, in one, and the quotas: {text, quotas}. */
export function quotaLine(texts) {
  const own = texts.filter((one) => NAMES.test(one) && (/\d/.test(one) || quotasIn(one).length > 0));
  return own.length ? { text: own.join("; "), quotas: own.flatMap(quotasIn) } : undefined;
}

/** Rows without the clauses among them, and these. */
export function withoutClauses(rows) {
  const own = rows.filter(isClause), clauses = own.map((row) => row.filter(Boolean).join(", "));
  return { rows: rows.filter((row) => !own.includes(row)), clauses };
}
