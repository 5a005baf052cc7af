// Lines of a ledger: the day before a cost, and who paid it already. Neither says who uses what is paid for.
import { withEscapes } from "../game/names.js";

const MOST_LETTERS = 600; // of a line
const MOST_TOLD = 4; // payers who are named
export const AS_PARTS = "Write each as a line: diesel 84: Anna, Bo, Chris.";
/** A month, in words. */
export const MONTH = "(?:"
  + "jan(?:uary|uar|vier)?|feb(?:ruary|ruar)?|févr?(?:ier)?|mar(?:ch|s)?|märz|apr(?:il)?|avril|may|mai"
  + "|june?|juni|juin|july?|juli|juillet|aug(?:ust)?|août|sept?(?:ember|embre)?|o[ck]t(?:ober|obre)?"
  + "|nov(?:ember|embre)?|d[eé][cz](?:ember|embre)?)(?!\\p{L})\\.?";
const DAY = "\\d{1,2}(?:st|nd|rd|th|\\.)?", YEAR = "(?:,? ?(?:19|20)\\d\\d)?";
const DATE = new RegExp("^(?:(?:mon|tue|wed|thu|fri|sat|sun|mo|di|mi|do|fr|sa|so)\\p{L}{0,7}[.,]{0,2} )?"
  + `(?:${DAY} ${MONTH}${YEAR}|${MONTH} ${DAY}${YEAR}|\\d{4}-\\d\\d-\\d\\d|\\d{1,2}/\\d{1,2}(?:/\\d{2,4})?`
  + "|\\d{1,2}\\.\\d{1,2}\\.(?:\\d{2,4})?)(?:\\s*[:,–-]\\s+|\\s+|$)", "iu");
const AMOUNT = "(?:[\\p{Sc}A-Z]{1,3}\\s?)?\\d[\\d.,'’\u202f]{0,20}(?:\\s?(?:\\p{Sc}|[A-Z]{3}))?";
const WHAT = "[^\\d():]{0,99}[^\\s\\d():,;–-]", FOR = "\\s*[,;–-]\\s*for |\\s+for |\\s*:\\s*|\\s*\\((?:for )?";
const PAID = new RegExp("^([^\\d,:;()]{1,60}? (?:has |have |already )?(?:paid|spent))(?: out)? "
  + `(${AMOUNT}) (?:for|on) (${WHAT})(?:${FOR})([^():]{1,300}?)\\)?[.;]?$`, "iu");
const PAYING = /[\p{L}\d)(] ?(?:paid|pays|spent|bought|bezahlte?|zahlte?|payé|pagó|pagato|betaald)(?!\p{L})/iu;
const VERB = /^(.*?) (?:has |have |already )?(?:paid|spent)$/iu;

/** Rows without a day in front of each of them that has a number: {rows, told}. A column of days goes whole. */
export function withoutDays(pasted) {
  const kept = pasted.filter((row) => row.some((text) => /\d/.test(text)));
  const dayIn = ([first]) => DATE.exec(first.slice(0, MOST_LETTERS))?.[0] ?? "";
  if (kept.length < 2 || !kept.every(dayIn)) return { rows: pasted };
  const isColumn = kept.every((row) => row.length > 1 && dayIn(row) === row[0]);
  const bare = (row) => (isColumn ? row.slice(1) : [row[0].slice(dayIn(row).length), ...row.slice(1)]);
  const told = `The days in front, “${withEscapes(dayIn(kept[0]).trim())}” and so on, were left out.`;
  return { rows: pasted.map((row) => (kept.includes(row) || isColumn ? bare(row) : row)), told };
}

/** What a line says that somebody paid, for what and for whom: {payer, cells, users}; null for another line. */
export function paidIn(text) {
  const [, payer, number, what, users] = (text.length <= MOST_LETTERS && PAID.exec(text)) || [];
  return payer ? { payer, cells: [`${what}: ${number}`], users } : null;
}

/** Whether a row says that somebody paid. */
export const isPaying = (row) => PAYING.test(row.join(", ").slice(0, MOST_LETTERS));

/** Whether each row with a number says that somebody paid. */
export function isLedger(rows) {
  const kept = rows.filter((row) => row.some((text) => /\d/.test(text)));
  return kept.length > 1 && kept.every(isPaying);
}

/** The people in what was said of those who paid, as "Anna paid". */
export const peopleOf = (payers) => [...new Set(payers.map((one) => VERB.exec(one)?.[1] ?? one))];

/** What is told of those who paid. */
export function payersText(payers) {
  const all = [...new Set(payers)], some = all.slice(0, MOST_TOLD).map((one) => `“${withEscapes(one)}”`).join(", ");
  const more = all.length > MOST_TOLD ? " and others" : "", was = all.length > 1 ? "were" : "was";
  return all.length > 0 && `${some}${more} ${was} left out: who paid already is for you to set off.`;
}
