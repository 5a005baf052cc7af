// Votes as textbooks write them: [8; 5, 4, 4], the votes needed and then those of each voter.
import { readNumber } from "../exact/decimals.js";
import { withEscapes } from "../game/names.js";
import { leftText } from "./frames.js";
import { isQuota } from "./quota.js";

const MOST_LETTERS = 2000, MOST_SHOWN = 60;
const FORM = /^[[(⟨<]\s*([^;:|[\](){}⟨⟩<>]{1,40})[;:|]\s*([\d\s.,;/%]+)[\])⟩>]\.?$/u;
const INSIDE = /[[⟨]\s*[\d\s.,/%]{1,20}[;:|]\s*[\d./%]{1,20}[,;\s][\d\s.,;/%]{1,1000}[\]⟩]/u; // within a text
const NUMBERS = /^[[(⟨<][\d\s.,;:|/%]*[;:|][\d\s.,;:|/%]*[\])⟩>]\.?$/u; // of another such form
const WAY = "Write the votes needed first, a semicolon and then the votes, such as [8; 5, 4, 4].";

const OPEN = /,(?!\d{3}(?!\d))/; // a comma that may stand between two numbers, or before decimals

const isNumber = (text) => !readNumber(text).fault;

/** The votes between semicolons, commas or blanks; null where a comma may be of a number. */
function votesIn(text) {
  const sign = [/;/, /,\s/, /,/].find((one) => one.test(text)) ?? /\s/;
  const all = text.split(new RegExp(`${sign.source}\\s*`, "u")).map((one) => one.trim()).filter(Boolean);
  const isOdd = (one, k) => !isNumber(one) || OPEN.test(one)
    || (k > 0 && sign.source === "," && /^\d{3}$/.test(one)); // 5,000
  return all.length < 2 || all.some(isOdd) ? null : all;
}

/** The list of such a pasted text for the `columns` of names and votes: {rows, targets, notes, number}, or {fault};
 * undefined for another text. */
export function bracketVotes(pasted, columns) {
  const text = pasted.map((row) => row.join("; ")).join(" ").trim();
  if (text.length > MOST_LETTERS) return undefined;
  const [own = text] = INSIDE.exec(text) ?? [], rest = text.replace(own, "");
  return /\d/.test(rest) ? listOf(text, columns) : listOf(own, columns, rest.replace(/^\P{L}+|\P{L}+$/gu, ""));
}

/** The same of such a form alone; `left` are words around it. */
function listOf(text, columns, left = "") {
  const [, quota = "", some = ""] = FORM.exec(text)?.map((one) => one.trim()) ?? [];
  const isOne = isQuota(quota) && /\d/.test(quota) && !OPEN.test(quota), all = isOne ? votesIn(some) : null;
  const shown = withEscapes(text.slice(0, MOST_SHOWN));
  const isSuch = quota || NUMBERS.test(text) || INSIDE.test(text);
  if (!all) return isSuch ? { fault: `“${shown}” isn’t clear. ${WAY}` } : undefined;
  const rows = all.map((votes, k) => [`Voter ${k + 1}`, votes]), count = all.length;
  const told = `“${shown}” was taken as votes needed, ${quota}, and the votes of ${count} voters: “Voter 1” to “Voter `
    + `${count}”.`;
  const notes = [told, left && leftText([left])];
  return { rows, targets: columns.slice(0, 2), headings: null, notes, number: quota, spare: [] };
}
