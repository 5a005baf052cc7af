// Tables where they don't belong: an answer that the page saved, pasted into a case; and any table, opened as a file.
import { cellsOf } from "./pasting.js";

const OF_AN_ANSWER = "This is a table of an answer: it has the shares, and not what they were worked out from.";

/** Whether rows are a table of shares as the page saves it: beside each column its exact numbers, and a sum below. */
function isAnswer(rows) {
  const [[corner = "", , exact = ""] = []] = rows;
  return !corner.trim() && exact.endsWith(", exact") && rows.some(([name]) => name === "together");
}

/** Why rows can't be a case, if they are the page's own table of an answer; undefined for others. */
export const answerFault = (rows) => (isAnswer(rows) ? `${OF_AN_ANSWER} Paste the costs, claims or gains.` : undefined);

const NO_DOCUMENT = "This is no document and no saved case, which begin with “{”. If it has names or numbers, choose "
  + "the case that they are of: it goes into the cells there.";

/** Whether a text is meant for the program: one that is JSON, or has an object, as a mail may. */
export function isProgramText(text) {
  const plain = text.replace(/^\ufeff/, "");
  return plain.includes("{") || (/^\s*[["]/.test(plain) && !/^"[^"]*"[,;\t]/.test(plain)) || plain.trim() === "null";
}

/** Why a text that was opened as a document is none, but a table or words, which may be the list of the case `runway`;
 * undefined for others. */
export function tableFault(text, runway) {
  const plain = text.replace(/^\ufeff/, "");
  if (isProgramText(plain)) return undefined;
  const rows = cellsOf(plain).filter((row) => row.some(Boolean));
  if (isAnswer(rows)) return `${OF_AN_ANSWER} “Save the case” makes a file that opens here.`;
  const isOf = ({ title, heads }) => rows[0]?.some((text) => text === title || heads.test(text));
  const isRunway = runway.columns.every((column) => column.optional || isOf(column));
  const where = isRunway ? `“${runway.title}”` : "the case that it is of";
  if (rows.filter(({ length }) => length > 1).length < 2) return NO_DOCUMENT;
  return `This is a table, and no saved case. Choose ${where}: it goes into the cells there.`;
}
