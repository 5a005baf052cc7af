// What was pasted, as rows of cells.
import { readNumber } from "../exact/decimals.js";
import { UNKNOWN } from "./columns.js";

/** A number with something wrong, as "20.5 EUR" and "#REF!": no heading. */
export const SPOILT = /^[^\p{L}]*\d|^#[A-Z]|^n\/?an?$/iu;

const ABOUT = /^(ca\.?|approx\.?|about|circa|etwa|env\.?|~) *\d/iu; // no heading either

/** Whether a text is a number with something beside it. */
export const isSpoilt = (text) => SPOILT.test(text) || ABOUT.test(text);

const MOST_RULE = 400; // signs of a line that is drawn
const QUOTED = /(?<=^|[\t;,\n])"(?:[^"\t]|"")*"(?=[\t;,\n]|$)/g; // a cell in quotes, which may have lines of its own

/** Of a spreadsheet (tabs), a file with semicolons or commas, a table with bars, or one with columns by blanks. Quotes
 * may surround a cell. A comma parts cells only where there is no tab and no semicolon, and maybe in a table alone. */
export function cellsOf(pasted) {
  const text = pasted.replace(/\r\n?/g, "\n").replace(QUOTED, (cell) => cell.replace(/(?<=.)\s*\n\s*/gs, " "));
  const lines = text.split("\n").map((line) => (isRule(line) ? "" : line));
  while (lines.length > 1 && !lines.at(-1).trim()) lines.pop(); // empty lines, and no cell of the last one
  const by = hasBars(lines) ? "|" : text.includes("\t") ? "\t" : text.includes(";") ? ";" : hasCommaColumns(lines) ? ","
    : "\t";
  const isOf = by === "\t" && !text.includes(by) ? commaTable(lines) : () => false;
  const rows = lines.map((line, k) => splitLine(line, isOf(k) ? "," : by).map((cell) => cell.trim()));
  if (by === "|") return rowsOfBars(lines, rows);
  const isOpen = by === "\t" && !text.includes(by) && !lines.some((_, k) => isOf(k));
  return (isOpen && (byPlaces(lines) || byBlanks(lines))) || rows;
}

/** Whether a line is drawn by signs, as "-----": it says nothing. */
const isRule = (line) => line.length <= MOST_RULE && /^[ \-–—_=*~+]{3,}$/.test(line) && /([-–—_=*~])\1\1/.test(line);

const isBarred = (line) => /^\s*\|.*\|\s*$/.test(line);

/** Whether a bar is at both ends of each line, or as many with blanks around within each; lines without one may stand
 * above and below. */
function hasBars(lines) {
  const kept = lines.filter((line) => line.trim()), hasBar = (line) => line.includes("|");
  const all = kept.slice(kept.findIndex(hasBar), kept.findLastIndex(hasBar) + 1);
  const counts = new Set(all.map((line) => `${line} `.split(/\s\|\s/).length)), [count] = counts;
  return kept.some(hasBar) && all.length > 1 && (all.every(isBarred) || (counts.size === 1 && count > 1));
}

/** The cells between bars, without the line below the headings, and without the signs of bold letters. */
function rowsOfBars(lines, rows) {
  const isFramed = lines.every((line) => !line.includes("|") || isBarred(line));
  const isRule = (row) => row.some(Boolean) && row.every((cell) => /^(:?-+:?)?$/.test(cell));
  const plain = (cell) => cell.replace(/^(\*\*|__|`)(.+)\1$/, "$2");
  const own = (row) => (isFramed && row.length > 1 ? row.slice(1, -1) : row);
  return rows.map((row) => (isRule(row) ? [""] : own(row).map(plain)));
}

const SURNAMES = /^[^\d,"]+, \p{L}[^\d,]*\s\p{Sc}?\d[\d.,]*\D{0,4}$/u; // Rossi, Mario 120

/** A text with a number at its end that has a sign for no cents, as "120,-" and "120:-". */
export const OF_NO_CENTS = /\d[.,:/][-–—]{1,2}\D{0,9}$/u;
const MOST_OF = 5000; // letters of a line whose commas may be of its numbers

/** A comma between a name and a number, or between two points; and not the decimal comma of a lone column, the comma of
 * a number behind a colon, or the commas within the numbers of a mail. */
function hasCommaColumns(lines) {
  const isOf = (line) => line.length < MOST_OF && (
    /^[-−]?[\d\s.'’]*,\d+$|[:=]\s*[^,]{0,4}\d[\d,.]*\D{0,4}$|^[^"]*(\d,\d[^"]*,\s|,\s[^"]*\d,\d)/.test(line.trim())
    || [SURNAMES, OF_NO_CENTS].some((one) => one.test(line.trim())));
  const isWithin = (line) => /\p{L}/u.test(line) && !line.replace(/\d,(?=[\d–—-])/g, "").includes(",");
  const isCount = lines.length > 2 && lines.every((line, k) => line.startsWith(`${k + 1},`));
  const isNamed = [lines[0], lines.at(-1)].some((line) => /^[^\d,]*\p{L}(,[^\s,][^,]*)+$/u.test(line));
  const sizes = lines.map((line) => /^[1-9]\d*,(\d+)$/.exec(line)?.[1].length ?? 0), most = mostIn(sizes);
  const isPairs = lines.length > 1 && most > 3 && sizes.every((size) => size > 0) && sizes.some((size) => size < most);
  if (lines.length > 1 && lines.every((line) => line.trim() && !/\d/.test(line))) return false; // Rossi, Mario
  if (isCount || isNamed || isPairs) return lines.every((line) => line.includes(","));
  return lines.every((line) => line.includes(",") && !isOf(line)) && !lines.every(isWithin);
}

/** Which lines, by their places, are a table with commas below a title or above notes: the only ones without an empty
 * line between, headings and rows of as many cells, three or more. */
function commaTable(lines) {
  const runs = [], isHead = (line) => !/\d|,\s|,,|,$/.test(line) && /\p{L}/u.test(line);
  lines.forEach((line, k) => {
    if (!line.includes(",")) return;
    if (runs.at(-1)?.to === k - 1) runs.at(-1).to = k;
    else runs.push({ from: k, to: k });
  });
  const isTable = ({ from, to }) => {
    const [heads, ...below] = lines.slice(from, to + 1), wide = splitLine(heads, ",").length;
    return wide > 2 && below.length > 0 && isHead(heads)
      && below.every((line) => splitLine(line, ",").length === wide && /\d/.test(line));
  };
  const [found, other] = runs.filter(isTable), isWhole = found?.from === 0 && found.to === lines.length - 1;
  return found && !other && !isWhole ? (k) => k >= found.from && k <= found.to : () => false;
}

const mostIn = (numbers) => numbers.reduce((most, one) => Math.max(most, one), 0); // of however many
const MOST_WIDE = 2000; // letters of a line whose columns are where no line has a letter

/** Columns by blanks, as a PDF has them, parted where no line has a letter; lines without two blanks are texts of their
 * own. Null where there are no such. */
function byPlaces(lines) {
  const isTable = (line) => /\S\s{2,}\S/.test(line), table = lines.filter(isTable), starts = [];
  const wide = table.length > 1 ? mostIn(table.map(({ length }) => length)) : 0;
  if (wide > MOST_WIDE) return null;
  const isFree = (k) => table.every((line) => !(line[k] ?? "").trim());
  for (let k = 0; k < wide; k++) if (!isFree(k) && (!starts.length || (isFree(k - 1) && isFree(k - 2)))) starts.push(k);
  const cut = (line) => starts.map((start, c) => line.slice(c ? start : 0, starts[c + 1]).trim());
  const isCut = starts.length > 1 && table.every((line) => cut(line).every((cell) => !/\s{2}/.test(cell)));
  const byGaps = (line) => line.trim().split(/\s{2,}/), [head = ""] = table, count = byGaps(head).length;
  const isEven = table.length > 1 && !/\d/.test(head) && table.every((line) => byGaps(line).length === count);
  const cells = isCut ? cut : isEven && byGaps; // by places, or a cell for each heading
  return Boolean(cells) && lines.map((line) => (isTable(line) ? cells(line) : [line.trim()]));
}

const MOST_BLANKS = 60000; // letters of a table that blanks part
const COUNTED = /^[-–−]?\d+(?:[.,]\d+)?$|^(?:[-–x]|inf)$/i, OF_THOUSANDS = /^\d{1,3}(?:\s\d{3})+$/;

/** The cells of a table of numbers that single blanks part, as programs print it: as many in each line, three or more,
 * below a line of as many words or none. Null for other lines, and where the blanks may part thousands. */
function byBlanks(lines) {
  const kept = lines.map((line) => line.trim()).filter(Boolean);
  if (kept.length < 2 || kept.join("").length > MOST_BLANKS) return null;
  const rows = kept.map((line) => line.split(/\s+/)), wide = rows[0].length, isNumbers = (row) => row.every((text) => {
    return COUNTED.test(text);
  });
  const isHead = rows[0].every((text) => /^\p{L}[^\d,:;]*$/u.test(text)), below = rows.slice(isHead ? 1 : 0);
  const isTable = wide > 2 && below.length > 1 && rows.every((row) => row.length === wide) && below.every(isNumbers);
  return isTable && !kept.slice(-below.length).every((line) => OF_THOUSANDS.test(line)) ? rows : null;
}

function splitLine(line, by) {
  if (!line.includes('"')) return line.split(by);
  const cells = [];
  let cell = "", isQuoted = false, isBlank = true;
  for (let k = 0; k < line.length; k++) {
    const letter = line[k];
    if (letter === '"' && (isQuoted || isBlank)) {
      const isSign = isQuoted && line[k + 1] === '"';
      if (isSign) cell += line[(k += 1)];
      else isQuoted = !isQuoted;
      isBlank &&= !isSign;
    } else if (letter === by && !isQuoted) {
      cells.push(cell);
      [cell, isBlank] = ["", true];
    } else {
      cell += letter;
      isBlank &&= !letter.trim();
    }
  }
  return [...cells, cell];
}

/** The headings of pasted rows, or null: where numbers belong, from a column on, the first row has nothing but words,
 * and a row below it has a number; or no cell of it has, and a word stands above each column of numbers. */
export function headingsOf(rows, from, mark) {
  const [first = [], ...below] = rows, isNumber = (text) => !readNumber(text, mark).fault;
  const isWord = (text) => /[\p{L}\p{Sc}#%+]/u.test(text) && ![SPOILT, UNKNOWN, ABOUT].some((one) => one.test(text))
    && !isNumber(text);
  const isPlain = (cells) => cells.length > 0 && cells.every(isWord);
  const isHead = isPlain(first.slice(from).filter(Boolean))
    && below.some((row) => row.slice(from).filter(Boolean).some(isNumber));
  const columns = (below[0] ?? []).map((_, c) => c).filter((c) => {
    return below.filter((row) => isNumber(row[c] ?? "")).length * 2 > below.length;
  });
  const isWhole = columns.length > 0 && columns.every((c) => first[c]) && isPlain(first.filter(Boolean));
  return isHead || isWhole ? first : null;
}

/** What has to be told of pasted rows: which was taken as headings, what for what, and what was left out. `usual` are
 * the columns that go without saying. */
export function pastedText(rows, headings, targets, usual = targets) {
  const pairs = headings?.map((text, c) => targets[c] && `“${text}” is “${targets[c].title}”`).filter(Boolean);
  const beside = targets.map((own, c) => (own ? [] : rows.map((row) => row[c]).filter(Boolean)));
  const lost = beside.filter(([one]) => one).map(([one, more]) => `“${one}”${more ? " …" : ""} was left out.`);
  const out = headings?.filter((_, c) => !targets[c]).map((text) => `“${text}” was left out.`) ?? lost;
  const taken = targets.filter(Boolean), isUsual = taken.every((column, c) => column === usual[c]);
  return [
    ...(pairs ? [`The first row was taken as headings: ${pairs.join(", ")}.`] : []), ...out,
    ...(pairs || isUsual ? [] : [`Taken, in this order, as: ${taken.map(({ title }) => `“${title}”`).join(", ")}.`]),
  ].join(" ");
}
