// Tables of an answer as lines of cells, to be copied or saved for a spreadsheet.
import { decimal, placesOf } from "../exact/decimals.js";
import { Rational } from "../exact/rational.js";
import { button, download } from "./dom.js";
import { withSum } from "./format.js";
import { todayTitle } from "./today.js";

/** Rows {label, sum} and points {title, totals}: a line for each row, with plain decimals and the exact fractions
 * beside them, and the sum. `beside` are the columns that the user put there: {title, texts, gone}. Who was there
 * before, and is `gone`, has a line, too. */
export function shareLines(rows, points, format, beside = []) {
  const gone = beside.find((one) => one.gone)?.gone ?? [], none = gone.map(() => "");
  const columns = points.flatMap(({ title, totals }) => {
    const texts = format.column(totals, rows), exact = totals.map(String), sum = String(Rational.sum(totals));
    return [[format.isMoved(totals, rows) ? `${title}, rounded to add up` : title, ...aboveSum(texts, none)],
      [`${title}, exact`, ...exact, ...none, sum]];
  });
  const own = beside.map((one) => [one.title, ...aboveSum(one.texts, one.gone?.map(({ text }) => text) ?? none)]);
  const left = gone.map(({ label }) => `${label} (gone since)`), names = rows.map(({ label }) => label);
  return ["", ...names, ...left, "together"].map((name, r) => [name, ...[...columns, ...own].map((one) => one[r])]);
}

/** Texts of which the last is the sum, with some more in front of that. */
const aboveSum = (texts, more) => [...texts.slice(0, -1), ...more, texts.at(-1)];

/** What the user put beside the `points`, as columns of a file: what each pays or has today, the kept answer by each
 * rule, and the own division. A row without a number is empty there, and so is a sum of such. */
export function besideLines(rows, points, { today, pinned, proposal, game }, format) {
  const shown = (value) => (value ? format.show(value) : ""), fine = (value) => value && fineText(value, format);
  const own = ({ values }) => {
    const sum = values.every(Boolean) ? Rational.sum(values.slice(0, rows.length)) : null;
    return [...values.slice(0, rows.length), sum].map((value) => fine(value) ?? "");
  };
  const kept = pinned?.pin ? points.flatMap(({ key, title }) => {
    const found = pinned.kept(key, format);
    if (!found) return [];
    const gone = found.gone.map(({ label, value }) => ({ label, text: shown(value) }));
    return [{ title: `Kept: ${title}`, texts: [...found.values, found.sum].map(shown), gone }];
  }) : [];
  return [
    ...(today?.texts?.some(Boolean) ? [{ title: todayTitle(game), texts: own(today) }] : []), ...kept,
    ...(proposal?.texts?.some(Boolean) ? [{ title: "Your proposal", texts: own(proposal) }] : []),
  ];
}

/** A typed number: with all its decimals, or as a fraction. */
function fineText(value, format) {
  const places = placesOf(value);
  if (places < 0) return String(value);
  return decimal(value, Math.max(places, format.places), { mark: format.mark, grouped: false });
}

/** What each airline pays for all its rows, as these are shown; none where each has one row. */
export function airlineLines(rows, points, format) {
  const airlines = [...new Set(rows.map(({ sum }) => sum))];
  if (airlines.length === rows.length || airlines.includes(undefined)) return [];
  const steps = points.map(({ totals }) => format.steps(totals, rows)), landings = rows.map(landingsIn);
  const lineOf = (name, own) => [name, String(own.reduce((sum, r) => sum + landings[r], 0)),
    ...steps.map((some) => format.text(withSum(own.map((r) => some[r])).at(-1)))];
  const all = rows.map((_, r) => r), ofAirline = (airline) => all.filter((r) => rows[r].sum === airline);
  return [
    ["User", "Uses", ...points.map(({ title }) => title)],
    ...airlines.map((airline) => lineOf(airline, ofAirline(airline))), lineOf("together", all),
  ];
}

/** How the numbers of a table are rounded: a line each, with a number that a spreadsheet reads. `coarse` is what was
 * done to the numbers of the game. */
export function roundingLines(points, { places, isExact }, { times, rounded } = {}) {
  const isRounded = points.some(({ totals }) => !totals.every(isExact));
  return [
    ...(isRounded ? [["Shares beside the exact ones are rounded to decimals", String(places)]] : []),
    ...(rounded ? [["The numbers of the game were rounded to decimals", "4"]] : []),
    ...(times ? [["All numbers are here times", times]] : []),
  ];
}

const landingsIn = ({ count, players }) => count ?? players.length;

const NUMBER = /^[-−+]?[\d\u202f]+([.,]\d+)?(\/\d+)?$/;
/** What some spreadsheet takes for a formula, also behind blanks. */
const FORMULA = /^[\s\u00a0]*[=+@\-−＝＋＠－]/;

/** A cell as programs read it: numbers without blanks; of a name only what isn't seen is left out, and in front of what
 * a spreadsheet would take for a formula stands a mark. A fraction has the sign ÷: 31/8 would become the 31st of
 * August, with blanks in it, too. */
function plain(text) {
  const seen = text.replace(/[\u2068\u2069\t\r\n]/g, "");
  if (NUMBER.test(seen)) return seen.replace(/\u202f/g, "").replace(/^−/, "-").replace("/", "÷");
  return FORMULA.test(seen) ? `'${seen}` : seen;
}

/** For pasting: tabs between the cells. */
export function tabbed(lines) {
  return `${lines.map((line) => line.map(plain).join("\t")).join("\n")}\n`;
}

/** As a file: with a comma in front of decimals semicolons stand between the cells. A text with any of the signs that
 * part cells somewhere is quoted, so that no spreadsheet reads a part of a name. Tables, each of lines, stand one below
 * the other. */
export function csvText(tables, mark) {
  const by = mark === "," ? ";" : ",", isOdd = (text) => text.includes(by) || /[",;]/.test(text) && !NUMBER.test(text);
  const cell = (text) => {
    const safe = plain(text);
    return isOdd(safe) ? `"${safe.replace(/"/g, '""')}"` : safe;
  };
  const texts = tables.filter(({ length }) => length).map((lines) => lines.map((line) => line.map(cell).join(by)));
  return `\ufeff${texts.map((lines) => `${lines.join("\r\n")}\r\n`).join("\r\n")}`;
}

/** `tables()` gives those that are saved under a name. */
export function csvButton(name, tables, { mark }) {
  return button("Save the table (CSV)", () => download(`${name}.csv`, csvText(tables(), mark), "text/csv"),
    { class: "quiet" });
}
