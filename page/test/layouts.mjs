// Known cases in many layouts that people have, pasted into the grids: each is read as it is known, asked about
// so that one of the answers gives it, or not answered. The layouts are drawn: layouts.mjs [SEED [COUNT]].
import { caseNamed } from "../src/cases/cases.js";
import { masksBySize, membersOf } from "../src/game/groups.js";
import { readCase } from "../src/work/cases.js";
import { Desk, settled } from "./grids.mjs";

const [seed = 20261201, count = 3000] = process.argv.slice(2).map(Number), MOST_ASKED = 4;
const LEAST = 0.6; // of the layouts of each kind that are read, or asked about: a grid that refuses all is no help
let state = seed;
const draw = (most) => ((state = (Math.imul(state, 1103515245) + 12345) & 0x7fffffff) >> 8) % most;
const pick = (list) => list[draw(list.length)];

/** A case as a text, whatever the order of its players. */
function caseOf({ text, rows }) {
  if (!text) return JSON.stringify(rows);
  const { version, names = [], matrix, sparse, ...others } = JSON.parse(text).game, points = ["", ...names];
  const group = ([members, worth]) => `${[...members].sort()}: ${worth}`;
  const links = (row, i) => row.slice(i + 1).map((cost, k) => group([[points[i], points[i + 1 + k]], cost]));
  if (others.class === "tree") return JSON.stringify(matrix.flatMap(links).sort());
  return JSON.stringify(sparse ? sparse.map(group).sort() : { names, matrix, ...others });
}

/** What comes of a layout, by all ways through what is asked: read, wrong, or refused. */
async function judged({ id, cell, text, mark, wanted }) {
  const foundAt = ({ reading }) => reading.isRight && caseOf(reading), before = foundAt(new Desk(id, mark).read());
  const ways = [], go = async (path) => {
    const desk = new Desk(id, mark);
    await desk.paste(cell, text);
    for (const k of path) await settled(desk.read().answers[k].on.click({}));
    const { answers, said, ...now } = desk.read();
    const asked = [...answers.keys()].filter((k) => answers[k].textContent !== "Put it back"); // which is no question
    if (asked.length && path.length < MOST_ASKED) for (const k of asked) await go([...path, k]);
    else ways.push({ said, found: foundAt(now) });
  };
  await go([]).catch((fault) => ways.push({ said: "", found: fault.stack }));
  if (ways.some(({ found }) => found === wanted)) return "read";
  const wrong = ways.find(({ found, said }) => found && !(found === before && /othing was/.test(said)));
  return wrong ? `wrong: ${wrong.found}` : "refused";
}

const listed = (text) => text.split("|");
const NAMES = ["Rossi, Mario|Doe, Jane|Weiss, Eva", "Unit 7|Unit 12|Unit 3", "ann|Ann|BOB", "O'Brien|D’Angelo|L'Oréal",
  "J. R. Smith|A. Bell|E. Ng", "Total Energies|Smith & Sons|Note AG", "Anne-Marie|Søren|Peña"].map(listed);
const HEADS = {
  runway: ["Airline|Cost|Landings", "Fluggesellschaft|Kosten|Landungen", "Flygbolag|Kostnad|Landningar", "X1|Foo|Bar"],
  estate: ["Creditor|Claim", "Gläubiger|Forderung", "Créancier|Créance", "Acreedor|Crédito"],
  votes: ["Party|Seats", "Partei|Sitze", "Parti|Sièges", "Partido|Escaños", "Partij|Zetels", "Canton|Weight"],
  costs: ["Group|Cost", "Groupe|Coût", "Coalition|v(S)"], network: ["From|To|Cost", "Von|Nach|Kosten"], market: [],
};
const AMOUNTS = ["20.50|40|60", "1200.50|800.25|2999.50", "10|7|4", "1204|18500|3012"].map(listed);
const WORTHS = ["8|7.5|6|10|10.25|11.5|12", "8200|7500|6100|9400|9250|9500|12345"].map(listed);
const EXTRAS = { Remarks: "by phone||late", "%": "20 %|30 %|50 %", Date: "1.3.2026|2.3.2026|3.3.2026" };
/** What a layout may have instead of tabs, no headings, plain names and English numbers. */
const FEATURES = {
  separator: [";", "quoted", "markdown"], commas: [","], pdf: ["  "], mail: [" "], end: ["\r\n", "\t\n"], blank: [0, 9],
  first: ["Title 2026\n", "Title\t\t\n", "Title\n\n"], last: ["Source: offers", "\nas agreed in May"], turned: [true],
  mark: [","], thousands: [",", ".", "'", "\u202f", " "], own: [","], running: ["1", "1.", "#"], shape: [1, 2],
  unit: ["# €", "€ #", "# EUR", "$#", "# k€", "# m³", "# %"], code: ["EUR #"], sign: [" + ", " & ", " and ", "/", "{}"],
  sum: ["Total", "Sum", "Summe", "Gesamt", "Totaal"], sigma: ["Σ", "∑", "All", "Ensemble"], isLate: [true],
  names: NAMES, digits: ["1|2|3", "471|112|308"].map(listed), letters: [["X", "Y", "Z"]], extra: Object.keys(EXTRAS),
};
/** What is read wrongly yet, and so isn't drawn: each word that goes makes the test stricter. */
const OPEN = {
  runway: [], estate: [], votes: [], costs: ["digits"], network: ["letters"],
  market: ["digits", "shape", "sum", "sigma", "separator", "pdf", "mail", "blank", "running"],
};
const OFTEN = ["separator", "mark", "thousands", "names"];
const KEYS = { runway: ["cost", "count"], estate: ["claim"], votes: ["votes"] };
const sumOf = (numbers) => String(numbers.reduce((sum, one) => sum + Number(one), 0));

function spelled(number, { mark = ".", thousands = "", unit = "#", code = unit }) {
  const [whole, decimals] = number.split("."), by = thousands === mark ? "" : thousands;
  return code.replace("#", () => whole.replace(/(?=(\d{3})+$)(?!^)/g, by) + (decimals ? mark + decimals : ""));
}

/** By grids: the cell, the rows of a case, the sums of its columns, and what a person would have typed. */
const BODIES = {
  list(id, names, say) {
    const amounts = pick(AMOUNTS), columns = KEYS[id].map((key) => (key === "count" ? ["3", "2", "1"] : amounts));
    const told = (number, k) => (k ? number : say(number)), sums = columns.map((own, k) => told(sumOf(own), k));
    const rows = names.map((name, i) => [name, ...columns.map((own, k) => told(own[i], k))]);
    const typed = names.map((name, i) => ({ name, second: "", [KEYS[id][0]]: amounts[i], count: String(3 - i) }));
    return { cell: "rows.0.name", rows, sums, typed: { rows: typed } };
  },
  table(id, names, say, { sign = "+", turned }) {
    const worths = pick(WORTHS), masks = masksBySize(3), order = turned ? [...masks].sort() : masks;
    const numbers = ["", ...masks.map((_, k) => worths[masks.indexOf(k + 1)])];
    const join = (own) => (sign === "{}" ? `{${own.join(", ")}}` : own.join(sign));
    const rows = order.map((mask) => [join(membersOf(mask).map((i) => names[i])), say(numbers[mask])]);
    return { cell: "numbers.1", rows, typed: { names, numbers } };
  },
  network(id, names, say, { shape, turned }) {
    const points = ["Source", ...names], links = {}, costs = [...pick(WORTHS)], cell = "names.0";
    for (const key of ["0-1", "0-2", "0-3", "1-2", "1-3", "2-3"]) links[key] = costs.pop();
    const list = Object.keys(links).map((key) => [...key.split("-").map((i) => points[i]), say(links[key])]);
    if (!shape) return { cell, rows: turned ? list.reverse() : list, typed: { names, links } };
    const costOf = (i, j) => (i === j ? (shape === 3 ? "0" : "") : say(links[i < j ? `${i}-${j}` : `${j}-${i}`]));
    const rows = points.map((name, i) => [name, ...points.map((_, j) => (shape === 2 && i < j ? "" : costOf(i, j)))]);
    return { cell, heads: ["", ...points], rows, typed: { names, links } };
  },
  market(id, buyers, say, { shape = 0 }) {
    const sellers = listed(["house|flat", "1|2", "2024|2025"][shape % 3]), all = pick(WORTHS);
    const values = buyers.map((_, i) => [all[2 * i], all[2 * i + 1]]);
    const rows = buyers.map((name, i) => [name, ...values[i].map(say)]), heads = ["", ...sellers];
    const sums = [0, 1].map((j) => say(sumOf(values.map((row) => row[j])))), typed = { buyers, sellers, values };
    return { cell: "buyers.0", heads, rows, sums, typed };
  },
};
const BY = {
  quoted: (row) => row.map((cell) => `"${cell}"`).join(","), markdown: (row) => `| ${row.join(" | ")} |`,
  "  ": (row, wide) => row.map((cell, c) => cell.padEnd(wide[c] + 2)).join("").trimEnd(),
  " ": (row) => row.filter(Boolean).join(" "),
};

function layoutOf(id, names, is) {
  const own = BODIES[caseNamed(id).grid](id, names, (number) => spelled(number, is), is);
  const heads = own.heads ?? is.heading, more = (text) => (is.extra && KEYS[id] ? [text] : []);
  const sum = is.sigma ?? is.sum;
  const rows = own.rows.map((row, k) => [...row, ...more(listed(EXTRAS[is.extra] ?? "")[k % 3])]);
  if (sum && own.sums) rows.splice(is.isLate ? rows.length : 0, 0, [sum, ...own.sums, ...more("")]);
  const all = heads ? [[...heads, ...more(is.extra)], ...rows] : rows;
  if (is.turned && KEYS[id]) for (const row of all) row.reverse();
  const numberOf = (k) => (k ? is.running.replace(/1|#/, k) : is.running.replace(/1\.?/, ""));
  if (is.running) all.forEach((row, k) => row.unshift(numberOf(heads ? k : k + 1)));
  if (is.blank !== undefined) all.splice(is.blank, 0, all[0].map(() => ""));
  const { end = "\n", first = "", last = "" } = is, quoted = (cell) => `"${cell}"`;
  const separator = is.mail ?? is.pdf ?? is.commas ?? is.separator ?? "\t";
  const wide = all[0].map((_, c) => Math.max(...all.map((row) => row[c].length)));
  const plain = (row) => row.map((cell) => (cell.includes(separator) ? quoted(cell) : cell)).join(separator);
  const lines = all.map((row) => BY[separator]?.(row, wide) ?? plain(row));
  if (separator === "markdown") lines.splice(1, 0, `|${" --- |".repeat(wide.length)}`);
  const text = `${separator === "\t" ? first : first.replaceAll("\t", "")}${lines.join(end)}\n${last}`;
  const given = { id, typed: { estate: "1", quota: "1", ...own.typed }, mark: ".", measure: "plain", isMarked: true };
  return { id, cell: own.cell, text, mark: is.own ?? ".", wanted: caseOf(readCase(given)) };
}

const ids = Object.keys(HEADS), tally = Object.fromEntries(ids.map((id) => [id, { all: 0, read: 0, wrong: 0 }]));
for (let k = 0; k < count; k++) {
  const id = pick(ids), is = HEADS[id].length && draw(3) ? { heading: listed(pick(HEADS[id])) } : {};
  const keys = Object.keys(FEATURES).filter((key) => !OPEN[id].includes(key) && !draw(OFTEN.includes(key) ? 3 : 9));
  for (const key of keys) is[key] = pick(FEATURES[key]);
  if (is.digits) delete is.mail; // "10 471" is one number
  const names = is.letters ?? is.digits ?? is.names ?? ["Ann", "Bob", "Cleo"], layout = layoutOf(id, names, is);
  const { cell, text, wanted } = layout;
  const verdict = await judged(layout), own = tally[id];
  for (const word of ["all", verdict.split(":")[0]]) own[word] = (own[word] ?? 0) + 1;
  if (verdict.startsWith("wrong")) console.log(`${id}, ${cell}: ${JSON.stringify(text)} is ${verdict}, not ${wanted}`);
}
const told = ids.map((id) => `${id} ${tally[id].read} of ${tally[id].all} read, ${tally[id].wrong} wrong`);
console.log(`${count} layouts of known cases by the seed ${seed}: ${told.join("; ")}`);
process.exit(Object.values(tally).some(({ all, read, wrong }) => wrong || read < LEAST * all) ? 1 : 0);
