// Cases that are a list: a runway and an estate. Each row has a name and a number.
import { Rational } from "../exact/rational.js";
import { shortText, typedText } from "../exact/decimals.js";
import { LIMITS, mostOf } from "../game/classes.js";
import { shownName } from "../game/names.js";
import { askBelowSum } from "./below-sum.js";
import { labelsOf, landingsOf, rowsOfLandings } from "./landings.js";
import { ranksText } from "./ranks.js";
import { Reading } from "./reading.js";
import { bytesOf } from "../game/words.js";
import { askOfSum, isEmpty } from "./sum-row.js";
import { askOfTwice } from "./twice.js";
import { partsElsewhere } from "./used-parts.js";
import { askOfWhole, ESTATE, wholeIn } from "./whole-words.js";

// words in the headings of columns, in English, German and French
const MONEY = "\\b(?:eur|usd|gbp|chf)\\b|\\p{Sc}";
const COST = new RegExp("cost|need|price|fee|charge|amount|kosten|preis|betrag|gebühr|bedarf|co[uû]t|prix|montant|"
  + MONEY, "iu");
const heads = (words) => new RegExp(`^(?!.*(${COST.source})).*(${words})`, "iu"); // and no word of a cost
const CREDITOR = new RegExp("creditor|claimant|lender|party|name|\\bheirs?\\b|gläubiger|\\berben?\\b|schuldeis|"
  + "créancier|acreedor", "iu");
const CLAIM = new RegExp("claim(?!ant)|admitted|allowed\\b|(?:filed|lodged)(?! ?(?:on|\\(?da))|angemeldet|festgestellt|"
  + "anerkannt|admise?|amount|owed|debt|due\\b|forderung|betrag|schuld(?!n|eis)|créance|montant|"
  + "crédito|importe|importo|credito\\b|vordering|bedrag|" + MONEY, "iu");
const MOST_LANDINGS = mostOf("airport"), MOST_CLAIMS = mostOf("bankruptcy"), MOST_NAME = LIMITS["bytes of a name"];

const HOW_FAR = new RegExp("floor|stor(e?y|ies)|\\blevels?\\b(?! of)|etage|étage|stock|geschoss|\\bk?m\\b|met(re|er)|"
  + "length|depth|distance|until|mtow|weight|gewicht|sections?\\b|abschnitt|tronçon", "iu"); // no count of uses
// of costs that each come on top of those before
const STEPS = new RegExp("(?:this|each|the|per|every) (?:section|stage|step|stretch|segment|floor|storey)|increment"
  + "|additional|\\bextra|marginal|on top|zusätzlich|mehrkosten|mehrpreis|aufpreis|(?:dieser?|diesen|je|pro|des) "
  + "(?:abschnitts?|etage|stufe|stock)|supplément|incrément|(?:ce|par|du) tronçon|adicional", "iu");

export const runway = {
  id: "runway",
  refusal: (pasted) => partsElsewhere(pasted) ?? usesBehind(pasted),
  classes: ["airport"],
  title: "A runway",
  teaser: "Each user needs a part of it. It costs what the most demanding user needs.",
  unit: "use",
  grid: "list",
  mapNumbers: numbersMapped,
  columns: [
    {
      key: "name", title: "User", wide: true, placeholder: "User",
      heads: heads("airline|carrier|company|name|owner|tenant|users?\\b|nutzer|gesellschaft|eigentümer|mieter|"
        + "compagnie|transporteur|propriét|usager|utilisat|locataire|inquilin|usuari"),
      not: HOW_FAR,
    },
    { key: "type", title: "Type", optional: true, heads: heads("typ|aircraft|flugzeug|muster|avion|appareil") },
    { key: "cost", title: "Needs alone", number: true, heads: COST, steps: STEPS },
    {
      key: "count", title: "Uses", number: true, short: true, fallback: "1",
      heads: heads("landings|flights|movements|trips|\\b(uses|times)\\b|number|count|how (many|often)|landungen|flüge|"
        + "fahrten|nutzungen|anzahl|häufig|wie oft|atterri|vols|passages|mouvements|utilisations|nombre|combien|"
        + "landingen|aantal|liczba|lądow|aterriz|atterragg|pouso|vuelos|viajes|voli\\b|usos|número|numero"),
      not: HOW_FAR,
    },
  ],
  help: "One row for each user, such as an airline or a flat: what one use (a landing, a ride) needs alone, and "
    + "how many.",
  most: 500,
  example: () => ({
    rows: [
      { name: "Aer", cost: "20.50", count: "3" },
      { name: "Bee", cost: "40", count: "2" },
      { name: "Cargo", cost: "60", count: "1" },
    ],
  }),
  empty: () => ({ rows: [{ name: "", cost: "", count: "" }, { name: "", cost: "", count: "" }] }),

  read(state, mark) {
    const reading = new Reading(mark, state), kept = readLandings(state, reading);
    reading.remark([...new Set(kept.map(({ airline }) => airline))]);
    askOfSum(reading, state, ["cost", "count"]);
    faultOfGroups(reading, state);
    askOfTwice(reading, state);
    askOfOrder(reading, state);
    askOfSteps(reading, state, mark);
    askOfMerged(reading, state);
    reading.askOfEither(state);
    const all = kept.reduce((sum, { count }) => sum + count, 0);
    if (!kept.length && reading.isRight()) reading.open("rows.0.cost");
    if (all > MOST_LANDINGS) return { reading, rows: labelsOf(kept), tree: null, landings: kept };
    const { rows, names, costs } = landingsOf(kept, reading.opened);
    if (names.some((name) => bytesOf(name) > MOST_NAME)) {
      reading.fault("rows.0.name", `A name has at most ${MOST_NAME} letters, with the number of its use.`);
    }
    reading.close();
    const named = reading.named(names, state.rows.flatMap(({ name, type }) => [name, type]));
    return { reading, rows, tree: { class: "airport", ...reading.version, ...named, costs }, landings: kept };
  },

  fromGame: (game) => ({
    rows: rowsOfLandings(game).map(({ airline, type, cost, count }) => {
      return { name: airline, type, cost: typedText(cost), count: String(count) };
    }),
  }),
};

/** A row of which other rows are the members is a group, and no person. */
function faultOfGroups(reading, { rows }) {
  const names = rows.map(({ name = "" }) => name.trim()), r = names.findIndex((name) => {
    const members = name.split(/\s*(?:[+&,;]|\b(?:and|und|et|y|en)\b)\s*/u);
    return members.length > 1 && members.every((one) => one && names.includes(one));
  });
  if (r < 0) return;
  reading.fault(`rows.${r}.name`, `“${shownName(names[r])}” is a group of other rows. “Costs of each group” and “Gains `
    + "of each group” take groups.");
}

/** Costs that were pasted where landings belong make another runway, and look like one: if they came without headings
 * (`isUnordered`), and the landings of two rows or more all exceed all costs, or alone have decimals, it is asked. */
function askOfOrder(reading, state) {
  if (!state.isUnordered) return;
  const valueOf = (text) => reading.known(text ?? "").value;
  const kept = state.rows.filter((row) => valueOf(row.cost) && valueOf(row.count));
  const [costs, counts] = ["cost", "count"].map((key) => kept.map((row) => valueOf(row[key])));
  const isWhole = (value) => value.isWhole(), hasDecimals = (row) => /[.,]\d{1,2}\s*$/.test(row.count);
  const isOdd = kept.some(hasDecimals) && costs.every(isWhole);
  if (kept.length < 2 || !(isOdd || Rational.max(costs).less(Rational.min(counts)))) return;
  const [{ cost, count, name = "", type = "" }] = kept;
  reading.swap = { cost, count, name: shownName(name.trim() || type.trim() || "the first row") };
  reading.isOpen = true;
}

/** Rows with a type and without a user, below one that has both, may come from cells that a sheet has merged: then the
 * user stands there once. */
function askOfMerged(reading, { rows, isNamed }) {
  const has = (row, key) => Boolean(row?.[key]?.trim()), first = rows.findIndex((row) => has(row, "name"));
  const open = rows.map((_, r) => r).filter((r) => !has(rows[r], "name") && has(rows[r], "type"));
  if (!isNamed || !open.length || first < 0 || open[0] < first || !has(rows[first], "type")) return;
  let above;
  const names = rows.map((row, r) => {
    if (has(row, "name")) above = row.name;
    return open.includes(r) ? above : row.name;
  });
  reading.merged = { names, type: shownName(rows[open[0]].type.trim()), name: shownName(names[open[0]].trim()) };
}

const COUNT_BEHIND = /\d\D{0,20}\((\d[\d.,'’]{0,12} ?(?:[x×/]|\p{L})[^()]{0,30})\)[.;,]?$/u;

/** Why uses in brackets behind the costs can’t be taken: they would be lost. Undefined for another text. */
function usesBehind(pasted) {
  const found = pasted.map((row) => COUNT_BEHIND.exec((row.find(Boolean) ?? "").slice(-100))?.[1]).filter(Boolean);
  return found.length > 1 && pasted.every((row) => row.filter(Boolean).length < 2)
    ? `“${shownName(found[0])}” stands behind a cost, and looks like uses. Give each line the user, the cost and the `
      + "number of uses, with a tab or a semicolon between them." : undefined;
}

/** Costs below a heading that says that they come on top of those above, as “Cost of this section”, are no costs of all
 * that one use needs: it is asked, with the sums. */
function askOfSteps(reading, state, mark) {
  const kept = state.rows.filter((row) => !isEmpty(row));
  const values = kept.map(({ cost = "" }) => reading.known(cost).value);
  if (!state.steps || kept.length < 2 || !values.every(Boolean)) return;
  const sums = values.map((_, r) => typedText(Rational.sum(values.slice(0, r + 1)), mark));
  reading.steps = { head: state.steps, sums, name: shownName(kept[1].name?.trim() || kept[1].type?.trim() || "row 2") };
  reading.isOpen = true;
}

/** The rows that aren't empty, and have a cost and a number of landings: {airline, type, cost, count}. */
function readLandings(state, reading) {
  const kept = [], hasNames = state.rows.some(({ name = "" }) => name.trim());
  state.rows.forEach((row, r) => {
    if (isEmpty(row)) return;
    const text = (key) => reading.nameOf(row[key]);
    if (!text("name") && state.isNamed) reading.open(`rows.${r}.name`);
    const cost = reading.number(`rows.${r}.cost`, row.cost, "The cost");
    const count = reading.whole(`rows.${r}.count`, row.count, "The number of uses", 1, 999999999);
    const byType = !hasNames && text("type"); // without airlines each type is one
    const airline = byType || text("name") || `User ${r + 1}`, own = { airline, type: byType ? "" : text("type") };
    if (cost && count) kept.push({ ...own, cost, count });
  });
  return kept;
}

export const estate = {
  id: "estate",
  classes: ["bankruptcy"],
  title: "An estate or a bankruptcy",
  teaser: "The claims add up to more than there is.",
  unit: "claim",
  grid: "list",
  mapNumbers: numbersMapped,
  single: {
    key: "estate", title: "The estate", help: "what there is to divide", heads: ESTATE, lineOf: wholeIn,
    tells: ranksText,
  },
  columns: [
    { key: "name", title: "Who claims", wide: true, placeholder: "Claimant", heads: CREDITOR },
    { key: "claim", title: "Claim", number: true, heads: CLAIM },
  ],
  help: "One row for each claim. If some claims go first, take them off the estate and leave them out.",
  most: MOST_CLAIMS,
  example: () => ({
    estate: "2000",
    rows: [
      { name: "Adler", claim: "1200.50" },
      { name: "Brandt", claim: "800" },
      { name: "Chopra", claim: "2999.50" },
    ],
  }),
  empty: () => ({ estate: "", rows: [{ name: "", claim: "" }, { name: "", claim: "" }] }),

  read(state, mark) {
    const { reading, rows, names, named, values, cells } = readList(state, mark, "claim", "The claim", "Claimant");
    const isAsked = askBelowSum(reading, state) || askOfSum(reading, state, ["claim"]);
    if (!isAsked) reading.notes.push(...sumRow(names, values));
    askOfTwice(reading, state, ["claim"]);
    askOfWhole(reading, state);
    faultOfGroups(reading, state);
    const whole = reading.number("estate", state.estate, "The estate");
    reading.close();
    if (whole && reading.isRight() && Rational.sum(values).less(whole)) {
      const rest = shortText(whole.minus(Rational.sum(values)));
      const isPart = values.every((value) => !Rational.of(1).less(value)) && Rational.of(10).less(whole);
      reading.pause("So far the claims add to less than the estate. " + (isPart
        ? `If they are parts of it, write products, as 1/2 * ${shortText(whole)}.`
        : `If no others come, each gets its claim, ${rest} is left, and no rule is needed.`));
    }
    if (values.length > MOST_CLAIMS) {
      reading.fault(cells.at(-1), `These are ${values.length} claims, and the program takes ${MOST_CLAIMS}.`);
    }
    const claims = values.map((value) => value.toDocument());
    return {
      reading,
      rows,
      tree: { class: "bankruptcy", ...reading.version, ...named, estate: whole?.toDocument(), claims },
    };
  },

  fromGame: (game) => ({
    estate: typedText(game.single),
    rows: game.amounts.map((claim, i) => ({ name: game.named ? game.names[i] : "", claim: typedText(claim) })),
  }),
};

/** A last row that is the sum of all above it may have come with a sheet, and then is nobody's claim. */
function sumRow(names, values) {
  const last = values.length - 1, above = Rational.sum(values.slice(0, last));
  if (last < 2 || above.isZero() || !values[last].equals(above)) return [];
  return [`The last row, “${shownName(names[last])}”, claims exactly what all rows above it claim together. Is it `
    + "their sum? If so, remove it: it counts as a claim."];
}

/** Names and numbers of the rows that aren't empty; `named` are the names as the document has them. */
export function readList(state, mark, key, what, word) {
  const reading = new Reading(mark, state), values = [], cells = [];
  const kept = state.rows.map((row, r) => ({ row, r })).filter(({ row }) => !isEmpty(row));
  const names = reading.names(kept.map(({ row, r }) => ({ typed: row.name, cell: `rows.${r}.name` })), word,
    { isNamed: state.isNamed, isList: true });
  for (const { row, r } of kept) {
    const value = reading.number(`rows.${r}.${key}`, row[key], what);
    values.push(value ?? Rational.of(0));
    cells.push(`rows.${r}.${key}`);
  }
  if (!kept.length) reading.open(`rows.0.${key}`);
  const named = reading.named(names, kept.map(({ row }) => row.name));
  return { reading, rows: rowsOf(names), names, named, values, cells };
}

/** A row of the answer for each name. */
export function rowsOf(names) {
  return names.map((name, i) => ({ label: shownName(name), players: [i] }));
}

/** What was typed in a list with each number changed; the method of a kind that has one. */
export function numbersMapped(typed, change) {
  const keys = this.columns.filter(({ number, fallback }) => number && !fallback).map(({ key }) => key);
  const rows = typed.rows.map((row) => ({ ...row, ...Object.fromEntries(keys.map((key) => [key, change(row[key])])) }));
  return { ...typed, rows, ...(this.single ? { [this.single.key]: change(typed[this.single.key]) } : {}) };
}
