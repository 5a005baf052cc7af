// Numbers and lists as people type them, or other programs give them: what they are read as.
import { cellNumber, readNumber, shareTexts, thousandsIn, typedText } from "../src/exact/decimals.js";
import { Marks, spoken } from "../src/exact/marks.js";
import { estate, runway } from "../src/cases/lists.js";
import { networkOf } from "../src/cases/links.js";
import { cellsOf } from "../src/cases/pasting.js";
import { sheetOf } from "../src/cases/sheets.js";
import { costs, tableOf } from "../src/cases/tables.js";
import { votes } from "../src/cases/votes.js";
import { writtenAs } from "../src/exact/styles.js";
import { Rational } from "../src/exact/rational.js";
import { withThousands } from "../src/work/case-files.js";
import { fillSplits } from "../src/work/splits.js";
import { faultsOfMarkets, MARKETS } from "./prices.mjs";

const CASES = [
  ["12", ".", "12"], ["12.50", ".", "25/2"], ["12,50", ".", "25/2"], ["12,50", ",", "25/2"], ["1,234", ".", "1234"],
  ["1,234", ",", "617/500"], ["1.234", ",", "1234"], ["1.234", ".", "617/500"], ["1,234.50", ".", "2469/2"],
  ["1.234,50", ".", "2469/2"], ["1 234,50", ",", "2469/2"], ["1'234.50", ".", "2469/2"],
  ["1,234,567", ".", "1234567"], ["1.234.567", ",", "1234567"], ["1,23,4", ".", null], ["25/2", ".", "25/2"],
  ["50/4", ".", "25/2"], ["1/0", ".", null], ["-3", ".", "-3"], ["−3.5", ".", "-7/2"], ["(3.50)", ".", "-7/2"],
  ["1.250,-", ".", "1250"], ["1.250.-", ".", "1250"], ["12.5,-", ".", null], ["12,50,000/-", ",", "1250000"],
  ["€ 12.50", ".", "25/2"], ["12,50 €", ",", "25/2"], ["$1,234", ".", "1234"], ["0,125", ".", "1/8"],
  ["0.125", ",", "1/8"], [".5", ".", "1/2"], ["5.", ".", "5"], ["abc", ".", null], ["", ".", null],
  ["1e5", ".", "100000"], ["1e-05", ".", "1/100000"], ["2.5E+3", ",", "2500"], ["-1,25e-1", ".", "-1/8"],
  ["1e99", ".", null], ["e5", ".", null],
  ["1.5e", ".", null], ["5 3 2 10", ".", null], ["5 300", ".", "5300"],
  ["12 345 67", ".", null], ["1 000 000,50 €", ",", "2000001/2"], ["0.94 0.25", ".", null],
  ["12 %", ".", null], ["0,500", ",", "1/2"], ["1.2.3", ".", null], ["--1", ".", null],
  ["1,234,56", ".", null], ["12.345.67", ",", null], ["007", ".", "7"], ["1\u00a0234", ".", "1234"],
  ["1,5/2", ".", null], [".", ".", null], ["-", ".", null],
  ["12.000,50 EUR", ".", "24001/2"], ["USD 1,234.50", ".", "2469/2"], ["12 XYZ", ".", null], ["EUR", ".", null],
  ["12,34,567", ".", "1234567"], ["12,34,567.50", ",", "2469135/2"], ["12,34,56", ".", null], ["2*3", ".", null],
  ["31÷8", ".", "31/8"],
];

/** What a cell may work out. */
const WORKED = [
  ["27400*1.12", "30688"], ["4*2.5 + 0.25", "41/4"], ["=2+3", "5"], ["2 × 3 + 4 × 5", "26"], ["1e5", "100000"],
  ["1e+5", "100000"], ["2.5E+3", "2500"], ["27400*x", null], ["3+", null], ["*3", null], ["5 3 2", null],
  ["1/3*3", "1"], ["12.50", "25/2"], ["1.200*85,00", "102000"], ["85,00*1.200", "102000"], ["1.200*85.00", "102"],
];

/** The sign between thousands that a number shows, read with a mark. */
const THOUSANDS = [
  ["1.234", ",", "."], ["1.234", ".", null], ["1,234", ".", ","], ["1.234,50", ".", "."], ["1,234,567", ",", ","],
  ["1'234.50", ".", "’"], ["1’234", ".", "’"], ["1 234,50", ",", null], ["1234.567", ".", null], ["0.125", ",", null],
  ["12,34,567", ".", null], ["1234", ".", null], ["€ 12.000,50", ".", "."],
];

let faults = 0;
for (const [text, mark, wanted] of THOUSANDS) {
  const found = thousandsIn(text, readNumber(text, mark));
  if (found === wanted) continue;
  faults += 1;
  console.log(`${JSON.stringify(text)} with ${mark} shows ${found} between thousands, and not ${wanted}`);
}
for (const [text, mark, wanted] of CASES) {
  const { value, fault } = readNumber(text, mark), found = value ? String(value) : null;
  if (found === wanted) continue;
  faults += 1;
  console.log(`${JSON.stringify(text)} with ${mark} is read as ${found ?? fault}, and not ${wanted}`);
}

for (const [text, wanted] of WORKED) {
  const { value } = cellNumber(text, "."), found = value ? String(value) : null;
  if (found === wanted) continue;
  faults += 1;
  console.log(`a cell with ${JSON.stringify(text)} is read as ${found}, and not ${wanted}`);
}

// what is written for a value is read as that value by either mark
const VALUES = ["1708/1000", "-1708/1000", "999999/1000", "1/8", "12", "1234", "1/3", "17081/10000", "5/2", "1001"];
for (const text of VALUES) {
  for (const [mark, other] of [[".", ","], [",", "."], [".", "."], [",", ","]]) {
    const written = typedText(Rational.of(text), mark), { value, doubt } = readNumber(written, other);
    if (value.equals(Rational.of(text)) && !doubt) continue;
    faults += 1;
    console.log(`${text} is written as ${written}, and read with ${other} as ${value}`);
  }
}
// numbers that are written as others beside them are
const STYLES = [
  [["16,100.00", "2,000.50"], "630 6305/10 16100", "630.00 630.50 16,100.00"],
  [["480", "150"], "16100 1/2", "16100 0.5"],
  [["48.000,00 €", "9,50 €"], "16100 1/3", "16.100,00 € 1/3"], [["1 480", "150"], "16100 63", "16 100 63"],
  [["48,000", "21,000"], "69000 630", "69000 630"], [["1,234,567", "2,000"], "69000", "69000"],
];
for (const [texts, values, wanted] of STYLES) {
  const found = writtenAs(values.split(" ").map((one) => Rational.of(one)), texts, ".").join(" ");
  if (found === wanted) continue;
  faults += 1;
  console.log(`${values} as ${texts} is written as ${found}, and not ${wanted}`);
}

// lists of a whole table: the numbers in the order of the masks, or a part of the refusal
const LISTS = [
  ["5 3 2 10 9 6 16", "5 3 10 2 9 6 16"], ["5,3,2,10,9,6,16", "5 3 10 2 9 6 16"], ["5;3;9", "5 3 9"],
  ["5\t3\t2\t10\t9\t6\t16", "5 3 10 2 9 6 16"], ["c(0.94, 0.5, 1e-3)", "0.94 0.5 1e-3"], ["0 5 3 9", "5 3 9"],
  ["[1] 5 3 2 10\n[5] 9 6 16", "5 3 10 2 9 6 16"], ["0,5;0;2,25", "0,5 0 2,25"], ["1,5\n2,5\n4,5", "1,5 2,5 4,5"],
  ["1 234,50\n3\n2 000", "1 234,50 3 2 000"], ["(3.50)\n4\n-1", "(3.50) 4 -1"], ["A;3\nB;4\nA+B;5", "3 4 5"],
  ["Group\tCost\nA\t3\nB\t4\nA+B\t5", "3 4 5"], ["1,2,3\n4,5,6", /2 rows of 3 numbers/], ["1 2 3 4", /4 numbers alone/],
  ["A\t3\t7\nB\t4\t7", "3, 4 …?7, 7 …"], ["NA\n2\n3", /“NA” is no number/],
  ["v1,v2,v3\n1,2,3\n4,5,6", /2 rows of 3 numbers, so 2 games/], ["A;B;A+B\n1;2;3\n4;5;6", /so 2 games/],
  ['"","A","B","AB"\n"1",1,2,4\n"2",3,4,8', /2 rows of 3 numbers, so 2 games/], ["x y z\n1 2 3\n4 5 6", /so 2 games/],
  ['"","group","cost"\n"1","A",3\n"2","B",4\n"3","A+B",5', "3 4 5"], ['"","x"\n"1",3\n"2",4\n"3",5', "3 4 5"],
  ["Group;Cost\n1;5\n2;3", "5 3 "], ["Costs, 3 March\n\nA\t3\nB\t4\nA+B\t5\n\nwithout VAT", "3 4 5"],
  ["Who\tOffer\tRemark\nA\t3 €\t\nB\t?\tby phone\nA, B\t5 €\t", "3 €  5 €"],
  ["A\t3\tx\nB\t4\t\nA+B\t5\t", /Line 1: .* is more: “A; 3/],
  ["Who\tOffer\tLast\nA\t3\t2\nB\t4\t4\nA+B\t5\t6", "Offer?Last"],
  ["Costs 2026\t\n\nA\t3\nB\tn/a\nA+B\t5", "3  5"], ["Costs 2026\nA\t3\nB\t4\nA+B\t5", "3 4 5"],
  ["\nOffers\n\nA\t3 €\nB\t4 €\nC\t5 €\tx", /Line 6: A line has a group and its number/],
  ["A\t\nB\t3\nA+B\t5", " 3 5"], ["A\tn/a\nB\t3\nA+B\t5", " 3 5"],
  ["1\t8\n2\t7\n1+2\t10", "8 7 10"], ["{1,2}\t10\n{1}\t8\n{2}\t7", "8 7 10"],
  ["A: 8\nB: 7.5\nA and B: 1,250.00", "8 7.5 1,250.00"], ["A+B  10\nA    8\nB    7", "8 7 10"],
  ["| Who | Cost |\n|---|:-:|\n| A | 8 |\n| B | 7 |\n| A+B | 10 |", "8 7 10"], ["A - 8\nB - 7", /part “A - 8”/],
  ["A: 8 (old offer)\nB: 7;\nA+B: 10.", "8 7 10"],
  ["A: 8\nB: 7\nTel: 044123456", /part “Tel/], ["A: 8 votes\nB: 7 votes\nA+B: 10 votes", "8 7 10"],
  ["A 8 %\nB 7 %\nA+B 10 %", "8 7 10"],
  ["Hello,\nhere they are:\nA: 8 %\nB: 7%\nall: 10 %\nBest regards\nSabine", "8 7 10"],
  ["> A: 8 (offer of 3 May)\n> B: 7\n> A+B: 10", "8 7 10"],
  ["A\tB\tC\n0\t0\t0\n1\t0\t8\n0\t1\t7\n1\t1\t9", "8 7 9"], ["A\tB\tC\nx\t\t8\n\tx\t7\nx\tx\t9", "8 7 9"],
  ["A\tB\tC\nx\t\t8\n\tx\t7\nAll\t\t9", /Line 3: .* without/], ["A\t8\nB\t7\nAB\t10", "8 7 10"],
  ["{A}\t8\nv({B})\t7\n{A, B}\t10", "8 7 10"],
  ["∅\t0\nA\t8\nB\t7\nA+B\t10", "8 7 10"], ["A\t8\nB\t7\nA+B\t10\nTotal\t25", "Total 2"],
  ["A\t8\nB\t7\nC\t1\nA+B\t2\nA+C\t3\nB+C\t4\nWszyscy\t9", "Wszyscy 3"], ["A\t8\nB\t7\nToutes\t9", "8 7 9"],
  ["1\tA\t8\n2\tB\t7\n3\tA+B\t10", "8 7 10"], ["8\tA\n7\tB\n9\tA+B", "8 7 9"],
  ["Costs 2026\n\n8\n\n6\n8\n10\n6\n12", /6 numbers alone|is no number/],
  ["[".repeat(100000) + "1", "1"], ["[(3.50), [4], -1]", "3.50 4 -1"],
  // a sum of the lines of one player each isn't what all pay together, until somebody says so
  ["A\t8\nB\t7\nSumme\t15", "Summe 2 sum"], ["A\t1.200\nB\t1.300,50\nTotal:\t2.500,50", "Total: 2 sum"],
  ["A\t8\nB\t7\nSumme\t15", "8 7 15", { Summe: "all" }],
  ["A\t8\nB\t7\nSumme\t15", "8 7 ", { Summe: "out" }],
  ["A\t8\nB\t7\nC\t5\nA+B\t9\nTotal\t20", "Total 3 sum"], ["A\t8\nB\t?\nTotal\t8", "8  8"],
  ["A\t8\nB\t7\nTotal\t12", "8 7 12"], ["A\t8\nB\t7\nAll\t15", "8 7 15"],
];
for (const [text, wanted, roles] of LISTS) {
  const { state, fault, asked, players, isSum, columns } = tableOf(text, [], "size", ".", { roles });
  const which = columns?.map(({ title }) => title).join("?");
  const found = fault ?? which ?? (asked ? `${asked} ${players.length}${isSum ? " sum" : ""}`
    : state.numbers.slice(1).join(" "));
  if (wanted instanceof RegExp ? wanted.test(found) : wanted === found) continue;
  faults += 1;
  console.log(`the list ${JSON.stringify(text.slice(0, 80))} is read as ${found}, and not ${wanted}`);
}

// rows that are pasted into a runway: the columns of the first row by their keys where it is one of headings, and else
// nothing; and what is told of them
const AS_HEADINGS = "The first row was taken as headings: “Airline” is “User”, ";
const PASTED = [
  ["Airline\tCost\tLandings\nAer\t20.50\t3", "name cost count", /“Cost” is “Needs alone”, “Landings” is/],
  ["Airline,Landings,Cost\nAer,3,20.50", "name count cost", `${AS_HEADINGS}“Landings” is “Uses”, `
    + "“Cost” is “Needs alone”."],
  ["Airline\tA landing needs alone\tLandings\nAer\t20\t3", "name cost count", /^The first/],
  ["Airline\tCost per landing\tNumber of landings\nAer\t20\t3", "name cost count", /^The first/],
  ["Airline\tType\tLandings\t€\nAer\tA320\t3\t20.50", "name type count cost", /“Type” is “Type”, “Landings”/],
  ["Airline\tLand\tLandings\t€\nAer\t12\t3\t20.50", "name - count cost", /“Land” was left out/],
  ["Airline\tAlso\tType\tLandings\t€\nAer\tx\tA320\t3\t20.50", "name - type count cost", /“Also” was left out/],
  ["Fluggesellschaft;Typ;Landungen;Kosten der Piste\nAer;DH8;5;2.400.000,00", "name type count cost", /“Typ” is/],
  ["Kosten der Piste;Landungen;Typ;Airline\n20;5;DH8;Aer", "cost count type name", /“Landungen” is “Uses”/],
  ["Compagnie;Type d’avion;Atterrissages;Coût\nAer;DH8;5;20", "name type count cost", /“Coût” is “Needs alone/],
  ["A;B;C;D\nAer;DH8;5;20", "", "name: 0 1"],
  ["A;B;C\nAer;5;20,50", "name count cost", /“B” is “Uses”/],
  ["Aer;DH8;5;2400\nBee;738;12;2600", "", "Taken, in this order, as: “User”, “Type”, “Needs alone”, "
    + "“Uses”."],
  ["Aer;DH8;20.5;3\nBee;738;30;4", "", /“Type”, “Needs alone”, “Uses”.$/],
  ["Aer;3;20.5\nBee;4;30", "", /“User”, “Uses”, “Needs alone”.$/],
  ["Aer;DH8;20\nBee;738;30", "", /“User”, “Type”, “Needs alone”.$/],
  ["Who\tEUR\tHow often\nAer\t20\t3", "name cost count", /“How often” is “Uses”/],
  ...["", "20.5 EUR", "20,5,0", "12O", "n/a", "NaN", "#REF!", "#N/A", "-", "x"].flatMap((cost) => [
    [`Aer\t${cost}\t3\nBee\t40\t2\nCargo\t60\t1`, "", ""],
    ...(cost === "x" ? [] : [[`Aer\t${cost}\nBee\t40\nCargo\t60`, "", ""]]),
  ]),
  ["Aer\tx\nBee\t40", "name cost", "The first row was taken as headings: “Aer” is “User”, “x” is “Needs "
    + "alone”."],
  ["Aer\t20\t3\tA320\nBee\t40\t2\t", "", /“User”, “Needs alone”, “Uses”, “Type”.$/],
  ["Aer\tx\t20\t3\tA320\nBee\tx\t40\t2\t", "", /^These rows have 5 cells, .* all with their headings/],
  ["Craft type\tLandings\tNeeded (m)\tCost (€)\nDo\t1,204\t900\t€ 1,150\nE190\t845\t1,700\t€ 2,450", "", "cost: 2 3"],
  ["Landings 2025\t\t\n\t\t\nType\tLandings\tCost\nE190\t845\t20.50\n\t\t\nSource: log\t\t", "type count cost",
    /^Left out, as no number stands beside: “Landings 2025”, “Source: log”\. The first row was taken/],
  ["As agreed\n\nAer 20.50\nBee 40\n\nYours, Eve", "", /^Left out, .* “As agreed”, “Yours, Eve”\.$/],
  ["Aer\nBee 40\nCargo 60", "", ""], ["Flight\tCost\tMore\n471\t20\t5", "", "name: 0 2"],
  ["Naam\tKosten\nJan\t€ 1.250,-\nDe Boer\t€ 2.400,-\nTotaal\t€ 3.650,-", "name cost", /“Kosten” is “Needs alone/],
  ["Interno\tCondomino\tCosto\tNote\n1\tRossi, Mario\t€ 4.500,00\tpiano 1", "", "name: 1 3"],
  ["Airline\tLead\t%\tLandings\t+/–\nAer\tx\t20\t3\t9", "", "cost: 2 4"],
  ["Airline\tCost\tWeight\tLandings\tSlots\nAer\t20\t7\t3\t9", "name cost - count -", /“Weight” was left out. “Slots”/],
  ["Aer\t20\t3\t\nBee\t40\t2\t", "", ""], ["Aer\nBee", "", ""], ["Aer\tx\nBee\ty", "", /“User”, “Type”.$/],
];
const placesOf = ({ asked }) => asked && (asked.heads ? `heads: ${asked.heads}`
  : `${asked.column.key}: ${asked.at.map(({ c }) => c).join(" ")}`);
for (const [text, wanted, told] of PASTED) {
  const usual = runway.columns.filter(({ optional }) => !optional);
  const sheet = sheetOf(cellsOf(text), runway.columns, { mark: ".", usual, isHead: true });
  const found = sheet.headings ? sheet.targets.map((column) => column?.key ?? "-").join(" ") : "";
  const said = sheet.fault ?? placesOf(sheet) ?? sheet.notes.join(" ");
  if (found === wanted && (told instanceof RegExp ? told.test(said) : told === said)) continue;
  faults += 1;
  console.log(`${JSON.stringify(text)}: headings ${JSON.stringify(found)}, and it is told: ${said}`);
}

// the estate is a row of its own name, and no creditor's; what words say in any language; and each column that several
// could be is asked about, and so are numbers that may be names
const LOOSE = /^Names and numbers stand in one cell each.* or leave that line out\.$/;
const sheets = [
  [estate, "Creditor\tClaim\nEstate of Ann\t5\nBob\t7", {}, "2 rows: name claim"],
  [estate, "Who\tClaim\nAnn\t5\nMasse:\t3", {}, "3"],
  [runway, "Airline\tCost\tFee\tLandings\tFlights\nAer\t1\t2\t3\t4", {}, "cost: 1 2"],
  [runway, "Airline\tCost\tFee\tLandings\tFlights\nAer\t1\t2\t3\t4", { out: [2] }, "count: 3 4"],
  [estate, "Fordringsägare\tBelopp\nAnn\t400\nBo\t-", {}, "2 rows: name claim"],
  [estate, "Сумма 2024\tКредитор\n400\tАнна\n300\tБорис", {}, "2 rows: claim name"],
  [estate, "400\tAnn\n300\tBo", {}, "2 rows: claim name"],
  [estate, "1\tAnn\t40\n2\tBo\t30", {}, "2 rows: name claim"],
  [estate, "Lp.\tWierzyciel\tKwota\n17\tAnn\t400\n18\tBo\t300", {}, "2 rows: - name claim"],
  [estate, "Vem\tBelopp\tRänta\nAnn\t400\t3\nBo\t300\t4", {}, "claim: 1 2"],
  [estate, "Ort\tVem\tBelopp\nX\tAnn\t400\nX\tBo\t300", {}, "name: 0 1"],
  [estate, "101\t400\n102\t300", {}, "name: 0 1"],
  [estate, "Flat\tClaim\n101\t400\n102\t300", {}, "2 rows: name claim"],
  [estate, "101\t400\n102\t300", { choice: { name: 1 } }, "2 rows: claim name"],
  [estate, "Belopp\n400\n300", {}, "name: 0"], [estate, "Belopp\n400\n300", { choice: { name: -1 } }, "2 rows: claim"],
  [runway, "Flygbolag\tKostnad\tAntal\nAnn\t400\t3\nBo\t300\t2", {}, "cost: 1 2"],
  [votes, "Ann\t10\nBob\t7\nNeeded\t12", {}, "12"], [votes, "Ann\t10\nBob\t7\nMehrheit:\t11", {}, "11"],
  [votes, "Ann\t10\nBob\t7\nVotes needed for a majority\t9", {}, "9"],
  [votes, "Ann\t10\nBob\t7\nTwo-thirds majority\t12", {}, "12"],
  [votes, "Partei\tSitze\nCDU\t17\nSPD\t13\nFDP\t5\n\nQuorum: 2/3 der Sitze", {}, "2/3 der Sitze"],
  [votes, "Ann\t10\nBob\t7\nQuota\t12\t60 %", {}, "Leave one number beside “Quota”."],
  [votes, "Ann\t10\nQuota\t9\nMajority\t6", {}, "Leave one of the rows “Quota” and “Majority”."],
  [votes, "Shareholder\tShares\n471\t10\n112\t7", {}, "2 rows: name votes"],
  [votes, "101: 10\n102: 7\n103: 5", {}, "name: 0 1"],
  [votes, "Club\tMembers\nTennis\t120\nJudo\t85\nChess\t45", {}, "3 rows: name votes"],
  [votes, "Partij\tZetels\tShare\nAnn\t10\t0.2\nBo\t7\t0.8", {}, "votes: 1 2"],
  [runway, "Flygbolag\tKostnad\tAntal\nAnn\t400\t3\nBo\t300\t2", { choice: { cost: 1 } }, "count: 2"],
  // lines of mails and PDFs: the cells, or refused
  ...[["Ann: 1,250.00\nBo: 2,000.50", "Ann|1,250.00;Bo|2,000.50"], ["- Ann: €12\n- Bo: 8", "Ann|€12;Bo|8"],
    ["Ann 12,50\nBo 8,75", "Ann|12,50;Bo|8,75"], ["Ann 12,000\nBo 1,500", "Ann|12,000;Bo|1,500"],
    ["Roe, Ann 12,50\nDoe, Bo 8,75", "Roe, Ann|12,50;Doe, Bo|8,75"], ["Name,Owed\nNo 7,12\nNo 8,5", "No 7|12;No 8|5"],
    ["Ann (wages, 3 months): 1 200 EUR\nBo: 800 EUR", "Ann (wages, 3 months)|1 200 EUR;Bo|800 EUR"],
    ["Ann   40.00\nPage 2\nBo    60.00", "Ann|40.00;Bo|60.00"], ["Ann 40\n- 2 / 3 -\nBo 60", LOOSE],
    ["Roll 2026\n\nAnn 10\nBo 7", "Ann|10;Bo|7"],
    ["Please pay Ann 40 and Bob 60, thanks", /^This is one sentence\. Give each a line/],
    ...["Flat 3 250\nShop 7 300", "Ann 12 000 €\nBo 1 500 €", "North Hill 1 200\nSouth Bay 800", "Ann:10:3\nBo:7:2",
      "Roll 2026\nAnn 10\nBo 7", "1 EUR 20\n2 EUR 30", "Ann,EUR 10\nBo,EUR 7\nNote: all",
      "Title\n\nAnn,1 204\nBo,18 500",
      "1 20.50 Unit 7\n2 40 Unit 12", "Roll        Page 1\n1  Ann  40\n2  Bo   60"].map((text) => [text, LOOSE]),
  ].map(([text, wanted]) => [estate, text, {}, wanted]),
  ...[["Ann\tdisputed\nBo\t8", "heads: Ann; disputed"], ["X\tY\n71\t8\n72\t9", "name: 0 1"],
    ["Ann\tca. 12\nBo\t8", "2 rows: name claim"],
    ["Who\tClaim\nBo\t8", "1 rows: name claim"], ["Ann\tEUR 9\nBo\tEUR 8", "2 rows: name claim"],
    ["Creditor\tClaim\tOpen\nAnn\t12\t10\nBo\t28\t8", "2 rows: name claim -"],
    ["Party\t2021\nAnn\t10\nBo\t7", "2 rows: name claim"], ["71\t10 Mio. €\n72\t7 Mio. €", "name: 0"],
    ["Creditor\tAnn\tBo\nClaim\t10\t28", /^Here names stand side by side/], ["Ann\tBo\tCy\n1\t2\t4", /^Here names/],
    ['Creditor\t"Claim\n(EUR)"\n"Roe\nAnn"\t12\nBo\t8', "Roe Ann|12;Bo|8"], ['"Bo\t5\nAl\t9"', "2 rows: name claim"],
    ["40 Ann\n60 Bo", LOOSE], ["Ann 50 (5%)\nBo 40 (4%)", LOOSE], ["Unit 7\nUnit 12", "2 rows: name"],
    ["1 Ann\n2 Bo", "2 rows: name"], ["A320\nB737", "2 rows: name"],
    ["Net assets\t5\nAnn\t8\nBo\t9", "5"], ["To distribute\t5\nAnn\t8\nBo\t9", "5"],
    ["Estate\t5\nAnn\t8\nAssets\t9", "Leave one of the rows “Estate” and “Assets”."],
    [`Ann\n${"as agreed ".repeat(9)}\nBo`, /^“as agreed .*” is no name, and no row of names and numbers\. Give each/],
  ].map(([text, wanted]) => [estate, text, { isHead: undefined }, wanted]),
  [runway, "Flat\tFloor\tCost\nAnn\t1\t18\nBo\t2\t26", {}, "2 rows: name - cost"],
  [votes, "Canton;Weight;Remarks\n471;12;by phone\n112;8;\n308;9;late", {}, "name: 0 2"],
  [estate, "All,9999\n1,1204\n2,185", {}, "name: 0 1"],
  [estate, "Code,Owed\n471,1204\n112,185", {}, "2 rows: name claim"],
  [runway, "Ann 1200 k€ 3\nBo 800 k€ 2", {}, LOOSE], [runway, "3 20.50 Unit 7\n2 40 Unit 12", {}, LOOSE],
  [runway, "# Airline Cost Landings\n1 Ann 20 3\n2 Bo 30 4", {}, "2 rows: name cost count"],
  [estate, "1,10\n2,7\n3,4", {}, "name: 0 1"], [runway, "Ann EUR 20 3\nBo EUR 40 2", {}, LOOSE],
  [runway, "Who\tFoo\tBar\tMore\nA\t20.5\t3\tby phone\nB\t40\t2\tx\nC\t4\t2\t", {}, "name: 0 3"],
  [runway, "A\t20\t3\tby phone\nB\t40\t2\t\nC\t50\t1\tlate", {}, /^3 rows: name cost count -$/],
  [runway, "Ann   20.50  3\nBo    40     2\nNote: all", {}, "Ann|20.50|3;Bo|40|2"],
  [runway, "Ann 20.50 3\nBo 40 2", {}, "Ann|20.50|3;Bo|40|2"], [runway, "Ann 20 € 3\nBo 8 € 2", {}, LOOSE],
];
for (const [kind, text, said, wanted] of sheets) {
  const found = sheetOf(cellsOf(text), kind.columns, { mark: ".", single: kind.single, isHead: true, ...said });
  const keys = found.targets?.map((column) => column?.key ?? "-").join(" ");
  const told = found.fault ?? placesOf(found) ?? found.number ?? `${found.rows.length} rows: ${keys}`;
  const cells = found.rows?.map((row) => row.join("|")).join(";");
  if (wanted instanceof RegExp ? wanted.test(told) : [told, cells].includes(wanted)) continue;
  faults += 1;
  console.log(`${JSON.stringify(text)}: found ${told}, and not ${wanted}`);
}

// what is pasted as a network: its points, and its links; or a part of what is told
const HALF = "Hub\t\t\t\nX\t10\t\t\nY\t12\t5\t", [OF_X, HUB] = ["0-1:10 0-2:12 1-2:5", "Hub,X,Y;0-1:10 0-2:12 1-2:5"];
const NETWORKS = [
  ["From\tTo\tCost\n0\t1\t10\n0\t2\t12\n1\t2\t5", `0,1,2;${OF_X}`],
  ["\tHub\tX\tY\nHub\t\t10\t12\nX\t10\t\t5\nY\t12\t5\t", HUB],
  ["\t9\t7\t8\n9\t0\t10\t12\n7\t10\t0\t5\n8\t12\t5\t0", `9,7,8;${OF_X}`], [`${HALF}\nSumme\t22\t5\t`, HUB],
  ["\tHub\tX\tY\tΣ\nHub\t\t10\t12\t22\nX\t10\t\t5\t15\nY\t12\t5\t\t17", HUB],
  [HALF.replace("\nY", "\n\t\t\t\nY"), HUB],
  ["Link\tCost\nHub-X\t10\nHub-Y\t12\nX-Y\t5", HUB],
  ["Hub to X: 10\nHub to Y: 12\nX to Y: 5", HUB],
  ["Link\tCost\tPipe\nHub–X\t10\tP1\nHub–Y\t12\tP2", /^This is no list/],
  ["From To Cost\nHub X 10\nHub Y 12", /^This is/],
  ["Anne-Marie\t10\nJean-Luc\t12\nKarl-Otto\t14", /^This is no/],
  ["\tHub\t7\t8\nHub\t\t10\t12\n7\t10\t\t5\n8\t12\t5\t", `Hub,7,8;${OF_X}`],
  ["From\tTo\tCost\nHub\tX\t10\nHub\tY\t12\nX\tY\t5\nSource: offers", HUB],
  ["\t\t\n\tFrom\tTo\tCost\n\tHub\tX\t10", "Hub,X;0-1:10"],
  ["Van\tNaar\tLengte\tKosten\nHub\tX\t48\t10\nHub\tY\t9\t12\nX\tY\t7\t5", HUB], ["1\n2\t3", "null"],
  ["           Hub  X   Y\nHub             10  12\nX                   5\nY", HUB],
];
for (const [text, wanted] of NETWORKS) {
  const { fault, points, links = {} } = networkOf(cellsOf(text)) ?? { fault: "null" };
  const found = fault ?? `${points};${Object.entries(links).map((link) => link.join(":")).sort().join(" ")}`;
  if (wanted instanceof RegExp ? wanted.test(found) : wanted === found) continue;
  faults += 1;
  console.log(`the network ${JSON.stringify(text)} is read as ${found}, and not ${wanted}`);
}

// what is said of the claims on an estate of 1000, as long as there is no answer
const CLAIMS = [
  ["Ann 12", "Bo (40)", /^The claim can’t be negative: “\(40\)” is −40\.$/],
  ["Ann -", "Bo 4", /“-”\. Write 0, or remove it\.$/],
  ["Ann 03/12", "Bo 4", /^The claim looks like a date: “03\/12”\.$/], ["Ann 1/2", "Bo 2/3", /as 1\/2 \* 1000\.$/],
  ["Ann 25 %", "Bo 4", /“25 %”\. Write the amount, or a product such as 1\/4 \* 1000\.$/],
  ["Ann 5", "Bo 6", "Ann,Bo 9", /^“Ann,Bo” is a group of other rows\. “Costs/],
  ["Ann 40", "Übertrag 40", "Bo 60", /^asked: Übertrag$/], ["Ann 40", "Total 50", "Bo 60", /^asked: Total of 50,100$/],
  ["Ann 40", "Bo 60", "Subtotal 100", "Cy 9", /^asked: Subtotal$/],
];
for (const [...texts] of CLAIMS) {
  const wanted = texts.pop(), rows = texts.map((text) => ({ name: text.split(" ")[0], claim: text.split(/ (.*)/)[1] }));
  const { asked, faults: wrong, notes } = estate.read({ estate: "1000", rows }, ".").reading;
  const told = asked ? `asked: ${asked.name}${asked.off ? ` of ${asked.off}` : ""}`
    : [...wrong.map(({ sentence }) => sentence), ...notes].join(" ");
  if (wanted.test(told)) continue;
  faults += 1;
  console.log(`the claims ${texts} are told: ${told}`);
}

// what is said of a quota: of seats, of votes in per cent that aren't 100, and as long as cells can't be read
const SEATS = ["17", "13", "9", "5", "4"], PER_CENT = ["33.4", "33.3", "18.4", "10", "5"];
const QUOTAS = [
  ["three of the five shareholders", ["1", "1", "1", "1", "1"], /: 3 of 5 votes\./],
  ["3 of 5", SEATS, /^The quota is no number: “3 of 5”\. Write a number of votes, or a part/],
  ...[["2/3 der Sitze", 32], ["Quorum: 2/3", 32], ["meer dan 2/3", 33], ["plus de la moitié", 25], ["0.75", 36],
    ["more than 0.5", 25]].map(([text, least]) => [text, SEATS, new RegExp(`of 48 votes, so at least ${least}\\.$`)]),
  ["3/4 of the seats", SEATS, /^The quota: 3\/4 of 48 votes/], ["32 Sitze", SEATS, /^$/],
  ["Quota: 49", SEATS, /^The quota is from 1 to 48/],
  ["qualified majority", SEATS, /^The quota is no number: “qualified majority”\. Write a number of votes, or a part/],
  ["66.7 %", PER_CENT, /^of 100 or 1001\/10: $/], ["66.7 %", [...PER_CENT.slice(1), "33.3"], /^The quota: 66/],
  ["half", [...SEATS, ""], /^$/], ["half", [...SEATS, "-1"], /^[^:]*can’t be negative\.$/],
  ["66,667 %", SEATS, /^of 100 or 48: $/], // and not 66667 %
  ["1/4", SEATS, /Two groups/], ["0", SEATS, /^The quota is from 1 to 48, the votes of all\.$/],
];
for (const [quota, counts, wanted] of QUOTAS) {
  const rows = counts.map((count, k) => ({ name: `${k}.`, votes: count, second: "" }));
  const { reading } = votes.read({ quota, rows, isPercent: /%/.test(quota) }, "."), { notes, rest } = reading;
  const asked = rest ? `of ${rest.ways.map(([all]) => all).join(" or ")}: ` : "";
  const told = asked + [...reading.faults.map(({ sentence }) => sentence), ...notes].join(" ");
  if (wanted.test(told)) continue;
  faults += 1;
  console.log(`the quota ${quota} of ${counts.join(", ")} is told: ${told}`);
}

// what is filled has its thousands parted as the typed numbers have them, and so has what a saved case gives back
const FILLED = [
  ["4,250,000;1,400,000;", ".", "5,650,000"], ["4.250.000;1.400,50;", ",", "4.251.400,5"],
  ["4250000;1400000;", ".", "5650000"], ["4’250’000;1’400’000;", ".", "5’650’000"],
  ["1,200.50;2,189.50;", ".", "3390"], // and nothing that could be read otherwise
];
for (const [typed, mark, wanted] of FILLED) {
  const numbers = ["", ...typed.split(";"), "1", "", "", "9"].join("\n"), names = ["A", "B", "C"];
  const { state, fault } = fillSplits({ typed: { names, numbers }, mark, costs: true });
  const found = fault ?? state.numbers;
  if (found.split("\n")[3] === wanted) continue;
  faults += 1;
  console.log(`${typed} is filled as ${JSON.stringify(found)}, and not by ${wanted}`);
}
const SAVED = [
  [",", ".", "4,250,000;1,400,000;650.5"], [".", ",", "4.250.000;1.400.000;650,5"],
  [undefined, ".", "4250000;1400000;650.5"], [",", ".", "3390;1,400,000;650.5"],
];
for (const [thousands, entry, wanted] of SAVED) {
  const texts = ["", wanted.startsWith("3390") ? "3390" : "4250000", "1400000", `650${entry}5`];
  const typed = { names: ["A", "B"], numbers: texts };
  const found = withThousands(costs, typed, entry, thousands).numbers.slice(1).join(";");
  if (found === wanted) continue;
  faults += 1;
  console.log(`a saved case with ${thousands} and ${entry} is opened as ${found}, and not ${wanted}`);
}

/** Shares in sentences: by themselves, and on the page, where decimals add up but where equal shares would differ. */
const [THIRDS, EQUAL] = ["11900/3,8300/3,4700/3,700", "1/3,1/3,1/3"];
const SHARES = [
  [false, THIRDS, "3966.67 2766.67 1566.67 700"], [true, THIRDS, "3966.67 2766.67 1566.66 700"],
  [true, EQUAL, "0.33 0.33 0.33"],
];
for (const [isPage, shares, wanted] of SHARES) {
  if (isPage) new Marks(".");
  const found = shareTexts(shares.split(",").map(Rational.of)).map((text) => text.split(" ")[0]).join(" ");
  if (found === wanted) continue;
  faults += 1;
  console.log(`the shares ${shares} are told as ${found}, and not ${wanted}`);
}
spoken.addsUp = false;

const tried = [SHARES, FILLED, SAVED, CLAIMS, QUOTAS, sheets, CASES, WORKED, THOUSANDS, VALUES, LISTS, PASTED, NETWORKS,
  MARKETS].reduce((sum, { length }) => sum + length, 0);
faults += faultsOfMarkets();
console.log(`${tried} numbers and lists as people type them, ${faults} faults`);
process.exit(faults || !CASES.length ? 1 : 0);
