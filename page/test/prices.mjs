// What is pasted as a market: gains of pairs, or limit prices of buyers and sellers, and what they make the pairs gain.
import { cellNumber } from "../src/exact/decimals.js";
import { gainTexts, market, marketOf } from "../src/cases/matrices.js";
import { cellsOf } from "../src/cases/pasting.js";
import { partOf, pricesOf } from "../src/cases/prices.js";

// what is pasted as a market: buyers; sellers; values, or a part of what is told
const BY_PAIRS = [
  ["\t1\t2\nAnn\t5\t8\nBen\t7\t6", "Ann,Ben;1,2;5,8,7,6"], ["\tA\tB\n1\t5\t8\n2\t7\t6", "1,2;A,B;5,8,7,6"],
  ["\tA\tB\tTotal\nAnn\t5\t8\t13\nΣ\t5\t8\t13", "Ann;A,B;5,8"], ["Ann 5 8\nBen 7 6", "Ann,Ben;;5,8,7,6"],
  ["\t\tA\tB\t\n\tAnn\t5\t–\t\n\t\t\t\t\n\tBen\t7\t6\t", "Ann,Ben;A,B;5,,7,6"], ["A\tB\n5\t6\n7\t8", ";A,B;5,6,7,8"],
  ["Buyer\tSeller\tGain\nAnn\tA\t5", "Ann;A;5"], ["Ann: 5\nBen: 7", /^This is no table/],
  ["Seller\tBuyer\tGain\nA\tAnn\t5\nB\tAnn\t8\nB\tBen\t6", "Ann,Ben;A,B;5,8,,6"],
  ["Ann - A: 5\nAnn - B: 8\nBen - A: 7\nBen - B: 6", "Ann,Ben;A,B;5,8,7,6"],
  ["Buyer\tA\tB\tDate\nAnn\t5\t8\t01.11.2026\nBen\t7\t6\tby phone", "Ann,Ben;A,B;5,8,7,6"],
  ["Seller \\ Buyer\tAnn\tBen\nA\t5\t7", "Ann,Ben;A;5,7"],
  ["A B\nUnit 7 5 8\nUnit 8 7 6", /^This is no/], ["A B\n\nAnn 5 8\nBen 7 6", /^This is no/],
  ["A B\nAnn 8'200 EUR 7'500 EUR\nBen 6'100 EUR 9 EUR", /^This/],
  ["\tA\tB\n1\t5 k€\t8 k€\n2\t7 k€\t6 k€", "1,2;A,B;5,8,7,6"],
  ["# A B\n1 Ann 5 8\n2 Ben 7 6", "Ann,Ben;A,B;5,8,7,6"],
  ["Buyer 1\t5\t8\nBuyer 2\t7\t6", "Buyer 1,Buyer 2;;5,8,7,6"],
];
// what is pasted as limit prices: buyers; sellers; what is told, or a part of that; "" where it is no such list
const BOTH = "Ann 10,Ben 12;Cem 7;", HEADS = "Buyer\tBid\tSeller\tAsk\n", PEOPLE = "Ann\t10\tCem\t7\nBen\t12\t\t";
const PRICES = [
  [HEADS + PEOPLE, BOTH], [`Who pays\tmax\tWho sells\tmin\n${PEOPLE}`, BOTH],
  [`Buyer\tWilling to pay\tSeller\tReserve price\n${PEOPLE}`, BOTH],
  [`Buyer\tup to\tSeller\tat least\n${PEOPLE}`, BOTH],
  [`Buyer\tReservation price\tSeller\tReservation price\n${PEOPLE}`, BOTH],
  [`Name\tBid\t\tName\tLeast\nAnn\t10\t\tCem\t7\nBen\t12\t\t\t`, BOTH],
  [`Buyers\t\tSellers\t\nName\tPrice\tName\tPrice\n${PEOPLE}`, BOTH],
  ["Käufer;Höchstpreis;Verkäufer;Mindestpreis\nAnn;10,50 €;Cem;7,00 €", "Ann 10,50 €;Cem 7,00 €;"],
  ["Acheteur;Prix max;Vendeur;Prix min\nAnn;10;Cem;7\nBen;12;;", BOTH],
  ["Buyer\tBid\nAnn\t10\nBen\t12\n\nSeller\tAsk\nCem\t7", BOTH],
  ["Buyers:\nAnn: 10\nBen: 12\n\nSellers:\nCem: 7", BOTH],
  ["Sellers\nCem 7\nBuyers\nAnn 10\nBen 12", BOTH], ["Verkäufer\nCem 7\nKäufer\nAnn 10\nBen 12", BOTH],
  ["Name\tSide\tPrice\nAnn\tbuy\t10\nCem\tsell\t7\nBen\tbuy\t12", BOTH],
  ["Name\tB/S\tPrice\nAnn\tB\t10\nCem\tS\t7\nBen\tB\t12", BOTH],
  ["Ann\tbuyer\t10\nBen\tbuyer\t12\nCem\tseller\t7", BOTH], ["Name\tBid\tAsk\nAnn\t10\t\nBen\t12\t\nCem\t\t7", BOTH],
  ["B1\t10\nB2\t12\nS1\t7", "B1 10,B2 12;S1 7;"], ["Buyer 1\t10\nSeller 1\t7", "Buyer 1 10;Seller 1 7;"],
  ["Bid\tAsk\n10\t7\n12\t", " 10, 12; 7;"],
  ["Buyer\tBid k€\tSeller\tAsk k€\nAnn\t1 k€\tCem\t1 k€", /^Ann 1;Cem 1;“k€”/],
  [`Buyer\tSeller\tBid\tAsk\nAnn\tCem\t10\t7`, "Ann 10;Cem 7;"],
  [`${HEADS}Ann\t\tCem\t?`, /^Ann ;Cem ;A cell with “\?” is/],
  [`${HEADS}${PEOPLE}\nTotal\t22\tTotal\t7`, /^Ann 10,Ben 12;Cem 7;Left out: “Total”, a sum\.$/],
  [`Offers\n${HEADS}${PEOPLE}`, /^Ann 10,Ben 12;Cem 7;Left out, as no number stands beside: “Offers”\.$/],
  [PEOPLE, "? “Ann and Ben”"], ["Ann\t10\nBen\t12\n\nCem\t7\nDan\t8", "? “Ann and Ben”"],
  ["Name\tType\tPrice\nAnn\tX\t10\nBen\tX\t12\nCem\tY\t7", "? “X”"],
  [PEOPLE, BOTH, "buyers"], [PEOPLE, "Cem 7;Ann 10,Ben 12;", "sellers"], [PEOPLE, "", "none"],
  ["Buyer\tBid\nAnn\t10", "Ann 10;-;"],
  [`Buyer\tBid\tQty\tSeller\tAsk\nAnn\t10\t2\tCem\t7`, /^“Qty” has “2”\. Each trader/],
  [`Buyer\tBid\tQty\tSeller\tAsk\nAnn\t10\t1\tCem\t7`, "Ann 10;Cem 7;Left out: “Qty”."],
  ["Buyer\tBid\tLimit\tSeller\tAsk\nAnn\t10\t11\tCem\t7", /^“Bid” and “Limit” are both prices of the buyers/],
  ["Name\tBid\tAsk\nAnn\t10\t9\nCem\t\t7", /^“Ann” has two prices/],
  [`${HEADS}Ann\t€10\tCem\t$7`, /are in EUR, others in USD/],
  ["Buyer\tBid (€)\tSeller\tAsk ($)\nAnn\t10\tCem\t7", /in EUR, others in USD/],
  ["Name\tSide\tPrice\tCurrency\nAnn\tbuy\t10\tEUR\nCem\tsell\t7\tUSD\nBen\tbuy\t9\tEUR", /in EUR, others in USD/],
  ["Name\tSide\tPrice\nAnn\tbuy\t10\nDan\thold\t4\nCem\tsell\t7", /^“Dan” is said to be neither/],
  ["Buyer\tMax\tBen\nAnn\t5\t8", ""], ["Buyer\tMax\nAnn\t5", ""], ["\tMax\tMin\nAnn\t5\t7", ""], ["Max\t5\nMin\t7", ""],
  ...BY_PAIRS.map(([text]) => [text, ""]), ["Buyer\tSeller\tValue\nAnn\tA\t5", ""],
];
// what is pasted into a cell of one list of limit prices
const LISTED = [
  ["buyers.0", "Ann\t10\nBen\t12", "buyers 0: Ann 10,Ben 12;"], ["limits.sellers.1", "7 €\n8 €", "sellers 1: 7 €,8 €;"],
  ["limits.sellers.1", "Cem\nDan", "sellers 1: Cem,Dan;"],
  ["sellers.0", "Who\tWant\nCem\t7", /^sellers 0: Cem 7;Left out: “Who”/],
  ["buyers.0", "Ann\t10\t3", /^A list has a name and/],
];
// what pairs gain by limit prices: the document, by either mark; or what is wrong
const GAINS = [
  [["10", "12.50"], ["7", "11"], ".", "[[3,0],[\"11/2\",\"3/2\"]]"], [["10.5"], ["7.5"], ".", "[[3]]"],
  [["1.200"], ["1.100,5"], ",", "[[\"199/2\"]]"], [["-5"], ["-8"], ".", "[[3]]"], [["1/3"],
  ["1/4"], ".", "[[\"1/12\"]]"],
  [["x"], ["7"], ".", /^limits\.buyers\.0: The most that a buyer would pay is no number: “x”/], [["10"],
  [""], ".", /^$/],
];
/** All of them, as they are counted. */
export const MARKETS = [BY_PAIRS, PRICES, LISTED, GAINS].flat();

const told = ({ buyers = [], sellers = [], values = [], fault }) => fault ?? [buyers, sellers, values.flat()].join(";");

function toldPrices(text, said) {
  const { buyers, sellers, notes, fault, asked } = pricesOf(cellsOf(text), said) ?? {};
  const list = (rows) => rows?.map(({ name, price }) => `${name} ${price}`).join() ?? "-";
  if (fault || asked) return fault ?? `? ${asked}`;
  return notes ? [list(buyers), list(sellers), notes.join(" ")].join(";") : "";
}

function toldList(cell, text) {
  const { side, at, rows = [], notes, fault } = partOf(cell, cellsOf(text));
  return fault ?? `${side} ${at}: ${rows.map((row) => Object.values(row).join(" ")).join()};${notes.join(" ")}`;
}

/** The gains as the document has them, if the texts that gains would be typed by are the same numbers. */
function toldGains(buyers, sellers, mark) {
  const names = { buyers: buyers.map((_, k) => `b${k}`), sellers: sellers.map((_, k) => `s${k}`) };
  const { reading, tree } = market.read({ ...names, limits: { buyers, sellers } }, mark);
  if (!reading.isRight()) return reading.faults.map(({ cell, sentence }) => `${cell}: ${sentence}`).join("");
  const texts = gainTexts({ buyers, sellers }, mark).map((row) => row.map((text) => cellNumber(text, mark).value));
  const typed = texts.map((row) => row.map((value) => value.toDocument()));
  const shown = (matrix) => JSON.stringify(matrix, (_, one) => (typeof one === "bigint" ? Number(one) : one));
  return shown(typed) === shown(tree.matrix) ? shown(tree.matrix) : `${shown(typed)} as texts`;
}

/** A market with the least that its sellers take: the gains don't change by it, and it is kept for the prices. */
function toldLeast(least) {
  const state = { buyers: ["Ann"], sellers: ["hut", "flat"], values: [["5", "8.5"]], least };
  const { limits, reading } = market.read(state, ".");
  return `${reading.isRight()} ${limits?.sellers.map(String) ?? "none"}`;
}

/** How many are read otherwise than they should be, each of which is printed. */
export function faultsOfMarkets() {
  const found = [
    ...BY_PAIRS.map(([text, wanted]) => [text, told(marketOf(cellsOf(text))), wanted]),
    ...PRICES.map(([text, wanted, said]) => [text, toldPrices(text, said), wanted]),
    ...LISTED.map(([cell, text, wanted]) => [text, toldList(cell, text), wanted]),
    ...GAINS.map(([own, others, mark, wanted]) => [`${own}; ${others}`, toldGains(own, others, mark), wanted]),
    ...[[["50", "40.5"], "true 50,81/2"], [["50", ""], "true none"], [["50"], "true none"], [undefined, "true none"]]
      .map(([least, wanted]) => [`at least ${least}`, toldLeast(least), wanted]),
  ];
  const wrong = found.filter(([, own, wanted]) => !(wanted instanceof RegExp ? wanted.test(own) : wanted === own));
  for (const [text, own, wanted] of wrong) {
    console.log(`the market ${JSON.stringify(text)} is read as ${own}, and not ${wanted}`);
  }
  return wrong.length;
}
