// Limit prices in a mail or minutes: a line that says who sells, and below it a line for each seller, as "Huber, not
// below 14,000"; and the same of those who buy. Lines without a number are none of them.
import { kindOf } from "./price-heads.js";

const MOST_LINE = 200, MOST_LINES = 400;
const LOOKS = /(?<!\p{L})(?:looking for|wants?|seeks?|searching|suche[nt]?|cherche(?:nt)?|zoek(?:t|en)|busca[n]?)/iu;
const OFFERS = /(?<!\p{L})(?:offer(?:s|ed|ing)?|for sale|biete[nt]?|abzugeben|à vendre|te koop|en venta)(?!\p{L})/iu;
const MONEY = "(?:\\p{Sc}|[A-Z]{3}|kr|zł)";
const WORDS = "(?:or|and|oder|ou|not|no|less|more|than|below|under|above|over|at|least|most|up|to|from|min|max|minimum"
  + "|maximum|for|would|will|takes?|pays?|accepts?|asks?|bids?|offers?|about|ab|bis|zu|mindestens|höchstens|maximal"
  + "|mindest|nicht|unter|über|au|moins|plus|jusqu['’]à|à|minstens|hoogstens|tot|vanaf|desde|hasta)\\.?";
const SIGN = "(?:\\s*[:;,]|\\s[-–—])?\\s*"; // between name and price
const PRICE = `${MONEY}?\\s?\\d[\\d.,'’]{0,20}(?: \\d{3}){0,3}\\s?${MONEY}?`;
const LINE = new RegExp(`^(?<name>\\p{L}[^\\d:;,]{0,60}?)${SIGN}(?<=[\\s:;,–—-])(?:${WORDS}\\s+){0,6}(?<price>${PRICE})`
  + `(?:\\s+${WORDS}){0,4}[.;,]?$`, "iu");

/** Whose prices stand below a line, if it says so. */
function sideOfHead(text) {
  if (!/:$/.test(text) || /\d/.test(text)) return undefined;
  const isBuyers = LOOKS.test(text), isSellers = OFFERS.test(text), { side } = kindOf(text);
  return isBuyers === isSellers ? side : isBuyers ? "buyers" : "sellers";
}

/** The rows of two such lists with headings, {rows, left}, the lines beside them; null for other rows, and where a line
 * below such a heading is none of a list. */
export function priceSections(pasted) {
  const lines = pasted.map((row) => row.filter(Boolean).join(" ")), lists = new Map(), left = [];
  if (lines.length > MOST_LINES || pasted.some((row) => row.filter(Boolean).length > 1)) return null;
  let side;
  for (const text of lines) {
    const head = sideOfHead(text), { name, price } = text.length <= MOST_LINE ? LINE.exec(text)?.groups ?? {} : {};
    if (head && lists.has(head)) return null;
    if (head) lists.set(side = head, []);
    else if (!text) side = lists.get(side)?.length ? undefined : side;
    else if (side && price) lists.get(side).push([name.trim(), price.trim()]);
    else if (side && /\d/.test(text)) return null;
    else left.push(text);
  }
  const [sellers, buyers] = ["sellers", "buyers"].map((one) => lists.get(one) ?? []);
  if (!sellers.length || !buyers.length) return null;
  return { rows: [["Seller", "Ask"], ...sellers, [""], ["Buyer", "Bid"], ...buyers], left };
}

/** Rows without prose around the lists, beyond empty lines: {rows, left}, the texts that are left out. */
export function withoutProse(pasted) {
  const blocks = [[]];
  for (const row of pasted) {
    if (row.some(Boolean)) blocks.at(-1).push(row);
    else blocks.push([]);
  }
  const isProse = (rows) => rows.every((row) => {
    const [text, more] = row.filter(Boolean);
    return more === undefined && !/\d/.test(text) && !kindOf(text).side;
  });
  const isTable = (rows) => rows.length > 1 && rows.every((row) => row.filter(Boolean).length > 1);
  const out = new Set(blocks.some(isTable) ? blocks.filter(isProse).flat() : []);
  return { rows: pasted.filter((row) => !out.has(row)), left: [...out].flatMap((row) => row.filter(Boolean)) };
}
