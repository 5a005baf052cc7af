// Money: its codes and signs, which stand before a number or behind it, and what a heading says of the amounts below.

/** The codes that are known wherever they stand. */
export const CODES = "EUR|USD|GBP|CHF|JPY|CNY|INR|SEK|NOK|DKK|ISK|PLN|CZK|HUF|RON|AUD|CAD|NZD|HKD|SGD|BRL|MXN|ZAR|TRY";

const DOLLARS = "(?:US|AU?|CA?|NZ|HK|SG?|R|MX)\\$", WORDS = "kr\\.?|zł|Kč";

/** A sign of money, or a code. */
export const SIGN = `(?:${CODES}|${DOLLARS}|${WORDS}|\\p{Sc})`;
const MONEY = `(?:Rs\\.?|S?Fr\\.?|${SIGN})`;
const OF_MONEY = new RegExp(`^([-−(]?)\\s?(${MONEY})|(${MONEY})(\\)?)$`, "gu");
const SAME = {
  "€": "EUR", $: "USD", US$: "USD", "£": "GBP", "¥": "JPY", "₹": "INR", Rs: "INR", Fr: "CHF", SFr: "CHF", zł: "PLN",
  Kč: "CZK", A$: "AUD", AU$: "AUD", C$: "CAD", CA$: "CAD", NZ$: "NZD", HK$: "HKD", S$: "SGD", SG$: "SGD", R$: "BRL",
  MX$: "MXN",
};

const IN_HEAD = new RegExp(`(?<![\\p{L}\\d'’])(?:${SIGN}|euros?|dollars?|francs?|franken|kroner|kronor)`
  + "(?![\\p{L}\\d'’])", "u");
const RATE = /(?<!\p{L})(?:per|pro|je|par|por|p\.|each) ?(?!cent)\p{L}|\/ ?\p{L}/iu;
const SCALED = new RegExp("(?<!\\p{L})(?:[kKTM]?(?:\\p{Sc}|EUR)|in|x|×) ?(?:[kmTM]|bn|['’.,]?000)(?!\\p{L})"
  + "|(?<!\\p{L})[kKTM](?:\\p{Sc}|EUR)|thousand|tausend|tsd|mio|mill?ion|mln|mrd|milliard", "iu");
const FINE = /[\ufdfc\u20bf]/; // rials of Oman have three decimals, bitcoins eight

/** A number without the sign or code of its money. */
export const withoutMoney = (typed) => typed.trim().replace(OF_MONEY, "$1$4").trim();

/** The money that a text names, by its code or sign; undefined where it names none. */
export function moneyIn(typed) {
  const [[, , before, behind] = []] = typed.trim().matchAll(OF_MONEY), name = (before ?? behind)?.replace(".", "");
  return SAME[name] ?? name;
}

/** What a heading says of numbers below it: that they are "money", or "rates", as "€ per m", or in millions, of which
 * nobody knows how many decimals they have. Undefined where it says nothing. */
export function amountsBelow(head = "") {
  return RATE.test(head) || SCALED.test(head) ? "rates" : IN_HEAD.test(head) ? "money" : undefined;
}

const MOST_TITLE = 60; // letters of a title

/** The same of a heading and of short titles above a table, as "Costs in EUR". */
export function amountsIn(head, titles = []) {
  const isTitle = (text) => text.length <= MOST_TITLE && !/\d/.test(text.replace(/(19|20)\d\d/g, ""));
  const said = [head, ...titles.filter(isTitle)].map(amountsBelow);
  return said.includes("rates") ? "rates" : said.find(Boolean);
}

/** Whether a number is an amount of money, which has no three decimals: by its sign, as "£4,200", or by its column, of
 * which `amounts` is what its heading says. */
export const isOfMoney = (typed, amounts) => amounts === "money"
  || (amounts !== "rates" && moneyIn(typed) !== undefined && !FINE.test(typed) && !/[*×+]/.test(typed));
