// Who trades with whom, and the range of the price; and the power of votes.
import { Rational } from "../exact/rational.js";
import { fractionText, percentText, shortText } from "../exact/decimals.js";
import { standingOf } from "../game/ballots.js";
import { el } from "./tree.js";
import { listed } from "../game/words.js";
import { tickText } from "./bars.js";
import { chart } from "./chart.js";
import { figure } from "./figure.js";

function tableOf(kind, heads, rows) {
  return el("div", { class: "scroll" }, el("table", { class: kind },
    el("thead", {}, el("tr", {}, heads.map((title, k) => el("th", { scope: "col", class: k ? "number" : "" }, title)))),
    el("tbody", {}, rows)));
}

// ---- A market

/** The pairs that trade: who, what they gain, the seller's part at least and at most, and that of the nucleolus; if
 * limit prices are known, `least` is the seller's, to which these come as the price. */
export function dealsOf(game, matching, solution) {
  const buyers = matching["buyers best"].map(Rational.of), sellers = matching["sellers best"].map(Rational.of);
  return matching.pairs.map((pair) => {
    const [buyer, seller] = pair.map((player) => Number(player) - 1);
    const worth = game.rows[buyer][seller - game.rows.length], fair = solution?.shares[seller];
    const who = `${game.shown[buyer]} – ${game.shown[seller]}`;
    const least = game.limits?.sellers[seller - game.rows.length];
    return { who, worth, low: buyers[seller], high: sellers[seller], fair, rule: solution?.title, least };
  });
}

export function priceOf({ show, apart }) {
  return ({ low, high }) => (low.equals(high) ? show(low) : apart(low, high).join(" to "));
}

/** The deals with prices in the place of the seller's parts. */
function priced(deals) {
  const plus = (least, part) => part && least.plus(part);
  return deals.map(({ least, low, high, fair, ...deal }) => {
    return { ...deal, low: plus(least, low), high: plus(least, high), fair: plus(least, fair) };
  });
}

export function tradesTable(deals, format) {
  return deals[0]?.least ? pricesTable(priced(deals), format) : partsTable(deals, format);
}

function pricesTable(deals, format) {
  const { fair, rule } = deals[0], price = priceOf(format), number = (text) => el("td", { class: "number" }, text);
  const rows = deals.map((deal) => el("tr", {}, el("th", { scope: "row" }, deal.who), number(format.show(deal.worth)),
    number(price(deal).replaceAll(" ", "\u00a0")), fair && number(format.show(deal.fair))));
  return tableOf("trades", ["Who trades", "They gain", "The price", ...(fair ? [`${rule}: the price`] : [])], rows);
}

function partsTable(deals, format) {
  const hasFair = deals.some(({ fair }) => fair), price = priceOf(format);
  const rows = deals.map((deal) => el("tr", {},
    el("th", { scope: "row" }, deal.who), el("td", { class: "number" }, format.show(deal.worth)),
    el("td", { class: "number" }, price(deal).replaceAll(" ", "\u00a0")),
    hasFair && [deal.fair, deal.worth.minus(deal.fair)].map((part) => {
      return el("td", { class: "number" }, format.show(part));
    })));
  const fair = hasFair ? [`${deals[0].rule}: the seller’s`, "the buyer’s"] : [];
  const heads = ["Who trades", "They gain", "Of it the seller’s", ...fair];
  return tableOf("trades", heads, rows);
}

const MOST_IDLE = 4, MOST_PRICES = 4; // that the first sentence names

/** What is said of the parts, wherever they are. */
const PRICE = "The price is the seller’s own value and, on top of it, the seller’s part of the gain.";
const OF_LIMITS = "The price is the seller’s least and, on top of it, the seller’s part of the gain.";
export const priceText = (deals) => (deals[0]?.least ? OF_LIMITS : PRICE);

/** The limit prices of all who may trade, as far as they are known; "" without any. */
export function limitsText({ limits, shown, rows }, { show }) {
  const side = (what, values, first) => {
    return values ? `${what}: ${values.map((value, k) => `${shown[first + k]} ${show(value)}`).join("; ")}. ` : "";
  };
  const { buyers, sellers } = limits ?? {};
  return side("Each buyer pays at most", buyers, 0) + side("Each seller takes at least", sellers, rows.length);
}

/** The price, if limit prices are known, and that of the rule that all read: of all who trade, or of each of a few. */
function priceLead(deals, { show, apart }) {
  if (!deals[0]?.least) return "";
  const all = priced(deals), [{ low, high, fair, rule }, ...others] = all, isSame = (one, other) => {
    return one === other || one.equals(other);
  };
  const isOne = others.every((deal) => isSame(deal.low, low) && isSame(deal.high, high) && isSame(deal.fair, fair));
  const isOpen = Boolean(fair) && all.some((deal) => !isSame(deal.low, deal.high));
  const text = ({ low: one, high: other }) => {
    return one.equals(other) ? show(one) : `from ${apart(one, other).join(" to ")}`;
  };
  const own = isOpen ? `, and by “${rule}” ${show(fair)}` : "";
  if (isOne) return ` The price is ${text(all[0])}${own}${others.length ? ", the same for all" : ""}.`;
  const each = (deal) => `${deal.who} ${text(deal)}${isOpen ? ` (${show(deal.fair)})` : ""}`;
  const told = isOpen ? `, in brackets by “${rule}”` : "";
  return deals.length > MOST_PRICES ? "" : ` The prices${told}: ${all.map(each).join("; ")}.`;
}

/** The first sentence, or none if nobody trades. */
export function tradesLead(deals, idle, value, format) {
  const { show } = format;
  const pairs = deals.length > 6 ? `${deals.length} pairs` : listed(deals.map(({ who }) => who));
  return deals.length > 0 && el("p", { class: "lead" }, `${pairs} ${deals.length > 1 ? "trade" : "trades"}: together `
    + `they gain ${show(Rational.of(value))}.${priceLead(deals, format)}`, idle.length > 0 && idle.length <= MOST_IDLE
    && ` Without a trade: ${idle.join(", ")}.`);
}

/** Those without a trade. */
export function idleOf(game, { pairs }) {
  const traded = pairs.flat().map((player) => Number(player) - 1);
  return game.everyone().filter((i) => !traded.includes(i)).map((i) => game.shown[i]);
}

/** `ties` is what is said of other pairs, and `solution` has the title that all read. */
export function trades(game, matching, { solution, ties, wide, ...format }) {
  const deals = dealsOf(game, matching, solution), idle = idleOf(game, matching);
  const said = [tradesLead(deals, idle, matching.value, format), ties && el("p", { class: "hint" }, ties)];
  const table = [tradesTable(deals, format), el("p", { class: "hint" },
    `Together they gain ${format.show(Rational.of(matching.value))}; no other pairs gain more. `,
    priceText(deals), " The ranges say how far each can go, not ",
    "that each can be chosen by itself: one holds the others. Below its range a buyer would be outbid, or ",
    "the seller rather keep it; above it the seller would be undercut, or the buyer rather not buy.",
    idle.length > 0 && ` Without a trade: ${idle.join(", ")}.`)];
  const drawn = deals.length > 0 && pricesPicture(deals, priceOf(format), format.show, wide);
  return { said, table, picture: drawn && figure("ranges", "prices", drawn) };
}

export function pricesPicture(deals, price, show, wide) {
  const hasFair = deals.some(({ fair }) => fair);
  return chart({
    title: "The sellers’ parts of the gain", low: 0, wide, text: tickText,
    high: Math.max(...deals.map(({ worth }) => worth.toNumber())) || 1,
    legend: [
      { kind: "span", title: "what the seller’s part may be" },
      ...(hasFair ? [{ kind: "adds", title: deals[0].rule }] : []),
    ],
    rows: deals.map((deal) => ({
      label: deal.who, told: `${deal.who}: gain ${show(deal.worth)}, the seller’s part ${price(deal)}`,
      spans: [{ low: deal.low.toNumber(), high: deal.high.toNumber(), room: deal.worth.toNumber() }],
      marks: deal.fair ? [{ kind: "adds", value: deal.fair.toNumber() }] : [],
    })),
  });
}

// ---- Votes

/** Votes as they are counted: whole, or with decimals. */
export function votesText(value) {
  return value.isWhole() ? String(value) : shortText(value);
}

const HUNDRED = Rational.of(100);
const NARROW = 520;

/** What is remarked of a voter beside its name; "" for nothing. */
export function remarkOn(i, share, ballots) {
  const { vetoes, isEnough, isIdle } = standingOf(i, share, ballots);
  const remarks = [isIdle && "no influence", vetoes.length > 0 && "has a veto", isEnough && "wins alone"];
  return remarks.filter(Boolean).join(", ");
}

/** `ballots` have the votes and the quota of each of one or two ballots. */
export function power(game, shares, { mark, wide, kept }) {
  const { ballots, shown } = game, isDouble = ballots.length > 1;
  const hasParts = !isDouble || wide >= NARROW; // the power has to be seen without scrolling
  const parts = partsOf(game), percent = (value) => percentText(value, { mark });
  const rows = game.everyone().map((i) => {
    const remark = remarkOn(i, shares[i], ballots), exact = !shares[i].isZero() && fractionText(shares[i]);
    return el("tr", {},
      el("th", { scope: "row" }, shown[i], remark && el("small", {}, remark)),
      ballots.map(({ votes }, b) => [
        el("td", { class: "number" }, votesText(votes[i])),
        hasParts && el("td", { class: "number" }, percent(parts[b][i])),
      ]),
      kept && el("td", { class: "number kept" }, kept[i] ? percent(kept[i]) : "–"),
      el("td", { class: "number main" }, percent(shares[i]), exact && el("small", { class: "exact" }, exact)));
  });
  const all = ["Voter", ...voteHeads(game), ...(kept ? ["Kept"] : []), "Power"];
  const heads = all.filter((head) => hasParts || head !== "of all");
  const reaches = isDouble ? "reaches both quotas" : "reaches the quota";
  return el("div", {}, tableOf("power", heads, rows),
    el("p", { class: "hint" },
      `Power: in what part of all orders of joining a voter is the one who ${reaches}.`,
      el("span", { class: "field-name" }, " (Shapley and Shubik 1954. This page has no Banzhaf index, and no third ",
        "condition such as a blocking minority.)")),
    figure("powers", "power", powerDrawn(game, shares, { mark }, wide)));
}

const MARKS = ["adds", "alone"]; // of the votes of the first ballot, and of the second

/** What stands above the votes, and above the voters' parts of them. */
export const voteHeads = ({ ballots }) => ballots.length > 1 ? ["First votes", "of all", "Second votes", "of all"]
  : ["Votes", "of all"];

/** The voters' parts of the votes, of each ballot. */
export const partsOf = ({ ballots }) => ballots.map(({ votes }) => {
  const all = Rational.sum(votes);
  return votes.map((own) => own.over(all));
});

/** The power of each voter beside its parts of the votes. */
export function powerDrawn(game, shares, { mark }, wide) {
  const parts = partsOf(game), percent = (value) => percentText(value, { mark });
  const names = parts.length > 1 ? ["first votes", "second votes"] : ["votes"];
  const told = (i) => parts.map((own, b) => `${names[b]} ${percent(own[i])}`).join(", ");
  const number = (value) => value.times(HUNDRED).toNumber();
  return chart({
    title: "The power of each voter", low: 0, wide, text: (tick) => `${tickText(tick)}\u202f%`,
    high: number(Rational.max([...shares, ...parts.flat()])),
    legend: [
      { key: "shapley", title: "power" },
      ...names.map((name, b) => ({ kind: MARKS[b], title: `part of the ${name}` })),
    ],
    rows: game.everyone().map((i) => ({
      label: game.shown[i], told: `${game.shown[i]}: power ${percent(shares[i])}, ${told(i)}`,
      bars: [{ key: "shapley", value: number(shares[i]) }],
      marks: parts.map((own, b) => ({ kind: MARKS[b], value: number(own[i]) })),
    })),
  });
}
