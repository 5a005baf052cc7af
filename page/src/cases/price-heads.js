// What the columns of a list of limit prices are: by their headings, and by what is in them.
import { readNumber } from "../exact/decimals.js";
import { moneyIn } from "../exact/money.js";
import { UNKNOWN } from "./columns.js";
import { withoutUnits } from "./units.js";

export const SIDES = ["buyers", "sellers"];

const words = (text) => new RegExp(`(?<!\\p{L})(${text})(?!\\p{L})`, "iu");
const BUYS = words("buy(er|ers|ing|s)?|bidders?|purchasers?|demand|käufer(in|innen)?|kauf|bieter|nachfrag\\p{L}*"
  + "|acheteu[rs]e?s?|achats?|comprador\\p{L}*|compras?|kopers?|koop");
const SELLS = words("sell(er|ers|ing|s)?|vendors?|suppl(y|iers?)|verkäufer(in|innen)?|verkauf|anbieter"
  + "|vendeu[rs]e?s?|ventes?|vendedor\\p{L}*|ventas?|verkopers?|verkoop");
const BID = words("bids?|most|up to|m[aá]x(im\\p{L}*)?|highest|(willing(ness)?|ready) to (pay|buy)|wtp|pays?|au plus"
  + "|höchst\\p{L}*|gebote?|zahlungsbereitschaft|bod");
const ASK = words("ask(s|ed|ing)?|wants?|least|m[ií]n(im\\p{L}*)?|lowest|(willing(ness)?|ready) to (accept|sell|take)"
  + "|wta|takes?|mindest\\p{L}*|au moins");
const RESERVE = words("reserves?|reservation|réserves?"); // of a seller, unless it is said to be a buyer's
// where bids begin
const START = words("(min(\\.|im\\p{L}*)?|start(ing)?|opening|reserve|lowest|least) (bids?|offers?)|upset price"
  + "|(start|ausruf)(preis|gebot|prijs|bod)|inzet(prijs)?|vraagprijs|mise à prix|prezzo (base|di partenza|d['’]asta)"
  + "|base d['’]asta|precio (de salida|base)");
const PRICE = new RegExp("price|preis|pri[xj]|precio|limit|valu|worth|wert|valeur|valor|amount|betrag|montant|\\p{Sc}|"
  + "bereitschaft", "iu");
const NAME = words("names?|traders?|who|persons?|participants?|players?|nom|nombre|wer|händler");
/** A word above or before what a buyer would pay, beside a name. */
export const BUYS_AT = "bids?|offers?|gebote?|offres?|ofertas?|pujas?|bod|bud";
/** A corner that says what stands before the rows: sellers, or what they sell. */
export const GOODS = new RegExp("^(sellers?|items?|things?|lots?|objects?|goods?|products?|property|properties|plots?"
  + "|parcels?|flats?|apartments?|houses?|rooms?|horses?|cows?|cars?|boats?|paintings?|verkäufer|parzellen?"
  + "|grundstücke?|wohnung(en)?|haus|häuser|zimmer|pferde?|objekte?|ware|artikel|vendeurs?|lotes?|parcelles?"
  + "|terrains?|appartements?|maisons?|chevaux|cheval|biens?|vendedor|parcelas?|pisos?|casas?|caballos?|verkoper"
  + "|percelen|perceel|kavels?|woning(en)?|huis|huizen|paard(en)?|tomter?)$", "iu");
const QUANTITY = words("quantit\\p{L}*|qty|units?|pieces?|pcs|size|volumes?|lots?|shares|menge|stück\\p{L}*|anzahl"
  + "|cantidad|aantal|how many|count|number( of \\p{L}+)?");
const COUNT = /^(#|№|no|nr|num|id|ref|lp|pos|rank|rang)\.?$|\b(no|nr|id|ref)\.?$/iu;
const WEAK = /^(max|min)\.?$/i; // may be a person
const SIDE_HEAD = words("sides?|types?|roles?|b\\s*[/|]\\s*s|buy\\s*/\\s*sell|direction|seite|rolle|art|rôle|lado|tipo"
  + "|kind|position");
const GIVES = /^(sells?|selling|offer(s|ing|ed)?|supply|supplies|has|gives?|bietet|verkauft|vend|biedt|verkoopt)$/iu;
const TAKES = /^(buys?|buying|needs?|needed|want(s|ing|ed)?|demand|takes?|sucht|kauft|ach[eè]te|zoekt|koopt)$/iu;
const MOST_KINDS = 3;
const WILL = "(?:will|would|can|could|wants? to|is ready to|is willing to)";
const UNTIL = "(?:\\s(?:at|for|from|up|to|least|most|max|min|ab|für|zu|bis|à|pour|au|moins|plus|voor|vanaf|tot)\\.?)";
const LEAST = "(?:wants?|takes?|asks?|accepts?|verlangt|demande|vraagt)"
  + "(?=\\s(?:at least|mindestens|au moins|minstens)$)";
const DEAL = new RegExp(`^(?!${WILL}\\s)(?<name>.{1,80}?),?\\s(?:(?:(?<sells>sells|verkauft|vend|verkoopt|${LEAST})|`
  + `(?<buys>buys|kauft|ach[eè]te|koopt|pays|zahlt|paie|betaalt|bids|bietet))${UNTIL}{0,3}|`
  + `${WILL}\\s(?:(?<sell>sell|${LEAST})|(?<buy>buy|pay|bid))${UNTIL}{0,3})$`, "iu");
const MARKED = /^(b|s)[ .:-]?\d+$|[([](b|s)[)\]]$/i;

/** What a heading says: whose price or name it is, and whether it is a price. `isSoft` gives way to a side that the
 * columns before it have; `isBoth` says that it names both. */
export function kindOf(head) {
  const isBuyer = BUYS.test(head), isSeller = SELLS.test(head), isStart = START.test(head);
  const isBid = BID.test(head) && !isStart, isAsk = ASK.test(head) || isStart;
  const isSoft = RESERVE.test(head) && !isBuyer && !isSeller, isBoth = isBuyer && isSeller;
  const buys = isBuyer || (isBid && !isSeller), sells = isSeller || ((isAsk || isSoft) && !isBuyer);
  const side = buys === sells ? undefined : buys ? "buyers" : "sellers";
  const isPrice = isBid || isAsk || RESERVE.test(head) || PRICE.test(head);
  return { side, isSoft, isBoth, isPrice, isWeak: WEAK.test(head) };
}

/** Whether a cell of a column says that somebody buys, or sells. */
export function sideOf(text) {
  if (/^b$/i.test(text) || TAKES.test(text)) return "buyers";
  return /^s$/i.test(text) || GIVES.test(text) ? "sellers" : kindOf(text).side;
}

/** A name without what it does, as “Dairy” of “Dairy sells at”. */
export const nameOf = (text) => DEAL.exec(text)?.groups.name ?? text;

/** The same of a name, as “Buyer 1”, “Ann (seller)” or “B1”, or of a name with what it does. */
export function sideOfName(text) {
  const { buys, buy, name } = DEAL.exec(text)?.groups ?? {};
  if (name) return buys || buy ? "buyers" : "sellers";
  const letter = (MARKED.exec(text) ?? []).slice(1).find(Boolean), isBuyer = BUYS.test(text);
  if (letter) return sideOf(letter);
  return isBuyer === SELLS.test(text) ? undefined : isBuyer ? "buyers" : "sellers";
}

/** Whether a heading says that the numbers below count the rows. */
export const isCount = (head) => COUNT.test(head);

/** A column with its heading and its texts, and what it may be. */
export function fitOf(head, texts) {
  const filled = texts.filter(Boolean), known = filled.filter((text) => !UNKNOWN.test(text));
  const { rows: bare = [] } = withoutUnits(known.map((text) => [text])), kind = kindOf(head);
  const numbers = bare.filter(([text]) => !readNumber(text).fault).length, isWord = numbers * 2 <= known.length;
  const isNumbers = known.length ? !isWord : kind.isPrice; // nobody knows a price yet
  const isMoney = isWord && known.length > 0 && known.every((text) => text.length < 5 && moneyIn(text));
  const few = new Set(known.map((text) => text.toLowerCase())).size;
  const isNames = few === known.length && known.every((text) => /\s/.test(text));
  const isDeal = known.some((text) => nameOf(text) !== text);
  const isSaid = !isDeal && known.every((text) => text.length < 16 && !/\d/.test(text) && sideOf(text));
  const isRole = known.length > 1 && known.every((text) => GIVES.test(text) || TAKES.test(text)); // below any heading
  const isTold = few > 1 && known.length > 2 && !kind.side
    && (isSaid || (SIDE_HEAD.test(head) && (few === 2 || known.some((text) => sideOf(text)))));
  const isSides = isWord && !isMoney && (isRole || isTold);
  const isName = !kind.isPrice && (Boolean(kind.side) || NAME.test(head));
  return {
    head, texts, isNumbers, isMoney, isName, ...kind, isSides, isRole, isNames,
    isBoth: kind.isBoth && !isRole && !isTold,
    isFew: isWord && !isMoney && !isDeal && few <= MOST_KINDS && few < known.length,
    isQuantity: isNumbers && !kind.isPrice && QUANTITY.test(head),
    isCount: isNumbers && !kind.isPrice && isCount(head),
  };
}

/** The column that says who buys: by its words; or a few words that repeat, beside names of which none does and one or
 * two columns of numbers, if no heading says whose they are and these aren't rows of one side (`isPart`). */
export function sidesAmong(columns, isPart) {
  const words = columns.filter(({ isNumbers, isMoney }) => !isNumbers && !isMoney);
  const said = columns.find(({ isSides, isNames }) => isSides && !(isNames && words.length < 2));
  const numbers = columns.filter(({ isNumbers }) => isNumbers), few = words.find(({ isFew }) => isFew);
  const isName = ({ texts }) => new Set(texts.filter(Boolean)).size === texts.filter(Boolean).length;
  const isOf = words.length === 2 && [1, 2].includes(numbers.length) && !columns.some(({ side }) => side);
  if (said || isPart) return said;
  return isOf && words.some((one) => one !== few && isName(one)) ? few : undefined;
}

/** The currency that a heading names, with the word for thousands before it. */
export function isUnit(head = "") {
  const text = head.replace(/[()[\],:]/g, " ").trim(), money = moneyIn(text), last = text.split(/\s+/).at(-1);
  return money && `${/^[kKMT](?=\p{Sc}|[A-Z]{3})/u.exec(last)?.[0] ?? ""}${money}`;
}
