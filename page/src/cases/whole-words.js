// Words for what there is to divide: a row or a line that is called so is no claim.
import { isItem } from "./around-lines.js";
import { readNumber } from "../exact/decimals.js";
import { isEmpty } from "./sum-row.js";

const FOR = "available|on hand|in hand|at (?:the )?bank|left|now|(?:for|to) (?:distribution|division"
  + "|(?:unsecured )?creditors|dividends?)|to (?:be )?(?:distributed?|divided?|shared?)|in (?:the )?(?:estate|bank)";
const OF_MONEY = "estate|assets|funds|cash|proceeds|amount|sum|money|monies|balance";
const IN_GERMAN = "(?:insolvenz|teilungs|konkurs)?masse|nachlass|(?:noch )?(?:verfügbar|vorhanden)(?:e[rsn]?)?(?: (?:"
  + "masse|mittel|betrag|summe|vermögen|nachlass))?|zu verteilen(?:de[rs]?)?(?: (?:masse|betrag|summe))?"
  + "|zur verteilung(?: verfügbar)?";
const IN_OTHERS = "actif(?: net)?(?: (?:disponible|à répartir|réalisé))?|disponible|à répartir"
  + "|masse (?:active|à répartir)|mas+a(?: (?:activa|attiva))?|boedel|activo|attivo|beschikbaar|disponib(?:le|ile)";

/** What names the estate for certain. */
export const ESTATE = new RegExp("^(?:the |die |der |das |le |la |l['’]|net |total |gross |remaining |available )*(?:"
  + `(?:${OF_MONEY})(?: (?:${FOR}))+|estate|assets|available(?: (?:${FOR}|funds|assets|cash|estate))*|${IN_GERMAN}`
  + `|${IN_OTHERS}|to (?:be )?(?:distributed?|divided?))(?: value| net(?:to)?)?(?: \\(.*\\))?[:.]?$`, "iu");

const PERHAPS = new RegExp("(?<!\\p{L})(?:available|(?:distribut|verfügbar|vorhanden|verteil)\\p{L}*|disponible"
  + "|beschikbaar|répartir|nachlass|\\p{L}*masse|estate|actif|cash|funds|proceeds|\\p{L}*erlös|vermögen|boedel\\p{L}*"
  + "|budget|assets|activo|attivo|mass?a)(?!\\p{L})", "iu");
const SIGN = "(?:\\p{Sc}|(?<!\\p{L})[A-Z]{3}(?!\\p{L}))", DIGITS = "(?:\\d{1,3}(?: \\d{3})+(?!\\d)(?:[.,]\\d+)?"
  + "|\\d(?:[\\d.,'’\\u00a0\\u202f]*\\d)?)";
const AMOUNT = new RegExp(`(?:${SIGN}\\s?)?${DIGITS}(?:\\s?${SIGN})?`, "gu"), MONEY = new RegExp(SIGN, "u");

/** Whether a name may be that of the estate. */
export const mayBeWhole = (name) => PERHAPS.test(name);

/** Asks of the first and the last row, if its name may be that of the estate, unless somebody said that it is a claim
 * (`state.notWhole`). Another question comes first. */
export function askOfWhole(reading, state) {
  const kept = state.rows.map((row, r) => ({ row, r })).filter(({ row }) => !isEmpty(row)), { notWhole = [] } = state;
  const found = kept.length > 2 && [kept.at(-1), kept[0]].find(({ row }) => mayBeWhole(row.name));
  if (!found || reading.asked || state.notSums === true || notWhole.includes(found.row.name.trim())) return;
  reading.asked = { r: found.r, name: found.row.name.trim(), amount: found.row.claim };
}

/** What a sentence says of it, beside such words. */
const SAID = new RegExp("(?<!\\p{L})(?:left|we (?:only )?have|there (?:is|are)|to (?:share|split|divide)|account|übrig"
  + "|zur verfügung)(?!\\p{L})", "iu");

/** The one amount of a line that may say what there is to divide, {text, amount}, or undefined: of a line that speaks
 * of it, the one of money or else the one number; of another, the one of money, if one line alone has such. */
export function wholeIn(texts) {
  const isOf = (text) => mayBeWhole(text) || SAID.test(text);
  const found = texts.filter((text) => !isItem(text)).map((text) => {
    const all = text.match(AMOUNT) ?? [], money = all.filter((one) => MONEY.test(one));
    const [amount, other] = money.length || !isOf(text) ? money : all;
    return !other && amount && !readNumber(amount).fault ? { text, amount: amount.trim() } : undefined;
  }).filter(Boolean);
  return found.find(({ text }) => isOf(text)) ?? (found.length > 1 ? undefined : found[0]);
}
