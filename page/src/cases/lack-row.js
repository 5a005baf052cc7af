// A row that says what the claims lack of the estate comes with some sheets, and is nobody's claim.
import { isByEach, isNamedSum } from "./sum-row.js";
import { mayBeWhole } from "./whole-words.js";
import { Rational } from "../exact/rational.js";

const LACK = new RegExp("(?<!\\p{L})(?:shortfall|shortage|deficit|lack(?:ing|s)?|missing|fehlbetrag|unterdeckung"
  + "|fehl(?:t|en|end\\p{L}*)|differenz|difference|manqu(?:e|ant)|déficit|disavanzo|tekort)(?!\\p{L})"
  + "|^(?:the |funding )?(?:gap|short(?: by| of)?)[:.]?$", "iu");
const MINUS = /^[-–−]\s?|(?<=^\p{Sc}\s?)[-–−]/u;

/** The text of an amount without a sign that it is lost. */
const sizeOf = (text) => text.trim().replace(/^\((.{1,40})\)$/, "$1").replace(MINUS, "");

/** A pasted sheet of claims without the row that is named as what they lack, if its number is the sum of the claims
 * less the estate, be it with a minus: `lack` is its name, cells and amount. The estate is the one that came with the
 * rows, or `known`. */
export function withoutLack(sheet, known) {
  const { rows, targets } = sheet, place = (key) => targets.findIndex((one) => one?.key === key);
  const [at, by] = ["name", "claim"].map(place), kept = rows.map((row) => {
    return { row: { name: row[at] ?? "", claim: sizeOf(row[by] ?? "") } };
  });
  const [whole, other] = kept.filter(({ row }) => row.claim && mayBeWhole(row.name));
  const estate = sheet.number ?? (other ? undefined : whole?.row.claim) ?? known;
  if (at < 0 || by < 0 || !estate) return sheet;
  const cells = [...kept.map(({ row }) => row), { claim: estate }];
  const isOne = (name) => name && kept.filter(({ row }) => row.name === name).length === 1; // so it is told of it
  const isNamed = ({ row }) => row.claim && isOne(row.name) && !mayBeWhole(row.name) && LACK.test(row.name);
  const isLack = (k) => isByEach(cells, ["claim"], sheet, (reading) => lacks(reading, { kept, k, estate }));
  const lost = kept.findIndex((one, k) => isNamed(one) && isLack(k));
  if (lost < 0) return sheet;
  const { name } = kept[lost].row, amount = rows[lost][by];
  return { ...sheet, rows: rows.filter((_, k) => k !== lost), lack: { name, row: { name, claim: amount }, amount } };
}

/** Whether a row has what the others lack. */
function lacks(reading, { kept, k, estate }) {
  const valueOf = (text) => reading.known(text).value, { row } = kept[k];
  const sum = kept.findLastIndex((_, s) => s < k && isNamedSum(reading, kept, s, ["claim"]));
  const isClaim = (one, c) => c !== k && !mayBeWhole(one.row.name) && !isNamedSum(reading, kept, c, ["claim"]);
  const claims = sum < 0 ? kept.filter(isClaim) : [kept[sum]], values = claims.map((one) => valueOf(one.row.claim));
  const [own, whole] = [row.claim, estate].map(valueOf);
  return Boolean(own && whole) && !own.isZero() && values.every(Boolean)
    && own.equals(Rational.sum(values).minus(whole));
}
