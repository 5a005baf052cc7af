// Numbers that are written as others beside them: with their decimals, the sign between their thousands, their money.
import { decimal, placesOf, readNumber, readTogether, thousandsIn, typedText } from "./decimals.js";
import { isMark, onlyMark } from "./marks.js";

const PARTS = /^(\D{0,9}?)[-−]?(\d(?:.{0,60}\d)?)(\D{0,9})$/u; // what stands around a number
const BLANKS = /\d([ \u00a0\u202f])\d{3}(?!\d)/;

/** The one thing that all of these are; undefined where they are several. */
const common = (some) => (new Set(some).size === 1 ? some[0] : undefined);

/** Values in the style of `texts`, numbers that `mark` reads; plain where they have none in common, or where somebody
 * might read them otherwise. With `least` decimals, which show the mark, they have those instead. */
export function writtenAs(values, texts, mark, least) {
  const { by, read } = readTogether(texts, mark), plain = values.map((value) => typedText(value, by));
  const parts = texts.map((text) => PARTS.exec(text.trim()));
  if (!isMark(by) || !parts.every(Boolean) || read.some(({ fault }) => fault)) return plain;
  const [before, behind] = [1, 3].map((k) => common(parts.map((part) => part[k])) ?? "");
  const lengths = parts.map(([, , digits]) => digits.split(by)[1]?.length ?? 0), all = common(lengths);
  const longer = common(lengths.filter(Boolean)) ?? 0, thousands = onlyMark(texts.map((text, k) => {
    return thousandsIn(text, read[k]) ?? BLANKS.exec(text)?.[1];
  }));
  const spelling = { mark: by, thousands: thousands ?? "", grouped: Boolean(thousands), least: 3 };
  const written = values.map((value, k) => {
    const places = placesOf(value), most = Math.max(places, least ?? all ?? (places > 0 ? longer : 0));
    const text = before + decimal(value, most, spelling).replace("−", "-") + behind;
    return places >= 0 && readNumber(text, by).value?.equals(value) ? text : plain[k];
  });
  const again = readTogether(written, by);
  const isOpen = !again.isSettled || again.money !== undefined;
  return isOpen && again.read.some(({ doubt }) => doubt) ? plain : written;
}
