// Links between two places that no group needs: one that costs no less than the dearer of their own links to the source
// can be spared, since a network that has it can have that one instead.
import { cellNumber } from "../exact/decimals.js";

const UNUSED = "unused";

/** The dearer text of the links of both ends to the source, for a link i-j between two places; undefined where one
 * isn't known. */
function dearer({ links, filled = {} }, key, mark) {
  const own = key.split("-").map((end) => `0-${end}`), texts = own.map((one) => links[one] ?? "");
  const [one, other] = texts.map((text) => cellNumber(text, mark).value);
  if (key.startsWith("0-") || !one || !other || own.some((end) => filled[end])) return undefined;
  return one.less(other) ? texts[1] : texts[0];
}

const keysOf = ({ names: { length } }) => Array.from({ length }, (_, i) => {
  return Array.from({ length: length - i - 1 }, (_, k) => `${i + 1}-${i + k + 2}`);
}).flat();

/** The links between places that are empty, and that no group needs. */
export function unusedOf(typed, mark) {
  return keysOf(typed).filter((key) => !typed.links[key]?.trim() && dearer(typed, key, mark) !== undefined);
}

/** The links with these filled, and which were filled: [links, filled]. */
export function withUnused(typed, keys, mark) {
  const own = (valueOf) => Object.fromEntries(keys.map((key) => [key, valueOf(key)]));
  return [{ ...typed.links, ...own((key) => dearer(typed, key, mark)) }, { ...typed.filled, ...own(() => UNUSED) }];
}

/** Lets those that were filled follow the links to the source: one that a group may need is empty then. */
export function followUnused(typed, mark) {
  for (const key of unusedIn(typed)) {
    const ends = key.split("-").map((end) => `0-${end}`), text = dearer(typed, key, mark);
    if (text !== undefined) typed.links[key] = text;
    else if (key.startsWith("0-") || ends.some((end) => typed.filled[end])) {
      typed.links[key] = "";
      delete typed.filled[key];
    }
  }
}

const unusedIn = ({ filled = {} }) => Object.keys(filled).filter((key) => filled[key] === UNUSED);

/** The links without those that were filled, and these: {links, unused}. */
export function unusedApart(typed) {
  const own = unusedIn(typed), all = Object.entries(typed.links);
  const part = (is) => Object.fromEntries(all.filter(([key]) => is(key)));
  return { links: part((key) => !own.includes(key)), unused: part((key) => own.includes(key)) };
}

/** Whether some group would pay a number that was filled into these links: a place without a link of its own, or two
 * for which it is less than the dearer of their own. */
export function isPaid({ links }, keys, mark) {
  const valueOf = (key) => cellNumber(links[key] ?? "", mark).value;
  return keys.some((key) => {
    const own = key.split("-").map((end) => valueOf(`0-${end}`)), value = valueOf(key);
    return key.startsWith("0-") || !value || own.some((one) => one && value.less(one));
  });
}
