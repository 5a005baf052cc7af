// What is asked and said of a list of groups that was read.
import { AS_GROUPS, groupLabel } from "../cases/tables.js";
import { usersText } from "../cases/used-parts.js";
import { quotedText, readNumber } from "../exact/decimals.js";
import { withEscapes } from "../game/names.js";
import { listed } from "../game/words.js";
import { el } from "./dom.js";

const MOST_NAMED = 8; // players

/** What is asked of a list before it is taken, and the answers, each with what then is said; undefined for nothing. */
export function listAsked(found, kind, { roles } = {}) {
  const { columns, users, doubt, asked, state, way, fault } = found, { ways = way && [way] } = found;
  const what = kind.what.toLowerCase();
  if (columns) return [`Which column is ${what}?`, ...columns.map(({ c, title }) => [`“${title}”`, { column: c }])];
  if (users) return partsAsked(found);
  if (doubt) return markAsked(found);
  if (asked) return wholeAsked(found, kind, roles);
  return state || !ways ? undefined : [fault, ...ways];
}

/** What is asked of a line that may be all together, and the answers; `roles` are those that were given before. */
function wholeAsked({ asked, players, isSum, hasAll }, { isCost }, roles = {}) {
  const [line, ...names] = [asked, ...players].map((name) => `“${withEscapes(name)}”`), count = names.length;
  const answer = (title, role) => [title, { roles: { ...roles, [asked]: role } }];
  const what = `What all ${isCost ? "pay" : "gain"} together`;
  const all = count > 2 ? `all ${count} together` : "both together";
  if (isSum) {
    return [`Is ${line} ${what.toLowerCase()}, or only the sum of the ${count} lines of one player each?`,
      answer(what, "all"), answer("Only the sum: leave it out", "out")];
  }
  const rest = count - MOST_NAMED, some = rest > 1 ? [...names.slice(0, MOST_NAMED), `${rest} others`] : names;
  const others = [answer("One more player", "player"), answer("Leave it out", "out")];
  if (hasAll) return [`${listed(some)} have a line of all together. Is ${line} somebody else?`, ...others];
  return [`Is ${line} ${all} (${listed(some)}), or somebody of its own?`,
    answer(all[0].toUpperCase() + all.slice(1), "all"), ...others];
}

/** What is asked of parts that have users, and the answers. */
function partsAsked({ users, isGroups }) {
  return [`Each line is a part with its cost and who uses it: ${usersText(users)}. Shall each group cost the parts `
    + "that somebody of it uses?",
  ["Yes, make the table of groups", { isParts: true }],
  ...(isGroups ? [[AS_GROUPS, { isParts: true, isGroups: true }]] : []),
  ["No", { isParts: false }]];
}

/** What is asked of a number that can be read in two ways, where it has to be known, and the answers. */
export function markAsked({ doubt }) {
  const texts = [",", "."].map((mark) => quotedText(readNumber(doubt, mark).value, mark)).reverse();
  return [`“${withEscapes(doubt)}” can be read as ${texts[0]} or as ${texts[1]}. Which is meant?`,
    ...texts.map((text, k) => [text, { by: [".", ","][k] }])];
}

/** Which group a number was read as, where the orders differ. */
export function placeOf({ place, number, mask }, names) {
  return place ? ` Number ${place}, ${withEscapes(number)}, is that of ${groupLabel(names, mask)}.` : "";
}

/** Groups that cost more than a larger one, each with it; of very many the first ones. */
export function namedGroups(above) {
  const named = above.filter(Boolean), rest = above.length - named.length;
  return named.length > 0 && el("details", { class: "named" }, el("summary", {}, "Which, and the larger groups"),
    el("ul", {}, named.map((text) => el("li", {}, text)), rest > 0 && el("li", {}, `and ${rest} more`)));
}
