// What is asked of a list of groups that can hardly be meant as it was read: {fault, way} or {fault, ways}.
import { withEscapes } from "../game/names.js";
import { listed } from "../game/words.js";

const MOST_TOLD = 4; // names without a line

/** Asks whether one of four or more is a player who is in no group but that of all, while the others are in each, but
 * perhaps in that of all of them; undefined if there is none. */
export function apartText(numbers, names, roles) {
  const n = names.length, all = numbers.length - 1;
  const given = numbers.flatMap((text, mask) => (mask && mask !== all && text !== "" ? [mask] : []));
  const isApart = (_, i) => given.every((mask) => mask === 1 << i || !((mask >> i) & 1));
  const name = n > 3 && given.length >= 2 ** (n - 1) - 1 ? names.find(isApart) : undefined;
  return name === undefined ? undefined : {
    fault: `“${withEscapes(name)}” is in no group but that of all, as the others are. Is it a player?`,
    ways: [["Leave it out", { roles: { ...roles, [name]: "out" } }], ["Yes, a player", { isPlayer: true }]],
  };
}

/** What is said of a list that gives hardly any group a number. */
export function sparseText(names, count) {
  const some = names.slice(0, 3).map((name) => `“${withEscapes(name)}”`).join(", ");
  const fault = `So read, these are ${names.length} players (${some} …), and ${count} of ${2 ** names.length - 1} `
    + "groups have no number. A group is its members with + between them, such as Sales+Ops. Is it meant so?";
  return { fault, way: ["Yes, take it", { isSparse: true }] };
}

/** What is said of names that are in groups and have no line alone. */
export function missingText(missing, read, isCost) {
  const [name, ...others] = missing, { line } = read.find(({ members }) => members.includes(name));
  if (!name) return { fault: `${line}Beside a + a member is missing. Write it, or leave the + out.` };
  const some = listed(others.slice(0, MOST_TOLD).map((one) => `“${withEscapes(one)}”`));
  const more = `${some && `, nor for ${some}`}${others.length > MOST_TOLD ? " and others" : ""}`;
  const fault = `${line}There is no line for “${withEscapes(name)}” alone${more}. Add a line for each player alone, or `
    + "write the names as there.";
  return { fault, way: isCost ? undefined : ["Each of them gains 0 alone", { isZeroAlone: true }] };
}
