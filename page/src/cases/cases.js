// The cases that the page offers, in the order of its start.
import { estate, runway } from "./lists.js";
import { market, network } from "./matrices.js";
import { costs, gains } from "./tables.js";
import { votes } from "./votes.js";

export const CASES = [runway, estate, costs, gains, network, market, votes];

export function caseNamed(id) {
  return CASES.find((kind) => kind.id === id);
}

export function caseOfClass(name) {
  return CASES.find(({ classes }) => classes.includes(name));
}
