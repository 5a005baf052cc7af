// By what a case that the page saved is known.
import { isObject } from "../exact/json.js";

export const WORD = "coop-page";

export function isCaseFile(tree) {
  return isObject(tree) && WORD in tree;
}
