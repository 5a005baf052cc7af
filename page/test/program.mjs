// The program as the page's modules ask it: for tests that Node runs.
import { readFileSync } from "node:fs";
import { packedIn } from "../../runtime/engine/inside.js";
import { parseJson } from "../src/exact/json.js";
import { refusalText } from "../src/tell/refusals.js";
import { solve, warmUp } from "../src/work/engine.js";

globalThis.self = { program: packedIn(readFileSync(new URL("../coop.html", import.meta.url), "utf8")) };
await warmUp();

/** What work/answers.js gives: {status, tree, refusal}. */
export function ask(word, document) {
  const { status, line } = solve([word], document), tree = status > 3 ? {} : parseJson(line);
  return { status, tree, refusal: status > 1 ? refusalText(tree, document, word) : undefined };
}

/** The line that the program prints for a document. */
export function lineOf(word, document) {
  const { status, line } = solve([word], document);
  if (status > 1) throw new Error(`${word} ends with ${status}: ${line}`);
  return line;
}
