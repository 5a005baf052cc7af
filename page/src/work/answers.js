// Questions to the program, and its answers as the page needs them.
import { parseJson, writeJson } from "../exact/json.js";
import { refusalText } from "../tell/refusals.js";
import { solve } from "./engine.js";

/** The game and the certificate of a line, which may be long. No text in a line has a quote without a stroke before it,
 * so these keys are keys. */
const LONG = /"certificate":\{.*\},"game":\{.*\},(?="shares":)/s;

/** The answer of the program to a document: its status, its line, and what the line says without the game and the
 * certificate. Of a refusal the sentence and the place are beside. */
export function answer(word, document) {
  const { status, line } = solve([word], document);
  if (status > 3) return { status, line: "", tree: {} };
  const { game, certificate, ...tree } = parseJson(line.replace(LONG, ""));
  const refusal = status > 1 ? refusalText(tree, document, word) : undefined;
  return { status, line, tree, refusal };
}

/** The shares that the program prints for a game, as texts; the prenucleolus where there is no nucleolus. */
export function solutionOf(tree, word = "nucleolus") {
  const document = writeJson({ game: tree });
  let found = answer(word, document);
  if (word === "nucleolus" && found.status === 1) found = answer("prenucleolus", document);
  if (found.status > 0) throw new Error(found.refusal?.sentence ?? `The program ended with status ${found.status}.`);
  return { key: found.tree.answer, shares: found.tree.shares };
}
