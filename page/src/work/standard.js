// The file that the page itself makes of a game, by whose sum people compare what they have.
import { openDocument, readCase } from "./cases.js";
import { areOfOneGame } from "./lines.js";

/** The text of that file; null if the page makes none of this document, or another game of it: it trims names, and
 * names players that have no name. */
export function standardText({ text }) {
  try {
    const { id, typed, measure, refusal } = openDocument({ text, mark: "." });
    const made = refusal ? {} : readCase({ id, typed, mark: ".", measure });
    return made.text && areOfOneGame(text, made.text) ? `${made.text}\n` : null;
  } catch {
    return null;
  }
}
