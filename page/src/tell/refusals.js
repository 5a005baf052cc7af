// Why the program refuses a document, in the user's words, with the place where the page finds it.
import { slipsOf } from "./slips.js";

/** The names of the refusals, as the program writes them. */
export const REFUSALS = {
  1: "TooLong", 2: "NotJson", 3: "Shape", 4: "Players", 5: "Number", 6: "Names", 7: "Coalition", 8: "Estate",
  9: "Matrix", 10: "Proposal", 11: "TooFine", 12: "Certificate", 13: "Quota",
};
const SENTENCES = {
  1: "The document is longer than the program takes: 2 MB, and 8 MB to check.",
  2: "It isn’t a JSON text in UTF-8.",
  3: "The document doesn’t have the form that the program reads.",
  4: "It has too many players, or the number of its items doesn’t fit.",
  5: "The program doesn’t take one of the numbers.",
  6: "Something is wrong with the names.",
  7: "A group is given wrongly, or twice.",
  8: "The claims add to less than the estate. Then each gets its claim, and no rule is needed.",
  9: "The rows of the matrix don’t fit together.",
  10: "There has to be one share for each player.",
  11: "The shares are too fine: their common denominator, or a share, is too large.",
  12: "The certificate doesn’t have its form.",
  13: "The quota has to be from 1 to all votes together, and these add to at most 1,000.",
};
const USAGES = {
  players: "The game has too many players for this question.",
  class: "The program doesn’t answer this question for this class.",
};

/** {sentence, place} for the line of a refusal, or of a usage, and the document that a command refused; without the
 * document the sentence of its number. */
export function refusalText(line, data = null, command = "") {
  if (line.usage) return { sentence: USAGES[line.usage] ?? "The program doesn’t know this command." };
  const number = Number(line.number);
  const found = data === null ? null : slipsOf(data, command).find((slip) => slip.number === number);
  return found ?? { number, sentence: SENTENCES[number] ?? "The program refused the document." };
}
