// What was given to be checked: each file by its name, size and SHA-256, so that a printed check can be tied to them.
import { countText } from "../exact/decimals.js";
import { leftOut } from "../tell/mail.js";
import { el } from "./dom.js";
import { fingerprint } from "./files.js";

const undoneText = (what, given) => `What a mail program had done to the ${what} was undone before it was read. `
  + `Left out: ${leftOut(given)}.`;

/** Where a line and the agreed file come from; {ofLine, ofGame} are as a place for texts says it. */
export function givenParts({ line, agreed }, { ofLine, ofGame }) {
  const small = (text) => el("small", { class: "fingerprint" }, text);
  const undone = ({ given }, what) => given !== undefined && small(undoneText(what, given));
  return [
    oneGiven("The line", ofLine.given ?? line, ofLine), undone(ofLine, "line"),
    agreed.trim() ? oneGiven(ofGame.ofCase ? "The game" : "The agreed file", ofGame.given ?? agreed, ofGame)
      : small("No agreed file was given."), undone(ofGame, "agreed file"),
  ];
}

function oneGiven(what, text, { ofCase, name = ofCase ? "from your case" : "pasted text", size }) {
  const bytes = size ?? new TextEncoder().encode(text).length;
  return fingerprint(text, `${what} (${name}, ${countText(bytes)} bytes), as it was given, has the SHA-256 `);
}
