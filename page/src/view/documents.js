// Documents that are opened: pasted, chosen, or dropped. A table is handed on to the case that it is of.
import { caseNamed, CASES } from "../cases/cases.js";
import { coarseOfName } from "../cases/coarse.js";
import { button, el, refill } from "./dom.js";
import { hasCertificate } from "./drops.js";
import { Helper } from "./helper.js";
import { digestOf } from "./files.js";
import { textPlace } from "./text-place.js";
import { withoutMail } from "./verdict.js";

const OF_A_LINE = "This is the game of a line, and the answer is worked out anew. “Check an answer” says whether the "
  + "line’s own shares are right.";

const UNKNOWN = "This file doesn’t say which numbers were assumed; a case that the page saved does.";

/** What is said above what was opened: of a line where it is checked, and whether it has other shares than the page
 * finds; of a table that nothing is known of cells that were filled; and what of a mail was `left` out. */
function notesOf({ other, notes }, isLine, isTable, left) {
  const told = other && `The line says of its game: ${other} The page finds other shares, which it shows here. `
    + "Somebody has changed the line, or it is of another game.";
  const mail = left && `It is read without what a mail program added: ${left}.`;
  return [mail, isLine && OF_A_LINE, told, ...(notes ?? (isTable ? [UNKNOWN] : []))].filter(Boolean);
}

export class Documents {
  /** `onOpen(kind, typed, settings)` opens a case; `onLine(text, from)` has a line checked; `onTable(id, text)` gives a
   * text to a case; `mark()` is the decimal mark. */
  constructor({ mark, onOpen, onLine, onTable }) {
    Object.assign(this, { mark, onOpen, onLine, onTable, turn: 0 });
    this.helper = new Helper();
    this.message = document.getElementById("document-message");
    refill(document.getElementById("document-body"), textPlace({
      title: "A document", rows: 8,
      hint: "A case that this page saved, a document such as {\"game\":{…}}, or a line of the program.",
      onText: (text, from) => this.open(text, { from }),
    }));
  }

  /** Opens a document as a case, or tells why it can't be. `doubt` is why its game isn't taken for the agreed one; a
   * text that `isChecked` isn't handed on to be; `from` says of which file it is. */
  async open(text, { doubt = "", isChecked = false, from = {} } = {}) {
    const mine = (this.turn += 1);
    this.helper.stop();
    refill(this.message);
    if (from.fault) this.tell({ sentence: from.fault });
    if (!text.trim()) return;
    try {
      const [found, digest] = await Promise.all([
        this.helper.ask("openDocument", { text, mark: this.mark() }), from.name && digestOf(text),
      ]);
      if (mine !== this.turn) return;
      if (found.refusal) this.tell(found.refusal, text);
      else this.openCase(caseNamed(found.id), found, { text, doubt, isChecked, from: { ...from, digest } });
    } catch (fault) {
      if (fault.message === "stopped") return;
      this.tell({ sentence: `The document couldn’t be opened: ${fault.message}.` });
    }
  }

  openCase(kind, found, { text, doubt, isChecked, from: { digest, left, ...from } }) {
    const hasOwn = hasCertificate(text), isLine = hasOwn && !isChecked;
    const notes = isChecked ? [] : notesOf(found, isLine, kind.isTable, left);
    const { measure, texts, more, settings, isCase } = found, typed = kind.unpack?.(found.typed) ?? found.typed;
    const isGame = from.name && !hasOwn && !isCase; // a line or a case isn't the game's file
    const file = isGame ? { name: from.name, digest } : null, coarse = coarseOfName(from.name);
    this.onOpen(kind, { ...typed, coarse, ...more }, { measure, texts, ...settings, doubt, notes, file });
    if (isLine) this.onLine(text, from);
  }

  /** Why a text isn't opened, and what can be done with it. */
  tell({ sentence, place, forCells, mended, left }, text) {
    const open = () => this.open(mended, { from: { left } });
    const into = ({ id, title }) => [button(title, () => this.onTable(id, text), { class: "quiet" }), " "];
    refill(this.message, el("div", { class: "notice bad", role: "alert" },
      el("p", {}, sentence), place && el("p", { class: "where" }, `Place: ${place}`),
      mended && withoutMail(button("Open it without what the mail program added", open), left),
      forCells && el("p", { class: "tools" }, CASES.map(into))));
  }
}
