// A place to drop, choose or paste a text.
import { countText } from "../exact/decimals.js";
import { withEscapes } from "../game/names.js";
import { button, el } from "./dom.js";

export const MOST_BYTES = 8388608; // of a text that is read at all
const MOST_SHOWN = 200000; // characters of a text in a text area
const WAIT = 250;

const NO_TEXT = "is no text. If it is a workbook or a PDF, open it in its own program, copy the cells or lines there, "
  + "and paste them here.";
const TOO_LONG = "This is longer than 8 MB, so it is no document or line of the program, and isn’t read.";

const MARKED = { "255,254": "utf-16le", "254,255": "utf-16be" }; // by the first two bytes

/** The text of the one file that was given, and where it is from: {text, from}, or {fault} where there are several, or
 * it is too long, empty, or isn't a text. */
export async function textOfFile([file, ...others]) {
  const name = withEscapes(file.name), { size } = file;
  if (others.length) return { fault: `These are ${others.length + 1} files. Give one at a time.` };
  if (size > MOST_BYTES) return { fault: TOO_LONG };
  if (!size) return { fault: `${name} is empty.` };
  try {
    return textOfBytes(new Uint8Array(await file.arrayBuffer()), { name, size });
  } catch {
    return { fault: `${name} can’t be read. If it is a folder, give a file of it.` };
  }
}

/** Bytes as a text. One of two bytes a letter, as spreadsheets save it, may be a table: no fingerprint is worked out of
 * that. */
export function textOfBytes(bytes, from) {
  const wide = MARKED[bytes.slice(0, 2).join()], { name } = from;
  try {
    const text = new TextDecoder(wide ?? "utf-8", { fatal: true, ignoreBOM: !wide }).decode(bytes);
    if (!text.includes("\0") && !(wide && text.includes("{"))) return { text, from };
  } catch {
    // said below
  }
  if (!wide && bytes.includes(0)) return { fault: `${name} ${NO_TEXT}` };
  const help = "Save it anew as UTF-8, or open it, copy its text, and paste it here.";
  return { fault: `${name} isn’t a text in UTF-8. ${help}` };
}

/** What is said of where a text is from; nothing of one that was pasted. */
function fromText({ name, size, given, ofCase }) {
  if (ofCase) return `From your case, “${ofCase}”. If another file was agreed on, give that one.`;
  const file = name && `${name}, ${countText(size)} bytes`;
  const without = given !== undefined && "without what the mail program added";
  return file && without ? `${file}, ${without}` : file || (without ? `It is read ${without}.` : "");
}

/** The element of a place; `onText(text, from)` is called with each new text. `from` is {name, size} of a file, and {}
 * of what was pasted; it has `given`, the text as it came, where that was mended, and `fault` where it can't be taken,
 * and then there is no text. The element's `setText(text, from)` puts one there. */
export function textPlace({ title, hint, rows = 4, onText }) {
  return new TextPlace({ title, hint, rows, onText }).element;
}

class TextPlace {
  constructor({ title, hint, rows, onText }) {
    Object.assign(this, { onText, turn: 0 });
    this.name = el("span", { class: "hint", role: "status" });
    this.area = el("textarea", {
      rows: String(rows), placeholder: "Paste it here", spellcheck: "false", "aria-label": title,
      on: { input: () => this.later(), paste: (event) => this.paste(event) },
    });
    this.chooser = el("input", {
      type: "file", accept: ".json,.txt,.csv,.tsv,application/json,text/*", class: "away",
      tabindex: "-1", "aria-hidden": "true", on: { change: () => this.take(this.chooser.files) },
    });
    this.element = el("div", { class: "drop", on: {
      dragover: (event) => this.over(event, true), dragleave: (event) => this.over(event, false),
      drop: (event) => this.drop(event),
    } }, el("p", { class: "field" }, title), el("p", { class: "hint" }, hint), this.area,
    el("p", {}, button("Choose a file", () => this.chooser.click(), {
      class: "quiet", "aria-label": `Choose a file: ${title}`,
    }), " or drop it here. ", this.name),
    this.chooser);
    this.element.setText = (text, from) => this.setText(text, from);
  }

  over(event, isOver) {
    event.preventDefault();
    this.element.classList.toggle("over", isOver);
  }

  later() {
    this.turn += 1;
    this.name.textContent = "";
    clearTimeout(this.timer);
    this.timer = setTimeout(() => this.onText(this.area.value, {}), WAIT);
  }

  /** A long text would keep a text area busy, so it is read without being shown. */
  paste(event) {
    const text = event.clipboardData?.getData("text/plain") ?? "";
    if (text.length <= MOST_SHOWN) return;
    event.preventDefault();
    this.setText(text);
  }

  drop(event) {
    this.over(event, false);
    event.stopPropagation();
    const { files } = event.dataTransfer, text = event.dataTransfer.getData("text/plain");
    if (!files.length && text) this.setText(text);
    else this.take(files);
  }

  async take(files) {
    if (!files.length) return;
    const mine = (this.turn += 1), { text, from, fault } = await textOfFile(files);
    this.chooser.value = "";
    if (mine === this.turn) this.setText(text ?? "", from ?? { fault }); // else another text came meanwhile
  }

  /** What is said of a text goes with it; one that can't be taken leaves nothing of the one before. */
  setText(text, from = {}) {
    if (text.length > MOST_BYTES) return this.setText("", { fault: TOO_LONG });
    const isLong = text.length > MOST_SHOWN;
    this.turn += 1;
    clearTimeout(this.timer);
    this.area.value = isLong ? "" : text;
    this.area.placeholder = isLong ? "The text is too long to show; it is read all the same." : "Paste it here";
    this.name.textContent = from.fault ?? fromText(from);
    return this.onText(text, from);
  }
}
