// What is dropped on the page beside the places for files. A line with a certificate is checked, a document opened, and
// any other text goes into the case that is open, as if it were pasted into its first cell.
import { isProgramText } from "../cases/saved-tables.js";
import { textOfFile } from "./text-place.js";

const hasFiles = ({ dataTransfer: data }) => [...(data?.types ?? [])].includes("Files");
const isInField = (event) => !hasFiles(event) && Boolean(event.target.closest?.("input, textarea"));

/** Whether a text is a line to check. */
export const hasCertificate = (text) => /"certificate"\s*:/.test(text);

/** `toLine(text, from)` has a line checked, `toDocument(text, from)` opens a text, and `toCase(text, fault)` gives one
 * to the case that is open, or tells there why none can be read; without such a case it says false. */
export function takeDrops({ toLine, toDocument, toCase }) {
  const take = ({ text = "", from = {}, fault }) => {
    if (hasCertificate(text)) return toLine(text, from);
    if (!isProgramText(text) && toCase(text, fault)) return undefined;
    return toDocument(text, fault ? { fault } : from);
  };
  addEventListener("dragover", (event) => isInField(event) || event.preventDefault());
  addEventListener("drop", async (event) => {
    if (isInField(event)) return dropInField(event);
    event.preventDefault();
    const { files } = event.dataTransfer ?? {}, text = event.dataTransfer?.getData("text/plain");
    if (files?.length) return take(await textOfFile(files));
    return text && take({ text });
  });
}

/** A text that is dropped into a field is as one that is pasted there; what a field doesn't hold isn't taken. */
function dropInField(event) {
  const { target, dataTransfer: data } = event, text = data.getData("text/plain");
  const paste = new Event("paste", { bubbles: true, cancelable: true });
  paste.clipboardData = { getData: () => text };
  const isTaken = !target.dispatchEvent(paste);
  if (isTaken || (target.matches("input") && /[\t\n]/.test(text.trim()))) event.preventDefault();
}
