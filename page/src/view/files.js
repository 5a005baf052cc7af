// Texts that are handed on: to save, to copy, to look at, and their fingerprint.
import { countText } from "../exact/decimals.js";
import { button, copy, download, el } from "./dom.js";

const MOST_SHOWN = 3000;

export function fileButtons(text, name) {
  return el("span", { class: "files" },
    button(`Save ${name}`, () => download(name, text)),
    button("Copy", (event) => copy(text, event.target), { class: "quiet", "aria-label": `Copy ${name}` }));
}

export function shown(title, text) {
  const isLong = text.length > MOST_SHOWN, count = countText(text.length);
  return el("details", { class: `file${isLong ? " long" : ""}` },
    el("summary", {}, title, el("small", {}, ` ${count} characters`)),
    el("pre", { tabindex: "0", role: "region", "aria-label": title },
      isLong ? `${text.slice(0, MOST_SHOWN)} …` : text));
}

const MOST_KNOWN = 8;
const known = new Map(); // the last texts whose SHA-256 was worked out

/** The SHA-256 of a text, by which people see that they have the same file; null where the browser has none. */
export async function digestOf(text) {
  const bytes = await globalThis.crypto?.subtle?.digest("SHA-256", new TextEncoder().encode(text));
  const digest = bytes ? [...new Uint8Array(bytes)].map((byte) => byte.toString(16).padStart(2, "0")).join("") : null;
  known.delete(text);
  known.set(text, digest);
  if (known.size > MOST_KNOWN) known.delete(known.keys().next().value);
  return digest;
}

export function fingerprint(text, lead = "SHA-256 of the file: ") {
  const place = el("small", { class: "fingerprint" });
  digestOf(text).then((digest) => (place.textContent = digest ? `${lead}${digest}` : ""));
  return place;
}

/** The SHA-256 of a text whose fingerprint was shown lately; paper can't wait for one. */
export function knownDigest(text) {
  return known.get(text) ?? null;
}
