// The module of WebAssembly inside a page, which has it as its one long text in base64 that begins as gzip does.
import { gunzipSync, gzipSync } from "node:zlib";

const BEGINNING_AND_ALL = /H4sI[A-Za-z0-9+/]{1000,}={0,2}/g;

/** The module in the text of a page, as it stands there: packed by gzip, and in base64. */
export function packedIn(page) {
  const found = page.match(BEGINNING_AND_ALL) ?? [];
  if (found.length !== 1) throw new Error(`the page has ${found.length} modules, and not one`);
  return found[0];
}

/** The bytes of a packed module. */
export function unpacked(text) {
  return gunzipSync(Buffer.from(text, "base64"));
}

/** A module as a page has it. Other versions of gzip may pack otherwise; what is unpacked is the same. */
export function packed(module) {
  return gzipSync(module, { level: 9 }).toString("base64");
}

/** The bytes of the module in the text of a page. */
export function moduleIn(page) {
  return unpacked(packedIn(page));
}
