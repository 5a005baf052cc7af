// The page's worker, as it is in page/coop.html, for tests that Node runs.
import { readFileSync } from "node:fs";
import vm from "node:vm";
import { inflateSync } from "node:zlib";

const PAGE = readFileSync(new URL("../coop.html", import.meta.url), "utf8");
const spoken = { mark: ".", thousands: "\u202f" };

/** A part of the page's code, as a browser reads it. */
export function codeOf(id) {
  const [, code] = new RegExp(`<script[^>]*id="${id}"[^>]*>([^]*?)</script>`).exec(PAGE);
  return code.replace(/<\\\/script/gi, "</script").replace(/<\\!--/g, "<!--");
}

/** A worker: `ask(task, what, about)` as view/helper.js asks, but `about` is sent as it is. */
export function started() {
  const waiting = new Map(), self = {
    program: codeOf("program"),
    postMessage: ({ id, result, fault }) => waiting.get(id)(fault === undefined ? result : new Error(fault)),
  };
  const given = { self, WebAssembly, Response, Blob, DecompressionStream, atob, TextEncoder, TextDecoder };
  const own = inflateSync(Buffer.from(codeOf("worker-code"), "base64"));
  vm.runInContext(`${codeOf("shared-code")}\n${own}`, vm.createContext(given));
  return (task, what = {}, about = {}) => new Promise((resolve) => {
    const id = waiting.size;
    waiting.set(id, resolve);
    self.onmessage({ data: structuredClone({ id, task, what, spoken, ...about }) });
  });
}
