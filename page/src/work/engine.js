// The proved program itself, compiled to WebAssembly. The page has the module by gzip and in base64, and view/helper.js
// gives it to each worker as `self.program`.
import { unpacked } from "../exact/unpacked.js";
import { Engine } from "../../../runtime/engine/host.js";

let engine = null, fault = null;

/** Unpacks and compiles the module; all that asks the program has to wait for it. It never fails: `solve` does. */
export async function warmUp() {
  try {
    const module = await unpacked(self.program, "gzip").arrayBuffer();
    engine ??= new Engine(await WebAssembly.compile(module));
  } catch (cause) {
    fault = cause;
  }
}

/** Answers a document by the program: the status that it ends with, and the line that it prints. */
export function solve(words, document) {
  if (!engine) {
    throw new Error(`The program doesn’t start in this browser: ${fault?.message ?? "it wasn’t asked to"}`);
  }
  const { status, line } = engine.run(words, new TextEncoder().encode(document));
  return { status, line: new TextDecoder().decode(line) };
}
