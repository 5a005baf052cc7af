// Standard input and output of Node, and the module of the page: what the commands share.
import fs from "node:fs";
import { isatty } from "node:tty";
import { moduleIn } from "./inside.js";

/** One byte more than any document may have. */
export const MOST = 8 * 1024 * 1024 + 1;
/** What the commands end with if reading or writing fails, and if there is no answer. */
export const READ_FAULT = 5;
export const WRITE_FAULT = 6;
export const NO_ANSWER = 70;
const MOST_PAUSE = 50; // milliseconds

/** A call of the system failed, for which the program has a status. */
export class PortFault extends Error {
  name = "PortFault";

  constructor(status, cause) {
    super(`${cause}`, { cause });
    this.status = status;
  }
}

/** The module inside the page, compiled. */
export function pageModule() {
  return new WebAssembly.Module(moduleIn(pageText()));
}

/** The version of the program inside the page, and the file of runtime/ that answers by it, as a line. */
export function versionLine(file) {
  const found = pageText().match(/The program inside: coop (\S+), of the sources/);
  if (!found) throw new Error("the page doesn't name its version");
  return Buffer.from(`coop ${found[1]}, answered by runtime/${file} under Node ${process.version}\n`);
}

function pageText() {
  return fs.readFileSync(new URL("../../page/coop.html", import.meta.url), "latin1");
}

/** Whether there is a file of this name. */
export function isThere(name) {
  return fs.existsSync(name);
}

/** The number of a file that is opened for reading. */
export function opened(name) {
  return moved(() => fs.openSync(name, "r"), READ_FAULT);
}

/** The bytes of a document: of standard input, 0, or of a file that is open. People who have to type it are told. */
export function documentOf(port) {
  if (port === 0 && isatty(0) && isatty(2)) {
    console.error("coop: type or paste the document, then Ctrl-D; or give a file: coop COMMAND FILE");
  }
  const bytes = Buffer.alloc(MOST);
  let count = 0;
  for (let more; count < MOST && (more = readTo(bytes, count, port)) > 0; ) count += more;
  return bytes.subarray(0, count);
}

/** Reads some bytes of a port to a place of a buffer: how many, and 0 at the end of the input. */
export function readTo(bytes, place, port = 0) {
  return moved(() => fs.readSync(port, bytes, place, bytes.length - place, null), READ_FAULT);
}

/** Writes all of some bytes to standard output. */
export function print(bytes) {
  for (let count = 0; count < bytes.length; ) count += moved(() => fs.writeSync(1, bytes, count), WRITE_FAULT);
}

// What a call of the system gives, such as how many bytes it moved. While a pipe isn't ready it is tried again, ever
// less often: to ask costs the processor, and whoever reads may be slow.
function moved(call, status) {
  for (let pause = 1; ; pause = Math.min(2 * pause, MOST_PAUSE)) {
    try {
      return call();
    } catch (fault) {
      // So the end of a pipe is told on Windows.
      if (fault.code === "EOF") return 0;
      if (fault.code !== "EAGAIN") throw new PortFault(status, fault);
      Atomics.wait(new Int32Array(new SharedArrayBuffer(4)), 0, 0, pause);
    }
  }
}
