#!/usr/bin/env node
// coop as one process that stays, for a program that asks many times: requests on standard input, answers in their
// order on standard output, by the module inside coop.html.
//
//     node runtime/serve.mjs [--tell]
//     node runtime/serve.mjs --lines COMMAND[,COMMAND..] < DOCUMENTS
//
// With --lines each line of the input is a document, and each answer a line: the status, a blank, and the program's
// line. After a status of 7 nothing follows, and after 70 the reason. With several commands each document has one line
// for each.
//
// Otherwise a request is two numbers of four bytes, the lowest byte first: how many bytes the words have, and how many
// the document. The words follow, with a zero byte between each two, and then the document. An answer is two such
// numbers, the status and how many bytes the line has, and the line. If the module stops, the status is 70, and the
// line says why. The first answer comes before any request, has the status 0 and no line, and says that the module is
// there. The word --version asks for the version. With --tell the first word may be tell (telling.mjs), for the Python
// package: what it asks for, the program doesn't do.
//
// The process ends with 0 if the input ends between two requests, 2 if the options are none of the above or a word
// after --lines is no command on a document, 5 if the input ends within a request, has one that is too long, or can't
// be read, 6 if an answer can't be written, and 70 if a file of the page is missing or the module can't be compiled.
// SIGINT doesn't end it, unless --lines is there.
import { setFlagsFromString } from "node:v8";
import { runInNewContext } from "node:vm";

const MOST_WORDS = 64 * 1024;
const MOST_TOLD = 32 * 1024 * 1024; // bytes of a document, which are several texts for tell
const CHUNK = 64 * 1024;
const HEAD = 8; // bytes of the two numbers
const NEWLINE = 10;
const USAGE = 2;
const REFUSED = 3;
const WRITE_FAULT = 6;
const OUT_OF_MEMORY = 7;
const NO_ANSWER = 70;

/** The bytes of standard input. What a call gives is there until the next call. */
class Input {
  #ports;
  #bytes = Buffer.alloc(CHUNK);
  #from = 0;
  #to = 0;

  constructor(ports) {
    this.#ports = ports;
  }

  /** How many bytes were read and not yet taken. */
  get left() {
    return this.#to - this.#from;
  }

  /** The next bytes, so many; or null if the input ends before. */
  take(count) {
    if (this.left < count && !this.#fill(count)) return null;
    this.#from += count;
    return this.#bytes.subarray(this.#from - count, this.#from);
  }

  /** The next line without its end, or null if there is none. One that is longer than any document is cut. */
  line() {
    for (let looked = 0; ; ) {
      const at = this.#bytes.subarray(this.#from + looked, this.#to).indexOf(NEWLINE);
      if (at >= 0) return this.take(looked + at + 1).subarray(0, -1);
      looked = this.left;
      if (looked > this.#ports.MOST) return this.#cut(looked);
      if (!this.#fill(looked + 1)) return looked ? this.take(looked) : null;
    }
  }

  // The first bytes of a line whose end is still to come, which is passed over.
  #cut(looked) {
    const start = Buffer.from(this.take(looked).subarray(0, this.#ports.MOST));
    for (let next; (next = this.take(this.left || 1)) !== null; ) {
      const at = next.indexOf(NEWLINE);
      if (at < 0) continue;
      this.#from -= next.length - at - 1;
      break;
    }
    return start;
  }

  // Whether so many bytes could be read beside each other.
  #fill(count) {
    const kept = this.#bytes.subarray(this.#from, this.#to);
    // A line grows by and by, so there is always room for as much again.
    const room = count > this.#bytes.length ? Math.max(count, 2 * this.#bytes.length) : this.#bytes.length;
    const bytes = room > this.#bytes.length ? Buffer.alloc(room) : this.#bytes;
    kept.copy(bytes);
    [this.#bytes, this.#from, this.#to] = [bytes, 0, kept.length];
    while (this.#to < count) {
      const more = this.#ports.readTo(bytes, this.#to);
      if (more === 0) return false;
      this.#to += more;
    }
    return true;
  }
}

/** The next request, or null if there is none. */
function requestOf(input, { MOST, READ_FAULT, PortFault }, tells) {
  const head = input.take(HEAD);
  if (head === null && input.left === 0) return null;
  const [words, document] = head ? [head.readUInt32LE(0), head.readUInt32LE(4)] : [0, 0];
  if (words > MOST_WORDS || document > MOST_TOLD) {
    throw new PortFault(READ_FAULT, `a request of ${words} and ${document} bytes`);
  }
  const all = head && input.take(words + document);
  if (!all) throw new PortFault(READ_FAULT, "the input ends within a request");
  const typed = all.subarray(0, words).toString("utf8").split("\0"), rest = all.subarray(words);
  const isTold = tells && typed[0] === "tell";
  return { words: words ? typed : [], document: isTold ? rest : rest.subarray(0, MOST), isTold };
}

/** An answer as a frame. */
function framed({ status, line }) {
  const bytes = Buffer.alloc(HEAD + line.length);
  bytes.writeUInt32LE(status, 0);
  bytes.writeUInt32LE(line.length, 4);
  bytes.set(line, HEAD);
  return bytes;
}

let telling = null; // what the page tells, if it was asked for
let collect = null; // V8's own call that gives memory back, if it was needed

/** The answer of the module, or why there is none. */
function answerOf(engine, { words, document, isTold }) {
  try {
    if (isTold) return telling.told(engine, words.slice(1), document);
    const answer = engine.run(words, document);
    if (engine.memory === null) giveBack();
    return answer;
  } catch (fault) {
    if (fault instanceof RangeError) return { status: OUT_OF_MEMORY, line: new Uint8Array(0) };
    return { status: NO_ANSWER, line: Buffer.from(`${fault.message}`) };
  }
}

/** Gives back the memory of an instance that the engine has dropped: left to itself V8 kept 1.3 GB. */
function giveBack() {
  if (collect === null) {
    setFlagsFromString("--expose-gc");
    collect = runInNewContext("gc");
  }
  collect(); // which finds that nobody has the instance
  collect(); // which frees its memory
}

async function serveFrames(engine, ports, tells) {
  process.on("SIGINT", () => {}); // Ctrl-C in a terminal reaches this process, too
  ports.print(framed({ status: 0, line: new Uint8Array(0) }));
  const input = new Input(ports);
  for (let request; (request = requestOf(input, ports, tells)) !== null; ) {
    if (request.isTold) telling ??= await import("./telling.mjs");
    const isVersion = request.words.length === 1 && request.words[0] === "--version";
    const answer = isVersion ? { status: 0, line: ports.versionLine("serve.mjs") } : answerOf(engine, request);
    ports.print(framed(answer));
  }
}

function serveLines(engine, ports, commands) {
  const input = new Input(ports);
  for (let document; (document = input.line()) !== null; ) {
    for (const command of commands) {
      const { status, line } = answerOf(engine, { words: [command], document });
      const end = line.at(-1) === NEWLINE ? "" : "\n";
      ports.print(Buffer.concat([Buffer.from(`${status} `), line, Buffer.from(end)]));
    }
  }
}

async function serve({ commands, tells }) {
  const [ports, { Engine }] = await Promise.all([import("./engine/ports.js"), import("./engine/host.js")]);
  const engine = new Engine(ports.pageModule());
  const wrong = commands?.find((command) => !reads(engine, command));
  if (wrong !== undefined) return `${JSON.stringify(wrong.slice(0, 60))} is no command on a document`;
  if (commands) serveLines(engine, ports, commands);
  else await serveFrames(engine, ports, tells);
  return "";
}

/** Whether a word is a command on a document: it refuses an empty one, and nothing else ends so. */
function reads(engine, command) {
  return engine.run([command], new Uint8Array(0)).status === REFUSED;
}

/** What the words of the call ask for, or null. */
function askedBy([option, commands, ...more]) {
  if (option === undefined || (option === "--tell" && commands === undefined)) return { tells: option !== undefined };
  const isList = option === "--lines" && commands !== undefined && more.length === 0;
  return isList ? { commands: commands.split(",") } : null;
}

async function main(words) {
  const asked = askedBy(words);
  if (asked === null) {
    console.error("usage: node runtime/serve.mjs [--tell | --lines COMMAND[,COMMAND..]]");
    return USAGE;
  }
  try {
    const wrong = await serve(asked);
    if (wrong) console.error(`coop: ${wrong}`);
    return wrong ? USAGE : 0;
  } catch (fault) {
    if (fault.status !== WRITE_FAULT) console.error(`coop: no answer: ${fault.message}`);
    return fault.name === "PortFault" ? fault.status : NO_ANSWER;
  }
}

process.exit(await main(process.argv.slice(2)));
