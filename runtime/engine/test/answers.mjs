// Answers the runs on standard input by the module inside the page that stands above: for tools/gate/try-page.
//
// Each line is a run: words, the document in base64 and, where it is to begin with little room for the line or memory
// is to be refused, how. Each line printed is what came of it: status and line, in base64; or, where memory was
// refused, how many runs there were, how many of them ended with want of memory, and those that ended otherwise than
// they may. A run without limits has to come to the same in a new instance and in the one that many runs have had,
// which has to be left with the memory of a new one.
import fs from "node:fs";
import { coop, Engine } from "../host.js";
import { pageModule } from "../ports.js";

const OUT_OF_MEMORY = 7;
const PAGE = 65536;

const module = pageModule(), engine = new Engine(module);
const begun = Buffer.from(new WebAssembly.Instance(module, { heap: imports() }).exports.memory.buffer);
const ZEROS = Buffer.alloc(1 << 20);

function imports() {
  return Object.fromEntries(["alloc", "realloc", "dealloc"].map((name) => [`rattle_${name}`, () => {}]));
}

/** Whether a memory is that of a new instance, with nothing behind it. */
function isAsNew(memory) {
  if (Buffer.compare(memory.subarray(0, begun.length), begun) !== 0) return false;
  for (let at = begun.length; at < memory.length; at += ZEROS.length) {
    const part = memory.subarray(at, at + ZEROS.length);
    if (Buffer.compare(part, ZEROS.subarray(0, part.length)) !== 0) return false;
  }
  return true;
}

/** A run in the instance that earlier runs have had, compared with the one in a new instance. */
function again(words, document, whole) {
  const { status, line } = engine.run(words, document);
  if (status !== whole.status || Buffer.from(line).toString("base64") !== whole.line) return `${status} when wiped`;
  return engine.memory === null || isAsNew(engine.memory) ? status : `${status}, and the memory isn't wiped`;
}

function told(words, document, limits) {
  try {
    const { status, line, requests, memory } = coop(module, words, document, limits);
    return { status, line: Buffer.from(line).toString("base64"), requests, memory };
  } catch (fault) {
    return { status: `${fault}`, line: "", requests: 0, memory: 0 };
  }
}

/** The run with each of many limits: it has to end as without, or with want of memory and no line. */
function limited(words, document, whole, all) {
  const others = [];
  let [runs, wanting] = [0, 0];
  for (const limits of all) {
    const found = told(words, document, limits);
    runs += 1;
    if (found.status === OUT_OF_MEMORY && found.line === "") wanting += 1;
    else if (found.status !== whole.status || found.line !== whole.line) others.push([limits, found.status]);
  }
  return { runs, wanting, others };
}

/** Each request for memory refused in its turn. */
function* refusals(whole) {
  for (let refused = 1; refused <= whole.requests; refused += 1) yield { refused };
}

/** Limits that rise by a page of memory, to where the run has all that it took. */
function* risingLimits(whole) {
  for (let most = PAGE; most <= whole.memory; most += PAGE) yield { most };
}

function answer({ words, data, room, refusing, limiting }) {
  const document = Buffer.from(data, "base64");
  const whole = told(words, document, { room });
  if (refusing) return limited(words, document, whole, refusals(whole));
  if (limiting) return limited(words, document, whole, risingLimits(whole));
  return [again(words, document, whole), whole.line];
}

for (const row of fs.readFileSync(0, "utf8").split("\n")) console.log(JSON.stringify(answer(JSON.parse(row))));
