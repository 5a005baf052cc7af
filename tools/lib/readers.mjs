// What the readers in JavaScript say of documents: for tools/gate/try-checkers and tools/gate/fuzz-same-game.
//
//     node tools/lib/readers.mjs TOP
//
// A request is a line {"command", "bytes" in base64, "agreed"}; so is the answer: what the module of the page says
// (status and line), the page's checker, the number of the first slip that the page finds, whether its look at lines ends
// by an exception, and where there is an agreed document, what the two games are to each other. A "fault" stands in the
// place of what threw.
import fs from "node:fs";
import { join, resolve } from "node:path";
import { createInterface } from "node:readline";
import { pathToFileURL } from "node:url";

const top = resolve(process.argv[2]);
const load = (path) => import(pathToFileURL(join(top, path)).href);
const { Engine } = await load("runtime/engine/host.js");
const { moduleIn } = await load("runtime/engine/inside.js");
const { parseJson } = await load("page/src/exact/json.js");
const { checkAnew } = await load("page/src/check/check-anew.js");
const { slipsOf } = await load("page/src/tell/slips.js");
const { lookAtLine } = await load("page/src/work/lines.js");
const page = fs.readFileSync(join(top, "page", "coop.html"), "latin1");
const engine = new Engine(new WebAssembly.Module(moduleIn(page)));
const strict = new TextDecoder("utf-8", { fatal: true, ignoreBOM: true });

/** What the page's work asks the program, which stands in the page alone. */
function ask(word, document) {
  const { status, line } = engine.run([word], new TextEncoder().encode(document));
  const tree = status > 3 ? {} : parseJson(new TextDecoder().decode(line));
  return { status, tree, refusal: status > 1 ? { sentence: `refused, ${status}`, place: "" } : undefined };
}

function tried(call) {
  try {
    return call();
  } catch (fault) {
    return { fault: `${fault.name}: ${fault.message}`.slice(0, 300) };
  }
}

function decoded(data) {
  try {
    return strict.decode(data);
  } catch {
    return null;
  }
}

function answer({ command, bytes, agreed }) {
  const data = new Uint8Array(Buffer.from(bytes, "base64")), text = decoded(data);
  const found = {
    module: tried(() => {
      const { status, line } = engine.run([command], data);
      return { status, line: Buffer.from(line).toString("utf8") };
    }),
  };
  if (command === "check") found.checker = tried(() => ({ line: checkAnew(data).line ?? null }));
  if (agreed === undefined) found.slips = tried(() => ({ number: slipsOf(data, command)[0]?.number ?? null }));
  if (text === null) return found;
  if (agreed === undefined) {
    found.look = tried(() => (lookAtLine({ line: text, agreed: "" }, ask), {}));
  } else found.same = tried(() => ({ outcome: lookAtLine({ line: text, agreed }, ask).same.outcome }));
  return found;
}

for await (const line of createInterface({ input: process.stdin })) console.log(JSON.stringify(answer(JSON.parse(line))));
