#!/usr/bin/env node
// coop as a command, by the module inside coop.html, on any system with Node 18 or later:
//
//     node runtime/coop.mjs COMMAND < DOCUMENT
//     node runtime/coop.mjs COMMAND FILE
//
// It prints the program's line and ends with the program's status; or with 70, and says why, if there is no answer
// since a file is missing or the module stops. Standard error has a sentence if the words are wrong. docs/installing.md
// says what is trusted. These words are none of the program: FILE, --version, which prints the version that the page
// names, and --help.
const REFUSED = 3;
const USAGE = 2;
// No status of the program. Nor does a broken page end with 1, which is an answer.
const NO_ANSWER = 70;
const MOST_SHOWN = 60; // letters of a word

/** The answer to the words, and what is wrong with them, if something is. */
function answer(words, coop, ports) {
  const module = ports.pageModule(), none = new Uint8Array(0);
  // A command on a document refuses an empty one, and nothing else ends so: only such a command reads.
  // So no list of the commands is needed.
  const reads = (typed) => coop(module, typed, none);
  const first = reads(words), [command, file] = words;
  if (first.status === REFUSED) return coop(module, words, ports.documentOf(0));
  if (first.status !== USAGE) return first;
  const isFile = words.length === 2 && reads([command]).status === REFUSED;
  if (isFile && ports.isThere(file)) return coop(module, [command], ports.documentOf(ports.opened(file)));
  return { ...first, fault: isFile ? `there is no file ${shown(file)}` : faultOf(words, first.line) };
}

/** What is wrong with words that the program doesn't know. */
function faultOf(words, line) {
  if (!Buffer.from(line).includes("words")) return "";
  const told = words.length ? `${shown(words.join(" "))} is no command` : "which command?";
  return `${told} (coop --help lists them)`;
}

function shown(text) {
  return JSON.stringify(text.length > MOST_SHOWN ? `${text.slice(0, MOST_SHOWN)}..` : text);
}

/** What the wrapper itself says to some words, or null. */
async function ownWords([word, ...more], ports) {
  if (more.length) return null;
  if (word === "--version") return ports.versionLine("coop.mjs");
  if (word !== "--help" && word !== "-h") return null;
  const { readFileSync } = await import("node:fs");
  return readFileSync(new URL("usage.txt", import.meta.url));
}

async function main(words) {
  try {
    const [ports, { coop }] = await Promise.all([import("./engine/ports.js"), import("./engine/host.js")]);
    const own = await ownWords(words, ports);
    const { status, line, fault } = own ? { status: 0, line: own } : answer(words, coop, ports);
    if (fault) console.error(`coop: ${fault}`);
    ports.print(line);
    return status;
  } catch (fault) {
    if (fault.name === "PortFault") return fault.status;
    console.error(`coop: no answer: ${fault.message}`);
    return NO_ANSWER;
  }
}

process.exit(await main(process.argv.slice(2)));
