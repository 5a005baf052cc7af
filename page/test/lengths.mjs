// No line of the sources and tests of page/ and runtime/ is longer than 120 characters, no function longer than 40
// lines, no file longer than 400. A function begins where a line opens it, and ends with the line of the same
// indentation that closes it.
import { readdirSync, readFileSync } from "node:fs";
import { join } from "node:path";
import { fileURLToPath } from "node:url";

const [MOST_LETTERS, MOST_LINES, MOST_FILE] = [120, 40, 400];
const NAMED = "function\\*? ?\\w*\\(.*|(?:get |set )?\\w+\\(.*\\)|(?:const|let) \\w+ = .*=>";
const OPENS = new RegExp(`^( *)(?:export )?(?:async |static )*(?:${NAMED}) ?\\{$`);

const top = fileURLToPath(new URL("../..", import.meta.url));
let lines = 0, faults = 0;

function fault(path, number, sentence) {
  faults += 1;
  console.log(`${path}:${number}: ${sentence}`);
}

function look(path) {
  const texts = readFileSync(join(top, path), "utf8").split("\n"), open = [];
  if (texts.length > MOST_FILE + 1) fault(path, texts.length, `a file has at most ${MOST_FILE} lines`);
  texts.forEach((text, k) => {
    lines += 1;
    if ([...text].length > MOST_LETTERS) fault(path, k + 1, `${[...text].length} characters`);
    if (!/\.(js|mjs)$/.test(path)) return;
    const [, indent] = OPENS.exec(text) ?? [], isLoop = /^ *(if|for|while|switch|catch)\b/.test(text);
    if (indent !== undefined && !isLoop) open.push({ indent, start: k });
    const last = open.at(-1);
    if (!last || k === last.start || !text.startsWith(`${last.indent}}`)) return;
    open.pop();
    const count = k - last.start + 1;
    if (count > MOST_LINES) fault(path, last.start + 1, `a function of ${count} lines`);
  });
}

const files = ["page", "runtime"].flatMap((folder) => {
  return readdirSync(join(top, folder), { recursive: true }).map((name) => join(folder, name));
}).filter((path) => /\.(js|mjs|css|html)$/.test(path) && !path.endsWith("coop.html"));
files.forEach(look);
console.log(`${files.length} files, ${lines} lines, ${faults} faults`);
process.exit(faults || !files.length ? 1 : 0);
