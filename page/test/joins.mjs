// What page/build.mjs refuses: in a copy of the sources each form of import or export that the page wouldn't have as
// Node has it, put into a module. What is no such form, though it looks like one, is joined.
import { cpSync, mkdtempSync, readFileSync, rmSync, writeFileSync } from "node:fs";
import { spawnSync } from "node:child_process";
import { tmpdir } from "node:os";
import { join } from "node:path";
import { fileURLToPath } from "node:url";

const top = fileURLToPath(new URL("../..", import.meta.url)), folder = mkdtempSync(join(tmpdir(), "joins-"));
const PARTS = ["page/build.mjs", "page/squeeze.mjs", "page/src", "page/coop.html", "page/package.json",
  "runtime/engine", "runtime/package.json", "python/coop/version.py"];
const SEVERAL = "exports several constants at once", FORM = "an import or an export of another form";
const TRIED = [
  ["export const ONE = 1, TWO = 2;", SEVERAL],
  ["export const ONE = [1, 2], TWO = 2;", SEVERAL],
  ["export const ONE = { one: 1 }, TWO = 2;", SEVERAL],
  ['export const ONE = ";", TWO = 2;', SEVERAL],
  ["export const ONE = `;${1}`, TWO = 2;", SEVERAL],
  ["export const ONE = /[;]/, TWO = 2;", SEVERAL],
  ["export const ONE = 1, // the first;\n  TWO = 2;", SEVERAL],
  ["export const ONE = 1,\n  TWO = 2;", SEVERAL],
  ["export const ONE = (one) => [one, 2], TWO = 2;", SEVERAL],
  ["export const { one, two } = { one: 1, two: 2 };", FORM],
  ["export let one = 1;", FORM],
  ["export default 1;", FORM],
  ['export { Rational } from "./rational.js";', FORM],
  ['import * as all from "./rational.js";', FORM],
  ['import { nothing } from "./rational.js";', "imports nothing, which"],
  ['export const ONE = "1, TWO = 2";', ""],
  ["export const ONE = (one, two) => {\n  const three = 3, four = 4;\n  return one + two + three + four;\n};", ""],
  ["export const ONE = `${[1, 2].map((one, k) => one + k)}, TWO = 2`;", ""],
  ["export const ONE = 1; // and, TWO = 2", ""],
];

for (const part of PARTS) cpSync(join(top, part), join(folder, part), { recursive: true });
const module = join(folder, "page/src/exact/marks.js"), source = readFileSync(module, "utf8");
let faults = 0;
for (const [code, refusal] of TRIED) {
  writeFileSync(module, `${source}\n${code}\n`);
  const words = [join(folder, "page/build.mjs"), "--out", join(folder, "page/coop.html")];
  const { status, stderr } = spawnSync(process.execPath, words, { encoding: "utf8" });
  if (refusal ? status !== 0 && stderr.includes(refusal) : status === 0) continue;
  faults += 1;
  console.log(`${code}: status ${status}, and not ${refusal || "joined"}\n${stderr.slice(0, 300)}`);
}
rmSync(folder, { recursive: true });
console.log(`${TRIED.length} forms of import and export, ${faults} faults`);
process.exit(faults ? 1 : 0);
