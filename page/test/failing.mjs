// Scenarios: pages whose module doesn't start, or stops in the midst of an answer. That is told, and no answer shown.
import { mkdtempSync, readFileSync, rmSync, writeFileSync } from "node:fs";
import { tmpdir } from "node:os";
import { join } from "node:path";
import { pathToFileURL } from "node:url";
import { packed, packedIn } from "../../runtime/engine/inside.js";

/** A module with the exports of the program, whose one call traps. */
const TRAPPING = Buffer.from([
  "0061736d01000000", // the head
  "010c0160077e7e7e7e7e7e7e017f", "03020100", // a function of seven numbers of 64 bits
  "0503010001", "0607017e004280080b", // a page of memory, and where the heap begins
  "0723", "03", "066d656d6f72790200", "0b5f5f686561705f626173650300", "08636f6f705f72756e0000", // their names
  "0a05010300000b", // the body: unreachable
].join(""), "hex");

/** The same without its last byte, which no browser takes. */
const BROKEN = TRAPPING.subarray(0, -1);

const FAILED = "document.querySelector('#answer-body .notice.bad')";

async function fails(page, expect, url, wanted) {
  await page.open(`${url}#costs`);
  await page.until(FAILED);
  expect("told", await page.text("#answer-body"), wanted);
  expect("no shares", await page.run("document.querySelectorAll('#answer-body table').length"), 0);
  expect("no evidence", await page.run("document.getElementById('evidence').hidden"), true);
  expect("the case can be saved", await page.run("document.getElementById('files').textContent"), /Save the case/);
  expect("and the way there is seen", await page.text("#next"), /^Files$/);
  expect("but no table", await page.run("document.getElementById('files').textContent"), /^(?!.*Save the table)/s);
  await page.run("location.hash = '#verify'");
  await page.fill("#verify textarea", await page.run("window.line"));
  await page.until("document.querySelector('#verify .lead')");
  expect("no yes", await page.text("#verify .answers"), /No: this line doesn’t show[\s\S]*gave no answer/);
  expect("the other checker", await page.text("#verify .words"), /own checker says yes/);
}

/** `page` is the file of the page, `top` the repository. */
export function failing(page, top) {
  const text = readFileSync(page, "utf8"), folder = mkdtempSync(join(tmpdir(), "coop-failing-"));
  process.on("exit", () => rmSync(folder, { recursive: true, force: true }));
  const line = readFileSync(join(top, "examples", "airport-solved.json"), "utf8");
  const made = (name, module) => {
    const path = join(folder, name), given = `<script>window.line = ${JSON.stringify(line)}</script></body>`;
    writeFileSync(path, text.replace(packedIn(text), packed(module)).replace("</body>", () => given));
    return pathToFileURL(path).href;
  };
  const [trapping, broken] = [made("trapping.html", TRAPPING), made("broken.html", BROKEN)];
  return [
    ["a module that traps", "", (tab, expect) => fails(tab, expect, trapping, /The program failed at this document/)],
    ["a module that doesn't start", "", (tab, expect) => fails(tab, expect, broken, /doesn’t start in this browser/)],
  ];
}
