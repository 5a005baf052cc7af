#!/usr/bin/env node
// Joins the modules, the styles and the program into one page.
//
//     node page/build.mjs --module runtime/engine/coop.wasm --commit COMMIT --out page/coop.html
//
// COMMIT is the commit of the sources that the module was made from. Without --module, or without --commit, these are
// those of the page that stands at --out already: so whoever changes the page alone needs neither the kit nor a module.
//
// It is no bundler. Each module becomes a function of its own, so names don't clash. An import names what it takes,
// from a relative path; an export stands in front of what it exports. Other forms of import and export are refused.
import { spawnSync } from "node:child_process";
import { createHash } from "node:crypto";
import { existsSync, mkdtempSync, readdirSync, readFileSync, rmSync, writeFileSync } from "node:fs";
import { tmpdir } from "node:os";
import { dirname, join, resolve } from "node:path";
import { fileURLToPath } from "node:url";
import { deflateSync, inflateSync } from "node:zlib";
import { packed, packedIn, unpacked } from "../runtime/engine/inside.js";
import { squeeze, withoutTexts } from "./squeeze.mjs";

const TOP = dirname(fileURLToPath(import.meta.url));
const SRC = join(TOP, "src");
const MOST = 850_000; // bytes of the page

const style = (name) => JSON.stringify(styleOf(name)).slice(1, -1);

/** What stands in the place of "/* NAME *\/" in a module, as the text of a string. */
const PLACES = {
  PALETTE: () => style("palette.css"), PICTURE: () => style("picture.css"), LINES: () => String(linesOfChecker()),
};

/** A style without comments, and a rule of it in one line, without blanks beside its signs. */
function styleOf(name) {
  return readFileSync(join(SRC, name), "utf8").replace(/\/\*[^]*?\*\//g, "").replace(/([;{,])\s*\n\s*/g, "$1")
    .replace(/\n\s+/g, "\n").replace(/ \{/g, "{").replace(/([;{]) *(-{0,2}[\w-]+): /g, "$1$2:")
    .replace(/;?\s*\}/g, "}");
}

/** Of the page's own checker: its folder, and what reads JSON for it. */
function linesOfChecker() {
  const files = readdirSync(join(SRC, "check")).map((name) => join("check", name)), all = [...files, "exact/json.js"];
  return all.reduce((sum, name) => sum + readFileSync(join(SRC, name), "utf8").trimEnd().split("\n").length, 0);
}

/** A module and all that it imports, each once, in front of what needs it: code by path. */
function modulesOf(entry) {
  const done = new Map(), found = new Map();
  const visit = (path, from) => {
    if (done.get(path) === "open") throw new Error(`${from} and ${path} import each other`);
    if (done.has(path)) return;
    done.set(path, "open");
    found.set(path, moduleOf(path, (other) => (visit(other, path), nameOf(other))));
    done.set(path, "done");
  };
  visit(join(SRC, entry), "");
  return found;
}

/** The modules that page and worker share, which stand in the page once, and those of each alone; and what unpacks
 * those of the page. */
function scriptsOf() {
  const [page, worker, begin] = ["view/main.js", "worker.js", "view/begin.js"].map(modulesOf);
  const isShared = ([path]) => page.has(path) && worker.has(path);
  const script = (modules) => `"use strict";\n${modules.map(([, code]) => code).join("\n")}`;
  const [PAGE, WORKER, first] = [page, worker, begin].map((all) => script([...all].filter((one) => !isShared(one))));
  return { SHARED: inScript(script([...worker].filter(isShared))), WORKER, PAGE, BEGIN: inScript(first) };
}

const names = new Map();

/** The name of a module in the page: short, since each is named some ten times, and the same in page and worker. */
function nameOf(path) {
  if (!names.has(path)) names.set(path, `$${names.size}`);
  return names.get(path);
}

function moduleOf(path, importing) {
  const exported = [];
  let code = readFileSync(path, "utf8");
  code = code.replace(/^import \{([^}]*)\} from "([^"]+)";$/gm, (_, names, from) => {
    const other = resolve(dirname(path), from), text = readFileSync(other, "utf8");
    for (const name of names.split(",").map((one) => one.trim().split(" as ")[0]).filter(Boolean)) {
      const isThere = new RegExp(`^export ((async )?function\\*?|class|const) ${name}\\b`, "m").test(text);
      if (!isThere) throw new Error(`${path} imports ${name}, which ${other} doesn't export`);
    }
    return `const {${names.replace(/ as /g, ": ")}} = ${importing(other)};`;
  });
  code = code.replace(/^export ((?:async )?function\*?|class|const) (\w+)/gm, (_, what, name) => {
    exported.push(name);
    return `${what} ${name}`;
  });
  if (/^(import|export)\b/m.test(code)) throw new Error(`${path} has an import or an export of another form`);
  if (exportsSeveral(readFileSync(path, "utf8"))) throw new Error(`${path} exports several constants at once`);
  code = squeeze(code).replace(/\/\* ([A-Z]+) \*\//g, (whole, name) => PLACES[name]?.() ?? whole);
  return `let ${nameOf(path)}=(()=>{\n${code.trimEnd()}\nreturn{${exported}}})();`;
}

/** Whether one export has several constants, as `export const A = 1, B = 2`: only the first would be exported. */
function exportsSeveral(code) {
  let bare = withoutTexts(code), before;
  do [before, bare] = [bare, bare.replace(/\([^()]*\)|\[[^[\]]*\]|\{[^{}]*\}/g, "0")]; while (bare !== before);
  return /^export let [^;]*,/m.test(bare);
}

/** Code as the text of a script element may have it. */
function inScript(code) {
  return code.replace(/<\/script/gi, "<\\/script").replace(/<!--/g, "<\\!--");
}

/** `own` is the module as it stands in a page, and `out` a page that may stand there already. */
function pageOf(own, commit, out) {
  const { WORKER, PAGE, ...plain } = scriptsOf(), text = (name) => readFileSync(join(SRC, name), "utf8");
  const packed = { WORKER: packedText(WORKER, "worker-code", out), PAGE: packedText(PAGE, "page-code", out) };
  const scripts = { ...plain, ...packed, MODULE: own };
  const styles = ["palette.css", "style.css", "answer.css", "picture.css", "narrow.css", "print.css"];
  return text("page.html")
    .replace("VERSION", version())
    .replaceAll("COMMIT", commit)
    .replaceAll("DIGEST", createHash("sha256").update(unpacked(own)).digest("hex"))
    .replace("/* STYLE */", () => styles.map(styleOf).join("\n"))
    .replace(/\/\* (SHARED|MODULE|WORKER|PAGE|BEGIN) \*\//g, (_, name) => scripts[name]);
}

/** A text packed by zlib, in base64; as the page at `out` has it in the element `id` where that is the same, since
 * other versions may pack otherwise. */
function packedText(text, id, out) {
  const page = existsSync(out) ? readFileSync(out, "utf8") : "";
  const [, old] = new RegExp(`id="${id}" type="text/plain">\\s*([\\w+/=]+)\\s*<`).exec(page) ?? [];
  const isSame = old && inflateSync(Buffer.from(old, "base64")).toString() === text;
  return isSame ? old : textByZopfli(text) ?? deflateSync(text, { level: 9 }).toString("base64");
}

/** A text packed by zopfli, which reads files alone. */
function textByZopfli(text) {
  const folder = mkdtempSync(join(tmpdir(), "coop-page-")), file = join(folder, "text");
  try {
    writeFileSync(file, text);
    return byZopfli(file, "--zlib");
  } finally {
    rmSync(folder, { recursive: true });
  }
}

/** The version of the project. */
function version() {
  return /^VERSION = "(.+)"$/m.exec(readFileSync(join(TOP, "../python/coop/version.py"), "utf8"))[1];
}

/** The commit that a page names already. */
function commitOf(path) {
  const found = /<meta name="commit" content="([^"]*)">/.exec(readFileSync(path, "utf8"));
  if (!found) throw new Error(`${path} names no commit; give one with --commit`);
  return found[1];
}

/** The module of a file, packed; but as the page has it already where it is the same, so that the page stays as it
 * is. */
function packedOf(file, out) {
  const own = !file || existsSync(out) ? packedIn(readFileSync(out, "utf8")) : null;
  const module = file && readFileSync(file);
  return !module || (own && module.equals(unpacked(own))) ? own : byZopfli(file) ?? packed(module);
}

/** A file packed to some 5 % less by Debian's zopfli, in base64; null where that isn't there. */
function byZopfli(file, ...form) {
  const { status, stdout } = spawnSync("zopfli", ["--i15", ...form, "-c", file], { maxBuffer: 1 << 26 });
  return status === 0 ? stdout.toString("base64") : null;
}

function main(words) {
  const option = (name) => (words.includes(name) ? words[words.indexOf(name) + 1] : undefined);
  const [file, out] = [option("--module"), option("--out")];
  if (!out) {
    console.error("node page/build.mjs [--module MODULE] [--commit COMMIT] --out PAGE");
    return 2;
  }
  const page = pageOf(packedOf(file, out), option("--commit") ?? commitOf(out), out);
  const bytes = Buffer.byteLength(page);
  if (bytes > MOST) throw new Error(`the page has ${bytes} bytes, and may have ${MOST}`);
  writeFileSync(out, page);
  console.log(`${out}: ${bytes} bytes, SHA-256 ${createHash("sha256").update(page).digest("hex")}`);
  return 0;
}

process.exitCode = main(process.argv.slice(2));
