// Opens each case in Firefox, by its remote protocol (Marionette): node page/test/firefox.mjs PAGE [FOLDER]
//
// Each case has to be answered, with a yes of both checkers, without an error and no wider than the window. Pictures
// are put into FOLDER, if one is named. The status is 3 where Firefox doesn't start, as on a machine that is very busy.
import { spawn } from "node:child_process";
import { mkdtempSync, rmSync, writeFileSync } from "node:fs";
import { connect } from "node:net";
import { tmpdir } from "node:os";
import { join, resolve } from "node:path";
import { pathToFileURL } from "node:url";
import { pause } from "./browser.mjs";
import { READY } from "./harness.mjs";

const CASES = ["runway", "estate", "costs", "gains", "network", "market", "votes"];
const START = 60000; // milliseconds in which it has to start, and to take a session; else nothing was tried
const LIMIT = 90000; // milliseconds after which an answer is given up
const NOT_TRIED = 3;
const SETTINGS = {
  "datareporting.policy.dataSubmissionEnabled": false, "browser.shell.checkDefaultBrowser": false,
  "app.update.disabledForTesting": true, "network.captive-portal-service.enabled": false,
};

class Firefox {
  static start(program = process.env.FIREFOX ?? "firefox-esr") {
    const firefox = new Firefox(), port = 20000 + (process.pid % 20000);
    firefox.folder = mkdtempSync(join(tmpdir(), "coop-firefox-"));
    const settings = Object.entries({ ...SETTINGS, "marionette.port": port });
    writeFileSync(join(firefox.folder, "user.js"), settings.map(([name, value]) => {
      return `user_pref(${JSON.stringify(name)}, ${value});`;
    }).join("\n"));
    const words = ["--headless", "--marionette", "--no-remote", "--profile", firefox.folder];
    firefox.process = spawn(program, words, { stdio: "ignore" });
    for (const signal of ["SIGTERM", "SIGINT"]) process.on(signal, () => firefox.stop().then(() => process.exit(1)));
    Object.assign(firefox, { waiting: new Map(), next: 0, rest: Buffer.alloc(0) });
    firefox.port = port;
    return firefox;
  }

  /** Whether it started in time. */
  async begin() {
    this.socket = await this.connected(this.port);
    if (!this.socket) return false;
    this.socket.on("data", (data) => this.receive(data));
    return this.send("WebDriver:NewSession", {}, START).then(() => true, () => false);
  }

  async connected(port) {
    for (const end = Date.now() + START; Date.now() < end; await pause(200)) {
      const socket = connect(port, "127.0.0.1");
      const isThere = await new Promise((told) => {
        socket.on("connect", () => told(true)).on("error", () => told(false));
      });
      if (isThere) return socket;
    }
    return null;
  }

  /** A message is its length, a colon and JSON: [1, id, error, result]. */
  receive(data) {
    this.rest = Buffer.concat([this.rest, data]);
    for (let at = this.rest.indexOf(58); at > 0; at = this.rest.indexOf(58)) {
      const end = at + 1 + Number(this.rest.subarray(0, at).toString());
      if (this.rest.length < end) return;
      const message = JSON.parse(this.rest.subarray(at + 1, end).toString());
      this.rest = this.rest.subarray(end);
      const [, id, error, result] = Array.isArray(message) ? message : [];
      const { resolve: done, reject } = this.waiting.get(id) ?? {};
      if (error) reject?.(new Error(error.message));
      else done?.(result);
    }
  }

  send(name, what, limit = LIMIT) {
    const id = (this.next += 1), text = JSON.stringify([0, id, name, what]);
    return new Promise((done, reject) => {
      const timer = setTimeout(() => reject(new Error(`Firefox doesn't answer ${name}`)), limit);
      this.waiting.set(id, { resolve: (result) => (clearTimeout(timer), done(result)), reject });
      this.socket.write(`${Buffer.byteLength(text)}:${text}`);
    });
  }

  async run(expression) {
    return (await this.send("WebDriver:ExecuteScript", { script: `return (${expression})`, args: [] })).value;
  }

  async stop() {
    const ended = new Promise((done) => this.process.on("exit", done));
    this.socket?.destroy();
    this.process.kill("SIGKILL");
    await ended;
    try {
      rmSync(this.folder, { recursive: true, force: true, maxRetries: 10 });
    } catch {
      // its other processes may still write there; a folder that stays in the system's own is no fault of the page
    }
  }
}

/** What is wrong with a case; "" where nothing is. */
async function faultOf(firefox, url, id, folder) {
  await firefox.send("WebDriver:Navigate", { url: "about:blank" });
  await firefox.send("WebDriver:Navigate", { url: `${url}#${id}` });
  for (let k = 0; k < 400 && !(await firefox.run(READY)); k++) await pause(100);
  const words = await firefox.run("document.querySelector('#evidence .words')?.textContent ?? ''");
  const over = await firefox.run("document.documentElement.scrollWidth - document.documentElement.clientWidth");
  if (folder) {
    const { value } = await firefox.send("WebDriver:TakeScreenshot", { full: true });
    writeFileSync(join(folder, `${id}-firefox.png`), Buffer.from(value, "base64"));
  }
  if (!/says yes[\s\S]*says yes/.test(words)) return `${id}: the checkers say ${JSON.stringify(words)}`;
  const said = await firefox.run("document.getElementById('busy').innerText");
  return said ? `${id}: the page says ${said}` : over > 0 ? `${id}: too wide by ${over}` : "";
}

/** The start, a case and the way back to the start. */
async function faultOfWays(firefox, url) {
  await firefox.send("WebDriver:Navigate", { url });
  for (let k = 0; k < 100 && (await firefox.run("!!document.getElementById('page-code')")); k++) await pause(100);
  await firefox.run("document.querySelectorAll('.card')[1].click()");
  const there = await firefox.run("location.hash");
  await firefox.run("document.querySelector('nav [data-home]').click()");
  const [hash, view] = await firefox.run("[location.hash, document.body.dataset.view]");
  return there === "#estate" && !hash && view === "start" ? "" : `ways: ${there}, ${hash}, ${view}`;
}

async function faultsOf(firefox, page, folder) {
  const url = pathToFileURL(resolve(page)).href, found = [await faultOfWays(firefox, url)];
  for (const id of CASES) found.push(await faultOf(firefox, url, id, folder));
  return found.filter(Boolean);
}

async function main([page, folder]) {
  const firefox = Firefox.start();
  try {
    if (!(await firefox.begin())) {
      console.log("Firefox didn't start in time, so nothing was tried in it");
      return NOT_TRIED;
    }
    const faults = await faultsOf(firefox, page, folder).catch((fault) => [fault.message]);
    for (const fault of faults) console.log(fault);
    console.log(`${CASES.length} cases in Firefox, ${faults.length} faults`);
    return faults.length ? 1 : 0;
  } finally {
    await firefox.stop();
  }
}

process.exit(await main(process.argv.slice(2)));
