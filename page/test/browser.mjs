// Drives Chromium by its DevTools protocol over a pipe; no package is needed.
import { spawn } from "node:child_process";
import { mkdtempSync, rmSync, writeFileSync } from "node:fs";
import { tmpdir } from "node:os";
import { join } from "node:path";

const WORDS = [
  "--headless=new", "--no-sandbox", "--disable-gpu", "--disable-background-timer-throttling",
  "--disable-renderer-backgrounding", "--disable-backgrounding-occluded-windows", "--hide-scrollbars",
  "--force-color-profile=srgb", "--disable-extensions", "--no-first-run", "--disable-component-update",
  "--remote-debugging-pipe",
];
const CODES = { Enter: 13, Tab: 9, Delete: 46, ArrowDown: 40, ArrowUp: 38, " ": 32 };
const LIMIT = 60000; // milliseconds after which a command of the protocol is given up

export class Browser {
  static async start(program = process.env.CHROMIUM ?? "chromium") {
    const browser = new Browser();
    browser.folder = mkdtempSync(join(tmpdir(), "coop-browser-"));
    const words = [...WORDS, `--user-data-dir=${browser.folder}`, "about:blank"];
    browser.process = spawn(program, words, { stdio: ["ignore", "ignore", "ignore", "pipe", "pipe"] });
    for (const signal of ["SIGTERM", "SIGINT"]) process.on(signal, () => browser.stop().then(() => process.exit(1)));
    Object.assign(browser, { waiting: new Map(), pages: new Map(), next: 0 });
    let rest = "";
    browser.process.stdio[4].setEncoding("utf8").on("data", (data) => {
      const messages = (rest + data).split("\0");
      rest = messages.pop();
      for (const message of messages) browser.receive(JSON.parse(message));
    });
    return browser;
  }

  receive(message) {
    if (message.method === "Tracing.dataCollected") return this.traced.push(...message.params.value);
    if (message.method === "Tracing.tracingComplete") return this.traceDone();
    if (message.id === undefined) return this.pages.get(message.sessionId)?.events.push(message);
    const { resolve, reject, timer } = this.waiting.get(message.id) ?? {};
    this.waiting.delete(message.id);
    clearTimeout(timer);
    if (message.error) return reject?.(new Error(`${message.error.message} ${message.error.data ?? ""}`));
    return resolve?.(message.result);
  }

  send(method, params = {}, sessionId = undefined) {
    const id = (this.next += 1);
    return new Promise((resolve, reject) => {
      const timer = setTimeout(() => reject(new Error(`${method} took too long`)), LIMIT);
      this.waiting.set(id, { resolve, reject, timer });
      this.process.stdio[3].write(`${JSON.stringify({ id, method, params, sessionId })}\0`);
    });
  }

  async page(url, look = {}) {
    const { targetId } = await this.send("Target.createTarget", { url: "about:blank" });
    const { sessionId } = await this.send("Target.attachToTarget", { targetId, flatten: true });
    const page = new Page(this, sessionId, targetId);
    this.pages.set(sessionId, page);
    for (const domain of ["Page", "Runtime", "Log", "Network"]) await page.send(`${domain}.enable`);
    await page.send("Emulation.setFocusEmulationEnabled", { enabled: true });
    await page.look(look);
    await page.open(url);
    return page;
  }

  /** What runs in a page's main thread while `work` is done: the longest task, in milliseconds of the processor. So a
   * busy machine makes it no longer. One at a time. */
  async longestTask(page, work) {
    this.traced = [];
    const traceConfig = { includedCategories: ["toplevel", "blink.user_timing"], excludedCategories: ["*"] };
    await this.send("Tracing.start", { transferMode: "ReportEvents", traceConfig });
    await page.run("performance.mark('coop-here') && 0");
    await work();
    const done = new Promise((resolve) => (this.traceDone = resolve));
    await this.send("Tracing.end");
    await done;
    const here = this.traced.find(({ name }) => name === "coop-here");
    const isOwn = ({ name, pid, tid }) => pid === here.pid && tid === here.tid && name.endsWith("RunTask");
    return Math.round(this.traced.filter(isOwn).reduce((most, { tdur = 0 }) => Math.max(most, tdur), 0) / 1000);
  }

  async stop() {
    const ended = new Promise((done) => this.process.on("exit", done));
    this.process.kill();
    await ended;
    try {
      rmSync(this.folder, { recursive: true, force: true, maxRetries: 10 });
    } catch {
      // its other processes may still write there; a folder that stays in the system's own is no fault of the page
    }
  }
}

class Page {
  constructor(browser, sessionId, targetId) {
    Object.assign(this, { browser, sessionId, targetId, events: [] });
  }

  send(method, params) {
    return this.browser.send(method, params, this.sessionId);
  }

  close() {
    return this.browser.send("Target.closeTarget", { targetId: this.targetId });
  }

  async look({ wide = 1280, high = 900, dark = false, print = false }) {
    const isPhone = wide < 500;
    await this.send("Emulation.setDeviceMetricsOverride", {
      width: wide, height: high, deviceScaleFactor: isPhone ? 2 : 1, mobile: isPhone,
    });
    await this.send("Emulation.setEmulatedMedia", {
      media: print ? "print" : "", features: [
        { name: "prefers-color-scheme", value: dark ? "dark" : "light" },
        { name: "hover", value: isPhone ? "none" : "hover" },
      ],
    });
  }

  async open(url) {
    await this.send("Page.navigate", { url });
    await this.until("document.readyState === 'complete' && !document.getElementById('page-code')"); // it has begun
  }

  async run(expression) {
    const settings = { expression, awaitPromise: true, returnByValue: true };
    const { result, exceptionDetails } = await this.send("Runtime.evaluate", settings);
    if (exceptionDetails) throw new Error(exceptionDetails.exception?.description ?? exceptionDetails.text);
    return result.value;
  }

  /** Waits until an expression is true, and says how long that took. */
  async until(expression, limit = 60000) {
    const start = Date.now();
    while (!(await this.run(expression).catch(() => false))) {
      const isLate = Date.now() - start > limit * (this.browser.slack ?? 1);
      if (isLate) throw new Error(`not within ${limit} ms: ${expression}`);
      await pause(30);
    }
    return Date.now() - start;
  }

  text(selector) {
    return this.run(`document.querySelector(${JSON.stringify(selector)})?.innerText ?? ""`);
  }

  /** Types into the cell of a name as a person does: with focus, and an event. */
  type(cell, text) {
    return this.run(`(() => {
      const cell = document.querySelector('[data-cell="${cell}"]');
      cell.focus(); cell.value = ${JSON.stringify(text)}; cell.dispatchEvent(new Event("input", { bubbles: true }));
    })()`);
  }

  /** Puts a text into a text area. */
  fill(selector, text, which = 0) {
    return this.run(`(() => {
      const area = document.querySelectorAll(${JSON.stringify(selector)})[${which}];
      area.value = ${JSON.stringify(text)}; area.dispatchEvent(new Event("input"));
    })()`);
  }

  /** Clicks a button by a part of its text, as soon as it is there. */
  async click(text, scope = "document") {
    const isIt = `(one) => one.textContent.includes(${JSON.stringify(text)}) && one.offsetParent !== null`;
    const found = `[...${scope}.querySelectorAll("button, summary, a")].find(${isIt})`;
    await this.until(found, 5000).catch(() => Promise.reject(new Error(`no button ${text}`)));
    return this.run(`${found}.click()`);
  }

  /** Chooses a value of a list. */
  choose(cell, value) {
    return this.run(`(() => {
      const choice = document.querySelector('[data-cell="${cell}"]');
      choice.value = ${JSON.stringify(value)}; choice.dispatchEvent(new Event("change", { bubbles: true }));
    })()`);
  }

  paste(selector, text) {
    return this.run(`(() => {
      const target = document.querySelector(${JSON.stringify(selector)}), data = new DataTransfer();
      target.focus(); data.setData("text/plain", ${JSON.stringify(text)});
      target.dispatchEvent(new ClipboardEvent("paste", { clipboardData: data, bubbles: true, cancelable: true }));
    })()`);
  }

  async key(key, { text, shift = false, alt = false } = {}) {
    for (const type of ["keyDown", "keyUp"]) {
      await this.send("Input.dispatchKeyEvent", {
        type, key, code: key === " " ? "Space" : key, windowsVirtualKeyCode: CODES[key],
        modifiers: (shift ? 8 : 0) + (alt ? 1 : 0),
        text: type === "keyDown" ? text : undefined,
      });
    }
  }

  async shot(path, { selector } = {}) {
    const size = await this.run("({ wide: document.documentElement.clientWidth, "
      + "high: document.documentElement.scrollHeight })");
    let clip = { x: 0, y: 0, width: size.wide, height: Math.min(size.high, 8000), scale: 1 };
    if (selector) {
      const box = await this.run(`(() => {
        const box = document.querySelector(${JSON.stringify(selector)}).getBoundingClientRect();
        return { x: box.x + scrollX, y: box.y + scrollY, width: box.width, height: box.height };
      })()`);
      clip = { ...box, scale: 1 };
    }
    const { data } = await this.send("Page.captureScreenshot", { format: "png", clip, captureBeyondViewport: true });
    writeFileSync(path, Buffer.from(data, "base64"));
  }

  async pdf() {
    const { data } = await this.send("Page.printToPDF", { printBackground: false, preferCSSPageSize: true });
    return Buffer.from(data, "base64");
  }

  /** What the page said of errors. */
  faults() {
    const isFault = ({ method, params }) => method === "Runtime.exceptionThrown"
      || (method === "Log.entryAdded" && params.entry.level === "error")
      || (method === "Runtime.consoleAPICalled" && params.type === "error");
    return this.events.filter(isFault).map(({ params }) => {
      return params.exceptionDetails?.exception?.description ?? params.entry?.text ?? JSON.stringify(params.args);
    });
  }

  /** The addresses that the page asked for, but its own and what it made itself. */
  requests() {
    const asked = this.events.filter(({ method }) => method === "Network.requestWillBeSent");
    return asked.map(({ params }) => params.request.url).filter((url) => !/^(file|blob|data|about):/.test(url));
  }
}

export function pause(milliseconds) {
  return new Promise((resolve) => setTimeout(resolve, milliseconds));
}
