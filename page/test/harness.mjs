// Scenarios in a browser, several at a time, and what they expect.
import { Browser } from "./browser.mjs";

const AT_ONCE = 3;

export const READY = "!document.getElementById('answer').hidden"
  + " && !document.getElementById('answer').classList.contains('stale')"
  + " && document.querySelectorAll('#answer-body table').length > 0"
  + " && ![...document.querySelectorAll('.verdict td')].some((td) => td.textContent === '…')"
  + " && !document.querySelector('#evidence:not([hidden]) .word.busy')"
  + " && !document.querySelector('#busy button')";

const UNFOLD = "for (const part of document.querySelectorAll('.part')) part.open = true";

export class Harness {
  /** On a busy machine all may take longer by `slack`. */
  constructor(url, only = "", slack = 1) {
    Object.assign(this, { url, only, slack, list: [], done: 0, faults: [] });
  }

  /** Scenarios: `play(page, expect)` in a page of its own, at an address that ends in `#id`. */
  add(scenarios) {
    for (const [name, id, play, look = {}] of scenarios) {
      if (name.includes(this.only)) this.list.push({ name, id, play, look });
    }
  }

  /** Counts a fault, and prints it at once. */
  fault(sentence) {
    this.faults.push(sentence);
    console.log(sentence);
  }

  expect(name) {
    return (what, found, wanted) => {
      this.done += 1;
      const isRight = wanted instanceof RegExp ? wanted.test(found) : Object.is(found, wanted);
      if (!isRight) {
        const shown = JSON.stringify(found)?.slice(0, 500);
        this.fault(`${name}: ${what}: found ${shown}, wanted ${String(wanted)}`);
      }
    };
  }

  async play({ name, id, play, look }) {
    const page = await this.opened(this.url + (id ? `#${id}` : ""), look, name);
    if (!page) return;
    try {
      await page.until("document.querySelector('#verify .drop')"); // its code is unpacked after it is loaded
      await page.run(UNFOLD); // what is folded has no text for those who look
      if (id && !["document", "verify"].includes(id)) await page.until(READY);
      await play(page, this.expect(name));
    } catch (fault) {
      this.fault(`${name}: ${fault.message.slice(0, 400)}`);
    }
    const said = page.faults(), asked = page.requests();
    if (said.length) this.fault(`${name}: the page reports ${said[0].slice(0, 300)}`);
    if (asked.length) this.fault(`${name}: the page asks for ${asked[0]}`);
    await page.close();
  }

  /** A page; null, and a fault, where it doesn't open. */
  async opened(url, look, name) {
    try {
      return await this.browser.page(url, look);
    } catch (fault) {
      this.fault(`${name}: ${fault.message.slice(0, 400)}`);
      return null;
    }
  }

  /** Plays all, and gives the number of faults. */
  async run() {
    this.browser = await Browser.start();
    this.browser.slack = this.slack;
    const queue = [...this.list], one = async () => {
      while (queue.length) await this.play(queue.shift());
    };
    try {
      await Promise.all(Array.from({ length: AT_ONCE }, one));
    } finally {
      await this.browser.stop();
    }
    if (!this.list.length) this.fault("there was no scenario to play");
    console.log(`${this.list.length} scenarios, ${this.done} expectations, ${this.faults.length} faults`);
    return this.faults.length;
  }
}

/** Waits until the text of an element matches, and gives it. What is told of a change may come later than the change
 * is seen, from a worker, and until then stands what was told before: so each wait is for what tells the two apart. */
export async function told(page, selector, pattern) {
  const text = `(document.querySelector(${JSON.stringify(selector)})?.innerText ?? "")`;
  try {
    await page.until(`${pattern}.test(${text})`);
  } catch {
    throw new Error(`${selector} never said ${pattern}, but ${JSON.stringify(await page.text(selector))}`);
  }
  return page.text(selector);
}

/** The same of what the page says of the cells. */
export function noted(page, pattern) {
  return told(page, "#case .faults", pattern);
}

/** Gives a line to check, and the agreed file, at once, and forgets what was said of those before: a text that is typed
 * is read a moment later, and would be checked with the old one of the other. */
export function giveLine(page, line, agreed) {
  return page.run(`(() => {
    const [ofLine, ofGame] = document.querySelectorAll("#verify .drop");
    ${agreed === undefined ? "" : `ofGame.setText(${JSON.stringify(agreed)});`}
    ofLine.setText(${JSON.stringify(line)});
    document.querySelector("#verify .answers").replaceChildren();
  })()`);
}

/** Waits until all that follows a change has been said. What a change asks a worker first, as a list does that is read,
 * has to be waited for before. */
export async function settle(page) {
  await page.run("new Promise((resolve) => setTimeout(resolve, 260))");
  await page.until(READY);
}

/** Shows the exact fractions, which are an option. */
export function showExact(page) {
  return page.run(`document.querySelector('[data-cell="exact"]').click()`);
}

/** The text of what a button saves. */
export const savedFile = (page, title) => page.run(`(async () => {
  const made = URL.createObjectURL;
  let kept = null;
  URL.createObjectURL = (blob) => (kept = blob, made.call(URL, blob));
  HTMLAnchorElement.prototype.click = () => 0;
  [...document.querySelectorAll("button")].find((one) => one.textContent === ${JSON.stringify(title)}).click();
  URL.createObjectURL = made;
  return kept.text();
})()`);
