// Scenarios: types, pastes and clicks at random, by a seed. The page must report no error, and answer rightly in the
// end.
import { settle, told } from "./harness.mjs";

const CASES = ["runway", "estate", "costs", "gains", "network", "market", "votes"];

const TEXTS = ["", "0", "1", "7", "12.5", "3,75", "1,234", "1/3", "-4", "abc", "99999999999999", "1e9", "0.00001",
  "Zoë", "Aer", "a".repeat(70), "  8 ", "(2)", "12/0", "<b>x</b>", "\u{1F600}", "5%", "A\u202eB", "__proto__",
  "\\"];
const BLOCKS = ["a\t1\nb\t2\nc\t3", "A;1,5\nB;2,5", "x,1\ny,2", "1\t2\t3\n4\t5\t6",
  "Name\tClaim\nfoo\t12", "0\t1\t2\n1\t0\t3\n2\t3\t0", "A\t1\nB\t2\nA+B\t4", "\n\n",
  "\"q;r\";5\n\"s\";6", "\t\t\t\n\t"];

const PLAY = `(async (seed, steps, texts, blocks) => {
  let state = seed;
  const draw = (most) => {
    state = (state * 1103515245 + 12345) % 2 ** 31;
    return Math.floor(state / 2048) % most;
  };
  const pick = (list) => list[draw(list.length)];
  const apart = /Save|Print|Choose a file|All cases|Copy/, done = [];
  const wait = (time) => new Promise((resolve) => setTimeout(resolve, time));
  const isThere = (one) => one.offsetParent !== null && !one.disabled;
  for (let k = 0; k < steps; k++) {
    const inputs = [...document.querySelectorAll("main input:not([type=file])")].filter(isThere);
    const buttons = [...document.querySelectorAll("main button, main summary")]
      .filter((one) => isThere(one) && !apart.test(one.textContent));
    const what = draw(10);
    if (what < 6 && inputs.length) {
      const input = pick(inputs);
      input.focus();
      input.value = pick(texts);
      input.dispatchEvent(new Event("input", { bubbles: true }));
      done.push("type " + input.dataset.cell + " " + input.value);
    } else if (what < 7 && inputs.length) {
      const input = pick(inputs), data = new DataTransfer();
      data.setData("text/plain", pick(blocks));
      input.focus();
      input.dispatchEvent(new ClipboardEvent("paste", { clipboardData: data, bubbles: true, cancelable: true }));
      done.push("paste " + input.dataset.cell);
    } else if (buttons.length) {
      const one = pick(buttons);
      done.push("click " + one.textContent);
      one.click();
    }
    await wait(draw(4) === 0 ? 300 : 4);
  }
  return done;
})`;

/** Random actions in each case, so many `steps`. */
export function monkey(seed, steps) {
  return CASES.map((id) => [`random actions: ${id}`, id, async (page, expect) => {
    const words = [seed + id.length, steps, TEXTS, BLOCKS].map((word) => JSON.stringify(word));
    const done = await page.run(`${PLAY}(${words.join()})`), last = done.slice(-5).join("; ");
    await page.run(`location.hash = "#${id}"`);
    await page.until(`location.hash === "#${id}" && document.body.dataset.view === "case"`);
    await page.click("Fill in the worked example");
    // the answer may have been hidden
    const isShown = '!document.body.classList.contains("answer-hidden")';
    await page.until(`${isShown} || document.querySelector(".hiding")?.click()`);
    await settle(page);
    expect(`after ${last}`, await page.text("#answer-body .notice.bad"), "");
    // its part may have been closed
    await page.run("for (const part of document.querySelectorAll('.part')) part.open = true");
    // what was clicked last may come from a worker still, and then all is asked once more
    await told(page, "#evidence .words", /says yes[\s\S]*says yes/);
    await told(page, "#busy", /^$/);
  }]);
}
