// Scenarios: steps at random, by a seed, undone one by one and done again. Each undo brings back all that stood there
// before its step: cells, questions that were answered, the user's own amounts, and the kept answer.

const QUIET = `(() => {
  const isStale = document.getElementById("answer").classList.contains("stale"); // also while there is none
  return !isStale && [...asking.values()].every((count) => count < 1)
    && !document.querySelector("#busy button, #evidence:not([hidden]) .word.busy")
    && ![...document.querySelectorAll("#answer .verdict td, #answer .because")]
      .some((one) => /^…|Finding/.test(one.textContent));
})()`;

/** Counts what the workers are asked and haven't answered yet. */
const WATCH = `(() => {
  window.asking = new Map();
  const { postMessage: post, terminate: end } = Worker.prototype;
  Worker.prototype.postMessage = function (...message) {
    if (!asking.has(this)) this.addEventListener("message", () => asking.set(this, asking.get(this) - 1));
    asking.set(this, (asking.get(this) ?? 0) + 1);
    return post.apply(this, message);
  };
  Worker.prototype.terminate = function () {
    asking.delete(this);
    return end.call(this);
  };
})()`;
const STATE = `(() => {
  const cells = [...document.querySelectorAll("#case [data-cell], #answer [data-cell]")];
  const texts = ["#case .faults", "#answer .lead", "#answer .shares", "#answer .pinned"];
  const isThere = !document.getElementById("answer").hidden;
  return [...cells.filter((one) => isThere || !one.closest("#answer")).map((one) => one.dataset.cell + "=" + one.value),
    ...texts.map((where) => document.querySelector(where)?.textContent ?? "")
      .filter((_, k) => isThere || !k)].join("\\n");
})()`;

/** One action, drawn: what was done, and whether it was typing, so that the next key belongs to the same step. */
const ACT = `((draw, blocks, words) => {
  const pick = (list) => list[draw(list.length)], isThere = (one) => one.offsetParent !== null && !one.disabled;
  const all = (where) => [...document.querySelectorAll(where)].filter(isThere);
  const type = (where, texts, kind) => {
    const input = pick(all(where)), text = pick(texts);
    if (!input) return null;
    input.focus();
    input.value = text;
    input.dispatchEvent(new Event("input", { bubbles: true }));
    return [kind, input.dataset.cell + "=" + text];
  };
  const paste = (where, text) => {
    const input = all(where)[0], data = new DataTransfer();
    if (!input) return null;
    data.setData("text/plain", text);
    input.dispatchEvent(new ClipboardEvent("paste", { clipboardData: data, bubbles: true, cancelable: true }));
    return ["paste", text];
  };
  const click = (where, text = /./) => {
    const one = pick(all(where).filter((other) => text.test(other.textContent)));
    one?.click();
    return one ? ["click", one.textContent] : null;
  };
  return [
    () => type("#case input.number[data-cell]", words, "cells"),
    () => type("#case input.name[data-cell]", ["Zoe", "", "Ann", "Bo"], "cells"),
    () => paste("#case table input, #case .groups input", pick(blocks)),
    () => click("#case .faults .note button"),
    () => type('#answer [data-cell^="proposal."]', words, "own"),
    () => paste('#answer [data-cell^="proposal."]', "3\\n4"),
    () => click("#own-body button", /parts|rounded|clear|division/),
    () => click("#own-body button, #answer button", /Keep this|Keep the new|Stop comparing/),
    () => click("#own-body button", /Compare with|Without what/),
    () => type('#answer [data-cell^="today."]', words, "today"),
    () => click("#case .remove"),
  ][draw(11)]();
})`;

const WORDS = ["7", "12.5", "1,234", "3,5", "", "2"];
const LISTS = ["Ann\t1.200\nBo\t2.300\nCy\t900", "Bo\t3\nZoe\t5\nTotal\t8", "Ann\t4\nAnn\t5\nBo\t2"];
const TABLES = ["Ann\t1.200\nBo\t2.300\nAnn+Bo\t3.100", "A\t4\nB\t5\nC\t6\nA+B\t7\nA+C\t8\nB+C\t9\nA+B+C\t12"];

async function quiet(page) {
  await page.run("new Promise((resolve) => setTimeout(resolve, 330))");
  await page.until(QUIET);
  return page.run(STATE);
}

/** Undoes, or does again, as long as there is a button, and gives all states that were seen. */
async function visited(page, word) {
  const seen = [await quiet(page)], found = `[...document.querySelectorAll("#case .bottom button")]
    .find((one) => one.textContent.startsWith("${word} “"))`;
  while (await page.run(`Boolean(${found})`)) {
    await page.run(`${found}.click()`);
    seen.push(await quiet(page));
  }
  return seen;
}

const apart = (states) => states.filter((state, k) => state !== states[k - 1]);

/** What differs between two lists of states, in lines; "" where they are the same. */
function difference(wanted, found) {
  const [one, other] = [wanted, found].map(apart), k = one.findIndex((state, at) => state !== other[at]);
  if (k < 0 && one.length === other.length) return "";
  const [lines, others] = [one[k] ?? "", other[k] ?? ""].map((state) => state.split("\n"));
  const only = (some, rest) => some.filter((line) => !rest.includes(line)).join(" | ");
  return `state ${k} of ${one.length}, ${other.length}: wanted ${only(lines, others)}, found ${only(others, lines)}`;
}

const mixed = (seed, count, blocks) => async (page, expect) => {
  await page.run(WATCH);
  await page.run(`(() => {
    let state = ${seed};
    window.draw = (most) => {
      state = (state * 1103515245 + 12345) % 2 ** 31;
      return Math.floor(state / 2048) % most;
    };
  })()`);
  const words = [blocks, WORDS].map((list) => JSON.stringify(list)), states = [await quiet(page)], done = [];
  let last = "";
  while (done.length < count) {
    const act = await page.run(`${ACT}(draw, ${words})`), state = act && await quiet(page);
    if (!act || state === states.at(-1)) continue;
    if (act[0] === last && !["click", "paste"].includes(last)) states.pop();
    states.push(state);
    [last] = act;
    done.push(act.join(" "));
  }
  const told = done.join("; ").replaceAll("\n", "/"), back = await visited(page, "Undo");
  expect(`undone: ${told}`, difference([...states].reverse(), back), "");
  expect(`done again: ${told}`, difference(states, await visited(page, "Redo")), "");
};

const lastStep = (page) => page.run(`document.querySelector("#case .bottom").textContent.match(/Undo “(.*?)”/)?.[1]`);

/** A question that was answered and the user's own amounts stay, if what was typed after them is undone. */
async function oneByOne(page, expect) {
  await page.paste('[data-cell="rows.0.name"]', "OG\t103.000\nEG\t38.000");
  await page.type("estate", "50.000");
  await quiet(page);
  await page.click(", whole");
  await quiet(page);
  await page.click("equal parts");
  await quiet(page);
  await page.click("Keep this answer to compare");
  await page.type("rows.0.claim", "118.500");
  await quiet(page);
  const valueOf = (cell) => page.run(`document.querySelector('[data-cell="${cell}"]').value`);
  const steps = [/^Typing$/, /^Keep this answer$/, /^Fill it with equal parts$/, /, whole$/, /^Typing$/, /^Paste$/];
  for (const [k, step] of steps.entries()) {
    expect("the last step", await lastStep(page), step);
    await page.click("Undo “");
    await quiet(page);
    if (k) continue;
    expect("the cell", await valueOf("rows.0.claim"), "103.000");
    expect("own amounts", await valueOf("proposal.0"), "25000,00");
    expect("no question", /Which is it/.test(await page.text("#case .faults")), false);
  }
  expect("all is undone", await valueOf("rows.0.name"), "Adler");
}

/** What is typed and typed back is no step, and the steps before it stay. */
async function typedBack(page, expect) {
  await page.run(`[...document.querySelectorAll("#case .remove")][2].click()`);
  const step = await lastStep(page);
  await page.type("rows.0.claim", "5");
  await page.type("rows.0.claim", "1200.50");
  expect("the last step", await lastStep(page), step);
  await page.click("Undo “");
  await quiet(page);
  const last = `document.querySelector('[data-cell="rows.2.name"]').value`;
  expect("the row is there again", await page.run(last), "Chopra");
}

/** Of so many seeds, for each of three cases. */
export function undone(seeds, count = 6) {
  return [["undo: one step after the other", "estate", async (page, expect) => {
    await page.run(WATCH);
    await oneByOne(page, expect);
  }], ["undo: what is typed back", "estate", async (page, expect) => {
    await page.run(WATCH);
    await typedBack(page, expect);
  }], ...seeds.flatMap((seed) => [["estate", LISTS], ["costs", TABLES], ["runway", LISTS]].map(([id, blocks]) => {
    return [`undo: steps at random, ${id}, seed ${seed}`, id, mixed(seed, count, blocks)];
  }))];
}
