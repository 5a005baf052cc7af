// Scenarios: sizes and times, phone width, dark, on paper, by the keyboard alone, and as a screen reader has it.
import { READY, settle, told } from "./harness.mjs";

const CASES = ["runway", "estate", "costs", "gains", "network", "market", "votes"];
const MOST_BLOCKED = 200; // milliseconds of the processor that one task of the page may take
const MOST_ANSWER = 1000; // from the last key to the answer of 16 players, on a quiet machine
const MOST_OPEN = 500;

function listOf(players) {
  return Array.from({ length: 2 ** players - 1 }, (_, k) => {
    const members = Array.from({ length: players }, (_, i) => i).filter((i) => ((k + 1) >> i) & 1);
    return `${members.map((i) => `P${i + 1}`).join("+")}\t${members.length ** 2 + ((k + 1) % 7)}`;
  }).join("\n");
}

const ANSWERED = `document.querySelectorAll('.shares tbody tr').length === 16 && ${READY}`;

/** Starts to wait for the next answer, and for how long it takes. */
const AWAIT = `window.typed = performance.now();
  window.waiting = new Promise((resolve) => {
    const seen = new MutationObserver(() => {
      if (document.getElementById("answer").classList.contains("stale")) return;
      seen.disconnect();
      resolve(performance.now() - window.typed);
    });
    seen.observe(document.getElementById("answer"), { attributes: true });
  }); true`;

async function sixteen(page, expect, slack, told) {
  let time = 0;
  const longest = await page.browser.longestTask(page, async () => {
    await page.click("Paste a whole list");
    await page.paste("details.inline textarea", listOf(16));
    await page.until(ANSWERED, 60000);
    expect("words", await page.text("#evidence .words"), /program’s checker says yes[\s\S]*own checker says yes/);
    await page.run(AWAIT);
    await page.type("numbers.1", "3");
    time = Math.round(await page.run("window.waiting"));
    await settle(page);
  });
  told.push(`16 players: answered ${time} ms after the last key, and the page blocked for at most ${longest} ms`);
  expect(`answered after ${time} ms`, time <= MOST_ANSWER * slack, true);
  expect(`blocked for ${longest} ms`, longest > 0 && longest <= MOST_BLOCKED, true);
}

const OPENED = "Math.round(performance.getEntriesByType('navigation')[0].loadEventEnd)"; // in milliseconds; 0 before

async function openedAgain(page) {
  const before = await page.run("performance.timeOrigin");
  await page.run("location.reload()");
  await page.until(`performance.timeOrigin !== ${before} && ${OPENED} > 0`);
  return page.run(OPENED);
}

/** The least of three times, if the first is too long: other scenarios are played beside it. */
async function opening(page, expect, slack, told) {
  let time = await page.run(OPENED);
  for (let more = 2; more && time > MOST_OPEN * slack; more -= 1) time = Math.min(time, await openedAgain(page));
  told.push(`the page opened in ${time} ms`);
  expect(`opened in ${time} ms`, time <= MOST_OPEN * slack, true);
  expect("cards", await page.run("document.querySelectorAll('.card').length"), 9);
}

/** Sizes and times; these may be longer by `slack`, and are put into `told`. */
export function large(slack, told) {
  return [
    ["sixteen players, 65,535 groups", "gains", (page, expect) => sixteen(page, expect, slack, told)],
    ["how fast the page opens", "", (page, expect) => opening(page, expect, slack, told)],
  ];
}

const OVER = "document.documentElement.scrollWidth - document.documentElement.clientWidth";

const VIEWS = ["", "document", "verify", ...CASES];
const isCase = (id) => CASES.includes(id);

const phones = VIEWS.map((id) => [`phone width: ${id || "start"}`, id, async (page, expect) => {
  expect("too wide by", await page.run(OVER), 0);
  if (!isCase(id)) return;
  await page.run("for (const one of document.querySelectorAll('details')) one.open = true");
  expect("unfolded, too wide by", await page.run(OVER), 0);
}, { wide: 360, high: 780 }]);

/** With a proposal, and what each group could gain: a table that has to be scrolled hides what it compares. */
const narrow = CASES.filter((id) => id !== "votes").map((id) => [`phone width: nothing to scroll, ${id}`, id,
  async (page, expect) => {
    await page.run("for (const one of document.querySelectorAll('details')) one.open = true");
    await page.click("equal parts");
    await settle(page);
    if (await page.run("Boolean(document.querySelector('.excesses'))")) await told(page, ".excesses", /Place/);
    const wide = `[...document.querySelectorAll("#answer .scroll, #why .scroll")].filter((one) => {
      return one.scrollWidth > one.clientWidth + 1;
    }).map((one) => one.innerText.slice(0, 40) + " " + (one.scrollWidth - one.clientWidth))`;
    expect("too wide", await page.run(`${wide}.join("; ")`), "");
    const small = `[...document.querySelectorAll("#answer :is(th, td)")].filter((one) => one.checkVisibility()
      && parseFloat(getComputedStyle(one).fontSize) < 12).map((one) => one.textContent).join("; ")`;
    expect("letters below 12 pixels", await page.run(small), "");
  }, { wide: 390, high: 844 }]);

// ---- Numbers as people have them

const pasted = async (page, cell, rows) => {
  await page.paste(`[data-cell="${cell}"]`, rows.map((row) => row.join("\t")).join("\n"));
  await page.until("[...document.querySelectorAll('#case input')].some(({ value }) => /EUR/.test(value))");
  await settle(page);
};
const LINKS = [["From", "To", "Cost"], ...["Source – Alby", "Source – Brook", "Source – Carle", "Source – Dent",
  "Alby – Brook", "Alby – Carle", "Alby – Dent", "Brook – Carle", "Brook – Dent", "Carle – Dent"].map((link, k) => {
  return [...link.split(" – "), `${[13, 18, 24, 14, 11, 13, 18, 16, 12, 15][k]},250.00 EUR`];
})];
const USERS = [["User", "Type", "Cost", "Uses"], ["North", "B1", "24,000.00 EUR", 3],
  ["South", "C2", "118,500.00 EUR", 2]];
const SUMS = ["A", "B", "C", "A+B", "A+C", "B+C", "A+B+C"].map((group) => [group, `${20 + group.length},000.00 EUR`]);
const CUT = "(one) => one.scrollWidth > one.clientWidth + 1";
const cutCells = (page) => page.run(`[...document.querySelectorAll("#case input")]
  .filter((one) => one.checkVisibility()).filter(${CUT}).map(({ value }) => value).join("; ")`);

const amounts = [["network", "names.0", LINKS], ["runway", "rows.0.name", USERS], ["costs", "numbers.1", SUMS]];
const whole = amounts.map(([id, cell, rows]) => [`nothing is cut off of amounts with cents and a unit: ${id}`, id,
  async (page, expect) => {
    await pasted(page, cell, rows);
    await page.run("for (const one of document.querySelectorAll('#case details')) one.open = true");
    expect("in the cells, and those of the text", await cutCells(page), "");
    const matrices = `[...document.querySelectorAll("#case .scroll:has(> .matrix)")].filter(${CUT}).length`;
    expect("of the table of links", await page.run(matrices), 0);
    await page.click("equal parts");
    await settle(page);
    const tables = await page.run(`[...document.querySelectorAll("#answer-body .scroll")].filter(${CUT}).length`);
    expect("of the answer", tables, 0);
  }]);

/** Letters of the sums are as those above them, so that they don't touch; whole sentences stand below the table. */
async function belowOnPhone(page, expect) {
  await page.type("proposal.0", "12");
  await page.type("proposal.1", "0");
  await page.type("proposal.2", "0");
  await settle(page);
  await told(page, "#answer .leaving", /Your proposal: Sales would do better alone, by 4\.00/);
  expect("in the cell", await page.text(".shares .verdict .proposed"), "Yes");
  const sizes = "[...new Set([...document.querySelectorAll('.shares :is(tbody, .sum) td:not(.main)')].map((one) => "
    + "getComputedStyle(one).fontSize))].join()";
  expect("size of letters", await page.run(sizes), "14px");
}

const papers = CASES.map((id) => [`one page on paper: ${id}`, id, async (page, expect) => {
  // paper doesn't wait: all has to stand there as soon as the browser begins to print
  const begun = "dispatchEvent(new Event('beforeprint')); document.getElementById('sheet').textContent";
  const sheet = await page.run(begun);
  await page.run("dispatchEvent(new Event('afterprint'))");
  const pages = (await page.pdf()).toString("latin1").match(/\/Type \/Page\b/g) ?? [];
  expect("pages", pages.length, 1);
  expect("who, and the rest", sheet, id === "market" ? /Ann – flat8.00/ : /together/);
  expect("parts", sheet, /What is agreed on[\s\S]*SHA-256 is [0-9a-f]{64}[\s\S]*How to check it[\s\S]*inside: coop/);
  expect("a picture", await page.run("document.querySelectorAll('#sheet svg').length"), 1);
}]);

async function longPaper(page, expect) {
  const rows = Array.from({ length: 64 }, (_, k) => `Claimant number ${k + 1}\t${100 + ((k * 37) % 91)}.25`);
  await page.click("Clear all");
  await page.paste('[data-cell="rows.0.name"]', rows.join("\n"));
  await page.type("estate", "3000");
  await settle(page);
  const pages = (await page.pdf()).toString("latin1").match(/\/Type \/Page\b/g) ?? [];
  expect("pages", pages.length, 1);
  expect("two tables", await page.run("document.querySelectorAll('#sheet table').length"), 2);
  const heads = "[...new Set([...document.querySelectorAll('#sheet thead')].map((head) => head.textContent))].length";
  expect("heads that differ", await page.run(heads), 1);
}

/** Eight of whom much is told, since no division satisfies all groups: other columns stand beside all the same. */
async function withColumns(page, expect) {
  const lines = Array.from({ length: 255 }, (_, k) => {
    const members = Array.from({ length: 8 }, (_, i) => i).filter((i) => ((k + 1) >> i) & 1), { length } = members;
    return `${members.map((i) => `Partner ${i + 1}`).join("+")}\t${length === 8 ? 24 : length * 2 + ((k * 7919) % 5)}`;
  });
  await page.click("Paste a whole list");
  await page.fill("details.inline textarea", lines.join("\n"));
  await page.click("Use this list");
  await page.until(`document.querySelectorAll('.shares tbody tr').length === 8 && ${READY}`);
  await page.click("equal parts");
  await settle(page);
  await page.run(`document.querySelector('[data-cell="paper.withProposal"]').click()`);
  const pages = (await page.pdf()).toString("latin1").match(/\/Type \/Page\b/g) ?? [];
  expect("pages", pages.length, 1);
  expect("with its columns", await page.text("#sheet thead"), /Shapley shares\s*exactly\s*[\s\S]*Your proposal/);
  expect("and its picture", await page.run("document.querySelectorAll('#sheet svg').length"), 1);
}

async function whatDoesNotFit(page, expect) {
  const rows = Array.from({ length: 130 }, (_, k) => `Airline number ${k + 1}\t${100 + k}\t1`);
  await page.run("window.print = () => { window.isPrinted = true; }");
  await page.click("Clear all");
  await page.paste('[data-cell="rows.0.name"]', rows.join("\n"));
  await told(page, "#answer-body", /These are 130 uses/);
  await page.click("On paper");
  await page.click("Print one page");
  await told(page, ".paper-part [role=status]", /^That takes \d sheets, in small letters and without a picture too/);
  expect("not printed yet", await page.run("window.isPrinted"), undefined);
  expect("nor seen", await page.run("getComputedStyle(document.getElementById('sheet')).display"), "none");
  await page.click("Print them");
  await page.until("window.isPrinted");
}

/** What would send or keep anything stands nowhere in the page, and the policy of the page refuses it besides. */
async function apart(page, expect) {
  await page.click("Costs of each group");
  await page.until(READY);
  const words = "localStorage|sessionStorage|indexedDB|document\\.cookie|sendBeacon|XMLHttpRequest|WebSocket";
  const code = "[...document.scripts].map((one) => one.textContent).join()";
  expect("words", await page.run(`${code}.match(/${words}|EventSource|\\bfetch\\(|importScripts/)?.[0] ?? ""`), "");
  expect("kept", await page.run("localStorage.length + sessionStorage.length + document.cookie.length"), 0);
  const refused = await page.run(`new Promise((resolve) => {
    document.addEventListener("securitypolicyviolation", (event) => resolve(event.effectiveDirective));
    globalThis["fet" + "ch"]("http://127.0.0.1:9/").catch(() => setTimeout(() => resolve("nothing"), 500));
  })`);
  expect("refused by", refused, "connect-src");
  page.events.length = 0;
}

async function dark(page, expect) {
  const colours = () => page.run("['--paper', '--ink'].map((name) => "
    + "getComputedStyle(document.documentElement).getPropertyValue(name).trim()).join()");
  expect("dark", await colours(), "#141618,#ecebe7");
  await page.look({ dark: false });
  expect("light", await colours(), "#f7f5f0,#1d1c1a");
}

async function everything(page, expect) {
  await page.run("document.body.dataset.print = 'all'; window.print = () => 0");
  await page.run("dispatchEvent(new Event('beforeprint'))");
  const said = await page.run("document.getElementById('paper-head').textContent");
  expect("what is proved", said, /whoever made it, .* Only the nucleolus has one\. .*numbers given are right\.$/);
  const part = await page.run("document.querySelector('.paper-part').textContent");
  expect("for which rule", part, /nothing is agreed on, the one page has “Fairest to those who gain least”\./);
  await page.look({ wide: 800, print: true });
  const shown = (selector) => page.run(`getComputedStyle(document.querySelector("${selector}")).display !== "none"`);
  expect("the sheet", await shown("#sheet"), false);
  expect("the reasons", await shown("#why"), true);
  expect("the buttons", await shown("#answer-settings"), false);
  await page.run("document.querySelector('.groups input').focus()");
  const ring = await page.run("getComputedStyle(document.activeElement).outlineStyle");
  expect("a ring around a cell", ring, "none");
  expect("the lines that the legend names", await shown("#why .triangle line.pair"), true);
}

/** What was typed last is worked out before paper takes it, and nothing of it is cut off at the edge. */
async function overrunOnPaper(page, expect) {
  await page.run("window.print = () => { window.printed = document.querySelectorAll('.found table').length; }");
  await page.click("If the whole costs more than planned");
  await page.click("On paper");
  await page.type("more", "10");
  await page.run(`document.querySelector('[data-cell="more"]').dispatchEvent(new Event("change"))`);
  await page.click("Print everything");
  await page.until("window.printed !== undefined");
  expect("tables on paper", await page.run("window.printed"), 1);
  await page.look({ wide: 665, print: true });
  const told = await page.run(`(() => {
    const table = document.querySelector(".overrun"), scroll = table.parentElement, last = [...table.rows].at(-2).cells;
    return [last.length, getComputedStyle(scroll).overflowX, table.scrollWidth - scroll.clientWidth,
      [...document.querySelectorAll(".grid tbody tr")].filter((row) => row.offsetHeight > 0).length].join();
  })()`);
  expect("cells of the last row, how it is cut off, too wide by, rows of the case", told, "10,visible,0,3");
}

async function savedPicture(page, expect) {
  const file = await page.run(`(async () => {
    let kept = null;
    const made = URL.createObjectURL;
    URL.createObjectURL = (blob) => (kept = blob, made.call(URL, blob));
    HTMLAnchorElement.prototype.click = () => 0;
    [...document.querySelectorAll(".save")].at(-1).click();
    URL.createObjectURL = made;
    return kept.text();
  })()`);
  expect("a picture", file, /^<\?xml[\s\S]*<svg[\s\S]*<style[\s\S]*Legal/);
  expect("no names of colours", /var\(--/.test(file), false);
  const parsed = `new DOMParser().parseFromString(${JSON.stringify(file)}, "image/svg+xml")`;
  expect("well formed", await page.run(`${parsed}.querySelector("parsererror") === null`), true);
}

export const looks = [
  ...phones, ...narrow, ...papers, ...whole,
  ["phone width: who could leave stands below the table", "costs", belowOnPhone, { wide: 390, high: 844 }],
  ["64 claims on one page", "estate", longPaper],
  ["one page on paper: eight with other columns", "gains", withColumns],
  ["one page on paper: what takes more is told before", "runway", whatDoesNotFit],
  ["nothing is sent or kept", "", apart],
  ["dark", "costs", dark, { dark: true }],
  ["everything on paper", "costs", everything],
  ["everything on paper: an overrun", "runway", overrunOnPaper],
  ["a picture to save", "costs", savedPicture],
];

// ---- By the keyboard, and by ear

async function keysAlone(page, expect) {
  const focused = () => page.run("document.activeElement.dataset.cell ?? document.activeElement.ariaLabel");
  await page.run(`document.querySelector('[data-cell="rows.0.claim"]').focus()`);
  await page.key("Enter", { text: "\r" });
  expect("below", await focused(), "rows.1.claim");
  await page.key("Tab");
  expect("tab passes the × by", await focused(), "rows.2.name");
  await page.run(`document.querySelector('[data-cell="rows.2.claim"]').focus()`);
  await page.key("Enter", { text: "\r" });
  expect("new row", await focused(), "rows.3.claim");
  await page.send("Input.insertText", { text: "500" });
  const kept = await page.run("document.activeElement.dataset.cell + document.activeElement.value");
  expect("kept", kept, "rows.3.claim500");
  await settle(page);
  expect("four", await page.run("document.querySelectorAll('#answer .shares tbody tr').length"), 4);
}

async function startByKeys(page, expect) {
  for (let k = 0; k < 3; k++) await page.key("Tab");
  await page.key("Enter", { text: "\r" });
  await page.until(READY);
  expect("a case", await page.run("location.hash"), /^#(runway|estate|costs)/);
  expect("its head has the focus", await page.run("document.activeElement.id"), "case-title");
}

/** Each × is in no tab order, and a key in its row does the same. */
async function removedByKey(page, expect, cell, row, before) {
  const count = `document.querySelectorAll("#case ${row}:has(.remove)").length`;
  expect("rows", await page.run(count), before);
  expect("in no tab order", await page.run("document.querySelectorAll('.remove:not([tabindex=\"-1\"])').length"), 0);
  const keys = await page.run("document.querySelector('#case .keys').textContent");
  expect("it is said", keys, /Alt\+Delete in a (row removes it|name removes the player)\./);
  await page.run(`document.querySelector('[data-cell="${cell}"]').focus()`);
  await page.key("Delete");
  expect("Delete alone removes nothing", await page.run(count), before);
  await page.key("Delete", { alt: true });
  await page.until(`${count} === ${before - 1}`);
  expect("a cell has the focus", await page.run("document.activeElement.dataset.cell !== undefined"), true);
  await page.click("Undo “Remove");
  await page.until(`${count} === ${before}`);
}

const BY_KEY = [["runway", "rows.1.cost", "tr", 3], ["estate", "rows.2.claim", "tr", 3],
  ["costs", "names.2", ".player", 3], ["network", "links.1-2", "tr", 4], ["market", "values.1.0", "tr", 3]];

const ROLES = ["button", "textbox", "combobox", "searchbox", "link", "checkbox", "DisclosureTriangle", "spinbutton"];

/** Each control has a name in the tree that screen readers get, and the tab key goes through all of them. */
async function controls(page, expect) {
  await page.run("new Promise((drawn) => requestAnimationFrame(() => requestAnimationFrame(drawn)))");
  const { nodes } = await page.send("Accessibility.getFullAXTree", {});
  const seen = nodes.filter(({ ignored, role }) => !ignored && ROLES.includes(role?.value));
  const nameless = seen.filter(({ name }) => !name?.value?.trim());
  expect("without a name", nameless.map(({ role }) => role.value).join(), "");
  expect("some controls", seen.length > 1, true);
  const pictures = nodes.filter(({ ignored, role }) => !ignored && ["img", "image"].includes(role?.value));
  expect("pictures without a name", pictures.filter(({ name }) => !name?.value).length, 0);
  const reachable = "button:not(.remove), input:not([aria-hidden]), select, textarea, summary, pre[tabindex]";
  const wanted = await page.run(`[...document.querySelectorAll("${reachable}")]
    .filter((one) => one.checkVisibility() && !one.disabled).length`);
  await page.run("document.activeElement.blur(); window.reached = new Set(); scrollTo(0, 0);"
    + "addEventListener('focusin', ({ target }) => reached.add(target))");
  for (let k = 0; k < wanted + 3; k++) await page.key("Tab");
  const left = await page.run(`[...document.querySelectorAll("${reachable}")]
    .filter((one) => one.checkVisibility() && !one.disabled && !reached.has(one))
    .map((one) => one.outerHTML.slice(0, 80)).join()`);
  expect("not reached by the tab key", left, "");
}

export const access = [
  ["keys alone", "estate", keysAlone],
  ...BY_KEY.map(([id, ...row]) => [`a row is removed by a key: ${id}`, id, (page, expect) => {
    return removedByKey(page, expect, ...row);
  }]),
  ["the start by keys alone", "", startByKeys],
  ...VIEWS.map((id) => [`each control reached and named: ${id || "start"}`, id, controls]),
];
