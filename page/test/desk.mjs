// Scenarios: what is seen first, the answer beside the cells, an answer that is kept to compare, networks as people
// paste them, and remarks on numbers that can hardly be meant.
import { noted, READY, savedFile, settle, told } from "./harness.mjs";

const top = (page, selector) => page.run(`document.querySelector('${selector}').getBoundingClientRect().top`);
const fold = (page) => page.run("for (const part of document.querySelectorAll('.part')) part.open = false");
const PIPES = [["From", "To", "Cost"], ["Reservoir", "Alby", 30], ["Reservoir", "Brook", 55], ["Alby", "Brook", 22],
  ["Alby", "Carle", 40], ["Reservoir", "Carle", 60], ["Brook", "Carle", 35]].map((row) => row.join("\t")).join("\n");
const SIX = Array.from({ length: 63 }, (_, k) => {
  const members = Array.from({ length: 6 }, (_, i) => i).filter((i) => ((k + 1) >> i) & 1);
  return `${members.map((i) => `P${i + 1}`).join("+")}\t${members.length ** 2}`;
}).join("\n");
const GROUPS = ["A\t150", "B\t95", "C\t200", "A+B\t260", "A+C\t325", "B+C\t274", "A+B+C\t360"].join("\n");

export const desk = [
  ["the answer stands beside the cells, and stays", "gains", async (page, expect) => {
    await fold(page);
    expect("in the first view", (await top(page, "#answer .lead")) < 400, true);
    expect("one main step", await page.text("#next .main"), "Why these shares?");
    const [left, right] = ["case", "answer"].map((id) => `document.getElementById("${id}").getBoundingClientRect()`);
    expect("side by side", await page.run(`${left}.right <= ${right}.left`), true);
    await page.paste('[data-cell="numbers.1"]', SIX);
    await page.until(`document.querySelectorAll(".shares tbody tr").length === 6 && ${READY}`);
    await page.run("scrollTo(0, 600)");
    expect("still seen", (await top(page, "#answer")) >= 0, true);
    await page.click("Why these shares?");
    await page.until("document.getElementById('why').open");
    expect("its head has the focus", await page.run("document.activeElement.parentElement.id"), "why");
  }],

  ["one column: the sentence at the lower edge leads to the answer", "gains", async (page, expect) => {
    await fold(page);
    await page.run("scrollTo(0, 0)");
    const peek = "document.getElementById('peek')";
    await page.until(`!${peek}.classList.contains("away")`);
    expect("it says the answer", await page.run(`${peek}.textContent`), /singer gets .*together 120/);
    await page.run(`${peek}.click()`);
    await page.until(`${peek}.classList.contains("away")`);
  }, { wide: 390, high: 700 }],

  ["a list of links, and an answer that is kept to compare", "network", async (page, expect) => {
    await page.paste('[data-cell="links.0-1"]', PIPES);
    await settle(page);
    expect("said", await page.text("#case .note"), /a list of from, to, cost: 4 points, 6 links, source: Reservoir\./);
    await page.click("Keep this answer to compare");
    await page.type("links.2-3", "20");
    await settle(page);
    expect("changed", await page.text(".pinned"), /Against the kept answer.*Changed since: Carle and Brook: 35 → 20\./);
    expect("marked", await page.run("document.querySelector('.changed').dataset.cell"), "links.2-3");
    await page.type("proposal.1", "31/8");
    const hides = "(one) => one.scrollWidth > one.clientWidth";
    const places = "[...document.querySelectorAll('#answer-body .scroll')]";
    expect("all columns are seen", await page.run(`${places}.some(${hides})`),
      false);
    const table = await savedFile(page, "Save the table (CSV)");
    const heads = /^,Fairest [\w ]+,[^\r]*,Each its own link,[^\r]*,Kept: Fairest [\w ]+,[^\r]*,Your proposal\r/;
    expect("the table has what stands beside the shares", table.replace("\ufeff", ""), heads);
    expect("a fraction is no date", table, /\r\nBrook,[^\r]*,3\.875\r/);
    expect("nor a share’s", /\d\/\d/.test(table), false);
    await page.type("proposal.1", "");
    await settle(page);
    const file = await savedFile(page, "Save the case");
    const before = await page.text(".pinned");
    await page.click("Stop comparing");
    expect("no more", await page.run("document.querySelectorAll('.pinned, .changed').length"), 0);
    await page.run("location.hash = '#document'");
    await page.fill("#document textarea", file);
    await page.until("document.querySelector('.pinned')");
    await settle(page);
    expect("saved with the case", await page.text(".pinned"), before);
  }],

  ["halves that contradict each other are refused, and the source can be chosen", "network", async (page, expect) => {
    await page.paste('[data-cell="names.0"]', "\tA\tB\tWell\nA\t\t5\t9\nB\t6\t\t8\nWell\t9\t8\t");
    expect("refused", await page.text("#case .note"), "A – B has two costs: 5 and 6. Nothing was taken.");
    await page.paste('[data-cell="names.0"]', "\tA\tB\tC\nA\t\t5\t9\nB\t5\t\t8\nC\t9\t8\t");
    const asked = await told(page, "#case .note", /Which point is the source/);
    expect("asked", asked,
      /Taken as a square with names: 3 points, 3 links\. Nothing says which point is the source\./);
    await page.until("document.getElementById('answer').hidden"); // no answer before
    await page.click("C", "document.querySelector('#case .note')");
    await settle(page);
    expect("another", await page.run(`document.querySelector('[data-cell="source"]').value`), "C");
    expect("its links", await page.run(`document.querySelector('[data-cell="links.0-1"]').value`), "9");
  }],

  ["numbers that can hardly be meant", "costs", async (page, expect) => {
    await page.paste('[data-cell="numbers.1"]', GROUPS);
    await noted(page, /Is this number right\?\s+A \+ B costs 260, more than B and A cost apart: 95 \+ 150/);
    await settle(page);
    expect("marked", await page.run("document.querySelector('.odd').dataset.cell"), "numbers.3");
    await page.type("numbers.3", "226");
    await page.until("!document.querySelector('.odd')");
    await page.type("numbers.7", "300");
    await noted(page, /A \+ B \+ C costs 300, less than A \+ C, which it holds: 325/);
  }],

  ["second votes are asked for once one is typed", "votes", async (page, expect) => {
    await page.click("Two quotas at once");
    await page.type("secondQuota", "3");
    await noted(page, /No second votes are typed, so each voter has one\./);
    await settle(page);
    expect("a grey one", await page.run(`document.querySelector('[data-cell="rows.1.second"]').placeholder`), "1");
    await page.type("rows.0.second", "2");
    await noted(page, /5 cells are still empty/);
  }],

  ["headings of an estate and of a market", "estate", async (page, expect) => {
    await page.paste('[data-cell="rows.0.name"]', "Creditor\tFiled (days)\tClaim\nNord\t12\t500\nSteel\t9\t2600");
    await told(page, "#case .pasted", /“Claim” is “Claim”. “Filed \(days\)” was left out\./);
    await page.run("location.hash = '#market'");
    await page.until(`document.querySelector('[data-cell="sellers.0"]') && ${READY}`);
    await page.paste('[data-cell="buyers.0"]', "\thouse\tflat\tcabin\nAnn\t5\t8\t2\nBen\t7\t6\t1");
    await told(page, "#why .trades", /Ann – flat[\s\S]*Ben – house/);
    expect("sellers", await page.run("document.querySelectorAll('[data-cell^=\"sellers.\"]').length"), 3);
  }],

  ["a whole number that shows the mark needs no button", "runway", async (page, expect) => {
    await page.paste('[data-cell="rows.0.name"]', "Airline\tLandings\tCost\nAer\t1,212\t65,899\nBee\t2\t90,000");
    await noted(page, /“1,212” shows that the point comes before decimals/);
    expect("no button", /No: /.test(await page.text("#case .faults")), false);
  }],

  ["the core of four players can be turned", "gains", async (page, expect) => {
    await page.paste('[data-cell="numbers.1"]', "0\t0\t0\t0\t1\t2\t3\t1\t2\t1\t4\t5\t4\t3\t10");
    await told(page, ".tetrahedron", /It has 20 corners and 14 faces/);
    await settle(page);
    const faces = "[...document.querySelectorAll('.core-face')].map((one) => one.getAttribute('points')).join()";
    const before = await page.run(faces);
    await page.run("document.querySelector('.turning').focus()");
    await page.key("ArrowDown");
    expect("turned", (await page.run(faces)) === before, false);
  }],
];
