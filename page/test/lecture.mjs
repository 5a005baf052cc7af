// Scenarios: what a teacher shows to a class, in the words of the field.
import { noted, settle } from "./harness.mjs";

const type = async (page, cells) => {
  for (const [cell, text] of Object.entries(cells)) await page.type(cell, text);
};

/** Letters of the triangle that lie on one another, or on what is written at a corner. */
const OVERLAPS = `(() => {
  const boxes = [...document.querySelectorAll(".triangle svg .letter, .triangle svg .soft, .triangle svg .strong")]
    .map((text) => [text.textContent, text.getBoundingClientRect()]);
  const isOn = (a, b) => a.left < b.right && b.left < a.right && a.top + 4 < b.bottom && b.top + 4 < a.bottom;
  const after = (k, a) => boxes.slice(k + 1).filter(([, b]) => isOn(a, b));
  return boxes.flatMap(([one, a], k) => after(k, a).map(([two]) => one + two)).join();
})()`;

export const lecture = [
  ["letters of the triangle stand apart", "runway", async (page, expect) => {
    await type(page, { "rows.0.cost": "2", "rows.1.cost": "4", "rows.2.cost": "7" });
    await type(page, { "rows.0.count": "1", "rows.1.count": "1" });
    await settle(page);
    expect("a runway", await page.run(OVERLAPS), "");
    expect("letters", await page.run("document.querySelectorAll('.triangle svg .letter').length > 4"), true);
  }],

  ["a pair of gloves: a core of one point, and levels with one number", "gains", async (page, expect) => {
    await type(page, { "numbers.1": "0", "numbers.2": "0", "numbers.3": "0", "numbers.4": "0" });
    await type(page, { "numbers.5": "1", "numbers.6": "1", "numbers.7": "1" });
    await page.until("/one point in grey/.test(document.querySelector('.triangle')?.innerText)");
    await settle(page);
    await page.run(`document.querySelector('[data-cell="core"]').click()`);
    await page.until("/core point/.test(document.querySelector('.shares thead').textContent)");
    expect("no other is promised", await page.run("document.querySelector('.shares thead').textContent"),
      /A core pointone of many; proposes nothing/);
    const why = await page.text("#why");
    expect("some of the groups", why, /Among those with exactly that:/);
    expect("the same number", why, /That is the number of the level before: a level names groups enough/);
    expect("apart", await page.run(OVERLAPS), "");
  }],

  ["the answer is hidden from the class, and from paper", "costs", async (page, expect) => {
    await page.type("proposal.0", "4");
    await page.click("Hide the answer");
    expect("told", await page.text("#answer"), /The answer is hidden: only the case is shown and printed/);
    const parts = "['answer', 'why-body', 'evidence-body', 'said'].map((id) => document.getElementById(id))";
    expect("nowhere", /3.88|Nucleolus/.test(await page.run(`${parts}.map((one) => one.textContent).join()`)), false);
    expect("nor the reasons", await page.run("document.getElementById('why').hidden"), true);
    const what = "dispatchEvent(new Event('beforeprint')); document.body.dataset.print";
    expect("what is printed", await page.run(what), "all");
    await page.look({ wide: 800, print: true });
    const isShown = (id) => page.run(`getComputedStyle(document.getElementById("${id}")).display !== "none"`);
    expect("the case", await isShown("case"), true);
    expect("without the answer", await isShown("answer"), false);
    await page.run("dispatchEvent(new Event('afterprint'))");
    await page.look({});
    await page.type("numbers.7", "13");
    await page.until("/\\b13\\b/.test(document.querySelector('.made pre').textContent)");
    await page.until("!document.getElementById('answer').classList.contains('stale')");
    expect("still", await page.text("#answer-body"), /^The answer is hidden/);
    await page.click("Show the answer");
    await settle(page);
    expect("and shown again", await page.text(".lead"), /together 13.00/);
    expect("the proposal", await page.run(`document.querySelector('[data-cell="proposal.0"]').value`), "4");
  }],

  ["costs are concave, savings convex", "runway", async (page, expect) => {
    const why = await page.text("#why");
    expect("by the word of textbooks", why, /the costs are concave, and so the game of what is saved is convex/);
  }],

  ["prices hang together", "market", async (page, expect) => {
    expect("not each by itself", await page.text("#why-body"), /not that each can be chosen by itself/);
  }],

  ["a quota in per cent", "votes", async (page, expect) => {
    await page.click("Clear all");
    await page.paste('[data-cell="rows.0.name"]', "A\t100\nB\t101\nC\t125");
    await page.type("quota", "60 %");
    await settle(page);
    const said = "document.querySelector('.made pre').textContent";
    expect("rounded up", await page.run(said), /"quota":196,/);
    expect("told", await page.text("#case-body"), /The quota: 60 % of 326 votes, so at least 196/);
    await page.type("quota", "x %");
    await noted(page, /The quota is no number/);
    expect("no number", await page.text("#case .faults"), /The quota is no number/);
  }],

  ["amounts that commas and blanks part", "estate", async (page, expect) => {
    await page.click("Several amounts side by side");
    await page.type("amounts", "100, 200, 300");
    await page.click("Work it out", "document.querySelector('.other')");
    await page.until("document.querySelector('.found table')");
    expect("three", await page.text(".found thead"), /100.00\s+200.00\s+300.00/);
  }],

  ["what a group may build by itself", "network", async (page, expect) => {
    expect("told", await page.text("#case-body"), /A group by itself uses only links between its own places/);
  }],
];
