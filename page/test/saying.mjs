// Scenarios: what has to be said where it counts: by which measure, how it is rounded, what a proposal is.
import { noted, settle, showExact, told } from "./harness.mjs";

const sheetOf = async (page) => {
  await page.run("dispatchEvent(new Event('beforeprint'))");
  return page.run("document.getElementById('sheet').textContent");
};

const WORDS = ["Imputation", "Excess", "Core", "Nucleolus", "Prenucleolus", "Per head", "Kernel", "Convex",
  "Shapley value"];

async function savedNames(page) {
  return page.run("[...document.querySelectorAll('#evidence .files button')].map((one) => one.textContent).join()");
}

export const saying = [
  ["per head is said wherever the rule is named", "gains", async (page, expect) => {
    await page.choose("measure", "per-head");
    await settle(page);
    const column = /Fairest to those who gain least, per head\s+nucleolus per head/;
    await showExact(page);
    expect("column", await page.text(".shares thead"), column);
    expect("pictures", await page.run("document.querySelector('.bars svg').textContent"), /gain least, per head/);
    expect("triangle", await page.run("document.querySelector('.triangle svg').textContent"), /gain least, per head/);
    expect("files", await savedNames(page), /gains-nucleolus-per-head\.json/);
    expect("in a sentence", await page.text(".lead"), /By the nucleolus per head/);
    await page.run("document.querySelector('#why .meanings').open = true");
    expect("meaning", await page.text("#why .meanings"), /The nucleolus per head counts[\s\S]*Grotte 1970/);
    expect("no false sentence", /; the nucleolus is, wherever/.test(await page.text("#why .meanings")), false);
    expect("proposal", await page.text(".fill"), /fairest to those who gain least, per head, rounded/);
    const sheet = await sheetOf(page);
    expect("paper", sheet, /Why: fairest [^(]*, per head \(the nucleolus per head\)[\s\S]*one nucleolus per head \(Gr/);
    expect("not by another's name", /nucleolus(?![ -]per[ -]head)/i.test(sheet), false);
    expect("what a yes means", await page.run("document.querySelector('#evidence .meanings').textContent"),
      /shares are the nucleolus per head of/);
    const line = await page.run("[...document.querySelectorAll('#evidence pre')].at(-1).textContent");
    await page.run("dispatchEvent(new Event('afterprint'))");
    await page.fill("#verify textarea", line);
    await page.until("document.querySelector('#verify .lead')");
    const checked = /The shares are the nucleolus per head of the game in the line/;
    expect("checked", await page.text("#verify .lead"), checked);
    expect("and its line", await page.text("#verify .answers"),
      /What the line says: the nucleolus per head, for 3 players/);
  }],

  ["a proposal that the page fills in is whole", "gains", async (page, expect) => {
    await page.type("numbers.7", "120.0265");
    await settle(page);
    const ways = ["equal parts", "fairest to those who gain least, rounded", "by what each adds", "in proportion"];
    for (const way of ways) {
      await page.click(way, "document.querySelector('.fill')");
      await settle(page);
      expect(way, /missing|too much/.test(await page.text(".shares tfoot")), false);
    }
    await page.click("by what each adds", "document.querySelector('.fill')");
    await page.type("numbers.7", "361/3");
    await settle(page);
    await page.click("equal parts");
    await settle(page);
    expect("of a fraction", /missing|too much/.test(await page.text(".shares tfoot")), false);
  }],

  ["a proposal that is a division of the table", "runway", async (page, expect) => {
    for (const [r, text] of [["2"], ["4"], ["6"]].entries()) await page.type(`rows.${r}.cost`, text[0]);
    for (const r of [0, 1, 2]) await page.type(`rows.${r}.count`, "1");
    for (const [r, text] of ["2/3", "5/3", "11/3"].entries()) await page.type(`proposal.${r}`, text);
    await settle(page);
    expect("told", await page.text(".same-as"), "Your proposal is exactly the column “By what each adds”.");
    await page.until("document.querySelector('.comparison')");
    await page.click("Your proposal beside “Fairest to those who gain least”");
    const told = /Of all divisions in which nobody pays more than alone, “Fairest to [\w ]+” has the least list: at/;
    expect("compared", await page.text(".comparison"), told);
  }],

  ["decimals that are moved to add up", "estate", async (page, expect) => {
    for (const [r, text] of ["100", "200", "300"].entries()) await page.type(`rows.${r}.claim`, text);
    await page.type("estate", "100");
    await settle(page);
    const told = await page.run("document.querySelector('#why .moved').textContent");
    expect("told", told, /Rounded so that they add up[\s\S]*“Options” shows the exact/);
    expect("on paper", await sheetOf(page), /Rounded so that they add up/);
    expect("decimals beside a fraction", await page.text("#why"), /but at most 33.33 \(exactly 100\/3\)/);
    await page.run("dispatchEvent(new Event('afterprint'))");
    await page.type("estate", "300");
    await settle(page);
    expect("not where none is", await page.run("document.querySelector('#why .moved')"), null);
  }],

  ["changes of an overrun are those of the numbers shown", "runway", async (page, expect) => {
    for (const [r, text] of ["2", "4", "6"].entries()) await page.type(`rows.${r}.cost`, text);
    for (const r of [0, 1, 2]) await page.type(`rows.${r}.count`, "1");
    await settle(page);
    await page.click("If the whole costs more than planned");
    await page.type("more", "1");
    await page.click("Work it out", "document.querySelector('.other')");
    await page.until("document.querySelector('.found table')");
    const cells = await page.run(`[...document.querySelectorAll(".found tbody tr")].map((row) =>
      [...row.querySelectorAll("td")].map((cell) => Number(cell.firstChild.textContent.replace("−", "-"))))`);
    const isWrong = (row) => [0, 3, 6].some((k) => Math.abs(row[k + 1] - row[k] - row[k + 2]) > 1e-9);
    expect("rows that don't fit", cells.filter(isWrong).length, 0);
  }],

  ["an answer that no longer fits stays dimmed, whatever is typed into it", "costs", async (page, expect) => {
    const typed = (cell, text) => `cell = document.querySelector('[data-cell="${cell}"]'), cell.value = "${text}",
      cell.dispatchEvent(new Event("input", { bubbles: true }))`;
    const isStale = await page.run(`(() => {
      let cell;
      ${typed("numbers.7", "13")};
      ${typed("proposal.0", "4")};
      return document.getElementById("answer").classList.contains("stale");
    })()`);
    expect("dimmed", isStale, true);
    await settle(page);
    expect("answered", await page.text(".lead"), /together 13.00/);
  }],

  ["what each pays today, and how much that changes", "costs", async (page, expect) => {
    const before = await page.run("document.querySelector('.made pre').textContent");
    await page.click("Compare with what each pays today");
    await page.paste('[data-cell="today.0"]', "Sales\t4\nOps\t4");
    expect("not all yet", await page.text(".shares .sum td.today"), "–");
    await page.type("today.2", "5");
    const changes = /3.88\s+−0.12 \(−3.0\s%\)[\s\S]*4.00\s+−1.00 \(−20.0\s%\)/;
    expect("money and per cent", await page.text(".shares tbody"), changes);
    expect("together", await page.text(".shares .sum"), /13.00\s+12.00\s+−1.00 \(−7.7\s%\)/);
    expect("told", await page.text("#own-body"), /The column is for the table and for paper\./);
    expect("the same game", await page.run("document.querySelector('.made pre').textContent"), before);
    expect("on paper", await sheetOf(page), /Pays todayChange[\s\S]*Sales[\s\S]*4.00−0.12 \(−3.0\s%\)/);
    await page.run("dispatchEvent(new Event('afterprint'))");
    await page.type("numbers.7", "13");
    await settle(page);
    expect("after another number", await page.text(".shares .sum"), /13.00\s+13.00\s+0.00 \(0.0\s%\)/);
    await page.click("Without what each pays today");
    expect("without", await page.run("document.querySelectorAll('.shares .today, .shares .change').length"), 0);
  }],

  ["which rule is monotonic, and the words", "document", async (page, expect) => {
    const told = /7\/6 by the nucleolus, and by the Shapley shares[\s\S]*only 1 by the nucleolus, and 17\/12 by the Sh/;
    const [less, more] = [/1\s+0.00\s+1.17\s+1.17/, /1\s+0.00\s+1.00\s+1.42/];
    for (const [whole, wanted] of [[3, less], [4, more]]) {
      await page.run("location.hash = '#document'");
      await page.fill("#document textarea", game([0, 0, 1, 0, 0, 0, 1, 0, 0, 0, 1, 0, 2, 0, whole], 4));
      await page.until(`document.querySelector('[data-cell="numbers.15"]')?.value === '${whole}'`);
      await settle(page);
      expect(`of ${whole}`, await page.text(".shares tbody"), wanted);
    }
    await page.click("Which rule gives nobody less when the whole grows");
    expect("the example", await page.text("#why-body"), told);
    for (const part of ["#why-body", "#verify"]) {
      if (part === "#verify") await page.run("location.hash = '#verify'");
      await page.until(`document.querySelector("${part}").offsetParent !== null`);
      await page.click("The words of the field, each in a sentence", `document.querySelector('${part}')`);
      const said = await page.text(part);
      expect("words that aren't told", WORDS.filter((word) => !said.includes(`${word}: `)).join(), "");
    }
  }],

  ["nobody hears an answer that no longer stands", "costs", async (page, expect) => {
    expect("said", await page.run("document.getElementById('said').textContent"), /Sales pays/);
    await page.type("numbers.1", "x");
    await noted(page, /“x”/);
    expect("silent", await page.run("document.getElementById('said').textContent"), "");
  }],
];

const game = (worths, players = 3) => `{"game":{"class":"table","players":${players},"worths":[${worths}]}}`;

saying.push(
  ["an overrun after which no division satisfies all", "costs", async (page, expect) => {
    await page.click("If the whole costs more than planned");
    await page.type("more", "9");
    await page.click("Work it out", "document.querySelector('.other')");
    await page.until("document.querySelector('.found table')");
    const found = await page.text(".found");
    expect("told", found, /no division satisfies all groups: by any rule some group would pay less by itself/);
    expect("by each rule", found, /Could a group do better alone\?\s+No\s+Yes: .*\s+(No|Yes: .*)\s+Yes: /);
  }],

  ["the prenucleolus, where it is another than the nucleolus", "document", async (page, expect) => {
    await page.fill("#document textarea", game([0, 0, 8, 0, 8, 0, 9]));
    await settle(page);
    await showExact(page);
    expect("the same is not told twice", /prenucleolus/i.test(await page.text(".shares thead")), false);
    await page.run("location.hash = '#document'");
    await page.fill("#document textarea", game([0, 0, 10, 0, 10, 10, 1]));
    await page.until("document.querySelector('[data-cell=\"numbers.7\"]')?.value === '1'");
    await settle(page);
    expect("symmetric", /prenucleolus/i.test(await page.text(".shares thead")), false);
    await page.run("location.hash = '#document'");
    await page.fill("#document textarea", game([0, 0, 20, 0, 0, 0, 1]));
    await page.until("document.querySelector('[data-cell=\"numbers.3\"]')?.value === '20'");
    await settle(page);
    const heads = await page.text(".shares thead");
    expect("another", heads, /nucleolus[\s\S]*even if some do worse than alone\s+prenucleolus/);
  }],

  ["points at one place in the triangle, and its corners", "runway", async (page, expect) => {
    for (const [r, text] of ["2", "4", "6"].entries()) await page.type(`rows.${r}.cost`, text);
    for (const r of [0, 1, 2]) await page.type(`rows.${r}.count`, "1");
    for (const [r, text] of ["2/3", "5/3", "11/3"].entries()) await page.type(`proposal.${r}`, text);
    await settle(page);
    const drawn = await page.run("document.querySelector('.triangle svg').textContent");
    expect("together", drawn, /By what each adds and Your proposal: one point/);
    expect("corners", drawn, /Aer−4; 4; 6Bee2; −2; 6/);
    const told = await page.run("document.querySelector('.triangle svg').getAttribute('aria-label')");
    expect("told", told, /Fairest to those who gain least: Aer 1, Bee 1.50, Cargo 3.50/);
  }],

  ["eight who share, filled and on one page", "costs", async (page, expect) => {
    const towns = ["Aston", "Bray", "Colne", "Dale", "Eskham", "Fenby", "Holm", "Holme"];
    const alone = towns.map((name, k) => `${name}\t${3000.5 + 411.25 * k}`);
    await page.click("Paste a whole list");
    await page.fill("details.inline textarea", [...alone, `${towns.join("+")}\t15671.4`].join("\n"));
    await page.click("Use this list");
    await page.click("Yes, take it"); // hardly any group
    await noted(page, /246 cells are still empty/);
    await page.click("Fill the empty ones");
    await settle(page);
    const pages = (await page.pdf()).toString("latin1").match(/\/Type \/Page\b/g) ?? [];
    expect("pages", pages.length, 1);
  }],
);

saying.push(
  ["what a proposal leaves the worst-off, and the given numbers on paper", "gains", async (page, expect) => {
    await page.click("equal parts");
    await settle(page);
    await page.click("Your proposal beside “Fairest to those who gain least”");
    const leaves = /leaves singer and pianist together a gain of only 0; by “Fairest[^”]+” each group has at least 15/;
    await told(page, ".comparison", leaves);
    const towns = ["Ashby", "Brenton", "Colby", "Denham", "Elsworth"];
    const lines = Array.from({ length: 31 }, (_, k) => {
      const own = towns.filter((_, i) => ((k + 1) >> i) & 1);
      return `${own.join("+")}\t${own.length ** 2 * 100 + k}`;
    });
    await page.paste('[data-cell="numbers.1"]', lines.join("\n"));
    await told(page, "#answer .lead", /Elsworth gets/);
    await settle(page);
    expect("on paper", await sheetOf(page), /Given were: Ashby 100; .* 2530\./);
    expect("one page", ((await page.pdf()).toString("latin1").match(/\/Type \/Page\b/g) ?? []).length, 1);
  }],
);
