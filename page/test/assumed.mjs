// Scenarios: what was assumed and not given, kept in a saved case, compared, and told; and other questions of a table.
import { noted, settle, told } from "./harness.mjs";

const TOWNS = "Aston;112,0\nBray;80,2\nColne;65,1\nDale;72,9\nAston+Bray;170,5\nBray+Colne;124,3\nColne+Dale;126,1\n"
  + "Aston+Bray+Colne;232,0\nAston+Bray+Dale;175,0\nAston+Bray+Colne+Dale;251,5\n";
const MESSAGE = "#case .note[role=status]";
const value = (page, cell) => page.run(`document.querySelector('[data-cell="${cell}"]').value`);
const filledCount = (page) => page.run("document.querySelectorAll('.groups .filled').length");

async function useList(page, text) {
  await page.click("Paste a whole list");
  await page.fill("details.inline textarea", text);
  await page.click("Use this list");
}

async function fillTowns(page) {
  await useList(page, TOWNS);
  await told(page, MESSAGE, /^Read: 4 players/);
  await page.click("Fill the empty ones");
  await told(page, MESSAGE, /5 groups were filled/);
  await settle(page);
}

async function choose(page, cell, text) {
  await page.run(`(() => {
    const choice = document.querySelector('[data-cell="${cell}"]');
    choice.value = ${JSON.stringify(text)};
    choice.dispatchEvent(new Event("change"));
  })()`);
}

async function showBy(page, mark) {
  await page.run(`(() => {
    const choice = document.querySelectorAll("#answer-settings select")[1];
    choice.value = "${mark}";
    choice.dispatchEvent(new Event("change"));
  })()`);
  await settle(page);
}

/** What a button would save: the text of the file, and its name. */
export async function saved(page, title) {
  await page.run(`(() => {
    const make = URL.createObjectURL, click = HTMLAnchorElement.prototype.click;
    URL.createObjectURL = (blob) => (window.savedFile = blob.text(), make.call(URL, blob));
    HTMLAnchorElement.prototype.click = function () { window.savedName = this.download; };
    [...document.querySelectorAll("button")].find((one) => one.textContent === "${title}").click();
    URL.createObjectURL = make;
    HTMLAnchorElement.prototype.click = click;
  })()`);
  return { name: await page.run("window.savedName"), text: await page.run("window.savedFile") };
}

export async function openText(page, text) {
  await page.run("location.hash = '#document'");
  await page.until("document.body.dataset.view === 'document'");
  await page.fill("#document textarea", text);
}

export const assumed = [
  ["a saved case knows what was filled", "costs", async (page, expect) => {
    await fillTowns(page);
    await showBy(page, ",");
    await page.type("paper.heading", "Water works");
    await page.type("paper.unit", "k€");
    await page.type("proposal.0", "90,5");
    const { name, text } = await saved(page, "Save the case");
    expect("its name", name, "costs-case.json");
    expect("its form", text, /^{"coop-page":1,\n"document":{"game"[\s\S]*"filled":{"how":"split","groups":\[\[1,3\]/);
    await showBy(page, ".");
    await page.click("Clear all");
    await openText(page, text);
    await page.until("document.body.dataset.view === 'case'");
    await settle(page);
    expect("filled", await filledCount(page), 5);
    expect("told", await page.text("#case .case > .note"), /changed the file since, the page can’t know/);
    await told(page, MESSAGE, /^5 groups were filled[^]*1 of them cost more than a larger group that holds them/);
    const dearer = await page.run("document.querySelector('.named ul').textContent");
    expect("and which", dearer, "Aston + Dale: 184,9 (Aston + Bray + Dale: 175,0)");
    expect("by its mark", await value(page, "numbers.5"), "177,1");
    expect("shown", await page.text(".lead"), /together 251,50/);
    expect("proposal", await value(page, "proposal.0"), "90,5");
    const onPaper = `${await value(page, "paper.heading")} ${await value(page, "paper.unit")}`;
    expect("heading, unit", onPaper, "Water works k€");
    await page.type("numbers.1", "110,0");
    await page.until(`document.querySelector('[data-cell="numbers.5"]').value === "175,1"`);
  }],

  ["a spoilt case is refused with its place, and of a document nothing is known", "costs",
    async (page, expect) => {
      await fillTowns(page);
      const { text } = await saved(page, "Save the case"), message = "#document-message";
      for (const [from, to, wanted] of [['"coop-page":1', '"coop-page":2', /later version[\s\S]*coop-page/],
        ['"entry":","', '"entry":";"', /isn’t as the page saved it[\s\S]*Place: entry/],
        ["[[1,3]", "[[1,9]", /isn’t as the page saved it[\s\S]*Place: filled, groups, item 1/],
        ['"players":4', '"players":5', /Place: document, /]]) {
        await openText(page, text.replace(from, to));
        await told(page, message, wanted);
      }
      await openText(page, text.replace('"1771/10"', '"1773/10"'));
      await page.until("document.body.dataset.view === 'case'");
      await told(page, "#case .case > .note:nth-of-type(3)", /stand here as typed ones/);
      expect("no cell", await filledCount(page), 0);
      const document = /"document":(.*),$/m.exec(text)[1];
      await openText(page, document);
      await told(page, "#case .case > .note", /This file doesn’t say which numbers were assumed/);
    }],

  ["filled by larger groups too, and how much depends on it", "costs", async (page, expect) => {
    await fillTowns(page);
    expect("by splits", await value(page, "numbers.9"), "184,9");
    await told(page, MESSAGE, /1 of them cost more than a larger group/);
    const named = await page.run("document.querySelector('.named ul').textContent");
    expect("named", named, "Aston + Dale: 184,9 (Aston + Bray + Dale: 175,0)");
    await told(page, ".fills summary", /the largest change is that of \w+: [\d,]+ (less|more) \(“/);
    await page.run("dispatchEvent(new Event('beforeprint'))");
    const sheet = await page.run("document.getElementById('sheet').textContent");
    expect("on paper, of its rule", sheet, /Filled by the other way, no share of what stands here changes\./);
    const { text } = await saved(page, "Save the table (CSV)");
    expect("in the file", text, /Fractions have ÷ so that .*\s+"?Of the 15 numbers 5 weren’t given/);
    expect("and what was given", sheet, /Given were: Aston 112,0; Bray 80,2;.*Bray \+ Colne \+ Dale 251,5\./);
    const line = /The line “adds to the cost of all others” of Aston and Bray stands on a number that the page filled/;
    expect("in the picture", await page.text("figure.bars figcaption"), line);
    expect("and on paper", sheet, line);
    const own = "document.querySelector('[data-cell=\"paper.withProposal\"]')";
    await page.run(`${own}.click(); dispatchEvent(new Event('beforeprint'))`);
    const change = /largest change of what stands here is that of Aston: 0,83 less \(“By what each adds”\)\./;
    expect("of all rules there", await page.run("document.getElementById('sheet').textContent"), change);
    await page.run(`${own}.click(); dispatchEvent(new Event('afterprint'))`);
    await page.click("Fill them no dearer than a larger group");
    await told(page, MESSAGE, /or a larger group that holds it/);
    await settle(page);
    expect("none is above", await page.run("document.querySelector('.named')"), null);
    expect("told", await page.text("#answer-body .filled-note"), /and of the larger groups that hold it/);
    await page.type("numbers.15", "200");
    await page.until("document.querySelector('[data-cell=\"numbers.13\"]').value === '200'");
  }],

  ["a table made of a network leaves a way back to the one that stood there", "costs", async (page, expect) => {
    await page.type("numbers.7", "13");
    await settle(page);
    await page.run("location.hash = '#network'");
    await page.until("document.querySelector('[data-cell=\"links.0-1\"]')");
    await page.type("source", "Reservoir");
    await settle(page);
    expect("the name of the source", await page.run("document.querySelector('.plan svg').textContent"), /Reservoir/);
    await page.type("links.1-2", ""); // two places that each build alone
    await noted(page, /1 cell is still empty/);
    await page.click("A link that can’t be built");
    await page.click("make a table of costs of it");
    await page.until("location.hash === '#costs' && document.querySelector('[data-cell=\"names.3\"]')");
    await page.click("Undo “Make a table of costs”");
    await page.until("!document.querySelector('[data-cell=\"names.3\"]')");
    expect("back", await value(page, "numbers.7"), "13");
  }],

  ["Undo leaves heading, unit and decimals", "costs", async (page, expect) => {
    await page.type("paper.heading", "Water works");
    await page.type("paper.unit", "k€");
    await page.run("document.querySelector('[aria-label=\"Remove Legal\"]').click()");
    await settle(page);
    await page.click("Undo “Remove Legal”");
    await page.until("document.querySelector('[data-cell=\"numbers.7\"]')");
    await settle(page);
    expect("both", `${await value(page, "paper.heading")} ${await value(page, "paper.unit")}`, "Water works k€");
  }],

  ["a list that is refused stays where it is, with its line", "costs", async (page, expect) => {
    await useList(page, "Sales;8\nOps;7\nSales+Opps;9");
    await told(page, MESSAGE, /^Line 3: There is no line for “Opps” alone\. Add a line .*Nothing was taken\.$/);
    expect("open", await page.run("document.querySelector('.more-tools details').open"), true);
    await page.fill("details.inline textarea", "group;cost\nSales;8\nOps;7\n\nOps;9");
    await page.click("Use this list");
    await told(page, MESSAGE, /^Line 5: Ops occurs twice/);
    expect("the answer stays", await page.text(".lead"), /together 12.00/);
    const isBeside = await page.run(`document.querySelector("${MESSAGE}").getBoundingClientRect().bottom
      <= document.querySelector(".groups").getBoundingClientRect().top`);
    expect("beside the button", isBeside, true);
    await page.fill("details.inline textarea", "Sales;8\nOps;7\nSales+Ops;9");
    await page.click("Use this list");
    await told(page, MESSAGE, /^Read: 2 players/);
    expect("closed", await page.run("document.querySelector('.more-tools details').open"), false);
  }],

  ["who bears a saving, who leaves, and why one pays more", "costs", async (page, expect) => {
    await fillTowns(page);
    await page.click("If the whole costs more than planned");
    await page.type("more", "10 %");
    await page.click("Work it out", "document.querySelector('.other:has([data-cell=more])')");
    const found = ".other:has([data-cell=more]) .found";
    expect("more", await told(page, found, /It costs 25.15 more/), /“By what each adds”: all bear the same, as in/);
    const exact = "[...document.querySelectorAll('.overrun small.exact')].map((one) => one.checkVisibility()).join()";
    expect("fractions that nobody asked for", await page.run(exact), /^(false,?)+$/);
    const means = await page.run("document.querySelector('#why .meanings').textContent");
    expect("what the rule may do, and does", means, /Each pays what it[^;]*does better by itself(; here none does)?\./);
    expect("promised", await page.text(found), /equal part[\s\S]*Young, Okada and Hashimoto 1982[\s\S]*another/);
    await page.type("more", "-37,15");
    expect("old ones are dimmed", await page.run(`document.querySelector("${found}").className`), /stale/);
    await page.click("Work it out", "document.querySelector('.other:has([data-cell=more])')");
    await told(page, found, /It costs 37.15 less: 214.35 in place of 251.50/);
    await page.click("If one leaves");
    await choose(page, "leaves", "Dale");
    const leaves = await told(page, ".leaves .found", /Without Dale the others cost 232.00[\s\S]*Dale costs 72.90/);
    const others = /no share of the others without Dale changes/;
    expect("by the other way to fill", leaves, others);
    await choose(page, "leaves", "Colne");
    const change = /largest change of the others without Colne is that of \w+: [\d,]+ (more|less) \(“/;
    await told(page, ".leaves .found", change);
    expect("by each rule", leaves, /“Fairest to [\w ]+”: Dale pays [\d,]+, and alone [\d,]+ more; the others together/);
    const before = await page.run(`[...document.querySelectorAll(".leaves .found tbody tr:not(.sum)")].every((line) => {
      const name = line.cells[0].textContent, own = [...document.querySelectorAll("#answer .shares tbody tr")];
      return own.find(({ cells }) => cells[0].textContent === name).innerText.includes(line.cells[1].innerText);
    })`);
    expect("before, each has the cents of the answer", before, true);
    await choose(page, "pair.0", "Aston");
    await choose(page, "pair.1", "Bray");
    const pair = await told(page, ".pair", /Alone Aston costs 112.00/);
    expect("equal holds", pair, /Aston pays [\d,]+ more than Bray[\s\S]*neither has a stronger hold[\s\S]*the reason/);
    await page.run("dispatchEvent(new Event('beforeprint'))");
    const sheet = await page.run("document.getElementById('sheet').textContent");
    expect("on paper", sheet, /By the nucleolus Aston pays [\d,]+ more than Bray/);
    expect("the line's file", sheet, /the line with the certificate, costs-nucleolus.json/);
  }],
];
