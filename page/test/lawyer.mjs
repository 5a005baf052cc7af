// Scenarios: an estate before a court: what is said of cents, of a proposal beside the nucleolus, of lists half typed.
import { readFileSync } from "node:fs";
import { join } from "node:path";
import { giveLine, noted, settle, told } from "./harness.mjs";

const CLAIMS = "Adler Bau\t95000\nBrandt & Co\t62000.25\nChopra Ltd\t41000\nDupont\t30500.75\nEgger KG\t22000\n"
  + "Fink\t9000";
const PROPOSED = ["67475", "50000.50", "25000", "21825", "12000", "8000"];
const PAPER = "(dispatchEvent(new Event('beforeprint')), document.getElementById('sheet').textContent)";
const active = "(document.activeElement.dataset.cell ?? document.activeElement.textContent)";

async function sixClaims(page, estate = "184300.50") {
  await page.click("Clear all");
  await page.paste('[data-cell="rows.0.name"]', CLAIMS);
  await page.type("estate", estate);
  await settle(page);
}

async function propose(page) {
  for (const [k, text] of PROPOSED.entries()) await page.type(`proposal.${k}`, text);
  await settle(page);
  await page.until("document.querySelector('.comparison')");
}

async function cents(page, expect) {
  await sixClaims(page);
  const rule = /all are rounded down, and each unit of the last place[^.]*lost most by that, among equals to the upper/;
  expect("the rule", await page.run("document.querySelector('#why .moved').textContent"), rule);
  expect("as the cents went", await page.text(".lead"), /Adler Bau gets 80.074.88, .* Dupont gets 15.575.62/);
  expect("the claims together", await page.text(".shares .sum .context"), /^259.501.00$/);
  const hint = await page.run("document.querySelector('.other .hint').textContent");
  expect("an amount isn’t broken", hint, /500; 1\u00a0200\u00a0000/);
  const sheet = await page.run(PAPER);
  expect("on paper", sheet, rule);
  expect("the claims on paper", sheet, /together259.501.00184.300.50/);
  expect("decimals as in the table", sheet, /The estate of 184.300.50 is/);
  const where = /project’s repository \(the sender has to give you its address\)\. Compare its SHA-256/;
  expect("where the page is", sheet, where);
  expect("the file’s own sum", sheet, /SHA-256 with CHANGELOG\.md there, by certutil -hashfile/);
  expect("whose checkers", sheet, /Two checkers that share no code, by the same makers, say/);
  expect("what is proved", sheet, /whoever made it, .*The program’s source is proved; .* words aren’t\. Nobody/);
  expect("by typing", sheet, /simply type the numbers into that page: the answer has to be the same/);
  const steps = await page.text("#evidence .steps");
  expect("handing on", steps, /the project’s\s+repository: tell them its address\. Compare its SHA-256/);
}

async function besideNucleolus(page, expect) {
  await sixClaims(page);
  expect("not before it is whole", await page.run("document.querySelector('.shares .against')"), null);
  await propose(page);
  expect("the title", await page.text(".shares thead .against"), "against the answer");
  const cells = "[...document.querySelectorAll('.shares :is(tbody, .sum) td.against')]";
  const column = await page.run(`${cells}.map((td) => td.textContent).join()`);
  const wanted = "−12\u202f599.88,+2\u202f925.37,−1\u202f074.87,+6\u202f249.38,+1\u202f000.00,+3\u202f500.00,0.00";
  expect("more and less", column, wanted);
  expect("the first pair alone", await page.text(".holds"), /Yes, for example \S+/);
}

/** A key removes the row of a claim; what it removes can be had back. */
async function keysThatRemove(page, expect) {
  await page.run(`document.querySelector('[data-cell="rows.1.claim"]').focus()`);
  await page.key("Delete", { alt: true });
  await page.until(`document.querySelector('[data-cell="rows.1.name"]').value === "Chopra"`);
  await page.click("Undo “Remove Brandt”");
  await page.until(`document.querySelector('[data-cell="rows.1.name"]').value === "Brandt"`);
  await settle(page);
  const way = `[...document.querySelectorAll(".fill button")].find((one) => /proportion/.test(one.textContent))`;
  await page.run(`${way}.focus()`);
  await page.key("Enter", { text: "\r" });
  await page.until(`document.querySelector('[data-cell="proposal.0"]').value !== ""`);
  await settle(page);
  expect("the focus stays", await page.run(active), "in proportion to the claims");
}

async function halfTyped(page, expect) {
  await page.click("Clear all");
  await page.type("estate", "2000");
  await page.type("rows.0.name", "Adler");
  await page.type("rows.0.claim", "1200.50");
  const note = await noted(page, /less than the estate/);
  expect("calmly", note, /^So far the claims add to less than the estate. If no others come, each gets its claim/);
  const invalid = "document.querySelectorAll('#case [aria-invalid]').length";
  expect("no slip", await page.run(invalid), 0);
  await page.type("rows.1.claim", "800.50");
  await settle(page);
  expect("answered", await page.text(".lead"), /together 2000.00/);
}

async function onOnePage(page, expect) {
  await sixClaims(page);
  await propose(page);
  await page.click("On paper");
  const gap = `(() => {
    const [one, two] = [...document.querySelectorAll(".paper-part .single")].map((box) => box.getBoundingClientRect());
    return two.top >= one.bottom + 4 || two.left >= one.right + 16;
  })()`;
  expect("fields apart", await page.run(gap), true);
  await page.type("paper.heading", "In the matter of the insolvency of Adler Bau GmbH, Hamburg");
  await page.type("paper.unit", "EUR");
  const pages = async () => (await page.pdf()).toString("latin1").match(/\/Type \/Page\b/g)?.length;
  expect("pages", await pages(), 1);
  await page.run(`document.querySelector('[data-cell="paper.withProposal"]').click()`);
  expect("with the proposal", await pages(), 1);
}

async function sharesOfALine(page, expect, line) {
  await giveLine(page, line.replace('"3/2","7/2"', '"2","3"'), "");
  const said = await told(page, "#verify .answers", /worked out anew/);
  expect("by names", said, /nucleolus of this game, .*: medium pays 0.50 too much and heavy pays 0.50 too little/);
  await giveLine(page, line.replace('"-1"', '"-2"'));
  const same = await told(page, "#verify .answers", /these shares all the same/);
  const excess = /what light alone would gain or lose by leaving \(its excess\) isn’t what the line/;
  expect("the certificate alone", same, excess);
}

async function onAPhone(page, expect) {
  await sixClaims(page);
  await propose(page);
  const isFree = `(() => {
    const holder = document.querySelector("#answer-body .scroll");
    holder.scrollLeft = 60;
    const sticky = [...holder.querySelectorAll("tbody th")].filter((th) => getComputedStyle(th).position === "sticky");
    const isMoved = holder.scrollLeft > 0 || holder.scrollWidth <= holder.clientWidth; // or all is seen
    return sticky.length === 0 && isMoved;
  })()`;
  expect("no name covers numbers", await page.run(isFree), true);
  const fits = `[...document.querySelectorAll(".shares input")].every((one) => one.scrollWidth <= one.clientWidth)`;
  expect("fields hold their numbers", await page.run(fits), true);
}

export function lawyer(top) {
  const line = readFileSync(join(top, "examples", "airport-solved.json"), "utf8");
  return [
    ["court: who gets the odd cent, and sums", "estate", cents],
    ["court: a proposal beside the nucleolus", "estate", besideNucleolus],
    ["court: removed by a key, and had back", "estate", keysThatRemove],
    ["court: claims half typed", "estate", halfTyped],
    ["court: six parties on one page", "estate", onOnePage],
    ["court: who has too much by a line", "verify", (page, expect) => sharesOfALine(page, expect, line)],
    ["court: on a phone", "estate", onAPhone, { wide: 390, high: 800 }],
  ];
}
