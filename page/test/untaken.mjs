// Scenarios: a pasted text that is asked about, or refused. Until that is settled the answer is said to be of before,
// and can be neither saved nor printed as another.
import { settle, told } from "./harness.mjs";

const TWO = "Who\tA\tB\nAnn\t120\t30\nBo\t80\t20", TOO_FEW = "5\n6";
const still = (page) => page.text("#still");
const isLocked = (page) => page.run(`["answer-body", "parts"].every((id) => document.getElementById(id).inert)`);
const MARKED = `[...document.querySelectorAll(".mend .marked input[type=text]")].map((one) => one.value).join()`;
const NAMES = `[...document.querySelectorAll("#case [data-cell$='.name']")].map((one) => one.value).join(" ").trim()`;
const lastStep = (page) => page.run(`document.querySelector("#case .bottom").textContent.match(/Undo “(.*?)”/)?.[1]`);

export const untaken = [
  ["an open question: the answer is still that of before", "estate", async (page, expect) => {
    expect("nothing is said first", await still(page), "");
    await page.paste('[data-cell="rows.0.name"]', TWO);
    await told(page, "#still", /still the answer of the worked example\. Nothing of your text was taken yet/);
    expect("it can’t be saved or printed", await isLocked(page), true);
    expect("it is told", await page.run("document.getElementById('still').getAttribute('role')"), "status");
    await page.run("dispatchEvent(new Event('beforeprint'))");
    expect("no sheet to sign", await page.run("document.body.dataset.print"), "all");
    expect("said on paper", await page.text("#paper-head"), /This is still the answer of the worked example/);
    await page.run("dispatchEvent(new Event('afterprint'))");
    await page.click("Keep the worked example");
    expect("it goes with the text", await still(page), "");
    expect("and the question", await page.text("#case .pasted"), "");
    await page.paste('[data-cell="rows.0.name"]', TWO);
    await page.click("“B”", "document.querySelector('#case .pasted')");
    expect("it goes with the answer", await still(page), "");
    await page.type("estate", "40");
    await settle(page);
    expect("free again", await isLocked(page), false);
    await page.paste('[data-cell="rows.0.name"]', TWO);
    await told(page, "#still", /still the answer of the table before/);
    await page.type("rows.0.claim", "40");
    expect("it goes with an edit", await still(page), "");
  }],

  ["a refused text: the answer is still that of before", "costs", async (page, expect) => {
    await page.paste('[data-cell="numbers.2"]', TOO_FEW);
    await told(page, "#still", /still the answer of the worked example\. Your text wasn’t taken/);
    expect("no step", await lastStep(page), undefined);
    await page.type("numbers.1", "150");
    await settle(page);
    expect("it goes with an edit", await still(page), "");
    await page.paste('[data-cell="numbers.1"]', "nonsense and\nmore of it");
    await told(page, "#still", /still the answer of the table before\. Your text wasn’t taken/);
    await page.run("location.hash = '#gains'");
    await settle(page);
    expect("another case", await still(page), "");
  }],

  ["the unit of money is that of the table that stands there", "estate", async (page, expect) => {
    const unit = () => page.run(`document.querySelector('[data-cell="paper.unit"]').value`);
    await page.paste('[data-cell="rows.0.name"]', "Ann\t120 €\nBo\t80 €");
    await page.type("estate", "90");
    await settle(page);
    expect("of the first", await unit(), "€");
    await page.paste('[data-cell="rows.0.name"]', "Cy\t120 CHF\nDi\t80 CHF");
    await settle(page);
    expect("of the second", await unit(), "CHF");
    await page.click("Undo “Paste”");
    await settle(page);
    expect("of the first again", await unit(), "€");
    await page.paste('[data-cell="rows.0.name"]', "Who\tA\tB\nAnn\t12 CHF\t3 CHF\nBo\t8 CHF\t2 CHF");
    await page.click("Keep the table before");
    expect("not of one that isn’t taken", await unit(), "€");
    await page.paste('[data-cell="rows.0.name"]', "Dear Ann,\nit was 12 CHF\t and then more\t5 CHF");
    await page.click("×", "document.querySelector('#case tbody')");
    expect("nor of a refused one", await unit(), "€");
  }],

  ["a refused text is mended where it stands", "estate", async (page, expect) => {
    await page.paste('[data-cell="rows.0.name"]', "Ann 300 €\nBo 200 €\nUnit 7 5\nCy 100 €");
    await told(page, "#case .mend", /Your text: untick what is to be left out/);
    expect("what nobody can part is marked", await page.run(MARKED), "Unit 7 5");
    await page.run(`[...document.querySelectorAll(".mend tbody input[type=text]")].forEach((one) => {
      one.value = one.value.replace("Ann", "Eva");
      one.dispatchEvent(new Event("input", { bubbles: true }));
    })`);
    await page.click("Leave the marked row out");
    expect("the others, as typed over", await page.run(NAMES), "Eva Bo Cy");
    expect("a step", await lastStep(page), "Paste");
    await page.click("Not as you meant it? Change your text");
    expect("it can be changed still", await page.run(`document.querySelectorAll(".mend tbody tr").length`), 3);
    await page.run(`document.querySelector('.mend [aria-label="Take row 2"]').click()`);
    await page.click("Read it again");
    expect("in the place of what was taken", await page.run(NAMES), "Eva Cy");
    await page.type("rows.0.claim", "310 €");
    expect("it goes with an edit", await page.text("#case .mend"), "");
    await page.click("Undo");
    expect("and comes again", await page.text("#case .mend"), /Not as you meant it\?/);
    await page.click("Undo");
    expect("one step", await page.run(NAMES), "Adler Brandt Chopra");
    await page.paste('[data-cell="rows.0.name"]', "Who\tA\tB\nTom\t120 €\t30 €\nUli\t80 €\t20 €\nVic\t9 €\t8 €");
    await page.click("None of these? Change your text");
    await page.run(`document.querySelector('.mend [aria-label="Take column 2"]').click()`);
    await page.run(`document.querySelector('.mend [aria-label="Take row 3"]').click()`);
    await page.click("Read it again");
    expect("what is ticked", await page.run(NAMES), "Tom Vic");
    await page.type("estate", "20");
    await settle(page);
    expect("with its unit", await page.run(`document.querySelector('[data-cell="paper.unit"]').value`), "€");
  }],

  ["a text of another case that was left open is mended, too", "network", async (page, expect) => {
    await page.paste('[data-cell="names.0"]', "from\tto\tcost A\tcost B\nWorks\tX\t3\t4\nWorks\tY\t5\t6\nX\tY\t1\t2");
    await told(page, "#case", /Which column is the cost\?/);
    await page.run("location.hash = '#estate'");
    await settle(page);
    expect("not there", await page.text("#case .mend"), "");
    await page.run("location.hash = '#network'");
    await page.click("None of these? Change your text");
    await page.run(`document.querySelector('.mend [aria-label="Take column 3"]').click()`);
    await page.click("Read it again");
    await settle(page);
    expect("the other column", await page.run(`document.querySelector('[data-cell="links.0-1"]').value`), "4");
  }],

  ["a refused text is read in another case", "market", async (page, expect) => {
    await page.paste('[data-cell="buyers.0"]', "Fork\t24\tAnn, Bo\nWell\t30\tAnn\nGate\t12\tBo, Cy");
    await told(page, "#case .mend", /or read it as/);
    await page.run(`(() => {
      const list = document.querySelector(".mend select");
      list.value = "costs";
      list.dispatchEvent(new Event("change", { bubbles: true }));
    })()`);
    await told(page, "#case", /Each line is a part with its cost and who uses it/);
    expect("there", await page.text("#case-title"), "Costs of each group");
    await page.run("location.hash = '#market'");
    await settle(page);
    expect("and no more where it was", await page.text("#case .mend"), "");
  }],

  ["a table that is pasted beside all fields, or over the estate, is taken", "estate", async (page, expect) => {
    const estate = () => page.run(`document.querySelector('[data-cell="estate"]').value`);
    await page.paste("body", "Ann\t120\nBo\t80");
    expect("beside", await page.run(NAMES), "Ann Bo");
    expect("without an estate", await estate(), "");
    await page.paste('[data-cell="estate"]', "Who\tClaim\nTom\t120\nUli\t80\nEstate\t100");
    expect("over it", await page.run(NAMES), "Tom Uli");
    expect("with it", await estate(), "100");
    await page.paste("body", "word");
    expect("a word is none", await page.run(NAMES), "Tom Uli");
  }],

  ["a table of groups that is pasted beside all fields", "gains", async (page, expect) => {
    await page.paste("#case-title", "Ann\t12\nBo\t8\nAnn + Bo\t30");
    await told(page, "#case", /Read: 2 players, 3 groups\./);
    expect("its last player", await page.run(`document.querySelector("[data-cell='names.1']").value`), "Bo");
  }],

  ["gains that are pasted among costs go to their case by a button", "costs", async (page, expect) => {
    await page.paste('[data-cell="names.0"]', "Who\tSavings\nTom\t0\nUli\t0\nTom + Uli\t9");
    await told(page, "#case", /“Savings” says gains, and this case is of costs/);
    await page.click("Gains: take them to “Gains of each group”");
    await told(page, "#case", /Read: 2 players, 3 groups\./);
    expect("there", await page.text("#case-title"), "Gains of each group");
    await page.run("location.hash = '#costs'");
    await settle(page);
    expect("not where it was", await page.run(`document.querySelector("[data-cell='names.0']").value`), "Sales");
  }],

  ["a division that is refused is no step, nor is the same table once more", "estate", async (page, expect) => {
    await page.paste('[data-cell="proposal.0"]', "Zoe 4\nXaver 5");
    await told(page, "#answer .own-said", /No row is called “Zoe”\..* Nothing was taken\./);
    expect("no step", await lastStep(page), undefined);
    const table = "Ann\t120\nBo\t80";
    await page.paste('[data-cell="rows.0.name"]', table);
    await page.type("estate", "100");
    await settle(page);
    await page.paste('[data-cell="rows.0.name"]', table);
    await settle(page);
    expect("the same once more", await lastStep(page), "Typing");
  }],
];
