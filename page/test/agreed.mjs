// Scenarios: what the parties agreed on, on the sheet to sign, and in a saved case.
import { savedFile, settle } from "./harness.mjs";

const sheet = async (page) => {
  await page.run("dispatchEvent(new Event('beforeprint'))");
  const text = await page.run("document.getElementById('sheet').textContent");
  await page.run("dispatchEvent(new Event('afterprint'))");
  return text;
};
const choose = (page, value) => page.run(`(() => {
  const one = document.querySelector('[data-cell="paper.agreed"]');
  one.value = "${value}";
  one.dispatchEvent(new Event("change", { bubbles: true }));
  return one.value;
})()`);
const chosen = (page) => page.run(`document.querySelector('[data-cell="paper.agreed"]').value`);

export const agreed = [
  ["what was agreed on stands on the sheet, and in the saved case", "gains", async (page, expect) => {
    await settle(page);
    expect("nothing yet", await chosen(page), "");
    expect("so it is the nucleolus", await sheet(page), /Why: fairest [^(]*\(the nucleolus\)/);
    expect("which is said", await page.text("#paper-body"), /As long as nothing is agreed on/);
    expect("a rule", await choose(page, "shapley"), "shapley");
    expect("then no more", /As long as nothing/.test(await page.text("#paper-body")), false);
    const text = await sheet(page);
    expect("who agreed on what", text, /The parties agreed on: by what each adds \(Shapley shares\)\./);
    expect("its shares", text, /singer gets 41\.67/);
    expect("what is proved", text, /These numbers have no certificate\./);
    expect("what has to be the same", text, /its column “By what each adds” has to be the same/);
    expect("nothing of another rule", /nucleolus/.test(text), false);
    await page.run("document.body.dataset.print = 'all'; dispatchEvent(new Event('beforeprint'))");
    expect("where everything is printed", await page.text("#paper-head"), /The parties agreed on: by what each adds/);
    await page.run("dispatchEvent(new Event('afterprint'))");
    const file = await savedFile(page, "Save the case");
    expect("in the file", file, /"agreed":"shapley"/);
    await page.type("numbers.7", "121");
    await settle(page);
    expect("of other numbers it is nothing", await chosen(page), "");
    expect("which is said", await page.text("#paper-body .note"), /numbers have changed since something was agreed on/);
    expect("also on paper", /agreed on:/.test(await sheet(page)), false);
    await page.run("location.hash = '#document'");
    await page.fill("#document textarea", file);
    await page.until(`document.querySelector('[data-cell="numbers.7"]')?.value === "120"`);
    await settle(page);
    expect("opened again", await chosen(page), "shapley");
  }],

  ["of votes the power is saved for a spreadsheet", "votes", async (page, expect) => {
    await settle(page);
    const [head, first] = (await savedFile(page, "Save the table (CSV)")).split("\r\n");
    expect("its columns", head, "Voter,Votes,\"of all, %\",\"Power, %\",\"Power, exact\"");
    expect("a voter", first, "France,4,23.5,23.3,7÷30");
  }],

  ["the prices that were agreed on stand on the sheet", "market", async (page, expect) => {
    await settle(page);
    const ways = "[...document.querySelector('[data-cell=\"paper.agreed\"]').options].map(({ value }) => value).join()";
    expect("what prices bring about", await page.run(ways), ",nucleolus,buyers,sellers");
    await choose(page, "buyers");
    const text = await sheet(page);
    expect("who agreed on what", text, /The parties agreed on: best for buyers\./);
    expect("their prices", text, /Best for buyers: the seller’sthe buyer’sAnn – flat8\.00[\d.\s]*to\s[\d.]*6\.002\.00/);
    expect("what has to be the same", text, /its column “Best for buyers” has to be the same/);
  }],

  ["an own division that was agreed on stands on the sheet", "estate", async (page, expect) => {
    await settle(page);
    await choose(page, "proportion");
    expect("what part of each claim", await sheet(page), /Each gets 40\.00.% of its claim\./);
    await page.click("equal parts");
    await settle(page);
    expect("it can be chosen", await choose(page, "proposal"), "proposal");
    const text = await sheet(page);
    expect("who agreed on what", text, /The parties agreed on: own division\..*Adler gets 666\.6\d/s);
    expect("once", /Your proposal/.test(text), false);
    expect("how it can be checked", text, /choose “Type your own division”, and type these shares/);
    expect("not by the answer", /has to be the same/.test(text), false);
    await page.type("proposal.0", "600");
    await settle(page);
    expect("another one isn’t", await chosen(page), "");
  }],
];
