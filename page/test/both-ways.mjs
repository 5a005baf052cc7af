// Scenarios: each case typed cell by cell and pasted as a block comes to the same document and the same answer.
import { settle } from "./harness.mjs";

/** The cells as they are typed, where the block is pasted, the block, and what is typed beside it. */
const CASES = {
  runway: {
    typed: { "rows.0.name": "Aer", "rows.0.cost": "2", "rows.1.name": "Bee", "rows.1.cost": "4.5",
      "rows.1.count": "2" },
    at: "rows.0.name", block: "Aer\t2\t1\nBee\t4.5\t2", answer: /Aer pays 1.00 and Bee pays 3.50 for 2 uses/,
  },
  estate: {
    typed: { estate: "200", "rows.0.name": "A", "rows.0.claim": "100", "rows.1.name": "B", "rows.1.claim": "200",
      "rows.2.name": "C", "rows.2.claim": "300" },
    at: "rows.0.name", block: "A;100\nB;200\nC;300", beside: { estate: "200" },
    answer: /A gets 50.00, B gets 75.00 and C gets 75.00/,
  },
  costs: {
    typed: { "numbers.1": "8", "numbers.2": "7", "numbers.4": "6", "numbers.3": "11", "numbers.5": "10",
      "numbers.6": "9", "numbers.7": "13" },
    at: "numbers.1", block: "8\n7\n6\n11\n10\n9\n13", answer: /together 13.00/,
  },
  gains: {
    typed: { "numbers.1": "0", "numbers.2": "0", "numbers.4": "0", "numbers.3": "4", "numbers.5": "0",
      "numbers.6": "0", "numbers.7": "4" },
    at: "numbers.1", block: "0\n0\n0\n4\n0\n0\n4", answer: /Player 1 gets 2.00, Player 2 gets 2.00 and Player 3 gets 0/,
  },
  network: {
    typed: { "names.0": "A", "names.1": "B", "links.0-1": "10", "links.0-2": "8", "links.1-2": "1" },
    at: "names.0", block: "A\t10\t\nB\t8\t1", answer: /A pays .* and B pays .*together 9.00/,
  },
  market: {
    typed: { "buyers.0": "Ann", "buyers.1": "Ben", "values.0.0": "5", "values.0.1": "8", "values.1.0": "7",
      "values.1.1": "6" },
    at: "buyers.0", block: "Ann\t5\t8\nBen\t7\t6",
    answer: /Ann – Seller 2 and Ben – Seller 1 trade: together they gain 15\.00/,
  },
  votes: {
    typed: { quota: "5", "rows.0.name": "A", "rows.0.votes": "4", "rows.1.name": "B", "rows.1.votes": "2",
      "rows.2.name": "C", "rows.2.votes": "1" },
    at: "rows.0.name", block: "Voter,Votes\nA,4\nB,2\nC,1", beside: { quota: "5" },
    answer: /66.7[\s\S]*16.7[\s\S]*16.7/,
  },
};

const made = (page) => page.run("document.querySelector('.made pre').textContent");

async function cleared(page) {
  await page.click("Clear all");
  await page.until("!document.querySelector('.made pre')");
}

export const bothWays = Object.entries(CASES).map(([id, { typed, at, block, beside = {}, answer }]) => {
  return [`typed and pasted: ${id}`, id, async (page, expect) => {
    await cleared(page);
    for (const [cell, text] of Object.entries(typed)) await page.type(cell, text);
    await settle(page);
    const document = await made(page);
    expect("answer", await page.text("#answer-body"), answer);
    await cleared(page);
    await page.paste(`[data-cell="${at}"]`, block);
    for (const [cell, text] of Object.entries(beside)) await page.type(cell, text);
    if (id === "estate") await page.click("No, it counts"); // 300 is the sum of the others
    await settle(page);
    expect("the same document", await made(page), document);
  }];
});
