// Scenarios: a market by limit prices, pasted and typed, saved and opened.
import { openText, saved as savedBy } from "./assumed.mjs";
import { noted, told } from "./harness.mjs";

async function typeAll(page, cells) {
  for (const [cell, text] of Object.entries(cells)) await page.type(cell, text);
}

export const byLimitPrices = [
  ["a market by limit prices, pasted", "market", async (page, expect) => {
    const bids = [31, 12.5, 27, 18, 40.25, 9], asks = [22, 8.75, 30, 15.5, 26], n = 5;
    const rows = bids.map((bid, k) => [`B ${k}`, bid, ...(k < n ? [`S ${k}`, asks[k]] : ["", ""])]);
    const pasted = [["Buyer", "Bid", "Seller", "Ask"], ...rows].map((row) => row.join("\t")).join("\n");
    await page.paste('[data-cell="values.0.0"]', pasted);
    await told(page, "#case", /Taken as limit prices of 6 buyers and 5 sellers\./);
    const [high, low] = [[...bids].sort((a, b) => b - a), [...asks].sort((a, b) => a - b)];
    const count = high.findIndex((bid, k) => bid <= low[k]);
    const sum = (list) => list.slice(0, count).reduce((a, b) => a + b);
    const ends = [Math.max(low[count - 1], high[count]), Math.min(high[count - 1], low[count])];
    const [least, most] = ends.map((price) => price.toFixed(2)), gain = (sum(high) - sum(low)).toFixed(2);
    const lead = await told(page, "#answer .lead", /same for all/);
    expect("the gain and the price", lead.includes(`gain ${gain}. The price is from ${least} to ${most}`), true);
    expect("each price", await page.text(".trades"), new RegExp(`${least}\\sto\\s${most}`));
    const made = await page.run("document.querySelector('.made pre').textContent");
    expect("the document", made, /"matrix":\[\[9,"89\/4",1,"31\/2",5\],\[0,"15\/4",0,0,0\],\[5,/);
    await page.paste('[data-cell="buyers.0"]', "Ann\t10\tCem\t7\nBen\t12\tDan\t8");
    await told(page, "#case", /Whose limit prices are those of “Ann and Ben”\?/);
    await page.click("Sellers: the least they’d take");
    await told(page, "#case", /Taken as limit prices of 2 buyers and 2 sellers/);
    expect("the other way", await page.run(`document.querySelector('[data-cell="buyers.1"]').value`), "Dan");
    await page.click("Undo “Paste”");
    await page.until(`document.querySelector('[data-cell="limits.buyers.4"]')?.value === "40.25"`);
    await page.paste('[data-cell="buyers.0"]', "Buyer\tBid\tQty\tSeller\tAsk\nAnn\t10\t3\tCem\t7");
    await told(page, "#case", /“Qty” has “3”\. Each trader buys or sells one\. .* Nothing was taken\./);
    await page.paste('[data-cell="buyers.0"]', "\thouse\tflat\nAnn\t5\t8\nBen\t7\t6");
    await told(page, "#answer .lead", /Ann – flat and Ben – house trade: together they gain 15\.00\.$/);
  }],

  ["a market by limit prices, typed and opened again", "market", async (page, expect) => {
    await page.click("Clear all");
    const isShown = "(one) => one.textContent === 'Enter limit prices instead' && one.checkVisibility()";
    const shown = await page.run(`[...document.querySelectorAll("button")].filter(${isShown}).length`);
    expect("limit prices can be chosen below empty cells", shown, 1);
    await page.paste('[data-cell="buyers.0"]', "Buyer\tBid\nAnn\t10");
    await told(page, "#case", /limit prices of one side alone.* Nothing was taken/);
    await page.click("Enter limit prices instead");
    const prices = { "limits.buyers.0": "10.5", "limits.buyers.1": "9", "limits.sellers.0": "7" };
    await typeAll(page, { "buyers.0": "Ann", "buyers.1": "Ann", "sellers.0": "Cem", "sellers.1": "Dan", ...prices });
    await noted(page, /1 cell is still empty/);
    await typeAll(page, { "limits.sellers.1": "$8" });
    await noted(page, /The name “Ann” occurs twice/);
    await page.click("Number the names that occur twice");
    const price = "from 8\\.00 to 9\\.00, and by “Fairest to those who gain least” 8\\.50, the same for all";
    const lead = new RegExp(`together they gain 4\\.50\\. The price is ${price}`);
    await told(page, "#answer .lead", lead);
    const { text: saved } = await savedBy(page, "Save the case");
    expect("saved", saved, /"limits":\{"buyers":\["10\.5","9"\],"sellers":\["7","\$8"\]\}/);
    const open = (from, to) => openText(page, saved.replace(from, to));
    for (const [from, to] of [['"9"]', "9]"], ['{"buyers":["10', '{"buyer":["10']]) {
      await open(from, to);
      await told(page, "#document-message", /isn’t as the page saved it[\s\S]*Place: cells/);
    }
    await open("", "");
    await told(page, "#answer .lead", lead);
    await page.until(`document.querySelector('[data-cell="limits.buyers.0"]')?.value === "10.5"`);
    await open('"10.5"', '"11"');
    await told(page, "#case", /make another document than the one in it/);
    await page.click("Undo “Open a document”");
    await page.click("Enter gains instead");
    await page.until(`document.querySelector('[data-cell="values.0.0"]')?.value === "3.5"`);
    await told(page, "#answer .lead", /together they gain 4\.50\.$/);
  }],
];
