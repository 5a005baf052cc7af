// Scenarios: of votes the first tab is about power, and the sheet says what is needed, who has a veto, and what stands
// in the agreed file.
import { noted, settle, told } from "./harness.mjs";

const SHARES = ["Gesellschafter\tGeschäftsanteil\tin %", "Dr. Hansen\t10.400 €\t41,6 %",
  "Hansen Beteiligungs GmbH\t6.250 €\t25,0 %", "Fr. Lorenz\t4.100 €\t16,4 %", "Hr. Ott\t3.000 €\t12,0 %",
  "Fr. Pohl\t1.250 €\t5,0 %", "Summe\t25.000 €\t100,0 %"].join("\n");

const sheetOf = async (page) => {
  await page.run("dispatchEvent(new Event('beforeprint'))");
  const text = await page.text("#sheet");
  await page.run("dispatchEvent(new Event('afterprint'))");
  return text;
};

async function office(page, expect) {
  await page.paste('[data-cell="rows.0.name"]', SHARES);
  await page.type("quota", "75 %");
  await told(page, "#answer .lead", /Dr\. Hansen has most power, 46,7\s%/);
  await settle(page);
  await page.click("Why this power?");
  const why = await page.text("#why-body");
  expect("in how many orders", why, /Dr\. Hansen:\s*in 56 of 120 orders, 46,7\s%/);
  expect("why a veto", why, /the others have 14\.600 of 25\.000 votes \(58,4\s%\), and 18\.750 \(75,0\s%\) are needed/);
  expect("no prize", /prize|Level 1/.test(why), false);
  expect("the prize's reasons", await page.run("document.querySelector('.fold-part').textContent"), /prize.*Level 1/s);
  const sheet = await sheetOf(page);
  expect("headline", sheet, /Hansen has most power, 46,7\s%\.\s*Needed: 75 % of 25\.000 votes, so at least 18\.750\./);
  expect("the table", sheet, /Dr\. Hansen \(has a veto\)\s*10400\s*41,6\s%\s*46,7\s%\s*7\/15/);
  expect("the file", sheet, /votes and quota are divided by 50: the same groups win, so no answer changes/);
  expect("no amounts", /All amounts|0,467/.test(sheet), false);
  expect("no unit", /Unit of money/.test(await page.text("#paper")), false);
}

async function manyVoters(page, expect) {
  await page.click("Clear all");
  await page.paste('[data-cell="rows.0.name"]', Array.from({ length: 18 }, (_, k) => `V${k}\t${20 - k}`).join("\n"));
  await page.type("quota", "100");
  await settle(page);
  await page.click("Two quotas at once");
  await page.type("secondQuota", "more than 1/2");
  await noted(page, /The second quota: more than 1\/2 of 18 votes, so at least 10/);
  await told(page, "#answer .lead", /V0 has most power/);
  await page.click("Why this power?");
  await told(page, "#why-body", /In such a group both quotas are reached[\s\S]*Nobody has a veto/);
  expect("both are needed", await sheetOf(page), /first votes: 100 of 207 votes\. Needed of the second votes: more/);
}

export const powerWhy = [["why this power: shareholders and a quota", "votes", office],
  ["why this power: two quotas of more than sixteen", "votes", manyVoters]];
