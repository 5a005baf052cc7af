// Scenarios: in the tables of an answer no short name is broken within a word, and no number is cut in its cell.
import { settle } from "./harness.mjs";

const CASES = ["runway", "estate", "costs", "gains", "network", "votes"];
const FOUR = ["Aldbury\t52000", "Brenford\t17350", "Carswell\t8900", "Dunmere\t4120"];
const COSTS = [[1, 52000], [2, 37350], [4, 28900], [3, 78000], [5, 70000], [6, 60000], [7, 98250]];

/** Words of at most 16 letters that stand on two lines, of all names that are seen in tables. */
const BROKEN = `(() => {
  const broken = [];
  for (const cell of document.querySelectorAll("#answer tbody th, #parts tbody th")) {
    if (!cell.checkVisibility()) continue;
    const walker = document.createTreeWalker(cell, NodeFilter.SHOW_TEXT);
    for (let text = walker.nextNode(); text; text = walker.nextNode()) {
      for (const { 0: word, index } of text.data.matchAll(/[\\p{L}\\d.’']{2,16}(?![\\p{L}\\d])/gu)) {
        if (/[\\p{L}\\d]/u.test(text.data[index - 1] ?? "")) continue;
        const range = new Range();
        range.setStart(text, index);
        range.setEnd(text, index + word.length);
        if (new Set([...range.getClientRects()].map(({ top }) => Math.round(top))).size > 1) broken.push(word);
      }
    }
  }
  return broken.join(", ");
})()`;

const CUT = `[...document.querySelectorAll("#answer .shares input")].filter((one) => one.checkVisibility()
  && one.scrollWidth > one.clientWidth).map((one) => one.value).join(", ")`;

/** The names and numbers as they stand, with an own division, and with a kept answer beside it. */
async function wholeAlways(page, expect, cell) {
  const look = async (when) => {
    expect(`${when}: words that are broken`, await page.run(BROKEN), "");
    expect(`${when}: numbers that are cut`, await page.run(CUT), "");
  };
  await look("as it opens");
  const hasOwn = `[...document.querySelectorAll("button")].some((one) => one.textContent === "equal parts")`;
  if (!await page.run(hasOwn)) return; // votes have no division
  await page.click("equal parts");
  await settle(page);
  await look("an own division");
  await page.click("Keep this answer to compare");
  await page.until("document.querySelector('.pinned')");
  await look("a kept answer");
  if (!cell) return;
  await page.type(cell, "61000");
  await settle(page);
  await look("and a number changed");
}

const sizes = [["wide", { wide: 1280, high: 900 }], ["phone", { wide: 390, high: 844 }]];

const examples = sizes.flatMap(([title, look]) => CASES.map((id) => [`whole names, ${title}: ${id}`, id,
  (page, expect) => wholeAlways(page, expect), look]));


async function fourClaims(page, expect) {
  await page.paste('[data-cell="rows.0.name"]', FOUR.join("\n"));
  await page.type("estate", "38400");
  await settle(page);
  await wholeAlways(page, expect, "rows.0.claim");
}

async function thousands(page, expect) {
  for (const [mask, cost] of COSTS) await page.type(`numbers.${mask}`, String(cost));
  await settle(page);
  await wholeAlways(page, expect, "numbers.6");
}

async function fourPlaces(page, expect) {
  const names = ["Riverbend", "Dunmere", "Brenford", "Carswell"];
  for (const [k, name] of names.entries()) await page.type(`names.${k}`, name);
  await settle(page);
  await wholeAlways(page, expect, "links.0-1");
}

const typed = [["four claims", "estate", fourClaims], ["costs of five digits", "costs", thousands],
  ["four places", "network", fourPlaces]];

export const wholeNames = [...examples, ...sizes.flatMap(([title, look]) => typed.map(([name, id, play]) => {
  return [`whole names, ${title}: ${name}`, id, play, look];
}))];
