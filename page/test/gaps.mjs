// Scenarios: what stands side by side is in line and has room, and nothing empty is shown.
import { settle, told } from "./harness.mjs";

const PHONE = { wide: 390, high: 844 }, FIRST = '[data-cell="rows.0.name"]';
const FLEET = "User;Type;Uses;Needs alone\nAlbatros;DH8;300;20,5\nAlbatros;A320;2;40\nCargo;B744;2;60";
const UNITS = "Ann\tlots\t3 apples\t2\nBo\tmany\t4 pears\t5 of 6\nx\t?\t!\t7";
/** What a property of the style is, of all that a selector finds: each value once. */
const styleOf = (page, selector, name) => page.run(`[...new Set([...document.querySelectorAll('${selector}')]
  .map((one) => getComputedStyle(one).${name}))].join()`);

async function asked(page, expect) {
  await page.paste(FIRST, UNITS);
  await told(page, "#case .mend", /or read it as/);
  const places = await page.run(`["button", "label"].map((part) => {
    const { left, right, top, bottom } = document.querySelector(".mend p " + part).getBoundingClientRect();
    return { left, right, middle: (top + bottom) / 2 };
  })`);
  const [button, label] = places, isBeside = Math.abs(button.middle - label.middle) < 8;
  expect("room before what stands beside a button", !isBeside || label.left - button.right > 2, true);
  expect("a question’s only button begins as the text does", await styleOf(page, "#still button", "marginLeft"), "0px");
}

async function sums(page, expect) {
  await page.paste(FIRST, FLEET);
  await told(page, "#answer-body", /These are 304 uses/);
  const colours = await styleOf(page, ".beyond .subtotal > *", "backgroundColor");
  expect("a sum has one colour", colours.split("rgb").length, 2);
  expect("which begins before its words", await styleOf(page, ".beyond .subtotal > *", "paddingLeft"), "5.6px");
  expect("what isn’t below the table has room", await styleOf(page, ".scroll + .hint.moved", "marginTop"), "8px");
  const beside = `[...document.querySelectorAll(".beyond div.tools button")].map((one) => one.textContent).join()`;
  expect("buttons beside each other", await page.run(beside),
    "Keep this answer to compare,Compare with what each pays today");
}

export const gaps = [
  ["gaps: a question, and the text that is changed", "estate", asked],
  ["gaps: the same on a phone", "estate", asked, PHONE],
  ["gaps: sums within a table", "runway", sums],

  ["gaps: on a phone the sums, and no empty bar below the answer", "runway", async (page, expect) => {
    await sums(page, expect);
    expect("no bar", await styleOf(page, "#next", "display"), "none");
  }, PHONE],

  ["gaps: on a phone a table ends with its last column", "estate", async (page, expect) => {
    for (const [r, text] of ["700", "700", "600"].entries()) await page.type(`proposal.${r}`, text);
    await settle(page);
    const ends = `[...document.querySelectorAll(".shares.proposing tr")].map((row) => Math.round(Math.max(
      ...[...row.cells].map((cell) => cell.getBoundingClientRect().right))))`;
    expect("all rows", await page.run(`new Set(${ends}).size`), 1);
  }, PHONE],

  ["gaps: headings, steps and sentences", "runway", async (page, expect) => {
    await page.type("proposal.0", "30");
    await page.type("proposal.1", "20");
    await page.type("proposal.2", "10");
    await settle(page);
    await told(page, "#answer .same-as", /Aer pays more than alone/);
    expect("sentences below the table", await styleOf(page, ".leaving, .same-as", "fontSize"), "14px");
    expect("a heading below a line", await styleOf(page, ".reason > h3:first-child", "marginTop"), "0px");
    expect("a number on the line of its step", await styleOf(page, ".steps", "listStyleType"), "decimal");
  }],

  ["gaps: nothing empty beside the files", "verify", async (page, expect) => {
    expect("no tools", await styleOf(page, "#verify .tools:empty", "display"), "none");
  }],
];
