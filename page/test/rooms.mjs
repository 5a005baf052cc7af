// Scenarios: long names, lists and questions have their room, and leave the numbers in sight.
import { settle, told } from "./harness.mjs";

const LONG = ["Wasserverband Oberland Nord", "Gemeinde Sankt Ulrich am Berg", "Stadtwerke Kirchheim unter Teck",
  "Zweckverband Unteres Ilmtal", "Municipality of Saint-Étienne", "Town of Newcastle upon Tyne"];
const lines = (rows) => rows.map((row) => row.join("\t")).join("\n");
const blockOf = (sellers) => lines([["", ...LONG.slice(2, 2 + sellers)],
  ...[[10, 15, 20], [17, 22, 14]].map((row, k) => [LONG[k], ...row.slice(0, sellers)])]);
const LIST = lines([["From", "To", "Cost"],
  ...LONG.flatMap((name, i) => LONG.slice(0, i).map((other) => [other, name, 9 + i]))]);
const PRICES = lines([["Buyer", "Bid", "Seller", "Ask"], ["Ann", 12, "Zoe", 5], ["Bob", 1100, "Yves", 6]]);

const OVER = `[...document.querySelectorAll("#case .scroll:has(> .matrix)")]
  .map((one) => one.scrollWidth - one.clientWidth).join()`;
const CUT = `[...document.querySelectorAll("#case .matrix th input")]
  .filter((one) => one.scrollWidth > one.clientWidth + 1).map(({ value }) => value).join("; ")`;

async function pasted(page, text, sign) {
  await page.paste('[data-cell="values.0.0"], [data-cell="names.0"]', text);
  await told(page, "#answer .lead", sign);
  await settle(page);
}

/** A question has its mark, and its buttons in several lines don't touch. */
async function besideQuestion(page, expect) {
  await page.paste('[data-cell="names.0"]', LIST);
  await told(page, "#case .note.asked", /Which point is the source\?/);
  const tops = "[...new Set([...document.querySelectorAll('#case .asked button')].map((one) => "
    + "Math.round(one.getBoundingClientRect().top)))]";
  const gap = `Math.min(...${tops}.map((top, k, all) => (k ? top - all[k - 1] : 99)))
    - document.querySelector("#case .asked button").offsetHeight`;
  expect("buttons have a gap", (await page.run(gap)) >= 3, true);
}

async function markBeside(page, expect) {
  await page.type("numbers.1", "95");
  await told(page, "#case .asked", /Is this number right\?/);
  const above = "document.querySelector('#case .asked p').getBoundingClientRect().top"
    + " - document.querySelector('#case .asked').getBoundingClientRect().top";
  expect("above the first line", (await page.run(above)) < 12, true);
}

async function lists(page, expect) {
  await pasted(page, PRICES, /Bob/);
  const starts = "new Set([...document.querySelectorAll('.limits td:nth-child(2)')].map((one) => "
    + "Math.round(one.getBoundingClientRect().left))).size";
  expect("places where their numbers begin", await page.run(starts), 1);
}

/** Where nothing stands in its right half, the left one has the width of the part. */
async function halves(page, expect) {
  await page.click("equal parts");
  await settle(page);
  const width = (part) => page.run(`document.querySelector("#what-if ${part}").getBoundingClientRect().width`);
  expect("as wide as the part", (await width("#own-body")) > 0.9 * (await width(".halves-of-part")), true);
}

/** The column that a phone hides takes no room in any row. */
async function rowEnds(page, expect) {
  await page.click("equal parts");
  await settle(page);
  const ends = `new Set([...document.querySelectorAll("#answer .shares tr:not(.above)")].map(({ children }) => {
    return Math.round([...children].findLast((one) => one.checkVisibility()).getBoundingClientRect().right);
  })).size`;
  expect("places where rows end", await page.run(ends), 1);
}

/** Buttons stand beside others, also where what was beside them is unfolded. */
async function oneLine(page, expect) {
  await page.click("More for the cells");
  if (!(await page.run("document.querySelector('.more-tools details').open"))) await page.click("Paste a whole list");
  const tops = `[...document.querySelectorAll(".more-tools .tools button")]
    .filter((one) => !one.closest("details details")).map((one) => Math.round(one.getBoundingClientRect().top))`;
  expect("lines of buttons", await page.run(`[${tops}.length, new Set(${tops}).size].join()`), "3,1");
}

/** No heading alone at the foot of a page, no last line alone on the last, and nothing of who types. */
async function paper(page, expect) {
  await page.look({ print: true });
  const style = (selector, what) => page.run(`getComputedStyle(document.querySelector("${selector}")).${what}`);
  expect("the empty part below a heading", await style("#margins:empty", "display"), "none");
  expect("the end", await style("footer", "breakInside"), "avoid");
  expect("the caret", await style("#case input", "caretColor"), "rgba(0, 0, 0, 0)");
}

export const rooms = [
  ["room: long names of a market leave the numbers in sight", "market", async (page, expect) => {
    await pasted(page, blockOf(3), /Wasserverband/);
    expect("to scroll", await page.run(OVER), "0");
  }],
  ["room: long names of a market are whole where they can be", "market", async (page, expect) => {
    await pasted(page, blockOf(2), /Wasserverband/);
    expect("cut", await page.run(CUT), "");
  }, { wide: 1090, high: 800 }],
  ["room: a question with many buttons", "network", besideQuestion],
  ["room: the mark of a question beside its first line", "costs", markBeside],
  ["room: lists of limit prices", "market", lists],
  ["room: what would stand beside an empty half", "market", halves],
  ["room: rows end at one place on a phone", "costs", rowEnds, { wide: 390, high: 844 }],
  ["room: buttons below an open list", "costs", oneLine],
  ["room: on paper", "market", paper],
];
