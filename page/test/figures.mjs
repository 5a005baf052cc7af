// Scenarios: what a person meets first, in figures. Each case at 1280 by 900, the answer in the first view, few buttons
// and words, and no more to scroll than needed; and cells that aren't cut.
import { noted, READY, settle, showExact, told } from "./harness.mjs";

const CASES = ["runway", "estate", "costs", "gains", "network", "market", "votes"];
const MOST_BUTTONS = 15, MOST_WORDS = 350, MOST_HIGH = 2200;

/** What is seen of the page before anybody scrolls. The × of a row shows when the row is in use. */
const SEEN = `(() => {
  for (const part of document.querySelectorAll(".part")) part.open = false;
  scrollTo(0, 0);
  const isSeen = (one) => {
    const { top, bottom, width } = one.getBoundingClientRect();
    return one.checkVisibility({ visibilityProperty: true }) && top < innerHeight && bottom > 0 && width > 1;
  };
  const controls = [...document.querySelectorAll("button, summary, a, select")].filter((one) => {
    return isSeen(one) && !one.matches(".remove, .skip, .seal"); // a seal is a sentence, which leads on
  });
  const walker = document.createTreeWalker(document.body, NodeFilter.SHOW_TEXT), words = [];
  while (walker.nextNode()) {
    const { parentElement: own, data } = walker.currentNode;
    const isText = !own.closest("script, style, svg, noscript, select, .away, .skip");
    if (isText && isSeen(own)) words.push(...data.split(/\\s+/));
  }
  const answer = document.querySelector("#answer .lead").getBoundingClientRect();
  const before = [...document.querySelectorAll("#answer-body .note, #answer-body .notice, #answer-body .ahead")];
  const grid = document.querySelector("#case .scroll:not(.mend .scroll)");
  return {
    buttons: controls.length, words: words.filter(Boolean).length, high: document.documentElement.scrollHeight,
    answer: answer.bottom, above: before.filter((one) => one.getBoundingClientRect().bottom <= answer.top + 1).length,
    cut: grid ? grid.scrollWidth - grid.clientWidth : 0,
    measure: Boolean(document.querySelector('[data-cell="measure"]')?.checkVisibility()),
  };
})()`;

async function isSmall(page, expect) {
  const { buttons, words, high, answer, above, cut } = await page.run(SEEN);
  expect(`${buttons} buttons`, buttons <= MOST_BUTTONS, true);
  expect(`${words} words`, words <= MOST_WORDS, true);
  expect(`${high} pixels high`, high <= MOST_HIGH, true);
  expect(`the answer ends at ${answer}`, answer < 300, true);
  expect(`${above} notices above it`, above <= 1, true);
  expect(`cells are cut by ${cut}`, cut <= 0, true);
}

const NAMES = "Alby Brook Carle Dunn Elm Ford Gill".split(" ");
const GROUPS = Array.from({ length: 127 }, (_, k) => {
  const members = NAMES.filter((_, i) => ((k + 1) >> i) & 1);
  return `${members.join("+")}\t${members.length * 100 - members.length ** 2 * 5}`;
}).join("\n");
const HALF = NAMES.map((name, k) => {
  return [name, ...Array.from({ length: k + 1 }, (_, i) => `${30 + ((k * 7 + i * 13) % 50)}.50`)].join("\t");
}).join("\n");

async function sevenPlaces(page, expect) {
  await page.paste('[data-cell="names.0"]', HALF);
  await settle(page);
  await isSmall(page, expect);
  const inputs = await page.run(`[...document.querySelectorAll("#case .grid input")].filter((one) => {
    return one.value && one.scrollWidth > one.clientWidth + 1;
  }).map((one) => one.value).join()`);
  expect("numbers and names that are cut", inputs, "");
  expect("per head is an option", (await page.run(SEEN)).measure, false);
}

async function sevenPlayers(page, expect) {
  await page.paste('[data-cell="numbers.1"]', GROUPS);
  await page.until(`document.querySelectorAll(".shares tbody tr").length === 7 && ${READY}`);
  await isSmall(page, expect);
}

/** Filled numbers, an empty core, a remark and a kept answer at once: the answer stays where it was. */
async function manyNotices(page, expect) {
  await page.paste('[data-cell="numbers.1"]', "A\t250\nB\t200\nC\t200\nA+B\t300\nA+C\t300\nA+B+C\t600");
  await told(page, "#case .note", /Read: 3 players, 6 groups/);
  await page.click("Fill the empty ones by the cheapest split");
  await settle(page);
  await page.click("Keep this answer to compare");
  await page.type("numbers.7", "610");
  await settle(page);
  await noted(page, /Is this number right/);
  const { answer, above } = await page.run(SEEN);
  expect("one notice above", above, 1);
  expect(`the answer ends at ${answer}`, answer < 300, true);
  expect("which", await page.text("#answer-body .ahead"),
    /^Whatever the division, some group could do better by itself/);
  expect("the reason below the table", await page.text("#answer-body .notice"), /Take .* they hold each player/);
}

async function keptVotes(page, expect) {
  await page.click("Keep this answer to compare");
  await page.type("quota", "15");
  await settle(page);
  const note = await told(page, ".pinned", /Against the kept answer, in power: /);
  expect("who has more", note, /Luxembourg \+\d.*Changed since: Votes needed: 12 → 15/);
  expect("the kept power", await page.text(".power thead"), /Kept/);
  await page.run("location.hash = '#market'");
  await page.until(`document.querySelector('[data-cell="sellers.0"]') && ${READY}`);
  await page.click("Keep this answer to compare");
  await page.type("values.0.1", "9");
  await settle(page);
  expect("a market", await page.text(".pinned"), /Against the kept answer, by “Fairest [^”]*”: .*Ann with flat: 8 → 9/);
}

async function twentyVoters(page, expect) {
  await page.click("Clear all");
  const rows = Array.from({ length: 20 }, (_, k) => `S${k + 1}\t${(k + 1) * 1.5}`);
  await page.paste('[data-cell="rows.0.name"]', ["State\tPopulation", ...rows].join("\n"));
  await page.click("Two quotas at once");
  await page.type("quota", "65 %");
  await page.type("secondQuota", "55 %");
  await told(page, "#answer .lead", /^S20 has most power, 9\.8/);
  expect("the page's own", await page.text("#answer .notice"),
    /the page itself counted[\s\S]*does NOT come from the proved/i);
  await showExact(page);
  expect("what isn’t there", await page.text("#answer-body"), /no Banzhaf index, and no third condition/);
  await page.click("Keep this answer to compare");
  await told(page, ".beyond .pinned", /The shares are those of the kept answer/);
  await page.type("quota", "75 %");
  const note = await told(page, ".beyond .pinned", /Against the kept answer, in power: /);
  expect("what changed", note, /Changed since: Votes needed: 65 % → 75 %/);
  expect("the kept power", await page.text(".power thead"), /Kept\s+Power/);
}

async function estates(page, expect) {
  await showExact(page);
  expect("the Talmud’s name", await page.text(".shares thead"), /nucleolus, the Talmud’s rule[\s\S]*In proportion/);
  await page.paste('[data-cell="rows.0.name"]', `Bank\t1000\nBank\t2000\n${"Long ".repeat(16)}AG\t3500`);
  await page.type("estate", "2000"); // that of the example isn't theirs
  await noted(page, /“Bank” occurs twice. What is it\?/);
  await page.click("Several: number them");
  await noted(page, /^(?![\s\S]*occurs twice)[\s\S]*A name has at most/);
  await page.click("Shorten the long names");
  await settle(page);
  expect("an answer", await page.text("#answer .lead"), /Bank gets .*Bank 2 gets .*Long Long .*… gets/);
  for (const [cell, text] of [["estate", "3000"], ["rows.1.claim", "500"], ["rows.2.claim", "9000"]]) {
    await page.type(cell, text);
  }
  await settle(page);
  expect("why", await page.text(".because"), /more than half of the claims, each counted .* so each loses/);
}

async function detours(page, expect) {
  await page.paste('[data-cell="names.0"]', "From\tTo\tCost\nWell\tA\t9\nWell\tB\t3\nA\tB\t2\nB\tC\t4");
  await told(page, "#waiting", /Can’t some links be built/);
  await page.click("Build through the places of others");
  await noted(page, /Is this number right\?\s+A – Well costs 9, more than the way by B: 5/);
  await page.click("Lower them to the cheapest way");
  await settle(page);
  expect("lowered", await page.run(`document.querySelector('[data-cell="links.0-1"]').value`), "5");
}

async function types(page, expect) {
  await page.click("Clear all");
  const sheet = "Type\tLandings\tCost\nVanguard\t900\t60\nComet\t3539\t104.849\nBoeing\t373\t131.5";
  await page.paste('[data-cell="rows.0.name"]', sheet);
  const found = await told(page, "#answer-body", /Above 64 uses/);
  expect("types are names", found, /Vanguard[\s\S]*Comet[\s\S]*Boeing/);
  expect("no airlines that nobody has", /User 1/.test(found), false);
  expect("why many pay alike", found, /All up to Comet pay alike: 104\.85 \/ \(4439 \+ 1\) = 0\.02 a use\./);
  expect("what fees bring in", found,
    /“Fairest to [\w ]+”: at fees with 2 decimals, all uses pay .* (less|more) than the cost of/);
}

export const figures = [
  ...CASES.map((id) => [`first view: ${id}`, id, isSmall]),
  ["first view: a network of seven", "network", sevenPlaces],
  ["first view: costs of seven", "costs", sevenPlayers],
  ["one notice above the answer", "costs", manyNotices],
  ["votes and markets keep an answer", "votes", keptVotes],
  ["two quotas of twenty voters, with decimals", "votes", twentyVoters],
  ["an estate: the Talmud, in proportion, and names that are mended", "estate", estates],
  ["a link dearer than its detour", "network", detours],
  ["a runway of types", "runway", types],
];
