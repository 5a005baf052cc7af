// Scenarios: files and letters that come from others, under their own names, and what is printed of them.
import { createHash } from "node:crypto";
import { readFileSync } from "node:fs";
import { join } from "node:path";
import { noted, READY, settle, told } from "./harness.mjs";

/** Chooses a file in the place of a number among those of a part. */
function choose(page, part, which, name, content) {
  const bytes = JSON.stringify([...Buffer.from(content)]);
  return page.run(`(() => {
    const data = new DataTransfer(), input = document.querySelectorAll("#${part} input[type=file]")[${which}];
    data.items.add(new File([new Uint8Array(${bytes})], ${JSON.stringify(name)}));
    input.files = data.files;
    input.dispatchEvent(new Event("change"));
  })()`);
}

const utf16 = (text) => Buffer.from(`\ufeff${text}`, "utf16le");
const shown = (page, which) => page.run(`document.querySelectorAll("#verify textarea")[${which}].value`);
const labels = (page) => page.run(`[...document.querySelectorAll("#verify .drop [role=status]")].map((one) =>
  one.textContent).join(" | ")`);
const sumsShown = (page, count) => {
  return page.until(`document.querySelectorAll("#verify .fingerprint").length >= ${count}
    && ![...document.querySelectorAll("#verify .fingerprint")].some((one) => !one.textContent)`);
};

async function untaken(page, expect, line, agreed) {
  await choose(page, "verify", 1, "agreed.json", agreed);
  await choose(page, "verify", 0, "letter-A.txt", line);
  await told(page, "#verify .answers", /^Yes: [\s\S]*own checker says yes/);
  await choose(page, "verify", 0, "letter-B.txt", utf16(line));
  const word = await told(page, "#verify .answers", /letter-B.txt isn’t a text in UTF-8/);
  expect("no word of the one before", word, /^Nothing is checked/);
  expect("nor its table", await page.run("document.querySelector('#verify .answers table, #verify .word')"), null);
  expect("nor its text", await shown(page, 0), "");
  await choose(page, "verify", 0, "letter-A.txt", line);
  await told(page, "#verify .answers", /^Yes: [\s\S]*own checker says yes/);
  await choose(page, "verify", 1, "empty.json", "");
  expect("the agreed file", await told(page, "#verify .answers", /empty.json is empty/), /^Nothing is checked/);
  await page.click("Check the line without an agreed file");
  await told(page, "#verify .answers", /See that it is the game you mean[\s\S]*own checker says yes/);
}

async function namesGoWithTexts(page, expect, line) {
  await choose(page, "verify", 0, "letter-A.txt", line);
  await told(page, "#verify .answers", /own checker says yes/);
  expect("its name", await labels(page), /^letter-A.txt, [\d,]+ bytes/);
  await page.run("location.hash = '#document'");
  await choose(page, "document", 0, "letter-C.txt", line.replace('"3/2","7/2"', '"2","3"'));
  await told(page, "#verify .answers", /own checker says no/);
  expect("the name of the other", await labels(page), /^letter-C.txt, [\d,]+ bytes/);
}

async function tiedToItsLetter(page, expect, line, agreed) {
  await choose(page, "verify", 1, "agreed.json", agreed);
  await choose(page, "verify", 0, "letter-F.eml", `Dear all,\n> ${line.replace(/(.{70})/g, "$1\n> ")}\nYours`);
  await told(page, "#verify .answers", /begin with “>”/);
  await page.click("Read it without what the mail program added");
  await told(page, "#verify .answers", /own checker says yes/);
  await sumsShown(page, 3);
  const said = await page.text("#verify .answers");
  expect("the letter", said, /The line \(letter-F.eml, [\d,]+ bytes\), as it was given, has the SHA-256 [0-9a-f]{64}/);
  expect("the agreed file", said, /The agreed file \(agreed.json, [\d,]+ bytes\), as it was given[^\n]* [0-9a-f]{64}/);
  expect("what was undone", said, /What a mail program had done to the line was undone/);
  expect("the name", await labels(page), /^letter-F.eml, [\d,]+ bytes, without what the mail program added/);
  await page.fill("#verify textarea", line);
  await told(page, "#verify .answers", /own checker says yes[\s\S]*The line \(pasted text, [\d,]+ bytes\)/);
  expect("nothing undone", /was undone/.test(await page.text("#verify .answers")), false);
}

const PAPER = "(dispatchEvent(new Event('beforeprint')), document.getElementById('sheet').textContent)";

async function agreedFileOnPaper(page, expect, line, agreed) {
  await choose(page, "verify", 1, "agreed.json", agreed);
  await choose(page, "verify", 0, "letter-A.txt", line);
  await told(page, "#verify .answers", /own checker says yes/);
  const sum = /The agreed file \(agreed.json[^\n]* ([0-9a-f]{64})/;
  const [, digest] = sum.exec(await told(page, "#verify .answers", sum));
  await page.click("Open the agreed game, with the reasons");
  await page.until("document.querySelector('[data-cell=\"rows.2.cost\"]')?.value === '6'");
  await page.until(READY);
  const named = new RegExp(`agreed.json\\. Its SHA-256 is ${digest}`);
  expect("the agreed file", await page.run(PAPER), named);
  const ofFile = /This is the SHA-256 of the file\. The box below contains the same numbers, as this page writes them/;
  expect("of what the sum is", await page.run(PAPER), ofFile);
  expect("and on the screen", await page.text("#evidence .steps"), new RegExp(`agreed.json[^.]*SHA-256 ${digest}`));
  await page.run("dispatchEvent(new Event('afterprint'))");
  await page.type("rows.2.cost", "7");
  await settle(page);
  const own = /file that this page writes, runway-game.json\. Its SHA-256 is [0-9a-f]{64}\. Numbers were changed since/;
  await page.until(`${own}.test(${PAPER})`);
  const ofText = /This is the SHA-256 of the text in the box below, with a line end after it/;
  expect("of its own file", await page.run(PAPER), ofText);
  const [shownSum, box] = await page.run("['digest', 'document'].map((part) => "
    + "document.querySelector('#sheet .' + part).textContent)");
  expect("as it says", shownSum, createHash("sha256").update(`${box}\n`).digest("hex"));
  await page.run("dispatchEvent(new Event('afterprint'))");
}

const GERMAN = "Adler\t95.000\nBrandt\t62.000,25\nChopra\t41.000\nDupont\t30.500,75\nEgger\t22.000\nFink\t9.000";
const ENGLISH = GERMAN.replace(/[.,]/g, (mark) => (mark === "." ? "," : "."));

/** An estate by the one mark beside claims by the other: 120,000 may be 120, or 120000. */
async function marksThatContradict(page, expect) {
  for (const [claims, estate, short, proof] of [
    [GERMAN, "120,000", "120", "“62.000,25” shows that the comma"],
    [ENGLISH, "120.000", "120", "“62,000.25” shows that the point"],
  ]) {
    await page.click("Clear all");
    await page.paste('[data-cell="rows.0.name"]', claims);
    await page.type("estate", estate);
    const asked = await noted(page, new RegExp(`“${estate}” would be ${short}, with decimals\\. Or are these whole`));
    expect("it is asked, and why", asked, /^“62.000.25” shows which mark comes before decimals/);
    await page.until("document.getElementById('answer').hidden");
    await page.click("with decimals");
    const note = await noted(page, new RegExp(`“${estate}” is read`));
    expect("which was read", note, new RegExp(`“${estate}” is read as ${short}, with decimals`));
    expect("and which otherwise", note, /“95.000” \(and 3 like it\) is read as the whole number 95000/);
    expect("why", note, new RegExp(proof));
    await settle(page);
    expect("read", await page.text(".lead"), /together 120.00/);
    await page.click(`Read “${estate}” as the whole number 120000`);
    await noted(page, /as you chose/);
    await settle(page);
    expect("by the other", await page.text(".lead"), /together 120\u202f000.00/);
    await page.click("Read them by one mark again");
    await noted(page, new RegExp(proof));
  }
  await page.type("estate", "120.000,50");
  expect("two marks", await noted(page, /change places/), /Each of the two/);
}

export function letters(top) {
  const example = (name) => readFileSync(join(top, "examples", `${name}.json`), "utf8");
  const [line, agreed] = ["airport-solved", "airport"].map(example);
  const given = (play) => (page, expect) => play(page, expect, line, agreed);
  return [
    ["letters: a file that can’t be taken leaves no word", "verify", given(untaken)],
    ["letters: the name goes with the text", "verify", given(namesGoWithTexts)],
    ["letters: a printed check is tied to its letter", "verify", given(tiedToItsLetter)],
    ["letters: marks that contradict each other", "estate", marksThatContradict],
    ["letters: the one page names the agreed file", "verify", given(agreedFileOnPaper)],
  ];
}
