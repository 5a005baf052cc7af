// Scenarios: the word that the page says of a line, what it offers then, and what is printed of it.
import { readFileSync } from "node:fs";
import { join } from "node:path";
import { giveLine, noted, READY, settle, told } from "./harness.mjs";

const SAID = "document.querySelector('#verify .answers .word, #verify .answers .notice')"
  + " && ![...document.querySelectorAll('#verify .word.busy')].some((word) => word.textContent.includes('at work'))";

async function give(page, line, agreed) {
  await giveLine(page, line, agreed);
  await page.until(SAID);
  return page.text("#verify .answers");
}

const PAPER = "dispatchEvent(new Event('beforeprint')); document.body.dataset.print";
const shown = (page, selector) => {
  return page.run(`getComputedStyle(document.querySelector("${selector}")).display !== "none"`);
};

async function printed(page) {
  await page.run("dispatchEvent(new Event('afterprint')); 0");
  return (await page.pdf()).toString("latin1").match(/\/Type \/Page\b/g)?.length ?? 0;
}

/** The line of the program for 100, 200 and 300 of 200, per head; by the plain rule it is 50, 75, 75. */
const PER_HEAD = '{"answer":"nucleolus","certificate":{"levels":[{"bounds":[],"coalitions":[[[1],1],[[2,3],1]],'
  + '"earlier":[],"excess":"-100/3","total":1},{"bounds":[],"coalitions":[[[1,2],3],[[1,3],3]],"earlier":[[[1],-2],'
  + '[[2,3],1]],"excess":"-175/3","total":4}],"mode":"span"},"game":{"claims":[100,200,300],"class":"bankruptcy",'
  + '"estate":200,"excess":"per-head","names":["A","B","C"]},"shares":["100/3","250/3","250/3"]}';

async function perHead(page, expect) {
  const text = await give(page, PER_HEAD);
  expect("the headline", text,
    /The shares are the nucleolus per head of the game in the line, an estate of 200.00. See that/);
  expect("what the line says", text, /the nucleolus per head of an estate of 200.00, for 3 players/);
  expect("claims beside", text, /Who gets\s+Claim\s+By the line\s+A\s+100.00\s+33.34/);
  expect("rounding", text, /Rounded so that they add up/);
  await page.click("What a yes means");
  const means = await page.text("#verify .meanings");
  expect("a rule of its own", means, /shares are the nucleolus per head of[\s\S]*Per head is a rule of its own/);
  expect("the conditions", await page.run("document.querySelectorAll('#verify .conditions li').length"), 8);
}

async function checkOnPaper(page, expect, line, agreed) {
  await give(page, line, agreed);
  await page.until("document.querySelectorAll('#verify .fingerprint').length === 3");
  const sums = await page.text("#verify .answers");
  expect("both sums", sums, /as it was given, has the SHA-256 [0-9a-f]{64}[\s\S]*Written as this [\s\S]*[0-9a-f]{64}/);
  expect("what is printed", await page.run(PAPER), "check");
  await page.look({ wide: 800, print: true });
  expect("the verdict", await shown(page, "#verify .lead"), true);
  expect("the boxes", await shown(page, "#verify .places"), false);
  expect("the day", await page.text("#paper-head"), /The check of a line – \d+ \w+ \d{4}/);
  await page.look({});
  expect("pages", await printed(page), 1);
}

async function anotherGame(page, expect, line, agreed) {
  const forged = line.replace("[2,4,6]", "[2,4,7]").replace('"7/2"', '"9/2"');
  await give(page, forged, agreed);
  await page.click("Open the game of this line");
  await page.until(READY);
  expect("told above", await page.text("#case .note"), /isn’t the agreed game. Nothing on this page is agreed on/);
  const sheet = await page.run(`${PAPER}; document.getElementById('sheet').textContent`);
  expect("on paper", sheet, /Not agreed on/);
  expect("nobody signs", /Agreed on by|What is agreed on/.test(sheet), false);
  await page.run("dispatchEvent(new Event('afterprint')); location.hash = '#verify'");
  await page.click("Open the agreed game, with the reasons");
  await page.until("document.querySelector('[data-cell=\"rows.2.cost\"]')?.value === '6'");
  await page.until(READY);
  expect("no doubt", /isn’t the agreed game/.test(await page.text("#case")), false);
}

async function unread(page, expect, line, agreed) {
  const csv = await give(page, line, "light;2\nmedium;4");
  expect("nobody can say", csv, /But nobody can say whether it is the agreed one/);
  expect("no accusation", /isn’t the agreed game/.test(csv), false);
  const mail = await give(page, `Dear all,\n> ${line.replace(/(.{70})/g, "$1\n> ")}\nYours`, agreed);
  expect("a mail", mail,
    /This line can’t be read[\s\S]*begin with “>”[\s\S]*Read it without what the mail program added/);
  expect("what that leaves out", mail, /That leaves out “Dear all,”, “Yours”, \d+ signs of quotation and \d+ line br/);
  await page.click("Read it without what the mail program added");
  await page.until("document.querySelectorAll('#verify .word.good').length === 3");
  expect("mended", await page.text("#verify .lead"), /Yes: these shares are the nucleolus of the agreed game/);
  expect("broken", await give(page, line, agreed.replace(/(.{9})/g, "$1\n")), /the agreed file can’t be read/);
  await page.click("Read the agreed file without what the mail program added");
  await page.until("document.querySelectorAll('#verify .word.good').length === 3");
  expect("mended, too", await page.text("#verify .answers"), /had done to the agreed file was undone/);
  expect("a case", await give(page, '{"coop-page":1,"document":{}}'), /a saved case of this page.*“Open a saved case”/);
  expect("in words", await give(page, "Ann pays 20"), /begins with “{”. Shares in words are judged in a case/);
  const twice = await give(page, line.replace('"costs"', '"costs":[1,1,1],"costs"'), agreed);
  expect("a key twice", twice, /^Don’t take this line: a key occurs twice in it/);
}

async function bare(page, expect, line, agreed) {
  const [own] = [/"game":\{[^}]*\}/.exec(line)[0]], shares = (some) => `{"answer":"shapley","shares":${some}}`;
  const none = await give(page, `{"answer":"nucleolus",${own},"shares":["1","3/2","7/2"]}`, agreed);
  expect("compared", none, /no certificate[\s\S]*agreed game\? Yes[\s\S]*anew for the nucleolus of its game, finds/);
  const other = await give(page, `{"answer":"nucleolus",${own},"shares":["1","2","3"]}`);
  expect("other shares", other, /finds other shares: medium pays 1.50 \(3\/2\), and not 2.00/);
  expect("Shapley", await give(page, shares('["2/3","5/3","11/3"]')), /Shapley shares of the agreed game, finds these/);
  expect("what to ask for", await give(page, shares('["1"]')), /no game and no certificate[\s\S]*Ask for the whole/);
  const turned = await give(page, agreed, line);
  expect("turned round", turned, /are the two in each other’s place/);
  await page.click("Let them change places");
  await page.until("document.querySelectorAll('#verify .word.good').length === 3");
  expect("right", await page.text("#verify .lead"), /Yes: these shares/);
  expect("no shares", await give(page, agreed, ""), /a game without shares[\s\S]*Open this game here, with/);
  await give(page, `{${own},"shares":["2/3","5/3","11/3"]}`, "");
  await page.click("Open this game: its shares are judged there");
  await page.until(READY);
  expect("a proposal", await page.run(`document.querySelector('[data-cell="proposal.0"]').value`), "2/3");
}

async function openedLine(page, expect, line) {
  await page.fill("#document textarea", line.replace('"3/2","7/2"', '"2","3"'));
  await page.until(READY);
  const notes = await page.text("#case-body");
  expect("told", notes, /“Check an answer” says whether the line’s own shares are right/);
  expect("other shares", notes, /by the nucleolus medium pays 2. The page finds other shares/);
  await page.until("document.querySelectorAll('#verify .word.bad').length === 2");
  expect("checked", await page.text("#verify .lead"), /No: this line doesn’t show/);
  await page.run("location.hash = '#document'");
  await page.fill("#document textarea", line);
  await page.until("document.querySelectorAll('#verify .word.good').length === 2");
  expect("its own shares", /other shares/.test(await page.text("#case-body")), false);
}

async function twins(page, expect) {
  await page.type("rows.1.name", "\u0410dler");
  await settle(page);
  const told = await page.text("#case .faults");
  expect("in cells", told, /two alphabets in one word: “\u0410” \(Cyrillic, \\u0410\)[\s\S]*Names 1 and 2 look alike/);
}

async function sumOfOthers(page, expect) {
  await page.click("Clear all");
  await page.paste('[data-cell="rows.0.name"]', "Who\tClaim\nAda\t100\nBob\t200\nCem\t300\nSumme\t600");
  await page.type("estate", "300");
  await told(page, "#case .pasted", /“Summe”, 600, the sum of the others, was left out\. Put it back/);
  await page.click("Put it back");
  await settle(page);
  const remarks = await page.text("#case .faults");
  expect("told", remarks, /Name 4 is “Summe”. Is it the sum[\s\S]*“Summe”, claims exactly what all rows above it/);
}

async function allOnPaper(page, expect) {
  await page.click("Several amounts side by side");
  await page.type("amounts", "1 000 000; 500");
  await page.click("Work it out", "document.querySelector('.other')");
  await page.until("document.querySelector('.found table')");
  expect("amounts", await page.text(".found"), /500.00[\s\S]*1\u202f000\u202f000.00: The claims add to less/);
  await page.click("On paper");
  await page.type("paper.heading", "In re Adler");
  await page.type("paper.unit", "EUR");
  await page.run("document.body.dataset.print = 'all'; dispatchEvent(new Event('beforeprint'))");
  await page.look({ wide: 800, print: true });
  expect("the amounts", await shown(page, ".found table"), true);
  expect("its field", await shown(page, "#paper"), false);
  expect("heading and unit", await page.text("#paper-head"), /In re Adler – .*\n+All amounts are in EUR/);
}

async function withProposal(page, expect) {
  for (const [k, text] of ["9", "2", "1"].entries()) await page.type(`proposal.${k}`, text);
  await settle(page);
  await page.until("document.querySelector('.comparison')");
  await page.click("On paper");
  await page.run(`document.querySelector('[data-cell="paper.withProposal"]').click()`);
  const sheet = await page.run(`${PAPER}; document.getElementById('sheet').textContent`);
  expect("the columns", sheet, /Shapley shares[\s\S]*Your proposal[\s\S]*9.00/);
  expect("what is said", sheet, /“Your proposal”: a group does better by itself: [\s\S]*place 1 is the first that/);
  expect("pages", await printed(page), 1);
}

async function manyGroups(page, expect) {
  const list = Array.from({ length: 127 }, (_, k) => {
    const members = Array.from({ length: 7 }, (_, i) => i).filter((i) => ((k + 1) >> i) & 1);
    return `${members.map((i) => `P${i + 1}`).join("+")}\t${members.length ** 2}`;
  });
  await page.click("Paste a whole list");
  await page.fill("details.inline textarea", list.join("\n"));
  await page.click("Use this list");
  await page.until(`document.querySelectorAll('.shares tbody tr').length === 7 && ${READY}`);
  await page.run("document.body.dataset.print = 'all'; dispatchEvent(new Event('beforeprint'))");
  expect("all of them", await page.run("document.querySelectorAll('#paper-groups li').length"), 127);
  await page.look({ wide: 800, print: true });
  expect("and not twice", await shown(page, "#case .groups"), false);
}

/** Whether the check of a line is on paper where everything is printed. */
async function checkIsPrinted(page) {
  await page.run("document.body.dataset.print = 'all'; dispatchEvent(new Event('beforeprint'))");
  await page.look({ wide: 800, print: true });
  const isShown = await shown(page, "#verify");
  await page.run("dispatchEvent(new Event('afterprint'))");
  await page.look({});
  return isShown;
}

async function besideAnotherCase(page, expect, line, agreed) {
  const other = /^What was checked here isn’t the game of the case above, so it isn’t printed with it/;
  await give(page, line, agreed);
  await page.click("Open the agreed game, with the reasons");
  await page.until("document.querySelector('#verify .of-case')");
  await page.until(READY);
  expect("with its own case", await checkIsPrinted(page), true);
  await page.run("location.hash = '#estate'");
  await told(page, "#verify .apart", other);
  await page.until(READY);
  expect("the check stays", await page.text("#verify .lead"), /^Yes: /);
  expect("not with another case", await checkIsPrinted(page), false);
  await page.run("location.hash = '#runway'");
  await page.until("document.querySelector('#verify .of-case')");
  expect("not marked", await page.text("#verify .apart"), "");
  await page.type("rows.2.cost", "7");
  await told(page, "#verify .apart", other);
  await settle(page);
  expect("nor with other numbers", await checkIsPrinted(page), false);
}

async function leaving(page, expect) {
  await page.click("If the whole costs more than planned");
  await page.type("more", "50 %");
  await page.click("Work it out", "document.querySelector('.other')");
  await page.until("document.querySelector('.found table')");
  const found = await page.text(".found");
  expect("a percentage", found, /together\s+12.00\s+18.00\s+\+6.00/);
  expect("who would leave", found, /Could a group do better alone\?\s+No\s+Yes: /);
}

export function checks(top) {
  const example = (name) => readFileSync(join(top, "examples", `${name}.json`), "utf8");
  const [line, agreed] = ["airport-solved", "airport"].map(example);
  const given = (play) => (page, expect) => play(page, expect, line, agreed);
  return [
    ["checked: per head is said", "verify", perHead],
    ["checked: on paper, with sums", "verify", given(checkOnPaper)],
    ["checked: another game is opened as that", "verify", given(anotherGame)],
    ["checked: what can’t be read is no fraud", "verify", given(unread)],
    ["checked: without a certificate", "verify", given(bare)],
    ["checked: a check beside another case", "verify", given(besideAnotherCase)],
    ["a line is opened, and checked too", "document", given(openedLine)],
    ["names in two alphabets", "estate", twins],
    ["a sum among the claims", "estate", sumOfOthers],
    ["all on paper, with amounts and heading", "estate", allOnPaper],
    ["one page on paper: with a proposal", "costs", withProposal],
    ["all on paper: 127 groups", "gains", manyGroups],
    ["an overrun by percents, and who would leave", "costs", leaving],
  ];
}
