// Scenarios: what new users fell over, each with a case of its own. No yes to another game, no number in silence, and a
// way on wherever an answer can't be given.
import { giveLine, noted, READY, settle, told } from "./harness.mjs";
import { lineOf } from "./program.mjs";

const SAID = "document.querySelector('#verify .answers .word')"
  + " && ![...document.querySelectorAll('#verify .word.busy')].some((word) => word.textContent.includes('at work'))";
const some = '"sparse":[[["Ann"],100],[["Bob"],100],[["Cem"],100],[["Ann","Bob"],150],[["Ann","Bob","Cem"],210]]';
const three = '"names":["Ann","Bob","Cem"],"players":3';
const sparse = (rest) => `{"game":{"class":"cost-table","default":${rest},${three},${some}}}`;
const network = (back) => `{"game":{"class":"tree","matrix":[[0,5,8],[5,0,3],[8,${back},0]]}}`;
const claims = '"claims":[40,60],"names":["Ida","Jan"]';
const estateOf = (amount) => `{"game":{"class":"bankruptcy",${claims},"estate":${amount}}}`;

async function checked(page, line, agreed) {
  await giveLine(page, line, agreed);
  await page.until(SAID);
  return page.text("#verify .answers");
}

async function otherGames(page, expect) {
  const forged = lineOf("nucleolus", sparse(115));
  const found = await checked(page, forged, sparse(160));
  expect("another default", found,
    /^No: it answers another game\. Every group .*\s+The shares are the nucleolus of the game in the line.*But that/);
  expect("which", found, /every group that isn’t listed: the line has 115, the agreed file 160/i);
  const right = await checked(page, lineOf("nucleolus", sparse(160)), sparse(160));
  expect("its own", right, /^Yes: these shares are the nucleolus of the agreed game, a cost of 210.00\./);
  const refused = await checked(page, lineOf("nucleolus", network(3)), network(4));
  expect("a file that is refused", refused,
    /But nobody can say whether it is the agreed one[\s\S]*the program refuses the/);
}

async function heir(page, expect) {
  await page.click("Clear all");
  await page.paste('[data-cell="rows.0.name"]', "Ida\t40\nJan\t60");
  await page.type("estate", "90");
  await settle(page);
  await page.click("Check an answer");
  const places = "document.querySelectorAll('#verify textarea')";
  expect("his own case is there", await page.run(`${places}[1].value`), /"estate":90/);
  expect("and said", await page.text("#verify .drop:nth-child(2)"), /From your case, “An estate or a bankruptcy”/);
  const other = await checked(page, lineOf("nucleolus", estateOf(100)));
  expect("the estate in the headline", other,
    /the game in the line, an estate of 100.00\. But that isn’t the game of your/);
  expect("and both", other, /the estate: the line has 100, your case 90/i);
  await page.click("Leave my case out");
  await told(page, "#verify .answers", /nucleolus of the game in the line.* See that it is the game/);
  await page.click("The game of my case, “An estate or a bankruptcy”");
  await told(page, "#verify .answers", /The page put the game of your case, “An estate or a bankruptcy”, beside this/);
  const own = await checked(page, lineOf("nucleolus", estateOf(90)));
  expect("his own", own, /^Yes: these shares are the nucleolus of the game of your case, an estate of 90.00/);
  await page.run("history.back()");
  await page.until("document.body.dataset.view === 'case'");
  await page.type("estate", "95");
  await settle(page);
  await page.click("Check an answer");
  expect("it follows", await page.run(`${places}[1].value`), /"estate":95/);
  await page.click("Open the game of this line");
  await told(page, "#case .case", /What stood here before is replaced: “Undo” brings it back\./);
  await page.click("Undo “Open a document”");
  await page.until(`document.querySelector('[data-cell="estate"]').value === "95"`);
}

const LINKS = [["From", "To", "Cost"], ["Well", "Ash", 10], ["Ash", "Birch", 2], ["Well", "Cedar", 10],
  ["Birch", "Cedar", 30]];
const rowsOf = (rows) => rows.map((row) => row.join("\t")).join("\n");

async function emptyLinks(page, expect) {
  await page.paste('[data-cell="names.0"]', rowsOf(LINKS));
  await told(page, "#waiting", /2 cells are still empty[\s\S]*Can’t some links be built\?/);
  expect("the ways are open", await page.run("document.querySelector('.no-link').open"), true);
  expect("no way back to an empty cell", /Go to the first/.test(await page.text("#case .faults")), false);
  await page.click("Build through the places of others");
  await settle(page);
  expect("an answer", await page.text("#answer .lead"), /together 22.00/);
  await page.click("If one leaves");
  await page.choose("leaves", "Ash");
  const found = await told(page, ".leaves .found", /If the place of Ash is gone/);
  expect("through its place", found,
    /may still build through the place of Ash[\s\S]*the others cost 22.00[\s\S]*Ash adds 0.00/);
  expect("without it", found,
    /place of Ash is gone[\s\S]*the others cost 40.00, and all together 22.00: Ash saves them 18/);
}

async function sumsOfLinks(page, expect) {
  for (const sum of [["Total", "", 52], ["", "", 52], ["Total cost", "", 52]]) {
    await page.paste('[data-cell="names.0"]', rowsOf([...LINKS, sum]));
    const said = await told(page, "#case .note", /Taken as/);
    expect(`${sum}`, said, /4 points, 4 links of 6 that could be, source: Well\. Left out: “.*52”, a sum\./);
    expect("no warning", await page.run("document.querySelector('#case .note').matches('.warn')"), false);
    expect("three places", await page.run("document.querySelectorAll('[data-cell^=\"names.\"]').length"), 3);
  }
  await page.paste('[data-cell="names.0"]', rowsOf([...LINKS.slice(0, 2), ["Ash", "", 7], ...LINKS.slice(2)]));
  expect("one end only", await page.text("#case .note"), /In “Ash; 7” a link has one end only\. Nothing was taken\./);
}

async function mixedMarks(page, expect) {
  await page.click("Clear all");
  await page.paste('[data-cell="rows.0.name"]', "A\t40,000\nB\t25,000\nC\t25,000\nD\t12.000,50 EUR");
  await page.type("estate", "90,000");
  await noted(page, /“12.000,50 EUR” shows which mark[\s\S]*“40,000” and 3 like it would be 40, with decimals\. Or/);
  expect("no answer", await page.run("document.getElementById('answer').hidden"), true);
  expect("nor silence", await page.text("#waiting"), /The answer waits for the question beside the cells/);
  await page.click("whole");
  await settle(page);
  expect("whole", await page.text("#answer .lead"), /together 90\u202f000/);
}

async function keptAsItWas(page, expect) {
  await page.paste('[data-cell="numbers.1"]', "10\n10\n10\n16\n17\n18\n20");
  await settle(page);
  await page.click("Keep this answer to compare");
  await page.until("document.querySelector('.pinned')");
  expect("nothing changed", await page.text(".pinned"), "The shares are those of the kept answer.");
  expect("in no column", await page.run("document.querySelectorAll('.shares .change').length"), 0);
  expect("as before", await page.run("document.querySelectorAll('.shares .same').length >= 6"), true);
  const bars = await page.run("[...document.querySelectorAll('.bars title')].map((one) => one.textContent).join()");
  const cells = await page.run("[...document.querySelectorAll('.shares tbody .main')].map((td) => td.firstChild.data)");
  for (const cell of cells) {
    expect(`the picture says ${cell}`, bars.includes(`Fairest to those who gain least ${cell}`), true);
  }
}

async function unreadable(page, expect) {
  await page.type("numbers.3", "27400*x");
  const said = await told(page, "#waiting", /There is no answer while/);
  expect("which, and why", said, /Sales \+ Ops: The cost is no number: “27400\*x”/);
  await page.type("numbers.3", "4*2.5 + 0.25");
  await noted(page, /“4\*2.5 \+ 0.25” is worked out: 10.25/);
  await settle(page);
  expect("in the document", await page.run("document.querySelector('.made pre').textContent"),
    /\["Sales","Ops"\],"41\/4"\]/);
}

async function notice(page, expect) {
  await page.click("Keep this answer to compare");
  await page.type("numbers.7", "13");
  await settle(page);
  const sheet = await page.run("dispatchEvent(new Event('beforeprint')); document.getElementById('sheet').textContent");
  expect("what changed", sheet, /Before[\s\S]*Change[\s\S]*Against the kept answer, by “Fairest[\s\S]*12 → 13/);
  expect("begins with what each saves", sheet, /Why: fairest [^(]*\(the nucleolus\)Against going alone, Sales saves/);
}

export const users = [
  ["users: no yes to another game, or to a file that is refused", "verify", otherGames],
  ["users: an heir checks a line by the case just typed", "estate", heir],
  ["users: empty links have a way on, and one leaves with its place or without", "network", emptyLinks],
  ["users: sums below a list of links", "network", sumsOfLinks],
  ["users: mixed marks are asked about", "estate", mixedMarks],
  ["users: a kept answer is as it was shown", "costs", keptAsItWas],
  ["users: a cell that can’t be read is named where the answer was", "costs", unreadable],
  ["users: the notice has what changed, and what each saves", "costs", notice],
];
