// Scenarios: what has to be exact where it is told: numbers that were made coarser, claims that hang on little, lists
// of excesses, and an empty core on paper.
import { noted, settle, told } from "./harness.mjs";

const MESSAGE = "#case .note[role=status]";
const NAMES = ["Anna", "Bernd", "Chem", "Dora", "Elbe", "Fink"];

async function useList(page, text) {
  if (!(await page.run("document.querySelector('details.inline').open"))) await page.click("Paste a whole list");
  await page.fill("details.inline textarea", text);
  await page.click("Use this list");
  await page.until(`!/^Reading|^$/.test(document.querySelector(${JSON.stringify(MESSAGE)}).textContent)`);
}

const sheetOf = async (page) => {
  await page.run("dispatchEvent(new Event('beforeprint'))");
  const text = await page.run("document.getElementById('sheet').textContent");
  await page.run("dispatchEvent(new Event('afterprint'))");
  return text;
};

const savedNames = (page) => {
  return page.run("[...document.querySelectorAll('#evidence .files button')].map((one) => one.textContent).join()");
};

/** The file of the answer's table. */
async function savedTable(page) {
  await page.run(`(() => {
    const make = URL.createObjectURL;
    URL.createObjectURL = (blob) => (window.savedFile = blob.text(), make.call(URL, blob));
  })()`);
  await page.click("Save the table (CSV)");
  return page.run("window.savedFile");
}

/** Gives a file to the place for documents, as a person who chooses it does. */
const openFile = (page, name, text) => page.run(`(() => {
  const chooser = document.querySelector("#document input[type=file]"), given = new DataTransfer();
  given.items.add(new File([${JSON.stringify(text)}], ${JSON.stringify(name)}));
  chooser.files = given.files;
  chooser.dispatchEvent(new Event("change"));
})()`);

const FINE = "1e-05\n0.94786536\n2\n3.123456\n4\n5\n6.5";
const TIMES = /All numbers are here times 100\u202f000\u202f000, [\s\S]*divide them by 100\u202f000\u202f000/;

const coarser = [
  ["numbers times a power of ten are told wherever they go", "gains", async (page, expect) => {
    await useList(page, FINE);
    await noted(page, /too fine/);
    await page.click("All times a power of ten");
    await told(page, "#case-body", TIMES);
    await settle(page);
    expect("beside the document", await page.text(".made"), /the file is named gains-times-100000000\.json/);
    expect("with the answer", await page.text("#answer-body .coarse-note"), TIMES);
    const divided = /least, divided by 100\u202f000\u202f000: Player 1 113233\/93750 \(about 1.2078186667\); /;
    expect("divided", await page.text("#answer .divided"), divided);
    const names = /gains-times-100000000\.json,.*gains-times-100000000-nucleolus\.json/;
    expect("files", await savedNames(page), names);
    const sheet = await sheetOf(page);
    expect("on paper", sheet, TIMES);
    expect("and divided", sheet, divided);
    await page.click("These are other numbers now");
    await page.until("!document.querySelector('.coarse-note')");
    await settle(page);
    expect("no longer", await savedNames(page), /gains-game\.json/);
  }],

  ["a file whose name tells what was done to its numbers", "document", async (page, expect) => {
    const text = '{"game":{"class":"table","players":2,"worths":[100,200,650]}}';
    await openFile(page, "gains-times-100 (1).json", text);
    await told(page, "#case-body", /All numbers are here times 100, [\s\S]*divide them by 100\./);
    await page.run("location.hash = '#document'");
    await openFile(page, "gains-rounded.json", text);
    await told(page, "#case-body", /Numbers were rounded to four decimals here, each by at most 0\.000050/);
    await page.run("location.hash = '#document'");
    await openFile(page, "gains-game.json", text);
    // below the case stands "fairest to those who gain least, rounded", as soon as there is an answer
    const cells = "document.getElementById('case-body').innerText";
    await page.until(`document.body.dataset.view === 'case' && !/were rounded/.test(${cells})`);
    await settle(page);
    expect("of another file nothing", await page.run("document.querySelector('.coarse-note')"), null);
  }],

  ["a core that is empty by the rounding alone", "gains", async (page, expect) => {
    await useList(page, "0\n0\n0\n6.3333501\n6.3333501\n6.3333501\n9.5000253");
    await noted(page, /too fine/);
    await page.click("Round all to four decimals");
    await told(page, "#case-body", /4 numbers were rounded to four decimals, each by at most 0\.000050/);
    await settle(page);
    const near = /a yes or a no by less than 0\.00035, 7 times that, may come of the rounding/;
    expect("how near", await page.text(".coarse-note"), near);
    const claim = /are worth 19\.0002, added\. 2 times all together are worth 19\.0000, which is less\./;
    expect("as many decimals as it needs", await page.text("#answer .notice"), claim);
    expect("too little", await page.text("#answer .notice"), /But that is so little that it may come of the rounding/);
    expect("by how much", await page.text(".shares .verdict"), /by 0\.00007/);
    expect("files", await savedNames(page), /gains-rounded\.json/);
    expect("on paper", await sheetOf(page), near);
    const holds = /Save the document \(rounded numbers\)[^]*holds only the rounded numbers.*another name nobody/;
    expect("at the button", await page.text(".made"), holds);
    const lines = new RegExp("\r\n\r\nShares beside the exact ones are rounded to decimals,2\r\n"
      + "The numbers .* to decimals,4\r\n\r\nFractions have ÷");
    expect("in the table's file", await savedTable(page), lines);
  }],
];

/** Six players: pairs are worth 5, all 10, and larger groups as their best pairs; so no division satisfies all. */
function pairsOfSix() {
  const lines = NAMES.map((name) => `${name}\t0`);
  for (let mask = 1; mask < 64; mask++) {
    const who = NAMES.filter((_, i) => (mask >> i) & 1);
    if (who.length > 1) lines.push(`${who.join("+")}\t${who.length === 6 ? 10 : 5 * Math.floor(who.length / 2)}`);
  }
  return lines.join("\n");
}

const empty = [
  ["an empty core on paper, and each column alike", "gains", async (page, expect) => {
    await useList(page, pairsOfSix());
    await settle(page);
    const box = await page.text("#answer .notice");
    expect("what lacks", box, /To satisfy every group, all together would have to be worth at least [\d./]+ more/);
    expect("groups are parted by semicolons", box, /Take all but Dora and Fink; .*; and all .*: they hold/);
    expect("no other prenucleolus", await page.text("#why"), /The prenucleolus is the same as the nucleolus here\./);
    expect("the box", await sheetOf(page), /Whatever the division, some group could do better by itself/);
    expect("its own line", await sheetOf(page), /“Fairest to[^”]*”: a group does better by itself: .*, by \d/);
    await page.run("document.querySelector('[data-cell=\"paper.withProposal\"]').click()");
    const sheet = await sheetOf(page);
    expect("all lines", sheet, /“Fairest to[^”]*”, (“A core point”, )?“By what each adds”.*: a group does better/);
    expect("told of the prenucleolus", sheet, /The prenucleolus is the same as the nucleolus here/);
  }],

  ["exact fractions of all columns on paper", "gains", async (page, expect) => {
    await page.type("numbers.1", "20.5");
    await page.type("numbers.7", "121");
    await settle(page);
    await page.run("document.querySelector('[data-cell=\"paper.withProposal\"]').click()");
    await page.run("dispatchEvent(new Event('beforeprint'))");
    const cells = "[...document.querySelectorAll('#sheet .shares tbody .exact')].map((one) => one.textContent).join()";
    expect("of the Shapley shares", await page.run(cells), "253/6,653/12,293/12");
    const before = "[...document.querySelectorAll('#sheet .shares tbody .exact')].map((one) => "
      + "one.previousElementSibling.textContent).join()";
    expect("right of each number", await page.run(before), "42.17,54.42,24.41");
    const heads = "[...document.querySelectorAll('#sheet .shares thead th')].map((one) => one.textContent).join()";
    expect("under a head of their own", await page.run(heads), /By what each addsShapley shares,exactly/);
  }],
];

const excesses = [
  ["the excesses of all columns, side by side", "gains", async (page, expect) => {
    await useList(page, pairsOfSix());
    await settle(page);
    await page.click("Group by group: what each could gain by leaving");
    await told(page, ".excesses", /8 of 62 places/);
    const heads = await page.text(".excesses thead");
    expect("heads", heads, /Place\s+Fairest to [\w ]+\s+by whom\s+By what each adds\s+by whom/);
    await page.click("All 62 places");
    await page.until("document.querySelectorAll('.excesses tbody tr').length === 62");
    await page.type("numbers.1", "3");
    const marked = /A mark shows where .*: “By what each adds” at place \d+ and “Fairest to [\w ]+, even if some/;
    await told(page, ".excesses", marked);
    await settle(page);
    expect("open, all", await page.run("document.querySelectorAll('.excesses tbody tr').length"), 62);
    expect("marked", await page.run("document.querySelectorAll('.excesses td.differs').length"), 4);
    await page.run("navigator.clipboard.writeText = (text) => { window.copied = text; return Promise.resolve(); }");
    await page.click("Copy all places");
    await page.until("window.copied !== undefined");
    const lines = (await page.run("window.copied")).trimEnd().split("\n");
    expect("copied", lines.length, 63);
    expect("its columns", lines[0], /^Place\tFairest to [\w ]+\tFairest [\w ]+, exact\tby whom\tBy what each adds\t/);
  }],

  ["the excesses of a proposal, beside those of the columns", "gains", async (page, expect) => {
    await page.click("Group by group: what each could gain by leaving");
    await told(page, ".excesses", /A mark shows where a list first differs/);
    expect("without one", /Your proposal/.test(await page.text(".excesses")), false);
    for (const [r, text] of ["40", "40", "40"].entries()) await page.type(`proposal.${r}`, text);
    await told(page, ".excesses thead", /Your proposal\s+by whom/);
    expect("where it differs", await page.text(".excesses"), /and “Your proposal” at place 1\./);
    await page.type("proposal.0", "41");
    await page.until("!/Your proposal/.test(document.querySelector('.excesses thead')?.innerText ?? 'Your proposal')");
  }],

  ["why a proposal isn't the prenucleolus, and the comparison stays open", "gains", async (page, expect) => {
    for (const [r, text] of ["40", "40", "40"].entries()) await page.type(`proposal.${r}`, text);
    await settle(page);
    await page.until("document.querySelector('.comparison')");
    await page.click("Your proposal beside “Fairest to those who gain least”");
    expect("in the field’s words on request", /prenucleolus/.test(await page.text(".comparison")), false);
    await page.click("Options");
    await page.run("document.querySelector('[data-cell=\"exact\"]').click()");
    await told(page, ".comparison", /So it isn’t the prenucleolus either: the nucleolus is itself a division/);
    const held = /the prenucleolus always lies in the prekernel, and here .* has a stronger hold on/;
    expect("and by holds", await page.text(".comparison"), held);
    await page.type("proposal.0", "41");
    await page.type("proposal.1", "39");
    await settle(page);
    await told(page, ".comparison", /lesser list/);
    expect("open", await page.run("document.querySelector('.comparison').open"), true);
  }],

  ["a proposal is filled with decimals", "gains", async (page, expect) => {
    await page.type("numbers.7", "26.9");
    await page.run(`(() => {
      const places = document.querySelector("#answer-settings select");
      places.value = "6";
      places.dispatchEvent(new Event("change"));
    })()`);
    await settle(page);
    await page.click("equal parts");
    await settle(page);
    const value = await page.run("document.querySelector('[data-cell=\"proposal.0\"]').value");
    expect("written", value, "8.966667");
    expect("whole", /missing|too much/.test(await page.text(".shares tfoot")), false);
  }],
];

const kept = [
  ["a table of a network has what was done to the links", "network", async (page, expect) => {
    await page.type("links.0-1", "3.1234567");
    await noted(page, /too fine/);
    await page.click("All times a power of ten");
    await told(page, "#case-body", /All numbers are here times 10\u202f000\u202f000/);
    await settle(page);
    await page.type("links.1-2", ""); // two places that each build alone
    await noted(page, /1 cell is still empty/);
    await page.click("A link that can’t be built");
    await page.click("make a table of costs of it");
    await page.until("location.hash === '#costs' && document.querySelector('[data-cell=\"numbers.7\"]')");
    await told(page, "#case-body", /All numbers are here times 10\u202f000\u202f000/);
  }],

  ["excesses of a runway are those of its rows", "runway", async (page, expect) => {
    await page.click("Group by group: what each could gain by leaving");
    await told(page, ".excesses", /8 of \d+ places/);
    expect("by rows", await page.text(".excesses tbody"), /all but Aer \(1 of 3 uses\)/);
  }],
];

const lists = [
  ["two prices that are nearly one", "document", async (page, expect) => {
    await page.fill("#document textarea", '{"game":{"class":"assignment","version":2,"matrix":[["1/250"]]}}');
    await page.until("document.querySelector('.trades')");
    await settle(page);
    expect("told apart", await page.text(".trades tbody"), /0\.000\sto\s0\.004/);
  }],

  ["headings, and lists with a name, as other programs have them", "gains", async (page, expect) => {
    await useList(page, "worth\n5\n3\n2\n10\n9\n6\n16");
    await settle(page);
    const heading = /3 players, 7 groups\. The first line, “worth”, was taken as a heading\./;
    expect("told", await page.text(MESSAGE), heading);
    expect("answer", await page.text(".lead"), /together 16.00/);
    await useList(page, "v = [0 0 0 6 2 2 12];");
    await told(page, MESSAGE, /Number 4, 6, is that of Player 1 \+ Player 2/);
    await settle(page);
    expect("a vector", await page.text(".lead"), /Player 1 gets 4.50, .*together 12.00/);
    await useList(page, "0 5 3 2 10 9 6 18");
    await told(page, MESSAGE, /Number 1, 0, was left out, as that of the group of nobody\. Number 5, 10, is that of/);
    await useList(page, "Gruppe;Wert\nA;5\nB;3\nA+B;17");
    await told(page, MESSAGE, /“Gruppe; Wert”, was taken as a heading/);
    await settle(page);
    expect("groups", await page.text(".lead"), /A gets .*together 17.00/);
    const box = await page.run("document.querySelector('details.inline').textContent");
    expect("many games", box, /One game at a time here; for many, scripts\/many --lines .* scripts\/from-vector makes/);
  }],

  ["a document with more than one line", "document", async (page, expect) => {
    const line = '{"game":{"class":"table","players":2,"worths":[1,2,6]}}';
    await page.fill("#document textarea", `${line}\n${line}\n`);
    await told(page, "#document-message", /something stands behind the document/);
    expect("how to run many", await page.text("#document-message"), /One game at a time here; for many, scripts\//);
  }],

  ["a name that a spreadsheet would run is quoted", "costs", async (page, expect) => {
    await page.type("names.0", "-1+cmd|' /C calc'!A0");
    await page.type("names.1", "\u22121+1");
    await settle(page);
    const table = await savedTable(page);
    expect("a command", table, /^'-1\+cmd\|' \/C calc'!A0,/m);
    expect("with another minus", table, /^'−1\+1,/m);
  }],

  ["the answer has the mark of the numbers, until one is chosen", "gains", async (page, expect) => {
    await useList(page, "5,5\n3,25\n2\n10\n9\n6\n16,5");
    await told(page, ".lead", /together 16,50/);
    await page.run(`(() => {
      const marks = document.querySelectorAll("#answer-settings select")[1];
      marks.value = ".";
      marks.dispatchEvent(new Event("change"));
    })()`);
    await told(page, ".lead", /together 16\.50/);
    await page.type("numbers.7", "17,5");
    await told(page, ".lead", /together 17\.50/);
    await settle(page);
    expect("as chosen", await page.text(".lead"), /together 17\.50/);
  }],
];

export const precise = [...coarser, ...empty, ...excesses, ...kept, ...lists];
