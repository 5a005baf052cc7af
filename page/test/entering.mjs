// Scenarios: numbers and lists as people and other programs have them, and what the page fills in by itself.
import { noted, settle, told } from "./harness.mjs";

const value = (page, cell) => page.run(`document.querySelector('[data-cell="${cell}"]').value`);
const made = (page) => page.run("document.querySelector('.made pre').textContent");
const notes = (page) => page.text("#case .faults");
/** Until the page asks how a number is to be read; before that it answers nothing. */
const asked = (page) => page.until("document.querySelector('#case .faults').textContent.includes('can be read as')");
const MESSAGE = "#case .note[role=status]";
const message = (page) => page.text(MESSAGE);

async function useList(page, text, order = "size") {
  if (!(await page.run("document.querySelector('.more-tools details').open"))) await page.click("Paste a whole list");
  await page.fill("details.inline textarea", text);
  await page.run(`document.querySelector("details.inline select").value = "${order}"`);
  await page.click("Use this list");
  await page.until("!document.querySelector('#case .note[role=status]').textContent.startsWith('Reading')");
}

async function chooseMark(page, mark) {
  await page.run(`(() => {
    const marks = document.querySelectorAll("#answer-settings select")[1];
    marks.value = "${mark}";
    marks.dispatchEvent(new Event("change"));
  })()`);
  await settle(page);
}

const marks = [
  ["one number of a list settles the decimal mark of all", "gains", async (page, expect) => {
    await useList(page, "0.1754\n3.922\n1.5\n26.4614\n12.125\n8\n40");
    await settle(page);
    expect("read", await made(page), /"1961\/500"[\s\S]*"97\/8"|3\.922/);
    const read = /^“3.922” is read as 3.922, with decimals: “0.1754” shows that the point comes before decimals/;
    expect("and said", await notes(page), read);
    await useList(page, "3.922\n1.234\n5\n6\n7\n8\n40.000");
    await asked(page);
    const asks = /“3.922” can be read as 3922 or as 3.922[\s\S]*So can the 2 other numbers like it/;
    expect("asked", await notes(page), asks);
    await page.click("3.922, with decimals");
    await settle(page);
    expect("told", await notes(page), /“3.922” is read as 3.922, with decimals[\s\S]*So are the 3 numbers/);
    const before = await made(page);
    await page.click("No: 3.922 is 3922, whole");
    await settle(page);
    expect("by the other", await notes(page), /“3.922” is read as the whole number 3922/);
    await page.click("No: 3.922 is 3,922, with decimals");
    await settle(page);
    expect("and back", await made(page), before);
  }],

  ["thousands are shown as they were typed", "estate", async (page, expect) => {
    for (const [by, mark, shown] of [[".", ",", "."], [",", ".", ","], ["'", ".", "’"], ["\u00a0", ",", "\u202f"]]) {
      const typed = (text) => text.replace(/[_;]/g, (sign) => (sign === "_" ? by : mark));
      await page.click("Clear all");
      await page.paste('[data-cell="rows.0.name"]', typed("A\t1_200_000;50\nB\t900_000\nC\t700_000;25"));
      await page.type("estate", typed("2_000_000;00"));
      const whole = `2${shown}000${shown}000${mark}00`;
      await page.until(`document.querySelector("#answer .lead")?.textContent.includes("together ${whole}")`);
      await settle(page);
      expect(`in the table by ${by}`, (await page.text(".shares tfoot")).includes(whole), true);
      const claim = `1${shown}200${shown}000${mark}50`;
      expect(`and in the reasons by ${by}`, (await page.text("#why")).includes(claim), true);
    }
    await page.type("estate", "1,900,000.00");
    await told(page, "#answer .lead", /together 1\u202f900\u202f000,00/);
  }],

  ["the decimal mark of what is shown changes no number", "gains", async (page, expect) => {
    await useList(page, "3.922\n1.234\n5\n6\n7\n8\n40");
    await asked(page);
    await page.click("3.922, with decimals");
    await settle(page);
    const before = await made(page);
    await chooseMark(page, ",");
    expect("shown", await page.text(".shares tbody"), /\d,\d\d/);
    expect("the same game", await made(page), before);
  }],

  ["an opened document is read in one way only", "document", async (page, expect) => {
    const game = '{"version":2,"class":"table","players":2,"worths":["427/250",2,"9999/1000"]}';
    await page.fill("#document textarea", `{"game":${game}}`);
    await page.until("document.querySelector('.made pre')");
    await settle(page);
    const before = await made(page);
    expect("cells", await value(page, "numbers.1"), "1.7080");
    await chooseMark(page, ",");
    expect("the same game", await made(page), before);
    expect("no doubt", await notes(page), "");
  }],
];

const openText = async (page, text) => {
  await page.run("location.hash = '#document'");
  await page.until("document.body.dataset.view === 'document'");
  await page.fill("#document textarea", text);
};

const workOut = async (page, amounts) => {
  await page.click("Several amounts side by side");
  await page.type("amounts", amounts);
  await page.click("Work it out", "document.querySelector('.other')");
};

const estateOf = (whole) => `{"game":{"class":"bankruptcy","claims":[200000,300000],"estate":${whole}}}`;

marks.push(["numbers beside a file are read by its own mark", "estate", async (page, expect) => {
  await page.click("Clear all");
  await page.paste('[data-cell="rows.0.name"]', "Adler\t200000,50\nBrandt\t300000");
  await page.type("estate", "250000");
  await told(page, ".lead", /together 250\u202f000,00/);
  await workOut(page, "120.000 240.000");
  await told(page, ".found thead", /120\u202f000,00\s+240\u202f000,00/);
  await openText(page, estateOf(300000));
  await told(page, ".lead", /together 300\u202f000\.00/);
  await settle(page);
  await workOut(page, "120.000 240.000");
  await told(page, ".found", /“120.000” is read as 120: the point comes before decimals/);
  await page.click("No, the comma");
  await told(page, ".found thead", /120\u202f000,00\s+240\u202f000,00/);
  await told(page, ".lead", /together 300\u202f000,00/);
  await openText(page, `{"coop-page":1,"document":${estateOf(280000)},"entry":".","mark":","}`);
  await told(page, ".lead", /together 280\u202f000,00/);
  await settle(page);
  await workOut(page, "120.000 240.000");
  await told(page, ".found thead", /120\u202f000,00\s+240\u202f000,00/);
  expect("no cell is another", await value(page, "rows.1.claim"), "300000");
  await openText(page, `{"coop-page":1,"document":${estateOf(290000)},"entry":",","mark":",","thousands":"."}`);
  await told(page, ".lead", /together 290\.000,00/);
  await page.run("location.hash = '#costs'");
  await told(page, ".lead", /together 12\.00/); // as in its own cells, whatever the case before shows
}]);

const ROWS = ["5 3 2 10 9 6 16", "5,3,2,10,9,6,16", "5, 3, 2, 10, 9, 6, 16", "5\t3\t2\t10\t9\t6\t16", "5;3;2;10;9;6;16",
  "[1] 5 3 2 10\n[5] 9 6 16", "c(5, 3, 2, 10, 9, 6, 16)", "0 5 3 2 10 9 6 16"];

const lists = [
  ["a row of numbers is a list of groups", "gains", async (page, expect) => {
    for (const text of ROWS) {
      await useList(page, text);
      await settle(page);
      expect(text, await page.text(".lead"), /Player 1 gets .*Player 2 gets .*Player 3 gets .*together 16.00/);
      const nobody = "Number 1, 0, was left out, as that of the group of nobody. ";
      const number = text.startsWith("0 ") ? `${nobody}Number 5` : "Number 4";
      const said = `Read by size: 3 players, 7 groups. ${number}, 10, is that of Player 1 + Player 2.`;
      expect(text, await message(page), said);
    }
    await useList(page, "1\t2\t3\n4\t5\t6");
    expect("two rows", await message(page), /2 rows of 3 numbers, so 2 games/);
    await useList(page, "A\t5\t7\nB\t3\t7\nA+B\t9\t7");
    expect("three columns", await message(page), /Nothing was taken yet\. Which column is the gain\?/);
    expect("and nothing changed", await page.text(".lead"), /together 16.00/);
  }],

  ["a thousand rows under a heading are told as games", "gains", async (page, expect) => {
    const rows = Array.from({ length: 1000 }, (_, k) => `${k + 1};0;0;0;4;5;6;${k + 9}`).join("\n");
    await useList(page, `id;v1;v2;v3;v12;v13;v23;v123\n${rows}`);
    expect("told", await message(page), /1000 rows of 7 numbers, so 1000 games. One game at a time here: paste/);
    await useList(page, `v1;v2;v3;v12;v13;v23;v123\n${rows.replace(/^\d+;/gm, "")}`);
    expect("without their names", await message(page), /1000 rows of 7 numbers, so 1000 games/);
    expect("and nothing changed", await page.text(".lead"), /together 120.00/);
  }],

  ["a row of numbers, pasted into a cell", "gains", async (page, expect) => {
    await page.paste('[data-cell="numbers.1"]', "5\t3\t2\t10\t9\t6\t16");
    await page.until("document.querySelector('.lead')?.textContent.includes('together 16')");
    await page.paste('[data-cell="numbers.2"]', "5\t3\t2");
    expect("refused", await message(page), /A cell takes one number[\s\S]*nothing was pasted/);
    expect("kept", await value(page, "numbers.2"), "3");
  }],

  ["a list in the wrong order", "gains", async (page, expect) => {
    await useList(page, "0\n0\n0\n6\n2\n2\n12", "mask");
    await settle(page);
    expect("a hint", await message(page), /Read by masks[\s\S]*in the other order none has/);
    await page.click("Read it by size");
    await told(page, MESSAGE, /^Read by size/);
    await settle(page);
    expect("by size", await message(page), /Read by size[\s\S]*Number 4, 6, is that of Player 1 \+ Player 2/);
    expect("answer", await page.text(".lead"), /4.50, .*4.50 .*3.00/);
    await page.click("Undo “Read it by size”");
    await settle(page);
    expect("undone", await page.text(".lead"), /2.00, .*2.00 .*8.00/);
  }],

  ["names of the worked example don't stay with other numbers", "gains", async (page, expect) => {
    await page.paste('[data-cell="numbers.1"]', "1\n2\n3\n4\n5\n6\n9");
    await settle(page);
    expect("names", await page.text(".lead"), /Player 1 gets/);
    await page.type("names.0", "Ann");
    await page.paste('[data-cell="numbers.1"]', "1\n2\n3\n4\n5\n6\n9");
    await settle(page);
    expect("but those that were typed do", await page.text(".lead"), /Ann gets/);
  }],

  ...[
    ["runway", "rows.0.cost", "2\n4\n6", ".lead", /User 1 pays/, "2\n4", /User 1 pays/],
    ["estate", "rows.0.claim", "1000\n2000\n3500", ".lead", /Claimant 1 gets/, "1000\n2000", /Claimant 1 gets/],
    ["network", "links.0-1", "1\n2\t3\n4\t5\t6\n7\t8\t9\t10", ".lead", /Place 1 pays/, "1\n2\t3", /Place 1 pays/],
    ["market", "values.0.0", "1\t9\n9\t1\n3\t3", ".trades", /Buyer 1 – Seller 2/, "1\t9\n9\t1", /Buyer 1 – Seller 2/],
  ].map(([id, cell, all, where, plain, part, own]) => {
    return [`names of the worked example don't stay with other numbers: ${id}`, id, async (page, expect) => {
      if (id === "estate") await page.type("estate", "1500");
      await page.paste(`[data-cell="${cell}"]`, part);
      await settle(page);
      expect("with a part", await page.text(where), own);
      await page.paste(`[data-cell="${cell}"]`, all);
      await settle(page);
      expect("plain names", await page.text(where), plain);
      await page.type(id === "market" ? "buyers.0" : id === "network" ? "names.0" : "rows.0.name", "Zoe");
      await page.paste(`[data-cell="${cell}"]`, all);
      await settle(page);
      expect("but those that were typed do", await page.text(where), /Zoe/);
      await page.click("Clear all");
      await page.paste(`[data-cell="${cell}"]`, all);
      await page.click("Undo “Paste”");
      expect("undone", await value(page, cell), "");
    }];
  }),

  ["headings of a list are told, and a row with a bad number is none", "runway", async (page, expect) => {
    await page.click("Clear all");
    await page.paste('[data-cell="rows.0.name"]', "Aer\t\t3\nBee\t40\t2\nCargo\t60\t1");
    await noted(page, /1 cell is still empty/);
    expect("kept", `${await value(page, "rows.0.name")} ${await value(page, "rows.0.count")}`, "Aer 3");
    expect("nothing told", await page.text("#case .pasted"), "");
    await page.click("Clear all");
    const sheet = "Airline\tType\tLandings\tCost\nAer\tA320\t3\t20.50\nBee\tB737\t2\t40\nCargo\tA300\t1\t60";
    await page.paste('[data-cell="rows.0.name"]', sheet);
    await settle(page);
    expect("by its headings", `${await value(page, "rows.0.cost")} ${await value(page, "rows.0.count")}`, "20.50 3");
    const told = "The first row was taken as headings: “Airline” is “User”, “Type” is “Type”, “Landings” is "
      + "“Uses”, “Cost” is “Needs alone”.";
    expect("told", await page.text("#case .pasted"), told);
  }],

  ["row numbers of another program are left out", "estate", async (page, expect) => {
    await page.click("Clear all");
    await page.type("estate", "300");
    const sheet = '"","who","claim"\n"1","Adler",100\n"2","Brandt",200\n"3","Chopra",300';
    await page.paste('[data-cell="rows.0.name"]', sheet);
    await page.click("No, it counts"); // 300 is the sum of the others
    await settle(page);
    expect("names", await page.text(".lead"), /^Adler gets 50.00, Brandt gets 100.00 and Chopra gets 150.00/);
    const told = /^The first column, of row numbers, was left out. The first row was taken/;
    expect("told", await page.text("#case .pasted"), told);
  }],

  ["numbers that are too fine, and in scientific notation", "gains", async (page, expect) => {
    await useList(page, "1e-05\n0.94786536\n2E0\n3.123456\n4\n5\n6.5");
    await noted(page, /too fine/);
    await page.click("All times a power of ten");
    await page.until("document.querySelector('#case .note')?.textContent.includes('divide them by')");
    await settle(page);
    expect("exact", await value(page, "numbers.2"), "94786536");
    await page.click("Undo “All times a power of ten”");
    await noted(page, /too fine/);
    await page.click("Round all to four decimals");
    await settle(page);
    expect("rounded", await value(page, "numbers.2"), "0.9479");
    expect("told", await page.text("#case .note"), /3 numbers were rounded to four decimals/);
  }],
];

const fills = [
  ["filled groups follow what is typed", "costs", async (page, expect) => {
    await page.type("numbers.3", "");
    await noted(page, /1 cell is still empty/);
    expect("when which is right", await page.text("#case"), /such a group would go in parts, .* of a larger group/);
    await page.click("Fill the empty ones");
    await settle(page);
    expect("filled", await value(page, "numbers.3"), "15.5");
    const counted = /The shares of .*“By what each adds” and “The agencies’ rule” rest on filled numbers/;
    expect("which count it", await page.text("#answer-body .filled-note"), counted);
    await page.type("numbers.1", "6");
    await page.until(`document.querySelector('[data-cell="numbers.3"]').value === "13.5"`);
    await settle(page);
    expect("document", await made(page), /\[\["Sales","Ops"\],"27\/2"\]/);
    const marked = await page.run(`document.querySelector('[data-cell="numbers.3"]').classList.contains("filled")`);
    expect("marked", marked, true);
    const told = /Of the 7 numbers 1 wasn’t given: the page took each group’s cheapest split/;
    expect("told with the answer", await page.text("#answer-body"), told);
    expect("told with the evidence", await page.text("#evidence"), told);
    await page.run("dispatchEvent(new Event('beforeprint'))");
    expect("told on paper", await page.run("document.getElementById('sheet').textContent"), told);
    await page.type("numbers.3", "12");
    await settle(page);
    expect("typed over", await page.run("document.querySelectorAll('.filled').length"), 0);
    expect("no longer told", told.test(await page.text("#answer-body")), false);
  }],

  ["what is divided is never filled", "costs", async (page, expect) => {
    await page.type("numbers.7", "");
    await noted(page, /1 cell is still empty/);
    await page.click("Fill the empty ones");
    await told(page, MESSAGE, /What all together cost has to be typed/);
    expect("empty", await value(page, "numbers.7"), "");
    await page.type("numbers.7", "12");
    await page.type("numbers.3", "");
    await page.click("Fill the empty ones");
    await settle(page);
    await page.run(`document.querySelector('[aria-label="Remove Legal"]').click()`);
    await noted(page, /1 cell is still empty/);
    expect("a player leaves", await value(page, "numbers.3"), "");
    await told(page, MESSAGE, /What all together cost has to be typed/);
    await page.click("Undo “Remove Legal”");
    await settle(page);
    expect("undone", await value(page, "numbers.3"), "15.5");
  }],

  ["filled links follow what is typed", "network", async (page, expect) => {
    await page.click("Clear all");
    await page.click("Add a place");
    for (const [cell, text] of [["0-1", "5"], ["1-2", "3"], ["1-3", "4"]]) await page.type(`links.${cell}`, text);
    await page.click("A link that can’t be built");
    await page.click("Fill in the cheapest ways");
    await settle(page);
    expect("a way", await value(page, "links.2-3"), "7");
    await page.type("links.1-2", "9000");
    await page.until(`document.querySelector('[data-cell="links.2-3"]').value === "9004"`);
    await settle(page);
    expect("told", await page.text("#answer-body"), /Of the 6 links 3 can’t be built[\s\S]*3 by the cheapest way/);
    await page.click("Make a table of costs");
    await page.until("location.hash === '#costs'");
    await settle(page);
    expect("of real links alone", await value(page, "numbers.6"), "9009");
  }],

  ["a network with headings, and links that don't exist", "network", async (page, expect) => {
    await page.click("Clear all");
    await page.paste('[data-cell="names.0"]', "Town\tSource\tAston\nAston\t10\t\nBray\t-\t1");
    await noted(page, /1 cell is still empty/);
    expect("names", `${await value(page, "names.0")} ${await value(page, "names.1")}`, "Aston Bray");
    expect("links", `${await value(page, "links.0-1")} ${await value(page, "links.1-2")}`, "10 1");
    await page.click("Clear all");
    await page.paste('[data-cell="names.0"]', "x\tSource\tA\tB\nSource\t0\t5\t8\nA\t5\t0\t2\nB\t8\t2\t0");
    await settle(page);
    expect("a square", await page.text(".lead"), /A pays .*B pays .*together 7.00/);
  }],
];

export const entering = [...marks, ...lists, ...fills,
  ["what was typed comes back by Undo", "estate", async (page, expect) => {
    await page.click("Clear all");
    await page.type("estate", "200");
    await page.type("rows.0.claim", "300");
    await page.click("Fill in the worked example");
    await settle(page);
    await page.click("Undo “Fill in the worked example”");
    await settle(page);
    expect("the last step", `${await value(page, "estate")} ${await value(page, "rows.0.claim")}`, "200 300");
    await page.click("Redo “Fill in the worked example”");
    await settle(page);
    expect("and again", await value(page, "estate"), "2000");
    for (const step of ["Fill in the worked example", "Typing", "Clear all"]) await page.click(`Undo “${step}”`);
    await settle(page);
    const isLeft = /Undo/.test(await page.text("#case .tools.bottom"));
    expect("step by step, to the example", `${await value(page, "estate")} ${isLeft}`, "2000 false");
    for (const step of ["Clear all", "Typing"]) await page.click(`Redo “${step}”`);
    expect("and on", `${await value(page, "estate")} ${await value(page, "rows.0.claim")}`, "200 300");
  }],
  ["a player added by mistake goes, and what was typed stays", "costs", async (page, expect) => {
    await page.click("Clear all");
    await page.type("names.0", "Anke");
    await page.click("Add a player");
    await page.click("Undo “Add a player”");
    const names = "[...document.querySelectorAll('[data-cell^=\"names.\"]')].map((cell) => cell.value).join()";
    expect("the names", await page.run(names), /^Anke,(,)?$/);
    expect("what else can be undone", await page.text("#case .tools.bottom"), /Undo “Typing”.*Redo “Add a player”/);
  }],
];
