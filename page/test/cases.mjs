// Scenarios: each case, typed and pasted, and what its parts answer.
import { noted, READY, settle, told, showExact } from "./harness.mjs";

const WORDS = /program’s checker says yes[\s\S]*own checker says yes/;

async function typeAll(page, cells) {
  for (const [cell, text] of Object.entries(cells)) await page.type(cell, text);
}

export const casesTyped = [
  ["an accountant pastes headings and decimal commas", "runway", async (page, expect) => {
    await page.click("Clear all");
    const sheet = "Airline\tCost\tLandings\r\nNord\t1.250,50\t4\r\nSüd\t980,25\t10\r\nOst\t2.000\t1\r\n";
    await page.paste('[data-cell="rows.0.name"]', sheet);
    await settle(page);
    expect("settled by the others", await page.text("#case .faults"), /is read as the whole number[^“]*“.*shows that/);
    const lead = /Nord pays .* for 4 uses, Süd pays .* and Ost pays .*together 2\.000,00/;
    expect("lead", await page.text(".lead"), lead);
    expect("words", await page.text(".words"), WORDS);
  }],

  ["sums of an airline with two kinds of landings", "runway", async (page, expect) => {
    await typeAll(page, { "rows.3.name": "Aer", "rows.3.cost": "30", "rows.3.count": "2" });
    await settle(page);
    expect("subtotal", await page.text(".subtotal"), /Aer, together/);
    expect("rows", await page.text(".shares tbody"), /Aer needing 20.5[\s\S]*Aer needing 30/);
    await showExact(page);
    expect("of one landing", await page.text(".shares tbody"), /3 × \d+\.\d\d \(\d+\/\d+\)/);
  }],

  ["an airline of several kinds of landings, opened again", "document", async (page, expect) => {
    const names = '["Aer 1","Aer 2","Aer 3","Aer 4","Aer 5","Aer 6","Bee"]';
    const game = `{"class":"airport","costs":[20,20,20,40,40,60,60],"names":${names}}`;
    await page.fill("#document textarea", `{"game":${game}}`);
    await page.until("document.querySelector('.made pre')");
    await settle(page);
    expect("rows", await page.run("document.querySelector('[data-cell=\"rows.2.name\"]').value"), "Aer");
    await showExact(page);
    expect("the exact sum, rounded", await page.text(".subtotal"), /Aer, together\s+45\.83\s*275\/6/);
    expect("lead", await page.text(".lead"), "Aer pays 45.83 for 6 uses and Bee pays 14.17: together 60.00.");
    for (const [r, text] of ["30", "30", "0", "0"].entries()) await page.type(`proposal.${r}`, text);
    await settle(page);
    const verdict = /all uses that need at most 40.00 would do better by themselves, by 20.00/;
    expect("a group by what it needs", await page.text(".shares tfoot"), verdict);
  }],

  ["landings are named everywhere as in the table", "runway", async (page, expect) => {
    await typeAll(page, {
      "rows.0.cost": "10", "rows.0.count": "2", "rows.1.name": "Aer", "rows.1.cost": "30",
      "proposal.0": "16", "proposal.1": "10", "proposal.2": "34",
    });
    await settle(page);
    await page.until("document.querySelector('.comparison')");
    expect("table", await page.text(".shares tbody"), /Aer needing 10\s+2 uses[\s\S]*Aer needing 30\s+2 uses/);
    expect("reasons", await page.text("#why"), /Aer needing 10 \(2 uses\) pay/);
    expect("a verdict", await page.text(".shares tfoot"), /Aer needing 10 \(2 uses\) would do better by .*, by 6.00/);
    await page.run("dispatchEvent(new Event('beforeprint'))");
    const [reasons] = (await page.run("document.getElementById('sheet').textContent")).split("What is agreed");
    expect("paper", reasons, /Why: fairest [^(]*\(the nucleolus\)[\s\S]*Aer needing 10 \(2 uses\) pay/);
    const all = await page.run("['answer', 'why'].map((id) => document.getElementById(id).textContent).join()");
    expect("made-up names", /Aer \d/.exec(all + reasons), null);
  }],

  ["the sentence, the sums and the rows of airlines agree", "runway", async (page, expect) => {
    for (const [r, [name, cost, count]] of [["Aer", 9, 2], ["Bee", 9, 1], ["Bee", 6, 1], ["Aer", 10, 2]].entries()) {
      await typeAll(page, { [`rows.${r}.name`]: name, [`rows.${r}.cost`]: `${cost}`, [`rows.${r}.count`]: `${count}` });
    }
    await settle(page);
    const cents = (text) => Math.round(100 * Number(text)), lead = await page.text(".lead");
    const lines = await page.run(`[...document.querySelectorAll(".shares tbody tr")].map((row) => [row.className,
      row.querySelector("th").textContent.slice(0, 3), row.querySelector("td:not(.context)").firstChild.textContent])`);
    for (const airline of ["Aer", "Bee"]) {
      const own = lines.filter(([, name]) => name === airline), [, told] = RegExp(`${airline} pays (\\S+)`).exec(lead);
      const rows = own.filter(([kind]) => !kind).reduce((sum, [, , text]) => sum + cents(text), 0);
      expect(`rows of ${airline}`, rows, cents(told));
      expect(`sum of ${airline}`, own.find(([kind]) => kind === "subtotal")[2], told);
    }
    expect("rounded", lines.some(([, , text]) => text === "3.34"), true);
    const first = /What each user pays for all its rows is rounded first, and then the rows, so that they add/;
    expect("and told", await page.run("document.querySelector('#why .moved').textContent"), first);
  }],

  ["64 landings, and more", "runway", async (page, expect) => {
    await typeAll(page, { "rows.0.count": "59", "rows.1.count": "4" });
    await settle(page);
    expect("lead", await page.text(".lead"), /Aer pays .* for 59 uses/);
    expect("no Shapley shares above 32", await page.text(".shares thead"), /^(?![\s\S]*By what each adds)/);
    const missing = /shares per head up to 8; an overrun, .* up to 12.$/;
    expect("and it is told", await page.text(".missing"), missing);
    expect("words", await page.text(".words"), WORDS);
    await page.type("rows.1.count", "9");
    await told(page, "#answer-body", /These are 69 uses, and the program takes 64[\s\S]*do NOT come from the/);
    await page.click("Why the formula is right");
    expect("by theorems", await page.text(".beyond .notice"), /payments_are_the_nucleolus[\s\S]*shapley_is_by_step/);
    expect("no evidence", await page.run("document.getElementById('evidence').hidden"), true);
  }],

  ["an estate above the claims, and a bad number", "estate", async (page, expect) => {
    await page.type("estate", "99999");
    await noted(page, /claims add to less than the estate/);
    await typeAll(page, { estate: "2000", "rows.1.claim": "80O" });
    await noted(page, /“80O”/);
    const invalid = "document.querySelector('[data-cell=\"rows.1.claim\"]').getAttribute('aria-invalid')";
    expect("marked", await page.run(invalid), "true");
    await page.type("rows.1.claim", "800");
    await settle(page);
    expect("lead", await page.text(".lead"), /Adler gets 600.25, Brandt gets 400.00 and Chopra gets 999.75: together/);
    expect("rule", await page.text("#why"), /the Talmud’s[\s\S]*Adler gets 600.25/);
  }],

  ["the Talmud's estates, one by one and side by side", "estate", async (page, expect) => {
    await typeAll(page, { "rows.0.claim": "100", "rows.1.claim": "200", "rows.2.claim": "300" });
    for (const [estate, wanted] of [["100", /33.34, .*33.33 .*33.33/], ["300", /50.00, .*100.00 .*150.00/]]) {
      await page.type("estate", estate);
      await settle(page);
      expect(`estate ${estate}`, await page.text(".lead"), wanted);
    }
    await page.click("Several amounts side by side");
    await page.type("amounts", "100; 200; 400; 9999; x");
    await page.click("Work it out", "document.querySelector('.other')");
    await page.until("document.querySelector('.found table')");
    const found = await page.text(".found");
    expect("columns", found, /Adler\s+33.34\s+50.00\s+50.00[\s\S]*Chopra\s+33.33\s+75.00\s+225.00/);
    expect("faults", found, /9999.00: The claims add to less[\s\S]*“x” is no number/);
  }],
];

export const tables = [
  ["a proposal, blocked and then not", "costs", async (page, expect) => {
    await typeAll(page, { "proposal.0": "8", "proposal.1": "2", "proposal.2": "1" });
    await settle(page);
    expect("missing", await page.text(".shares tfoot"), /1.00 is missing/);
    const verdict = ".shares .verdict td.proposed";
    await page.type("proposal.2", "2");
    await settle(page);
    expect("in the core", await page.text(verdict), /No/);
    await typeAll(page, { "proposal.0": "9", "proposal.2": "1" });
    await settle(page);
    expect("blocked", await page.text(verdict), /(Sales|Sales and Ops) would do better .*, by 1.00/);
    await page.until("document.querySelector('.comparison')");
    await page.click("Your proposal beside “Fairest to those who gain least”");
    expect("compared", await page.text(".comparison"), /At place 1 of 6 they differ[\s\S]*treats that group worse/);
    await page.click("equal parts");
    await settle(page);
    expect("equal", await page.run(`document.querySelector('[data-cell="proposal.0"]').value`), "4.00");
    await page.click("fairest to those who gain least, rounded");
    await settle(page);
    expect("sum", await page.text(".shares .sum .proposed"), /12.00/);
  }],

  ["who has a stronger hold, and who joins late", "gains", async (page, expect) => {
    const holds = /hold on another\?\s+–?\s*Fairest [\w ]+: No\s+–?\s*By what each adds: Yes, for example pianist on /;
    expect("holds", await page.text(".holds"), holds);
    expect("convex", await page.text("#why"), /The more have joined, the more \(no less\) each adds/);
    await page.type("numbers.7", "100");
    await settle(page);
    const late = /worth less to join late: drummer adds 30 joining singer, and 20 joining/;
    expect("not convex", await page.text("#why"), late);
  }],

  ["per head", "gains", async (page, expect) => {
    await page.choose("measure", "per-head");
    await settle(page);
    expect("told", await page.text("#why"), /counted per member/);
    expect("document", await page.run("document.querySelector('.made pre').textContent"), /"excess":"per-head"/);
  }],

  ["no imputation and an empty core", "gains", async (page, expect) => {
    await typeAll(page, {
      "numbers.1": "1", "numbers.2": "1", "numbers.3": "3", "numbers.4": "1", "numbers.5": "3", "numbers.6": "3",
      "numbers.7": "2",
    });
    await settle(page);
    const notice = /there is no nucleolus[\s\S]*some group could do better by itself/;
    expect("notice", await page.text("#answer .notice"), notice);
    await showExact(page);
    expect("column", await page.text(".shares thead"), /prenucleolus/);
  }],

  ["an overrun, by each rule", "costs", async (page, expect) => {
    await page.click("If the whole costs more than planned");
    await page.type("more", "3");
    await page.click("Work it out", "document.querySelector('.other')");
    await page.until("document.querySelector('.found table')");
    const found = await page.text(".found");
    expect("Shapley", found, /“By what each adds”: all bear the same, as in every case, 1.00 each/);
    expect("per head", found, /than alone, per head”: all bear the same, as in every case, 1.00 each/);
    expect("table", found, /together\s+12.00\s+15.00\s+\+3.00/);
  }],

  ["a list with a group forgotten", "costs", async (page, expect) => {
    await page.click("Paste a whole list");
    const list = ["Sales;8", "Ops;7,50", "Legal;6", "IT;5", "Sales+Ops;10", "Sales+Legal;10", "Sales+IT;10",
      "Ops+Legal;10,25", "Ops+IT;10", "Legal+IT;10", "Sales+Ops+Legal;12", "Sales+Ops+IT;12", "Sales+Legal+IT;12",
      "Sales+Ops+Legal+IT;13"];
    await page.fill("details.inline textarea", list.join("\n"));
    await page.click("Use this list");
    await noted(page, /1 cell is still empty/);
    expect("read", await page.text("#case .note[role=status]"), /4 players, 14 groups; 1 group/);
    await page.type("numbers.14", "11");
    await settle(page);
    expect("lead", await page.text(".lead"), /together 13.00/);
  }],

  ["a comma in front of decimals, in sentences too", "costs", async (page, expect) => {
    await page.run(`(() => {
      const marks = document.querySelectorAll("#answer-settings select")[1];
      marks.value = ",";
      marks.dispatchEvent(new Event("change"));
    })()`);
    await settle(page);
    expect("table", await page.text(".shares tbody"), /3,88/);
    expect("sentences", await page.text("#why"), /2,125 less[\s\S]*Sales pays 3,875/);
    expect("no points", /\d\.\d/.test(await page.text("#why")), false);
  }],

  ["groups that were never costed", "costs", async (page, expect) => {
    await typeAll(page, { "numbers.5": "", "numbers.6": "" });
    await noted(page, /2 cells are still empty/);
    await page.click("Fill the empty ones by the cheapest split");
    await settle(page);
    const cell = (mask) => page.run(`document.querySelector('[data-cell="numbers.${mask}"]').value`);
    expect("Sales + Legal", await cell(5), "14");
    expect("Ops + Legal", await cell(6), "13.5");
    expect("note", await page.text("#case .note[role=status]"), /2 groups were filled, each by its cheapest split/);
  }],

  ["a vector of another program, in both orders", "gains", async (page, expect) => {
    for (const [order, wanted] of [["size", /4.50, .*4.50 .*3.00/], ["mask", /2.00, .*2.00 .*8.00/]]) {
      const isOpen = await page.run("document.querySelector('.more-tools details').open");
      if (!isOpen) await page.click("Paste a whole list");
      await page.fill("details.inline textarea", "0\n0\n0\n6\n2\n2\n12");
      await page.run(`document.querySelector("details.inline select").value = "${order}"`);
      await page.click("Use this list");
      await page.until("!document.querySelector('#case .note[role=status]').textContent.startsWith('Reading')");
      await settle(page);
      expect(order, await page.text(".lead"), wanted);
    }
  }],
];

export const otherCases = [
  ["links that can't be built, three ways", "network", async (page, expect) => {
    await page.click("Clear all");
    await page.click("Add a place");
    await typeAll(page, { "links.0-1": "5", "links.1-2": "3", "links.1-3": "4" });
    await noted(page, /3 cells are still empty/);
    await page.click("A link that can’t be built");
    await page.click("make a table of costs of it");
    await page.until("document.body.dataset.view === 'case' && location.hash === '#costs'");
    await settle(page);
    expect("a table of costs", await page.text(".lead"), /1 pays 1.67, .* pays 4.66 .*5.67|1.67.*4.67.*5.66/);
    await page.run("history.back()");
    await page.until("location.hash === '#network'");
    await noted(page, /3 cells are still empty/);
    await page.click("A link that can’t be built");
    await page.click("Fill in the cheapest ways");
    await page.until(READY);
    expect("ways", await page.text(".lead"), /pays 0.00, .*pays 5.50 .*pays 6.50/);
    expect("what was filled", await page.run("document.querySelector('.named').textContent"), /Place 2 – Place 3 7/);
    await typeAll(page, { "links.0-2": "", "links.0-3": "", "links.2-3": "", without: "20" });
    await page.click("Fill it in");
    await settle(page);
    expect("a number", await page.text(".lead"), /pays −11.50, .*pays 11.50 .*pays 12.00/);
  }],

  ["a network, pasted as a square", "network", async (page, expect) => {
    await page.click("Clear all");
    await page.paste('[data-cell="links.0-1"]', "0\t10\t8\n10\t0\t1\n8\t1\t0");
    await settle(page);
    expect("bird", await page.text(".shares"), /together\s+9.00/);
    expect("picture", await page.run("document.querySelectorAll('.plan svg circle').length"), 3);
  }],

  ["a market, pasted with names", "market", async (page, expect) => {
    await page.click("Clear all");
    await page.paste('[data-cell="buyers.0"]', "Ann\t5\t8\nBen\t7\t6\nCem\t6\t6");
    await settle(page);
    expect("pairs", await page.text(".trades"), /Ann – Seller 2\s+8.00\s+6.00\sto\s8.00\s+7.00/);
    expect("idle", await page.text("#answer-body"), /Without a trade: Cem/);
    await page.type("values.2.0", "7");
    const ties = /There are ties: with Cem – Seller 1 in the place of others, all gain as much together/;
    await told(page, "#answer", ties);
  }],

  ["a large market has prices alone", "market", async (page, expect) => {
    await page.click("Clear all");
    const rows = Array.from({ length: 20 }, (_, i) => Array.from({ length: 20 }, (_, j) => (i * 7 + j * 11) % 97));
    await page.paste('[data-cell="values.0.0"]', rows.map((row) => row.join("\t")).join("\n"));
    await page.until("document.querySelectorAll('.trades tbody tr').length > 10");
    expect("evidence", await page.text("#evidence"), /come without a certificate/);
  }],

  ["votes by one quota", "votes", async (page, expect) => {
    expect("power", await page.text(".power"), /Luxembourg\s+no influence/);
    await page.type("quota", "17");
    await settle(page);
    expect("veto", await page.text(".power"), /Luxembourg\s+has a veto/);
  }],

  ["votes by two quotas at once", "votes", async (page, expect) => {
    await page.click("Clear all");
    await page.paste('[data-cell="rows.0.name"]', "A\t40\nB\t30\nC\t20\nD\t10");
    await page.type("quota", "51");
    await settle(page);
    await page.click("Two quotas at once");
    await page.type("secondQuota", "3");
    await settle(page);
    const made = await page.run("document.querySelector('.made pre').textContent");
    expect("a table", made, /"class":"table".*"worths":\[0,0,0,0,0,0,1,0,0,0,1,0,1,1,1\]/);
    expect("columns", await page.text(".power thead"), /First votes\s+of all\s+Second votes\s+of all\s+Power/);
    expect("power", await page.text(".power tbody"), /A\s+40\s+40.0\s%\s+1\s+25.0\s%\s+25.0\s%/);
    const drawn = "document.querySelector('.powers svg')";
    const legend = /part of the first votespart of the second votes/;
    expect("both in the picture", await page.run(`${drawn}.textContent`), legend);
    expect("a mark of each", await page.run(`${drawn}.querySelectorAll(".adds, .alone").length`), 2 + 2 * 4);
    const told = /A: power 25.0\s%, first votes 40.0\s%, second votes 25.0\s%/;
    expect("and told", await page.run(`${drawn}.getAttribute("aria-label")`), told);
    await page.click("Only one quota");
    await settle(page);
    expect("back", await page.run("document.querySelector('.made pre').textContent"), /"class":"voting"/);
  }],

  ["names that would forge a row", "estate", async (page, expect) => {
    await typeAll(page, { "rows.0.name": "Ad\u200bler", "rows.1.name": "Adler", "rows.2.name": "a\u202eb" });
    await settle(page);
    const notes = await page.text("#case .faults");
    expect("hidden", notes, /Name 1 has characters that can’t be seen; they are shown as “Ad\\u200bler”/);
    expect("alike", notes, /Names 1 and 2 look alike, as “Adler”/);
    const shown = await page.text("#answer");
    expect("escapes", shown, /Ad\\u200bler[\s\S]*a\\u202eb/);
    expect("nothing hidden", /[\u200b\u202e]/.test(shown), false);
  }],

  ["back, and what was typed is still there", "", async (page, expect) => {
    await page.click("An estate or a bankruptcy");
    await page.until(READY);
    await page.type("estate", "1500");
    await page.click("All cases");
    await page.click("Votes");
    await page.until(READY);
    await page.run("history.go(-2)");
    await page.until("location.hash === '#estate' && document.querySelector('[data-cell=\"estate\"]')");
    expect("estate", await page.run(`document.querySelector('[data-cell="estate"]').value`), "1500");
  }],
];
