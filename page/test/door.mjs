// Scenarios: what a paste puts into the cells, and what stays there; what is asked; what is kept, copied and opened.
import { noted, READY, settle, told } from "./harness.mjs";

const CELLS = `[...document.querySelectorAll("#case [data-cell]")].filter((one) => one.value)
  .map((one) => one.value).join("|")`, cells = (page) => page.run(CELLS);
const sheetOf = (page) => page.run(`(dispatchEvent(new Event("beforeprint")),
  document.getElementById("sheet").textContent)`);
/** Pastes into the first cell of a list, and waits for what is told. */
async function pasted(page, rows, cell = "rows.0.name") {
  await page.paste(`[data-cell="${cell}"]`, rows.map((row) => row.join("\t")).join("\n"));
}

const pastes = [
  ["door: votes that are pasted over the example stand alone", "votes", async (page, expect) => {
    await pasted(page, [["Party", "Seats"], ["Red", 45], ["Blue", 35], ["Green", 20]]);
    await noted(page, /1 cell is still empty/);
    expect("the cells", await cells(page), "Red|45|Blue|35|Green|20");
    await page.type("quota", "51");
    await settle(page);
    expect("no stranger", /Belgium|Luxembourg/.test(await page.text("#answer-body")), false);
  }],
  ["door: an estate and a runway, too", "estate", async (page, expect) => {
    await pasted(page, [["Anna", 500], ["Ben", 600]]);
    await noted(page, /1 cell is still empty/);
    expect("no estate", await cells(page), "Anna|500|Ben|600");
    await page.run("location.hash = '#runway'");
    await page.until(`document.querySelector('[data-cell="rows.0.cost"]') && ${READY}`);
    await pasted(page, [["North", 30], ["South", 50]]);
    await told(page, "#answer .lead", /North pays 15\.00 and South pays 35\.00: together 50\.00/);
    expect("told", await page.text("#case .pasted"), /No “Uses” were pasted: 1 was put into each/);
  }],
  ["door: a table of groups in a name, and a market in any corner", "costs", async (page, expect) => {
    await page.paste('[data-cell="names.0"]', "A\t10\nB\t8\nA+B\t12");
    await told(page, "#answer .lead", /A pays 7\.00 and B pays 5\.00/);
    expect("names", await page.run(`document.querySelector('[data-cell="names.0"]').value`), "A");
    await page.run("location.hash = '#market'");
    for (const corner of ["sellers.0", "values.0.0"]) {
      await page.until(`document.querySelector('[data-cell="${corner}"]')`);
      await page.paste(`[data-cell="${corner}"]`, "\thouse\tflat\nDora\t5\t8\nEmil\t7\t");
      await noted(page, /1 cell is still empty/);
      expect(corner, await cells(page), "house|flat|Dora|5|8|Emil|7");
      await page.click("The empty pairs can’t trade: 0");
      await told(page, "#answer .lead", /Dora – flat and Emil – house trade: together they gain 15\.00/);
      await page.click("Fill in the worked example");
    }
  }],
  ["door: what is pasted over the example takes its place, or nothing is taken", "costs", async (page, expect) => {
    const all = { "names.0": ["Ann\nBob\nCleo\nDirk", "Ann|Bob|Cleo|Dirk"], "numbers.3": ["8\n9", /othing was taken/],
      "numbers.1": ["1\t8\n2\t7\n1+2\t10\n3\t6\n1+3\t9\n2+3\t11\n1+2+3\t12", "1|2|3|8|7|6|10|9|11|12"],
      "buyers.0": ["Ann\t5\t–\t1\nBen\t7\t6\t2", "Ann|5|1|Ben|7|6|2"], "values.1.1": ["1\n2", /othing was taken/],
      "links.0-1": ["1\n2\t3", "1|2|3|0"], "links.0-2": ["7\n8\n9", /othing was taken/] };
    for (const [cell, [text, wanted]] of Object.entries(all)) {
      const kind = { b: "market", v: "market", l: "network" }[cell[0]] ?? "costs", place = `[data-cell="${cell}"]`;
      await page.run(`location.hash = '#${kind}'`);
      await page.until(`document.querySelector('${place}')`);
      await page.click("Fill in the worked example");
      await page.paste(place, text);
      await page.until(wanted instanceof RegExp ? `${wanted}.test(document.querySelector("#case").textContent)`
        : `${CELLS} === ${JSON.stringify(wanted)}`);
      expect(cell, /[1-9]\|/.test(await cells(page)), cell !== "names.0");
    }
  }],
  ["door: two thirds, and more than half", "votes", async (page, expect) => {
    await page.type("rows.0.votes", "41"); // of 54
    for (const [text, least] of [["2/3", 36], ["two thirds", 36], ["66 2/3 %", 36], ["⅔", 36], ["more than 1/2", 28],
      ["more than half", 28], ["half", 27], ["majority", 28], ["60 %", 33]]) {
      await page.type("quota", text);
      await noted(page, new RegExp(`at least ${least}\\b`));
    }
    await page.type("quota", "3/2");
    await noted(page, /whole number/);
    expect("no answer", await page.run("document.getElementById('answer').hidden"), true);
  }],
  ["door: a runway’s savings count one runway a row", "runway", async (page, expect) => {
    await page.type("rows.1.cost", "45");
    await settle(page);
    expect("once", await sheetOf(page), /Aer saves 5\.12, Bee saves 25\.25 and Cargo saves 35\.13: together 65\.50\./);
    await page.type("rows.1.name", "Aer");
    await settle(page);
    expect("not of an airline with several rows", /Against going alone/.test(await sheetOf(page)), false);
  }],
  ["door: costs that stand where landings belong are asked about", "runway", async (page, expect) => {
    await pasted(page, [["North", 12, 1200000], ["South", 30, 900000]]);
    await noted(page, /Are “1200000” the uses of North, and does one need “12”\?/);
    expect("no answer before", await page.run("document.getElementById('answer').hidden"), true);
    await page.click("No, swap the columns");
    await settle(page);
    expect("swapped", await cells(page), "North|1200000|12|South|900000|30");
    await page.click("Undo");
    await page.click("Yes, so it is");
    await told(page, "#answer .lead", /South pays most, 18\.00/);
    await pasted(page, [["Airline", "Cost", "Landings"], ["North", 12, 1200], ["South", 30, 900]]);
    await told(page, "#answer .lead", /South pays most, 18\.01/);
    expect("headings need no question", /Are “/.test(await page.text("#case")), false);
  }],
  ["door: with types the columns keep their order", "runway", async (page, expect) => {
    const heads = "[...document.querySelectorAll('#case thead th')].map((one) => one.textContent).join()";
    expect("before", await page.run(heads), "User,Needs alone,Uses");
    await page.click("Add a column “Type”");
    expect("after", await page.run(heads), "User,Type,Needs alone,Uses");
  }],
  ["door: links in lines, with a unit", "network", async (page, expect) => {
    await page.paste('[data-cell="names.0"]', "Works-Alby: 12 km\nWorks-Brook: 15 km\nAlby-Brook: 4,5 km");
    await told(page, "#answer .lead", /Alby pays 6,75 and Brook pays 9,75: together 16,50/);
    expect("told", await page.text("#case .note"), /“km”, the unit/);
  }],
  ["door: no claims, and too few", "estate", async (page, expect) => {
    await page.type("estate", "10000");
    await told(page, "#waiting", /each gets its claim, 5\s?000 is left, and no rule is needed/);
    await page.run("location.hash = '#runway'");
    await page.until(`document.querySelector('[data-cell="rows.0.cost"]') && ${READY}`);
    await page.click("Clear all");
    await told(page, "#waiting", /still empty/);
    expect("no fault", await page.run("document.querySelectorAll('[aria-invalid]').length"), 0);
  }],
];

const questions = [
  ["door: a rounded per cent isn’t taken for two thirds", "votes", async (page, expect) => {
    await pasted(page, [["Member", "Votes"], ["Ada", 40], ["Bo", 12], ["Cy", 10], ["Di", 8], ["Ed", 7], ["Flo", 5],
      ["Gus", 4], ["Hal", 2], ["Ida", 2]]);
    await page.type("quota", "66.67 %");
    await noted(page, /“66\.67 %” asks for 61 votes, and 2\/3 for 60 votes\. Which is meant\?/);
    expect("no answer before", await page.run("document.getElementById('answer').hidden"), true);
    await page.click("2/3, 60 votes");
    await told(page, ".power", /Ada[\s\S]*59\.2/);
    await page.click("Undo");
    await page.click("Exactly that, 61 votes");
    await told(page, ".power", /Ada[\s\S]*57\.9/);
    for (const [text, least] of [["two-thirds majority", 60], ["50 % + 1", 46], ["Zweidrittelmehrheit", 60]]) {
      await page.type("quota", text);
      await noted(page, new RegExp(`at least ${least}\\b`));
    }
  }],
  ["door: three decimals throughout are asked about", "runway", async (page, expect) => {
    await pasted(page, [["Airline", "Cost", "Landings"], ["North", "1.200", 1], ["South", "2.500", 2]]);
    await noted(page, /“1\.200” can be read as 1200 or as 1\.2, .* So can one other number like it\. Which is it\?/);
    expect("no answer before", await page.run("document.getElementById('answer').hidden"), true);
    await page.click("1200, whole");
    await told(page, "#answer .lead", /together 2\.500,00/);
    await page.click("Clear all");
    await pasted(page, [["Airline", "Cost", "Landings"], ["North", "1.200", 1], ["South", "2.500", 2]]);
    await page.click("1.2, with decimals");
    await told(page, "#answer .lead", /together 2[.,]50/);
  }],
  ["door: a price for each kilometre is multiplied only if somebody says so", "network", async (page, expect) => {
    const rows = [["From", "To", "Length km", "Cost per km"], ["Works", "Alby", 10, 5], ["Works", "Brook", 8, 5],
      ["Alby", "Brook", 2, 50]];
    await pasted(page, rows, "names.0");
    const asked = /“Cost per km” looks like a price for each\. Does a link cost “Cost per km” times “Length km”\?/;
    await told(page, "#case .note", asked);
    expect("nothing is taken", await page.run(`document.querySelector('[data-cell="names.0"]').value`), "Harbour");
    await page.run("location.hash = '#estate'");
    await page.until(`document.querySelector('[data-cell="estate"]')`);
    await page.run("location.hash = '#network'");
    await told(page, "#case .note", asked); // as long as nobody has answered
    await page.click("Yes, multiply by “Length km”");
    await told(page, "#answer .lead", /together 90\.00/);
    await pasted(page, [rows[0], ["Works", "Alby", "1.200", "85,00"], ["Works", "Brook", "900", "85,00"],
      ["Alby", "Brook", "700", "110,00"]], "names.0");
    await page.click("Yes, multiply by “Length km”");
    await told(page, "#answer .lead", /together 153\s?500,00/);
    await pasted(page, rows, "names.0");
    await page.click("No, it costs “Cost per km”");
    await told(page, "#answer .lead", /together 10[.,]00/);
  }],
  ["door: one unit behind all numbers is left out, and two are asked for", "estate", async (page, expect) => {
    await pasted(page, [["Who", "Claim"], ["Anna", "500 kg"], ["Ben", "600 kg"]]);
    await told(page, "#case .pasted", /“kg” behind the numbers is taken as their unit/);
    expect("the cells", await cells(page), "Anna|500|Ben|600");
    await pasted(page, [["Who", "Claim"], ["Cem", "700 kg"], ["Dora", "8 t"]]);
    await told(page, "#case .pasted", /several units: “kg” and “t”\. Give all in one\. Nothing was taken/);
    expect("nothing was taken", await cells(page), "Anna|500|Ben|600");
    await page.run("location.hash = '#costs'");
    await page.until(`document.querySelector('[data-cell="numbers.1"]') && ${READY}`);
    await page.paste('[data-cell="numbers.1"]', "A\t10 k€\nB\t8 k€\nA+B\t12 k€");
    await told(page, "#case", /“k€” behind the numbers is taken as their unit/);
    await told(page, "#answer .lead", /A pays 7\.00 and B pays 5\.00/);
    await page.run("location.hash = '#market'");
    await page.until(`document.querySelector('[data-cell="buyers.0"]') && ${READY}`);
    await page.paste('[data-cell="buyers.0"]', "\thouse\tflat\nDora\t5 k\t8 k\nEmil\t7 k\t6 k");
    await told(page, "#answer .lead", /Dora – flat and Emil – house trade: together they gain 15\.00/);
  }],
  ["door: lines of a mail are names and numbers, unless they only count", "estate", async (page, expect) => {
    await page.paste('[data-cell="rows.0.name"]', "Anna 500\nBen Ali: 600\nCem 300");
    await noted(page, /1 cell is still empty/);
    expect("parted", await cells(page), "Anna|500|Ben Ali|600|Cem|300");
    await page.paste('[data-cell="rows.0.name"]', "Lot 1\nLot 2\nLot 3");
    await page.until(`document.querySelector('[data-cell="rows.2.name"]').value === "Lot 3"`);
    expect("names", await cells(page), "Lot 1|Lot 2|Lot 3");
    await told(page, "#case .pasted", /The rows before are gone \(Undo\)/);
  }],
  ["door: groups in other words are groups", "costs", async (page, expect) => {
    await page.paste('[data-cell="names.0"]', "Group\tCost\nNorth\t120\nSouth\t140\nEast\t100\nNorth & South\t190\n"
      + "North and East\t170\nSouth, East\t180\nAll\t250");
    await told(page, "#answer .lead", /North pays 83\.34, South pays 93\.33 and East pays 73\.33: together 250\.00/);
    expect("told", await page.text("#case"), /“North & South”, “North and East”, “South, East”, “All” are groups\./);
  }],
  ["door: a product in a cell is read as its numbers show", "estate", async (page, expect) => {
    await page.type("rows.0.claim", "1.200*85,00");
    await noted(page, /“1\.200\*85,00” is worked out: 102\s?000/);
    expect("no failure", /never should/.test(await page.text("#side")), false);
  }],
  ["door: the game of a worked example is offered, where a line is checked", "costs", async (page, expect) => {
    await page.click("Check an answer that you received");
    const agreed = "document.querySelectorAll('#verify textarea')[1].value";
    expect("not taken by itself", await page.run(agreed), "");
    await page.click("The game of my case, “Costs of each group”");
    expect("then", await page.run(agreed), /"Legal"/);
  }],
];

const messy = [
  ["door: remarks beside a list, and what nobody knows", "costs", async (page, expect) => {
    await page.paste('[data-cell="numbers.1"]', "Who\tOffer\tRemark\nKai\t14.000,00 €\t\nÖnen\t?\twith pump\n"
      + "Kai + Önen\t18.000,00 €\t");
    await told(page, "#case .note[role=status]", /“Remark” was left out\. A cell with “\?” is empty/);
    expect("the cells", await cells(page), "Kai|Önen|14.000,00 €|18.000,00 €");
  }],
  ["door: of two columns of costs, and a type that is a total", "runway", async (page, expect) => {
    const rows = [["Type", "Landings", "Needed (m)", "Cost (€)"], ["Do 228", "1,204", "900", "€ 1,150,000"],
      ["E190", "845", "1,700", "€ 2,450,000"], ["Total", "2,049", "", "€ 3,600,000"]];
    await pasted(page, rows);
    await told(page, "#case .pasted", /Nothing was taken yet\. Which column is “Needs alone”\?/);
    expect("nothing yet", await cells(page), /^Aer/);
    await page.click("“Cost (€)”");
    await told(page, "#case .pasted", /“Total”, € 3,600,000, the sum of the others, was left out\. Put it back/);
    expect("told", await page.text("#case .pasted"), /“Needed \(m\)” was left out/);
    await told(page, "#answer .lead", /E190 pays most, 1,300,954\.36/);
  }],
  ["door: a list of a court, with its estate", "estate", async (page, expect) => {
    await page.paste('[data-cell="rows.0.name"]', "Verfahren 4 IN 233/25\n\nRang\tGläubiger\tForderung\tQuote\n"
      + "§ 38\tCelle\t1.234,56\t?\n§ 38\tMüller & Co.\t12.500,00\t?\nSumme\t\t13.734,56\t\nMasse\t\t10.000,00\t\n\n"
      + "(ohne Zinsen)");
    await told(page, "#case .pasted", /“Summe”, 13\.734,56, the sum of the others, was left out/);
    await told(page, "#answer .lead", /Celle gets 617,28 and Müller & Co\. gets 9\.382,72/);
    await page.paste('[data-cell="rows.0.name"]', "§ 38\tCelle\t1.234,56\nX\tMüller & Co.\t12.500,00");
    await told(page, "#case .pasted", /Which column is “Who claims”\?/);
    await page.click("“Celle, Müller & Co. …”");
    expect("these", await cells(page), "10.000,00|Celle|1.234,56|Müller & Co.|12.500,00");
  }],
  ["door: a title above a market, and a line end behind it", "market", async (page, expect) => {
    await page.paste('[data-cell="buyers.0"]', "Offers\n\tPiano\tCello\nLee\t4\t2\nKhan\t5\t3\n");
    await told(page, "#answer .lead", /Lee – Cello and Khan – Piano trade: together they gain 7\.00/);
    expect("told", await page.text("#case .hint[role=status]"), /Left out, as no number stands beside: “Offers”\./);
    await page.paste('[data-cell="buyers.0"]', "\tPiano\tCello\nReserve price\t3\t1\nLee\t4\t2");
    await told(page, "#case", /Nothing was taken yet\. “Reserve price” looks like the least that sellers take\./);
  }],
  ["door: a number of a claim is no claim", "estate", async (page, expect) => {
    await pasted(page, [["Claim No.", "Creditor", "USD"], [17, "Alpha", 1250], [18, "Beta", 2250]]);
    await told(page, "#case .pasted", /“Claim No\.” was left out/);
    expect("the claims", await cells(page), "Alpha|1250|Beta|2250");
    await pasted(page, [["Claim", "Creditor", "Amount"], [17, "Alpha", 1250], [18, "Beta", 2250]]);
    await told(page, "#case .pasted", /Which column is “Claim”\?/);
  }],
  ["door: a last row of sums in all columns is asked about", "runway", async (page, expect) => {
    await pasted(page, [["Airline", "Cost", "Landings"], ["Aer", 20, 3], ["Bee", 40, 2], ["Alle zusammen", 60, 5]]);
    await noted(page, /The last row, “Alle zusammen”\. Is it the sum of the others\?/);
    await page.click("No, it counts");
    await told(page, "#answer .lead", /Alle zusammen pays/);
    expect("no more", /Is it the sum/.test(await page.text("#case .faults")), false);
  }],
  ["door: a whole table takes the place of another", "estate", async (page, expect) => {
    await pasted(page, [["Creditor", "Claim"], ["A", 1250], ["B", 2250], ["C", 900]]);
    await page.type("estate", "1000");
    await settle(page);
    await pasted(page, [["Creditor", "Claim"], ["X", 1500], ["Y", 2500]]);
    await told(page, "#answer .lead", /X gets 500\.00 and Y gets 500\.00: together 1000\.00/);
    expect("who claims", await cells(page), "1000|X|1500|Y|2500");
    await told(page, "#case .pasted", /The estate is still 1000\./);
    await page.type("estate", "2000");
    expect("no more once it is typed", /still 1000/.test(await page.text("#case .pasted")), false);
  }],
  ["door: amounts in two currencies aren’t added", "estate", async (page, expect) => {
    await pasted(page, [["Creditor", "Claim"], ["Alpha", "€ 100.50"], ["Beta", "EUR 200"], ["Gamma", "CHF 300"]]);
    await told(page, "#case .faults", /The claim is in CHF, and another number in EUR\./);
    expect("one fault", await page.run("document.querySelectorAll('#case .fault').length"), 2);
  }],
  ["door: a sum of some rows is asked about, whatever stands behind its name", "estate", async (page, expect) => {
    await pasted(page, [["Name", "Claim"], ["A", 100], ["B", 50], ["Subtotal secured", 150], ["Total SE", 80]]);
    await page.type("estate", "100");
    await noted(page, /Row 3, “Subtotal secured”\. Is it the sum of others\?/);
    await page.click("Yes, remove it");
    await told(page, "#answer .lead", /Total SE gets/);
    expect("who claims", await cells(page), "100|A|100|B|50|Total SE|80");
  }],
  ["door: what is filled is read as the case is", "gains", async (page, expect) => {
    await page.paste('[data-cell="numbers.1"]', "Firm;Saving\nAda;1,50\nBo;5.000 €\nCy;2.000 €\nBo + Cy;21.000 €\n"
      + "All;56.000 €");
    await page.click("Fill the empty ones by the best split");
    await told(page, "#case .note[role=status]", /2 groups were filled/);
    expect("by the comma", await page.run(`document.querySelector('[data-cell="numbers.3"]').value`), "5.001,5");
  }],
  ["door: of votes in per cent that aren’t all it is asked", "votes", async (page, expect) => {
    await page.type("quota", "2/3");
    await pasted(page, [["Holder", "Part"], ["Novak", "41.5 %"], ["Fund", "23 %"], ["Founders", "12.25 %"],
      ["Bank", "9.8 %"]]);
    await noted(page, /The votes add to 86\.55 %\. Is “2\/3” meant of all 100 %/);
    await page.click("Of 100 %: at least 66.70");
    await told(page, "#answer-body", /Novak/);
    expect("the quota", await page.run(`document.querySelector('[data-cell="quota"]').value`), "66.7");
  }],
];

const kept = [
  ["door: who is gone stays in the kept column", "estate", async (page, expect) => {
    await page.click("Clear all");
    await pasted(page, [["Anna", 500000], ["Ben", 300000], ["Clara", 400000], ["Dora", 600000]]);
    await page.type("estate", "700000");
    await settle(page);
    await page.click("Keep this answer to compare");
    await page.run(`document.querySelector('[aria-label="Remove row 4"]').click()`);
    await settle(page);
    expect("a row of its own", await page.text(".shares .gone"), /Dora\s+gone since\s+183\s333\.33\s+–/);
    expect("what the other rule was", await page.text(".shares tbody tr"), /was \d+\s\d+\.\d\d\s+[+−]\d/);
    expect("on paper", await sheetOf(page), /Dora \(gone since\)183\s333\.33/);
  }],
];

const NINE = { game: { class: "table", excess: "per-head", players: 9,
  worths: Array.from({ length: 511 }, (_, k) => (k + 1).toString(2).replaceAll("0", "").length ** 2) } };
const perHead = [
  ["door: per head of nine isn’t answered as a whole", "document", async (page, expect) => {
    await page.fill("#document textarea", JSON.stringify(NINE));
    await noted(page, /was to count per head\. That is worked out for up to 8 players, and here are 9\./);
    expect("no answer", await page.run("document.getElementById('answer').hidden"), true);
    await page.click("Count it as a whole");
    await settle(page);
    expect("then", await page.text("#answer .shares thead"), /gain least(?!, per head)/);
  }],
  ["door: nor where a ninth is typed", "estate", async (page, expect) => {
    await page.click("Clear all");
    await pasted(page, Array.from({ length: 8 }, (_, k) => [`C${k + 1}`, 100 + k]));
    await page.type("estate", "300");
    await settle(page);
    await page.choose("measure", "per-head");
    await settle(page);
    expect("beside the heading", await page.run("document.querySelector('#answer-measure select').value"), "per-head");
    await page.type("rows.8.name", "C9");
    await page.type("rows.8.claim", "50");
    await noted(page, /and here are 9\./);
    await page.run(`document.querySelector('[aria-label="Remove row 9"]').click()`);
    await settle(page);
    expect("again", await page.text("#answer .shares thead"), /gain least, per head/);
  }],
];

const ODD = { game: { class: "airport", costs: [2, 4, 6], names: ["=HYPERLINK(\"http://x\")", "−2+3", "x;=1+1;y"] } };
const CAUGHT = `(() => {
  window.files = [];
  navigator.clipboard.writeText = async (text) => void files.push(text);
  const made = URL.createObjectURL;
  URL.createObjectURL = (blob) => (blob.text().then((text) => files.push(text)), made.call(URL, blob));
  HTMLAnchorElement.prototype.click = () => 0;
})()`;
const guards = [
  ["door: names are no formulas in a spreadsheet", "document", async (page, expect) => {
    await page.fill("#document textarea", JSON.stringify(ODD));
    await page.until(READY);
    await page.run(CAUGHT);
    for (const [title, sign] of [["Copy the table", "\t"], ["Save the table (CSV)", ","]]) {
      await page.click(title);
      await page.until("files.length > 0");
      const text = await page.run("files.pop()"), lines = text.split(/\r?\n/);
      expect(`${title}: a formula`, lines.some((line) => /^"?'=HYPERLINK/.test(line)), true);
      expect(`${title}: a sum`, lines.some((line) => line.startsWith(`'−2+3${sign}`)), true);
      if (sign === ",") expect("in quotes", lines.some((line) => line.startsWith('"x;=1+1;y",')), true);
    }
  }],
];

const SPACED = { game: { class: "tree", matrix: [[0, 5], [5, 0]], names: ["b "] } };
const opened = [
  ["door: an opened document keeps its names to the letter", "document", async (page, expect) => {
    const made = () => page.run("document.querySelector('.made pre').textContent");
    await page.fill("#document textarea", JSON.stringify(SPACED));
    await page.until(READY);
    expect("with its blank", JSON.parse(await made()).game.names[0], "b ");
    await page.type("names.0", "b  ");
    await settle(page);
    expect("an edited one is read as typed", JSON.parse(await made()).game.names[0], "b");
    await page.run("location.hash = '#document'");
    await page.fill("#document textarea", '{"game":{"class":"airport","costs":[2,4]}}');
    await told(page, "#answer .lead", /User 1 pays 1\.00 and User 2 pays 3\.00/);
    expect("none where there are none", JSON.parse(await made()).game.names, undefined);
    await page.type("rows.0.name", "x");
    await settle(page);
    expect("all where one is typed", JSON.parse(await made()).game.names.join(), "x,User 2");
  }],
];

export const door = [...pastes, ...messy, ...questions, ...kept, ...perHead, ...guards, ...opened];
