// Scenarios: a runway by a sheet of airlines and types, as airports have it.
import { noted, settle, told } from "./harness.mjs";

const value = (page, cell) => page.run(`document.querySelector('[data-cell="${cell}"]').value`);
const made = (page) => page.run("document.querySelector('.made pre').textContent");
const isHidden = (page) => page.run("document.getElementById('answer').hidden");
const PRINT = "dispatchEvent(new Event('beforeprint'))";
const sheetOf = (page) => page.run(`${PRINT}; document.getElementById("sheet").textContent`);

async function pasted(page, text) {
  await page.click("Clear all");
  await page.paste('[data-cell="rows.0.name"]', text);
}

/** The text of the file that a button saves. */
async function saved(page, title, part = "answer") {
  await page.run(`(() => {
    const made = URL.createObjectURL;
    delete globalThis.savedText;
    URL.createObjectURL = (blob) => {
      blob.text().then((text) => { globalThis.savedText = text; });
      return made.call(URL, blob);
    };
  })()`);
  await page.click(title, `document.getElementById("${part}")`);
  await page.until("globalThis.savedText !== undefined");
  return page.run("globalThis.savedText");
}

const HEADS = "Fluggesellschaft;Typ;Landungen;Kosten der Piste\n";
const FEW = "Albatros;DH8;3;20,50\nAlbatros;A320;2;40\nBergfalke;DH8;1;20,50\nCondor;B744;2;60";
const AIRLINES = ["Albatros", "Bergfalke", "Condor", "Delta", "Eisvogel"];
const MANY = AIRLINES.map((name, k) => ["DH8;1;20,50", "A320;1;40", `B744;${k + 1};60`].map((one) => `${name};${one}`))
  .flat().join("\n");

const numbers = [
  ["landings with a point, as Germans write them", "runway", async (page, expect) => {
    await pasted(page, `${HEADS}Aer;DH8;5.000;2.400.000,00\nBee;A320;3;4.100.000,50`);
    await told(page, "#answer-body", /These are 5003 uses/);
    expect("told", await page.text("#case .faults"), /“5.000” is read as the whole number 5000/);
    await page.click("Clear all");
    for (const [key, text] of Object.entries({ name: "Aer", cost: "20", count: "5.000" })) {
      await page.type(`rows.0.${key}`, text);
    }
    await noted(page, /“5.000” can be read as 5 or as 5000, and no other number here shows which/);
    expect("no answer before", await isHidden(page), true);
    await page.click("5000 uses");
    await told(page, "#answer-body", /These are 5000 uses/);
    expect("and told", await noted(page, /“5.000” is read as the whole number 5000/), /the comma comes before/);
    await page.type("rows.0.count", "1.234");
    await page.click("No: 5.000 is 5");
    await told(page, "#answer-body", /These are 1234 uses/);
  }],

  ["a number of landings that is whole by both marks is asked about", "runway", async (page, expect) => {
    await page.click("Clear all");
    for (const [key, text] of Object.entries({ name: "Aer", cost: "20", count: "3.000" })) {
      await page.type(`rows.0.${key}`, text);
    }
    await noted(page, /“3.000” can be read as 3 or as 3000/);
    expect("no answer before", await isHidden(page), true);
    await page.click("3 uses");
    await settle(page);
    expect("as few", await page.text(".lead"), /User 1 pays 20.00 for 3 uses|Aer pays 20.00 for 3 uses/);
    await page.type("rows.0.cost", "20,50");
    await told(page, "#answer-body", /These are 3000 uses/);
    await page.click("Clear all");
    for (const [key, text] of Object.entries({ cost: "2,5", count: "3.000" })) await page.type(`rows.0.${key}`, text);
    await told(page, "#answer-body", /These are 3000 uses/);
    expect("told alone", await noted(page, /“3.000” is read as the whole number 3000/), /“2,5” shows that the comma/);
    await page.type("rows.0.cost", "2");
    await noted(page, /“3.000” can be read as 3 or as 3000/);
  }],

  ["a row without landings is open", "runway", async (page, expect) => {
    await page.type("rows.0.count", "");
    await noted(page, /1 cell is still empty/);
    expect("no answer", await isHidden(page), true);
    await pasted(page, "Aer\t20\t\nBee\t40\t2");
    await noted(page, /1 cell is still empty/);
    await page.type("rows.2.name", "Cargo");
    expect("a row begins with 1", await value(page, "rows.2.count"), "1");
    await page.type("rows.2.name", "");
    expect("and ends with it", await value(page, "rows.2.count"), "");
    await pasted(page, "Aer\t20\nBee\t40");
    await settle(page);
    expect("1 is put", `${await value(page, "rows.0.count")} ${await value(page, "rows.1.count")}`, "1 1");
    const put = "No “Uses” were pasted: 1 was put into each of its open cells.";
    expect("and told", await page.text("#case .pasted"), put);
  }],

  ["airlines with a number behind their names stay apart", "runway", async (page, expect) => {
    await pasted(page, "Terminal 1\t20\t1\nTerminal 2\t20\t1");
    await settle(page);
    const text = await made(page);
    await page.click("All cases");
    await page.click("Open a saved case");
    await page.fill("#document textarea", text);
    await page.until("location.hash === '#runway' && document.querySelector('.made pre')");
    await settle(page);
    expect("names", `${await value(page, "rows.0.name")}, ${await value(page, "rows.1.name")}`,
      "Terminal 1, Terminal 2");
    expect("landings", `${await value(page, "rows.0.count")} ${await value(page, "rows.1.count")}`, "1 1");
    expect("the same document", await made(page), text);
  }],

  ["the sum below a sheet is asked about", "runway", async (page, expect) => {
    await pasted(page, `${HEADS}${FEW}\n;;;120,50`);
    await noted(page, /The last row has no name. Is it the sum of the others[\s\S]*2 cells are still empty/);
    expect("no answer", await isHidden(page), true);
    await page.click("Yes, remove it");
    await settle(page);
    expect("without it", await page.text(".lead"), /^Albatros pays .*together 60.00/);
    await page.click("Undo “Remove the sum”");
    await noted(page, /The last row has no name/);
    await pasted(page, `${HEADS}${FEW}\nTotal;;8;120,50`);
    await noted(page, /The last row, “Total”. Is it the sum of the others\? It would count as one more/);
    expect("no answer, with a name too", await isHidden(page), true);
    await page.click("No, it counts");
    await settle(page);
    expect("it counts", await page.text(".lead"), /Total pays .*together 120.50/);
    await pasted(page, "Aer\t20\t1\n\t30\t1\nBee\t40\t1");
    await noted(page, /^1 cell is still empty/);
  }],
];

const types = [
  ["a sheet without headings, its types, and the bill", "runway", async (page, expect) => {
    await pasted(page, FEW);
    await settle(page);
    const taken = /^Taken, in this order, as: “User”, “Type”, “Uses”, “Needs alone”.$/;
    expect("told", await page.text("#case .pasted"), taken);
    expect("names", await made(page), /"Albatros, DH8 1","Albatros, DH8 2"[\s\S]*"Condor, B744 2"/);
    expect("rows", await page.text(".shares tbody"), /^Albatros, DH8[\s\S]*Albatros, A320[\s\S]*Albatros, together/);
    const each = /one use of each type pays[\s\S]*DH8\s+20.50[\s\S]*A320\s+40.00[\s\S]*B744/;
    expect("types", await page.text(".lines"), each);
    const bill = /What each user pays.*Albatros528,03Bergfalke14,10Condor227,87together860,00/;
    expect("the bill on paper", await sheetOf(page), bill);
    await page.run("dispatchEvent(new Event('afterprint'))");
    await page.type("rows.1.type", "DH8");
    await page.type("rows.1.cost", "20,50");
    await settle(page);
    const heads = "[...document.querySelectorAll('.shares')[0].tBodies[0].querySelectorAll('th')]";
    const labels = await page.run(`${heads}.map((one) => one.firstChild.data)`);
    expect("no label twice", new Set(labels).size, labels.length);
  }],

  ["what each airline pays today, beside its sum", "runway", async (page, expect) => {
    await pasted(page, FEW);
    await settle(page);
    await page.click("Compare with what each pays today");
    await page.paste('[data-cell="today.0"]', "10\n20\n5\n25");
    await settle(page);
    expect("its change", await page.text(".subtotal"), /30,00\s+28,03\s+−1,97 \(−6,6\s%\)/);
    const bill = /Pays todayChangeAlbatros528,0330,00−1,97 \(−6,6\s%\)Bergfalke14,105,00−0,90[^]*60,0060,000,00/;
    expect("on paper", await sheetOf(page), bill);
  }],

  ["a proposal for the rows of an airline", "runway", async (page, expect) => {
    await pasted(page, FEW);
    await settle(page);
    await page.paste('[data-cell="proposal.0"]', "10\n20\n5\n25");
    await settle(page);
    expect("downwards", `${await value(page, "proposal.1")} ${await value(page, "proposal.3")}`, "20 25");
    expect("the airline's sum", await page.text(".subtotal .proposed"), "30,00");
  }],

  ["many rows have a bar for each type", "runway", async (page, expect) => {
    await pasted(page, MANY);
    await settle(page);
    expect("rows", await page.run("document.querySelectorAll('.shares tbody')[0].rows.length"), 20);
    const drawn = "[...document.querySelectorAll('.bars svg text')].map((one) => one.textContent)";
    const texts = (await page.run(drawn)).join("\n");
    expect("bars", texts, /DH8, needs 20,50\neach of 5\n→\nA320, needs 40\neach of 5\n→\nB744, needs 60\neach of 15/);
    expect("in the picture itself", texts, /A bar is what one use pays/);
  }],
];

const beyond = [
  ["above 64 landings the page calculates, and says so", "runway", async (page, expect) => {
    await pasted(page, `${HEADS}${FEW.replace("DH8;3", "DH8;300")}`);
    await told(page, "#answer-body", /These are 305 uses[\s\S]*do NOT come from the proved program/);
    const rows = await page.text(".beyond tbody");
    const first = /Albatros, DH8\s+300\s+20.50\s+20.36\s+300 × 0.07 \(41\/604\)\s+20.16\s+300 × 0.07 \(41\/610\)/;
    expect("a row", rows, first);
    expect("an airline", rows, /Albatros, together\s+302/);
    expect("types", await page.text(".beyond .lines"), /DH8\s+20.50\s+0.07\s+0.07/);
    const scaled = /by the nucleolus users may pay other shares[\s\S]*Shapley shares each user pays the same/;
    expect("scaled", await page.text(".beyond"), scaled);
    const sheet = await sheetOf(page);
    expect("on paper", sheet, /Albatros, together.*do NOT come from the proved.*shapley_is_by_step.*Agreed on by/);
    await page.run("dispatchEvent(new Event('afterprint'))");
    const file = await saved(page, "Save the table (CSV)");
    const lines = /^;Fair[^]*\r\n"Albatros, DH8";20,36;3075÷151[^]*\r\nDH8;20,50;0,07;0,07\r\n/;
    expect("a file", file, lines);
    await page.type("rows.0.count", "3");
    await settle(page);
    expect("the program again", await page.text("#evidence .words"), /says yes[\s\S]*says yes/);
  }],

  ["above 64 landings: what each pays today, and the list to keep", "runway", async (page, expect) => {
    await pasted(page, `${HEADS}${FEW.replace("DH8;3", "DH8;300")}`);
    await told(page, "#answer-body", /These are 305 uses/);
    await page.click("Compare with what each pays today");
    for (const [r, text] of ["20", "0.1", "0.1", "40"].entries()) await page.type(`today.${r}`, text);
    const rows = await page.text(".beyond tbody");
    expect("changes", rows, /Albatros, DH8\s+300\s+20.50\s+20.36\s+\+0.36 \(\+1.8\s%\)/);
    expect("of an airline", rows, /Albatros, together\s+302\s+20.10\s+\d\d.\d\d\s+\+\d/);
    expect("together", await page.text(".beyond tfoot"), /305\s+60.20\s+60.00\s+−0.20 \(−0.3\s%\)/);
    expect("on paper", await sheetOf(page), /Pays today.*Albatros, DH830020.5020.0020.36\+0.36 \(\+1.8\s%\)/);
    await page.run("dispatchEvent(new Event('afterprint'))");
    expect("why no case", await page.text(".made"), /This case can’t be saved: .* which takes 64 uses/);
    const list = await saved(page, "Save the list (CSV)", "files");
    expect("a list", list, /^User;Type;Uses;Needs alone\r\nAlbatros;DH8;300;20,5\r\n/);
    const calculated = await page.text(".beyond .lines");
    await pasted(page, list);
    await told(page, "#answer-body", /These are 305 uses/);
    expect("the same again", await page.text(".beyond .lines"), calculated);
  }],

  ["above 64 landings: an answer is kept to compare", "runway", async (page, expect) => {
    await pasted(page, `${HEADS}${FEW.replace("DH8;3", "DH8;300")}`);
    await told(page, "#answer-body", /These are 305 uses/);
    await page.click("Keep this answer to compare");
    await told(page, ".beyond .pinned", /The shares are those of the kept answer/);
    await page.type("rows.3.cost", "80");
    const note = await told(page, ".beyond .pinned", /^Against the kept answer, by “Fairest [^.]*Condor[^.]* \+/);
    expect("which cell", note, /Changed since: [^.]*60 → 80\./);
    expect("in its place", await page.run(`document.querySelector('[data-cell="rows.3.cost"]').title`), "Kept: 60");
    expect("a column", await page.text(".beyond thead"), /Each use needs\s+Kept\s+Fairest to those who gain least/);
    expect("together", await page.text(".beyond tfoot"), /305\s+60,00\s+80,00/);
    expect("on paper", await sheetOf(page), /Kept.*Condor.*Against the kept answer, by “Fairest/);
    await page.run("dispatchEvent(new Event('afterprint'))");
    await page.type("rows.0.count", "3");
    await settle(page);
    expect("beside the program's answer", await page.text(".pinned"), /^Against the kept answer, by “Fairest/);
    await page.click("Stop comparing");
    await page.until("!document.querySelector('.pinned')");
  }],

  ["above 64 landings: what one use pays is seen, and a column is agreed on", "runway", async (page, expect) => {
    await pasted(page, "Type\tLandings\tCost\nFokker\t42\t65899\nViscount\t9555\t76725\nTrident\t288\t95200.5");
    await told(page, "#answer-body", /These are 9885 uses/);
    const seen = "[...document.querySelectorAll('.beyond .each')].filter((one) => one.checkVisibility()).length";
    expect("of each, by each rule", await page.run(seen), 6);
    expect("beside what is folded", await page.text(".beyond tbody"), /9555 × 7.77\s+exact/);
    const file = await saved(page, "Save the table (CSV)");
    expect("in the file", file, /\r\nOne use of,needs,.*\r\nFokker,65899.00,7.99,6.67/);
    await page.click("On paper");
    const both = /Who paysUses.*Fairest to those.*By what each adds.*How it was found/;
    expect("both on paper", await sheetOf(page), both);
    await page.send("Emulation.setEmulatedMedia", { media: "print" });
    const wide = "[...document.querySelectorAll('#sheet thead [data-point]')].every((one) => one.clientHeight < 60)";
    expect("heads of some lines", await page.run(wide), true);
    const beside = "(([each]) => each.offsetTop - each.parentElement.offsetTop < 8)"
      + "(document.querySelectorAll('#sheet tbody .each'))";
    expect("in one line", await page.run(beside), true);
    await page.send("Emulation.setEmulatedMedia", { media: "" });
    await page.run("dispatchEvent(new Event('afterprint'))");
    await page.run(`(() => {
      const list = document.querySelector('[data-cell="paper.agreed"]');
      list.value = "shapley";
      list.dispatchEvent(new Event("change"));
    })()`);
    const agreed = /The parties agreed on: by what each adds \(Shapley shares\)\.Viscount pays most/;
    expect("agreed on", await sheetOf(page), agreed);
    expect("it alone", /Fairest to those/.test(await sheetOf(page)), false);
    await page.run("dispatchEvent(new Event('afterprint'))");
    await page.type("rows.0.count", "43");
    await told(page, "#answer-body", /These are 9886 uses/);
    expect("by these numbers alone", /agreed on/.test(await sheetOf(page)), false);
    await page.run("dispatchEvent(new Event('afterprint'))");
  }],

  ["Shapley shares above 32 landings", "runway", async (page, expect) => {
    await page.type("rows.0.count", "30");
    await settle(page);
    const shown = /These are 33 uses[\s\S]*Aer\s+30\s+20.50\s+18.64/;
    expect("beside the program's", await page.text(".beyond"), shown);
    expect("no nucleolus of the page's", /payments_are/.test(await page.text(".beyond")), false);
    expect("evidence", await page.text("#evidence .words"), /says yes[\s\S]*says yes/);
  }],

  ["the table as a file, by the decimal mark", "runway", async (page, expect) => {
    await pasted(page, FEW);
    await settle(page);
    const showBy = async (mark) => {
      await page.run(`(() => {
        const marks = document.querySelectorAll("#answer-settings select")[1];
        [marks.value] = ["${mark}"];
        marks.dispatchEvent(new Event("change"));
      })()`);
      await settle(page);
    };
    await showBy(".");
    const byPoint = await saved(page, "Save the table (CSV)", "files");
    expect("commas", byPoint, /^,Fairest[^]*\r\n"Albatros, DH8",\d+\.\d\d,/);
    await showBy(",");
    const file = await saved(page, "Save the table (CSV)", "files");
    expect("semicolons", file, /^;Fairest[^]*\r\n"Albatros, DH8";\d+,\d\d;/);
    expect("airlines", file,
      /\r\n\r\nUser;Uses;Fairest to [\w ]+;By what each adds;In proportion to costs alone;The agencies’ rule/);
    expect("what each pays", file, /\r\nAlbatros;5;28,03;22,56;30,1\d;30,1\d\r\n/);
  }],
];

export const landings = [...numbers, ...types, ...beyond];
