// Scenarios: texts as strangers paste them, with a title, notes, totals and names in another order. Nothing is taken
// for what it isn’t, and what is left out is told.
import { noted, settle, told } from "./harness.mjs";

const cells = (page) => page.run(`[...document.querySelectorAll("#case [data-cell]")].filter((one) => one.value)
  .map((one) => one.value).join("|")`);
const first = { costs: "numbers.1", gains: "numbers.1", network: "names.0" };
const paste = (page, cell, text) => page.paste(`[data-cell="${cell}"]`, text);

const framed = [
  ["strangers: a title above a table, and notes below it", "costs", async (page, expect) => {
    await paste(page, first.costs, "Borehole costs (EUR), offer of 3 March\n\nWho drills\tOffer\nKeller\t14.000,00 €\n"
      + "Önen\t12.000,00 €\nKeller + Önen\t18.000,00 €\n\nPrices without VAT");
    await told(page, "#answer .lead", /Keller pays 10.?000,00 and Önen pays 8.?000,00/);
    expect("told", await page.text("#case .note[role=status]"), /“Borehole costs .*3 March”, “Prices without VAT”\./);
    await page.run("location.hash = '#network'");
    await page.until(`document.querySelector('[data-cell="links.0-1"]')`);
    await paste(page, first.network, "Water main\n\nFrom\tTo\tCost\nSpring\tUp\t12\nSpring\tLow\t9\nUp\tLow\t4");
    await told(page, "#answer .lead", /Up pays .* and Low pays .*together 13[.,]00/);
  }],
  ["strangers: a creditors’ list finds its claims", "estate", async (page, expect) => {
    await paste(page, "rows.0.name", "Verfahren 4 IN 233/25\n\nRang\tGläubiger\tForderung\tQuote\n"
      + "§ 38\tStadtwerke\t1.234,56\t?\n§ 38\tMüller & Co. KG\t12.500,00\t?\nSumme\t\t13.734,56\n(ohne Zinsen)");
    await told(page, "#case .pasted", /“Gläubiger” is “Who claims”, “Forderung” is “Claim”/);
    expect("the cells", await cells(page), "Stadtwerke|1.234,56|Müller & Co. KG|12.500,00");
    await told(page, "#case .pasted", /“Summe”, 13\.734,56, the sum of the others, was left out/);
    await paste(page, "rows.0.name", "Creditor\tClaim\nAnn\t1000\n\t2000\n\t300\nBo\t500");
    await noted(page, /3 cells are still empty/); // the estate, too
  }],
  ["strangers: euros are no names, and a total is left out", "runway", async (page, expect) => {
    await paste(page, "rows.0.name", "Aircraft type\tLandings\tRunway needed (m)\tCost of that length (€)\n"
      + "Do 228\t1,204\t900\t€ 1,150,000\nATR 72\t2,310\t1,350\t€ 1,900,000\nTotal\t3,514\t2,250\t€ 3,050,000");
    await page.click("“Cost of that length (€)”");
    await told(page, "#case .pasted", /“Runway needed \(m\)” was left out/);
    await told(page, "#case .pasted", /“Total”, € 3,050,000, the sum of the others, was left out/);
    await told(page, "#answer .lead", /ATR 72 pays most/);
    expect("no euro is a name", /€/.test(await page.text("#answer .lead")), false);
    await paste(page, "rows.0.name", "A\t5\n".repeat(2001));
    await told(page, "#case .pasted", /These are 2001 rows, and at most 2000 fit\. Nothing was taken/);
  }],
];

const mine = `[0, 1, 2].map((r) => document.querySelector('[data-cell="proposal.' + r + '"]').value).join()`;
const proposals = [
  ["strangers: a proposal goes by names", "costs", async (page, expect) => {
    await page.click("Type your own division");
    for (const [text, taken, said] of [
      ["Legal\t3.7\nSales\t4.2\nOps\t4.1", "4.2,4.1,3.7", /by name: Legal, Sales and Ops/],
      ["Hi all,\n\nSales: 4.3\nOps - 4.0\nLegal 3.7 (they use it least)\n\nAnna", "4.3,4.0,3.7", /out: “Hi all,”/],
      ["Sales\t4\nOps\t4\nMarketing\t4", "4.3,4.0,3.7", /“Marketing”\. Rows without an amount: Legal\. Nothing/],
      ["Sales\t8.00\t4.20\nOps\t7.50\t4.10", "4.3,4.0,3.7", /Two numbers stand beside Sales/],
      ["Sales: 4 %\nOps: 4 %\nLegal: 4 %", "4 %,4 %,4 %", /by name: Sales, Ops and Legal/],
      ["Bid :\nLegal : 1 340 k€\nSales : 640 k€\nOps : 60 k€", "640,60,1 340",
        /“k€” behind the numbers is taken as their unit/],
      ["Sales : 1 340 k€\nOppo : 6 k€", "640,60,1 340", /No row is called “Oppo”/],
      ["Sales 5\nOps 4\nLegal 3\nTotal 12", "5,4,3", /Left out: “Total 12”/], ["4\n4\n4", "4,4,4", null],
    ]) {
      await paste(page, "proposal.0", text);
      if (said) await told(page, "#answer .own-said", said);
      expect(text, await page.run(mine), taken);
    }
    await page.type("numbers.7", "12000");
    await settle(page);
    await paste(page, "proposal.0", "4.200\n4.100\n3.700");
    await told(page, "#answer", /Read with the comma before decimals: so they add to the whole\./);
    await told(page, "#answer .shares tfoot", /12.?000\.00(?!.*missing)/);
    for (const wide of [1280, 390]) {
      await page.look({ wide, high: 700 });
      await page.run("scrollTo(0, 0)");
      await paste(page, "proposal.0", "Sale 4100\nOps 4100\nLegal 3800");
      await told(page, "#answer .own-said", /“Sale” for Sales/);
      for (const where of [".own-said", '[data-cell="proposal.0"]']) {
        expect(`${where} is in the window of ${wide}`, await page.run(`(() => {
          const { top, bottom, left, right } = document.querySelector('#answer ${where}').getBoundingClientRect();
          return top >= 0 && bottom <= innerHeight && left >= 0 && right <= innerWidth + 1;
        })()`), true);
      }
    }
  }],
];

const readings = [
  ["strangers: what is filled follows how numbers are read", "gains", async (page, expect) => {
    await paste(page, first.gains, "A\t0\nB\t5.000\nC\t2.000\nB + C\t21.000\nA + B + C\t56.000");
    await noted(page, /5\.000/);
    await page.click("Fill the empty ones by the best split");
    await told(page, "#case", /First say how the numbers are read/);
    await page.click("5000, whole");
    await settle(page).catch(() => 0);
    await page.click("Fill the empty ones by the best split");
    await told(page, "#answer .lead", /together 56.000,00/);
    expect("filled", await page.run(`document.querySelector('[data-cell="numbers.3"]').value`), "5000");
  }],
  ["strangers: shareholders’ votes of any size", "votes", async (page, expect) => {
    await page.type("quota", "66.67 %");
    await paste(page, "rows.0.name", "Novak\t41.5\nFund\t23\nFounders\t12.2\nBank\t9.8\nFloat\t13.5");
    await told(page, "#answer .lead", /Novak has most power/); // no votes add to between that and 2/3
    await page.type("quota", "2/3");
    await paste(page, "rows.0.name", "Novak\t4,150,000\nFund\t2,300,001\nFounders\t1,225,000\nBank\t980,000\n"
      + "Float\t1,345,000");
    await noted(page, /lists which groups win, and not the votes/);
    await settle(page);
    expect("the power", await page.text("#answer .lead"), /Novak has most power, 53\.3/);
  }],
];

const ballots = [
  ["strangers: rows of one name are one, several, or pasted twice", "estate", async (page, expect) => {
    await paste(page, "rows.0.name", "A\t1200\nB\t2300\nA\t500");
    await page.type("estate", "900");
    await noted(page, /“A” occurs twice\. What is it\?/);
    await page.click("One: add them");
    await settle(page);
    expect("added", await cells(page), "900|A|1700|B|2300");
    await paste(page, "rows.0.name", "X\t800\nY\t900\nX\t800");
    await told(page, "#case .pasted", /The rows before are gone/);
    await page.click("Pasted twice: keep one");
    await settle(page);
    expect("once", await cells(page), "900|X|800|Y|900");
  }],
  ["strangers: a table of votes with a quota, and with two", "votes", async (page, expect) => {
    await paste(page, "rows.0.name", "Council 2026\n\nParty\tSeats\nCDU\t17\nSPD\t13\nGrüne\t9\n"
      + "FDP\t5\nLinke\t4\n\nQuorum: 2/3 der Sitze");
    await noted(page, /The quota: 2\/3 of 48 votes, so at least 32\./);
    await told(page, "#case .pasted", /“Quorum”, 2\/3 der Sitze, was taken as votes needed/);
    await paste(page, "rows.0.name", "State\tVotes\tPopulation\nA\t4\t80\nB\t3\t60\nC\t2\t20");
    await page.click("Both, with two quotas");
    await told(page, "#case .pasted", /“Population” is “Second votes”/);
    expect("both", await cells(page), /\|A\|4\|80\|B\|3\|60\|C\|2\|20$/);
  }],
  ["strangers: votes in per cent that aren’t 100 together", "votes", async (page, expect) => {
    await page.type("quota", "66.7 %");
    await paste(page, "rows.0.name", "Holder\tShare\nAnna\t33.4%\nBruno\t33.3%\nZ\t18.4%\nStaff\t15.0%");
    await noted(page, /The votes add to 100\.10 %\. Is “66\.7 %” meant of all 100 %\?/);
    await page.click("Of 100 %: at least 66.70");
    await told(page, "#answer .lead", /Anna/);
    await paste(page, "rows.0.name", "Holder\tShare\nAnna\t20%\nBruno\t15%\nZ\t5%");
    await page.type("quota", "more than half");
    await noted(page, /Of all 100 % “more than half” is 51, which these never reach\. If others vote, add them\./);
    expect("no way to a fault", /Of 100 %/.test(await page.text("#case")), false);
    await page.click("Of these: at least 21");
    await told(page, "#answer .lead", /Anna/);
  }],
];

const lists = [
  ["strangers: numbers that may be names are asked about", "estate", async (page, expect) => {
    await paste(page, "rows.0.name", "Lägenhet\tBelopp\tRänta\n101\t400\t4\n102\t300\t3");
    await told(page, "#case .pasted", /Nothing was taken yet\. Which column is “Who claims”\? “Lägenhet” ?“Belopp”/);
    const shown = 'getComputedStyle(document.querySelector("#case .faults")).display';
    expect("and nothing beside", await page.run(shown), "none");
    await page.click("“Lägenhet”");
    await told(page, "#case .pasted", /Nothing was taken yet\. Which column is “Claim”\? “Belopp” ?“Ränta”/);
    await page.click("“Belopp”");
    await noted(page, /1 cell is still empty/);
    expect("by the first", await cells(page), "101|400|102|300");
  }],
  ["strangers: a list is the case, and sums of any name are asked about", "estate", async (page, expect) => {
    await paste(page, "rows.0.name", "X\t800\nY\t900\nZ\t100\nΣ\t1800");
    await noted(page, /The last row, “Σ”\. Is it the sum of the others\?/);
    await paste(page, "rows.0.claim", "Creditor\tClaim\nAnn\tEUR 1200\nBob\tEUR 2800\nSum\tEUR 4100");
    await noted(page, /“Sum”\. Is it the sum of the others\? It says 4100, the others add to 4000/);
    expect("from the first column", await cells(page), "Ann|EUR 1200|Bob|EUR 2800|Sum|EUR 4100");
    await paste(page, "rows.0.name", "X\t800\nY\t900");
    await told(page, "#case .pasted", /The rows before are gone/);
    expect("no other", await cells(page), "X|800|Y|900");
    await paste(page, "rows.0.claim", "70");
    await paste(page, "rows.0.claim", "Claim\n70");
    await told(page, "#case .pasted", /The rows below stay as they were/);
  }],
  ["strangers: seats beside shares in per cent are no per cent", "votes", async (page, expect) => {
    await page.type("quota", "more than half");
    await paste(page, "rows.0.name", "Partei; Sitze; %\nSP; 13; 40 %\nFDP; 9; 30 %\nMitte; 8; 30 %");
    await noted(page, /more than half of 30 votes, so at least 16/);
    expect("no question", /meant of all/.test(await page.text("#case")), false);
  }],
];

export const strangers = [...framed, ...lists, ...proposals, ...readings, ...ballots];
