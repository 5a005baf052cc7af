// Scenarios: what the answer shows at first, what it says of itself, and no more than was found; which numbers matter;
// the start's example.
import { giveLine, READY, settle, told } from "./harness.mjs";

const sheetOf = (page) => page.run(`(dispatchEvent(new Event("beforeprint")),
  document.getElementById("sheet").textContent)`);
const seals = "#answer .seals";

/** Pastes into the first cell of a list. */
const pasted = (page, rows) => page.paste('[data-cell="rows.0.name"]', rows.map((row) => row.join("\t")).join("\n"));

const answers = [
  ["face: the seals say what was found", "gains", async (page, expect) => {
    expect("both", await page.text(seals), /No group would do better alone\s+Two checkers agree/);
    expect("no line of it", /Fairest/.test(await page.text("#answer .leaving")), false);
    await page.type("numbers.7", "90"); // less than the pairs want
    await told(page, seals, /A group would do better alone: \w+ and \w+, by \d/);
    expect("in red", await page.run("document.querySelector('#answer .seal').className"), "seal bad");
    expect("and a line", await page.text("#answer .leaving"), /Fairest to those who gain least: .* would do better/);
  }],
  ["face: a checker’s no is no seal of two", "costs", async (page, expect) => {
    await page.run(`(() => {
      const post = Worker.prototype.postMessage;
      Worker.prototype.postMessage = function (message) {
        const isIt = message.task === "checkLine" && { task: "checkAnew", what: { document: "{}" } };
        return post.call(this, isIt ? { ...message, ...isIt } : message);
      };
    })()`);
    await page.type("numbers.3", "10.5");
    await told(page, seals, /A checker says no/);
    expect("in red", await page.run("document.querySelectorAll('#answer .seal')[1].className"), "seal bad");
    await settle(page);
    expect("and so it stays", await page.text(seals), /A checker says no/);
  }],
  ["face: fractions and per head are options", "costs", async (page, expect) => {
    const exact = "document.querySelector('#answer-body .exact').checkVisibility()";
    expect("not at first", await page.run(exact), false);
    expect("nor per head", await page.run("document.querySelector('#answer-measure select')"), null);
    await page.click("Options");
    await page.run("document.querySelector('[data-cell=\"exact\"]').click()");
    expect("then", await page.run(exact), true);
    await page.choose("measure", "per-head");
    await settle(page);
    expect("beside the heading", await page.run("document.querySelector('#answer-measure select').value"), "per-head");
    await page.click("If one leaves");
    await page.choose("leaves", "Sales");
    const said = /^[^“]*“Fairest to those who gain least, per head”: Sales pays[\s\S]*“Fairest to [\w ]+”: Sales pays/;
    await told(page, ".leaves .found", said);
  }],
  ["face: the parts stand there once", "costs", async (page, expect) => {
    await page.run("for (const part of document.querySelectorAll('.part')) part.open = false");
    const seen = "[...document.querySelectorAll('.part')].filter((one) => one.checkVisibility())"
      + ".map(({ id }) => id).join()";
    expect("none", await page.run(seen), "");
    for (const [title, id] of [["Why these shares?", "why"], ["What if", "what-if"], ["Evidence", "evidence"],
      ["On paper", "paper"], ["Files", "files"]]) {
      await page.click(title, "document.getElementById('next')");
      expect(title, await page.run(seen), id);
      await page.until(`document.querySelector('#next [data-part="${id}"]').ariaExpanded === "true"`);
    }
  }],
  ["face: the example says that it is one, until somebody types", "runway", async (page, expect) => {
    expect("at first", await page.text("#case .sample"), /^Worked example\. Type over it, paste your own table into/);
    await page.click("start empty");
    await told(page, "#case .sample", /^Fill in the cells, or paste a table/);
    await page.type("rows.0.name", "Aer");
    expect("gone", await page.text("#case .sample"), "");
    await page.click("Fill in the worked example");
    await told(page, "#case .sample", /Worked example/);
    await pasted(page, [["North", 30], ["South", 50]]);
    expect("gone by a paste", await page.text("#case .sample"), "");
    await told(page, "#answer .lead", /North pays/);
    const answer = await page.text("#answer-body");
    expect("nothing of uses where each has one", /landing|uses|runway/i.test(answer), false);
    await pasted(page, [["Airline", "Cost (k€)"], ["North", 30], ["South", 50]]);
    await settle(page);
    const sheet = await sheetOf(page);
    expect("the unit of the table", sheet, /All amounts are in k€\./);
    expect("a line to sign for each", sheet, /Agreed on byNorthonSouthon/);
  }],
  ["face: a wrong game is a no", "verify", async (page, expect) => {
    const agreed = '{"game":{"class":"bankruptcy","estate":200,"claims":[100,200,300]}}';
    const line = '{"answer":"nucleolus","certificate":{"levels":[],"mode":"players"},"game":{"claims":[100],'
      + '"class":"bankruptcy","estate":90},"shares":[90]}';
    await giveLine(page, line, agreed);
    const found = await told(page, "#verify .answers", /says yes[\s\S]*says yes/);
    expect("first of all", found, /^No: it answers another game\. /);
  }],
];

const rules = [
  ["face: rules of practice stand beside the others, and the program judges them", "costs", async (page, expect) => {
    const found = await page.text("#answer .shares");
    expect("as many heads", found, /Fairest to those who gain[\s\S]*In proportion\s+to costs alone, by the page/);
    expect("in proportion", found, /Sales\s+8\.00\s+3\.88\s+4\.33\s+4\.46\s+4\.23/);
    expect("nobody leaves", await page.text("#answer .leaving"), "");
    await page.type("numbers.7", "15"); // what pairs cost binds more
    await settle(page);
    await told(page, "#answer .leaving", /In proportion to costs alone: Sales and \w+ would do better by/);
    expect("in the picture", await page.text("#answer .bars, #answer figure"), /The agencies’ rule/);
    const calculated = /page itself calculates “In proportion” and “The agencies’ rule”/;
    expect("in the evidence", await page.text("#evidence"), calculated);
  }],
  ["face: a core point, fractions and the field’s names are on request", "costs", async (page, expect) => {
    const heads = () => page.text("#answer .shares thead");
    expect("plain names alone", /nucleolus|Shapley|core point/i.test(await heads()), false);
    await page.run(`document.querySelector('[data-cell="exact"]').click()`);
    expect("names", await heads(), /nucleolus[\s\S]*Shapley shares[\s\S]*separable costs, remaining benefits/);
    await page.run(`document.querySelector('[data-cell="core"]').click()`);
    await told(page, "#answer .shares thead", /A core point/);
    await page.run(`document.querySelector('[data-cell="core"]').click()`);
    await page.until("!/core point/.test(document.querySelector('#answer .shares thead').innerText)");
  }],
  ["face: four digits are parted beside longer ones, in all that is told", "costs", async (page, expect) => {
    const costs = [8000, 7500, 10000, 6000, 10000, 10250, 12000];
    for (const [k, cost] of costs.entries()) await page.type(`numbers.${k + 1}`, String(cost));
    await settle(page);
    await told(page, "#margins", /Closest/);
    expect("none bare", /\d{4}\./.test(await page.text("#answer-body")), false);
    const ticks = "[...document.querySelectorAll('#answer-body svg text')].some((one) =>"
      + " /\\d{4}/.test(one.textContent))";
    expect("nor in the picture", await page.run(ticks), false);
    expect("nor below", /\d{4}\./.test(await page.text("#margins")), false);
  }],
  ["face: a level’s reason that can’t be said gives way to two side by side on paper", "costs", (page) => {
    return page.until("(dispatchEvent(new Event('beforeprint')), /The reasons of level 2 are longer: “Why” .*gains "
      + "least by joining .* stronger hold/s.test(document.getElementById('sheet').textContent))");
  }],
  ["face: the cells of a network hold their numbers", "network", async (page, expect) => {
    await page.type("links.0-1", "3045.75");
    await page.type("links.1-2", "1310.25");
    await settle(page);
    await page.click("Add a place"); // so the grid is drawn anew
    const fits = (what) => `[...document.querySelectorAll("#case ${what}")]`
      + ".every((one) => one.scrollWidth <= one.clientWidth)";
    expect("cells", await page.run(fits(".matrix input")), true);
    expect("the grid", await page.run(fits(".scroll")), true);
  }],
  ["face: a market isn’t sent to Python for which numbers matter", "market", async (page, expect) => {
    expect("nothing of it", await page.run("/numbers matter/.test(document.getElementById('what-if').textContent)"),
      false);
  }],
  ["face: at first everything is seen, with twelve buttons and 250 words at most", "runway", async (page, expect) => {
    await page.run("for (const part of document.querySelectorAll('.part')) part.open = false");
    const seen = `(one) => one.checkVisibility({ opacityProperty: true }) && !one.closest(".skip, .remove")
      && one.getBoundingClientRect().top < innerHeight`;
    for (const id of ["runway", "estate", "costs", "gains", "network", "market", "votes"]) {
      await page.run(`location.hash = "#${id}"`);
      await page.until(`document.body.dataset.view === "case" && ${READY}`);
      await settle(page);
      const buttons = await page.run(`[...document.querySelectorAll("button, summary, a")].filter(${seen}).length`);
      expect(`${id}: buttons but those of the foot, ${buttons}`, buttons <= 13, true); // with “About this page”
      const words = await page.run("document.querySelector('main').innerText.match(/[\\p{L}\\p{N}][^\\s]*/gu).length");
      expect(`${id}: words, ${words}`, words <= 250, true);
      const low = await page.run("document.getElementById('next').getBoundingClientRect().bottom");
      expect(`${id}: the lowest edge, ${low}`, low <= 900, true);
      const hides = "document.getElementById('answer').scrollHeight - document.getElementById('answer').clientHeight";
      expect(`${id}: nothing scrolls inside`, (await page.run(hides)) <= 1, true);
    }
  }],
  ["face: above 64 landings the result comes first, and laws are a click away", "runway", async (page, expect) => {
    await page.click("Clear all");
    await pasted(page, [["Airline", "Cost", "Landings"], ["North", "1200", 40], ["South", "2500", 30]]);
    await told(page, "#answer-body .lead", /South pays most/);
    expect("no name of a law", /payments_are/.test(await page.run(
      "document.querySelector('#answer-body .notice').innerText")), false);
    await page.click("Why the formula is right");
    expect("then", await page.text("#answer-body .notice"), /payments_are_the_nucleolus/);
    expect("the column", await page.text(".beyond thead"), /Fairest to those who gain least\s+calculated by the page/);
    const both = /^A runway.*South pays most.*Fairest to those who gain leastnucleolus, Littlechild’s rulecalculated/s;
    expect("the sheet begins with it, and has both names", await sheetOf(page), both);
  }],
];

const numbers = [
  ["face: which numbers matter", "costs", async (page, expect) => {
    await page.until("document.querySelectorAll('#case .decides').length === 5");
    const marked = "[...document.querySelectorAll('#case .decides .group')].map((one) => one.textContent).join()";
    expect("marked", await page.run(marked), "Legal,Sales + Ops,Sales + Legal,Ops + Legal,Sales + Ops + Legal");
    const tip = (mask) => page.run(`document.querySelector('[data-cell="numbers.${mask}"]').parentElement.title`);
    expect("one that decides", await tip(3), "The answer rests on this number as it is, by this evidence.");
    expect("one that doesn’t", await tip(1), /^It may cost anything from 6\.00 up, and the shares stay/);
    const before = await page.text("#answer .lead");
    await page.type("numbers.1", "6");
    await settle(page);
    expect("at its bound", await page.text("#answer .lead"), before);
    await page.type("numbers.1", "5.5");
    await settle(page);
    expect("beyond it", (await page.text("#answer .lead")) === before, false);
    await page.type("numbers.1", "8");
    await told(page, ".margins", /rest on 5 of the 7 numbers as they are: Legal, [\s\S]*Ops\s+7\.50\s+from 6\.25 up/);
  }],
];

/** Which cells are marked, what is told of one, and whether the answer stays at a number and not at another. */
async function tryNumbers(page, expect, { decide, cell, tip, within, beyond }) {
  await page.until("document.querySelector('#case .decides')");
  const marked = "[...document.querySelectorAll('#case .decides input')].map((one) => one.dataset.cell).sort().join()";
  expect("marked", await page.run(marked), decide);
  const told = `document.querySelector('[data-cell="${cell}"]').getAttribute("aria-description")`;
  expect("told", await page.run(told), tip);
  const before = await page.text("#answer .lead");
  for (const [number, isSame] of [[within, true], [beyond, false]]) {
    await page.type(cell, number);
    await settle(page);
    expect(`at ${number}`, (await page.text("#answer .lead")) === before, isSame);
  }
}

const numbersOfClasses = [
  ["face: which links matter", "network", (page, expect) => tryNumbers(page, expect, {
    decide: "links.0-1,links.0-2,links.1-2,links.1-3,links.2-4,links.3-4", cell: "links.2-3",
    tip: "It may be from 5.00 up, and the shares stay, if no other number moves.", within: "5", beyond: "4.9",
  })],
  ["face: which claims matter", "estate", async (page, expect) => {
    await tryNumbers(page, expect, {
      decide: "estate,rows.0.claim,rows.1.claim", cell: "rows.2.claim",
      tip: "It may be from 1600.00 up, and the shares stay, if no other number moves.", within: "1600", beyond: "1590",
    });
  }],
  ["face: which landings matter", "runway", async (page, expect) => {
    await pasted(page, [["Airline", "Cost", "Landings"], ["Aer", 20, 8], ["Bee", 21, 1], ["Cargo", 60, 1]]);
    await settle(page);
    await told(page, ".margins", /rest on 2 of the 3 numbers as they are: Bee and Cargo\. The other one may move/);
    await tryNumbers(page, expect, {
      decide: "rows.1.cost,rows.2.cost", cell: "rows.0.cost",
      within: "18.9", beyond: "22",
      tip: "It may be from 18.90 to 21.00, and the shares stay, if no other number moves.",
    });
  }],
];

/** Opens the slider of the whole, and waits until all bends are found. */
async function openMoved(page) {
  const parts = "[...document.querySelectorAll('#answer-more summary')]";
  await page.run(`${parts}.find((one) => /^Move/.test(one.innerText)).click()`);
  return told(page, ".moving", /Bends at[\s\S]*straight line/);
}

const moved = [
  ["face: the total moves, and bends are marked", "costs", async (page, expect) => {
    await openMoved(page);
    await told(page, ".moving", /Bends at\s+8\.00\s+9\.50\s+12\.50\s+17\.75/);
    expect("as many marks", await page.run("document.querySelector('.moving datalist').childElementCount"), 4);
    const found = () => page.text(".moving .found"), value = "document.querySelector('.moving input')";
    const line = /Sales\s+3\.88\s+\+1\/4[\s\S]*From 9\.50 to 12\.50[\s\S]*took 2 lines of it/;
    expect("at the case", await found(), line);
    await page.run(`${value}.focus()`);
    for (let k = 0; k < 10; k++) await page.key("ArrowRight");
    const at = await page.run(`${value}.getAttribute("aria-valuetext")`);
    expect("by keys", await page.text(".moving output"), `All together cost ${at}`);
    expect("beyond a bend", await found(), /From 12\.50 to 17\.75/);
    const shares = (await found()).match(/(?<=(Sales|Ops|Legal)\s+)\d+\.\d\d/g).join();
    await page.click("17.75", "document.querySelector('.moving')");
    expect("at a bend", await page.text(".moving output"), "All together cost 17.75");
    expect("no division", await found(), /some group could do better, whatever the division/);
    await page.type("numbers.7", at);
    await settle(page);
    const own = (await page.text("#answer .lead")).match(/(?<=pays )\d+\.\d\d/g).join();
    expect(`the program’s answer at ${at}`, own, shares);
  }],
  ["face: a straight line is told from bend to bend", "gains", async (page, expect) => { // by two certificates
    const groups = "A 0 B 0 C 0 D 0 A+B 124 A+C 36 A+D 0 B+C 90 B+D 75 C+D 42 A+B+C 215 A+B+D 180 A+C+D 98 "
      + "B+C+D 190 A+B+C+D 360";
    await page.paste('[data-cell="numbers.1"]', groups.replace(/(\S+) (\S+) ?/g, "$1\t$2\n"));
    await told(page, "#answer .lead", /and D gets/);
    await settle(page);
    await openMoved(page);
    await page.until("!/Being worked out/.test(document.querySelector('.moving').innerText)");
    expect("no bend at 347", /347\.00/.test(await told(page, ".moving", /From 327\.00 to 397\.00/)), false);
  }],
  ["face: an estate moves from nothing to all claims, on a phone", "estate", async (page, expect) => {
    const legend = "[...document.querySelectorAll('#why .triangle text')].map((one) => one.textContent).join(' ')";
    expect("the legend is whole", await page.run(legend), /Brandt and Chopra get at least 799\.50/);
    await openMoved(page);
    await told(page, ".moving", /Bends at\s+1200\.00\s+1600\.50\s+3399\.50\s+3800\.00/);
    expect("its lines", await page.text(".moving .found"), /took 3 lines of it/);
    await page.run("document.querySelector('.moving input').value = 0");
    await page.run("document.querySelector('.moving input').dispatchEvent(new Event('input'))");
    expect("nothing to divide", await page.text(".moving .found"), /together\s+0\.00\s+\+1/);
    expect("no wider than the page", await page.run("document.documentElement.scrollWidth"), 390);
  }, { wide: 390, high: 844 }],
];

const demos = [
  ["face: the start’s example lives", "", async (page, expect) => {
    await told(page, ".demo", /Sales\s+3\.88[\s\S]*No group would do better alone\s+Two checkers agree/);
    const move = (value) => page.run(`(() => {
      const slider = document.querySelector(".demo input");
      slider.value = "${value}"; slider.dispatchEvent(new Event("input"));
    })()`);
    await move(16);
    await told(page, ".demo", /16\.00[\s\S]*A group would do better alone: [\w ]+, by 0\.\d\d\s+Two checkers agree/);
    await page.click("Open this example");
    await page.until(READY);
    expect("as it was left", await page.run(`document.querySelector('[data-cell="numbers.7"]').value`), "16");
  }],
];

export const face = [...answers, ...rules, ...numbers, ...numbersOfClasses, ...moved, ...demos];
