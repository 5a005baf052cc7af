// Scenarios: files and texts that are dropped on the page or opened and are no document, and what is handed on while
// the answer isn't there yet.
import { noted, READY, savedFile, settle, told } from "./harness.mjs";

/** Drops files, {name: text or bytes}, or a text on an element. */
const drop = (page, what, selector = "body") => page.run(`(() => {
  const data = new DataTransfer(), what = ${JSON.stringify(what)};
  for (const [name, own] of Object.entries(typeof what === "string" ? {} : what)) {
    data.items.add(new File([typeof own === "string" ? own : new Uint8Array(own)], name));
  }
  if (typeof what === "string") data.setData("text/plain", what);
  const event = new DragEvent("drop", { dataTransfer: data, bubbles: true, cancelable: true });
  return document.querySelector(${JSON.stringify(selector)}).dispatchEvent(event);
})()`);

const valueOf = (page, cell) => page.run(`document.querySelector('[data-cell="${cell}"]').value`);
const CLAIMS = "Creditor;Claim\r\n\"Nord, Bank\";120.000,50\r\nStahl;85.000,25\r\n";
const LINE = '{"answer":"nucleolus","game":{"class":"airport","costs":[2,4,6]},"shares":["1","3/2","7/2"]}';

/** Changes a claim and presses a button in the same moment, and gives the text that is saved then; "" for none. */
const savedAtOnce = (page, claim, title) => page.run(`(async () => {
  const made = URL.createObjectURL;
  let kept = null;
  URL.createObjectURL = (blob) => (kept = blob, made.call(URL, blob));
  HTMLAnchorElement.prototype.click = () => 0;
  const cell = document.querySelector('[data-cell="rows.0.claim"]');
  cell.value = ${JSON.stringify(claim)};
  cell.dispatchEvent(new Event("input", { bubbles: true }));
  [...document.querySelectorAll("#parts button")].find((one) => one.textContent === ${JSON.stringify(title)}).click();
  for (let k = 0; !kept && k < 60; k++) await new Promise((resolve) => setTimeout(resolve, 50));
  URL.createObjectURL = made;
  return kept ? kept.text() : "";
})()`);

export const dropped = [
  ["a table that is dropped on a case goes into its cells", "estate", async (page, expect) => {
    await drop(page, { "claims.csv": CLAIMS });
    await told(page, "#case .pasted", /“Creditor” is “Who claims”, “Claim” is “Claim”/);
    expect("the claim", await valueOf(page, "rows.0.claim"), "120.000,50");
    expect("the case is open still", await page.run("location.hash"), "#estate");
    await drop(page, { "book.xlsx": [80, 75, 3, 4, 0, 0, 1] });
    await told(page, "#case [role=alert]", /book\.xlsx is no text\. If it is a workbook .*, and paste them here\./);
    expect("nothing else changed", await valueOf(page, "rows.1.name"), "Stahl");
    await drop(page, { "a.csv": CLAIMS, "b.csv": CLAIMS });
    await told(page, "#case [role=alert]", /^These are 2 files\. Give one at a time\.$/);
    await page.click("Undo “Paste”");
    await settle(page);
    expect("undone", await valueOf(page, "rows.0.name"), "Adler");
    await drop(page, { "case.json": '{"game":{"class":"airport","costs":[2,4,6]}}' });
    await page.until(`location.hash === "#runway" && ${READY}`);
  }],

  ["a table that is opened is given to a case, and a mail is read without what was added", "document",
    async (page, expect) => {
      await drop(page, { "claims.csv": CLAIMS }, "#document .drop");
      await told(page, "#document-message", /This is a table, and no saved case\. Choose the case that it is of/);
      await page.click("An estate or a bankruptcy", "document.getElementById('document-message')");
      await told(page, "#case .pasted", /“Creditor” is “Who claims”/);
      expect("its name", await valueOf(page, "rows.0.name"), "Nord, Bank");
      await page.run("location.hash = '#document'");
      await page.fill("#document textarea", `Dear all,\n${LINE.replaceAll('"', "”")}\nEva`);
      await told(page, "#document-message", /That leaves out “Dear all,”, “Eva” and 20 typographic quote marks/);
      await page.click("Open it without what the mail program added");
      await page.until(`location.hash === "#runway" && ${READY}`);
      expect("told", await page.text("#case"), /It is read without what a mail program added: “Dear all,”/);
      await page.run("location.hash = '#document'");
      await page.fill("#document textarea", "Anna 500\nBo 300\n");
      await told(page, "#document-message", /no document and no saved case, which begin with “{”/);
    }],

  ["a text that is dropped into a cell is as one that is pasted there", "estate", async (page, expect) => {
    const cell = '[data-cell="rows.0.name"]';
    expect("taken", await drop(page, "OG\t500\nEG\t700", cell), false);
    await page.until(`document.querySelector('${cell}').value === "OG"`);
    expect("a word is left to the browser", await drop(page, "Zoe", cell), true);
    expect("lines aren't joined to one", await drop(page, "1000\n500", '[data-cell="estate"]'), false);
  }],

  ["what is saved right behind a key is what stands there", "estate", async (page, expect) => {
    expect("the document", await savedAtOnce(page, "1111", "Save the case"), /"claims":\[1111,/);
    expect("the shares", await savedAtOnce(page, "400", "Save the table (CSV)"), /Adler,200\.00,200,200\.00,/);
    expect("no wrong cells", await savedAtOnce(page, "none", "Save the case"), "");
    await noted(page, /The claim is no number/);
    await page.type("rows.0.claim", "300");
    await settle(page);
    expect("that click is forgotten", await page.run("document.querySelectorAll('#busy button').length"), 0);
  }],

  ["what is printed right behind a key says that its answer is of the cells before", "estate", async (page, expect) => {
    await page.run(`(() => {
      const cell = document.querySelector('[data-cell="rows.0.claim"]');
      cell.value = "1111";
      cell.dispatchEvent(new Event("input", { bubbles: true }));
      dispatchEvent(new Event("beforeprint"));
    })()`);
    expect("told", await page.run("document.getElementById('paper-head').textContent"), /isn’t worked out yet/);
    expect("no one page", await page.run("document.body.dataset.print"), "all");
    await page.run("dispatchEvent(new Event('afterprint'))");
    await settle(page);
    await page.run("dispatchEvent(new Event('beforeprint'))");
    expect("then the one page", await page.run("document.body.dataset.print"), "sheet");
    await page.run("dispatchEvent(new Event('afterprint'))");
  }],

  ["whoever leaves is asked as long as something isn't saved", "estate", async (page, expect) => {
    const asks = () => page.run("!dispatchEvent(new Event('beforeunload', { cancelable: true }))");
    expect("nothing was typed", await asks(), false);
    await page.click("equal parts");
    await settle(page);
    expect("an own division", await asks(), true);
    await savedFile(page, "Save the case");
    expect("saved", await asks(), false);
    await page.click("Clear all");
    expect("cleared", await asks(), true);
  }],
];
