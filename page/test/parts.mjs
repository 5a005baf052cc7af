// Scenarios: what goes to the workers while an answer comes, and what is drawn anew. A document goes to each worker
// once, and a part of the page is drawn when something came that is seen in it.
import { READY, settle, told } from "./harness.mjs";

/** Keeps what is sent to the workers from now on, as texts. */
const WATCH_POST = `(() => {
  const post = Worker.prototype.postMessage;
  window.posted = [];
  Worker.prototype.postMessage = function (message) {
    posted.push(JSON.stringify(message));
    return post.call(this, message);
  };
})()`;

/** Counts how often each part of the answer is drawn from now on. */
const WATCH_DRAWN = `(() => {
  window.drawn = {};
  for (const id of ["answer-body", "why-body", "own-body", "evidence-body"]) {
    drawn[id] = 0;
    const watch = new MutationObserver((all) => { drawn[id] += all.length; });
    watch.observe(document.getElementById(id), { childList: true });
  }
})()`;

const withDocument = (page) => page.run("posted.filter((text) => text.includes('cost-table')).length");
const drawnOf = async (page) => ({ ...(await page.run("drawn")) });

async function sentOnce(page, expect) {
  await page.run(WATCH_POST);
  await page.type("numbers.3", "10.5");
  await settle(page);
  expect("asked", await page.run("posted.length > 10"), true);
  expect("the document", await withDocument(page), 1); // the first worker has written it
  await page.click("If the whole costs more");
  await page.type("more", "1");
  await page.click("Work it out");
  await told(page, ".other .found", /It costs 1\.00 more/);
  await page.click("If one leaves");
  await page.choose("leaves", "Ops");
  await told(page, ".leaves .found", /Without Ops the others cost/);
  expect("not again", await withDocument(page), 1);
  expect("nor the line", await page.run("posted.filter((text) => text.includes('certificate')).length"), 1);
}

async function drawnOnce(page, expect) {
  await page.run(WATCH_DRAWN);
  await page.type("numbers.3", "10.5");
  await settle(page);
  const { "answer-body": body, "why-body": why, "own-body": own, "evidence-body": evidence } = await drawnOf(page);
  expect("the answer: it, reasons, other divisions, verdicts", body <= 4, true);
  expect("its reasons", why <= 4, true);
  expect("other divisions", own <= 2, true);
  expect("the evidence: it, other divisions, two checkers", evidence <= 4, true);
  await page.click("equal parts");
  await page.until(READY);
  await told(page, ".shares tfoot .verdict .proposed", /^No|would do better/);
  const after = await drawnOf(page);
  expect("a proposal changes no evidence", after["evidence-body"], evidence);
  expect("but the answer", after["answer-body"] > body, true);
  await page.click("Keep this answer to compare");
  await page.until("document.querySelector('.pinned')");
  const kept = await drawnOf(page);
  expect("a kept answer changes no reasons", kept["why-body"], after["why-body"]);
  expect("the button that kept it, once", kept["own-body"], after["own-body"] + 1);
}

export const parts = [
  ["parts: a document goes to a worker once", "costs", sentOnce],
  ["parts: what came is drawn, and no more", "costs", drawnOnce],
];
