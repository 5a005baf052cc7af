// Pictures of every state, to be looked at: node page/test/shots.mjs PAGE FOLDER [CASE ..]
//
// Each case wide, on a phone and at twice the size, light and dark, unfolded with what has to be asked for, and on
// paper (as PDF, one page and everything).
import { mkdirSync, writeFileSync } from "node:fs";
import { join, resolve } from "node:path";
import { pathToFileURL } from "node:url";
import { Browser } from "./browser.mjs";
import { READY } from "./harness.mjs";

const [page, folder, ...wanted] = process.argv.slice(2);
const ALL = ["", "document", "verify", "runway", "estate", "costs", "gains", "network", "market", "votes"];
const PHONE = { wide: 390, high: 800 };
const LOOKS = {
  wide: {}, phone: PHONE, dark: { dark: true }, "dark-phone": { ...PHONE, dark: true }, twice: { wide: 640, high: 450 },
};
/** What is shown only when somebody asks: by buttons, and by a list. */
const ASKED = ["equal parts", "Work it out"];

async function unfold(tab) {
  await tab.run("for (const one of document.querySelectorAll('details')) one.open = true");
  for (const text of ASKED) await tab.click(text).catch(() => {});
  await tab.run("for (const one of document.querySelectorAll('details')) one.open = true");
  await tab.run(`for (const one of document.querySelectorAll('[data-cell="leaves"]')) {
    one.selectedIndex = one.options.length - 1;
    one.dispatchEvent(new Event("change", { bubbles: true }));
  }`);
  await new Promise((resolve) => setTimeout(resolve, 3000));
}

async function shoot(browser, id, look) {
  const name = id || "start", url = pathToFileURL(resolve(page)).href;
  const tab = await browser.page(id ? `${url}#${id}` : url, LOOKS[look]);
  const isCase = !["", "document", "verify"].includes(id);
  if (isCase) await tab.until(READY);
  if (!id) await tab.until("document.querySelector('.demo .seal:not(.busy)')");
  await tab.shot(join(folder, `${name}-${look}.png`));
  if (isCase && look === "wide") {
    writeFileSync(join(folder, `${name}.pdf`), await tab.pdf());
    await tab.run("document.body.dataset.print = 'all'");
    writeFileSync(join(folder, `${name}-all.pdf`), await tab.pdf());
  }
  await unfold(tab);
  await tab.shot(join(folder, `${name}-${look}-unfolded.png`));
  for (const fault of tab.faults()) console.log(name, look, fault);
  await tab.close();
}

mkdirSync(folder, { recursive: true });
const browser = await Browser.start();
try {
  for (const id of wanted.length ? wanted : ALL) for (const look of Object.keys(LOOKS)) await shoot(browser, id, look);
} finally {
  await browser.stop();
}
