// Scenarios: documents that are opened, refused, or nothing of the kind; and lines that came from others.
import { execFileSync } from "node:child_process";
import { readdirSync, readFileSync } from "node:fs";
import { join } from "node:path";
import { READY, told } from "./harness.mjs";

const level = '{"excess":"-1","coalitions":[[[1],1],[[2,3],1]],"earlier":[],"bounds":[],"total":1}';
const turned = level.replace("[2,3]", "[3,2]");
const airport = (more, shares = '["1","3/2","7/2"]') => {
  return `{"game":{"class":"airport","costs":[2,4,6]},"shares":${shares},${more}}`;
};
const game = (rest) => `{"game":{${rest}}}`;
const tooFine = `["1/${2n ** 62n}","1/${3n ** 39n}","1"]`;
const bare = '"answer":"nucleolus","certificate":{"mode":"players","levels":[]}';

/** Each refusal of the program: the document, and what the page says with the place. */
const REFUSED = [
  ["1 too long", airport('"answer":1', `[${"1,".repeat(1100000)}1]`), /It has 2\s200\s\d+ bytes, above 2\s097\s152/],
  ["2 a comma too many", game('"class":"airport",\n"costs":[2,4,]'), /a value is missing[\s\S]*line 2, column 14/],
  ["3 a misspelt key", game('"class":"airport","cost":[2]'),
    /“cost” has no place here; is it “costs”\?[\s\S]*game.cost/],
  ["3 a game alone", '{"class":"airport","costs":[2]}', /a game alone/],
  ["3 no row", game('"class":"assignment","matrix":["1/2"]'), /array of rows[\s\S]*game.matrix/],
  ["3 a row that is a number", game('"class":"assignment","matrix":[5]'), /array of rows[\s\S]*game.matrix/],
  ["3 a member that is an object", game('"class":"table","players":2,"sparse":[[[{}],5],[[1,2],9]]'),
    /A member is a number or a name[\s\S]*game.sparse, item 1/],
  ["3 players that are an object", game('"class":"table","players":{},"sparse":[[[1],5]]'),
    /players is a whole number, without quotes[\s\S]*game.players/],
  ["a case without its version", '{"coop-page":{},"document":{"game":{"class":"airport","costs":[1]}}}',
    /This case isn’t as the page saved it[\s\S]*coop-page/],
  ["4 seventeen players", game('"class":"table","players":17,"worths":[]'), /1 to 16 players, and not 17/],
  ["4 a worth too few", game('"class":"table","players":2,"worths":[1,2]'), /have 3 groups, and worths has 2 items/],
  ["5 a decimal", game('"class":"airport","costs":[2,4.5,6]'), /4.5 is no whole number[\s\S]*game.costs, item 2/],
  ["5 not lowest", game('"version":2,"class":"airport","costs":["6/4"]'), /isn’t in lowest terms; write "3\/2"/],
  ["6 names alike", game('"class":"airport","costs":[2,4],"names":["a","a"]'), /“a” occurs twice[\s\S]*item 2/],
  ["7 a group twice", game('"class":"table","players":2,"sparse":[[[1],1],[[1],2]]'), /is at item 1 already/],
  ["8 the estate", game('"class":"bankruptcy","claims":[1,1],"estate":3'), /claims add to less[\s\S]*game.estate/],
  ["9 a direction", game('"class":"tree","matrix":[[0,5,8],[5,0,3],[9,3,0]]'), /both directions[\s\S]*row 3, item 1/],
  ["11 too fine", airport('"answer":"nucleolus"', tooFine), /denominator of all shares[\s\S]*shares, item 2/],
  ["13 the quota", game('"class":"voting","quota":9,"weights":[4,2]'), /quota has to be from 1 to 6[\s\S]*game.quota/],
];

/** Refusals that concern checking alone. */
const REFUSED_LINES = [
  ["3 players that are an object", `{"game":{"class":"table","players":{},"worths":[1,2,3]},"shares":["1"],${bare}}`,
    /players is a whole number, without quotes[\s\S]*game.players/],
  ["3 the mode", airport(`"answer":"nucleolus","certificate":{"mode":"player","levels":[${level}]}`),
    /mode is players or span[\s\S]*certificate.mode/],
  ["10 shares", airport(bare, '["1"]'), /There is 1 share for 3 players/],
  ["11 too fine", airport(bare, tooFine), /denominator of all shares gets above[\s\S]*shares, item 2/],
  ["12 a coalition", airport(`"answer":"nucleolus","certificate":{"mode":"players","levels":[${turned}]}`),
    /A coalition is a list[\s\S]*certificate, level 1, coalitions, item 2/],
];

/** Texts that are no documents at all, and nothing for a grid. */
const BROKEN = {
  "a picture": String.fromCharCode(...Array.from({ length: 5000 }, (_, k) => (k * 7919) % 0xd7ff)),
  "a page": "<!doctype html><script>alert(1)</script>".repeat(50),
  "deeply nested": "[".repeat(100000),
  "a list of numbers": "1;2;3\n4;5;6\n",
  "null": "null",
  "long digits": `${"1".repeat(400000)}x\t2\n3\t${" ".repeat(100000)}x,1`,
  "columns of blanks": `${" ".repeat(300000)}x,\n${"\t".repeat(200000)}`,
  "a long text": `"${"x".repeat(3000000)}"`,
  "forged keys": '{"__proto__":1,"constructor":{"x":1},"game":{"class":"__proto__"}}',
  "a half of a character": '{"game":{"class":"airport","costs":[1],"names":["\\ud800"]}}',
  "huge players": '{"game":{"class":"table","players":99999999,"sparse":[]}}',
};

const SAID = "document.querySelector('#document-message .notice')";

const put = async (page, which, text) => {
  await page.run("document.querySelector('#verify .answers').replaceChildren()");
  await page.fill("#verify textarea", text, which);
};

const refused = REFUSED.map(([name, document, wanted]) => [`refused: ${name}`, "document", async (page, expect) => {
  await page.fill("#document textarea", document);
  await page.until(SAID);
  expect(name, await page.text("#document-message"), wanted);
}]);

const broken = Object.entries(BROKEN).map(([name, text]) => [`none: ${name}`, "document", async (page, expect) => {
  await page.fill("#document textarea", text);
  await page.until(SAID);
  expect("a sentence", await page.text("#document-message"), /\w{3}.*[.?]/);
  await page.fill("#document textarea", '{"game":{"class":"airport","costs":[2,4,6]}}');
  await page.until(READY);
  await page.run("location.hash = '#verify'");
  await page.fill("#verify textarea", text);
  await page.until("document.querySelector('#verify .lead, #verify .notice')");
  expect("no yes", await page.text("#verify .answers"), /^(?!Yes)/);
}]);

const pasted = ["runway", "costs", "network", "market", "votes"].map((id) => [`pasted into cells: ${id}`, id,
  async (page, expect) => {
    for (const text of Object.values(BROKEN)) {
      await page.paste("#case table input, #case .groups input", text);
      await page.run("new Promise((resolve) => setTimeout(resolve, 100))");
    }
    await page.click("Fill in the worked example");
    // the last ones may still be read by a worker, and then all is asked once more
    await told(page, "#evidence .words", /says yes[\s\S]*says yes/);
    expect("still works", await page.run("document.querySelectorAll('#answer-body table').length > 0"), true);
  }]);

export function documents(top, program) {
  const examples = readdirSync(join(top, "examples")).filter((file) => file.endsWith(".json")).map((file) => {
    return [`opened: ${file}`, "document", (page, expect) => opened(page, expect, program, top, file)];
  });
  const departments = readFileSync(join(top, "examples", "departments.json"), "utf8");
  return [...refused, ...broken, ...pasted, ...examples,
    ["a proposal in a document", "document", async (page, expect) => {
      await page.fill("#document textarea", departments);
      await page.until(READY);
      expect("typed", await page.run(`document.querySelector('[data-cell="proposal.0"]').value`), "4");
      expect("judged", await page.text(".shares .verdict td.proposed"), /No/);
    }]];
}

/** An example is opened, and the document that the page makes of it has the same Shapley shares by the native program.
 * */
async function opened(page, expect, program, top, file) {
  const document = readFileSync(join(top, "examples", file), "utf8");
  await page.fill("#document textarea", document);
  await page.until(READY);
  const made = await page.run("document.querySelector('.made pre').textContent");
  const shares = (text) => JSON.parse(execFileSync(program, ["shapley"], { input: text }).toString()).shares.join();
  if (file !== "homes.json") expect(file, shares(made), shares(document));
  if (await page.run("document.querySelectorAll('#evidence .word').length")) {
    expect(`${file}, checked`, await page.text("#evidence .words"), /says yes[\s\S]*says yes/);
  }
}

// ---- Lines that came from others

const CHECKED = "document.querySelectorAll('#verify .word').length > 0"
  + " && ![...document.querySelectorAll('#verify .word.busy')].some((word) => word.textContent.includes('at work'))";

/** What is said in the end; what was said of the line before may still come while the new one is read. */
async function said(page, pattern) {
  await page.until(CHECKED);
  return told(page, "#verify .answers", pattern);
}

async function lawyer(page, expect, line, agreed) {
  await put(page, 1, agreed);
  await page.until("document.querySelector('#verify .answers .hint')");
  await put(page, 0, line);
  const good = /Yes: these shares are the nucleolus of the agreed game[\s\S]*3.50/;
  expect("good", await said(page, good), good);
  await put(page, 0, line.replace('"-1"', '"-2"'));
  const spoilt = /says no. At level 1: by these shares what light alone would gain[\s\S]*own checker says no/;
  expect("spoilt", await said(page, spoilt), spoilt);
  await put(page, 0, line.replace("[2,4,6]", "[2,4,7]"));
  const other = /No. What heavy needs \(item 3\): the line has 7, the agreed file 6/;
  expect("other game", await said(page, other), other);
  await put(page, 0, '{"game":');
  const unread = /^This line can’t be read[\s\S]*It is no JSON text: it ends too early, in line 1, column 9/;
  expect("no json", await said(page, unread), unread);
  await put(page, 0, '{"answer":"shapley","shares":["1"]}');
  await page.until("document.querySelector('#verify .answers .notice')");
  expect("no certificate", await page.text("#verify .answers"), /no game and no certificate/);
  await put(page, 1, agreed.replace('"costs"', '"costs":[1],"costs"'));
  await page.until("document.querySelector('#verify .answers .notice')");
  await put(page, 0, line);
  const twice = /In the agreed file a key occurs twice: costs/;
  expect("a key twice", await said(page, twice), twice);
}

async function tooLong(page, expect) {
  await page.run(`(() => {
    const data = new DataTransfer();
    data.setData("text/plain", "x".repeat(8388700));
    const area = document.querySelector("#verify textarea");
    area.dispatchEvent(new ClipboardEvent("paste", { clipboardData: data, bubbles: true, cancelable: true }));
  })()`);
  expect("at once", await page.text("#verify .drop"), /longer than 8 MB/);
}

const refusedLines = REFUSED_LINES.map(([name, line, wanted]) => [`refused line: ${name}`, "verify",
  async (page, expect) => {
    await put(page, 0, line);
    expect(name, await said(page, wanted), wanted);
    expect("both", await page.text("#verify .words"), /program’s checker refuses[\s\S]*own checker refuses/);
  }]);

export function checking(top) {
  const example = (name) => readFileSync(join(top, "examples", `${name}.json`), "utf8");
  const [line, agreed] = ["airport-solved", "airport"].map(example);
  const hiding = line.replace(/"names":\[[^\]]*\]/, '"names":["light\\u202e","medium\\nheavy 9.00","heavy"]');
  return [
    ["a good line, a spoilt one, another game", "verify", (page, expect) => lawyer(page, expect, line, agreed)],
    ...refusedLines,
    ["a line with names that hide", "verify", async (page, expect) => {
      await put(page, 0, hiding);
      const escapes = /light\\u202e[\s\S]*medium\\u000aheavy 9.00/;
      expect("escapes", await said(page, escapes), escapes);
    }],
    ["a line above 8 MB is refused at once", "verify", tooLong],
  ];
}
