// Lines that came from others, without a browser: whether the game is the agreed one and where it differs, names that
// look alike, texts that mail programs have changed, amounts as people list them, and the reasons of an estate.
import { parseJson } from "../src/exact/json.js";
import { Game } from "../src/game/game.js";
import { remarksOf } from "../src/game/names.js";
import { leftOut, mended, unreadable } from "../src/tell/mail.js";
import { ruleFile, ruleName } from "../src/tell/rule-names.js";
import { ruleOf } from "../src/tell/rules.js";
import { Namer } from "../src/tell/words.js";
import { Rational } from "../src/exact/rational.js";
import { isOfGame, lookAtLine } from "../src/work/lines.js";
import { amountsIn } from "../src/work/others.js";
import { ask } from "./program.mjs";

let tried = 0, faults = 0;

function expect(what, found, wanted) {
  tried += 1;
  if (wanted instanceof RegExp ? wanted.test(found) : found === wanted) return;
  faults += 1;
  console.log(`${what}: found ${JSON.stringify(found)}, wanted ${wanted}`);
}

// ---- A line of a refusal, which comes without its document

const OF_REFUSALS = [[3, "Shape", "the form that the program reads"], [5, "Number", "one of the numbers"]];
for (const [number, name, wanted] of OF_REFUSALS) {
  const { fault } = lookAtLine({ line: `{"number":${number},"refused":"${name}"}`, agreed: "" }, ask);
  expect(`a refusal ${number}`, fault.includes(wanted) && !fault.includes("missing"), true);
}

// ---- Is it the agreed game?

const names = '"names":["Adler","Brandt","Chopra"]';
const estate = (rest) => `{"game":{"class":"bankruptcy",${rest}}}`;
const agreed = estate(`"estate":200,"claims":[100,200,300],${names}`);

const REFUSED = /^Nobody can say: the program refuses the agreed file\. /;

/** The line, the agreed file, whether it is the same, and the sentence with the places. */
const SAME = [
  ["entry for entry", agreed, agreed, true, /entry for entry/],
  ["spaces", agreed.replaceAll(",", ", "), agreed, true, /entry for entry/],
  ["version 2", agreed.replace('"class"', '"version":2,"class"'), agreed, true, /written differently \(version\)/],
  ["the measure", agreed.replace('"class"', '"excess":"plain","class"'), agreed, true, /differently \(excess\)/],
  ["decimals", agreed, agreed.replace("200,", "200.00,"), null, REFUSED],
  ["an exponent", agreed, agreed.replace(":200", ":2e2"), null, REFUSED],
  ["numbers in quotes", agreed, agreed.replace("[100", '["100"'), null, REFUSED],
  ["a half", agreed.replace("[100", '["201/2"'), agreed.replace("[100", "[100.5"), null, REFUSED],
  ["the game alone", agreed, agreed.slice(8, -1), true, /the game alone, without/],
  ["another order", agreed, estate('"estate":200,"claims":[300,100,200],"names":["Chopra","Adler","Brandt"]'), true,
    /same names and numbers, in another order/],
  ["claims that changed places", agreed.replace("[100,200", "[200,100"), agreed, false,
    /claim of Adler \(item 1\): the line has 200, the agreed file 100[\s\S]*claim of Brandt \(item 2\)/],
  ["all differences", agreed.replace(":200", ":250").replace("[100", "[101").replace("300]", "90]"), agreed, false,
    /the estate: the line has 250, the agreed file 200[\s\S]*claim of Adler[\s\S]*Chopra \(item 3\): .* 90, .*300/],
  ["per head", agreed.replace('"class"', '"excess":"per-head","class"'), agreed, false,
    /How a group’s loss counts: the line has “per head”, the agreed file “as a whole”/],
  ["a no-break space", agreed.replace("Adler", "Ad\u00a0ler"), agreed.replace("Adler", "Ad ler"), false,
    /look alike, but at letter 3 the line has a no-break space \(\\u00a0\), and the agreed file a blank/],
  ["a Cyrillic letter", agreed.replace("Brandt", "Br\u0430ndt"), agreed, false, /“\u0430” \(Cyrillic, \\u0430\)/],
  ["two ways to write an accent", agreed.replace("Adler", "A\u0308dler"), agreed.replace("Adler", "\u00c4dler"), false,
    /“A” and an accent by itself \(\\u0308\), and the agreed file “Ä”/],
  ["a claim above the estate", agreed.replace("300]", "250]"), agreed, null,
    /^Worth the same, [\s\S]* looks at the claims may give other shares.\nthe claim of Chopra .* 250, .* 300/],
  ["no names", agreed.replace(`,${names}`, ""), agreed, false, /The names: the line has none/],
  ["a text that is none", agreed, "Adler;100", null, /Nobody can say: the agreed file can’t be read/],
  ["no game", agreed, "{}", null, /the agreed file has no game/],
  ["a key twice", agreed, agreed.replace('"claims"', '"claims":[1],"claims"'), null, /a key occurs twice: claims/],
  ["nonsense", agreed, '{"game":{"class":{},"names":[[]],"excess":{}}}', null, /doesn’t have the form of a game/],
];

for (const [name, line, file, isYes, wanted] of SAME) {
  const { same } = lookAtLine({ line, agreed: file }, ask);
  expect(name, same.isYes, isYes);
  expect(`${name}, told`, [same.sentence, ...(same.items ?? [])].join("\n"), wanted);
}

const links = (cost) => `{"game":{"class":"tree","matrix":[[0,5,8],[5,0,${cost}],[8,${cost},0]]}}`;
expect("a link once", lookAtLine({ line: links(3), agreed: links(4) }, ask).same.sentence,
  /^No. The link from player 1 to player 2: the line has 3, the agreed file 4.$/);

// ---- Games that only look the same

const costs = (rest) => `{"game":{"class":"cost-table","players":3,"names":["Ann","Bob","Cem"],${rest}}}`;
const some = '"sparse":[[["Ann"],100],[["Bob"],100],[["Cem"],100],[["Ann","Bob"],150],[["Ann","Bob","Cem"],210]]';
const turned = '"class":"cost-table","players":3,"names":["Bob","Ann","Cem"],';
const [dear, cheap] = [160, 115].map((rest) => costs(`"default":${rest},${some}`));
const oneWay = '{"game":{"class":"tree","matrix":[[0,5,8],[5,0,3],[8,4,0]]}}', both = '"worths":[1,1,1,1,1,1,90]';
const network = (names, matrix) => `{"game":{"class":"tree","names":${JSON.stringify(names)},"matrix":${matrix}}}`;
const twice = '{"game":{"class":"table","players":2,"sparse":[[[2],7],[[1,2],9],[[2],5]]}}';

/** Games of which one is refused, or which differ where neither lists anything. */
for (const [name, line, file, isYes, wanted] of [
  ["another default", cheap, dear, false, /^No. Every group that isn’t listed: the line has 115, the agreed file 160/],
  ["a default and none", costs(some), dear, false, /the line has 0, the agreed file 160/],
  ["none and a default", dear, costs(some), false, /the line has 160, the agreed file 0/],
  ["another default, in another order", cheap.replace(/"class".*?"Cem"\],/, turned), dear, false, /isn’t listed/],
  ["the default itself", dear, dear.replace('"default":160,', '"default":160, '), true, /entry for entry/],
  ["a default that no group takes", costs('"worths":[1,1,1,1,1,1,2]'),
    costs('"default":7,"sparse":[[[1],1],[[2],1],[[3],1],[[1,2],1],[[1,3],1],[[2,3],1],[[1,2,3],2]]'), true, /same/],
  ["a network in another order", network(["a", "b", "c"], "[[0,1,2,3],[1,0,4,5],[2,4,0,6],[3,5,6,0]]"),
    network(["c", "a", "b"], "[[0,3,1,2],[3,0,5,6],[1,5,0,4],[2,6,4,0]]"), true, /in another order/],
  ["and with another link", network(["a", "b", "c"], "[[0,1,2,3],[1,0,4,5],[2,4,0,6],[3,5,6,0]]"),
    network(["c", "a", "b"], "[[0,3,1,2],[3,0,5,1],[1,5,0,4],[2,1,4,0]]"), false, /The link from b to c/],
  ["and with another that nobody needs", network(["a", "b", "c"], "[[0,1,2,3],[1,0,4,5],[2,4,0,6],[3,5,6,0]]"),
    network(["c", "a", "b"], "[[0,3,1,2],[3,0,5,7],[1,5,0,4],[2,7,4,0]]"), null,
    /A rule that looks at the links may give other shares. The players stand in another order/],
  ["a link of two costs", links(3), oneWay, null, REFUSED],
  ["sparse and worths", costs(some), costs(`${some},${both}`), null, REFUSED],
  ["a measure that isn’t there", dear, dear.replace('"class"', '"excess":"perhead","class"'), null, REFUSED],
  ["a group twice", '{"game":{"class":"table","players":2,"worths":[0,5,9]}}', twice, null, REFUSED],
  ["a player twice in a group", '{"game":{"class":"table","players":2,"worths":[0,5,9]}}',
    '{"game":{"class":"table","players":2,"sparse":[[[2,2],5],[[1,2],9]]}}', null, REFUSED],
  ["a line that is refused", oneWay, links(3), null, /^Nobody can say: the program refuses the line\. /],
  ["both differ, and one is refused", dear, cheap.replace('"default"', '"excess":"perhead","default"'), null,
    /they differ at:[\s\S]*how a group’s loss counts[\s\S]*isn’t listed/i],
]) {
  const { same } = lookAtLine({ line, agreed: file }, ask);
  expect(name, same.isYes, isYes);
  expect(`${name}, told`, [same.sentence, ...(same.items ?? [])].join("\n"), wanted);
}
expect("and no check of it", isOfGame({ line: cheap, agreed: "", text: dear }, ask), false);
expect("nor by the agreed file", isOfGame({ line: cheap, agreed: dear.replace(/"sparse"/, '"sparsed":1,"sparse"'),
  text: dear }, ask), false);

/** Games of two classes, or by other numbers, and large ones. */
const air = (rest, more = "") => `{"game":{"class":"airport","costs":[${rest}]${more}}}`;
const air3 = ',"names":["a","b","c"]', asTable = '"names":["a","b","c"],"worths":[2,4,4,6,6,6,';
const votes = (quota, list) => `{"game":{"class":"voting","quota":${quota},"weights":[${list}]}}`;
const ones = (count, last = 1) => [...Array(count - 1).fill(1), last].join();
const claims = (estate, last) => `{"game":{"class":"bankruptcy","estate":${estate},"claims":[${ones(40, last)}]}}`;
const pairs = (kind, matrix) => `{"game":{"class":"${kind}","matrix":${matrix}}}`;
for (const [name, line, file, outcome, wanted] of [
  ["a runway as a table", air("2,4,6", air3), `{"game":{"class":"cost-table","players":3,${asTable}6]}}`,
    "worth the same", /what each needs may give other shares. The program doesn’t answer the same questions/],
  ["and in another order", air("4,6,2", air3.replace('"a","b","c"', '"b","c","a"')),
    `{"game":{"class":"cost-table","players":3,${asTable}6]}}`, "worth the same", /stand in another order/],
  ["and another", air("2,4,6", air3), `{"game":{"class":"cost-table","players":3,${asTable}7]}}`, "another",
    /They differ at:\nthe class: [\s\S]*all together cost 6 by the line, and 7 by the agreed file/],
  ["other votes", votes(2, "1,1,1"), votes(7, "3,4,5"), "worth the same", /A rule that looks at the votes may/],
  ["other votes of many", votes(10, ones(20)), votes(20, Array(20).fill(2).join()), "nobody can say", /too many/],
  ["a claim of many above the estate", claims(20, 21), claims(20, 22), "worth the same", /the claims may/],
  ["a claim of many below it", claims(20, 19), claims(20, 18), "another", /claim of player 40 \(item 40\)/],
  ["a runway of many", air(ones(64)), air(ones(64, 2)), "another", /What player 64 needs/],
  ["a market of many", pairs("market", `[[${ones(32)}]]`), pairs("market", `[[${ones(32, 2)}]]`), "another", /gain/],
  ["a market as an assignment", pairs("market", "[[1,2]]"), pairs("assignment", "[[1,2]]"), "worth the same",
    /looks at the pairs may[\s\S]*the class: the line has market/],
]) {
  const { same } = lookAtLine({ line, agreed: file }, ask);
  expect(name, same.outcome, outcome);
  expect(`${name}, told`, [same.sentence, ...same.items].join("\n"), wanted);
}

const table = (rest) => `{"game":{"class":"table","players":3,"names":["a","b","c"],${rest}}}`;
const byName = table('"sparse":[[["a","b"],4],[["a","b","c"],6]]'), byMask = table('"worths":[0,0,4,0,0,0,6]');
expect("a table by names and by masks", lookAtLine({ line: byName, agreed: byMask }, ask).same.isYes, true);
expect("a group by its names", lookAtLine({ line: byName, agreed: byMask.replace("4", "5") }, ask).same.sentence,
  /^No. The group a \+ b: the line has 4, the agreed file 5.$/);
const many = `{"game":{"class":"airport","costs":[${Array.from({ length: 30 }, (_, k) => k)}]}}`;
const others = `{"game":{"class":"airport","costs":[${Array.from({ length: 30 }, (_, k) => k + 1)}]}}`;
expect("ten places, and how many more", lookAtLine({ line: many, agreed: others }, ask).same.items.join(),
  /20 more places/);

// ---- Names

/** Names, and what is told of them; "" where nothing is. */
const NAMES = [
  [["Holm", "H\u043elm"], /“\u043e” \(Cyrillic, \\u043e\)[\s\S]*Names 1 and 2 look alike, as “Holm”/],
  [["Holm", "Ho1m"], /Names 1 and 2 look alike/], [["Bo", "B0"], /look alike/],
  [["Holm KG", "HOLM KG"], /differ by capitals alone/], [["Ann", "Ann "], /look alike/],
  [["Ann", "\u3164"], /\\u3164[\s\S]*looks empty/], [["Ann", " "], /Name 2 looks empty/],
  [["Ann", "Summe"], /Is it the sum of the others/], [["Ann", "together"], /Is it the sum/],
  [["\u039fslo", "Oslo"], /Greek[\s\S]*look alike/], [["Kr\u00fcger", "Kru\u0308ger"], /look alike/],
  [["Holm", "Holme"], ""], [["Krüger", "Kruger"], ""],
  [["Ann", "Ben"], ""], [["Player 1", "Player 2", "Player 12"], ""], [["Группа", "Δήμος"], ""],
  [["Müller", "Yıldız", "Strauß & Söhne"], ""], [["Team α", "Team β"], ""],
];
for (const [some, wanted] of NAMES) expect(some.join(" | "), remarksOf(some).join("\n"), wanted);

// ---- Mail

const plain = '{"a":"one two","b":[1,2]}', read = (text) => mended(text) ?? "";
for (const [name, text, told] of [
  ["a mark in front", `\ufeff${plain}`, /nobody sees/],
  ["an answer", `> ${plain.replace(",", ",\n> ")}`, /begin with “>”/],
  ["a letter around it", `Dear all,\n${plain}\nYours`, /before the first \{[\s\S]*after the last \}/],
  ["an answer, wrapped, with braces around", `{s. u.}\n> ${plain.replace("tw", "t\n> w")}\n\nGruß {F}`, /with “>”/],
  ["quoted by bars", `| ${plain.replace("tw", "t\n| w")}`, /with “>”/],
  ["broken lines", plain.replace("tw", "t\nw"), /broken into lines/],
  ["packed", plain.replaceAll(",", "=2C").replace("one", "o=\nne"), /quoted-printable/],
  ["quote marks", plain.replace(/"(\w)/g, "“$1").replace(/"/g, "”"), /typographic/],
]) {
  expect(name, JSON.stringify(JSON.parse(read(text).replace(/\n/g, "") || "0")), plain);
  expect(`${name}, told`, unreadable(text).join("\n"), told);
}
for (const [text, left] of [
  [`Dear all,\n> ${plain.replace(",", ",\n> ")}\nBest, Eva`, "“Dear all,”, “Best, Eva” and 2 signs of quotation"],
  [`\ufeff${plain.replace("tw", "t\nw")}`, "1 mark that nobody sees and 1 line break"],
  [`a\nb\nc\nd\ne\n${plain}`, "“a”, “b”, “c” and 2 more lines"], [`{s. u.}\n${plain}\nF`, "“{s. u.}” and “F”"],
  [plain.replace(/"(\w)/g, "“$1").replace(/"/g, "”"), "6 typographic quote marks"],
  [plain.replace(",", ",\u00a0"), "1 hard blank"],
  [plain.replaceAll(",", "=2C").replace("one", "o=\nne"), "3 “=” of a packed text"],
]) expect(`left out of ${JSON.stringify(text)}`, leftOut(text), left);
expect("a saved case as the agreed file", lookAtLine({ line: plain, agreed: '{"coop-page":1,"document":{}}' }, ask)
  .same.sentence, /It is a saved case of this page\. .* and then its game is offered here\./);
expect("nothing to mend", mended('{"a":'), null);
expect("no other advice beside the way", unreadable(`> ${plain}`, true).join(), "Its lines begin with “>”, as in the "
  + "answer to a mail.");

// ---- Amounts, names of rules, and the reasons of an estate

/** What is typed, and the amounts with what is told of them. */
const AMOUNTS = [
  ["1 000 000; 2 000 000", "1000000 2000000"], ["1\u202f200\u202f000", "1200000"], ["500; 1000", "500 1000"],
  ["500 1000", "500 1000"], ["EUR 1000000", "1000000"], ["€ 500; 700 EUR", "500 700"], ["100\n200", "100 200"],
  ["1\u00a0000\u00a0000;5", "1000000 5"], ["x; 5", "“x” is no number. 5"],
];
for (const [typed, wanted] of AMOUNTS) {
  expect(typed, amountsIn(typed, ".").map(({ value, fault }) => String(value ?? fault)).join(" "), wanted);
}
expect("one amount", amountsIn("1 200 000", ".")[0].note, /read as one amount/);
expect("settled by another", amountsIn("1,200; 900,50", ".").map(({ value, note }) => `${value} ${note}`).join(),
  "6/5 undefined,1801/2 undefined");
expect("a doubt", amountsIn("1.200; 1,200", ".").map(({ note }) => note).join(), /1.200” is read as 1.20:.*1,200” is/);

expect("per head", ruleName("prenucleolus", true), "prenucleolus per head");
expect("as a whole", ruleName("nucleolus", false), "nucleolus");
expect("Shapley", ruleName("shapley", true), "Shapley shares");
expect("a file", ruleFile("nucleolus", true), "nucleolus-per-head");

function reasons(document, shares) {
  const game = new Game(parseJson(document).game), rule = ruleOf(game, shares.map(Rational.of), new Namer(game));
  return [...rule.sentences, rule.last].join(" ");
}
expect("where the most comes from", reasons(agreed, ["50", "75", "75"]),
  /at most 75\. Half is no more than that for one claim: 50 of the 200\. The rest is 150, in 2 equal parts of 75\./);
expect("not in proportion", reasons(agreed, ["50", "75", "75"]),
  /get 33.33\u202f% of its claim\. By the Talmud’s rule Adler and Brandt get more than that, and Chopra less\./);
expect("only the largest gets more", reasons('{"game":{"class":"bankruptcy","estate":54,"claims":[12,31,44,5],'
  + '"names":["A","B","C","D"]}}', ["6", "65/4", "117/4", "5/2"]), /rule C gets more than that, and A, B and D less\./);
expect("of many", reasons(`{"game":{"class":"bankruptcy","estate":35,"claims":[${Array(7).fill(10)}, 20]}}`,
  [...Array(7).fill("35/8"), "35/8"]), /rule 7 claims get more than that, and 1 claim less\./);
expect("just in proportion", /proportion/.test(reasons(agreed.replace(":200", ":300"), ["50", "100", "150"])), false);

console.log(`lines and names: ${tried} expectations, ${faults} faults`);
process.exit(faults ? 1 : 0);
