// Texts as people have them, pasted into the grids: what then stands in the cells, is said or asked. pasted.mjs [PART]
// tries those that have PART in their text, and shows what comes of each.
import { pastedDivision } from "../src/view/proposal.js";
import { openText } from "../src/work/case-files.js";
import { Desk, settled } from "./grids.mjs";
import { AROUND } from "./texts/around.mjs";
import { GROUPS } from "./texts/groups.mjs";
import { LINKS_AND_TRADES } from "./texts/links.mjs";
import { DIVIDED, LISTS } from "./texts/lists.mjs";

const CELLS = { costs: "numbers.1", gains: "numbers.1", network: "names.0", market: "buyers.0" };
const [only = ""] = process.argv.slice(2);
const SIGNS = /Signs of a list or a quotation before the names were left out/;
const DASHES = /The dashes between names and numbers were left out/;

const ANSWER = '\ufeff,nucleolus,"nucleolus, exact"\r\nSales,4.25,17/4\r\nOps,4,4\r\ntogether,8.25,33/4\r\n';
const OF_ANSWER = /This is a table of an answer: it has the shares/;

const MINUTES = "Minutes, item 6 - Access road to the two quarries\n\nSection A (main road, 3 km): EUR 480,000 - used "
  + "by Hartmann Quarry, Steinberg Quarry\nSection B (fork): EUR 150,000 - used by Hartmann Quarry";
const LINKS = "Works\tA\t12\nWorks\tB\t9\nA\tB\t4", LINKED = "Works|A|B|0-1|12|0-2|9|1-2|4";
const TRADES = "\thut\tflat\nAnn\t5\t9\nBo\t8\t9", SAME = "Yes, to the same by other names", NAMES = "Ann\t3\nBo\t4";
const STATUTES = "§ 9 Votes in the assembly\n(1) Each section has:\nFootball ..... 21 votes\nTennis ..... 9 votes\n"
  + "(2) Resolutions need two thirds of all votes.";
const LIGHTS = "Team\tEvenings\tLights needed until\tCost\nJuniors\t3\t19:00\t1200\nSeniors\t2\t20:00\t1800";
const PIPES = "Ketel\tA\t40\t31\t999\nKetel\tB\t55\t31\t888\nA\tB\t10\t31\t77";
const PIPES_OF = (cost) => `van\tnaar\tmeter\tprijs per m\t${cost}\n${PIPES}`;

/** A case (and a cell for the last text), a text or several, what is in the cells (null if they are as before), and
 * what is said or asked. */
const TEXTS = [
  ["costs", "Village\tAlone\nOberndorf\t480\nNiederau\t390\nSt. Veit\t350\nSum\t1220\nAll three\t690",
    "Oberndorf|Niederau|St. Veit|480|390||350|||690", /“Sum” was left out, as a sum of other lines\. “All three” is a/],
  ["costs", "Who\tTons\tPrice per ton\tAlone\nA\t4\t3\t12\nB\t6\t4\t24\nC\t3\t4\t12\nTotal\t13\t3\t39", null,
    /Which column is the cost\?/],
  ["costs", "School alone 48\nRectory alone 30\nTown hall alone 40\nSchool and rectory together 70\n"
    + "School and town hall together 80\nRectory and town hall together 60\nAll three together 100",
  "School|Rectory|Town hall|48|30|70|40|80|60|100", /“School and rectory together”, .* are groups\./],
  ["runway", `Ann 5\n${" ".repeat(2000)}x\nBo 7`, null, /nobody can part “x” for sure\..* Nothing was taken\./],
  // numbers with a unit and a time
  ["estate", "Ann\t12,000.00 EUR/year\nBo\t8,000.00 EUR/year", "Ann=12,000.00 EUR|Bo=8,000.00 EUR",
    /“\/year” behind the/],
  ["estate", "Ann\t120 € p.a.\nBo\t80 € p.a.", "Ann=120 €|Bo=80 €", /“p\.a\.” behind the numbers is taken as their/],
  ["estate", "Ann: 120 EUR per month\nBo: 80 EUR per month", "Ann=120 EUR|Bo=80 EUR", /“per month” behind/],
  ["estate", "Ann 120 EUR / Jahr\nBo 80 EUR / Jahr", "Ann=120 EUR|Bo=80 EUR", /“\/Jahr” behind/],
  ["estate", "Ann\t120 EUR/year\nBo\t80 EUR/month", null, /several units: “\/year” and “\/month”\. Give all in one/],
  ["estate", "Ann\t120 EUR/year\nBo\t80", "Ann=120 EUR/year|Bo=80", /Write the number alone, without words/],
  ["runway", "Aer\t12.50 EUR/landing\t3\nBee\t8 EUR/landing\t4", "Aer=12.50 EUR=3|Bee=8 EUR=4", /“\/landing” behind/],
  ["costs", "A\t8 EUR/year\nB\t7 EUR/year\nA+B\t12 EUR/year", "A|B|8 EUR|7 EUR|12 EUR", /“\/year” behind/],
  ["network", "From\tTo\tCost\nWorks\tA\t12 €/m\nWorks\tB\t9 €/m\nA\tB\t4 €/m", /12 €.*9 €.*4 €/, /“\/m”, the unit/],
  ["market", "\thut\tflat\nAnn\t5 EUR/year\t9 EUR/year\nBo\t8 EUR/year\t9 EUR/year", /5 EUR\|9 EUR/, /“\/year” behind/],
  // dashes between names and numbers, and signs before names
  ["estate", "Anna – 120\nBen – 80", "Anna=120|Ben=80", DASHES],
  ["runway", "Aer — 20\nBee — 40", "Aer=20=1|Bee=40=1", DASHES],
  ["votes", "Ann - 12\nBo - 8", "Ann=12|Bo=8", DASHES],
  ["costs", "A – 8 €\nB – 7 €\nA+B – 12 €", "A|B|8 €|7 €|12 €", DASHES],
  ["estate", "Hi,\nso:\nUnit 7 – 120 € (Eve)\nUnit 12– 80 €\n\nThanks, Eve", "Unit 7=120 €|Unit 12=80 €", DASHES],
  ["estate", "Anna–120\nBen–80", "Anna=120|Ben=80", DASHES], ["estate", "A–1\nB–2", "A–1|B–2"],
  ["estate", "Ann – 120\nBo 80", null, /nobody can part “Ann – 120”/],
  ["costs", "A - 8\nB - 7\nA+B - 12", null, /nobody can part “A - 8”/],
  ["estate", "> Ann\t120\n> Bo\t80", "Ann=120|Bo=80", SIGNS], ["estate", "- Ann\n- Bo", "Ann|Bo", SIGNS],
  ["votes", "• Ann 12\n• Bo 8", "Ann=12|Bo=8", SIGNS], ["estate", "•\tAnn 12\n•\tBo 8", "Ann=12|Bo=8", SIGNS],
  ["costs", "> * A: 8\n> * B: 7\n> * A+B: 12", "A|B|8|7|12", SIGNS], ["estate", "-Ann 12\n-Bo 8", "Ann=12|Bo=8", SIGNS],
  ["network", "- Works–A: 12\n- Works–B: 9\n- A–B: 4", /^Works\|A\|B/, SIGNS],
  ["estate", "1.\tAnn 120\n2.\tBo 80", "Ann=120|Bo=80", /row numbers, was left out/],
  ["estate", "Ann\t120\nBo\t80\n* without VAT", "Ann=120|Bo=80", /Left out, .*“\* without VAT”/],
  // lists of groups with several numbers
  ["costs", "Group\tCost 2024\tCost 2025\nA\t8\t9\nB\t7\t8\nA+B\t12\t13", null,
    /Which column is the cost\? “Cost 2024”/],
  ["gains", "Group\t2024\t2025\nA\t8\t9\nB\t7\t8\nA+B\t12\t13", null, /Which column is the gain\? “2024” “2025”/],
  ["costs", "Group\t2024\t2025\nA\t8\t9\nB\t7\t8\nA+B\t12\t13", "A|B|9|8|13", /“2024” was left out/, "“2025”"],
  ["costs", "A\t8\t9\nB\t7\t8\nA+B\t12\t13", "A|B|9|8|13", /“8” … was left out/, "“9, 8 …”"],
  ["costs", "No.\tGroup\tCost\n1\tA\t8\n2\tB\t7\n3\tA+B\t12", "A|B|8|7|12", /row numbers, was left out/],
  ["costs", "Group\tMembers\tCost\nA\t1\t8\nB\t1\t7\nA+B\t2\t12", "A|B|8|7|12", /“Members” was left out/],
  ["costs", "Cost 2024\tGroup\tCost 2025\n8\tA\t9\n7\tB\t8\n12\tA+B\t13", null, /Which column is the cost\?/],
  // a person without an amount is still there
  ["estate", "Anna 120\nBen 80\nRossi, M", "Anna=120|Ben=80|Rossi, M", /1 empty/],
  ["estate", "Rossi, M\nWeiss, E: 80\nDoe, J: 70", "Rossi, M|Weiss, E=80|Doe, J=70", /1 empty/],
  ["estate", "Anna: 120\nBen: 80\nCleo:", "Anna=120|Ben=80|Cleo", /1 empty/],
  ["estate", "Ann\t120\nBo\t80\nEva Weiss\n\nEve", "Ann=120|Bo=80|Eva Weiss", /Left out, .*“Eve”.*1 empty/],
  ["estate", "Rossi, Mario 120\nWeiss, Eva 80\nDoe, Jane", "Rossi, Mario=120|Weiss, Eva=80|Doe, Jane", /1 empty/],
  ["estate", "Anna: 120\nBen: 80\nCleo: ?", /Cleo=\?/, /no number: “\?”\. Write the number, or clear the cell/],
  // headings of which no word is known
  ["estate", "Namn\tBelopp\nAnna\t120\nBen\t80", "Anna=120|Ben=80", /“Namn” is “Who claims”, “Belopp” is “Claim”/],
  ["votes", "Nazwa\tKwota\nAnna\t120\nBen\t80", "Anna=120|Ben=80", /“Kwota” is “Votes”/],
  ["estate", "Ann\tdisputed\nBo\t8\nCy\t9", null, /Is “Ann; disputed” the heading of the columns\?/],
  // groups in people's own words
  ["costs", "A allein: 8 €\nB allein: 7 €\nA + B: 12 €", "A|B|8 €|7 €|12 €", /“allein” beside the names was left out/],
  ["costs", "A seul : 8\nB seul : 7\nA et B : 12", "A|B|8|7|12", /“A et B” is a group.*“seul”/],
  ["gains", "A\t8\nB (by itself)\t7\nB + A\t20", "A|B|8|7|20", /“by itself”/],
  ["gains", "only A\t8\nonly B\t7\nA/B\t20", "A|B|8|7|20", /“A\/B” is a group.*“only”/],
  ["costs", "Ann Solo\t8\nBo\t7\nAnn Solo + Bo\t9", "Ann Solo|Bo|8|7|9"],
  ["gains", "A and B 10\nA and C 9\nB and C 8\nall three 20\nalone: nothing", "A|B|C|0|0|10|0|9|8|20",
    /Taken as 0: “nothing”.*“alone” is the number of each alone: “A”, “B”, “C”/],
  ["gains", "A 1\nB 2\nA+B 9\nalone: nothing", null, /“alone” says 0, and “A” has another number alone/],
  ["gains", "A+B\t5\nA+C\t3\nA+B+C\t9", null, /no line for “A” alone, nor for “B” and “C”\. .* gains 0 alone/],
  ["gains", "A+B\t5\nA+C\t3\nA+B+C\t9", "A|B|C|0|0|5|0|3||9", /3 players, 6 groups/, "Each of them gains 0 alone"],
  ["costs", "A+B\t5\nA\t3", null, /no line for “B” alone\. Add a line .* taken\. +\|/],
  ["costs", "A 8\nB 7\nC 6\nD 5\nall three 20", null, /Is “all three” all 4 together \(“A”, .* and “D”\), or somebody/],
  ["costs", "A 8\nB 7\nC 6\nles trois 20", null, /Is “les trois” all 3 together \(“A”, “B” and “C”\), or/],
  ["costs", "A 8\nB 7\nbeide zusammen 12", "A|B|8|7|12", /“beide zusammen” is a group/],
  ["costs", "A 8\nB 7\nC 6\nD 5\nE 4", null, /these are 5 players .* 26 of 31 groups have no number/],
  ["costs", "A 8\nB 7\nC 6\nD 5\nE 4", /^A\|B\|C\|D\|E\|8\|7/, /5 players, 5 groups/, "Yes, take it"],
  ["gains", "Einkauf\tA\tB\tErsparnis\n1\tx\t\t0\n2\t\tx\t0\n3\tx\tx\t9", "A|B|0|0|9", /“Einkauf”, before .* out/],
  ["costs", "Offers\n;A;B;Cost\nV 1;1;0;8,5\nV 2;0;1;7\nV 3;1;1;9", "A|B|8,5|7|9", /“V 1 …”, before/],
  ["costs", "A alone 5, B alone 4\nA and B 7; A 3\nall 9", null, /Line 1: .*are more: “A alone 5, B alone 4”\. Give/],
  ["costs", "Part A: 480 (Kim, Lee)\nPart B: 150 (Kim)\nPart C: 90 (Lee)", null, /part with its cost and who uses it/],
  ["costs", "Dredging the harbour, in kEUR\nA 8\nB 7\nA+B 9", "A|B|8|7|9", /“Dredging the harbour, in kEUR”/],
  // amounts that are words
  ["estate", "Flat A: £380\nFlat B: £465\nShop: nil", "Flat A=£380|Flat B=£465|Shop=0", /Taken as 0: “nil”/],
  ["estate", "Ann\t12\nBo\tnéant\nCy\t5", "Ann=12|Bo=0|Cy=5", /Taken as 0: “néant”/],
  ["costs", "A – 8 €\nB – nichts\nA+B – 9 €", "A|B|8 €|0|9 €", /Taken as 0: “nichts”/],
  ["estate", "Debts of the club in kEUR\nAnn 20\nBo 30", "Ann=20|Bo=30", /“Debts of the club in kEUR”, was taken/],
  ["votes", "Quorum: 3 of 5\nAnn 1\nBo 1\nCy 3", "Ann=1|Bo=1|Cy=3", /“Quorum”, 3 of 5, was taken as votes needed/],
  ["costs", "Dorp A alleen: 12\nDorp B alleen: 11\nallebei: 18", "Dorp A|Dorp B|12|11|18", /“allebei” is a group/],
  ["estate", "Ann owes 120, Bo 80, Cy 40", "Ann=120|Bo=80|Cy=40", /parted between them/],
  ["costs", "A\t450 T€\nB\t320 T€\nA+B\t690.000 €", /450 T€/, /“450 T€”\. Write it out, as 1 200 000/],
  ["network", "Pipe quotes (GBP)\nWell - A: 42\nWell - B: 61\nA - B: 23", /^Well\|A\|B/, /“Pipe quotes \(GBP\)”, a/],
  // what there is to divide
  ["estate", "Ann\t20\nBo\t30\nAvailable in estate\t40", "Ann=20|Bo=30", /“Available in estate”, 40, was taken as the/],
  ["estate", "Ann 20\nBo 30\nFunds available for distribution: £40", "Ann=20|Bo=30", /, £40, was taken as the estate/],
  ["estate", "Ann\t20\nBo\t30\nVerfügbar\t40", "Ann=20|Bo=30", /“Verfügbar”, 40, was taken as the estate/],
  ["estate", "Actif disponible\t40\nAnn\t20\nBo\t30", "Ann=20|Bo=30", /“Actif disponible”, 40, was taken/],
  ["estate", "Ann\t20\nBo\t30\nCash at bank, net\t40", /Cash at bank/, /Is “Cash at bank, net”, 40, what/],
  ["estate", "Ann\t20\nBo\t30\nCash at bank, net\t40", "Ann=20|Bo=30", /0 empty/, "Yes, it is the estate"],
  ["estate", "Hi,\nthe estate comes to 84,000 after costs.\n\nAnn\t20\nBo\t30", "Ann=20|Bo=30",
    /no rows: “Hi,”, “the estate .*Is 84,000 what there is to divide\? Yes, 84,000/],
  ["estate", "Who\tClaim filed\tAdmitted\nAnn\t20\t20\nBo\t30\t25\nCy\t9\tno", null, /Which column is “Claim”/],
  ["estate", "Creditor\tClaim filed\tAdmitted\nAnn\t20\t20\nBo\t30\t25\nCy\t9\trejected", /Cy=rejected/,
    /no number: “rejected”\. Write a number: 0, if there is none/, "“Admitted”"],
  // votes with a second quota, or in a sentence
  ["votes", "Commune\tVoix\tHabitants\nA\t7\t4 310\nB\t5\t2 875\n\nMajorité : 10 voix et 5 000", "A=7|B=5",
    /no row: “Majorité .*“Majorité .* names a quota.*Use “Habitants” as second votes/],
  ["votes", "Commune\tVoix\tHabitants\nA\t7\t4 310\nB\t5\t2 875", /A=7\|B=5/, /“Habitants” is “Second votes”/,
    "Use “Habitants” as second votes"],
  ["votes", "8.2 The consent of at least 75% of the Shares.\nVance 41, Ruiz 26.5, Dee 15, Ott 7.5 and Trust 10",
    "Vance=41|Ruiz=26.5|Dee=15|Ott=7.5|Trust=10", /parted between them.*names a quota: type it above/],
  ["votes", "Ann 41,5, Bo 26,5 und Cy 32", "Ann=41,5|Bo=26,5|Cy=32", /parted between them/],
  ["votes", "Who\tShares\t%\nAnn\t4,100\t41.00%\nBo\t750\t7.50%", /4,100/, /^((?!Which is it).)*$/],
  // persons who are numbers
  ["estate", "Flat 12\t120\nHouse 4a\t70", "Flat 12=120|House 4a=70"],
  ["estate", "4a\t70\n4b\t80\n12\t60", "4a=70|4b=80|12=60"],
  ["estate", "#\tGläubiger\tForderung\tX\n1\tSum\t9\t\n2\t7\t5\tlate\n3\t8\t4\t", "7=5|8=4",
    /“#” was left out.*“Sum”, 9, the sum of the others, was/],
  ["votes", "1\tEUR 10\n2\tEUR 7", null, /Which column is “Who votes”\? “1, 2 …”/],
  // a table of an answer, rows that stay, and lines without a group
  ["estate", ANSWER, null, OF_ANSWER], ["costs", ANSWER, null, OF_ANSWER], ["network", ANSWER, null, OF_ANSWER],
  ["market", ANSWER, null, OF_ANSWER],
  ["market", ["\thut\tflat\nAnn\t5\t9\nBo\t8\t9", "P\t5\t6"], "hut|flat|P|Bo|5|6|8|9", /The rows below stay/],
  ["costs", ["A\t8\nB\t7\nA+B\t12", "1\n2"], "A|B|1|2|12", /The numbers below stay as they were/],
  ["estate", ["X\t1\nY\t2\nZ\t3", "P\t5"], "P=5|Y=2|Z=3", /The rows below stay as they were/],
  ["costs", "A\t8\nB\t7\n\t0\n\t0\nA+B\t12", "A|B|8|7|12", /The group of nobody was left out/],
  ["costs", "A\t8\nB\t7\nA+\t9\nA+B\t12", null, /Line 3: Beside a \+ a member is missing/],
  ["votes", "Ann\t0\nBo\t0", "Ann=0|Bo=0", /The votes add to 0/],
  ["votes", "471,1204\n112,18500", null, /Which column is “Who votes”\? “471, 112 …”/],
  ["runway", "# Flygbolag Kostnad Flyg\n1 Unit 7 20 3\n2 Unit 12 40 2", null, /nobody can part “1 Unit 7 20 3”/],
  ["estate", "12\t120\n13\t80", null, /Which column is “Who claims”/],
  ["estate", "12 120\n13 80", null, /can part “12 120”|“13 80”/],
  // tables of Word, LibreOffice, Markdown and the web
  ["estate", "Ann | 120\nBo | 80", "Ann=120|Bo=80"],
  ["estate", "Name | Claim\n--- | ---\n**Ann** | 120\nBo | 80", "Ann=120|Bo=80"],
  ["estate", '"Ann\nRoe"\t"120"\n"Bo ""B"""\t80', 'Ann Roe=120|Bo "B"=80'],
  ["estate", "Ann\u00a0120\nBo\u00a080", "Ann=120|Bo=80"],
  // amounts before names, in thousands, below zero and none
  ["estate", "120 € Anna\n80 € Ben", "Anna=120 €|Ben=80 €", /The numbers stand before the names/],
  ["estate", "120: Anna\n80: Ben", "Anna=120|Ben=80", /The numbers stand before the names/],
  ["estate", "EUR 120 to Anna\nEUR 80 to Ben", "Anna=EUR 120|Ben=EUR 80", /before the names/],
  ["estate", "120 Anna\n80 Ben", null, /nobody can part “120 Anna”/],
  ["estate", "Ann 12k\nBo 8k", "Ann=12|Bo=8", /“k” behind/],
  ["estate", "Ann\t$12k\nBo\t$8k", "Ann=$12|Bo=$8", /“k” behind/],
  ["estate", "Ann 1,2 Mio. €\nBo 0,8 Mio. €", "Ann=1,2|Bo=0,8", /“Mio\. €” behind the numbers is taken as their unit/],
  ["estate", "Ann\t1,2 Mio. €\nBo\t800 Tsd. €", null, /several units: “Mio\. €” and “Tsd\. €”/],
  ["estate", "Ann 12 km\nBo 8 km", null, /nobody can part “Ann 12 km”/],
  ["estate", "Ann\t(1,234)\nBo\t80", /Ann=/, /read as −1234 or as −1\.234.*can’t be negative/],
  ["gains", "A\t\u221220\nB\t30\nA+B\t40", "A|B|\u221220|30|40"],
  ["estate", "Ann\t120\nBo\t- €", /Bo=- €/, /Write 0, or remove it/],
  ["estate", "Ann\t120*\nBo\t80", /120/, /number alone/],
  ["costs", "A\t8k\nB\t7k\nA+B\t12k", "A|B|8|7|12", /“k” behind/],
  // links
  ["network", "Works\tA\tca. 12\nWorks\tB\t9\nA\tB\t4", null, /“ca\. 12” is no number\. Write the number alone/],
  ["network", "Works\tA\t\nWorks\tB\t9", "Works|A|B|0-2|9", /2 empty/],
  ["network", "From Works to A: 12\nFrom Works to B: 9\nFrom A to B: 4", /^Works\|A\|B/, /source: Works/],
  ["network", PIPES_OF("kosten"), "Ketel|A|B|0-1|999|0-2|888|1-2|77",
    /“meter”, “prijs per m”\. A link costs “kosten”\. Nothing says/],
  ["network", PIPES_OF("total"), null, /by “meter” No, it costs “prijs per m” No, .* “total”/],
  ["network", PIPES_OF("total"), /\|0-1\|40\*31\|/,
    /: “total”\. A link costs “meter” times “prijs per m”\./, "Yes, multiply by “meter”"],
  ["network", PIPES_OF("total"), /\|0-1\|31\|/, /: “meter”, “total”\. A/, "No, it costs “prijs per m”"],
  ["network", PIPES_OF("total"), /\|0-1\|999\|/, /A link costs “total”/, "No, it costs “total”"],
  // statutes of a PDF, times, titles with a year, and what there is
  ["votes", STATUTES, "Football=21|Tennis=9", /Left out, .*“§ 9 Votes in the assembly”, “\(1\) .*“\(2\) R.*“votes”/],
  ["votes", "Football 21 votes\nTennis 9 votes\nEach has 1 vote", "Football=21|Tennis=9", /“Each has 1 vote”/],
  ["votes", "Partei A hat 12 Sitze\nPartei B hat 9 Sitze\nMehrheit: 13 Sitze", "Partei A=12|Partei B=9",
    /“Mehrheit”, 13, was taken as votes needed/],
  ["runway", LIGHTS, null, /Which column is “Uses”\? “Evenings” None/],
  ["runway", LIGHTS, "Juniors=1200=3|Seniors=1800=2", /“Lights needed until” was left out/, "“Evenings”"],
  ["runway", "Team\tUntil\tCost\nA\t9 pm\t100\nB\t10 pm\t200", "A=100=1|B=200=1", /“Until” was left out/],
  ["estate", "Rossi, Mario\nWeiss, Eva\nDoe, Jane", "Rossi, Mario|Weiss, Eva|Doe, Jane", /3 empty/],
  ["runway", "Team\tNeeded until\nJuniors\t19:00\nSeniors\t20:00", "Juniors==1|Seniors==1", /“Needed until” was/],
  ["costs", "Boat + berth, year 2026\nA: 8\nB: 7\nA+B: 12", "A|B|8|7|12", /Left out, .*“Boat \+ berth, year 2026”/],
  ["estate", "Claims against the bakery 2026\nAnn 120\nBo 80", "Ann=120|Bo=80", /“Claims against the bakery 2026”/],
  ["estate", "Tax office 2024\nAnn 120\nBo 80", null, /can part “Tax office 2024”/],
  ["estate", "Ann: 120\nBo: 80\nVorhanden: 65,00 EUR", "Ann=120|Bo=80", /“Vorhanden”, 65,00 EUR, was taken as the/],
  // names alone are taken as such only where no number of others stands beside them, and sentences are no names
  ["network", MINUTES, null, /“Costs of each group” makes .* Nothing was taken/],
  ["network", "North\nSouth", "North|South", /Taken as the names of 2 places\./],
  ["network", [LINKS, MINUTES], LINKED, /Nothing was taken/],
  ["network", [LINKS, "North\nSouth"], LINKED, /Nothing was taken yet\. These are names alone\. Do the costs here/],
  ["network", [LINKS, "North\nSouth"], "Works|North|South|0-1|12|0-2|9|1-2|4", /the names of 2/, SAME],
  ["network", [LINKS, "North\nSouth"], "North|South", /names of 2/, "No, these are other places: empty the costs"],
  ["market", MINUTES, null, /is no name, .* row of gains; .* Nothing was taken/],
  ["market", [TRADES, "Cy\nDi"], "hut|flat|Ann|Bo|5|9|8|9", /These are names alone\. Do the numbers here/],
  ["market", [TRADES, "Cy\nDi"], "hut|flat|Cy|Di|5|9|8|9", /names of 2 traders/, SAME],
  ["market", [TRADES, "Cy\nDi"], "hut|flat|Cy|Di||||", /2 buyers/, "No, these are other traders: empty the numbers"],
  ["costs", MINUTES, null, /who uses it: “Hartmann Quarry” and “Steinberg Quarry”/],
  ["gains", MINUTES, null, /Nothing was taken/],
  ["votes", MINUTES, null, /Nothing was taken/], ["runway", MINUTES, null, /Nothing was taken/],
  ["estate", "The members met on Monday, and agreed.\nNobody was against it.", null, /is no name, .* Nothing was/],
  ["estate rows.0.claim", MINUTES, null, /These are no numbers, and this column is “Claim”/],
  ["estate rows.1.name", ["Ann\t30\nBo\t40", "Cy\nDi"], "Ann=30|Bo=40", /These are names alone/],
  ["estate rows.1.name", ["Ann\t30\nBo\t40", "Cy\nDi"], "Ann=30|Cy|Di", /2 empty/,
    "No, these are other names: empty the numbers"],
  ["votes", "Ministry for Economic Affairs and Climate Action North East\nCooper & Sons Ltd.", /^Ministry .*\|Cooper/],
  ["votes", [NAMES, "Cy\nDi"], "Cy|Di", /rows before are gone/],
  // a list in the place of another, and the number above it
  ["estate", ["Estate\t500\nAnn\t300\nBo\t400", "Cy\t90\nDi\t80"], "Cy=90|Di=80", /gone.*The estate is still 500\./],
  ["estate", ["Estate\t500\nAnn\t300\nBo\t400", "Bo\t90\nAnn\t80"], "Bo=90|Ann=80", /^(?!.*(gone|still 500))/],
  ["estate", ["Estate\t500\nAnn\t300", "Masse\t4.100,00\nCy\t90\nDi\t80"], "Cy=90|Di=80", /taken as .* was 500 before/],
  ["estate", ["Estate\t500\nAnn\t300\nBo\t400", "Estate\t70\nAnn\t300\nBo\t80"], "Ann=300|Bo=400",
    /Nothing was taken yet\. The estate has one amount above.*500, as above 70, as pasted/],
  ["estate", ["Estate\t500\nAnn\t300\nBo\t400", "Estate\t70\nAnn\t300\nBo\t80"], "Ann=300|Bo=80",
    /“Estate”, 70, was left out/, "500, as above"],
  ["votes", ["Ann\t3\nBo\t4", "Cy\t9\nDi\t8"], "Cy=9|Di=8", /rows before are gone/],
];

/** Texts that are pasted into a proposal for Sales, Ops and Legal, and the amounts, or what is said of them. */
const DEBTS = ["HM Revenue & Customs VAT 2023", "Barclay Energy Ltd", "Ms Okafor"];
const PROPOSED = [
  ["Own proposal of the mayor: Ops 8,300, Sales 9,000 and Legal 7,250", "9,000,8,300,7,250"],
  ["Sales – 4 €\nOps – 5 €\nLegal – 3 €", "4 €,5 €,3 €"], ["> - Sales: 4\n> - Ops: 5\n> - Legal: 3", "4,5,3"],
  ["Sales: 4 EUR/year\nOps: 5 EUR/year\nLegal: 3 EUR/year", "4 EUR,5 EUR,3 EUR"],
  ["| Sales | 4 |\n|---|---|\n| Ops | 5 |\n| Legal | 3 |", "4,5,3"], ['"Sales";4\n"Ops";5\n"Legal";3', "4,5,3"],
  ["Sales\nOps 4\nLegal 8", "No amount stands beside Sales. Write one amount beside each name, such as 12.50. Nothing "
    + "was taken."],
  ["Legal dept 3\nsales 4\nOps 5", "4,5,3", /by name: Sales and Ops\. Taken: “Legal dept” for Legal\./],
  ["Own proposal: Sales 4\nOps 5\nLegal 3", "4,5,3"], ["Léga: 3\nOps: 5\nMr. Sales: 4", "4,5,3"],
  ["Sales 4\nOps 5\nMarketing 3", "No row is called “Marketing”. Rows without an amount: Legal. Nothing was taken."],
  ["Sale 4\nSales team 5\nOps 3", "“Sale” and “Sales team” would both be Sales. Nothing was taken."],
  ["4\n5\n3\n12", "4,5,3", /“12” is the sum of the others, and was left out/], ["12\n4\n5\n3", "4,5,3"],
  ["4\n5\n3\n13", "These are 4 numbers for 3 rows. Nothing was taken."],
  ["HM Revenue & Customs 17,680.49\nBarclay 1,249.88\nOkafor 200\nTotal 19,130.37", "17,680.49,1,249.88,200",
    /“Barclay” for Barclay Energy Ltd.*Left out: “Total 19,130\.37”/, DEBTS],
  ["Barclay 3\nHM 4\nOkafor 4", "3,4,4", /Taken/, ["Barclay Bank", "HM Bank", "Ms Okafor"]],
  ["Bank 3\nOkafor 4", "“Bank” can be Barclay Bank or HM Bank. Nothing was taken.", /^/,
    ["Barclay Bank", "HM Bank", "Ms Okafor"]],
];

/** What comes of a text: the cells, and what is said, asked and wrong. */
async function outcome(of, text, answer) {
  const [id, cell = CELLS[id] ?? "rows.0.name"] = of.split(" ");
  const desk = new Desk(id, "."), before = desk.cells(), all = [text].flat(), first = CELLS[id] ?? "rows.0.name";
  for (const one of all) await desk.paste(one === all.at(-1) ? cell : first, one);
  const buttonOf = (title) => desk.read().buttons.find((one) => one.textContent === title);
  for (const one of [answer ?? []].flat()) await settled(await buttonOf(one)?.on.click({}));
  const { reading: { faults, empty, notes }, said, asked } = desk.read(), cells = desk.cells();
  const wrong = faults.map(({ sentence }) => sentence).join(" ");
  const told = [said, asked, wrong, `${empty.count} empty`, ...notes].join(" | ");
  return { cells: cells === before ? null : cells, told };
}

let faults = 0;
const ALL = [...TEXTS, ...AROUND, ...GROUPS, ...LISTS, ...LINKS_AND_TRADES];
for (const [id, text, cells, told, answer] of ALL.filter(([, text]) => String(text).includes(only))) {
  const found = await outcome(id, text, answer);
  const isOf = cells instanceof RegExp ? cells.test(found.cells) : cells === found.cells;
  if (only) console.log(id, JSON.stringify(text), found);
  if (isOf && (told === undefined || told.test(found.told))) continue;
  faults += 1;
  console.log(`${id}: ${JSON.stringify(text)} is\n  ${found.cells}: ${found.told}\n  and not ${cells}: ${told}`);
}
const OF_ALL = { first: 0, before: ["", "", ""] };
for (const [text, wanted, told = /^/, labels = ["Sales", "Ops", "Legal"]] of [...PROPOSED, ...DIVIDED]) {
  const { texts, fault, said = "" } = pastedDivision(text, labels, { ...OF_ALL, isOfWhole: !told.isOfToday });
  const isWanted = wanted instanceof RegExp ? wanted.test(fault) : (fault ?? texts.join()) === wanted;
  if (isWanted && told.test(said)) continue;
  faults += 1;
  console.log(`${JSON.stringify(text)}, proposed: ${fault ?? texts}, ${said}, and not ${wanted}`);
}

/** Two quotas that a text names: what is offered goes when they are typed, and heads beside per cent are none. */
{
  const desk = new Desk("votes", "."), given = "Who\tVotes\tShare %\nAnn\t1\t40\nBo\t1\t35\nCy\t1\t25\n\n"
    + "Decisions need 2/3 of the shares and at least 2 members.";
  await desk.paste("rows.0.name", given);
  await settled(desk.read().buttons.find((one) => one.textContent === "Both, with two quotas")?.on.click({}));
  const before = desk.read().said, { typed } = desk;
  for (const [cell, value] of [["quota", "2"], ["secondQuota", "2/3"]]) {
    const input = desk.grid.all().findLast((one) => one.attributes["data-cell"] === cell);
    input.on.input({ target: { value } });
  }
  const { said } = desk.read(), isGone = !/type them above|Two quotas/.test(said);
  const isOffered = /type them above\. Votes needed: 2\. Needed of the second: 2\/3/.test(before);
  const isAll = isOffered && isGone && !typed.isPercent;
  if (!isAll) console.log(`two quotas: ${before}, then ${desk.read().said}, per cent: ${typed.isPercent}`);
  faults += isAll ? 0 : 1;
}

/** Second votes are called by the heading that they were pasted below, until another list takes their place. */
{
  const desk = new Desk("votes", "."), offer = "Use “Inhabitants” as second votes";
  const heads = () => desk.grid.all().filter(({ tagName }) => tagName === "th").map((one) => one.textContent).join();
  await desk.paste("rows.0.name", "Member\tVotes\tInhabitants\nAda\t12\t2400\nBo\t9\t1900");
  await settled(desk.read().buttons.find((one) => one.textContent === offer)?.on.click({}));
  const before = heads();
  await desk.paste("rows.0.name", "Cy\t12\t2400\nDi\t9\t1900");
  const isAll = before === "Who votes,Votes,Inhabitants" && heads() === "Who votes,Votes,Second votes";
  if (!isAll) console.log(`second votes are called by their heading: ${before}, then ${heads()}`);
  faults += isAll ? 0 : 1;
}

/** Texts that lead to two questions or offers: those that are answered, and what then is offered or asked still. */
const MEMBERS = "Member\tInhabitants\tVotes\nAda\t2400\t12\nBo\t1900\t9\nCy\t900\t7\nTotal\t5200\t29";
const OWED = "Hi,\nthe estate comes to 84,000 after costs.\n\nAnn\t20,500\nBo\t30,250\nTotal\t50,800";
const SECOND = "Use “Inhabitants” as second votes", GONE = "Yes, remove it", CLAUSED = `${MEMBERS}\n\nDecisions need `
  + "at least 15 votes.";
const EXACT = MEMBERS.replace("29", "28"), BACK = "Put it back", EVEN = OWED.replace("800", "750");
const PAIRS = [
  ["votes", EXACT, [], BACK, "Ada=12|Bo=9|Cy=7"], ["votes", EXACT, [BACK], SECOND, "Ada=12|Bo=9|Cy=7|Total=28"],
  ["votes", EXACT, [SECOND], BACK, "Ada=12|Bo=9|Cy=7"], ["estate", EVEN, ["Yes, 84,000"], BACK, "Ann=20,500|Bo=30,250"],
  ["estate", EVEN, [BACK], "Yes, 84,000", "Ann=20,500|Bo=30,250|Total=50,750"],
  ["votes", MEMBERS, [GONE], SECOND, "Ada=12|Bo=9|Cy=7"], ["votes", MEMBERS, [SECOND], GONE],
  ["votes", MEMBERS, [GONE, SECOND], "", "Ada=12|Bo=9|Cy=7"], ["votes", MEMBERS, ["No, it counts"], SECOND],
  ["votes", MEMBERS, ["No, it counts", SECOND], ""], ["votes", CLAUSED, [GONE], SECOND],
  ["estate", OWED, [GONE], "Yes, 84,000", "Ann=20,500|Bo=30,250"], ["estate", OWED, ["Yes, 84,000"], GONE],
  ["costs", "Road\t4,200\tAnn, Bo\nFork\t2,100\tAnn", ["Yes, make the table of groups", "4200"], "",
    "Ann|Bo|6,300.00|4,200.00|6,300.00"],
  ["estate", OWED, ["20500, whole", GONE], "Yes, 84,000"], ["estate", OWED, ["20500, whole"], "Yes, 84,000"],
];
for (const [id, text, answers, still, cells] of PAIRS) {
  const desk = new Desk(id, "."), buttonOf = (title) => desk.read().buttons.find((one) => one.textContent === title);
  await desk.paste(CELLS[id] ?? "rows.0.name", text);
  for (const one of answers) await settled(buttonOf(one)?.on.click({}));
  const isAny = desk.read().buttons.some(({ textContent }) => textContent === SECOND || textContent === GONE);
  if ((still ? buttonOf(still) : !isAny) && (cells === undefined || desk.cells() === cells)) continue;
  faults += 1;
  console.log(`${id}: ${JSON.stringify(text)}, after ${answers}: ${desk.cells()}, ${desk.read().said}, not ${still}`);
}

/** Texts about which something is asked, and what is asked again when the case was left and is shown again. */
const LEFT = [
  ["network", "\tA\tB\tC\nA\t-\t4\t5\nB\t4\t-\t6\nC\t5\t6\t-", /Which point is the source\?/],
  ["network", "Works\tA\t40\t50\nWorks\tB\t30\t33", /Which column is the cost\?/],
  ["network", PIPES_OF("total"), /looks like a price for each/], ["network", [LINKS, "North\nSouth"], /names alone/],
  ["runway", "Airline\tAircraft\tTurns\tNeed\nAer\tATR\t1,240\t3,150\nBee\tB7\t310\t4,800", /Which column is/],
  ["costs", "Group\t2024\t2025\nA\t8\t9\nB\t7\t8\nA+B\t12\t13", /Which column is the cost\?/],
  ["market", "\thut\tflat\nAnn\t5\t9\nBo\t8\t9\nReserve\t6\t4", /looks like the least that sellers take/],
  ["market", "A\t4\nB\t5\n\nX\t1\nY\t2", /Whose limit prices are those/],
  ["market", "\tTown\thut\tflat\nAnn\tUlm\t5\t9\nBo\tBonn\t8\t9", /“Town” seems to be no trader/],
];
for (const [id, text, asked] of LEFT) {
  const desk = new Desk(id, ".");
  for (const one of [text].flat()) await desk.paste(CELLS[id] ?? "rows.0.name", one);
  const before = desk.read().said;
  desk.open(desk.typed);
  await settled();
  const { said } = desk.read();
  if (asked.test(before) && asked.test(said)) continue;
  faults += 1;
  console.log(`${id}: ${JSON.stringify(text)}, left and shown again: ${said}, and not ${asked}, as ${before}`);
}

/** Tables that take the place of one whose decimal mark was said: what can be read in two ways is asked about anew. */
const ANEW = [["estate", "Ann\t48,000\nBo\t21,000"], ["costs", "A\t48,000\nB\t21,000\nA+B\t60,000"],
  ["network", "From\tTo\tCost\nWell\tA\t48,000\nWell\tB\t21,000\nA\tB\t12,000"],
  ["market", "\tHut\tFlat\nAnn\t48,000\t21,000\nBo\t12,000\t33,000"]];
for (const [id, text] of ANEW) {
  const desk = new Desk(id, ",");
  desk.typed.isMarked = true;
  await desk.paste(CELLS[id] ?? "rows.0.name", text);
  const { asked } = desk.read();
  if (/can be read as 48000 or as 48/.test(asked)) continue;
  faults += 1;
  console.log(`${id}: ${JSON.stringify(text)} over a table whose mark was said: ${asked || "nothing is asked"}`);
}

/** Texts that are opened as a document, and what is said of them. */
const OPENED = [
  [ANSWER, /table of an answer: .* “Save the case” makes a file that opens here/],
  ["User,Uses,Needs alone\nAer,3,20\nBee,2,40\n", /no saved case\. Choose “A runway”: it goes/],
  ["Anna;120\nBen;80", /This is a table, and no saved case\. Choose the case that it is of/],
  ['"Anna";"120"\n"Ben";"80"', /This is a table/], ["{,}", /It is no JSON text/], ["Dear all", /This is no document/],
];
for (const [text, wanted] of OPENED) {
  const { refusal } = openText({ text, mark: "." });
  if (wanted.test(refusal?.sentence)) continue;
  faults += 1;
  console.log(`${JSON.stringify(text)}, opened: ${refusal?.sentence}, and not ${wanted}`);
}
console.log(`${ALL.length} texts that people paste, ${faults} faults`);
process.exit(faults ? 1 : 0);
