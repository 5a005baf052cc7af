// Texts of an estate and of votes with lines around their list, list numbers, remarks and quotas in words, as rows of
// pasted.mjs.
import { MUCH } from "./much.mjs";

const MINUTES = "Minutes of the consortium meeting, 24 November 2026", PARTNERS = "Leeds 5\nGraz 4\nETH 2";
const IN_PARTNERS = "Leeds=5|Graz=4|ETH=2", ON_LIST = /The numbers of the list before the names were left out\./;
const REGISTER = "WEG Lindenstraße 12 – Eigentümer (Stand: 01.10.2026)\nWhg.\tEigentümer\tMEA\n"
  + "1\tFam. Schulz\t120,5/1000\n2\tKern, Ute\t98,25/1000\n3\tBank AG\t781/1000";
const BARS = "Concurso — Muebles Ríos S.L.\nAcreedor | Crédito | Notas\nHacienda | 18.200,00 € | crédito público\n"
  + "Maderas | 33.100,00 € | factura 2024/117\nMasa activa | 35.000,00 € |";
const MARKDOWN = "### Weights (rev. 3, 2026-11-20)\n\n| # | Partner | Weight | Contact |\n|---|---|---:|---|\n"
  + "| 1 | Aalto | 25 | a@aalto.example |\n| 2 | KTH | 30 | k@kth.example |\n\nQuota: 60 % of weights";
const NOTES = "Table 2: Claims by class (USD m)\nNoteholders¹ 450\nPension fund 310\nTrade creditors² 95\n\n"
  + "¹ including interest to 1 May 2026\n² estimate of the administrator\nSource: Administrator's report, p. 14";
const COUNCIL = "Commune\tDélégués\tPopulation\nSaint-Jean\t6\t12 450\nVilleneuve\t4\t7 800";
const MAIL = "From: Karin Lund\nSent: Monday, 9 November 2026 08:14\n\nDear all,\nthese are the claims we know of:\n\n"
  + "1) Lift (season 25/26): NOK 148 000\n2) Ski school: NOK 62 500\n3) Bus company (2 invoices): NOK 9 750\n\n"
  + "On the account there are NOK 120 000.\nBest\nKarin";
const GRANTS = "Top 5: Verteilung der Fördermittel\nSportverein: 12.000 Euro\nMusikschule: 8.500 Euro\n"
  + "Zur Verfügung stehen 18.000 Euro.";

export const AROUND = [
  ...MUCH,
  // titles with a date, agenda items, sections, notes, numbers of files, and what the numbers are in
  ["votes", `${MINUTES}\n\nItem 4: Voting rights\n${PARTNERS}`, IN_PARTNERS,
    /Left out, as these are no rows: “Minutes of the consortium meeting, 24 November 2026”, “Item 4: Voting rights”\./],
  ["votes", `${MINUTES}\nItem 4: Voting rights\nLeeds\t5\nGraz\t4\nETH\t2`, IN_PARTNERS, /“Item 4: Voting rights”\./],
  ["votes", `${PARTNERS}\nGraz, den 24.11.2026`, IN_PARTNERS, /Left out, .*“Graz, den 24\.11\.2026”/],
  ["estate", `${MINUTES}\n\nUniversity of Leeds, Department of Physics 120.50\nTechnical University of Graz 80.50`,
    "University of Leeds, Department of Physics=120.50|Technical University of Graz=80.50", /Left out, .*“Minutes of/],
  ["estate", "Item 1 120\nItem 2 80.50", null, /part “Item 1 120”/],
  ["estate", "Item A: 120\nItem B: 80", "Item A=120|Item B=80"],
  ["estate", "Fallimento n. 45/2025\nCreditore: Importo\nINPS: 22.300,50\nRossi Mario: 4.500,00",
    "INPS=22.300,50|Rossi Mario=4.500,00", /“Fallimento n\. 45\/2025”\. .*“Creditore” is “Who claims”/],
  ["estate", NOTES, "Noteholders=450|Pension fund=310|Trade creditors=95",
    /“Table 2: Claims by .*”, “¹ in.*The marks of notes were left out: “¹”, “²”\./],
  ["estate", "Requests 2027 (in thousand EUR)\nHealth: 980\nRoads: 640", "Health=980|Roads=640",
    /Left out, .*“Requests 2027 \(in thousand EUR\)”\./],
  ["votes", "Voting power (per cent of total)\nUS 16.5\nJapan 6.1", "US=16.5|Japan=6.1", /“Voting power \(per cent/],
  ["votes", "Common shares:\nAlice 400\nBob 350\nPreferred shares:\nSeedfund 250", "Alice=400|Bob=350|Seedfund=250",
    /“Common shares:”, “Preferred shares:”\./],
  ["estate", "Ann 120\nBo 80\nThe meeting closed at 16:45.", "Ann=120|Bo=80", /“The meeting closed at 16:45\.”/],
  ["estate", "Heirs of Maria Gruber\nSpouse 1/2\nSon 1/4\nNiece 1/8", "Spouse=1/2|Son=1/4|Niece=1/8",
    /The first line, “Heirs of Maria Gruber”, was taken as a heading/],
  ["estate", "Family of Maria\nSpouse 1/2\nSon 1/4\nNiece 1/8", null, /Is “Family of Maria” the heading/],
  ["estate", "Family of Maria\nSpouse 1/2\nSon 1/4\nNiece 1/8", "Spouse=1/2|Son=1/4|Niece=1/8",
    /The first line, “Family of Maria”, was taken as a heading\./, "Yes, the heading"],
  // numbers of a list before names
  ["votes", "1. Lindau 12\n2. Bregenz 9\n3. Rorschach 7\nQuorum: 17", "Lindau=12|Bregenz=9|Rorschach=7", ON_LIST],
  ["votes", "a) City of Graz: 40 votes\nb) Friends of the Museum: 10 votes",
    "City of Graz=40|Friends of the Museum=10", ON_LIST],
  ["estate", "1) Bauer KG – 12.500,– EUR\n2) Holz – 8.750,50 EUR\nzu verteilen: 15.000,– EUR",
    "Bauer KG=12.500,– EUR|Holz=8.750,50 EUR", /The numbers of the list .*The dashes between.*“zu verteilen”, 15\.000/],
  ["estate", "1. Leeds 120.50 (fares 2024)\n2. Graz 80 (equipment)", "Leeds=120.50|Graz=80", ON_LIST],
  ["estate", "1. Leeds\t120.50\t(fares)\n2. Graz\t80\t(staff)", "Leeds=120.50|Graz=80", ON_LIST],
  ["estate", "1. Bundesliga 12\n2. Bundesliga 9", "Bundesliga=12|Bundesliga=9", /occurs twice/],
  ["estate", "1. Ann\n2. Bo", "Ann|Bo", ON_LIST],
  // remarks behind numbers, and columns of them
  ["estate", "Partner A (Leeds) 120,000.00 EUR (fares 2024)\nPartner B (Graz) 80,000.00 EUR (staff)",
    "Partner A (Leeds)=120,000.00 EUR|Partner B (Graz)=80,000.00 EUR", /Left out behind numbers: “\(fares 2024\)”/],
  ["estate", "Leeds\t120.50\t(fares 2024)\nGraz\t80\t(staff)", "Leeds=120.50|Graz=80", /“\(fares 2024\)” … was left/],
  ["votes", "Lista;8;maggioranza\nLega;3;opposizione", "Lista=8|Lega=3", /“maggioranza” … was left out\./],
  ["estate", "Smith, John; 12.50; loan 2019\nJones, Mary; 8.50;", "Smith, John=12.50|Jones, Mary=8.50", /“loan 2019”/],
  ["estate", "Huber\tJosef\t12.50\nMaier\tEva\t9", null, /Which column is “Who cl.*“Huber, Maier …” “Josef/],
  ["estate", "Huber\tJosef\t12.50\nMaier\tEva\t9", "Huber=12.50|Maier=9", /“Josef” … was left out/, "“Huber, Maier …”"],
  ["estate", "Huber\t12.50\t60%\nMaier\t9\t40%", null, /Which column is “Claim”\? “12\.50, 9 …” “60, 40 …”/],
  ["estate", "Ann\t120\tBo\t80\nCy\t40\tDi\t30", null, /These rows have 4 cells/],
  ["votes", MARKDOWN, "Aalto=25|KTH=30", /“### Weights.*“Contact” was left .*“Quota”, 60 % of weights, was/],
  ["estate", BARS, "Hacienda=18.200,00 €|Maderas=33.100,00 €", /“Concurso — Mueb.*“Masa activa”, 35\.000,00 €, /],
  ["votes", REGISTER, "Fam. Schulz=120,5|Kern, Ute=98,25|Bank AG=781", /“MEA” is “Votes”.*“\/1000” behind the numbers/],
  ["votes", COUNCIL, null, /Which column is “Votes”\? “Délégués” “Population” Both, with two quotas/],
  // quotas in words, above and below
  ["votes", `${PARTNERS}\nDecisions need a simple majority.`, IN_PARTNERS, /names a quota.* needed: more than 1\/2/],
  ["votes", `${PARTNERS}\ntwo-thirds majority`, IN_PARTNERS, /names a quota.* Votes needed: two-thirds/],
  ["votes", `Two-thirds majority\n${PARTNERS}`, IN_PARTNERS, /Votes needed: Two-thirds/],
  ["votes", `${PARTNERS}\nNeeded: at least 50 % + 1`, IN_PARTNERS, /“Needed”, at least 50 % \+ 1, was taken as votes/],
  ["votes", `${PARTNERS}\nMeerderheid: 6 zetels`, IN_PARTNERS, /“Meerderheid”, 6.*, was taken as votes needed/],
  ["votes", `${PARTNERS}\nResolutions pass with 75%`, IN_PARTNERS, /Votes needed: 75%/],
  ["votes", `${PARTNERS}\nQuórum: mayoría absoluta`, IN_PARTNERS, /“Quórum”, mayoría absoluta, was taken/],
  ["votes", `${PARTNERS}\nMaggioranza: due terzi dei voti`, IN_PARTNERS, /“Maggioranza”, due terzi dei voti, was/],
  ["votes", `${PARTNERS}\nBesluiten vereisen twee derde van de stemmen.`, IN_PARTNERS, /Votes needed: twee derde/],
  ["votes", `${PARTNERS}\nMajority Trust 3`, `${IN_PARTNERS}|Majority Trust=3`],
  ["estate", "Ann - £120.50\nBo - £80\nRealised assets after costs: £90", /^Ann=/, /Is “Realised assets after costs”/],
  ["votes", "Gemeinderat (33 Sitze + OB)\nCDU: 11\nOB: 1", "CDU=11|OB=1", /“Gemeinderat \(33 Sitze \+ OB\)”/],
  ["estate", "Ann € 12,50\nBo € 4,00\nTotaal € 16,50\nBoedelsaldo € 9,00", /Boedelsaldo/, /Yes, it is the estate/],
  ["votes", "EU Council (2026)\nGermany 83.5 m\nItaly 58.9 m", null, /nobody can part “Germany 83\.5 m”/],
  ["estate", "Flat 12 b\nFlat 13 b", "Flat 12 b|Flat 13 b"],
  ["estate", "Dear Ann,\nit was 12 CHF\t and then more\t5 CHF", null, /Nothing was taken\./],
  // what stands in mails, letters, by-laws and tables of agencies
  ["estate", MAIL, "Lift (season 25/26)=NOK 148 000|Ski school=NOK 62 500|Bus company (2 invoices)=NOK 9 750",
    /The numbers of the list .*Is NOK 120 000 what there is to divide\? Yes, NOK 120 000/],
  ["estate", "Claims:\n\nCooperative\t1,250,000*\nHotels\t3,400,000\nPortsea\t780,000**\n\n* lost catch\n** estimated",
    "Cooperative=1,250,000|Hotels=3,400,000|Portsea=780,000", /The marks of notes were left out: “\*”, “\*\*”\./],
  ["estate", "Ann\t120*\nBo\t80\n\n** estimated", "Ann=120*|Bo=80", /number alone/],
  ["estate", GRANTS, "Sportverein=12.000|Musikschule=8.500", /“Top 5: Verteilung.*Is 18\.000 what there is to/],
  ["estate", "Requests by 1 March:\n• Chemistry – $45k – new spectrometer\n• Physics – $30k – laser\nBudget: $70k",
    "Chemistry=$45|Physics=$30|Budget=$70", /behind numbers: “new spectrometer”, “laser”.*Is “Budget”, \$70, what/],
  ["estate", "Point 2 – Indemnisation\n- Dinard : 0,8 M€\n- Cancale : 0,35 M€", "Dinard=0,8|Cancale=0,35", /“Point 2/],
  ["estate", "Lisa 24.50\nTom 19.50\nCan somebody work out a fair split?\nCheers\nTom", "Lisa=24.50|Tom=19.50",
    /“Can somebody work out a fair split\?”, “Cheers”, “Tom”\./],
  ["votes", "Knesset 2022 – seats (120)\nLikud 32 (coalition)\nYesh Atid 24 (opposition)", "Likud=32|Yesh Atid=24",
    /“Knesset 2022 – seats \(120\)”\. Left out behind numbers: “\(coalition\)”/],
  ["votes", "Seats: Labour (26), Conservatives (18), Greens (5). Quota 31.", "Labour=26|Conservatives=18|Greens=5",
    /“Quota”, 31, was taken as votes needed/],
  ["votes", "Wohnung 1 (Berger) – 410/1000\nWohnung 2 (Costa) – 590/1000\nErforderlich: Mehrheit von zwei Dritteln der "
    + "Miteigentumsanteile", "Wohnung 1 (Berger)=410/1000|Wohnung 2 (Costa)=590/1000", /“Erforderlich”, .*, was/],
  ["votes", "Minutes, 3 March\n1. Haus eG, 310\n2. Kirche St. Anna, 212\n3. Weiss, 150\nResolutions need two thirds of "
    + "all shares, i.e. at least 448.", "Haus eG=310|Kirche St. Anna=212|Weiss=150", /a quota.*needed: two thirds/],
  ["votes", `${PARTNERS}\nErforderlich: siehe Satzung`, IN_PARTNERS, /Left out, .*“Erforderlich: siehe Satzung”/],
  ["votes", `${PARTNERS}\nDecision by qualified majority (> 66 %)`, IN_PARTNERS, /Votes needed: more than 66 %/],
  ["votes", "A 20\nB 12\nC 7\nBeschlüsse bedürfen einer Zweidrittelmehrheit, also 26 Stimmen.", "A=20|B=12|C=7",
    /names a quota.*Votes needed: Zweidrittel/],
  ["votes", "7. Weights. The council took note of the weights for 2027: Ghent has 12 votes, Aachen 10 and Lyon 9. A "
    + "decision requires at least 16 of the 31 votes. Dr Jans asked whether Lyon counts.", "Ghent=12|Aachen=10|Lyon=9",
  /Left out, .*“Weights”.*Votes needed: 16 of 31/],
];
