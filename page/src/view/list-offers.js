// What a text pasted into a list may say beside its rows: the estate, one quota or two, or second votes.
import { apartQuotas } from "../cases/quota.js";
import { readNumber } from "../exact/decimals.js";
import { withEscapes } from "../game/names.js";
import { askIn, button, el } from "./dom.js";

const MOST_SHOWN = 100; // letters of a clause

const quoted = (text) => `“${withEscapes(text.slice(0, MOST_SHOWN))}${text.length > MOST_SHOWN ? " …" : ""}”`;
const way = (text, use) => [" ", button(text, use, { class: "quiet" })];

/** Adds what is offered to what was said of a list: each part with whether it `isStill` open. */
export function offersOf(grid, sheet, said, use) {
  const { kind: { single, second }, typed } = grid, { spare = [], targets } = sheet, line = lineOf(sheet, grid.mark());
  const isOpen = () => single && !typed[single.key].trim(), isOne = () => typed.secondQuota === undefined;
  const digitsOf = (text) => text.replace(/\D/g, ""), isOther = () => {
    return single && line?.amount && digitsOf(typed[single.key]) !== digitsOf(line.amount);
  };
  const told = grid.said.textContent, give = () => {
    grid.remember(single.title);
    typed[single.key] = line.amount;
    grid.say(`${told} ${line.amount} was taken as ${single.title.toLowerCase()}.`);
    typed.offered = { ...typed.offered, told: grid.said.textContent };
    grid.offerAgain();
    grid.showSingles();
    grid.onChange();
  };
  const turn = (head, c) => () => {
    grid.remember("Two quotas");
    grid.turnDouble();
    const votes = targets.findIndex((own) => own?.key === "votes"), { notSums, notTwice } = typed;
    if (c) use({ ...said, choice: { ...said.choice, votes, second: c } });
    Object.assign(typed, { notSums, notTwice }); // the rows are the same
  };
  const isFilled = () => !isOpen() && (isOne() || typed[second.single.key].trim());
  const { sum, lack } = sheet, isOut = (one) => !typed.rows.some((row) => [row.name, row.type].includes(one?.name));
  const out = (one, what) => [() => isOut(one), one && isOut(one) && [
    ` “${withEscapes(one.name)}”, ${one.amount}, ${what}, was left out.`, way("Put it back", () => putBack(grid, one)),
  ]];
  const parts = [
    out(lack, "what the claims lack"), out(sum, "the sum of the others"),
    [isOther, isOther() && [` Is ${line.amount} what there is to divide?`,
      way(`Yes, ${line.amount}`, give)]],
    [() => !isFilled(), line && second && [` ${quoted(line.text)} names ${quotaWord(line)}: type `,
      `${isSingle(line) ? "it" : "them"} above.`, takeQuotas(grid, line, sheet)]],
    [isOne, second && isOne() && [
      ...spare.map(({ head, c }) => way(`Use ${quoted(head)} as second votes`, turn(head, c))),
      line && !spare.length && way("Two quotas at once", turn())]],
  ].map(([isStill, part]) => ({ isStill, element: el("span", {}, part) }));
  grid.said.append(...parts.map(({ element }) => element));
  return parts;
}

/** The line of a quota or an estate; one that says a quota twice, as "two thirds, i.e. 448", says one. */
function lineOf({ line, rows, targets }, mark) {
  const at = targets.findIndex((own) => own?.key === "votes");
  const votes = rows.map((row) => readNumber(row[at] ?? "", mark).value).filter(Boolean);
  return line?.quotas ? { ...line, quotas: apartQuotas(line.quotas, votes, mark) } : line;
}

/** What stays above a list that takes the place of another: the estate, or the quotas, but for a pasted `number`. */
export function stillText(grid, number) {
  const { kind: { single, second }, typed } = grid;
  const all = [!number && single, typed.secondQuota !== undefined && second.single].filter(Boolean);
  const kept = all.filter(({ key }) => typed[key].trim());
  grid.stills = new Map(kept.map(({ key, title }) => [key, ` ${title} is still ${typed[key]}.`]));
  return [...grid.stills.values()].join("");
}

/** That is no more said of a number once it is typed. */
export function unsay({ said: { firstChild }, stills, typed: { offered } }, key) {
  const sentence = stills?.get(key);
  if (!sentence || !firstChild) return;
  firstChild.textContent = firstChild.textContent.replace(sentence, "");
  if (offered) offered.told = offered.told.replace(sentence, "");
}

/** Puts a row that was left out below the others: it counts. */
function putBack(grid, { name, row }) {
  const { typed } = grid, place = typed.rows.findLastIndex((one) => !grid.isBlank(one)) + 1;
  grid.remember("Put it back");
  typed.rows.splice(place, 0, { ...grid.blank(), ...row });
  typed.notSums = [...(typed.notSums ?? []), name];
  grid.show();
  grid.showOffers();
  grid.onChange();
}

/** Pasted rows without those that were taken out of the list since, if it is clear which they are. */
export function withoutGone(pasted, { rows, targets }, typed) {
  const at = targets.findIndex((own) => own?.key === "name"), names = typed.rows.map(({ name = "" }) => name.trim());
  const gone = rows.map((row) => (row[at] ?? "").trim()).filter((name) => name && !names.includes(name));
  const isClear = gone.length === rows.length - names.filter(Boolean).length;
  return isClear ? pasted.filter((row) => !row.some((text) => gone.includes(text.trim()))) : pasted;
}

const isSingle = ({ quotas }) => quotas.length !== 2;
const quotaWord = (line) => (isSingle(line) ? "a quota" : "two quotas");

/** A button that takes the quotas of a clause, where they are plain: one where one is open, and two where it is clear
 * by the headings, or there are none, which is which. */
function takeQuotas(grid, { quotas }, { spare = [], targets = [], headings } = {}) {
  const { kind: { single, second }, typed } = grid, set = (...texts) => () => grid.setQuotas(texts);
  const [one, other] = quotas, isTwo = typed.secondQuota !== undefined, headOf = (key) => {
    return headings?.[targets.findIndex((own) => own?.key === key)]?.toLowerCase() ?? "";
  };
  const isOf = ({ whom }, key) => whom !== "" && headOf(key).includes(whom.toLowerCase().split(" ").at(-1).slice(0, 4));
  const fits = (votes, second) => Number(isOf(votes, "votes")) + Number(isOf(second, "second"));
  if (quotas.length === 1) {
    return !isTwo && !spare.length && way(`${single.title}: ${one.text}`, set(one.text));
  }
  const more = quotas.length === 2 ? fits(one, other) - fits(other, one) : 0, isHeaded = headOf("second") !== "";
  if (quotas.length !== 2 || (isHeaded && !more) || (spare.length && !isTwo)) return null;
  const [first, next] = (more < 0 ? [other, one] : [one, other]).map(({ text }) => text);
  return way(`${single.title}: ${first}. ${second.single.title}: ${next}`, set(first, next));
}

/** What was pasted are clauses alone, of which no line is a voter. */
export function askClause(grid, line) {
  const { typed, kind: { second } } = grid, isOne = typed.secondQuota === undefined;
  const where = isSingle(line) ? "Type it above the table." : isOne
    ? "Type the first above the table, and the second after “Two quotas at once”." : "Type them above the table.";
  grid.say("");
  askIn(grid.element, grid.said, [`${quoted(line.text)} names ${quotaWord(line)}, and nobody who votes. ${where} `
    + "Nothing was taken.", second && takeQuotas(grid, line)]);
}

/** Asks whether two numbers beside “Needed”, or in each row, are of two quotas. */
export function askPair(grid, pair, said, use) {
  const two = () => {
    grid.remember("Two quotas");
    grid.turnDouble();
    use(said);
  };
  const [one, other] = pair, words = [...new Set(pair.map(({ word }) => quoted(word)))];
  const have = words.length > 1 ? "name a number each" : "has two numbers";
  const what = one ? `${words.join(" and ")} ${have}, ${one.text} and ${other.text}.`
    : "These rows have two numbers each.";
  grid.say("");
  askIn(grid.element, grid.said, [`Nothing was taken yet. ${what} Are there two quotas at once? `,
    button("Yes, two quotas", two, { class: "quiet" }), " ",
    button("No, one", () => use({ ...said, isOne: true }), { class: "quiet" })]);
}

/** Asks whether the first row is one of headings; none of them is known. */
export function askHead(grid, heads, use) {
  const answer = (text, isHead) => button(text, () => use(isHead), { class: "quiet" });
  grid.say("");
  return askIn(grid.element, grid.said, [`Nothing was taken yet. Is “${withEscapes(heads)}” the heading of the `
    + "columns? ", answer("Yes, the heading", true), " ", answer("No, a row", false)]);
}

/** Asks whether a line without an amount and the name below it are one name. */
export function askBroken(grid, lines, use) {
  const [one, other] = lines.map(quoted), way = (text, isBroken) => {
    return button(text, () => use(isBroken), { class: "quiet" });
  };
  grid.say("");
  askIn(grid.element, grid.said, [`Nothing was taken yet. Are ${one} and ${other} one name, broken in two lines? `,
    way(`Yes, ${quoted(lines.join(" "))}`, true), " ", way("No, two rows", false)]);
}
