// What the grid of a market asks of a pasted text before anything is taken: what its numbers are, and whose.
import { NO_MARKET } from "../cases/matrices.js";
import { takenOff, withoutLine } from "../cases/price-line.js";
import { withEscapes } from "../game/names.js";
import { listed } from "../game/words.js";
import { askIn, button } from "./dom.js";
import { markAsked } from "./lists-asked.js";

const offer = (text, take) => button(text, take, { class: "quiet" });

/** Asks what the numbers beside a line of limit prices are. */
export function askLine(grid, line, use) {
  const name = `“${withEscapes(line.name)}”`, out = withoutLine(line), way = (text, take) => [offer(text, take), " "];
  const taken = (told, some, more) => {
    const notes = [line.bids, line.left.length > 0 && `Left out: ${line.left.join(", ")}.`, told];
    return use({ isLine: true, told: notes.filter(Boolean).join(" "), ...more }, some);
  };
  const takeOff = (by) => {
    const { rows, least, fault, doubt, told = "" } = takenOff(line, grid.mark(), by);
    if (fault) return grid.take(fault);
    if (doubt) return askMark(grid, doubt, takeOff);
    return taken(`A pair gains its number less “${line.name}”, or nothing. ${told}`.trim(), rows, { least });
  };
  const leave = () => taken(`“${line.name}” was left out.`, out);
  const [looks, ...ways] = line.side === "sellers"
    ? ["the least that sellers take. What are the other numbers?",
      way(`What a buyer would pay: take ${name} off`, () => takeOff()),
      way(`What a pair gains: leave ${name} out`, leave)]
    : ["the most that a buyer can pay, and there is no place for it here.", way(`Leave ${name} out`, leave)];
  askIn(grid.element, grid.said, [`Nothing was taken yet. ${name} looks like ${looks} `, ways,
    way(`${name} is no such price`, () => use({ isLine: false }))]);
}

/** Asks whether lines that say whom each would trade with are a market of such pairs. */
export function askWishes(grid, { first, buyers, sellers, values }, use) {
  const rows = [["", ...sellers], ...buyers.map((name, i) => [name, ...values[i]])];
  const told = "Each pair that is named gains 1, and no other pair anything.";
  askIn(grid.element, grid.said, [`Nothing was taken yet. “${withEscapes(first)}” says with whom somebody would trade, `
    + "and has no number. Does each such pair gain 1, and no other pair anything? The order counts for nothing then. ",
  offer("Yes, 1 for each", () => use({ isLine: true, told }, rows)), " ",
  offer("No, this is something else", () => grid.take(NO_MARKET))]);
}

/** Asks how a number that can be read in two ways is meant, where it has to be known. */
function askMark(grid, doubt, take) {
  const [asked, ...ways] = markAsked({ doubt });
  askIn(grid.element, grid.said, [`Nothing was taken yet. ${asked} `,
    ways.map(([text, { by }]) => [offer(text, () => take(by)), " "])]);
}

/** Asks whose the first of two lists of limit prices are. */
export function askWhose(grid, list, use) {
  const way = (text, side) => button(text, () => use(side), { class: "quiet" });
  askIn(grid.element, grid.said, [`Nothing was taken yet. Whose limit prices are those of ${list}? `,
    way("Buyers: the most they’d pay", "buyers"), " ", way("Sellers: the least they’d take", "sellers"), " ",
    way("They are no limit prices", "none")]);
}

/** Asks whether a table with columns or rows of others than traders has what each pair gains. */
export function askOut(grid, words, leave) {
  const all = listed(words), seem = words.length > 1 ? "seem to be no traders" : "seems to be no trader";
  askIn(grid.element, grid.said, [`Nothing was taken yet. ${all} ${seem}. Are the other numbers what each `
    + "buyer gains with each seller? ", button(`Yes: leave ${all} out`, leave, { class: "quiet" }), " ",
  button("No, this is something else", () => grid.take(NO_MARKET), { class: "quiet" })]);
}
