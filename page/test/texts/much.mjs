// Texts that are more than any person has, as rows of pasted.mjs: they are refused before they are read.
const CASES = ["runway", "estate", "votes", "costs", "gains", "network", "market"], FEW = CASES.filter((id) => {
  return !["costs", "gains"].includes(id);
});
const NOTHING = "Copy the table alone, each row as a line\\. Nothing was taken";
const lines = (count, text) => `${text}\n`.repeat(count), told = (words) => new RegExp(`${words} ${NOTHING}`);
const LONG = `Ann 5\n${"a, ".repeat(9000)}\nBo 7`, WIDE = `Ann\t5\nCy${"\t1".repeat(600)}\nBo\t7`;
const NUMBERS = Array.from({ length: 1023 }, (_, k) => k + 1).join(";");

export const MUCH = [
  ...CASES.map((id) => [id, LONG, null, told("A line has 27.000 letters, and at most 20.000 are read\\.")]),
  ...FEW.map((id) => [id, WIDE, null, told("A line has 601 cells, and at most 500 are read\\.")]),
  ...FEW.map((id) => [id, lines(5000, "Ann\t5"), null, told("These are 5000 lines, and at most 4000 are read\\.")]),
  ["costs", lines(70001, "A\t5"), null, told("These are 70.001 lines, and at most 70.000 are read\\.")],
  ["costs", `A 8\n${lines(200000, "")}B 7`, null, told("These are 200.002 lines, and at most 200.000 are read\\.")],
  ["costs", `${"- ".repeat(1200000)}\nA 8`, null, told("A line has 2.400.000 letters, and at most 20.000 are read\\.")],
  ["runway", "\t".repeat(600), null, told("A line has 601 cells, and at most 500 are read\\.")],
  // other texts are read, or refused as before
  ["costs", `A 8\n${lines(150000, "")}B 7\nA+B 12`, "A|B|8|7|12"], ["gains", NUMBERS, /^(\|){0,10}1\|2\|/],
  ["costs", ";;\n;;", null, /There is nothing in this list\./],
];

/** Those that are pasted into a proposal. */
export const MUCH_DIVIDED = [[lines(5000, "Sales 5"), new RegExp(`These are 5000 lines, .* ${NOTHING}`)]];
