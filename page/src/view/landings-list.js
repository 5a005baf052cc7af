// The list of a runway of more landings than the program takes. No document holds it, so no case is saved of it; as a
// table it can be pasted again.
import { typedText } from "../exact/decimals.js";
import { Rational } from "../exact/rational.js";
import { runway } from "../cases/lists.js";
import { isEmpty } from "../cases/sum-row.js";
import { button, download, el } from "./dom.js";
import { csvText } from "./table-lines.js";

const WHY = "This case can’t be saved: a saved case holds a document of the program, which takes 64 uses. Its list "
  + "can, and pasted into the first cell it makes the same case. Heading, unit and what each pays today aren’t in it.";

/** The lines of the list: what was typed of names and types, and each number as it can be read in one way only. */
function linesOf(typed, { rows }, mark) {
  const names = typed.rows.filter((row) => !isEmpty(row)), hasTypes = names.some(({ type }) => type?.trim());
  const titleOf = (key) => runway.columns.find((column) => column.key === key).title;
  return [["name", ...(hasTypes ? ["type"] : []), "count", "cost"].map(titleOf), ...rows.map(({ cost, count }, r) => {
    const { name = "", type = "" } = names[r], own = hasTypes ? [name.trim(), type.trim()] : [name.trim()];
    return [...own, String(count), typedText(Rational.of(cost), mark)];
  })];
}

/** Why the case isn't saved, and its list; `beyond` is what the page calculated of it. */
export function landingsList(typed, beyond, mark) {
  const save = () => download("runway-list.csv", csvText([linesOf(typed, beyond, mark)], mark), "text/csv");
  return el("div", {}, el("p", { class: "hint screen" }, WHY),
    el("p", { class: "tools" }, button("Save the list (CSV)", save, { class: "quiet" })));
}
