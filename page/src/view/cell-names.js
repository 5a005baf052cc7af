// What a cell is called in a sentence.
import { withEscapes } from "../game/names.js";

/** By the row and the column of a list; otherwise by the name that those have who can't see where it is. */
export function labelOfCell(cell, { kind, typed }) {
  const [what, r, key] = cell.split("."), row = what === "rows" && typed.rows?.[r];
  if (row) {
    const columns = [...kind.columns, ...(kind.second ? [kind.second.column] : [])];
    const name = withEscapes((row.name ?? "").trim()) || `Row ${Number(r) + 1}`;
    return key === "name" ? name : `${name}, ${columns.find((column) => column.key === key)?.title ?? key}`;
  }
  const input = document.querySelector(`#case [data-cell="${CSS.escape(cell)}"]`);
  if (input) return input.getAttribute("aria-label").replace(/^Link between /, "").replace(/, filled by the page$/, "");
  return kind.labelOf?.(typed, r) ?? cell;
}
