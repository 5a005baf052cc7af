// Lines of printed pages between rows of a pasted text: their numbers, or titles and notes with "Page 3 of 8" behind.
/** The words for a page. */
export const PAGES = "page|seite|blatt|p[aá]gina|strona|side";
const ALONE = new RegExp(`^\\P{L}*(${PAGES}) ?\\d+(( ?/| \\p{L}+) ?\\d+)?\\P{L}*$`, "iu");
const BEHIND = new RegExp(`\\s(?:${PAGES}) \\d{1,4} ?(?:/|of|von|sur|de|di|van|av|z) ?\\d{1,4}$`, "iu");

/** Whether a row is such a line. */
function isPageLine(row) {
  const texts = row.filter(Boolean), last = texts.at(-1)?.slice(-60) ?? "";
  return (texts.length === 1 && ALONE.test(texts[0])) || BEHIND.test(` ${last}`);
}

/** Rows without the lines of pages between them: {rows, pages}, the texts that are left out. */
export function withoutPages(all) {
  const rows = all.filter((row) => !isPageLine(row)), isTable = rows.filter((row) => row.some(Boolean)).length > 1;
  if (!isTable || rows.length === all.length) return { rows: all, pages: [] };
  return { rows, pages: all.filter(isPageLine).map((row) => row.filter(Boolean).join(" ")) };
}
