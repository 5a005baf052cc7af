// Whether tables fit across their place. Names that are typed have the room that the numbers leave. Columns that would
// be cut off stand closer to each other, then have smaller letters, and at last do without what the cells of the case
// have, too; names then are shortened, and those above columns break anywhere.

const STEPS = ["close", "closer", "closest"];
const MOST = 20, LEAST = 8, SHORTEST = 4.5, FINE = 0.5; // the room of a typed name, in rem

/** Gives typed names the most room by which the table fits, and tells whether it does. */
function fitNames(table, isIn) {
  const isInWith = (room) => (table.style.setProperty("--names", `${room}rem`), isIn());
  let least = table.matches(".closest:not(.dense)") ? SHORTEST : LEAST, most = MOST;
  if (isInWith(most)) return true;
  if (!isInWith(least)) return false;
  while (most - least > FINE) {
    const middle = (least + most) / 2;
    if (isInWith(middle)) least = middle;
    else most = middle;
  }
  return isInWith(least);
}

/** Makes the tables in `element` fit, as far as they can, at the width that it has now. */
export function fitAcross(element) {
  for (const table of element.querySelectorAll(".scroll > :is(.shares, .matrix)")) {
    const { parentElement: holder } = table, isIn = () => holder.scrollWidth <= holder.clientWidth + 1;
    const fits = table.matches(".matrix") ? () => fitNames(table, isIn) : isIn, left = [...STEPS];
    table.classList.remove(...STEPS);
    while (!fits() && left.length) table.classList.add(left.shift());
  }
}
