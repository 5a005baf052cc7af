// Pictures of the page as files.
import { pictureFile } from "../draw/figure.js";
import { button, download } from "./dom.js";

const STYLES = { palette: "/* PALETTE */", picture: "/* PICTURE */" };

/** A button for each picture in some elements, which saves it. */
export function pictureButtons(holders) {
  return holders.flatMap((holder) => [...holder.querySelectorAll("figure[data-name]")]).map((figure) => {
    const drawn = figure.querySelector("svg"), [title] = drawn.getAttribute("aria-label").split(".");
    return button(`Save the picture “${title}”`, () => save(figure.dataset.name, drawn), { class: "quiet save" });
  });
}

function save(name, drawn) {
  const attributes = Object.fromEntries([...drawn.attributes].map((one) => [one.name, one.value]));
  const inside = drawn.innerHTML.replaceAll("&nbsp;", "\u00a0"); // an entity that XML doesn't know
  download(`${name}.svg`, pictureFile(attributes, inside, STYLES), "image/svg+xml");
}
