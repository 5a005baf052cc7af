// A picture with what is said below it, and as a file of its own.
import { el, textOf } from "./tree.js";

const CONTENT = "\u0000"; // no text of XML has it

/** `name` is that of the file, without its ending. */
export function figure(kind, name, drawn, ...caption) {
  return el("figure", { class: kind, "data-name": name }, el("div", { class: "scroll" }, drawn),
    caption.some(Boolean) && el("figcaption", { class: "hint" }, ...caption));
}

/** A picture as a document of its own, in the light colours, on white: `inside` is the text of what it holds, and
 * `attributes` those of its tree. `styles` has the texts of palette.css and of picture.css. */
export function pictureFile({ viewBox, "aria-label": label }, inside, styles) {
  const [, , wide, high] = viewBox.split(" ");
  const paper = el("rect", { width: wide, height: high, fill: "#ffffff" });
  const [head, foot] = textOf(el("svg", {
    xmlns: "http://www.w3.org/2000/svg", class: "picture", viewBox, width: wide, height: high, role: "img",
    "aria-label": label,
  }, el("style", {}, inColours(styles)), paper, CONTENT)).split(CONTENT);
  return `<?xml version="1.0" encoding="UTF-8"?>\n${head}${inside}${foot}\n`;
}

/** Rules with the light palette in the place of its names. */
function inColours({ palette, picture }) {
  const light = palette.slice(palette.indexOf("{") + 1, palette.indexOf("}"));
  const colours = new Map([...light.matchAll(/(--[\w-]+): ([^;]+);/g)].map(([, name, value]) => [name, value]));
  const points = [...picture.matchAll(/\[data-point="([\w-]+)"\][^{]*\{ --point: var\((--[\w-]+)\)/g)]
    .map(([, key, name]) => `.picture [data-point="${key}"] .own, .picture .own[data-point="${key}"]`
      + ` { fill: ${colours.get(name)}; }`);
  const rules = picture.replace(/^(\/\*|\[).*\n/gm, ""); // without the names of colours and what is said
  return `${rules.replace(/var\((--[\w-]+)\)/g, (_, name) => colours.get(name) ?? "#1d1c1a")}${points.join("\n")}`;
}
