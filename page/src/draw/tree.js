// Pictures and tables as trees: an element is {tag, attributes, children}, and a child is an element or a text. The
// page makes elements of them (view/dom.js), and others text.

const isShown = (part) => part !== null && part !== false && part !== undefined && part !== "";

/** An element. Children and attributes that are null, false or empty are left out. */
export function el(tag, attributes = {}, ...children) {
  const kept = Object.entries(attributes).filter(([, value]) => isShown(value));
  return { tag, attributes: Object.fromEntries(kept), children: children.flat(Infinity).filter(isShown) };
}

const ENTITIES = { "&": "&amp;", "<": "&lt;", ">": "&gt;", '"': "&quot;" };
const escaped = (text) => `${text}`.replace(/[&<>"]/g, (letter) => ENTITIES[letter]);

/** A tree, or some, as XML. Numbers have two decimals at most. */
export function textOf(tree) {
  if (Array.isArray(tree)) return tree.map(textOf).join("");
  if (tree.tag === undefined) return escaped(tree);
  const attributes = Object.entries(tree.attributes).map(([name, value]) => {
    const told = typeof value === "number" ? Number(value.toFixed(2)) : value === true ? "" : value;
    return ` ${name}="${escaped(told)}"`;
  });
  return `<${tree.tag}${attributes.join("")}>${textOf(tree.children)}</${tree.tag}>`;
}
