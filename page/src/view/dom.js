// Elements of the page, made by calls.
import { measureBy } from "../draw/measure.js";

const SVG = "http://www.w3.org/2000/svg";

/** An element with attributes (`on` has listeners) and children; null and false are left out. */
export function el(tag, attributes = {}, ...children) {
  return filled(document.createElement(tag), attributes, children);
}

/** The element of a tree (draw/tree.js), in a place of another one; what is none is left as it is. */
const madeIn = (parent) => (child) => {
  if (child.tag === undefined) return child;
  const isSvg = child.tag === "svg" || parent.namespaceURI === SVG;
  const element = isSvg ? document.createElementNS(SVG, child.tag) : document.createElement(child.tag);
  return filled(element, child.attributes, child.children);
};

const isShown = (child) => child !== null && child !== false && child !== undefined && child !== "";

function filled(element, { on = {}, ...attributes }, children) {
  for (const [event, listener] of Object.entries(on)) element.addEventListener(event, listener);
  for (const [name, value] of Object.entries(attributes)) {
    if (name === "value") element.value = value;
    else if (value !== false && isShown(value)) element.setAttribute(name, value === true ? "" : value);
  }
  element.append(...children.flat(Infinity).filter(isShown).map(madeIn(element)));
  return element;
}

export function button(text, onClick, attributes = {}) {
  return el("button", { type: "button", ...attributes, on: { click: onClick } }, text);
}

const summaries = (element) => [...element.querySelectorAll("details > summary")];

/** A button by what it is called, to find it again among those that are made anew. */
const calledLike = (one) => (other) => {
  const name = (element) => element.getAttribute("aria-label") ?? element.textContent;
  return name(one) === name(other) && !other.disabled;
};

const scrolling = (element) => [...element.querySelectorAll(".scroll")];

/** Puts new children into an element; the cell or button that had the focus has it again, what was unfolded stays so,
 * and tables stay where they were scrolled to. */
export function refill(element, ...children) {
  const lefts = scrolling(element).map(({ scrollLeft }) => scrollLeft);
  const isOpen = new Set(summaries(element).filter((one) => one.parentElement.open).map((one) => one.textContent));
  const focused = element.contains(document.activeElement) ? document.activeElement : null;
  const cell = focused?.dataset.cell;
  const hasRange = cell !== undefined && typeof focused.selectionStart === "number";
  const range = hasRange ? [focused.selectionStart, focused.selectionEnd] : null;
  element.replaceChildren(...children.flat(Infinity).filter(isShown).map(madeIn(element)));
  for (const one of isOpen.size ? summaries(element) : []) one.parentElement.open ||= isOpen.has(one.textContent);
  if (lefts.some(Boolean)) scrolling(element).forEach((one, k) => { one.scrollLeft = lefts[k] ?? 0; });
  const again = cell !== undefined ? cellOf(element, cell)
    : focused?.tagName === "BUTTON" ? [...element.querySelectorAll("button")].find(calledLike(focused)) : null;
  again?.focus({ preventScroll: true });
  if (range) again?.setSelectionRange?.(...range);
}

export function cellOf(element, cell) {
  return element.querySelector(`[data-cell="${CSS.escape(cell)}"]`);
}

/** A name of which only a word of more than 16 letters may be broken. */
export function breakable(name) {
  return name.split(/([^\s\-–/]{17,})/).map((part, k) => (k % 2 ? el("span", { class: "long" }, part) : part));
}

/** Has the texts of pictures measured as the page shows them. */
export function measureByCanvas() {
  const context = document.createElement("canvas").getContext("2d");
  measureBy((text, size, weight) => {
    context.font = `${weight} ${size}px "Segoe UI", -apple-system, "Helvetica Neue", Arial, system-ui, sans-serif`;
    return context.measureText(text).width;
  });
}

/** Hands a text to the user as a file. */
export function download(name, text, type = "application/json") {
  const link = el("a", { href: URL.createObjectURL(new Blob([text], { type })), download: name });
  document.body.append(link);
  link.click();
  link.remove();
  setTimeout(() => URL.revokeObjectURL(link.href), 1000);
}

/** Copies a text, and says so on the button for a while. */
export async function copy(text, source) {
  let isDone = true;
  try {
    await navigator.clipboard.writeText(text);
  } catch {
    const area = el("textarea", { value: text, class: "away", "aria-label": "What is copied" });
    document.body.append(area);
    area.select();
    isDone = document.execCommand("copy");
    area.remove();
  }
  source.dataset.label ??= source.textContent;
  source.textContent = isDone ? "Copied" : "Copying isn’t allowed here";
  setTimeout(() => (source.textContent = source.dataset.label), 1600);
}

/** The title of a rule that all read, the field's name (on the screen only beside exact fractions), and what is said
 * more. */
export function columnHead({ title, name }, ...more) {
  const below = more.filter(Boolean).join(", ");
  return [title, name && el("small", { class: "field-name" }, name), below && el("small", {}, below)];
}

const asked = new WeakMap(); // by what is typed of a case, how it is asked again of what was pasted there

/** What becomes of a pasted text is seen at its grid, and told to what stands around that. */
function become(grid, state) {
  for (const one of ["asks", "refused"]) grid.classList.toggle(one, one === state);
  if (state !== "asks") asked.delete(grid.typed);
  grid.dispatchEvent(new CustomEvent("untaken", { bubbles: true }));
}

/** Asks something in the place `said` of a grid, before anything is taken: until then nothing else is said of its
 * cells. If the case is left the question stays open, by `grid.again`. */
export function askIn(grid, said, parts) {
  refill(said, parts);
  asked.set(grid.typed, grid.again);
  become(grid, "asks");
}

/** The question of a grid is answered, or is no more; what was pasted is taken or refused. */
export function unask(grid, isRefused = false) {
  become(grid, isRefused ? "refused" : "");
}

/** Asks the question anew that stood open when the case `typed` was left; `mine` is its grid now. Whether one did. */
export function askAgain(mine, typed) {
  const again = asked.get(typed);
  mine.element.typed = typed;
  again?.(mine);
  return Boolean(again);
}
