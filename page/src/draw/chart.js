// Bars side by side, with marks and ranges, and what each means, in one picture of any width.
import { el } from "./tree.js";
import { fitted, widthOf } from "./measure.js";

const [BAR, GAP, AIR, LINE, NOTED] = [11, 3, 18, 22, 20];
const MOST_THICK = 3; // bars of a row
const NARROW = 520; // below this labels stand above their bars

/** `rows` are {label, note, told, bars, spans, marks}; a bar is {key, value}, a span {low, high, room}, a mark
 * {kind, value} (beyond the picture where `value` is null). `legend` has {key} or {kind} with a title each. `columns`
 * are numbers to the right of the bars: {title, texts}, one text for each row and one for their sum. */
export function chart({ title, rows, legend, low, high, wide, text, columns = [] }) {
  const isNarrow = wide < NARROW, side = isNarrow ? 8 : Math.min(190, wide * 0.28);
  const rooms = columns.map((column) => Math.max(...[column.title, ...column.texts].map((one) => widthOf(one))) + 16);
  const right = 14 + rooms.reduce((sum, room) => sum + room, 0);
  const wideOf = ({ label, note }) => Math.max(widthOf(label), note ? widthOf(note, 13) : 0) + 16;
  const labels = isNarrow ? 0 : Math.max(60, ...rows.map((row) => Math.min(side, wideOf(row))));
  const left = isNarrow ? side : labels, span = high > low ? high - low : 1;
  const x = (value) => left + ((value - low) / span) * (wide - left - right);
  const parts = [], drawn = legendLines(legend, wide);
  let y = drawn.high + (isNarrow ? 14 : 10) + (columns.length ? LINE : 0);
  const top = y, ticks = ticksOf(low, high), bodies = [], middles = [];
  for (const row of rows) {
    if (isNarrow) y += LINE - 2;
    const label = labelOf(row, y, left, isNarrow, wide);
    bodies.push(el("g", {}, el("title", {}, row.told), label, bodyOf(row, x, y)));
    middles.push(y + heightOf(row) / 2 + 5);
    y += roomOf(row, isNarrow);
  }
  for (const tick of ticks) {
    const at = x(tick).toFixed(1);
    parts.push(el("line", { class: tick === 0 ? "zero" : "grid-line", x1: at, x2: at, y1: top - 6, y2: y - AIR / 2 }));
    parts.push(el("text", { class: "soft", y: y + 8, ...within(text(tick), x(tick), wide) }, text(tick)));
  }
  const told = `${title}. ${rows.map((row) => row.told).join("; ")}`;
  return el("svg", {
    class: "picture", viewBox: `0 0 ${wide} ${Math.ceil(y + 16)}`, width: wide, role: "img", "aria-label": told,
  }, drawn.parts, parts, bodies, columnsOf(columns, rooms, wide, [top - 10, ...middles, y + 8]));
}

/** The columns of numbers; `heights` are those of the titles, of the rows, and of the sums. */
function columnsOf(columns, rooms, wide, heights) {
  return columns.map(({ title, texts }, k) => {
    const x = wide - rooms.slice(k + 1).reduce((sum, room) => sum + room, 0) - 6;
    return [title, ...texts].map((text, r) => {
      const isBold = r === 0 || r === texts.length;
      return el("text", { class: isBold && "strong", x, y: heights[r], "text-anchor": "end" }, text);
    });
  });
}

/** The place of a number below the picture, which is moved where it would stand out at a side. */
function within(text, x, wide) {
  const half = widthOf(text, 13) / 2 + 1;
  return { x: Math.max(half, Math.min(wide - half, x)).toFixed(1), "text-anchor": "middle" };
}

function heightOf({ bars = [], spans = [] }) {
  const count = Math.max(1, bars.length, spans.length), [thick, gap] = thicknessOf(bars);
  return count * thick + (count - 1) * gap;
}

/** How thick bars are, and the gap between them: less if there are many. */
function thicknessOf({ length }) {
  return length > MOST_THICK ? [7, 2] : [BAR, GAP];
}

/** A note stands below the label, and needs a line of its own. */
function roomOf(row, isNarrow) {
  return Math.max(heightOf(row), row.note && !isNarrow ? NOTED : 0) + AIR;
}

function labelOf({ label, note, ...row }, y, left, isNarrow, wide) {
  const high = heightOf(row), room = isNarrow ? wide - 20 : left - 14;
  const [anchor, x] = isNarrow ? ["start", 12] : ["end", left - 12];
  const beside = note && isNarrow ? ` (${note})` : "";
  const middle = isNarrow ? y - 9 : y + high / 2 + (note ? -3 : 5);
  const first = el("text", { class: isNarrow && "apart", x, y: middle, "text-anchor": anchor },
    fitted(label + beside, room));
  if (!note || isNarrow) return [first];
  return [first, el("text", { class: "soft", x, y: middle + 15, "text-anchor": anchor }, fitted(note, room, 13))];
}

function bodyOf({ bars = [], spans = [], marks = [], ...row }, x, y) {
  const high = heightOf({ bars, spans }), [thick, gap] = thicknessOf(bars);
  const box = (k) => ({ y: y + k * (thick + gap), height: thick, rx: 2 });
  const parts = spans.map(({ low, high: end, room }, k) => [
    el("rect", { class: "room", x: x(0), width: Math.max(1, x(room) - x(0)), ...box(k) }),
    el("rect", { class: "span", x: x(low), width: Math.max(3, x(end) - x(low)), ...box(k) }),
  ]);
  bars.forEach(({ key, value }, k) => {
    const [from, to] = [x(Math.min(value, 0)), x(Math.max(value, 0))];
    const width = value ? Math.max(1, to - from) : 0; // a rectangle without a width isn't drawn
    parts.push(el("rect", { class: "own", "data-point": key, x: from, width, ...box(k) }));
  });
  for (const { kind, value } of marks) {
    if (value === null) parts.push(el("text", { x: x(row.end), y: y + high / 2 + 5, "text-anchor": "end" }, "→"));
    else parts.push(markOf(kind, x(value), y, high));
  }
  return parts;
}

function markOf(kind, x, y, high) {
  if (kind === "alone") return el("circle", { class: "alone", cx: x, cy: y + high / 2, r: 5 });
  return el("rect", { class: "adds", x: x - 1.5, y: y - 4, width: 3, height: high + 8 });
}

/** What the colours and marks mean, in lines of the width. */
function legendLines(legend, wide) {
  const parts = [];
  let x = 2, y = 14;
  for (const { key, kind, title } of legend) {
    const left = kind === "text" ? 0 : 26, width = left + widthOf(title); // a text alone has no sign
    if (x > 2 && x + width > wide) [x, y] = [2, y + LINE];
    if (left) parts.push(kind === "span" ? el("rect", { class: "span", x, y: y - 9, width: 20, height: 10, rx: 2 })
      : kind ? markOf(kind, x + 8, y - 11, 12)
      : el("rect", { class: "own", "data-point": key, x, y: y - 9, width: 20, height: 10, rx: 2 }));
    parts.push(el("text", { x: x + left, y }, title));
    x += width + 22;
  }
  return { parts, high: y + 8 };
}

/** Round numbers from the low to the high one, at most six. */
function ticksOf(low, high) {
  if (!(high > low)) return [low];
  const power = 10 ** Math.floor(Math.log10(high - low));
  const step = [power / 5, power / 2, power, power * 2, power * 5].find((size) => (high - low) / size <= 5);
  const ticks = [];
  for (let k = Math.ceil(low / step - 1e-9); k * step <= high + step * 1e-9; k++) ticks.push(k * step);
  return ticks;
}
