// The start's example, which lives: the program answers it, the two checkers check it, and one number can be moved.
import { costs } from "../cases/tables.js";
import { Rational } from "../exact/rational.js";
import { el, refill } from "./dom.js";
import { formatOf } from "./format.js";
import { askAll } from "./questions.js";
import { fillSeals } from "./seals.js";

const LOW = 9, HIGH = 17, STEP = 0.25; // of what all three cost together; above 15.12 no division satisfies all groups
const ALL = 7, ALONE = [1, 2, 4];

/** The element; `helpers` are those of the session, which nobody asks while the start is shown, and `onOpen(typed)`
 * opens the example as it stands. */
export function demo({ helpers: { engine, checker }, spelling, onOpen }) {
  const typed = costs.example(), own = ALONE.map((mask) => Number(typed.numbers[mask])), most = Math.max(...own);
  const rows = typed.names.map((name, i) => rowOf(name, own[i] / most)), sum = el("output", {});
  const seals = el("p", { class: "seals", role: "status" }), format = () => formatOf(2, spelling());
  let turn = 0; // cases of a session have numbers above 0

  async function work() {
    const mine = (turn -= 1), about = { number: mine }, isMine = () => mine === turn;
    const one = (helper) => async (task, what) => {
      if (!isMine()) throw new Error("stopped");
      return helper.ask(task, what, about);
    };
    sum.textContent = format().show(new Rational(BigInt(Math.round(typed.numbers[ALL] * 100)), 100n));
    const read = await one(engine)("read", { id: "costs", typed: costs.pack(typed), mark: ".", measure: "plain" });
    const asked = { engine: one(engine), checker: one(checker) };
    await askAll(read, about, { ...asked, onPart: (result) => isMine() && show(result) });
  }

  function show(result) {
    const [solution] = result.points, texts = format().column(solution.shares);
    rows.forEach((row, i) => row.set(texts[i], solution.shares[i].toNumber() / most));
    fillSeals(seals, result, solution, format(), true);
  }

  const slider = el("input", { type: "range", min: LOW, max: HIGH, step: STEP, value: typed.numbers[ALL], on: {
    input: ({ target }) => {
      typed.numbers[ALL] = target.value;
      work().catch(() => 0);
    },
  } });
  const start = () => work().catch(() => refill(seals)); // without the program the start has no example
  const element = el("section", { class: "demo panel", "aria-label": "An example" },
    el("p", { class: "hint" }, "Three departments share a system. Alone they would pay 8, 7.50 and 6 (the whole ",
      "bars), and two of them 10 or 10.25. All three together pay:"),
    el("label", { class: "move" }, sum, slider, el("span", { class: "away" }, "what all three pay together")),
    el("div", { class: "rows" }, rows.map(({ element: row }) => row)), seals,
    el("p", { class: "tools" }, el("button", { type: "button", class: "quiet", on: { click: () => onOpen(typed) } },
      "Open this example")));
  return { element, start };
}

/** A bar for a share, upon a pale one for what it would pay alone. */
function rowOf(name, alone) {
  const bar = el("span", { class: "bar" }), number = el("b", { class: "number" });
  const track = el("span", { class: "track" }, bar), wide = (one, part) => (one.style.width = `${100 * part}%`);
  wide(track, alone);
  const set = (text, part) => {
    number.textContent = text;
    wide(bar, part / alone);
  };
  return { element: el("div", {}, el("span", {}, name), el("span", { class: "room" }, track), number), set };
}
