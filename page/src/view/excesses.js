// What each group could gain by leaving, from the greatest down, by all divisions side by side.
import { Rational } from "../exact/rational.js";
import { countText, fractionText } from "../exact/decimals.js";
import { listed } from "../game/words.js";
import { plainPoints, quoted } from "../tell/rule-names.js";
import { button, columnHead, copy, el, refill } from "./dom.js";
import { CALCULATED } from "./questions.js";
import { tabbed } from "./table-lines.js";

const FEW = 8; // places that are shown at first
const MOST = 1022, MOST_COPIED = 4094; // that are shown at all, and copied: those of ten and of twelve players
const MOST_PLAYERS = 12; // of other games than tables

/** The part that opens; `typed` keeps what was opened and found of this case, `ask(task, what)` goes to a worker. */
export function excessesPart({ game, text, points: solved }, { rows, format, typed, ask, proposal }) {
  const canBe = game.n > 1 && (game.isTable() || game.n <= MOST_PLAYERS) && !game.ballots && !game.isMarket();
  const rules = plainPoints(solved, game).filter(({ key }) => !CALCULATED.includes(key));
  const points = [...rules, ...ownPoint(game, proposal)];
  if (!canBe || points.length < 2) return null;
  const memory = (typed.excesses ??= { most: FEW }), found = el("div"), divisions = points.map(sharesOf);
  const asked = (most) => ask("excessLists", { divisions, most });
  const key = JSON.stringify([text, divisions, rows.map(({ label }) => label)]);
  const show = async () => {
    if (memory.key !== key + memory.most) {
      Object.assign(memory, { key: key + memory.most, lists: asked(memory.most) });
      memory.lists.catch(() => (memory.key = "")); // stopped: it is asked anew
    }
    if (!found.childElementCount) refill(found, memory.last ?? "Working it out …");
    memory.last = el("div", {}, partsOf(await memory.lists, { game, points, format, asked, onAll: () => {
      memory.most = MOST;
      show();
    } }));
    refill(found, memory.last);
  };
  const details = el("details", { class: "excesses", open: Boolean(memory.isOpen), on: { toggle: () => {
    memory.isOpen = details.open;
    if (details.open) show();
  } } }, el("summary", {}, "Group by group: what each could gain by leaving"), found);
  if (memory.isOpen) show();
  return details;
}

/** The user's proposal, where it shares out the whole, as a list to hold a division. */
function ownPoint(game, { shares }) {
  const isWhole = shares && Rational.sum(shares).equals(game.whole());
  return isWhole ? [{ title: "Your proposal", shares }] : [];
}

function sharesOf({ shares }) {
  return shares.map(String);
}

function partsOf(found, { game, points, format, asked, onAll }) {
  const { of, lists, differs } = found, [{ length }] = lists;
  const copied = of > MOST_COPIED ? `the first ${countText(MOST_COPIED)}` : "all";
  const cells = ({ group, excess }, isMarked) => {
    const value = Rational.of(excess), kind = isMarked ? " differs" : "";
    return [el("td", { class: `number${kind}` }, format.show(value),
      !format.isExact(value) && el("small", {}, fractionText(value))), el("td", { class: kind.trim() }, group)];
  };
  return [
    el("p", {}, `These are the excesses${game.perHead ? ", per member" : ""}: what each group could gain by leaving `,
      `(with a minus: what it would lose), the greatest first. ${differsText(points, differs)}`),
    el("div", { class: "scroll" }, el("table", { class: "shares small" },
      el("thead", {}, el("tr", {}, el("th", {}, "Place"),
        points.map((point) => [el("th", { class: "number" }, columnHead(point)), el("th", {}, "by whom")]))),
      el("tbody", {}, lists[0].map((_, k) => el("tr", {}, el("th", { scope: "row", class: "number" }, String(k + 1)),
        lists.map((list, which) => cells(list[k], k + 1 === differs[which]))))))),
    el("p", { class: "tools" },
      length < Math.min(of, MOST) && button(`All ${countText(Math.min(of, MOST))} places`, onAll, { class: "quiet" }),
      length < of && el("span", { class: "hint" }, `${countText(length)} of ${countText(of)} places.`),
      button(`Copy ${copied} places for a spreadsheet`, async ({ target }) => {
        copy(tableText(points, (await asked(MOST_COPIED)).lists, format), target);
      }, { class: "quiet" })),
  ];
}

/** At which place each list begins to be another than the first one. */
function differsText([first, ...others], [, ...differs]) {
  const told = others.map((one, k) => `${quoted(one)} ${differs[k] ? `at place ${differs[k]}` : "nowhere"}`);
  return `A mark shows where a list first differs from that of ${quoted(first)}: ${listed(told)}.`;
}

/** All places for a spreadsheet: tabs between, plain decimals, and the exact fractions beside them. */
function tableText(points, lists, format) {
  const { show } = format.plain();
  const heads = ["Place", ...points.flatMap(({ title }) => [title, `${title}, exact`, "by whom"])];
  const cells = ({ group, excess }) => [show(Rational.of(excess)), excess, group];
  return tabbed([heads, ...lists[0].map((_, k) => [String(k + 1), ...lists.flatMap((list) => cells(list[k]))])]);
}
