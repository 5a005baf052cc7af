// Help for links that don't exist: each needs a number, and it decides much.
import { isPaid, unusedApart, unusedOf, withUnused } from "../cases/unused-links.js";
import { button, el, refill } from "./dom.js";

const HINT = "Leave it empty, and say what a group that needs it would do. The answer depends on it.";
const EACH = "It counts for each such link: a group that lacks two of them pays it twice. These links are marked.";
const NOBODY = "Nobody uses it", OWN = "Both places have a link of their own to the source. ";
const NOT_NEEDED = "No group needs it: both have a link of their own. It is marked, and has the cost of the dearer "
  + "one.";
const FREE = "No group pays that: each of these places has a link of its own that costs no more.";
const REWARD = "A place that spares others such a link is rewarded for it: the more, the larger the number is.";

/** Ways to fill what stands empty. `setLinks(links, filled)` takes the links, and which were filled, how; `asTable` a
 * table of costs with its notes. `element.again()` fills anew the ways that were filled before, `element.show()` is
 * called as links change: without an empty one nothing is shown, and `element.makeTable(nobody)` makes a table of costs
 * without the places `nobody`, from 0. */
export function noLinkHelp(typed, { mark, help, remember, setLinks, asTable }) {
  const said = el("div", { "aria-live": "polite" });
  const tell = (...what) => refill(said, toldParts(...what, () => makeTable()));
  const ask = (task, use) => async (more = {}) => {
    const { names, links, source } = typed, before = JSON.stringify(links);
    const found = await help(task, { names: [...names], ...given(typed, task), source, mark: mark(), ...more });
    if (JSON.stringify(typed.links) !== before) return; // somebody types on
    if (found.fault) tell([found.fault], [], false);
    else use(found);
  };
  const fill = ask("fillLinks", ({ links, ways, told, notes, isDearer }) => {
    setLinks(links, { ...withoutWays(typed), ...Object.fromEntries(ways.map((key) => [key, "way"])) });
    tell(notes, told, isDearer);
    part.open = hasEmpty(typed);
  });
  const fillWays = () => (remember("Fill in the cheapest ways"), fill());
  const again = () => fill({ only: Object.keys(typed.filled ?? {}).filter((key) => typed.filled[key] === "way") });
  const settings = { mark, remember, setLinks };
  const fillWith = (number) => tell(doWithout(typed, number, settings), [], false);
  const fillUnused = () => tell(nobodyUses(typed, settings), [], false);
  const makeTable = (nobody) => ask("costsOfNetwork", ({ typed: table, notes }) => asTable(table, notes))({ nobody });
  const line = el("li", {}, el("b", {}, OWN), button(NOBODY, fillUnused));
  const element = waysPart({ line, fillWays, makeTable, fillWith, said }), part = element.firstChild;
  const isUnused = () => unusedOf(typed, mark()).length > 0, show = () => {
    part.hidden = !hasEmpty(typed) && !Object.keys(typed.filled ?? {}).length;
    line.hidden = !isUnused();
  };
  show();
  return Object.assign(element, {
    again, show, makeTable,
    choices: () => choicesOf({ part, fillUnused: isUnused() && fillUnused, fillWays, makeTable }),
    openIfEmpty: () => { part.open ||= hasEmpty(typed); },
  });
}

/** What is told of links that were filled; `makeTable()` helps where that is another game. */
function toldParts(notes, told, isDearer, makeTable) {
  return [
    notes.map((note) => el("p", { class: "note" }, note)),
    isDearer && el("p", { class: "tools" }, button("Make a table of costs", makeTable, { class: "quiet" })),
    told.length > 0 && el("details", { class: "named" }, el("summary", {}, "Which links"),
      el("p", {}, told.join("; "))),
  ];
}

/** Fills the empty links with a price, and gives what is told of it. */
function doWithout(typed, number, { mark, remember, setLinks }) {
  remember("Fill it in");
  setLinks(...withNumber(typed, number));
  const { filled } = typed, keys = Object.keys(filled).filter((key) => filled[key] === "number");
  return isPaid(typed, keys, mark()) ? [REWARD, EACH] : [FREE];
}

/** Fills the links that no group needs, and gives what is told of them. */
function nobodyUses(typed, { mark, remember, setLinks }) {
  const keys = unusedOf(typed, mark());
  remember(NOBODY);
  setLinks(...withUnused(typed, keys, mark()));
  return [keys.length === 1 ? NOT_NEEDED : `No group needs these ${keys.length} links: both places of each have a link `
    + "of their own. They are marked, and each has the cost of the dearer one."];
}

function hasEmpty({ names, links }) {
  const all = (names.length * (names.length + 1)) / 2;
  return Object.values(links).filter((text) => text.trim()).length < all;
}

/** The same ways in short, for the place of the answer. */
function choicesOf({ part, fillUnused, fillWays, makeTable }) {
  const price = () => {
    part.open = true;
    part.querySelector("input").focus();
  };
  return el("div", {}, el("p", {}, "Can’t some links be built? Say what a group that needs one would do:"),
    el("p", { class: "tools" }, fillUnused && button(NOBODY, fillUnused),
      button("Build through the places of others", fillWays),
      button("The same, as a table of costs", () => makeTable()), button("Pay a price to do without", price)));
}

function waysPart({ line, fillWays, makeTable, fillWith, said }) {
  const amount = el("input", {
    type: "text", class: "number", "aria-label": "What it costs to do without a link", "data-cell": "without",
    inputmode: "decimal", autocomplete: "off", maxlength: 200,
  });
  return el("div", { class: "screen" }, el("details", { class: "inline no-link" },
    el("summary", {}, "A link that can’t be built"), el("p", { class: "hint" }, HINT),
    el("ul", { class: "ways" }, line,
      el("li", {}, el("b", {}, "It may build through the places of others. "),
        button("Fill in the cheapest ways", fillWays),
        " That is right for one place. If detours of a group share a stretch, ",
        button("make a table of costs of it", () => makeTable()),
        ": each group then costs the cheapest network that joins it."),
      el("li", {}, el("b", {}, "It can’t build at all. "), "Give what it costs to do without: ", amount, " ",
        button("Fill it in", () => fillWith(amount.value))))), said);
}

/** The links that were typed: ways are filled anew, and no table is made of any link that was filled. */
function given(typed, task) {
  const { links, unused } = unusedApart(typed), { filled = {} } = typed;
  const isOut = (key) => (task === "fillLinks" ? filled[key] === "way" : key in filled);
  return { links: Object.fromEntries(Object.entries(links).filter(([key]) => !isOut(key))), unused };
}

function withoutWays({ filled = {} }) {
  return Object.fromEntries(Object.entries(filled).filter(([, how]) => how !== "way"));
}

/** The links, those that are empty with a number, and which were filled. */
function withNumber({ names, links, filled: before }, number) {
  const all = { ...links }, filled = { ...before };
  for (let i = 0; i <= names.length; i++) {
    for (let j = i + 1; j <= names.length; j++) {
      if ((all[`${i}-${j}`] ?? "").trim()) continue;
      all[`${i}-${j}`] = number;
      filled[`${i}-${j}`] = "number";
    }
  }
  return [all, filled];
}
