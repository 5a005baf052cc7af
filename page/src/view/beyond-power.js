// Power of more voters, or of more votes, than the program takes: the page calculates it by itself, and says so.
import { el } from "./dom.js";
import { powerLead, powerTable } from "./answer.js";
import { keepButton } from "./pinned.js";

const OURS = "With two quotas, or so many votes, the program takes 16 voters. So the page itself counted the orders "
  + "of joining, in whole numbers. This power does NOT come from the proved program, and has no certificate. Up to 16 "
  + "voters, tests compare this calculation with the program.";

/** `settings` are those of `powerTable`. */
export function beyondPower({ shares, game }, { wide, ...settings }) {
  return el("div", { class: "beyond" }, powerLead(game, shares, settings.format),
    el("div", { class: "notice" }, el("p", {}, OURS)),
    powerTable(game, shares, { ...settings, wide: Math.min(wide, 900) }),
    settings.pinned && !settings.isPaper && el("p", { class: "tools" }, keepButton(settings.pinned)));
}
