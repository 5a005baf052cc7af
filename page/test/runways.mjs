// What the page calculates of runways above the program's limits, against the program below them: on random lists of up
// to 64 landings, and up to 32 for Shapley shares.
import { readFileSync } from "node:fs";
import { coop } from "../../runtime/engine/host.js";
import { moduleIn } from "../../runtime/engine/inside.js";
import { parseJson, writeJson } from "../src/exact/json.js";
import { Rational } from "../src/exact/rational.js";
import { landingsOf } from "../src/cases/landings.js";
import { beyondProgram, nucleolusOf, shapleyOf } from "../src/work/runways.js";

const LISTS = 240, RULES = [["nucleolus", nucleolusOf, 64], ["shapley", shapleyOf, 32]];

function someRows(draw, most) {
  const rows = [], kinds = 1 + draw(7), den = [1, 1, 2, 3, 10][draw(5)], high = [4, 60, 4000][draw(3)];
  for (let left = most; rows.length < kinds && left > 0;) {
    const count = Math.min(left, 1 + draw([2, 6, most][draw(3)]));
    rows.push({ airline: `A${rows.length}`, type: "", cost: new Rational(BigInt(draw(high)), BigInt(den)), count });
    left -= count;
  }
  return rows;
}

function sharesOf(module, rule, { names, costs }) {
  const version = costs.some((cost) => typeof cost === "string") ? { version: 2n } : {};
  const document = writeJson({ game: { class: "airport", ...version, names, costs } });
  const { status, line } = coop(module, [rule], new TextEncoder().encode(document));
  return status === 0 ? parseJson(new TextDecoder().decode(line)).shares.map(String) : [`status ${status}`];
}

export function tryRunways(expect, draw) {
  const page = readFileSync(new URL("../coop.html", import.meta.url), "utf8");
  const module = new WebAssembly.Module(moduleIn(page));
  for (let k = 0; k < LISTS; k++) {
    for (const [rule, formula, most] of RULES) {
      const rows = someRows(draw, k < LISTS / 4 ? most : 1 + draw(most)), made = landingsOf(rows), each = formula(rows);
      const found = rows.flatMap(({ count }, r) => Array(count).fill(String(each[r])));
      expect(`${rule} of ${rows.map(({ cost, count }) => `${count} x ${cost}`)}`, String(found),
        String(sharesOf(module, rule, made)));
    }
  }
  tryLimits(expect);
  const many = Array.from({ length: 500 }, (_, k) => ({ cost: Rational.of(k + 1), count: 1 }));
  expect("the shares of 500 different landings", String(Rational.sum(nucleolusOf(many))), "500");
}

/** From which number of landings on the page calculates what. */
function tryLimits(expect) {
  for (const [count, wanted] of [[32, undefined], [33, "shapley"], [64, "shapley"], [65, "nucleolus,shapley"]]) {
    const rows = [{ airline: "A", type: "", cost: Rational.of(5), count }];
    const { points } = beyondProgram(rows, rows) ?? {};
    expect(`calculated of ${count} landings`, points && String(points.map(({ key }) => key)), wanted);
  }
}
