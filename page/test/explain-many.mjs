// What the page tells of many lines that are right: a line of JSON for each line of standard input.
import { readFileSync } from "node:fs";
import { roundedSteps } from "../src/exact/decimals.js";
import { parseJson } from "../src/exact/json.js";
import { Rational } from "../src/exact/rational.js";
import { Game } from "../src/game/game.js";
import { explain } from "../src/tell/explain.js";

for (const line of readFileSync(0, "utf8").trim().split("\n")) {
  const tree = parseJson(line), game = new Game(tree.game), parts = explain(game, tree);
  const shares = tree.shares.map(Rational.of), all = JSON.stringify(parts);
  const text = parts.flatMap(({ sentences, last = "" }) => [...sentences, last]).join(" ");
  console.log(JSON.stringify({
    rounded: Object.fromEntries([0, 2, 4].map((places) => [places, roundedSteps(shares, places).map(String)])),
    isSettled: /With that all is settled/.test(text) || !tree.certificate.levels.length,
    hasRule: parts.some(({ title }) => title.startsWith("The rule")),
    isWhole: !/undefined|NaN|\[object/.test(text + all),
  }));
}
