// The contrast of the style sheet's colours, light and dark, by the formula of WCAG 2: 4.5 for texts, 3 for the edges
// of controls and for what pictures are made of.
import { readFileSync } from "node:fs";

const TEXTS = [
  ...["--paper", "--card", "--faint", "--note"].flatMap((ground) => [["--ink", ground], ["--soft", ground]]),
  ...["--paper", "--card", "--accent-faint", "--note"].map((ground) => ["--accent", ground]),
  ["--accent-ink", "--accent"], ["--good", "--card"], ["--ink", "--good-faint"], ["--good", "--good-faint"],
  ["--bad", "--card"], ["--bad", "--note"], ["--bad", "--paper"], ["--ink", "--bad-faint"], ["--bad", "--bad-faint"],
  ...["--ink", "--soft", "--good", "--bad"].map((front) => [front, "--own"]), ["--ink", "--accent-faint"],
  ["--soft", "--accent-faint"], ["--soft", "--bad-faint"],
];
const EDGES = ["edge", "nucleolus", "shapley", "core", "bird", "buyers", "sellers", "proposal", "agencies",
  "proportion"].map((name) => [`--${name}`, "--card"]);

/** The palettes of a style sheet: the light one, and the dark one over it. */
export function palettesIn(css) {
  const [, light, dark] = css.split(":root {");
  const pairs = (rules) => [...rules.matchAll(/(--[\w-]+): (#[0-9a-f]{6});/g)].map(([, name, value]) => [name, value]);
  const colours = (rules) => Object.fromEntries(pairs(rules));
  return { light: colours(light), dark: { ...colours(light), ...colours(dark) } };
}

function luminance(colour) {
  const [red, green, blue] = [1, 3, 5].map((at) => parseInt(colour.slice(at, at + 2), 16) / 255)
    .map((part) => (part <= 0.04045 ? part / 12.92 : ((part + 0.055) / 1.055) ** 2.4));
  return 0.2126 * red + 0.7152 * green + 0.0722 * blue;
}

export function contrast(one, other) {
  const [low, high] = [one, other].map(luminance).sort((a, b) => a - b);
  return (high + 0.05) / (low + 0.05);
}

const palettes = palettesIn(readFileSync(new URL("../src/palette.css", import.meta.url), "utf8"));
let tried = 0, faults = 0;
for (const [name, colours] of Object.entries(palettes)) {
  for (const [pairs, least] of [[TEXTS, 4.5], [EDGES, 3]]) {
    for (const [front, ground] of pairs) {
      const found = contrast(colours[front], colours[ground]);
      tried += 1;
      if (found >= least) continue;
      faults += 1;
      console.log(`${name}: ${front} on ${ground} has ${found.toFixed(2)}, and needs ${least}`);
    }
  }
}
console.log(`${tried} contrasts, ${faults} faults`);
process.exit(faults || !tried ? 1 : 0);
