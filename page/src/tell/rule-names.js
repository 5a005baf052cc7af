// The names of the rules as sentences have them. Per head is another rule than as a whole, so it is always named.

const NAMES = {
  shapley: "Shapley shares", bird: "Bird’s shares", shares: "shares", agencies: "separable costs, remaining benefits",
};

/** "nucleolus per head": what a line or a document calls `answer`, by the measure of its game. */
export function ruleName(answer, isPerHead = false) {
  const name = NAMES[answer] ?? answer;
  return isPerHead && /nucleolus$/.test(name) ? `${name} per head` : name;
}

/** The same as a part of the name of a file. */
export function ruleFile(answer, isPerHead) {
  return ruleName(answer, isPerHead).toLowerCase().replace(/[^a-z]+/g, "-");
}

/** Who has defined it. */
export function sourceOf(isPerHead) {
  return isPerHead ? "Grotte 1970" : "Schmeidler 1969";
}

const PLAIN = {
  nucleolus: "Fairest to those who gain least", shapley: "By what each adds", bird: "Each its own link",
  agencies: "The agencies’ rule",
};
const OF_CLASS = { bankruptcy: "the Talmud’s rule", airport: "Littlechild’s rule" };

/** Points under the titles that all read, with the field's `name` and a `note`. */
export function plainPoints(points, game) {
  return points.map((point) => {
    const { plain, ...more } = plainNames(point.key, point.title, game, point.key === points[0].key);
    return { ...point, ...more, title: plain };
  });
}

/** A rule as sentences between numbers have it: its title, quoted. */
export const quoted = ({ title }) => `“${title}”`;

/** A rule as somebody says it who doesn't know the field, with its name there, and what is said more: {plain, name,
 * note}. The prenucleolus is said by what it differs in, where the nucleolus is beside it. */
export function plainNames(key, title, { perHead, kind, costs }, isAlone) {
  const name = ruleName(key, perHead), other = key === "nucleolus" && !perHead ? OF_CLASS[kind] : "";
  if (key === "proportion") {
    const what = kind === "bankruptcy" ? "the claims" : costs ? "costs alone" : "worth alone";
    return { plain: title, name: "", note: `to ${what}` };
  }
  if (key.endsWith("nucleolus")) {
    const isOther = key === "prenucleolus" && !isAlone;
    const plain = isOther ? `${PLAIN.nucleolus}, even if some do worse than alone` : PLAIN.nucleolus;
    return { plain: perHead ? `${plain}, per head` : plain, name: other ? `${name}, ${other}` : name };
  }
  return PLAIN[key] ? { plain: PLAIN[key], name } : { plain: title, name: "" };
}
