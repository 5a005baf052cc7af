// Points of a network at which nobody is: a fork or a manhole, by their names.
const JUNCTION = new RegExp("(?<!\\p{L})(forks?|junctions?|jct|nodes?|man ?holes?|splitters?|crossroads|valves?|"
  + "\\p{L}{0,30}(verteiler|abzweig(ung)?|schacht|knoten(punkt)?|gabelung|kreuzung|weiche|muffe)|n(œ|oe)uds?|jonction|"
  + "embranchement|bifurcation|carrefour|knooppunt|aftakking|splitsing|nodo|empalme|bifurcaci[oó]n)(?!\\p{L})", "iu");

/** The places (from 0) whose names say so, if not all names do. */
export function junctionsOf(names) {
  const at = names.map((name, k) => (JUNCTION.test(name) ? k : -1)).filter((k) => k >= 0);
  return at.length < names.length ? at : [];
}
