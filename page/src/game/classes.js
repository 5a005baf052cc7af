// The classes of games and the commands, their keys and limits: tools/make/make-classes writes it from
// python/coop/classes.json.
export const CLASSES = {
  "table":{"costs":false,"keys":["players","worths","sparse","default"],"players":[1,16]},
  "cost-table":{"costs":true,"keys":["players","worths","sparse","default"],"players":[1,16]},
  "airport":{"costs":true,"keys":["costs"],"list":"costs","players":[1,64]},
  "bankruptcy":{"costs":false,"keys":["claims","estate"],"list":"claims","single":"estate","players":[1,64]},
  "tree":{"costs":true,"keys":["matrix"],"players":[1,16]},
  "assignment":{"costs":false,"keys":["matrix"],"players":[2,16]},
  "market":{"costs":false,"keys":["matrix"],"players":[2,64],"side":32},
  "voting":{"costs":false,"keys":["weights","quota"],"list":"weights","single":"quota","players":[1,32],"whole":true}};
export const COMMANDS = {
  "nucleolus":{"needs":["game"],"bytes":2097152,"per head":8,
    "players":{"table":16,"cost-table":16,"airport":64,"bankruptcy":64,"tree":16,"assignment":16,"voting":16}},
  "prenucleolus":{"needs":["game"],"bytes":2097152,"per head":8,
    "players":{"table":16,"cost-table":16,"airport":64,"bankruptcy":64,"tree":16,"assignment":16,"voting":16}},
  "propose":{"needs":["game","shares"],"bytes":2097152,
    "players":{"table":16,"cost-table":16,"airport":64,"bankruptcy":64,"tree":16,"assignment":16,"voting":32}},
  "core":{"needs":["game"],"bytes":2097152,
    "players":{"table":16,"cost-table":16,"airport":64,"bankruptcy":64,"tree":16,"assignment":16,"voting":16}},
  "check":{"needs":["answer","certificate","game","shares"],"bytes":8388608,"per head":16,
    "players":{"table":16,"cost-table":16,"airport":64,"bankruptcy":64,"tree":16,"assignment":16,"voting":32}},
  "shapley":{"needs":["game"],"bytes":2097152,
    "players":{"table":16,"cost-table":16,"airport":32,"bankruptcy":16,"tree":16,"assignment":16,"voting":32}},
  "bird":{"needs":["game"],"bytes":2097152,
    "players":{"tree":16}},
  "convex":{"needs":["game"],"bytes":2097152,
    "players":{"table":16,"cost-table":16,"airport":16,"bankruptcy":16,"tree":16,"assignment":16,"voting":16}},
  "kernel":{"needs":["game","shares"],"bytes":2097152,
    "players":{"table":16,"cost-table":16,"airport":16,"bankruptcy":16,"tree":16,"assignment":16,"voting":16}},
  "matching":{"needs":["game"],"bytes":2097152,
    "players":{"market":64}}};
export const LIMITS = {"bits":40,"denominator":65536,"votes":1000,"bytes of a name":64,"mode span":16};

/** The most players of a game of a class. */
export function mostOf(kind) {
  return CLASSES[kind].players[1];
}

/** The most players for which a command answers a game of a class; 0 if it doesn't serve the class. */
export function mostFor(command, kind) {
  return COMMANDS[command].players[kind] ?? 0;
}

/** What the rows of the classes have at a key, by class, of those that have it. */
export function keysOf(key) {
  const rows = Object.entries(CLASSES).filter(([, row]) => key in row);
  return Object.fromEntries(rows.map(([kind, row]) => [kind, row[key]]));
}
