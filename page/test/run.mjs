// Plays all scenarios in Chromium: node page/test/run.mjs PAGE TOP [--program PROGRAM] [--only TEXT] [--slack FACTOR]
//   [--undo SEEDS]
//
// PAGE is the page, TOP the repository with the built program. The last line says how much was tried; the status is 0
// where all is as expected, and 1 else. On a busy machine times may be longer by the factor.
import { join, resolve } from "node:path";
import { pathToFileURL } from "node:url";
import { agreed } from "./agreed.mjs";
import { assumed } from "./assumed.mjs";
import { bothWays } from "./both-ways.mjs";
import { casesTyped, otherCases, tables } from "./cases.mjs";
import { checks } from "./checks.mjs";
import { desk } from "./desk.mjs";
import { checking, documents } from "./documents.mjs";
import { door } from "./door.mjs";
import { dropped } from "./dropped.mjs";
import { entering } from "./entering.mjs";
import { face } from "./face.mjs";
import { failing } from "./failing.mjs";
import { figures } from "./figures.mjs";
import { gaps } from "./gaps.mjs";
import { Harness } from "./harness.mjs";
import { landings } from "./landings.mjs";
import { lawyer } from "./lawyer.mjs";
import { lecture } from "./lecture.mjs";
import { letters } from "./letters.mjs";
import { access, large, looks } from "./looks.mjs";
import { byLimitPrices } from "./market.mjs";
import { monkey } from "./monkey.mjs";
import { parts } from "./parts.mjs";
import { powerWhy } from "./power-why.mjs";
import { precise } from "./precise.mjs";
import { rooms } from "./rooms.mjs";
import { saying } from "./saying.mjs";
import { strangers } from "./strangers.mjs";
import { undone } from "./undo.mjs";
import { untaken } from "./untaken.mjs";
import { users } from "./users.mjs";
import { wholeNames } from "./whole-names.mjs";

const words = process.argv.slice(2), [page, top] = words.map((word) => resolve(word));
const option = (name, byDefault) => (words.includes(name) ? words[words.indexOf(name) + 1] : byDefault);

const slack = Number(option("--slack", "1")), told = [];
const harness = new Harness(pathToFileURL(page).href, option("--only", ""), slack);
const program = resolve(option("--program", join(top, "crates", "coop_program", "out", "coop_program")));
harness.add(large(slack, told));
harness.add(desk);
harness.add(dropped);
harness.add(door);
harness.add(face);
harness.add(strangers);
harness.add(untaken);
harness.add(agreed);
harness.add(users);
harness.add(wholeNames);
harness.add(rooms);
harness.add(figures);
harness.add(byLimitPrices);
harness.add(parts);
harness.add(gaps);
for (const some of [entering, assumed, saying, lecture, landings, bothWays, casesTyped, tables, otherCases,
  documents(top, program), checking(top), checks(top), letters(top), lawyer(top), failing(page, top), looks, access,
  precise, powerWhy]) {
  harness.add(some);
}
harness.add(monkey(Number(option("--seed", "1")), Number(option("--steps", "60"))));
harness.add(undone(option("--undo", "1").split(",").map(Number)));
const faults = await harness.run();
for (const line of told) console.log(line);
process.exit(faults ? 1 : 0);
