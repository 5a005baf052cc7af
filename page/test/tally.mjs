// Numbers drawn from a seed, and expectations that are counted, for the tests that play no page.

/** {draw, expect, count}: `draw(most)` is a number below `most`, `expect` tells what isn't as wanted, and `count` has
 * how much was tried, with how many faults. */
export function tallied(seed) {
  const count = { tried: 0, faults: 0 };
  let state = seed;
  const draw = (most) => {
    state = (Math.imul(state, 1103515245) + 12345) & 0x7fffffff;
    return Math.floor(state / 2048) % most;
  };
  const expect = (what, found, wanted) => {
    count.tried += 1;
    if (found === wanted) return;
    count.faults += 1;
    console.log(`${what}: found ${found}, wanted ${wanted}`);
  };
  return { draw, expect, count };
}
