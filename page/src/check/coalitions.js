// Coalitions: ascending lists of members, counted from 0, and their masks.

/** The mask of a coalition of at most 16 players. */
export function maskOf(players) {
  return players.reduce((mask, player) => mask | (1 << player), 0);
}

export function membersOf(mask) {
  const players = [];
  for (let i = 0; mask >> i; i++) if ((mask >> i) & 1) players.push(i);
  return players;
}

/** The mask of a coalition of any size, by which coalitions are ordered. */
export function orderOf(players) {
  return players.reduce((mask, player) => mask | (1n << BigInt(player)), 0n);
}
