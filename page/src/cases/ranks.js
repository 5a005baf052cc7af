// Words that say of a claim that it goes before others, or behind them: those of one rank alone share an estate.

const MOST_ROWS = 2000; // that are looked at
const FIRST = "secured|preferential|preferred|priority|mortgages?|pledged?|liens?|(?:fixed|floating) charge"
  + "|subordinated"
  + "|masse(?:gläubiger|verbindlichkeit|schuld)\\p{L}*|(?:ab|aus)sonderung\\p{L}*|(?:vor|nach)rangig\\p{L}*"
  + "|bevorrechtigt\\p{L}*|(?:be|ge)sichert\\p{L}*|grundschuld\\p{L}*|hypothe[kc]\\p{L}*|pfandrecht\\p{L}*"
  + "|(?:super)?privil[eé]gi\\p{L}*|nantissement|preferente|preferent|separatist\\p{L}*";
const RANK = new RegExp(`(?<![\\p{L}-])(?<!(?:not|non|nicht|no) )(?:${FIRST})(?!\\p{L})`, "iu");

/** What is said of pasted claims of which some go before others; null if no word says so. */
export function ranksText(rows) {
  const found = rows.slice(0, MOST_ROWS).flatMap((row) => row.map((cell) => RANK.exec(cell.slice(0, 200))?.[0]));
  const isNew = (word, k, all) => word && all.findIndex((one) => one?.toLowerCase() === word.toLowerCase()) === k;
  const words = found.filter(isNew).slice(0, 3).map((word) => `“${word}”`), are = words.length > 1 ? "stand" : "stands";
  return words.length ? `${words.join(" and ")} ${are} here. Only claims of one rank share an estate: take those `
    + "that go first off it, and leave them out." : null;
}
