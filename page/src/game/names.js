// Names as they are shown, so that none can forge a row, hide what stands behind it, or pass for another.

// controls, characters that format others (as those of writing direction), ends of lines, and what is drawn as nothing
const HIDDEN = /[\p{Cc}\p{Cf}\p{Zl}\p{Zp}\p{Default_Ignorable_Code_Point}\u2800]/gu;
const RIGHT_TO_LEFT = /[\p{Script=Hebrew}\p{Script=Arabic}\p{Script=Syriac}\p{Script=Thaana}\p{Script=Nko}]/u;
const [ISOLATE, END_OF_ISOLATE] = ["\u2068", "\u2069"];
const SUMS = new RegExp("^((all )?together|sum|((grand|sub)[ -]?)?totals?( costs?| amount| claims?| debts?| "
  + "votes?)?|suma|totaa?l|totalt|summa|(zwischen)?summe|gesamt(summe|kosten|betrag)?|insgesamt|zusammen|somme|totale|"
  + "(sous-)?total( général)?|(there)?of which\\b.*|thereof\\b.*|davon\\b.*|dont\\b.*)$", "i");

// letters of other alphabets (Cyrillic, Greek, and some more), each in front of the Latin one that it is taken for
const TWINS = ""
  + "\u0430a\u0435e\u043eo\u0440p\u0441c\u0443y\u0445x\u0456i\u0458j\u0455s\u0501d\u04bbh\u051bq\u051dw\u04cfl"
  + "\u0475v\u04afy\u051aQ\u051cW\u04aeY"
  + "\u0410A\u0412B\u0415E\u041aK\u041cM\u041dH\u041eO\u0420P\u0421C\u0422T\u0423Y\u0425X\u0406I\u0408J\u0405S"
  + "\u03bfo\u03bdv\u03b1a\u03b9i\u03bak\u03c1p\u03c5u\u03c7x\u03b3y"
  + "\u0391A\u0392B\u0395E\u0396Z\u0397H\u0399I\u039aK\u039cM\u039dN\u039fO\u03a1P\u03a4T\u03a5Y\u03a7X"
  + "\u0131i\u0251a\u0261g\u0585o\u057du\u0570h";
const twin = new Map();
for (let k = 0; k < TWINS.length; k += 2) twin.set(TWINS[k], TWINS[k + 1]);

/** A letter as an escape: "\\u200b". */
function escapeOf(letter) {
  const digits = letter.codePointAt(0).toString(16);
  return digits.length > 4 ? `\\u{${digits}}` : `\\u${digits.padStart(4, "0")}`;
}

/** A text in which each hidden character is an escape: "A\u200bdler". */
export function withEscapes(text) {
  return text.replace(HIDDEN, escapeOf);
}

/** The same for a name within a sentence: one that is written from the right is kept apart from the numbers beside. */
export function shownName(name) {
  const text = withEscapes(name);
  return RIGHT_TO_LEFT.test(text) ? ISOLATE + text + END_OF_ISOLATE : text;
}

/** What a person takes a name for: without hidden characters, in the plainest form of each letter. */
function looksOf(name) {
  return name.normalize("NFKC").replace(HIDDEN, "").replace(/\s+/g, " ").trim();
}

/** The same, with one letter for all that are drawn alike: those of other alphabets, 1 and l and I, 0 and O, rn and
 * m. */
function drawn(name) {
  const latin = [...looksOf(name)].map((letter) => twin.get(letter) ?? letter).join("");
  return latin.replace(/[1I|]/g, "l").replace(/[0O]/g, "o").replace(/rn/g, "m");
}

function areAlike(one, other) {
  return one !== other && (drawn(one) === drawn(other) || looksOf(one).toLowerCase() === looksOf(other).toLowerCase());
}

// ---- What is told of names

/** What has to be told of names: of each by itself, and of those that look like one before. */
export function remarksOf(names) {
  const remarks = [], seen = new Map();
  names.forEach((name, i) => {
    remarks.push(...remarksOfOne(name, i + 1));
    const first = [drawn(name), looksOf(name).toLowerCase()].map((key) => seen.get(key)).find((k) => k !== undefined);
    const before = names[first];
    if (first !== undefined && before !== name) remarks.push(alikeRemark(before, name, first + 1, i + 1));
    for (const key of [drawn(name), looksOf(name).toLowerCase()]) if (!seen.has(key)) seen.set(key, i);
  });
  return remarks;
}

/** Whether a name says that it is a sum, as "Total". */
export function isSumWord(name) {
  return SUMS.test(looksOf(name).replace(/[:.]$/, ""));
}

function remarksOfOne(name, number) {
  const remarks = [], looks = looksOf(name);
  if (withEscapes(name) !== name) {
    remarks.push(`Name ${number} has characters that can’t be seen; they are shown as “${withEscapes(name)}”.`);
  }
  if (!looks) remarks.push(`Name ${number} looks empty.`);
  const mixed = mixedLetters(name);
  if (mixed.length) {
    const told = mixed.map((letter) => `“${letter}” (${alphabetOf(letter)}, ${escapeOf(letter)})`).join(", ");
    remarks.push(`Name ${number}, “${shownName(name)}”, has letters of two alphabets in one word: ${told}.`);
  }
  if (isSumWord(name)) {
    remarks.push(`Name ${number} is “${looks}”. Is it the sum of the others? Then it is no player, and has to go.`);
  }
  return remarks;
}

/** Letters of another alphabet in a word that has Latin ones too. */
function mixedLetters(name) {
  const words = name.normalize("NFC").match(/[\p{L}\p{M}]+/gu) ?? [];
  const isLatin = (letter) => /\p{Script=Latin}/u.test(letter);
  const isMixed = (word) => [...word].some(isLatin) && [...word].some(alphabetOf);
  return [...new Set(words.filter(isMixed).flatMap((word) => [...word].filter(alphabetOf)))];
}

function alphabetOf(letter) {
  if (/\p{Script=Cyrillic}/u.test(letter)) return "Cyrillic";
  if (/\p{Script=Greek}/u.test(letter)) return "Greek";
  return /\p{Script=Armenian}/u.test(letter) ? "Armenian" : "";
}

function alikeRemark(one, other, first, second) {
  const looks = looksOf(one), isCase = looks !== looksOf(other) && drawn(one) !== drawn(other);
  return isCase
    ? `Names ${first} and ${second}, “${looks}” and “${looksOf(other)}”, differ by capitals alone, and are two `
      + "different names."
    : `Names ${first} and ${second} look alike, as “${looks}”, and are two different names.`;
}

/** Where two names that look alike differ, in words; null where they don’t look alike. */
export function differenceOf(one, other) {
  if (!areAlike(one, other)) return null;
  const [mine, theirs] = [[...one], [...other]];
  const k = mine.findIndex((letter, i) => letter !== theirs[i]), at = k < 0 ? mine.length : k;
  return `they look alike, but at letter ${at + 1} the line has ${letterText(mine, at)}, and the agreed file `
    + letterText(theirs, at);
}

function letterText(letters, at) {
  const letter = letters[at], next = letters[at + 1] ?? "";
  if (letter === undefined) return "nothing more";
  if (letter === " ") return "a blank";
  if (letter === "\u00a0") return "a no-break space (\\u00a0)";
  if (/\p{Zs}/u.test(letter)) return `another blank (${escapeOf(letter)})`;
  if (withEscapes(letter) !== letter) return escapeOf(letter);
  const accent = /\p{M}/u.test(next) ? ` and an accent by itself (${escapeOf(next)})` : "";
  const told = letter.codePointAt(0) < 128 ? `“${letter}”`
    : `“${letter}” (${[alphabetOf(letter), escapeOf(letter)].filter(Boolean).join(", ")})`;
  return told + accent;
}
