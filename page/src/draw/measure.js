// How wide a text is in a picture, and texts that fit.

const WIDE = /[\p{Script=Han}\p{Script=Hiragana}\p{Script=Katakana}\p{Script=Hangul}\p{Emoji_Presentation}]/u;
const NARROW = /[iljtfr.,:;|'()[\]! \u202f]/;
const WIDTHS = [[/\p{M}/u, 0], [WIDE, 1.1], [NARROW, 0.36], [/[mwMW@%]/, 0.95], [/\p{Lu}/u, 0.74]];
const USUAL = 0.61; // of the size of the letters

let measure = (text, size, weight) => {
  const parts = [...text].map((letter) => WIDTHS.find(([kind]) => kind.test(letter))?.[1] ?? USUAL);
  return parts.reduce((sum, part) => sum + part, 0) * size * (weight > 400 ? 1.06 : 1);
};

/** Has texts measured by a call: by what draws them, where that is here. Else their widths are about right. */
export function measureBy(call) {
  measure = call;
}

export function widthOf(text, size = 14, weight = 400) {
  return measure(text, size, weight);
}

/** A text in lines for which there is room. */
export function wrapped(text, room) {
  const lines = [];
  for (const word of text.split(" ")) {
    const longer = lines.length ? `${lines.at(-1)} ${word}` : "";
    if (longer && widthOf(longer) <= room) lines[lines.length - 1] = longer;
    else lines.push(word);
  }
  return lines.map((line) => fitted(line, room));
}

/** A text that is cut, with "…" behind it, where it is wider than there is room. */
export function fitted(text, room, size = 14, weight = 400) {
  if (widthOf(text, size, weight) <= room) return text;
  const letters = [...text], begin = (count) => letters.slice(0, count).join("");
  let [least, most] = [1, letters.length - 1]; // how many letters there is room for
  while (least < most) {
    const middle = Math.ceil((least + most) / 2);
    if (widthOf(`${begin(middle)}…`, size, weight) <= room) least = middle;
    else most = middle - 1;
  }
  return `${begin(least).trimEnd()}…`;
}
