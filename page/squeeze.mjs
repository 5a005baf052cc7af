// Code without what only the readers of its sources need: comments, indentation, empty lines, and blanks beside signs.
// Strings, templates and regular expressions stay as they are, and so do the ends of lines, but where a statement ends
// or goes on without them. Before the end of a block no semicolon is needed, and constants are variables.

const WORD = /[\p{L}\p{N}_$#]/u;
const VALUE = /[\p{L}\p{N}_$)\]}"'`]/u; // after such a letter a stroke divides
const CONST = /(?<![\p{L}\p{N}_$.])const$/u;
const OPEN = /[\n,;{([]$/; // after which no end of a line is needed
const BEFORE_REGEX = /(?:^|[^\p{L}\p{N}_$.])(?:return|typeof|case|in|of|do|else|void|yield|await)$/u;

/** Where the text that begins at `start` ends: one in quotes, or a regular expression. */
function endOf(code, start) {
  const quote = code[start];
  let isClass = false;
  for (let at = start + 1; at < code.length; at++) {
    if (code[at] === "\\") at += 1;
    else if (quote === "/" && code[at] === "[") isClass = true;
    else if (quote === "/" && code[at] === "]") isClass = false;
    else if (code[at] === quote && !isClass) return at + 1;
    else if (code[at] === "\n") break;
  }
  throw new Error(`a text has no end: ${code.slice(start, start + 40)}`);
}

/** Where a template ends, and its text, with the code in it squeezed too. */
function template(code, start) {
  let text = "`", at = start + 1;
  while (code[at] !== "`") {
    if (at >= code.length) throw new Error(`a template has no end: ${code.slice(start, start + 40)}`);
    if (code.startsWith("${", at)) {
      const inside = squeezed(code, at + 2, true);
      text += `\${${inside.text}}`;
      at = inside.end + 1;
    } else {
      const count = code[at] === "\\" ? 2 : 1;
      text += code.slice(at, at + count);
      at += count;
    }
  }
  return { text: `${text}\``, end: at + 1 };
}

/** A piece of code from a place on, up to its end or, inside of a template, to the brace that closes it. Of each
 * string, template and regular expression it has what `kept` gives. */
function squeezed(code, start, isInside, kept = (piece) => piece) {
  let text = "", at = start, depth = 0, hasBlank = false;
  const put = (piece) => {
    if (piece === "}") text = text.replace(/;$|(?<=\})\n$/, "");
    const [last] = text.slice(-1), [next] = piece, isSame = last === next && "+-".includes(last);
    const isNeeded = last && last !== "\n" && ((WORD.test(last) && WORD.test(next)) || isSame || "/" === last
      || "/" === next);
    text += (hasBlank && isNeeded ? " " : "") + piece;
    hasBlank = false;
  };
  while (at < code.length) {
    const letter = code[at];
    if (letter === "\n") {
      if (text && !OPEN.test(text)) text += "\n";
      hasBlank = false;
      at += 1;
    } else if (letter === " ") {
      text = text.replace(CONST, "let"); // shorter, and no code counts on its refusals
      hasBlank = true;
      at += 1;
    } else if (code.startsWith("//", at)) at = (code.indexOf("\n", at) + code.length + 1) % (code.length + 1);
    else if (code.startsWith("/**", at)) at = code.indexOf("*/", at) + 2;
    else if (letter === '"' || letter === "'" || (letter === "/" && isRegex(text))) {
      const end = endOf(code, at);
      put(kept(code.slice(at, end)));
      at = end;
    } else if (letter === "`") {
      const inside = template(code, at);
      put(kept(inside.text));
      at = inside.end;
    } else {
      if (letter === "{") depth += 1;
      if (letter === "}" && isInside && !depth) return { text, end: at };
      if (letter === "}") depth -= 1;
      put(letter);
      at += 1;
    }
  }
  return { text, end: at };
}

/** Whether a stroke after a text begins a regular expression. */
function isRegex(text) {
  const before = text.trimEnd();
  return before === "" || !VALUE.test(before.at(-1)) || BEFORE_REGEX.test(before.slice(-12));
}

/** All of a code. */
export function squeeze(code) {
  return squeezed(code, 0, false).text;
}

/** All of a code but its strings, templates and regular expressions, which are all "". */
export function withoutTexts(code) {
  return squeezed(code, 0, false, () => '""').text;
}
