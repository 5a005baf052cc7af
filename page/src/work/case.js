// A case as a worker keeps it: the page asks about it by its number, so its document and its answer's line stay here.
import { parseJson, writeJson } from "../exact/json.js";
import { Rational } from "../exact/rational.js";
import { Game } from "../game/game.js";
import { nameByRows } from "../tell/words.js";
import { answer } from "./answers.js";
import { readCase } from "./cases.js";

const WITH_CERTIFICATE = ["nucleolus", "prenucleolus"];

export class Case {
  /** `known` is what the page knows of it: {text, rows, line}; nothing of a case that is to be read. */
  constructor(number, known) {
    Object.assign(this, { number, ...known });
  }

  /** Reads the cells as `readCase` does, and keeps what comes of them. */
  read(what) {
    const { game, ...read } = readCase(what);
    Object.assign(this, { text: read.text, rows: read.rows, own: game });
    return read;
  }

  get game() {
    return (this.own ??= new Game(parseJson(this.text).game));
  }

  /** The game with its players named as the rows are. */
  get named() {
    return (this.byRows ??= nameByRows(this.game, this.rows));
  }

  /** What the program answers: about `shares`, if there are any; `check` is about the line that it answered first. */
  ask({ word, shares }) {
    const found = answer(word, word === "check" ? this.line : this.document(word, shares));
    if (found.status === 0 && WITH_CERTIFICATE.includes(word)) this.line ??= found.line;
    return found;
  }

  document(word, shares) {
    if (word === "matching") return this.text.replace('{"game":{"class":"assignment"', '{"game":{"class":"market"');
    const given = shares && writeJson(shares.map((share) => Rational.of(share).toDocument()));
    return given ? `${this.text.slice(0, -1)},"shares":${given}}` : this.text;
  }
}
