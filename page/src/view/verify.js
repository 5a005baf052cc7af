// Checking a line that came from others: the agreed game, the program's checker, and the page's own.
import { Rational } from "../exact/rational.js";
import { Facts } from "../game/facts.js";
import { ruleName } from "../tell/rule-names.js";
import { button, el, refill } from "./dom.js";
import { anewWord, programWord, wordLine } from "./evidence.js";
import { fingerprint } from "./files.js";
import { givenParts } from "./given.js";
import { Helper } from "./helper.js";
import { lineTable } from "./line-table.js";
import { words } from "./meanings.js";
import { settled } from "./questions.js";
import { textPlace } from "./text-place.js";
import { meaning } from "./trust.js";
import {
  bareText, besideRight, conclusion, disagreement, nameRemarks, notTaken, twice, unreadable, withoutMail,
} from "./verdict.js";

const NO_FILE = "No file of the game is given, so nobody can say. A certificate shows that shares are right for its "
  + "own game.";
const NOT_AGREED = "This game came with a line, and isn’t the agreed game. Nothing on this page is agreed on.";
const NOT_RIGHT = "This game came with a line that doesn’t show that its shares are right. The shares below are worked "
  + "out anew.";
const OTHER = "What was checked here isn’t the game of the case above, so it isn’t printed with it.";
const RULES = ["nucleolus", "prenucleolus"];
const ASKED = [...RULES, "shapley", "bird"]; // what the program can find anew

/** `onOpen(text, doubt, from)` opens a game as a case; `format()` says how numbers are shown; `onPrint()` prints all
 * this. */
export function verifyPanel({ format, onOpen, onPrint }) {
  const panel = new VerifyPanel(format, onOpen, onPrint);
  return {
    element: panel.element,
    setLine: (text, from) => panel.ofLine.setText(text, from),
    beside: (text) => panel.beside(text),
    fromCase: (own) => panel.fromCase(own),
  };
}

class VerifyPanel {
  constructor(format, onOpen, onPrint) {
    Object.assign(this, { onOpen, onPrint, line: "", agreed: "", turn: 0, text: null });
    this.format = () => format(this.facts); // by the numbers of the line, and not by those of the case
    this.from = { ofLine: {}, ofGame: {} }; // where the two texts come from
    this.helpers = [new Helper(), new Helper()];
    this.answers = el("div", { class: "answers", "aria-live": "polite" });
    this.apart = el("div", { class: "in-case screen apart", "aria-live": "polite" });
    this.means = el("div", {}, meaning());
    this.ofLine = textPlace({
      title: "The line to check",
      hint: "The answer with its certificate, as the program printed it or this page saved it.",
      onText: (text, from) => this.check({ line: text, from: { ...this.from, ofLine: from } }),
    });
    this.ofGame = textPlace({
      title: "The game that was agreed on",
      hint: "The file that everybody agreed on before anyone knew an answer. You may leave it out.",
      onText: (text, from) => this.check({ agreed: text, from: { ...this.from, ofGame: from } }),
    });
    this.offer = el("p", { class: "tools" });
    this.ofGame.append(this.offer);
    const places = el("div", { class: "places screen" }, this.ofLine, this.ofGame);
    this.element = el("div", {}, places, this.apart, this.answers, this.means, words());
  }

  /** Puts the game of a case that was typed, {text, title}, into the place of the agreed one, as long as no other was
   * given. That of a worked example, one that was left out, or beside another file, is offered. */
  fromCase(own) {
    const { agreed, from: { ofGame } } = this, text = own ? `${own.text}\n` : "";
    const isByItself = own?.isTyped && text !== this.leftOut, take = () => {
      refill(this.offer);
      this.ofGame.setText(text, { ofCase: own.title });
    };
    this.own = own;
    const isOther = (agreed.trim() && !ofGame.ofCase) || ofGame.fault;
    refill(this.offer, own && text !== agreed && (isOther || !isByItself)
      && button(`The game of my case, “${own.title}”`, take, { class: "quiet" }));
    if (isOther || text === agreed) return;
    this.ofGame.setText(isByItself ? text : "", isByItself ? { ofCase: own.title } : {});
  }

  /** The game of the last case came by itself: where it isn't that of the line, it may have nothing to do with it. */
  besideLast({ isOfCase, isYes }) {
    const leave = () => {
      this.leftOut = this.agreed;
      this.ofGame.setText("");
      this.fromCase(this.own);
    };
    return isOfCase && isYes !== true && el("p", { class: "note screen" }, "The page put the game of your case, "
      + `“${this.from.ofGame.ofCase}”, beside this line. If the two have nothing to do with each other, leave it out. `,
    button("Leave my case out", leave, { class: "quiet" }));
  }

  /** Says where what was checked isn't the game of the case above, whose document is `text` (null where it has none).
   * It is printed with that case alone of which it is known to be. */
  async beside(text) {
    const { line, agreed } = this, asked = (this.asked = {}), isHere = () => asked === this.asked;
    this.text = text;
    this.element.classList.remove("of-case");
    if (!line.trim()) return refill(this.apart);
    try {
      const isSame = text ? await this.helpers[1].ask("isOfGame", { line, agreed, text }) : false;
      if (!isHere()) return undefined;
      this.element.classList.toggle("of-case", isSame);
      return refill(this.apart, !isSame && el("p", { class: "notice" }, OTHER));
    } catch {
      return undefined; // stopped by another check, which asks anew
    }
  }

  async check(given) {
    Object.assign(this, given);
    const mine = (this.turn += 1), isMine = () => mine === this.turn, { line, agreed } = this;
    for (const helper of this.helpers) helper.stop();
    this.beside(this.text);
    if (this.tellNotTaken()) return undefined;
    const hint = agreed.trim() && el("p", { class: "hint" }, "Give the line to check, too.");
    if (!line.trim()) return refill(this.answers, hint);
    try {
      const seen = await this.helpers[0].ask("lookAtLine", { line, agreed });
      if (!isMine()) return undefined;
      this.sums = this.sumsOf(agreed, seen, isMine);
      this.facts = seen.facts;
      const game = seen.facts ? new Facts(seen.facts) : null, found = {};
      refill(this.means, meaning(seen.answer, game?.perHead));
      if (!seen.fault && !seen.hasCertificate) return await this.askBare(seen, game, isMine);
      this.show(seen, game, found);
      return seen.fault ? undefined : await this.ask(seen, game, found, isMine);
    } catch (fault) {
      if (fault.message !== "stopped") this.tell(fault);
      return undefined;
    }
  }

  /** Both checkers at once; each is asked by itself, and neither waits for the other. */
  async ask(seen, game, found, isMine) {
    const [engine, checker] = this.helpers, document = this.line;
    const asked = (key, promise) => settled(promise).then((word) => {
      found[key] = word;
      if (isMine()) this.show(seen, game, found);
    });
    await Promise.all([
      asked("program", engine.ask("solve", { word: "check", document }).then(ended)),
      asked("anew", checker.ask("checkAnew", { document })),
    ]);
    if (isMine()) await this.askRight(seen, game, found, isMine);
  }

  /** Where a checker says no the program is asked for the shares of the game, if it may be the agreed one. */
  async askRight(seen, game, found, isMine) {
    const { bare, answer, same } = seen, isYes = (word) => word.tree?.answer === "yes";
    const isOpen = bare?.isOwn && RULES.includes(answer) && same?.isYes !== false;
    if (!isOpen || (isYes(found.program) && isYes(found.anew))) return;
    const [engine] = this.helpers;
    found.right = await settled(engine.ask("solve", { word: answer, document: bare.text }).then(ended));
    if (isMine()) this.show(seen, game, found);
  }

  /** Without a certificate the program is asked for the answer anew, where the game and the question are known. */
  async askBare(seen, game, isMine) {
    const { bare, answer } = seen, canAsk = bare && ASKED.includes(answer);
    this.showBare(seen, game, canAsk ? {} : null);
    if (!canAsk) return;
    const [engine] = this.helpers, document = bare.text;
    const found = await settled(engine.ask("solve", { word: answer, document }).then(ended));
    if (isMine()) this.showBare(seen, game, found);
  }

  /** A file that can't be taken leaves no word of the one before. */
  tellNotTaken() {
    const { ofLine, ofGame } = this.from;
    const onWithout = !ofLine.fault && this.line.trim() && (() => this.ofGame.setText(""));
    const fault = ofLine.fault ?? ofGame.fault;
    if (fault) refill(this.answers, notTaken(fault, onWithout));
    return fault;
  }

  /** By which sums the two files can be compared: those of what was given, and that which the page's paper names. */
  sumsOf(agreed, { file }, isMine) {
    const place = el("div", {}, givenParts(this, this.from));
    const made = file?.isGame ? this.helpers[1].ask("standardText", { text: agreed }) : Promise.resolve(null);
    made.then((text) => {
      if (!isMine() || !text || text === agreed) return;
      place.append(fingerprint(text, "Written as this page writes and prints it, the same game has the SHA-256 "));
    }, () => 0);
    return place;
  }

  tell(fault) {
    const sentence = `The line couldn’t be checked: ${fault.message}.`;
    refill(this.answers, el("p", { class: "notice bad", role: "alert" }, sentence));
  }

  sameWord({ same }) {
    const isOfCase = Boolean(this.from.ofGame.ofCase), said = (text) => {
      return isOfCase ? text.replace(/the agreed file/g, "your case") : text;
    };
    const title = isOfCase ? "Is it the game of your case?" : "Is it the agreed game?";
    if (!same) return { title, isYes: null, sentence: NO_FILE };
    const { sentence, items = [] } = same;
    return { ...same, title, isOfCase, sentence: said(sentence), items: items.map(said), isGiven: true };
  }

  show(seen, game, found) {
    const same = this.sameWord(seen);
    const words = [same, ...(seen.fault ? [] : [programWord(found.program, game), anewWord(found.anew, game)])];
    refill(this.answers, conclusion(words, seen, game, this.format()), this.besideLast(same), twice(seen),
      seen.fault && unreadable(seen, (text) => this.mend(text)),
      (!seen.fault || same.isGiven) && el("ul", { class: "words" }, words.map(wordLine)),
      this.mendAgreed(seen), disagreement(found), besideRight(seen, game, found.right, this.format()),
      nameRemarks(seen), lineTable(seen, game, this.format()), this.sums, this.tools(seen, game, same, words));
  }

  /** The line without what a mail program added; what was given stays known, for its sum. */
  mend(text) {
    const { ofLine } = this.from;
    this.ofLine.setText(text, { ...ofLine, given: ofLine.given ?? this.line });
  }

  /** The same for the file that was agreed on. */
  mendAgreed({ file }) {
    const { ofGame } = this.from, { agreed } = this;
    const mend = () => this.ofGame.setText(file.mended, { ...ofGame, given: ofGame.given ?? agreed });
    return file?.mended
      && withoutMail(button("Read the agreed file without what the mail program added", mend), file.left);
  }

  agreedButton({ file }, { isYes }) {
    const open = () => this.onOpen(this.agreed, "", this.from.ofGame);
    return file?.isGame && button("Open the agreed game, with the reasons", open, {
      class: isYes === false ? "" : "quiet",
    });
  }

  tools(seen, game, same, words) {
    const isRight = words.slice(1).every(({ isYes }) => isYes);
    const doubt = same.isYes === false ? NOT_AGREED : isRight ? "" : NOT_RIGHT;
    if (words.slice(1).some(({ isYes }) => isYes === undefined)) return null;
    return el("p", { class: "tools" },
      this.agreedButton(seen, same),
      game && !same.isYes && button("Open the game of this line", () => this.onOpen(this.line, doubt), {
        class: "quiet",
      }),
      button("Print this check", this.onPrint, { class: "quiet" }));
  }

  showBare(seen, game, found) {
    const same = this.sameWord(seen), { bare, file, answer } = seen, isTurned = file?.isLine;
    const words = [same.isGiven && game && same, found && this.anewShares(found, bare, answer)].filter(Boolean);
    const isJudged = seen.shares && answer === "shares";
    const open = isJudged
      ? "Open this game: its shares are judged there, as “Your proposal”"
      : "Open this game here, with the reasons";
    refill(this.answers,
      el("p", { class: "notice" }, isTurned ? "The other file has the certificate: are the two in each other’s place?"
        : bareText(seen, game, bare)), this.besideLast(same),
      isTurned && el("p", { class: "tools" }, button("Let them change places", () => this.turnRound())),
      this.mendAgreed(seen), twice(seen), el("ul", { class: "words" }, words.map(wordLine)), nameRemarks(seen),
      lineTable(seen, game, this.format()), this.sums,
      el("p", { class: "tools" }, game && button(open, () => {
        this.onOpen(this.line, same.isYes === false ? NOT_AGREED : "");
      }, { class: "quiet" }), !isTurned && this.agreedButton(seen, same)));
  }

  turnRound() {
    const { line, agreed, from: { ofLine, ofGame } } = this;
    this.agreed = line;
    this.ofGame.setText(line, ofLine);
    this.ofLine.setText(agreed, ofGame);
  }

  /** What the program finds anew for the question of a line without a certificate. */
  anewShares(found, { shares, isOwn, facts }, answer) {
    const name = ruleName(answer, facts.perHead), game = isOwn ? "its game" : "the agreed game";
    const title = `The program, asked anew for the ${name} of ${game},`;
    if (!found.tree && !found.fault) return { title, sentence: "is at work …" };
    if (found.fault || found.refusal || !found.tree.shares) {
      return { title, isYes: null, sentence: found.fault ?? found.refusal?.sentence ?? "finds that there is none." };
    }
    const [mine, theirs] = [shares, found.tree.shares].map((list) => list.map(Rational.of));
    const k = mine.findIndex((share, i) => !share.equals(theirs[i]));
    if (k < 0) return { title, isYes: true, sentence: "finds these shares." };
    const format = this.format(), verb = facts.costs ? "pays" : "gets";
    return { title, isYes: false, sentence: `finds other shares: ${facts.shown[k]} ${verb} ${format.show(theirs[k])} `
      + `(${theirs[k]}), and not ${format.show(mine[k])} (${mine[k]}).` };
  }
}

function ended(answer) {
  if (answer.status <= 3) return answer;
  const why = answer.status === 7 ? "it found no memory" : `it ended with status ${answer.status}`;
  throw new Error(why);
}
