// The whole moved by a slider: what each pays, or gets, then, and where that bends. Nothing is told of an amount before
// the program's check took the lines of the piece around it (work/along.js).
import { fractionText } from "../exact/decimals.js";
import { Rational, ZERO } from "../exact/rational.js";
import { movedHint } from "./changes.js";
import { button, copy, el, refill } from "./dom.js";
import { totalsOf } from "./format.js";

const [ONE, TWO, TEN] = [1, 2, 10].map(Rational.of), STEPS = Rational.of(100);
const MOST_PIECES = 200, MOST_BENDS = 12; // bends that have a button

/** The part; `answer` is the rule by which shares are sought. Null where the whole can't move. */
export function movingPart(view) {
  const { typed } = view, range = rangeOf(view);
  if (!range) return null;
  const moved = new MovedWhole(view, range), isOpen = () => Boolean(typed.open?.whole);
  const details = el("details", { class: "other", open: isOpen(), on: { toggle: () => {
    typed.open = { ...typed.open, whole: details.open };
    if (details.open) moved.workOut(() => details.open && details.isConnected);
  } } }, el("summary", {}, view.game.kind === "bankruptcy" ? "Move the estate" : "Move the total"), moved.element);
  return details;
}

/** From and to where the whole moves: the half of it and half more, as far as nobody has to do worse than alone; an
 * estate to all claims. */
function rangeOf({ game, answer }) {
  const whole = game.kind === "bankruptcy" ? game.single : game.whole();
  if (game.kind === "bankruptcy") return { whole, low: ZERO, high: Rational.sum(game.amounts) };
  const half = whole.abs().over(TWO), alone = Rational.sum(game.everyone().map((i) => game.alone(i)));
  let [low, high] = [whole.minus(half), whole.plus(half)];
  if (answer === "nucleolus") [low, high] = game.costs ? [low, least(high, alone)] : [most(low, alone), high];
  return low.less(high) ? { whole, low, high } : null;
}

const least = (a, b) => (a.less(b) ? a : b), most = (a, b) => (a.less(b) ? b : a);

class MovedWhole {
  constructor(view, range) {
    Object.assign(this, view, range, { at: range.whole, pieces: [], todo: [[range.low, range.high]] });
    this.marks = el("datalist", { id: "bends-of-whole" });
    this.slider = el("input", { type: "range", min: "0", step: "1", list: "bends-of-whole", "data-cell": "whole",
      "aria-label": view.game.kind === "bankruptcy" ? "The estate" : "All together", on: { input: () => {
        this.at = this.stops[this.slider.value];
        this.show();
      } } });
    this.said = el("output", {});
    this.bends = el("p", { class: "tools bends" });
    this.found = el("div", { class: "found", "aria-live": "polite" });
    this.element = el("div", { class: "moving" },
      el("label", { class: "move" }, this.said, this.slider, this.marks), this.bends, this.found);
    this.place();
  }

  /** Finds pieces until all of the range has one, that around the amount shown first. */
  async workOut(isWanted) {
    if (this.isAtWork) return;
    this.isAtWork = true;
    try {
      while (this.todo.length && isWanted() && this.pieces.length < MOST_PIECES) await this.findOne();
    } catch (fault) {
      if (fault.message !== "stopped") refill(this.found, el("p", { class: "bad" }, fault.message));
    }
    this.isAtWork = false;
    if (!this.todo.length) this.show();
  }

  async findOne() {
    const place = this.todo.findIndex(([low, high]) => !this.at.less(low) && !high.less(this.at));
    const [[low, high]] = this.todo.splice(Math.max(place, 0), 1), what = { low: String(low), high: String(high) };
    const found = await this.ask("along", { ...what, rule: this.answer });
    if (found) {
      const numbers = (texts) => texts?.map(Rational.of), covers = numbers(found.covers), [from, to] = covers;
      const shares = found.shares?.map((list) => totalsOf(this.rows, numbers(list)));
      const piece = { ...found, covers, ends: numbers(found.ends), shares, excess: numbers(found.excess) };
      this.pieces = [...this.pieces, piece].sort((a, b) => a.covers[0].compare(b.covers[0]));
      this.todo.push(...[[low, from], [to, high]].filter(([a, b]) => a.less(b)));
    }
    this.place();
  }

  /** Where the shares bend: pieces meet there, and have other slopes. */
  bendsFound() {
    return this.pieces.slice(1).flatMap((piece, k) => {
      const before = this.pieces[k], isNext = before.covers[1].equals(piece.covers[0]) && before.ends && piece.ends;
      const isAlike = isNext && slopesOf(before).every((slope, i) => slope.equals(slopesOf(piece)[i]));
      return isNext && !isAlike ? [piece.covers[0]] : [];
    });
  }

  /** The amounts at which the slider stands: in round steps, and at each bend. */
  place() {
    const { low, high, whole } = this, step = stepOf(high.minus(low), this.format.places), bends = this.bendsFound();
    const rounds = [];
    for (let k = low.over(step).floor() + 1n; step.times(Rational.of(k)).less(high); k += 1n) {
      rounds.push(step.times(Rational.of(k)));
    }
    const all = [low, ...rounds, high, whole, this.at, ...bends].sort((a, b) => a.compare(b));
    this.stops = all.filter((amount, k) => !k || !amount.equals(all[k - 1]));
    const placeOf = (amount) => String(this.stops.findIndex((stop) => stop.equals(amount)));
    this.slider.max = String(this.stops.length - 1);
    this.slider.value = placeOf(this.at);
    refill(this.marks, bends.map((bend) => el("option", { value: placeOf(bend) })));
    const goTo = (amount) => () => {
      [this.at, this.slider.value] = [amount, placeOf(amount)];
      this.show();
    };
    const link = (amount, text = this.exactly(amount)) => button(text, goTo(amount), { class: "quiet" });
    refill(this.bends, bends.length ? "Bends at " : this.todo.length ? "" : "No bend. ",
      bends.slice(0, MOST_BENDS).flatMap((bend) => [link(bend), " "]), bends.length > MOST_BENDS && "… ",
      link(whole, "Back to the case"));
    this.show();
  }

  /** With its fraction, where decimals don't tell it. */
  exactly(amount) {
    const { show, isExact } = this.format;
    return isExact(amount) ? show(amount) : `${show(amount)} (${fractionText(amount)})`;
  }

  show() {
    const { at, game } = this, text = this.exactly(at);
    const isIn = ({ ends }) => ends && !at.less(ends[0]) && !ends[1].less(at);
    const verb = game.kind === "bankruptcy" ? "The estate is" : `All together ${game.costs ? "cost" : "gain"}`;
    const piece = this.pieces.find(isIn);
    refill(this.said, `${verb} ${text}`);
    this.slider.setAttribute("aria-valuetext", text);
    refill(this.found, piece ? this.told(piece) : el("p", { class: "hint" }, this.todo.length
      ? "Being worked out …" : "Nothing is told here: no document has numbers as fine as the certificate needs."));
  }

  /** A piece with those beside it that go on as it does: from and to where, and the lines of all. */
  straight(piece) {
    const bends = this.bendsFound(), k = this.pieces.indexOf(piece);
    let [first, last] = [k, k];
    const goesOn = (i) => this.pieces[i]?.ends && this.pieces[i + 1]?.ends
      && !bends.some((bend) => bend.equals(this.pieces[i + 1].covers[0]))
      && this.pieces[i].ends[1].equals(this.pieces[i + 1].ends[0]);
    while (goesOn(first - 1)) first -= 1;
    while (goesOn(last)) last += 1;
    const lines = [...new Set(this.pieces.slice(first, last + 1).flatMap((one) => one.lines))];
    return { lines, from: this.pieces[first].ends[0], to: this.pieces[last].ends[1] };
  }

  told(piece) {
    const { at, rows, format, game } = this, [low] = piece.ends, { lines, from, to } = this.straight(piece);
    const slopes = slopesOf(piece);
    const now = piece.shares[0].map((share, i) => share.plus(slopes[i].times(at.minus(low))));
    const worst = piece.excess[0].plus(rateOf(piece.excess, piece.ends).times(at.minus(low)));
    const texts = format.column(now, rows), names = [...rows.map(({ label }) => label), "together"];
    const lone = [...slopes, Rational.sum(slopes)].map((one) => (one.isNegative() ? "" : "+") + fractionText(one));
    const heads = [game.costs ? "Who pays" : "Who gets", "Here", "For 1 more"];
    const copied = (event) => copy(lines.join("\n"), event.target);
    const head = heads.map((text, k) => el("th", { scope: "col", class: k ? "number" : "" }, text));
    return [
      el("div", { class: "scroll" }, el("table", { class: "shares small" }, el("thead", {}, el("tr", {}, head)),
        el("tbody", {}, names.map((name, r) => el("tr", { class: r < rows.length ? "" : "sum" },
          el("th", { scope: "row" }, name), [texts, lone].map((own) => el("td", { class: "number" }, own[r]))))))),
      movedHint([{ isMoved: format.isMoved(now, rows) }], rows),
      ZERO.less(worst) && el("p", { class: "notice" }, "Here some group could do better, whatever the division."),
      el("p", {}, `From ${this.exactly(from)} to ${this.exactly(to)} each share follows a straight line. The `,
        `program’s check took ${lines.length} lines of it. `, button("Copy them", copied, { class: "quiet" })),
    ];
  }
}

const rateOf = ([first, last], [low, high]) => last.minus(first).over(high.minus(low));

const slopesOf = ({ shares: [first, last], ends }) => first.map((share, i) => rateOf([share, last[i]], ends));

/** A round step, of which a range has about a hundred, and no finer than the decimals shown. */
function stepOf(wide, places) {
  let ten = ONE.over(Rational.of(10n ** BigInt(places)));
  const fine = wide.over(STEPS);
  while (ten.less(fine)) ten = ten.times(TEN);
  const smaller = [ten.over(Rational.of(5)), ten.over(TWO)].find((step) => !step.less(fine));
  return smaller && placesFit(smaller, places) ? smaller : ten;
}

const placesFit = (step, places) => step.times(Rational.of(10n ** BigInt(places))).isWhole();
