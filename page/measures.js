// Where all of a board's picture is. A square's side is 100: the page scales the picture as a whole.

/** @typedef {import('./turns.js').Game} Game */
/** @typedef {import('./objects.js').Place} Place */
/** @typedef {{x: number, y: number, width: number, height: number}} Box */

const SIDE = 100;

/** From this size on a phone is narrow: there is less room between the squares of Unequal then, and more outside of Towers, so that a finger has room for a clue. */
const LARGE = 7;

/** How lines and digits are drawn, and how far a digit's baseline is below its middle, as a part of the font. */
export const PEN = {inner: 2, wedge: 5, ring: 8, number: 56, clue: 42, wrongClue: 36, mark: 30, bang: 38, baseline: 0.36};

/** How far apart two pencil marks are; half of a wedge's depth and of its height; how far from the frame the middle of a clue is. */
const APART = 30, DEPTH = 8, HEIGHT = 17, CLUE = 35;

/** The part of the picture's width at which rows and columns have their numbers. */
const MARGIN = 0.036;

/** The lengths of one game at one size. */
export class Measures {
  /** @param {Game} game @param {number} size */
  constructor(game, size) {
    this.isTowers = game === 'towers';
    this.size = size;
    this.frame = this.isTowers ? 6 : 4;
    const between = this.isTowers ? 0 : size >= LARGE ? 26 : 34, outside = this.isTowers ? 52 : 0;
    const first = this.frame / 2 + outside;
    this.step = SIDE + between;
    /** Where each square begins, and where one more would. */
    this.at = Array.from({length: size + 1}, (_, index) => first + this.step * index);
    /** How wide the picture is from frame to frame, and how much more a finger has for clues. */
    this.full = SIDE * size + between * (size - 1) + 2 * outside + this.frame;
    this.out = this.isTowers && size >= LARGE ? 22 : 0;
    this.margin = MARGIN * (this.full + 2 * this.out);
  }

  /** The part that is seen: the board, and to its left and above it the numbers of rows and columns. */
  get view() {
    const begin = -this.out - this.margin, length = this.full + 2 * this.out + this.margin;
    return [begin, begin, length, length].join(' ');
  }

  // A square, or all the room that a clue has.
  /** @param {number} x @param {number} y @returns {Box} */
  box(x, y) {
    const [[left, width], [top, height]] = [this.along(x), this.along(y)];
    return {x: left, y: top, width, height};
  }

  /** @param {number} index @returns {[number, number]} */
  along(index) {
    const half = this.frame / 2, room = this.at[0] + this.out - half;
    if (index < 0) return [-this.out, room];
    return index === this.size ? [this.at[index] + half, room] : [this.at[index], SIDE];
  }

  // The middle of a square or a clue along one side.
  /** @param {number} index */
  middle(index) {
    if (index < 0) return this.at[0] - CLUE;
    return index === this.size ? this.at[index] + CLUE : this.at[index] + SIDE / 2;
  }

  // The place of a mark in a square: three in a row, each number where it always is.
  /** @param {number} cell @param {number} number */
  mark(cell, number) {
    const rows = Math.ceil(this.size / 3), {x, y} = this.centre(cell);
    return {x: x + (((number - 1) % 3) - 1) * APART, y: y + (Math.floor((number - 1) / 3) - (rows - 1) / 2) * APART};
  }

  /** @param {number} cell */
  centre(cell) {
    return {x: this.middle(cell % this.size), y: this.middle(Math.floor(cell / this.size))};
  }

  // Between two squares.
  /** @param {number} one @param {number} other */
  between(one, other) {
    const [first, second] = [this.centre(one), this.centre(other)];
    return {x: (first.x + second.x) / 2, y: (first.y + second.y) / 2};
  }

  // A path that is open towards the greater number, and points at the lesser one.
  /** @param {number} greater @param {number} less */
  wedge(greater, less) {
    const {x, y} = this.between(greater, less), depth = greater < less ? -DEPTH : DEPTH;
    return Math.abs(greater - less) === 1
      ? `M${x + depth} ${y - HEIGHT}l${-2 * depth} ${HEIGHT}l${2 * depth} ${HEIGHT}`
      : `M${x - HEIGHT} ${y + depth}l${HEIGHT} ${-2 * depth}l${HEIGHT} ${2 * depth}`;
  }

  // The room between two squares.
  /** @param {number} one @param {number} other @returns {Box} */
  gap(one, other) {
    const {x, y} = this.between(one, other), [wide, high] = Math.abs(one - other) === 1 ? [DEPTH, HEIGHT] : [HEIGHT, DEPTH];
    return wider({x: x - wide, y: y - high, width: 2 * wide, height: 2 * high}, 5);
  }

  // One box where the places fill it, otherwise one around each.
  /** @param {Place[]} places @returns {Box[]} */
  around(places) {
    const all = places.map((place) => place.split(',').map(Number)), columns = all.map(([x]) => x), rows = all.map(([, y]) => y);
    const [left, right, top, bottom] = [Math.min(...columns), Math.max(...columns), Math.min(...rows), Math.max(...rows)];
    if (!places.length || (right - left + 1) * (bottom - top + 1) !== places.length) return all.map(([x, y]) => wider(this.box(x, y), -12));
    const first = this.box(left, top), last = this.box(right, bottom);
    return [wider({x: first.x, y: first.y, width: last.x + last.width - first.x, height: last.y + last.height - first.y}, 7)];
  }
}

/** @param {Box} box @param {number} by @returns {Box} */
const wider = ({x, y, width, height}, by) => ({x: x - by, y: y - by, width: width + 2 * by, height: height + 2 * by});
