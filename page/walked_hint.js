// A hint, part by part: where to look, what a sentence rules out, and what is left before it. All of it stands in the hint's object.
import {placeAt, placeOf, sentences} from './objects.js';
import {missingTexts} from './texts.js';

/** @typedef {import('./objects.js').Hint} Hint */
/** @typedef {import('./objects.js').Step} Step */
/** @typedef {import('./objects.js').Place} Place */

/**
 * The parts of the board that are pointed at: places in a frame or tinted, numbers that go, and what is left in each square, where that is to be seen.
 * @typedef {{framed: Place[], rests: Place[], struck: Map<number, number[]>, left: number[][] | null}} Shown
 */

/** @type {Shown} */
export const NOTHING_SHOWN = {framed: [], rests: [], struck: new Map(), left: null};

// The squares of a row or column; the rows come first.
/** @param {number} line @param {number} size @returns {Place[]} */
export const line = (line, size) => Array.from({length: size}, (_, at) => (line < size ? placeAt(at, line) : placeAt(line - size, at)));

// The clue and the squares that the sentence of a step names; all that it looks at where it names none, or the module doesn't tell which.
/** @param {Step} step @param {number} size @returns {Place[]} */
export function speaksOf(step, size) {
  const {clue, known = [], split = [], x, y} = step, named = [...known, ...split].map(({cell}) => placeOf(cell, size));
  return clue === null || !named.length ? restsOn(step, size) : [placeAt(Number(x), Number(y)), ...named];
}

// The clue and the squares that a step looks at.
/** @param {Step} step @param {number} size @returns {Place[]} */
export function restsOn({clue, x, y, greater, less, cells}, size) {
  const squares = [...(cells ?? []), ...[greater, less].filter((cell) => cell !== null)].map((cell) => placeOf(Number(cell), size));
  if (clue === null || x === null || y === null) return squares;
  return [placeAt(x, y), ...squares, ...(y < 0 || y === size ? line(size + x, size) : line(y, size))];
}

/** The hint of a board's numbers. */
export class WalkedHint {
  /** @param {Hint} hint @param {number} size */
  constructor(hint, size) {
    const rest = [...hint.steps];
    this.hint = hint;
    this.size = size;
    this.steps = hint.steps;
    /** All sentences: those of steps, and the last. */
    this.sentences = sentences(hint);
    /** The steps of each sentence but the last. */
    this.groups = hint.groups.map((length) => rest.splice(0, length));
  }

  /** Whether the numbers may be right, and the marks are not. */
  get hasWrongMarks() { return this.hint.kind === 'contradiction' && this.hint.from === 'marks'; }

  // Of wrong marks: that one is missing, where that is, and which one, as far as it is known.
  /** @param {number} number  of the square that the hint names; 0 where it isn't known */
  missing(number) {
    const {hint: {unmarked}, size} = this, cell = unmarked ?? -1, place = {...NOTHING_SHOWN, framed: [placeOf(cell, size)]};
    return missingTexts(cell, number, size).map((text, at) => ({text, shown: at ? place : NOTHING_SHOWN}));
  }

  /** The move that the hint comes down to; nothing where there is none. */
  get move() {
    const {cell, number} = this.hint;
    return cell === null || number === null ? '' : `move R${placeOf(cell, this.size)},${number}`;
  }

  // The square in which the number follows; of a contradiction the one that has nothing left, if it is a square that has.
  /** @returns {Place | null} */
  get goal() {
    const {hint: {cell, line}, steps, size} = this, last = steps[steps.length - 1];
    // A module that doesn't tell it: the last step empties it.
    const own = cell ?? (line === null ? last?.strikes[last.strikes.length - 1]?.cell : null) ?? null;
    return own === null ? null : placeOf(own, size);
  }

  // Where to look first.
  /** @returns {Shown} */
  look() {
    const [first] = this.steps;
    return {...NOTHING_SHOWN, framed: first ? restsOn(first, this.size) : this.goalLine()};
  }

  // The parts that a sentence names.
  /** @param {number} at @returns {Shown} */
  shown(at) {
    const steps = this.groups[at];
    if (!steps) return {...NOTHING_SHOWN, framed: this.goalLine(), left: this.left(at)};
    const struck = new Map(steps.flatMap(({strikes}) => strikes).map(({cell, numbers}) => [cell, numbers]));
    return {framed: [], rests: steps.flatMap((step) => speaksOf(step, this.size)), struck, left: this.left(at)};
  }

  // The numbers left in each square before a sentence: those in view, without those that the steps above strike.
  /** @param {number} before */
  left(before) {
    const {view} = this.hint;
    if (!view) return null;
    const left = view.map((numbers) => [...numbers]);
    for (const {cell, numbers} of this.groups.slice(0, before).flat().flatMap(({strikes}) => strikes)) {
      left[cell] = left[cell].filter((number) => !numbers.includes(number));
    }
    return left;
  }

  /** The numbers that all steps rule out in each square. */
  get struck() {
    /** @type {Map<number, number[]>} */
    const struck = new Map();
    for (const {cell, numbers} of this.steps.flatMap(({strikes}) => strikes)) struck.set(cell, [...struck.get(cell) ?? [], ...numbers]);
    return struck;
  }

  /** The row or column in which the number has no other square, or none; or the square alone. */
  goalLine() {
    if (this.hint.line !== null) return line(this.hint.line, this.size);
    return this.goal ? [this.goal] : [];
  }
}
