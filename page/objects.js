// The objects by which the module tells of a game: those of puzzles-json, by the names of docs/JSON.md.

/** @typedef {import('./turns.js').Game} Game */
/** @typedef {{game: string, id: string, position: number, states: number, status: 'playing' | 'solved' | 'helped'}} Session */
/** @typedef {{clue: number, x: number, y: number, done: boolean, error: boolean}} Clue */
/** @typedef {{greater: number, less: number, error: boolean}} Sign */
/** @typedef {{size: number, numbers: number[], givens: number[], marks: number[][], clues: Clue[], signs: Sign[], errors: number[], cheated: boolean}} Board */
/** @typedef {{cell: number, numbers: number[]}} Strike */
/**
 * @typedef {{reason: string, x: number | null, y: number | null, clue: number | null, greater: number | null, less: number | null,
 *   cells: number[] | null, line: number | null, strikes: Strike[], text: string[],
 *   name?: string, known?: {cell: number}[], split?: {cell: number}[]}} Step
 */
/**
 * @typedef {{kind: 'follows' | 'nothing' | 'contradiction', cell: number | null, number: number | null, line: number | null, grade: string | null,
 *   view?: number[][], steps: Step[], groups: number[], text: string[], from?: 'marks' | 'numbers', unmarked?: number | null, name?: string | null}} Hint
 */
// A sentence of a hint, with its number if it is of steps, and the name of these; '' where the module gives none.
/** @typedef {{number: string, name: string, text: string}} Sentence */
/** @typedef {{clues: {x: number, y: number}[], signs: {greater: number, less: number}[], givens: number[]}} Items */
/**
 * @typedef {{lost?: string, refused: string | null, reply: string[], session: Session | null, board?: Board, hint?: Hint, grade?: string | null,
 *   completable?: 'none' | 'one' | 'several', solutions?: number[][], spare?: Items}} Answer
 */

/**
 * A place on a board: column and row of a square, counted from 0, or of a clue, which has -1 or the size in one of them.
 * @typedef {string} Place
 */

/** @param {number} x @param {number} y @returns {Place} */
export const placeAt = (x, y) => `${x},${y}`;

/** @param {number} cell @param {number} size */
export const placeOf = (cell, size) => placeAt(cell % size, Math.floor(cell / size));

// The cell of a square; -1 of a clue.
/** @param {Place} place @param {number} size */
export function cellOf(place, size) {
  const [x, y] = place.split(',').map(Number);
  return x >= 0 && y >= 0 && x < size && y < size ? y * size + x : -1;
}

// The cells of a square's row and column, that square among them.
/** @param {number} cell @param {number} size */
export function crossing(cell, size) {
  const x = cell % size, y = Math.floor(cell / size);
  return Array.from({length: size * size}, (_, at) => at).filter((at) => at % size === x || Math.floor(at / size) === y);
}

// How many squares the player has filled, and how many there are to fill.
/** @param {Board} board */
export function progress({numbers, givens}) {
  const given = givens.filter(Boolean).length;
  return {filled: numbers.filter(Boolean).length - given, empty: numbers.length - given};
}

/** @param {Board} board */
export const isFull = ({numbers}) => numbers.every(Boolean);

// A full board on which nothing is an error is a solution: the program promises it.
/** @param {Board} board */
export const isSolved = (board) => isFull(board) && !board.errors.length && ![...board.clues, ...board.signs].some(({error}) => error);

// Whether numbers, pencil marks and done marks are those of another board of the same puzzle.
/** @param {Board} board @param {Board} other */
export const showsAs = (board, other) => shown(board) === shown(other);

/** @param {Board} board */
const shown = ({numbers, marks, clues}) => JSON.stringify([numbers, marks, clues.map(({done}) => done)]);

// The word of the page for a game that the module names.
/** @param {Session} session @returns {Game} */
export const gameOf = (session) => (session.game === 'Unequal' ? 'unequal' : 'towers');

// The letter of the grade in an ID; nothing where it has none.
/** @param {string} id */
export const letterOf = (id) => /^[3-9]d([a-z])/.exec(id)?.[1] ?? '';

// The sentences of a hint: a line of its text that begins with blanks goes on. Steps of one sentence mostly have the same name.
/** @param {Hint} hint @returns {Sentence[]} */
export function sentences({text, steps, groups, name}) {
  /** @type {string[]} */
  const found = [], names = steps.map((step) => step.name ?? '');
  for (const line of text) {
    if (line.startsWith(' ') && found.length) found[found.length - 1] += ` ${line.trim()}`;
    else found.push(line);
  }
  const own = [...groups.map((length) => [...new Set(names.splice(0, length))].join('; ')), name ?? ''];
  return found.map((whole, at) => {
    const [number] = /^[0-9]+[.] /.exec(whole) ?? [''];
    return {number, name: own[at], text: whole.slice(number.length)};
  });
}

// A sentence with its name, and without its number.
/** @param {Sentence} sentence */
export const headed = ({name, text}) => (name ? `${name}. ${text}` : text);
