// How squares, clues and signs are called, and what of them has changed. Rows and columns count from 1, as a reader of screens counts a grid.
import {cellOf} from './objects.js';
import {clueAt} from './texts.js';

/** @typedef {import('./objects.js').Board} Board */
/** @typedef {import('./objects.js').Clue} Clue */
/** @typedef {import('./objects.js').Place} Place */

/** @param {number} cell @param {number} size */
const nameOf = (cell, size) => `row ${Math.floor(cell / size) + 1}, column ${(cell % size) + 1}`;

// The words for the number and the marks in a square.
/** @param {Board} board @param {number} cell */
export function content({numbers, givens, marks, errors}, cell) {
  if (!numbers[cell]) return marks[cell].length ? `empty, marks ${marks[cell].join(' ')}` : 'empty';
  return numbers[cell] + (givens[cell] ? ', given' : '') + (errors.includes(cell) ? ', wrong' : '');
}

// The signs around a square.
/** @param {Board} board @param {number} cell */
function signsOf({size, signs}, cell) {
  /** @type {Record<number, string>} */
  const sides = {1: 'right', [-1]: 'left', [size]: 'below', [-size]: 'above'};
  return signs
    .filter(({greater, less}) => greater === cell || less === cell)
    .map(({greater, less, error}) => {
      const [than, other] = greater === cell ? ['greater', less] : ['less', greater];
      return `, ${than} than ${sides[other - cell]}${error ? ', wrong' : ''}`;
    })
    .join('');
}

// A square with all that there is to say of it.
/** @param {Board} board @param {number} cell */
export const square = (board, cell) => `${nameOf(cell, board.size)}, ${content(board, cell)}${signsOf(board, cell)}`;

/** @param {Clue} clue @param {number} size */
export const clueName = ({clue, x, y, done, error}, size) => `${clueAt(clue, x, y, size)}${done ? ', done' : ''}${error ? ', wrong' : ''}`;

// The shortest words for a change.
/** @param {Board} before @param {Board} after @param {Place} chosen */
export function changeName(before, after, chosen) {
  const {size} = after, own = cellOf(chosen, size);
  const cells = after.numbers.map((_, cell) => cell).filter((cell) => content(before, cell) !== content(after, cell));
  const squares = cells.length > 3
    ? [`${cells.length} squares changed`]
    : cells.map((cell) => (cell === own && cells.length === 1 ? '' : `${nameOf(cell, size)}: `) + content(after, cell));
  return [...squares, ...changedClues(before, after), ...wrongSigns(before, after)].join('; ');
}

/** @param {Board} before @param {Board} after */
function changedClues(before, after) {
  const {size, clues} = after, done = clues.filter((clue, at) => clue.done !== before.clues[at].done);
  const wrong = clues.filter((clue, at) => clue.error && !before.clues[at].error);
  return [...done.map((clue) => clueName(clue, size) + (clue.done ? '' : ', not done')), ...wrong.map((clue) => clueName(clue, size))];
}

/** @param {Board} before @param {Board} after */
function wrongSigns(before, {signs, size}) {
  return signs
    .filter(({error}, at) => error && !before.signs[at].error)
    .map(({greater, less}) => `wrong: ${nameOf(greater, size)} is greater than ${nameOf(less, size)}`);
}
