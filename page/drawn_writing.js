// A puzzle as text: as the usual program copies it, and as a table for a spreadsheet. As in playing/drawings/writing.py.
import {BLANK, EMPTY, upTo} from './drawn_tables.js';

/** @typedef {import('./drawn_tables.js').Puzzle} Puzzle */
/** @typedef {import('./objects.js').Board} Board */
/** @typedef {import('./turns.js').Game} Game */

// The clues, signs and givens of a board.
/** @param {Game} game @param {Board} board @returns {Puzzle} */
export function puzzleOf(game, {size, clues, givens, signs}) {
  const place = (/** @type {number} */ cell) => `${cell % size},${Math.floor(cell / size)}`;
  const numbers = [...clues.map(({x, y, clue}) => `item ${x},${y},${clue}`), ...givens.map((number, cell) => (number ? `item ${place(cell)},${number}` : ''))];
  return {game, size, items: [...numbers.filter(Boolean), ...signs.map(({greater, less}) => `item ${place(greater)},${place(less)},1`)]};
}

// As the usual program copies it: of Towers with nothing where there is no number.
/** @param {Puzzle} puzzle */
export function copied(puzzle) {
  const rows = rowsOf(puzzle, puzzle.game === 'towers' ? BLANK : EMPTY), ends = [rows[0], rows[rows.length - 1]].map((row) => `   ${row.slice(1, -1).join(' ')}`);
  if (puzzle.game === 'unequal') return textOf(rows.map((row) => row.join('')));
  return textOf([ends[0], '', ...rows.slice(1, -1).map((row) => `${row[0]}  ${row.slice(1, -1).join(' ')}  ${row[row.length - 1]}`), '', ends[1]]);
}

// A table with tabs, and nothing where there is no item: spreadsheets take - and + as the beginning of a formula.
/** @param {Puzzle} puzzle */
export const tabbed = (puzzle) => textOf(rowsOf(puzzle, BLANK).map((row) => row.map((symbol) => symbol.trim()).join('\t')));

/** @param {string[]} lines */
const textOf = (lines) => lines.map((line) => `${line}\n`).join('');

// A table of symbols: of Towers squares with all sides around, of Unequal squares at each second place and signs between.
/** @param {Puzzle} puzzle @param {string} empty */
function rowsOf({game, size, items}, empty) {
  const isTowers = game === 'towers', extent = isTowers ? size + 2 : 2 * size - 1;
  const rows = upTo(extent).map((y) => upTo(extent).map((x) => (isTowers || x % 2 || y % 2 ? BLANK : empty)));
  for (const item of items) {
    const [x, y, ...others] = item.slice('item '.length).split(',').map(Number), [number, lessY] = others;
    if (isTowers) rows[y + 1][x + 1] = String(number);
    else if (others.length === 1) rows[2 * y][2 * x] = String(number);
    else rows[y + lessY][x + number] = y === lessY ? (x < number ? '>' : '<') : y < lessY ? 'v' : '^';
  }
  return rows;
}
