// The items of a puzzle on the setter's desk, each with the lines by which it comes, goes, or says something else.
import {cellOf, placeAt, placeOf} from './objects.js';
import {sideOf, squareName} from './texts.js';

/** @typedef {import('./objects.js').Board} Board */
/** @typedef {import('./objects.js').Items} Items */
/** @typedef {import('./objects.js').Place} Place */
// The other word that an item could have, by which line: a number and its place, or a sign with both squares.
/** @typedef {{line: string, number: number, where: string}} Mend */
/** @typedef {{name: string, places: Place[], on: string, off: string, others: Mend[]}} Item */

// The name of a sign: its two cells, the lesser first.
/** @param {number} one @param {number} other */
export const signName = (one, other) => `${Math.min(one, other)}-${Math.max(one, other)}`;

// Those that the module lists: a clue or a given has the name of its place.
/** @param {Items} items @param {Board} board @returns {Item[]} */
export function itemsOf({clues, signs, givens}, board) {
  const {size} = board;
  return [
    ...clues.map(({x, y}) => numbered(placeAt(x, y), board.clues.find((own) => own.x === x && own.y === y)?.clue ?? 0, sideOf(x, y, size), size)),
    ...signs.map(({greater, less}) => signed(greater, less, size)),
    ...givens.map((cell) => numbered(placeOf(cell, size), board.givens[cell], squareName(cell, size), size)),
  ];
}

// All of a board.
/** @param {Board} board */
export const itemsOn = (board) => itemsOf({...board, givens: board.givens.flatMap((number, cell) => (number ? [cell] : []))}, board);

/** @param {Place} place @param {number} own @param {string} where @param {number} size @returns {Item} */
function numbered(place, own, where, size) {
  const all = Array.from({length: size + 1}, (_, number) => ({line: `item ${place},${number}`, number, where}));
  return {name: place, places: [place], on: all[own].line, off: all[0].line, others: all.filter(({number}) => number && number !== own)};
}

/** @param {number} greater @param {number} less @param {number} size @returns {Item} */
function signed(greater, less, size) {
  const turned = {line: lineOfSign(less, greater, size), number: 0, where: `${squareName(less, size)} > ${squareName(greater, size)}`};
  const places = [greater, less].map((cell) => placeOf(cell, size)), [on, off] = [true, false].map((is) => lineOfSign(greater, less, size, is));
  return {name: signName(greater, less), places, on, off, others: [turned]};
}

/** @param {number} greater @param {number} less @param {number} size @param {boolean} [is] */
const lineOfSign = (greater, less, size, is = true) => `item ${placeOf(greater, size)},${placeOf(less, size)},${Number(is)}`;

// The line of a number at a place, where it is there already of none; nothing where neither changes anything.
/** @param {Board} board @param {Place} place @param {number} number */
export function numberLine({size, clues, givens}, place, number) {
  const before = givens[cellOf(place, size)] ?? clues.find(({x, y}) => placeAt(x, y) === place)?.clue ?? 0;
  return number <= size && (number || before) ? {line: `item ${place},${number === before ? 0 : number}`} : null;
}

// The line of the next sign between two squares: none, the first is greater, the other is, and none again; or, where it is told which is greater, of that
// sign, and where it is there, of none.
/** @param {Board} board @param {number} first @param {number} second @param {boolean} [isGreater] */
export function signLine({signs, size}, first, second, isGreater) {
  const own = signs.find(({greater, less}) => signName(greater, less) === signName(first, second))?.greater;
  const wanted = isGreater === undefined ? own === first ? second : first : isGreater ? first : second;
  const is = isGreater === undefined ? own !== second : own !== wanted;
  return lineOfSign(wanted, wanted === first ? second : first, size, is);
}
