// A setter's other half: items go by a grade, in an order, by a symmetry. The module says which may go: here are only the questions and their order. The
// board in a terminal has the same in playing/setting.py.
import {letters} from './games.js';
import {itemsOn} from './items.js';
import {cellOf, placeAt} from './objects.js';

/** @typedef {import('./objects.js').Board} Board */
/** @typedef {import('./objects.js').Place} Place */
/** @typedef {import('./items.js').Item} Item */
/** @typedef {import('./turns.js').Game} Game */
/** @typedef {import('./verdict.js').Ask} Ask */

/** So many orders are tried until the puzzle has a grade that isn't the least one. */
const MOST_ORDERS = 20;

// The quarter turns by which the items of each symmetry stand for one another; none is the mirror.
/** @type {Record<string, number[]>} */
const TURNS = {none: [], half: [2], quarter: [1, 2, 3], mirror: [0]};

// The grades to which a puzzle of this grade can be thinned out, and none at all.
/** @param {Game} game @param {string} letter */
export const wishes = (game, letter) => [...(letter ? letters(game, 9).filter((_, at, all) => at >= all.indexOf(letter)) : []), ''];

// The ID of the puzzle without the items that can go, and whether it has the grade that was asked for; where that is none, it just has one solution.
/** @param {Game} game @param {Board} board @param {string} id @param {string[]} wish @param {Ask} ask */
export async function thinned(game, board, id, [letter, first, symmetry], ask) {
  const good = letters(game, 9).filter((_, at, all) => at <= all.indexOf(letter));
  for (let order = 1; ; order++) {
    let last = id;
    for (const group of groups(board, first, TURNS[symmetry])) {
      const {grade, solutions, session} = await ask(`new ${last}`, ...group.map(({off}) => off), letter ? 'grade' : 'solutions');
      if (letter ? good.includes(grade ?? '') : solutions?.length === 1) last = session?.id ?? last;
    }
    const isAsWished = !letter || (await ask(`new ${last}`, 'grade')).grade === letter;
    if (isAsWished || good.length === 1 || order === MOST_ORDERS) return {id: last, isAsWished};
  }
}

// All items in the order in which they are tried, those that stand for one another in one group; first those that lack one.
/** @param {Board} board @param {string} first @param {number[]} turns */
function groups(board, first, turns) {
  const {size} = board, all = itemsOn(board).map((item) => ({item, by: Math.random() + Number(isNumber(item, size) === (first === 'clues'))}));
  const there = new Map(all.sort((one, other) => one.by - other.by).map(({item}) => [key(item.places), item]));
  /** @type {Set<string>} */
  const seen = new Set();
  /** @type {Item[][][]} */
  const found = [[], []];
  for (const [own, {places}] of there) {
    const keys = [...new Set([own, ...turns.map((times) => key(places.map((place) => turned(place, size, times))))])];
    if (!seen.has(own)) found[Number(keys.every((one) => there.has(one)))].push(keys.flatMap((one) => there.get(one) ?? []));
    keys.forEach((one) => seen.add(one));
  }
  return found.flat();
}

/** @param {Item} item @param {number} size */
const isNumber = ({places}, size) => places.length === 1 && cellOf(places[0], size) >= 0;

/** @param {Place[]} places */
const key = (places) => [...places].sort().join(' ');

/** @param {Place} place @param {number} size @param {number} times */
function turned(place, size, times) {
  let [x, y] = place.split(',').map(Number);
  if (!times) x = size - 1 - x;
  for (let at = 0; at < times; at++) [x, y] = [size - 1 - y, x];
  return placeAt(x, y);
}
