// A game that asks for all that the module can do, and its answers as they are with all memory that is wanted.

import {moduleOf} from './module.mjs';

/** @typedef {import('../../../page/module.js').Game} Game */
/** @typedef {{game: Game, before: Uint8Array, line: Uint8Array, said: Uint8Array, saved: Uint8Array}} Answered */

/** @type {Record<Game, string[]>} */
const GAMES = {
  towers: [
    'board', 'new 3:3//////3/////', 'board', 'move M', 'marks', 'move R0,0,1', 'hint', 'completable', 'list 5', 'grade', 'undo', 'redo', 'save', 'move D0,-1', 'done',
    'solve', 'status', 'restart', 'fair 6 h 7', 'hint', 'board', 'new 5!7', 'move R9,9,9', 'fair 9 e 3', 'hint', 'show', 'nothing', '', 'id',
  ],
  unequal: [
    'new 3:0,0L,0L,0U,0,0,0U,0,0,', 'board', 'move P0,0,1', 'hint', 'completable', 'list 5', 'grade', 'undo', 'redo', 'save', 'solve', 'fair 5 k 7', 'hint', 'board',
    'new 6!3', 'fair 9 t 3', 'hint', 'show', 'x'.repeat(2000), 'quit',
  ],
};

/** @param {Uint8Array} one @param {Uint8Array} other */
export const isSame = (one, other) => Buffer.compare(one, other) === 0;

/**
 * Both games by a whole module.
 * @param {string} path @returns {Answered[]}
 */
export function bothAnswered(path) {
  return [...answered(path, 'towers'), ...answered(path, 'unequal')];
}

/** @param {string} path @param {Game} game @returns {Answered[]} */
function answered(path, game) {
  const module = moduleOf(path);
  let before = new Uint8Array(0);
  return GAMES[game].map((text) => {
    const line = Buffer.from(text);
    const {said, saved} = module.turn(game, before, line);
    const one = {game, before, line, said, saved};
    before = saved;
    return one;
  });
}
