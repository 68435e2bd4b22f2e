// A game as it is kept: the text of its save, and what the list of games shows of it.
import {isByteText} from './bytes.js';
import {NAMES, isGame, isOffered, numberIn} from './games.js';
import {gameOf, isSolved, letterOf, progress} from './objects.js';

/** @typedef {import('./bytes.js').ByteText} ByteText */
/** @typedef {import('./turns.js').Game} Game */
/** @typedef {import('./games.js').Fair} Fair */
/** @typedef {import('./objects.js').Board} Board */
/** @typedef {import('./objects.js').Session} Session */
// How far a game is.
/** @typedef {'playing' | 'solved' | 'filled'} State */

/**
 * `turn` counts the changes, so that a tab sees whether another one has moved; `joined` has the positions after several moves that undo takes
 * back as one, with those before; `solved` is when it was solved first, in milliseconds.
 * @typedef {{key: string, turn: number, game: Game, save: ByteText, id: string, fair: Fair | null, begun: number, when: number,
 *   seconds: number, hints: number, joined: [number, number][], solved: number, numbers: number[], givens: number[], state: State}} Kept
 */

// A game that begins.
/** @param {Session} session @param {Board} board @param {ByteText} save @param {Fair | null} fair @returns {Kept} */
export function begunGame(session, board, save, fair) {
  const now = moment(), game = gameOf(session), plain = {key: newKey(), turn: 1, game, fair, begun: now, seconds: 0, hints: 0, solved: 0};
  return {...plain, ...seenOf(session, board, save), joined: []};
}

/** The time in milliseconds, of a clock before 1970, too: a negative one would make a game unreadable. */
export const moment = () => Math.max(0, Date.now());

/** A name for a game that no other one has. */
export const newKey = () => `${Date.now().toString(36)}-${Math.floor(Math.random() * 1e9).toString(36)}`;

// The members of a kept game that follow from its state.
/** @param {Session} session @param {Board} board @param {ByteText} save */
export function seenOf(session, board, save) {
  const {numbers, givens} = board;
  return {save, id: session.id, when: moment(), numbers, givens, state: stateOf(session, board)};
}

/** @param {Session} session @param {Board} board @returns {State} */
function stateOf(session, board) {
  if (!isSolved(board)) return 'playing';
  return session.status === 'helped' ? 'filled' : 'solved';
}

/** @param {Kept} kept */
export const sizeOf = ({id}) => Number(id.charAt(0));

// The class of the game.
/** @param {Kept} kept */
export const kindOf = (kept) => ({game: kept.game, size: sizeOf(kept), letter: letterOf(kept.id)});

// The moves of a save: all that stands below the record of its position.
/** @param {ByteText} save */
const movesIn = (save) => save.slice(save.lastIndexOf('\nSTATEPOS:') + 1).replace(/^.*\n/, '');

// Whether a game goes on from all the moves of another one.
/** @param {Kept} kept @param {Kept} before */
export const goesOn = (kept, before) => movesIn(kept.save).startsWith(movesIn(before.save));

/** @param {Kept} kept */
export const farOf = ({numbers, givens}) => progress({size: 0, numbers, givens, marks: [], clues: [], signs: [], errors: [], cheated: false});

// The game of a text that is kept, or comes from a file; nothing where it is none.
/** @param {unknown} text @returns {Kept | null} */
export function keptIn(text) {
  try {
    return keptOf(typeof text === 'string' ? JSON.parse(text) : text);
  } catch {
    return null;
  }
}

/** @param {any} value @returns {Kept | null} */
function keptOf(value) {
  const {key, game, save, id, state, turn, seconds, hints, joined, numbers, givens} = value;
  // Earlier pages kept the times of such a clock.
  const [begun, when, solved] = [value.begun, value.when, value.solved].map((time) => (time < 0 ? 0 : time));
  if (!key || ![key, id].every((text) => typeof text === 'string') || !isByteText(save) || !isGame(game) || !/^[3-9]/.test(id)) return null;
  if (![turn, seconds, hints].every(isCountedOn) || ![begun, when, solved].every((time) => isCount(time, LAST_MOMENT))) return null;
  if (!['playing', 'solved', 'filled'].includes(state) || !Array.isArray(joined) || !joined.every(isJoined)) return null;
  if (![numbers, givens].every((list) => isNumbers(list) && list.length === Number(id.charAt(0)) ** 2)) return null;
  return {key, turn, game, save, id, fair: fairOf(value.fair, game), begun, when, seconds, hints, joined, solved, numbers, givens, state};
}

// The same of a file: what it counts is counted on.
/** @param {unknown} value */
export function importedIn(value) {
  const kept = keptIn(value);
  return kept && [kept.turn, kept.seconds, kept.hints].every((count) => isCount(count)) ? kept : null;
}

/** The last moment that a date has, in milliseconds; and the most that a file may have counted of anything. */
export const LAST_MOMENT = 8.64e15;
const MOST = 1e9;

/** @param {unknown} count @param {number} [most] */
export const isCount = (count, most = MOST) => isCountedOn(count) && Number(count) <= most;

/** @param {unknown} count */
const isCountedOn = (count) => Number.isSafeInteger(count) && Number(count) >= 0;

/** @param {unknown} pair */
const isJoined = (pair) => isNumbers(pair) && pair.length === 2 && pair[0] > pair[1] && pair[1] > 0;

// Whether what a text says of a game, or of the settings, is of a later state than another text.
/** @param {string} text @param {string | null} other */
export function isLater(text, other) {
  const [one, two] = [text, other].map(countsIn);
  return one.turn > two.turn || (one.turn === two.turn && one.seconds > two.seconds);
}

// When a game was deleted, and after how many changes, where a text says so in its place.
/** @param {string} text */
export function deletionIn(text) {
  const {turn, gone} = countsIn(text);
  return gone ? {turn, gone} : null;
}

// Whether a text says of a game as many changes as that, or fewer.
/** @param {string | null} text @param {number} turn */
export const isUpTo = (text, turn) => text !== null && countsIn(text).turn <= turn;

/** @param {string | null} text @returns {{turn: number, seconds: number, gone: number}} */
function countsIn(text) {
  const {turn = 0, seconds = 0, gone = 0} = parsed(text) ?? {turn: -1};
  return {turn, seconds, gone};
}

// The value of a text in JSON; nothing where it is none.
/** @param {string | null} text @returns {any} */
export function parsed(text) {
  try {
    return JSON.parse(text ?? 'null');
  } catch {
    return null;
  }
}

/** @param {unknown} list @returns {list is number[]} */
const isNumbers = (list) => Array.isArray(list) && list.every((one) => Number.isInteger(one) && one >= 0);

/** @param {any} value @param {Game} game @returns {Fair | null} */
function fairOf(value, game) {
  if (!value || value.game !== game || !isOffered(value) || numberIn(String(value.number)) !== value.number) return null;
  return {game, size: value.size, letter: value.letter, number: value.number};
}

// A name for the save's file.
/** @param {Kept} kept @param {string} grade */
export const fileName = (kept, grade) => `${[NAMES[kept.game].toLowerCase(), sizeOf(kept), grade].filter(Boolean).join('-')}.sav`;
