// The questions of sheets to the program besides the puzzles: how their answers go on, and the cards of the course.
import {NO_BYTES} from './bytes.js';
import {GRADES} from './games.js';
import {cellOf, isSolved} from './objects.js';
import {CARDS} from './shared_texts.js';
import {movesOf, toldIn, unnamed} from './sheet_steps.js';
import {TABLES} from './sheet_tables.js';
import {WalkedHint} from './walked_hint.js';

/** @typedef {import('./objects.js').Hint} Hint */
/** @typedef {import('./turns.js').Game} Game */
/** @typedef {import('./sheet_choice.js').Ask} Ask */
/** @typedef {import('./sheet_choice.js').Puzzle} Puzzle */

// The moves of each puzzle.
/** @param {Ask} ask @param {Puzzle[]} puzzles @param {(made: number) => void} [progress] */
export async function movesBy(ask, puzzles, progress = () => {}) {
  let made = 0;
  return Promise.all(puzzles.map(async (puzzle) => {
    const moves = await moved(ask, puzzle);
    progress(++made);
    return moves;
  }));
}

// Each hint is asked for in the session in which the number of the one before it was put in.
/** @param {Ask} ask @param {Puzzle} puzzle */
async function moved(ask, {game, id, size}) {
  /** @type {Hint[]} */
  const hints = [];
  let line = `new ${id}`, session = NO_BYTES;
  for (;;) {
    const {answers: [, {hint}, {board}], saved} = await ask(game, [line, 'hint', 'board'], session);
    if (hint?.kind !== 'follows' || !hint.text.length) return movesOf(hints, Object.keys(GRADES[game]), Boolean(board && isSolved(board)));
    hints.push(hint);
    [line, session] = [new WalkedHint(hint, size).move, saved];
  }
}

/** @param {Ask} ask @param {Game} game */
export async function lessonsBy(ask, game) {
  const lessons = await Promise.all(CARDS[game].map(async ([id], at) => {
    const [head, text] = TABLES.LESSONS.TITLES[game][at], {answers: [, {hint}]} = await ask(game, [`new ${id}`, 'hint']);
    if (!hint) throw new Error(`no hint for the card ${id}`);
    const {move, goal} = new WalkedHint(hint, Number(id[0])), put = move ? [move] : [];
    const {answers: shown} = await ask(game, [`new ${id}`, ...put, 'board']), {board} = shown[shown.length - 1];
    if (!board) throw new Error('no board');
    const own = [unnamed(text), ...toldIn(hint)], more = at ? [] : [TABLES.LISTING.SQUARES, TABLES.LESSONS.FRAMED];
    return {head, board, texts: [...own, ...more.map(unnamed)], cell: goal === null ? null : cellOf(goal, board.size)};
  }));
  return {game, lessons};
}
