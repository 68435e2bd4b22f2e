// The drafts of the setter's desk: of each game one, as the puzzles that undo and redo go along. They are kept as games are.
import {isGame} from './games.js';
import {isCount, newKey} from './kept.js';

/** @typedef {import('./turns.js').Game} Game */
// `turn` counts the changes; `ids` are the puzzles, in their order, and `at` is the one that is shown.
/** @typedef {{turn: number, game: Game, ids: string[], at: number}} Draft */

/** How their names begin, and how many puzzles one has at most: then the first ones go. */
const DRAFT = 'puzzles:draft:', MOST = 500;

// The draft of a text; nothing where it is none.
/** @param {string | null} text @returns {Draft | null} */
function draftIn(text) {
  try {
    const {turn, game, ids, at} = JSON.parse(text ?? '');
    return isCount(turn) && isGame(game) && ids.every((/** @type {unknown} */ id) => /^[3-9]:/.test(String(id))) && ids[at] ? {turn, game, ids, at} : null;
  } catch {
    return null;
  }
}

// A draft with a puzzle after the one that is shown.
/** @param {Draft} draft @param {string} id @returns {Draft} */
export function longer({turn, game, ids, at}, id) {
  const last = ids[at] === id ? ids : [...ids.slice(0, at + 1), id].slice(-MOST);
  return {turn: turn + 1, game, ids: last, at: last === ids ? at : last.length - 1};
}

export class Drafts {
  /** @param {import('./keeping.js').Keeping} keeping */
  constructor(keeping) {
    this.keeping = keeping;
  }

  /** @param {Game} game */
  of(game) {
    return draftIn(this.keeping.get(DRAFT + game));
  }

  // Whether there is one that can't be read: it stays, by a name of its own.
  /** @param {Game} game @param {boolean} isRefused */
  setAside(game, isRefused) {
    const text = this.keeping.get(DRAFT + game), isAside = text !== null && (isRefused || !draftIn(text));
    if (isAside) this.keeping.put(`${DRAFT}${game}:${newKey()}`, text);
    return isAside;
  }

  // Keeps a draft, unless another tab has changed it since; whether it did.
  /** @param {Draft} draft */
  keep(draft) {
    const before = this.of(draft.game);
    if (before && before.turn !== draft.turn - 1) return false;
    this.keeping.put(DRAFT + draft.game, JSON.stringify(draft));
    return true;
  }
}
