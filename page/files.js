// Files: what a player saves, opens or drops onto the page; and all games as one file.
import {textOf} from './bytes.js';
import {element} from './drawing.js';
import {isSolvedGame} from './keeping.js';
import {goesOn, importedIn, newKey, seenOf} from './kept.js';
import {DROP_FILE, NOT_OUR_FILE, brought} from './texts.js';

/** @typedef {import('./bytes.js').ByteText} ByteText */
/** @typedef {import('./beginning.js').Beginning} Beginning */
/** @typedef {import('./keeping.js').Keeping} Keeping */
/** @typedef {import('./kept.js').Kept} Kept */

/** The most bytes that a save has, and the most that all games in one file may have. */
const SAVE = 16777216, ALL = 2 ** 27;

/** How a file of all games calls itself. */
const FORMAT = 'puzzles-games';

// Gives the player a file.
/** @param {string} name @param {Uint8Array} bytes */
export function give(name, bytes) {
  const url = URL.createObjectURL(new Blob([bytes], {type: 'application/octet-stream'}));
  element('a', '', {href: url, download: name}).click();
  setTimeout(() => URL.revokeObjectURL(url), 60000);
}

// A save file, byte by byte; nothing where it is too large, and a sentence says so.
/** @param {File} file @param {(text: string) => void} tell @returns {Promise<ByteText | null>} */
export async function saveIn(file, tell) {
  if (file.size <= SAVE) return textOf(new Uint8Array(await file.arrayBuffer()));
  tell(DROP_FILE);
  return null;
}

// All games, and what was solved, as one file. A text that can't be read is in it as it is.
/** @param {Keeping} keeping */
export function allGames(keeping) {
  return new TextEncoder().encode(JSON.stringify({format: FORMAT, games: [...keeping.games(), ...keeping.unread()], solved: keeping.solved()}));
}

// Brings such a file in; what came of it, as a sentence.
/** @param {File} file @param {Keeping} keeping @param {Beginning} beginning */
export async function bringIn(file, keeping, beginning) {
  const all = file.size <= ALL ? parsed(await file.text()) : null;
  if (!all) return NOT_OUR_FILE;
  const counts = {taken: 0, refused: 0, known: 0}, saves = new Set(keeping.games().map(({save}) => save));
  for (const one of all.games) {
    const kept = await readAgain(importedIn(one), beginning);
    counts[kept ? join(kept, keeping, saves) : 'refused']++;
  }
  keeping.addSolved(all.solved.filter(isSolvedGame));
  return brought(counts.taken, counts.refused, counts.known);
}

// Joins a game of a file with those that are here. Of one game the later state stays; moves that it doesn't have stay beside it.
/** @param {Kept} kept @param {Keeping} keeping @param {Set<string>} saves  of all games that were here @returns {'taken' | 'known'} */
function join(kept, keeping, saves) {
  const before = keeping.game(kept.key);
  if (before ? before.turn >= kept.turn : saves.has(kept.save)) return 'known';
  if (before && !goesOn(kept, before)) keeping.replace({...before, key: newKey()});
  // A text that can't be read stays as it is, too.
  keeping.replace(before || !keeping.has(kept.key) ? kept : {...kept, key: newKey()});
  return 'taken';
}

/** @param {string} text @returns {{games: unknown[], solved: unknown[]} | null} */
function parsed(text) {
  try {
    const {format, games, solved} = JSON.parse(text);
    return format === FORMAT && Array.isArray(games) && Array.isArray(solved) ? {games, solved} : null;
  } catch {
    return null;
  }
}

// A game of a file, with its state seen in its save once more.
/** @param {Kept | null} kept @param {Beginning} beginning @returns {Promise<Kept | null>} */
async function readAgain(kept, beginning) {
  if (!kept) return null;
  const found = await beginning.present.inTurn(() => beginning.read(kept.save));
  if (!found || typeof found === 'string') return null;
  const {session, board} = found;
  return {...kept, ...seenOf(session, board, kept.save), when: kept.when};
}
