// All sentences of the page but those of its rules. They speak of what is seen there, and not of keys, since a phone has none.
import {GRADES, NAMES, gradeOf} from './games.js';
import {HINTS_FROM_MARKS, HINTS_FROM_NUMBERS, MARKS_GO, MARKS_STAY, MARK_MISSING, REFUSED_IDS, REFUSED_LINES, REFUSED_MOVES, REFUSED_SAVES, STILL_COMPLETABLE, STOPPED} from './shared_texts.js';

/** @typedef {import('./turns.js').Game} Game */
/** @typedef {import('./turns.js').Fault} Fault */
/** @typedef {import('./games.js').Fair} Fair */
/** @typedef {import('./games.js').Kind} Kind */
/** @typedef {import('./objects.js').Board} Board */
/** @typedef {import('./objects.js').Place} Place */
/** @typedef {import('./objects.js').Step} Step */

export const WELCOME = 'Choose a square, then a number. The menu has the rules.';
export const LEARN = 'Learn';
export const FRAMED = 'Put the number that follows into the framed square.';
export const SEE_WHY = 'Why? shows it.';
export const MARKING = 'Numbers are pencil marks now.';
export const PLACING = 'Numbers are put in now.';
export const NOT_A_CLUE = 'A done mark is for a clue at the edge.';
export const NOT_A_SQUARE = 'That is a clue. A tap on it marks it as done.';
export const AT_START = 'Back at the start. Undo takes that back.';
export const FILL_IN = 'Fill in the solution? Undo takes it back.';
export const NEXT_GAME = 'Next game';
export const NONE_HELD = 'Pressing a square no longer puts a number in.';
export const BY_STEPS = 'By our steps: hints of that grade lead to the solution, and nothing has to be guessed.';
export const AT_WORK = 'The program is at work.';
export const STOP = 'Stop';
export const MOVED = 'Another tab has made a move in between. Look again.';
export const DELETED_ELSEWHERE = 'Another tab has deleted this game. It is kept again with your next move.';
export const GOES_ON = 'You have begun this game before. Here it is.';
export const GONE = 'That game is no longer kept.';
export const CANNOT_BE_READ = 'That kept game can’t be read. It stays as it is.';
export const NO_STORAGE = 'This browser keeps nothing for this page. Save the game to a file before you close it.';
export const NO_ROOM = 'The browser has no room left, so this game is not kept. Delete other games, or save this one to a file.';
export const CAME_LATE = 'Moves that were kept before have come late. They and the moves since then are two games of the list now.';
export const LINK_COPIED = 'The link to this game is copied.';
export const LINK_HERE = 'Copy this link to the game:';
export const NAME_COPIED = 'This page has no address for others, so the name of the game is copied. They put it in at New, under Link or ID.';
export const NAME_HERE = 'This page has no address for others. They put this in at New, under Link or ID:';
export const RESULT_COPIED = 'The result is copied. It shows nothing of the solution.';
export const RESULT_HERE = 'Copy this line:';
export const NO_SUCH_LINK = 'This is not a game. Type a link, an ID or a number from 0 to 18446744073709551615.';
export const CHECK_IT = 'Check it';
export const BEGIN_IT = 'Play it';
export const NOTHING_THERE = 'No puzzle can be read of this.';
export const WHICH_ONE = 'There are several puzzles. Choose one of the list.';
export const TEXT_COPIED = 'The puzzle is copied as text.';
export const TABLE_COPIED = 'The puzzle is copied as a table for a spreadsheet.';
export const TEXT_HERE = 'Copy this text:';
export const NO_NUMBER = 'The number of a game goes from 0 to 18446744073709551615.';
export const FAILED = 'Something failed on this page. The game is as it was kept last.';
export const NO_STATISTICS = 'Solve a game to see its time here.';
export const DROP_FILE = 'That file is too large. A save has at most 16,777,216 bytes.';
export const NOT_OUR_FILE = 'This page did not write that file.';
export const ID_OF = 'The ID of this puzzle';
export const COMMAND = 'A command of the program:';

// How games are kept: why they aren't, or whether the database has them beside the store.
/** @param {import('./keeping.js').Keeping} keeping */
export function keptText({trouble, isBeside}) {
  if (trouble) return trouble === 'full' ? NO_ROOM : NO_STORAGE;
  if (!isBeside) return 'Each game is kept in this browser after each change, but the last moves may be gone if the browser is killed.';
  return 'Each game is kept in this browser after each change. You can close this page at any time. A private window forgets its games then.';
}

// Where the module can't run at all.
/** @param {string} why */
export function unableText(why) {
  return `This browser can’t run the game (${why}). A current Firefox, Chrome, Edge or Safari can.`;
}

/** @type {Record<Fault, string>} */
export const FAULTS = {
  unread: CANNOT_BE_READ,
  memory: 'The program had no memory left for that. It has begun anew, and the game is as it was.',
  trap: 'The program failed at that. It has begun anew, and the game is as it was.',
  stopped: STOPPED,
  unable: unableText('the module has ended'),
};

/** @type {Record<'none' | 'one' | 'several', string>} */
export const COMPLETABLE = {
  none: 'These numbers can’t be completed.',
  ...STILL_COMPLETABLE,
};

// The sentences for a setting that is switched off, or on.
/** @type {Partial<Record<string, [string, string]>>} */
export const SET = {
  tidy: [MARKS_STAY, MARKS_GO], fromMarks: [HINTS_FROM_NUMBERS, HINTS_FROM_MARKS],
  numberFirst: ['From now on, choose a square, then its number.', 'From now on, press a number, then each square that gets it.'],
};

// Refusals of moves.
/** @type {Record<string, string>} */
const MOVES = {
  BadMove: 'This is not a move.',
  ...REFUSED_MOVES,
  OffGrid: 'There is no square and no clue at that place.',
  OffRange: 'Numbers go from 1 to the size.',
  FilledSquare: 'The square has a number. Clear it before you set pencil marks.',
  ...REFUSED_LINES,
  BadCommand: 'There is no such command.',
};

// Refusals of IDs.
/** @type {Record<string, string>} */
const IDS = {
  BadSize: 'An ID begins with the size, one digit from 3 to 9, like the 5 in 5!7.',
  AdjacentMode: 'The adjacent mode of Unequal, with an a after the size, is not played here.',
  BadParams: 'Only d and a letter may stand between the size and : or !.',
  ForeignSeed: 'Seeds with # work in the usual program only. There, copy the game ID, which has a colon.',
  NoDescription: 'An ID has a : and a description, or a ! and a seed, after the size, as in 5!7.',
  BadSeed: 'A seed goes from 0 to 18446744073709551615, without leading zeros.',
  ...REFUSED_IDS,
  Graded: 'A seeded game has no difficulty letter, as in 5!7.',
  BadClue: 'The ID has a clue that this game doesn’t have.',
  BadSquares: 'The ID has a square that this game doesn’t have.',
  TooFew: 'The ID has too few clues or squares.',
  TooMany: 'The ID has too many clues or squares.',
  OffGrid: 'A sign of the ID points out of the grid.',
  Contradiction: 'Two signs of the ID contradict each other.',
};

/** @param {string} line @param {string} name @param {Game} game */
export function refusal(line, name, game) {
  const isID = line.startsWith('new ');
  if (isID && name === 'BadLetter') return `After the size and d comes one of the letters ${listed(Object.keys(GRADES[game]), 'or')}.`;
  return (isID && IDS[name]) || MOVES[name] || IDS[name] || `The program refuses that: ${name}.`;
}

// Refusals of saves. All others mean damage. The number of a move is put in.
/** @type {Record<string, string>} */
const SAVES = {
  NotASave: 'This is not a save file of the collection: one begins with SAVEFILE:41:.',
  ...REFUSED_SAVES,
  BadState: 'Move NUMBER of that save can’t be made on its board.',
};

// The sentence for a text that isn’t a save of these games, by the name by which the module refuses it.
/** @param {string} text @param {string} why */
export function unreadText(text, why) {
  const [, length, rest] = /^GAME {4}:([0-9]{1,3}):(.*)$/ms.exec(text) ?? ['', '0', ''], game = rest.slice(0, Number(length));
  if (why.includes('WrongGame') && game) return `That is a save of ${game}, which is not played here.`;
  const [, name, number] = /([A-Z]\w+)(?: ([0-9]+))?$/.exec(why) ?? ['', '', ''];
  return (SAVES[name] ?? `That save is damaged (${name}).`).replace('NUMBER', number);
}

// Where something is odd of what was typed.
/** @param {import('./drawings.js').Read} read */
export const oddText = ({line, column, why}) => `Line ${line}${column ? `, column ${column}` : ''}: ${why}.`;

// `1, 2 and 3`.
/** @param {(string | number)[]} words @param {string} last */
export function listed(words, last = 'and') {
  return words.length > 1 ? `${words.slice(0, -1).join(', ')} ${last} ${words[words.length - 1]}` : words.join('');
}

/** @param {number} count @param {string} thing */
export const counted = (count, thing) => `${count} ${thing}${count === 1 ? '' : 's'}`;

/** @param {string} text */
const capital = (text) => text.charAt(0).toUpperCase() + text.slice(1);

/** @param {Game} game @param {number} size */
export const titleText = (game, size) => `${NAMES[game]} ${size}×${size}`;

/** @param {Fair} fair */
export const numberedText = (fair) => `${NAMES[fair.game]}, ${gradeOf(fair)} ${fair.size}, number ${fair.number}.`;

/** @param {Kind} kind */
export const kindText = (kind) => gameText(kind, '', null);

/** @param {number} seconds */
export function clockText(seconds) {
  const two = (/** @type {number} */ count) => String(count).padStart(2, '0'), hours = Math.floor(seconds / 3600);
  return `${hours ? `${hours}:` : ''}${hours ? two(Math.floor(seconds / 60) % 60) : Math.floor(seconds / 60)}:${two(Math.floor(seconds) % 60)}`;
}

/** @param {number} hints @param {number} seconds @param {number} [days]  in a row */
export function solvedText(hints, seconds, days = 0) {
  const solved = ['Solved', seconds ? `in ${clockText(seconds)}` : '', hints ? `with ${counted(hints, 'hint')}` : ''].filter(Boolean).join(' ');
  return [`${solved}!`, daysText(days)].filter(Boolean).join(' ');
}

// One day is none in a row.
/** @param {number} days */
export const daysText = (days) => (days > 1 ? `${days} days in a row.` : '');

// A game with all that names it. The number of a day is told as that day.
/** @param {Kind} kind @param {string} number @param {Date | null} day */
export function gameText(kind, number, day) {
  return [titleText(kind.game, kind.size), gradeOf(kind), day ? dateText(day) : number && `number ${number}`].filter(Boolean).join(', ');
}

// A line on a solved game, for others.
/** @param {string} name @param {string} solved @param {string} link */
export const resultText = (name, solved, link) => `${name}: ${solved.charAt(0).toLowerCase()}${solved.slice(1)} ${link}`;

/** @param {Board} board @param {string} title */
export function begunText({givens, clues, signs}, title) {
  return `${title}, ${givens.filter(Boolean).length} given, ${counted(clues.length + signs.length, 'clue')}`;
}

/** @param {number} moves */
export const sinceText = (moves) => `These numbers can’t be completed since the last ${moves === 1 ? 'move' : `${moves} moves`}.`;

/** @param {number} moves */
export const takeBackText = (moves) => `Take back ${counted(moves, 'move')}`;

/** @param {number} moves */
export const takenBackText = (moves) => `${capital(counted(moves, 'move'))} taken back. Redo makes ${moves === 1 ? 'it' : 'them'} again.`;

/** @param {number} number */
export const heldText = (number) => `Each square that you press gets ${number}. Press ${number} again to end that.`;

// Where a step looks: a clue, a sign, or squares by their rows and columns.
/** @param {Step} step @param {number} size */
export function lookAt({clue, x, y, greater, less, line, cells}, size) {
  const name = (/** @type {number} */ cell) => squareName(cell, size);
  if (clue !== null && x !== null && y !== null) return `Look at ${clueAt(clue, x, y, size)}.`;
  if (greater !== null && less !== null) return `Look at the sign between ${name(greater)} and ${name(less)}.`;
  if (line !== null) return `Look at ${lineName(line, size)}.`;
  return `Look at ${listed((cells ?? []).map(name))}.`;
}

// A clue by its place.
/** @param {number} clue @param {number} x @param {number} y @param {number} size */
export function clueAt(clue, x, y, size) {
  return `${clue ? `clue ${clue}` : 'no clue'} ${sideOf(x, y, size)}`;
}

// Where a clue is.
/** @param {number} x @param {number} y @param {number} size */
export function sideOf(x, y, size) {
  return y < 0 || y === size ? `${y < 0 ? 'above' : 'below'} column ${x + 1}` : `${x < 0 ? 'left' : 'right'} of row ${y + 1}`;
}

// A square by its row and its column, as hints call it.
/** @param {number} cell @param {number} size */
export const squareName = (cell, size) => `r${Math.floor(cell / size) + 1}c${(cell % size) + 1}`;

/** @param {number} line @param {number} size */
const lineName = (line, size) => (line < size ? `row ${line + 1}` : `column ${line - size + 1}`);

// Of a mark that is missing: that it is, where, and which one, as far as a square and its number are known.
/** @param {number} cell @param {number} number @param {number} size */
export const missingTexts = (cell, number, size) => [MARK_MISSING, `The marks of ${squareName(cell, size)} leave out its number.`,
  `${number} is missing among the marks of ${squareName(cell, size)}.`].slice(0, cell < 0 ? 1 : number ? 3 : 2);

// Where to look where no step is needed.
/** @param {number | null} line @param {number} size */
export function lookAtGoal(line, size) {
  return line === null ? 'Only one number is left in this square.' : `Look at ${lineName(line, size)}: a number has one square left there.`;
}

/** @param {number} count */
export const inSteps = (count) => (count > 1 ? `Why? shows the ${count} steps.` : '');

/** @param {number} at @param {number} count */
export const stepOf = (at, count) => `Step ${at + 1} of ${count}`;

/** @param {number} at @param {number} count */
export const cardText = (at, count) => `Card ${at + 1} of ${count}`;

/** @param {number} number @param {number} left */
export const numberName = (number, left) => `${number}, ${left > 0 ? `${left} left` : 'none left'}`;

/** @param {string} title */
export const deleteGameText = (title) => `Delete this game, ${title}? It can’t be brought back.`;

/** @param {number} count */
export const deleteFinishedText = (count) => `Delete ${counted(count, 'game')}, solved or filled in, for good? Statistics and calendar stay.`;

/** @param {number} taken @param {number} refused @param {number} there */
export function brought(taken, refused, there) {
  const more = [there ? `${there} were here already.` : '', refused ? `${refused} can’t be read.` : ''];
  return [`${capital(counted(taken, 'game'))} imported.`, ...more].filter(Boolean).join(' ');
}

// The sentence for kept games that can’t be read.
/** @param {number} count */
export const unreadGames = (count) => (count ? `${counted(count, 'game')} more can’t be read. The file of all games has each as it is.` : '');

/** @param {number} filled @param {number} empty */
export const farText = (filled, empty) => `${filled} of ${empty}`;

/** @param {number} when */
export const dayAndTime = (when) => new Date(when).toLocaleString('en-GB', {day: 'numeric', month: 'short', hour: '2-digit', minute: '2-digit'});

/** @param {Date} day */
export const monthText = (day) => day.toLocaleString('en-GB', {month: 'long', year: 'numeric'});

/** @param {Date} day */
const dateText = (day) => day.toLocaleString('en-GB', {day: 'numeric', month: 'long', year: 'numeric'});

/** @param {Date} day @param {boolean} isSolved */
export const dayName = (day, isSolved) => `${dateText(day)}${isSolved ? ', solved' : ''}`;
