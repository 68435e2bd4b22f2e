// The texts of the dialog of the rules: the rules of both games, the board, hints, and the keys.

/** @typedef {import('./turns.js').Game} Game */

// The keys, where there is a keyboard: what is pressed, and what it does.
/** @type {[string, string][]} */
export const KEYS = [
  ['arrows', 'go to another square, and in Towers onto the clues'],
  ['1 to 9', 'a number, or a pencil mark where Marks is pressed'],
  ['Enter or p', 'Marks on or off; on a clue: done'],
  ['Space 0 Delete', 'clear the square'],
  ['m, P', 'all marks in all empty squares; the possible ones alone'],
  ['M', 'marks go when their number is put in, or stay'],
  ['u, r', 'undo, redo; also Ctrl-Z, and Ctrl-Y or Ctrl-Shift-Z; on a Mac with Cmd'],
  ['d', 'a clue is done'],
  ['h, H', 'hint; all steps'],
  ['x', 'after the last step: keep what it ruled out in the marks'],
  ['c, b, S', 'can it be completed; back until it can; solve'],
  ['R', 'back to the start'],
  ['n, o, t', 'new game; games to continue; the daily games'],
  ['w, i', 'save to a file; the link and the ID'],
  ['E', 'check or set a puzzle, and back; there < > put a sign right of the square, ^ v below it, M thins out, F fills in'],
  [':', 'a command of the program'],
  ['?', 'rules and keys'],
];

// The rules, sentence by sentence.
/** @type {Record<Game, string[]>} */
export const RULES = {
  towers: [
    'Newspapers call this puzzle Skyscrapers.',
    'Each row and each column has each number from 1 to the size once.',
    'A number is a tower of that height. A clue at the edge says how many towers are seen from there along its row or column. '
      + 'A tower hides all lower ones behind it.',
  ],
  unequal: [
    'Newspapers call this puzzle Futoshiki.',
    'Each row and each column has each number from 1 to the size once.',
    'A sign between two squares says which of them has the greater number: it opens to the greater one, and points at the lesser one.',
  ],
};

// A clue that is worked through beside its picture.
/** @type {Record<Game, string>} */
export const WORKED = {
  towers: 'From the left 1, 3 and 4 are seen, and 2 stands behind the 3: the clue is 3. From the right 4 hides all others: the clue is 1.',
  unequal: 'Three squares in a chain, each greater than the one before it. With 1 to 4 the last is 3 or 4, and the first is 1 or 2.',
};

export const ABOUT_BOARD = 'Bold numbers were given with the puzzle. A red ! marks a contradiction. A full board without red is the solution.';
export const ABOUT_HINT = 'Hint first frames where to look, then says why, then puts the number in. Why? walks through all steps. '
  + 'After the last one Keep what it ruled out takes these numbers from your marks. '
  + 'By what is left means by the numbers that are not ruled out yet in that row or column.';

export const ABOUT_DESK = 'Check or set a puzzle, in the menu, says whether a puzzle has just one solution. '
  + 'The same number once more goes out of its place.';

export const ABOUT_PRESSING = 'A long press on a square, or the right button, changes between numbers and pencil marks. '
  + 'With Number first, then squares, in the menu, you press a number and then each square that gets it.';
