// Sentences that the board in a terminal says, too: tools/texts makes this file of playing/shared_texts.py and playing/cards.py.

export const SOLVED = 'The board is solved.';
export const FULL = 'The board is full.';
export const FULL_AND_WRONG = 'Full, but not right yet: a ! shows where.';
export const FILLED_IN = 'Filled in by the program.';
export const NOTHING_CHANGES = 'Nothing changes: the board has that already.';
export const NOTHING_TO_CLEAR = 'There is nothing to clear.';
export const ALL_POSSIBLE = 'The marks are the possible ones already.';
export const KEPT = 'What the hint ruled out is kept in your marks.';
export const NOTHING_TO_KEEP = 'There is nothing to keep that your marks don’t show already.';
export const KEEP_AT_END = 'Keep comes after the last step of a hint that shows a number.';
export const HINTS_FROM_MARKS = 'From now on, hints go on from your marks.';
export const HINTS_FROM_NUMBERS = 'From now on, hints begin from the numbers alone.';
export const BY_MARKS = 'This hint goes on from your marks.';
export const BY_NUMBERS = 'This hint begins from the numbers alone.';
export const MARK_MISSING = 'A mark is missing.';
export const MARKS_GO = 'From now on, marks go when their number is put into their row or column.';
export const MARKS_STAY = 'From now on, marks stay when a number is put in.';
export const NO_HINT = 'No number follows by steps alone. Try one, or mark the possible numbers.';
export const STILL_RIGHT = 'These numbers can still be completed: there is nothing to take back.';
export const NEVER_RIGHT = 'Not even the board at the start can be completed.';
export const RIGHT = 'Right.';
export const NOT_YET = 'Not yet.';
export const STOPPED = 'Stopped. Nothing has changed.';
export const NO_GAME = 'There is no game yet.';
export const SO_DRAWN = 'So it can be drawn:';
export const SEEKING = 'Looking for solutions';
export const TRIED = 'No chain of steps shows it; all ways were tried.';
export const BEYOND = 'It is beyond our steps.';
export const NONE_BLAMED = 'No single item is to blame.';
export const NO_PAIR = 'No single item is to blame, and no two are.';
export const NO_OTHER = 'No other number there gives exactly one.';
export const TYPE_IN = 'Type in a printed puzzle';
export const SAID_AFTER_EACH = 'How many solutions it has is said after each item.';
export const WHY_NOT = 'The puzzle has a solution, so there is no contradiction to show.';
export const NO_THINNING = 'Nothing went out: each item is needed.';
export const OTHER_GRADE = 'None of the orders that were tried gives that grade.';
export const NOTHING_TO_FILL = 'All of them are there already.';
export const THINNING = 'Thinning out';
export const SOLUTIONS = {
  none: 'No solution',
  one: 'Exactly one solution',
  several: 'Several solutions',
};
export const NEEDS_ONE = {
  play: 'Play needs exactly one solution',
  solve: 'Solution needs exactly one',
  thin: 'Thin out needs exactly one solution',
  fill: 'Fill in needs exactly one solution',
};
export const NOT_ONE = {
  unknown: 'solutions are still sought.',
  blank: 'there is no item yet.',
  none: 'there is none.',
  several: 'add an item where two numbers stand.',
};
export const SYMMETRIES = {
  none: 'none',
  half: 'half turn',
  quarter: 'quarter turn',
  mirror: 'mirrored',
};
export const STILL_COMPLETABLE = {
  one: 'These numbers can still be completed, in one way.',
  several: 'These numbers can still be completed, in several ways.',
};
export const REFUSED_MOVES = {
  Unsupported: 'Moves with H or F (hints and spent signs) are not played here.',
  GivenSquare: 'That number was given with the puzzle, and stays.',
  BadSolution: 'Those numbers are no solution of this puzzle.',
  HistoryFull: 'A game has at most 100,000 states. Undo some moves first.',
  NothingToUndo: 'This is the first state: there is nothing to undo.',
  NothingToRedo: 'This is the last state: there is nothing to redo.',
  NothingToRestart: 'The game is at its start already.',
};
export const REFUSED_LINES = {
  LongLine: 'A line has 1,024 bytes at most.',
  OutOfMemory: 'There is no memory left for that. Nothing has changed.',
  NoneFound: 'That number gives no such game. Try another one.',
};
export const REFUSED_IDS = {
  SizeTooLarge: 'Seeded games have the sizes 3 to 6.',
};
export const REFUSED_SAVES = {
  Version: 'That save is of another version. Only version 1 can be read.',
  TooLarge: 'A save has 16,777,216 bytes at most.',
  BadParams: 'That save is of a size or a mode that is not played here: sizes go from 3 to 9.',
  BadDesc: 'That save’s puzzle, its record DESC, can’t be read.',
  BadCount: 'That save has a wrong number of states, or a wrong position among them.',
  Unsupported: 'Moves with H or F (hints and spent signs) are not played here. Undo them there and make another move.',
};

// Of each game the cards of the course: the ID of a board, and what to look for.
/** @type {Record<import('./turns.js').Game, [id: string, text: string][]>} */
export const CARDS = {
  towers: [
    ['3:1/2/2/3/1/2/1/2/2/3/1/2,c2a3c', 'Towers (Skyscrapers): each row and column has 1, 2 and 3 once. A clue counts the towers seen: tall ones hide low ones.'],
    ['3:2/2/1/1/2/3/2/2/1/1/2/3', 'A clue 1 sees one tower: the nearest is the tallest.'],
    ['4:///////////////4,c2a4j', 'A clue of the board’s size sees all towers: they rise.'],
    ['4:///////////3////,a2b3c2b4d', 'A tall tower near a clue hides the others: fewer are seen than it says.'],
    ['4://////////////3/,b3c4_1e4b', 'A number has one square left in a row.'],
    ['4://///////3/2/////,c1f3e', 'Count with the numbers in its row.'],
    ['4://2/////////////,4b3_3_4j', 'Empty squares count by what is left in them.'],
    ['3:1/1/2/2/3/1/2/1/2/2/3/1', 'Two clues want different numbers in one square: the board has no solution.'],
    ['4:///////////////2,1a4c1i', 'The tallest tower may stand near or far: a number that goes wrong both ways is out.'],
  ],
  unequal: [
    ['3:0,0,0,1,2L,0,0UR,0,0,', 'Unequal (Futoshiki): each row and column has 1, 2 and 3 once. A sign opens to the greater number.'],
    ['3:0,0,0,0,0,1,3,0,0,', 'All other numbers stand in its row or column.'],
    ['3:0,3L,0,0D,0,0U,0,0,3,', 'A number has one square left in a row.'],
    ['3:0,0,0,0,0R,0,0,0,1,', 'The lesser side of a sign never has the greatest number.'],
    ['3:0,0,0D,0R,0,0,0,0,1,', 'Where the lesser side is at least 2, the greater side is at least 3.'],
    ['4:0,0,0,0,0,0,0,0,0,2UL,0,0,0,0,4,0,', 'A sign keeps a number out of a square: another one has it.'],
    ['3:0,0,0,0,0,0,0,0R,0U,', 'Two squares are each greater than a neighbour: neither is 1.'],
    ['5:5,0,0,2,0,0,0,0,0,0,1,4,0,0,2,2,0L,0D,0,1,0,0,0,1,5,', 'Two squares of a row share two numbers: they have no others.'],
    ['4:0,0,4,0L,0,0,0L,0,0,0,0,0,0,2,0,0,', 'The lesser side has the greatest number: the board has no solution.'],
  ],
};
