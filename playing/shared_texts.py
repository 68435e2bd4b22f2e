"""Sentences that the board and the page in a browser both say. `tools/texts --write` makes page/shared_texts.js of them, with another apostrophe.

There are texts here, and tables of texts by a name, and nothing else.
"""

from __future__ import annotations

SOLVED = 'The board is solved.'
FULL = 'The board is full.'
FULL_AND_WRONG = 'Full, but not right yet: a ! shows where.'
FILLED_IN = 'Filled in by the program.'
NOTHING_CHANGES = 'Nothing changes: the board has that already.'
NOTHING_TO_CLEAR = 'There is nothing to clear.'
ALL_POSSIBLE = 'The marks are the possible ones already.'
KEPT = 'What the hint ruled out is kept in your marks.'
NOTHING_TO_KEEP = "There is nothing to keep that your marks don't show already."
KEEP_AT_END = 'Keep comes after the last step of a hint that shows a number.'
HINTS_FROM_MARKS = 'From now on, hints go on from your marks.'
HINTS_FROM_NUMBERS = 'From now on, hints begin from the numbers alone.'
BY_MARKS = 'This hint goes on from your marks.'
BY_NUMBERS = 'This hint begins from the numbers alone.'
MARK_MISSING = 'A mark is missing.'
MARKS_GO = 'From now on, marks go when their number is put into their row or column.'
MARKS_STAY = 'From now on, marks stay when a number is put in.'
NO_HINT = 'No number follows by steps alone. Try one, or mark the possible numbers.'
STILL_RIGHT = 'These numbers can still be completed: there is nothing to take back.'
NEVER_RIGHT = 'Not even the board at the start can be completed.'
RIGHT = 'Right.'
NOT_YET = 'Not yet.'
STOPPED = 'Stopped. Nothing has changed.'
NO_GAME = 'There is no game yet.'
SO_DRAWN = 'So it can be drawn:'

#: On the setter's desk.
SEEKING = 'Looking for solutions'
TRIED = 'No chain of steps shows it; all ways were tried.'
BEYOND = 'It is beyond our steps.'
NONE_BLAMED = 'No single item is to blame.'
NO_PAIR = 'No single item is to blame, and no two are.'
NO_OTHER = 'No other number there gives exactly one.'
TYPE_IN = 'Type in a printed puzzle'
SAID_AFTER_EACH = 'How many solutions it has is said after each item.'
WHY_NOT = 'The puzzle has a solution, so there is no contradiction to show.'
NO_THINNING = 'Nothing went out: each item is needed.'
OTHER_GRADE = 'None of the orders that were tried gives that grade.'
NOTHING_TO_FILL = 'All of them are there already.'
THINNING = 'Thinning out'

#: The verdict, by how many solutions there are.
SOLUTIONS = {
    'none': 'No solution',
    'one': 'Exactly one solution',
    'several': 'Several solutions',
}

#: The acts that need exactly one solution, and why there isn't one, by the kind of the verdict.
NEEDS_ONE = {
    'play': 'Play needs exactly one solution',
    'solve': 'Solution needs exactly one',
    'thin': 'Thin out needs exactly one solution',
    'fill': 'Fill in needs exactly one solution',
}
NOT_ONE = {
    'unknown': 'solutions are still sought.',
    'blank': 'there is no item yet.',
    'none': 'there is none.',
    'several': 'add an item where two numbers stand.',
}

#: By which symmetry items go, together with those that stand for them.
SYMMETRIES = {
    'none': 'none',
    'half': 'half turn',
    'quarter': 'quarter turn',
    'mirror': 'mirrored',
}

#: By the answers to `completable`.
STILL_COMPLETABLE = {
    'one': 'These numbers can still be completed, in one way.',
    'several': 'These numbers can still be completed, in several ways.',
}

#: Refusals by their names: of moves, of any line, of IDs and of saves.
REFUSED_MOVES = {
    'Unsupported': 'Moves with H or F (hints and spent signs) are not played here.',
    'GivenSquare': 'That number was given with the puzzle, and stays.',
    'BadSolution': 'Those numbers are no solution of this puzzle.',
    'HistoryFull': 'A game has at most 100,000 states. Undo some moves first.',
    'NothingToUndo': 'This is the first state: there is nothing to undo.',
    'NothingToRedo': 'This is the last state: there is nothing to redo.',
    'NothingToRestart': 'The game is at its start already.',
}
REFUSED_LINES = {
    'LongLine': 'A line has 1,024 bytes at most.',
    'OutOfMemory': 'There is no memory left for that. Nothing has changed.',
    'NoneFound': 'That number gives no such game. Try another one.',
}
REFUSED_IDS = {
    'SizeTooLarge': 'Seeded games have the sizes 3 to 6.',
}
REFUSED_SAVES = {
    'Version': 'That save is of another version. Only version 1 can be read.',
    'TooLarge': 'A save has 16,777,216 bytes at most.',
    'BadParams': 'That save is of a size or a mode that is not played here: sizes go from 3 to 9.',
    'BadDesc': "That save's puzzle, its record DESC, can't be read.",
    'BadCount': 'That save has a wrong number of states, or a wrong position among them.',
    'Unsupported': 'Moves with H or F (hints and spent signs) are not played here. Undo them there and make another move.',
}
