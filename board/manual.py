"""The keys and the rules, in a few lines each."""

from __future__ import annotations

from typing import Dict, List

KEYS: List[str] = [
    'arrows Tab      move; Towers: by arrows onto the clues at the edge, too',
    '1 to 9          a number, or a pencil mark where PENCIL is shown',
    'Enter or p      numbers or pencil marks; d or Enter on a clue: done',
    'Space 0 Delete  clear the square;  m all marks;  P possible marks',
    'M marks go with a number, or stay   K hints go on from your marks, or do not',
    'u Ctrl-Z undo   r Ctrl-R redo   R back to the start (u undoes that)',
    'h hint: where to look, steps, number;  H all steps;  k keep what it ruled out',
    'c can these numbers be completed;  b undo until they can;  S solve',
    'n new game   o open: a game that was put away, a file   w save as',
    'i the ID; i i as text   E set or check a puzzle   : a program\'s command',
    'T lines of text, and back   Z to the shell   q quit: the game is kept',
]

#: Those of the setter's desk.
DESK: List[str] = [
    'arrows Tab mouse  move; Towers: onto every place of the edge',
    '1 to 9          a clue at the edge, or a given number; the same again: none',
    '0 Space Delete  no clue, no given',
    '< >  ^ v        Unequal: a sign right of the chosen square, or below it, as it',
    '                is read; the same again: none',
    'u Ctrl-Z undo   r Ctrl-R redo',
    'h why there is no solution, step by step;  H all these steps',
    'c all that is said, with the names of what is marked',
    'M thin out: to a grade, numbers or clues first, by a symmetry',
    'F fill in all clues, or all signs, of the solution;  S show the solution',
    'p play it, once it has exactly one solution',
    'n another board: a blank one, the draft of a game, or the puzzle of the game',
    'o open a file with a drawing   i the ID   w save as a file   T lines of text',
    'E Escape q      back to the game, which is as it was; the draft is kept',
]

#: Those of the course, where they are others.
COURSE: List[str] = [
    'n the next card   b the card before   q leave: the game before is as it was',
    'Enter, once the number is in: the next card',
    'h hint: where to look, then the step, then the number;  H all steps',
    'All other keys are those of a game, but no card is kept.',
]

RULES: Dict[str, List[str]] = {
    'towers': [
        'Each row and each column has each number from 1 to the size once. A number',
        'is a tower of that height. A clue at the edge says how many towers are seen',
        'from there, along its row or column: a tower hides lower ones behind it. So',
        '1 2 3 shows three towers to its left and one to its right.',
    ],
    'unequal': [
        'Each row and each column has each number from 1 to the size once. A sign',
        'between two squares says which of them has the greater number: it opens to',
        'the greater one, as in 1 < 2. Of squares one above the other ^ says that',
        'the upper one is the lesser, v that the lower one is.',
    ],
}

#: How the board shows what was given, and what contradicts.
LOOKS: Dict[str, List[str]] = {
    'towers': [
        'Bold numbers were given. A red number or clue with a ! contradicts: equal',
        'numbers stand in a line, or a clue can no longer be met in its own line. A',
        'full board without red is the solution.',
    ],
    'unequal': [
        'Bold numbers were given. A red number or sign with a ! contradicts: equal',
        'numbers stand in a line, or a sign can no longer hold. A full board without',
        'red is the solution.',
    ],
}

#: Words of the board that don't explain themselves.
WORDS: List[str] = [
    'Marks: all is each number, not 3 (or no3) each but 3, 12+ these and more.',
    'By what is left, in a hint: by the numbers that are not ruled out there yet.',
    'Hard by our steps: hints find that grade; the ID has another, or none.',
]

#: The same in the line mode.
COURSE_LINES: List[str] = [
    'next, back             the next card, the one before; n, b; an empty line once',
    '                       the number is in: the next card',
    'quit                   leave; the game before is as it was; q',
]

#: The line mode of the setter's desk.
DESK_LINES: List[str] = [
    '  clue above 1 3         clue 3 above column 1; 0 takes it out (Towers); so do',
    '                         below 1, left of 2, right 2',
    '  given r1c2 4           the given number 4; r1c2 4 is the same',
    '  sign r1c1 > r1c2       r1c1 is greater (Unequal); sign r1c1 r1c2 0 takes it out',
    '  check, c               has it no, one or several solutions, and why',
    '  why, why 2             the steps that show that there is none; step 2',
    '  undo, redo             the puzzle before a change, and after it; u, r',
    '  thin, M                take out what is not needed; thin hard, thin any: to a',
    '                         grade, or just one solution; thin hard clues first:',
    '                         or numbers first; also half turn, quarter turn, mirrored',
    '  fill                   put in all clues, or all signs, of the solution',
    '  play, p                play it, once it has exactly one solution',
    '  blank 5                a blank board of that size; undo brings the puzzle back',
    '  game                   the puzzle of the game, to be changed',
    '  desk unequal           the draft of the other game',
    '  r1c2, above 1, row 1, column 2, board, clues, show   what there is',
    '  load FILE              a puzzle that is drawn in a file, or an ID there',
    '  id, text, save FILE, rules, help, T   as in a game',
    '  back, E, q             back to the game; the draft is kept',
]

#: The line mode's help: what is typed, and what it does.
LINES: List[str] = [
    'A square is r1c2, or its row and its column, which count from 1, as 1 2.',
    'A clue is named by its edge: above 1, below 1 (a column), left 2, right 2.',
    '',
    '  r1c2 3, or 1 2 3       the number 3 into row 1, column 2; 0 clears the square',
    '  p r1c2 3               the pencil mark 3 there, or take it away; m  all marks',
    '  possible               the marks that stand in neither the row nor the column',
    '  d above 1              a clue\'s done mark, or take it away (Towers)',
    '  r1c2, above 1          describe a square, or a clue',
    '  row 1, column 2, board   describe a row, or a column; all rows',
    '  clues                  the clues, or the signs',
    '  hint                   where to look; once more: the steps; then the number',
    '  why, why 2             all steps of the hint; step 2 with the numbers left.',
    '                         "by what is left": by the numbers that are not ruled',
    '                         out yet in that row or column',
    '  keep                   after these: what they ruled out goes from your marks',
    '  check, back            can these numbers be completed; undo until they can',
    '  tidy                   from now on, marks go when their number is put into',
    '                         their row or column; once more: they stay',
    '  remember               hints go on from your marks; once more: they do not',
    '  new [GAME] [SIZE] [GRADE] [number N or today]   a new game; the same number',
    '                         is the same game; today is the number of the date',
    '  new ID                 the puzzle of that ID, your own or a usual program\'s',
    '  grade                  the grade; "our steps" are those that hints show',
    '  text                   the puzzle as text, as the usual program copies it',
    '  save FILE, load FILE   save the game; load a saved one, or a drawing of a',
    '                         printed puzzle, onto the desk; Tab completes',
    '  open, open 2, delete 2   list the kept games; open number 2; delete it',
    '  desk [GAME] [SIZE]     set or check a puzzle; with a size on a blank board; E',
    '  rules, help            the rules of this game; this list',
    '                         (puzzles-play --lines learn is a course)',
    '  T                      to the board, where T comes back',
    '',
    'Letters are the keys of the board: h H k u r R m P M K c b S n o w i E q.',
    '',
    'and the program\'s own commands:',
    '',
    '  undo redo restart      back, forth, to the start (as a move of its own); u, r',
    '  solve                  show the solution, after a question',
    '  show marks done        the board; the pencil marks; the done clues',
    '  status id              your progress; the ID of this puzzle',
    '  list N                 the first N solutions',
    '  move TEXT              a move as in saves, which count from 0: R2,0,3',
    '  quit                   leave; the game is kept for the next start; q',
]
