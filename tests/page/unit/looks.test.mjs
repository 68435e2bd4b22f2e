// Lengths of the picture, days of the calendar, rows of the statistics, and sentences.
import {deepEqual, equal} from 'node:assert/strict';
import {test} from 'node:test';
import {Measures} from '../../../page/measures.js';
import {column, daysOf} from '../../../page/daily.js';
import {changeName, square} from '../../../page/names.js';
import {rows} from '../../../page/statistics.js';
import {clockText, inSteps, listed, refusal, sinceText, solvedText, unreadText} from '../../../page/texts.js';

test('squares lie side by side, and a sign points at the lesser number', () => {
  const towers = new Measures('towers', 3), unequal = new Measures('unequal', 3);
  equal(towers.at[1] - towers.at[0], 100);
  equal(unequal.at[1] - unequal.at[0], 134);
  const {x, y} = unequal.between(1, 0), [, from] = /^M([0-9.]+) /.exec(unequal.wedge(1, 0)) ?? [];
  equal(Number(from) > x, true);
  equal(y, unequal.centre(0).y);
  deepEqual(towers.around(['0,0', '1,0']).length, 1);
  deepEqual(towers.around(['0,0', '1,1']).length, 2);
});

test('months', () => {
  equal(daysOf(new Date(2026, 1, 1)).length, 28);
  equal(daysOf(new Date(2028, 1, 1)).length, 29);
  // 1 November 2026 is a Sunday, and the 2nd a Monday.
  deepEqual([column(new Date(2026, 10, 1)), column(new Date(2026, 10, 2))], [7, 1]);
});

test('statistics by class', () => {
  const one = {kind: 'towers-5-easy', number: '', when: 1, seconds: 60, hints: 0};
  deepEqual(rows([one, {...one, seconds: 120, hints: 2}, {...one, kind: 'unequal-4-easy', seconds: 0}]), [
    {kind: 'towers-5-easy', solved: 2, alone: 1, best: 60, mean: 90},
    {kind: 'unequal-4-easy', solved: 1, alone: 1, best: 0, mean: 0},
  ]);
});

test('names of squares, and of what has changed', () => {
  const board = {size: 3, numbers: [1, 0, 0, 0, 0, 0, 0, 0, 0], givens: [1, 0, 0, 0, 0, 0, 0, 0, 0], marks: Array(9).fill([]), clues: [], errors: [], cheated: false,
    signs: [{greater: 1, less: 0, error: false}]};
  equal(square(board, 0), 'row 1, column 1, 1, given, less than right');
  const marks = [[], [2, 3], ...Array(7).fill([])];
  equal(square({...board, marks}, 1), 'row 1, column 2, empty, marks 2 3, greater than left');
  equal(changeName(board, {...board, marks}, '1,0'), 'empty, marks 2 3');
  equal(changeName(board, {...board, marks}, '0,0'), 'row 1, column 2: empty, marks 2 3');
  const wrong = {...board, numbers: [1, 1, 0, 0, 0, 0, 0, 0, 0], errors: [0, 1], signs: [{greater: 1, less: 0, error: true}]};
  equal(changeName(board, wrong, '1,0'), 'row 1, column 1: 1, given, wrong; row 1, column 2: 1, wrong; wrong: row 1, column 2 is greater than row 1, column 1');
});

test('sentences', () => {
  const rows = [
    [clockText(59), '0:59'], [clockText(61.7), '1:01'], [clockText(3600), '1:00:00'],
    [solvedText(0, 0), 'Solved!'], [solvedText(1, 65), 'Solved in 1:05 with 1 hint!'], [sinceText(1), 'These numbers can’t be completed since the last move.'],
    [sinceText(3), 'These numbers can’t be completed since the last 3 moves.'], [listed([1, 2, 3]), '1, 2 and 3'], [inSteps(1), ''],
    [refusal('move R0,0,9', 'GivenSquare', 'towers'), 'That number was given with the puzzle, and stays.'],
    [refusal('new 5x', 'BadLetter', 'unequal'), 'After the size and d comes one of the letters t, e, k, x or r.'],
    [refusal('x', 'Unheard', 'towers'), 'The program refuses that: Unheard.'],
    [unreadText('x', 'refused: NotASave'), 'This is not a save file of the collection: one begins with SAVEFILE:41:.'],
    [unreadText('x', 'refused: BadState 7'), 'Move 7 of that save can’t be made on its board.'],
    [unreadText('x', 'refused: Missing'), 'That save is damaged (Missing).'],
    [unreadText('SAVEFILE:41:\nGAME    :5:Loopy\n', 'refused: WrongGame'), 'That is a save of Loopy, which is not played here.'],
  ];
  for (const [text, wanted] of rows) equal(text, wanted);
});
