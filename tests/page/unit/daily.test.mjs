// Days in a row, the day of a number, and what others are told of a solved game.
import {equal} from 'node:assert/strict';
import {test} from 'node:test';
import {dayOf, streak} from '../../../page/daily.js';
import {gameText, resultText, solvedText} from '../../../page/texts.js';

test('days in a row end today, or yesterday', () => {
  const rows = [
    [[], 0], [['20260301'], 1], [['20260228'], 1], [['20260227'], 0], [['20260301', '20260228', '20260227'], 3],
    [['20260228', '20260227', '20260225'], 2], [['20260301', '20260227'], 1], [['20260302', '20260301'], 1], [['7', ''], 0],
  ];
  for (const [numbers, days] of rows) equal(streak(new Set(numbers), new Date(2026, 2, 1, 0, 5)), days, numbers.join());
  equal(streak(new Set(['20260101', '20251231', '20251230']), new Date(2026, 0, 1, 23, 59)), 3);
});

test('the number of a day', () => {
  equal(dayOf('20280229')?.getDate(), 29);
  for (const number of ['', '7', '20270229', '20261301', '20261100', '45671103', '120261129']) equal(dayOf(number), null, number);
});

test('a line on a solved game', () => {
  const kind = {game: 'towers', size: 5, letter: 'e'}, link = '#towers-5-easy-20261129';
  const rows = [
    [gameText(kind, '7', null), 'Towers 5×5, easy, number 7'],
    [gameText(kind, '20261129', dayOf('20261129')), 'Towers 5×5, easy, 29 November 2026'],
    [gameText({...kind, letter: ''}, '', null), 'Towers 5×5'],
    [solvedText(0, 65, 1), 'Solved in 1:05!'],
    [solvedText(2, 65, 3), 'Solved in 1:05 with 2 hints! 3 days in a row.'],
    [resultText('Towers 5×5, easy', solvedText(0, 0, 2), link), `Towers 5×5, easy: solved! 2 days in a row. ${link}`],
  ];
  for (const [text, wanted] of rows) equal(text, wanted);
});
