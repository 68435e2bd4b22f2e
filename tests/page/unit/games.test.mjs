// Kinds of games, their numbers and links.
import {deepEqual, equal} from 'node:assert/strict';
import {test} from 'node:test';
import {isOffered, kindOfName, letters, linkOf, named, nearest, numberIn, numberOfDay} from '../../../page/games.js';

test('the grades that are offered at each size', () => {
  const rows = [['towers', 3, 'e'], ['towers', 4, 'eh'], ['towers', 9, 'eh'], ['unequal', 3, 'te'], ['unequal', 4, 'tek'], ['unequal', 9, 'tek']];
  for (const [game, size, own] of rows) equal(letters(game, size).join(''), own);
  equal(isOffered({game: 'towers', size: 10, letter: 'e'}), false);
});

test('the kind that is nearest', () => {
  deepEqual(nearest({game: 'towers', size: 3, letter: 'h'}), {game: 'towers', size: 3, letter: 'e'});
  deepEqual(nearest({game: 'unequal', size: 5, letter: 't'}), {game: 'unequal', size: 5, letter: 't'});
});

test('numbers', () => {
  const rows = [['0', '0'], ['007', '7'], [' 20261127 ', '20261127'], ['18446744073709551615', '18446744073709551615'],
    ['18446744073709551616', ''], ['-1', ''], ['1.5', ''], ['²', ''], ['', ''], ['1'.repeat(30), '']];
  for (const [text, number] of rows) equal(numberIn(text), number, text);
  equal(numberOfDay(new Date(2026, 0, 5)), '20260105');
});

test('names of kinds', () => {
  deepEqual(kindOfName('towers-9-hard'), {game: 'towers', size: 9, letter: 'h'});
  for (const name of ['towers-9-tricky', 'towers-3-hard', 'towers-2-easy', 'chess-5-easy', '__proto__-5-easy', 'towers-5-constructor']) equal(kindOfName(name), null, name);
});

test('the puzzle that a text names', () => {
  const fair = {game: 'towers', size: 9, letter: 'h', number: '20261127'};
  const rows = [
    ['#towers-9-hard-20261127', {fair}],
    ['towers-9-hard-20261127', {fair}],
    ['https://a.example/puzzles.html#towers-9-hard-20261127', {fair}],
    ['#towers:5dh:///', {id: '5dh:///', game: 'towers'}],
    ['#unequal:3:0,0L,0L,0U', {id: '3:0,0L,0L,0U', game: 'unequal'}],
    ['#unequal:3%3A0,0L', {id: '3:0,0L', game: 'unequal'}],
    ['5!7', {id: '5!7', game: null}],
    ['5de#123', {id: '5de#123', game: null}],
    ['5#7', {id: '5#7', game: null}],
    ['', null], ['#', null], ['towers', null], ['towers-9-hard', null], ['#towers-9-hard-99999999999999999999', null], ['%E0%A4%A', null],
  ];
  for (const [text, wanted] of rows) deepEqual(named(text), wanted, text);
});

test('a link names its game again', () => {
  const played = [{game: 'towers', id: '3:3//////3/////', fair: null}, {game: 'unequal', id: '3:0,0L,0L,0U,0,0,0U,0,0,', fair: null}];
  for (const one of played) deepEqual(named(`#${linkOf(one)}`), {id: one.id, game: one.game});
  const fair = {game: 'unequal', size: 4, letter: 'k', number: '7'};
  deepEqual(named(`#${linkOf({game: 'unequal', id: '', fair})}`), {fair});
});
