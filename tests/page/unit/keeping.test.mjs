// The keeping of games over a store that may be full or older than its journal. In a browser `test_keeping`, `test_unkept` and `test_files` try it.
import {deepEqual, equal} from 'node:assert/strict';
import {test} from 'node:test';
import {longer} from '../../../page/drafts.js';
import {keptIn} from '../../../page/kept.js';
import {Keeping} from '../../../page/keeping.js';

class Store {
  constructor() { this.all = new Map(); }
  get length() { return this.all.size; }
  key(at) { return [...this.all.keys()][at] ?? null; }
  getItem(name) { return this.all.get(name) ?? null; }
  removeItem(name) { this.all.delete(name); }
  setItem(name, text) { this.all.set(name, text); }
}

const keepingIn = (all) => new Keeping(() => ({all, tab: null}));

/** A journal that has all of it, or fails. */
const besideOf = (texts, isThere = true) => ({isThere, put: (name, text) => (text === null ? texts.delete(name) : texts.set(name, text))});

/** A store that has room for so many letters in all, its names among them. */
class SmallStore extends Store {
  constructor(room) { super(); this.room = room; }
  setItem(name, text) {
    const others = [...this.all].filter(([other]) => other !== name).reduce((sum, [other, own]) => sum + other.length + own.length, 0);
    if (others + name.length + text.length > this.room) throw new DOMException('', 'QuotaExceededError');
    this.all.set(name, text);
  }
}

const game = {key: 'a', turn: 1, game: 'towers', save: 'SAVEFILE', id: '3:///////////', fair: null, begun: 1, when: 2, seconds: 3, hints: 0, joined: [[4, 2]], solved: 0,
  numbers: Array(9).fill(0), givens: Array(9).fill(0), state: 'playing'};

test('a game without a key is kept nowhere, and each game of a text has one', () => {
  const store = new Store(), keeping = keepingIn(store);
  equal(keeping.keep({...game, key: ''}), true);
  keeping.keepTime({...game, key: ''});
  deepEqual([store.length, keeping.games()], [0, []]);
  equal(keptIn(JSON.stringify({...game, key: ''})), null);
  equal(keeping.keyOf('puzzles:settings'), null);
});

test('moves that had no room stay beside those of another tab', () => {
  const store = new SmallStore(1400), one = keepingIn(store), other = keepingIn(store);
  one.keep(game);
  other.keep({...game, key: 'large', save: 'x'.repeat(600)});
  one.keep({...game, turn: 2, save: `one${'y'.repeat(400)}`});
  equal(one.trouble, 'full');
  other.keep({...game, turn: 2, save: 'other'});
  other.delete('large');
  one.flush();
  equal(one.trouble, '');
  deepEqual(other.games().map(({save}) => save.slice(0, 5)).sort(), ['oneyy', 'other']);
  equal(one.game('a')?.save, 'other');
});

test('texts that a killed browser has lost of its store come from the journal', () => {
  const journal = new Map(), beside = besideOf(journal);
  const old = new Store(), lasting = new Store(), keeping = new Keeping(() => ({all: lasting, tab: null}), beside);
  const done = {kind: 'towers-5-easy', number: '7', when: 5, seconds: 60, hints: 0};
  keeping.keep(game);
  keeping.keep({...game, key: 'gone'});
  lasting.all.forEach((text, name) => old.setItem(name, text));
  keeping.keep({...game, turn: 2, save: 'second'});
  keeping.keep({...game, key: 'new'});
  keeping.keepTime({...game, key: 'new', seconds: 9});
  keeping.now = 'new';
  keeping.set({time: false});
  keeping.addSolved([done]);
  keeping.delete('gone');
  const after = keepingIn(old);
  after.restore(journal);
  deepEqual([after.game('a')?.save, after.game('new')?.seconds, after.now, after.settings.time, after.solved()], ['second', 9, 'new', false, [done]]);
  // A later state in the store stays.
  after.keep({...game, turn: 3, save: 'third'});
  after.set({time: true});
  after.restore(journal);
  deepEqual([after.game('a')?.save, after.settings.time, after.solved().length], ['third', true, 1]);
});

test('a store without room is no trouble where the journal has all of it', () => {
  const store = new SmallStore(100), beside = besideOf(new Map()), keeping = new Keeping(() => ({all: store, tab: null}), beside);
  keeping.keep(game);
  deepEqual([keeping.trouble, keeping.game('a')?.save], ['', 'SAVEFILE']);
  beside.isThere = false;
  equal(keeping.trouble, 'full');
});

test('a deleted game stays so in a store that is older, unless it was played on; a day later its word goes', () => {
  const journal = new Map(), store = new Store(), keeping = new Keeping(() => ({all: store, tab: null}), besideOf(journal));
  keeping.keep(game);
  keeping.keepTime({...game, seconds: 9});
  const before = new Map(store.all), word = 'puzzles:game:a';
  keeping.delete('a');
  deepEqual([store.length, JSON.parse(journal.get(word)).turn], [0, 1]);
  store.all = before;
  keeping.restore(new Map(journal));
  deepEqual([store.length, journal.has(word)], [0, true]);
  keeping.restore(new Map([[word, '{"turn": 1, "gone": 1}']]));
  equal(journal.has(word), false);
  keeping.replace({...game, turn: 2});
  keeping.restore(new Map([[word, '{"turn": 1, "gone": 1}']]));
  equal(keeping.game('a')?.turn, 2);
});

test('moves that were made before the journal came stay beside its own, unless one goes on from the other', () => {
  const save = (...moves) => `SAVEFILE\nSTATEPOS:1:1\n${moves.map((move) => `MOVE:${move}\n`).join('')}`;
  const rows = [
    // The moves in the store, those played before the journal came, those in the journal; and the saves that there are then, the game's own first.
    [['1'], ['1', '4'], ['1', '2', '3'], [['1', '2', '3'], ['1', '4']]],
    [['1'], ['1', '4', '5', '6'], ['1', '2'], [['1', '4', '5', '6'], ['1', '2']]],
    [['1'], ['1', '2'], ['1', '2', '3'], [['1', '2', '3']]],
    [['1'], null, ['2', '3'], [['2', '3']]],
  ];
  for (const [first, own, late, wanted] of rows) {
    const of = (moves) => ({...game, turn: moves.length + 1, save: save(...moves)}), store = new Store(), keeping = keepingIn(store);
    store.setItem('puzzles:game:a', JSON.stringify(of(first)));
    if (own) keeping.keep({...of(own), turn: first.length + 2});
    if (own?.length > 2) keeping.keep({...of(own), turn: first.length + 3});
    const isLate = keeping.restore(new Map([['puzzles:game:a', JSON.stringify(of(late))]])), there = keeping.games().map((kept) => kept.save);
    const [a] = [keeping.game('a')?.save];
    deepEqual([isLate, a, ...there.filter((one) => one !== a)], [wanted.length > 1, ...wanted.map((moves) => save(...moves))]);
  }
});

test('a game of a clock before 1970 can be read', () => {
  equal(keptIn({...game, begun: -5, when: -1})?.when, 0);
});

test('a text that is no game of ours is none', () => {
  const rows = ['', 'null', '[]', '{}', '7', '{"key": "a"}', ...[
    {game: 'chess'}, {turn: -1}, {turn: 2 ** 53}, {turn: 0.5}, {seconds: 1e308}, {when: 1e16}, {save: '\u0100'}, {joined: [[3, 0]]}, {joined: [[2, 3]]}, {turn: 'x'}, {numbers: [1]}, {numbers: Array(9).fill('<b>')}, {state: 'won'}, {id: '12:'}, {id: 7}, {joined: [[1]]}, {joined: 'x'}, {save: null},
  ].map((change) => JSON.stringify({...game, ...change}))];
  for (const text of rows) equal(keptIn(text), null, text);
  equal(keptIn(JSON.stringify({...game, fair: {game: 'towers', size: 3, letter: 'h', number: '7'}}))?.fair, null);
  deepEqual(keptIn({...game, more: '<img>'}), game);
});

test('solved games are noted once', () => {
  const keeping = keepingIn(new Store()), one = {kind: 'towers-5-easy', number: '7', when: 5, seconds: 60, hints: 0};
  keeping.addSolved([one]);
  keeping.addSolved([one, {...one, when: 6}]);
  equal(keeping.solved().length, 2);
});

test('a puzzle of a draft comes after the one that is shown, and what was undone goes', () => {
  const first = '3:///////////', second = '3:3///////////', draft = {turn: 1, game: 'towers', ids: [first], at: 0}, two = longer(draft, second);
  deepEqual(two, {turn: 2, game: 'towers', ids: [first, second], at: 1});
  deepEqual(longer({...two, at: 0}, '4:///////////////').ids, [first, '4:///////////////']);
  deepEqual(longer(two, second), {...two, turn: 3});
  let long = draft;
  for (let count = 0; count < 600; count++) long = longer(long, count % 2 ? first : second);
  deepEqual([long.ids.length, long.at], [500, 499]);
});
