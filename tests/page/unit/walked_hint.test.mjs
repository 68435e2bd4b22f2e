// The parts that a hint shows, one by one: from an object as docs/JSON.md has it.
import {deepEqual, equal} from 'node:assert/strict';
import {test} from 'node:test';
import {WalkedHint, restsOn, speaksOf} from '../../../page/walked_hint.js';
import {headed, sentences} from '../../../page/objects.js';
import {marked, toldIn} from '../../../page/sheet_steps.js';
import {htmlOf} from '../../../page/sheet_tree.js';

const sign = {reason: 'sign', x: null, y: null, clue: null, greater: 2, less: 1, cells: null, line: null, numbers: null,
  strikes: [{cell: 1, numbers: [3], shows: null}], text: ['R1c2 is less than r1c3: r1c2 is not 3.']};
const other = {...sign, greater: 1, less: 0, strikes: [{cell: 1, numbers: [1], shows: null}], text: ['R1c2 is greater than r1c1:', '   r1c2 is not 1.']};
const all = [1, 2, 3], view = Array.from({length: 9}, () => [...all]);
const hint = {kind: 'follows', cell: 1, number: 2, line: null, grade: 'e', view, steps: [sign, other], groups: [1, 1],
  text: ['1. R1c2 is less than r1c3: r1c2 is not 3.', '2. R1c2 is greater than r1c1:', '   r1c2 is not 1.', 'So r1c2 is 2: 1 and 3 are ruled out above.']};

const texts = (sentences) => sentences.map(({text}) => text);

test('sentences go on where a line begins with blanks', () => {
  deepEqual(sentences(hint).slice(1), [{number: '2. ', name: '', text: 'R1c2 is greater than r1c1: r1c2 is not 1.'},
    {number: '', name: '', text: 'So r1c2 is 2: 1 and 3 are ruled out above.'}]);
});

test('the name of its steps stands at the head of a sentence, and that of the hint at the last one', () => {
  const steps = [{...sign, name: 'A sign'}, {...other, name: 'A sign'}], named = {...hint, steps, name: 'The only number left'};
  deepEqual(sentences(named).map(({number, name}) => [number, name]), [['1. ', 'A sign'], ['2. ', 'A sign'], ['', 'The only number left']]);
  deepEqual(sentences({...named, groups: [2], text: hint.text.slice(2)}).map(({name}) => name), ['A sign', 'The only number left']);
  const [first, , last] = sentences(named);
  equal(headed(first), 'A sign. R1c2 is less than r1c3: r1c2 is not 3.');
  equal(headed(sentences(hint)[0]), 'R1c2 is less than r1c3: r1c2 is not 3.');
  deepEqual([first, last].map((each) => marked(each).map((leaf) => htmlOf(leaf)).join('')),
    ['1. <i>A sign.</i> R1c2 is less than r1c3: r1c2 is not 3.', '<i>The only number left.</i> So r1c2 is 2: 1 and 3 are ruled out above.']);
  deepEqual(toldIn({...named, groups: [2], text: hint.text.slice(2)}).map(({number}) => number), ['', '']);
});

test('a sentence of each step, and the last', () => {
  const walked = new WalkedHint(hint, 3);
  deepEqual(texts(walked.sentences), ['R1c2 is less than r1c3: r1c2 is not 3.', 'R1c2 is greater than r1c1: r1c2 is not 1.', 'So r1c2 is 2: 1 and 3 are ruled out above.']);
  equal(walked.move, 'move R1,0,2');
  equal(walked.goal, '1,0');
});

test('the numbers left: those in view, without those that the steps above strike', () => {
  const walked = new WalkedHint(hint, 3);
  deepEqual(walked.shown(0).left?.[1], all);
  deepEqual(walked.shown(1).left?.[1], [1, 2]);
  deepEqual(walked.shown(2).left?.[1], [2]);
  deepEqual([...walked.shown(1).struck], [[1, [1]]]);
  deepEqual(view[1], all);
});

test('steps of one sentence are shown together', () => {
  const third = {...sign, less: 8, greater: 7, strikes: [{cell: 8, numbers: [3], shows: null}]};
  const text = ['1. R1c2 and r3c3 are each less than a neighbour: they are not 3.', ...hint.text.slice(1)];
  const walked = new WalkedHint({...hint, steps: [sign, third, other], groups: [2, 1], text}, 3);
  deepEqual(texts(walked.sentences).map((text) => text.slice(0, 14)), ['R1c2 and r3c3 ', 'R1c2 is greate', 'So r1c2 is 2: ']);
  deepEqual([...walked.shown(0).struck], [[1, [3]], [8, [3]]]);
  deepEqual(walked.shown(0).rests, ['2,0', '1,0', '1,2', '2,2']);
  deepEqual(walked.shown(1).left?.[8], [1, 2]);
  deepEqual(walked.shown(2).left?.[1], [2]);
});

test('all that the steps rule out in a square', () => {
  deepEqual([...new WalkedHint(hint, 3).struck], [[1, [3, 1]]]);
});

test('where to look, and what a step rests on', () => {
  deepEqual(new WalkedHint(hint, 3).look().framed, ['2,0', '1,0']);
  deepEqual(new WalkedHint({...hint, steps: [], groups: []}, 3).look().framed, ['1,0']);
  deepEqual(new WalkedHint({...hint, steps: [], groups: [], line: 4}, 3).look().framed, ['1,0', '1,1', '1,2']);
  const clue = {...sign, reason: 'clue', greater: null, less: null, clue: 4, x: -1, y: 1};
  deepEqual(restsOn(clue, 3), ['-1,1', '0,1', '1,1', '2,1']);
  deepEqual(restsOn({...clue, x: 2, y: 3}, 3), ['2,3', '2,0', '2,1', '2,2']);
  deepEqual(restsOn({...sign, greater: null, less: null, cells: [0, 5]}, 3), ['0,0', '2,1']);
});

test('of a clue the squares that its sentence names, and the whole line where that names none', () => {
  const clue = {...sign, reason: 'clue', greater: null, less: null, clue: 2, x: -1, y: 1};
  const known = [{cell: 5, numbers: [3]}], split = [{cell: 3, number: 3, place: 'not', seen: 'fewer'}];
  deepEqual(speaksOf({...clue, known, split: []}, 3), ['-1,1', '2,1']);
  deepEqual(speaksOf({...clue, known: [], split}, 3), ['-1,1', '0,1']);
  for (const more of [{}, {known: [], split: []}]) deepEqual(speaksOf({...clue, ...more}, 3), ['-1,1', '0,1', '1,1', '2,1']);
  deepEqual(speaksOf({...sign, known: [{cell: 1, numbers: [2, 3]}], split: []}, 3), ['2,0', '1,0']);
  const walked = new WalkedHint({...hint, steps: [{...clue, known, split: []}, other]}, 3);
  deepEqual([walked.shown(0).rests, walked.look().framed.length], [['-1,1', '2,1'], 4]);
});

test('of wrong marks it is said that one is missing, then where, then which one', () => {
  const wrong = {...hint, kind: 'contradiction', cell: null, number: null, from: 'marks', unmarked: 5};
  const told = (unmarked, number) => new WalkedHint({...wrong, unmarked}, 3).missing(number).map(({text, shown}) => [text, shown.framed]);
  deepEqual([new WalkedHint(wrong, 3), new WalkedHint({...wrong, from: 'numbers'}, 3), new WalkedHint(hint, 3)].map((one) => one.hasWrongMarks), [true, false, false]);
  const where = [['A mark is missing.', []], ['The marks of r2c3 leave out its number.', ['2,1']]];
  deepEqual(told(5, 3), [...where, ['3 is missing among the marks of r2c3.', ['2,1']]]);
  deepEqual(told(5, 0), where);
  deepEqual(told(null, 0), [where[0]]);
});

test('a contradiction ends in a square, or in a row or column that has none for a number', () => {
  const ends = (more) => new WalkedHint({...hint, kind: 'contradiction', cell: null, number: null, ...more}, 3);
  deepEqual([ends({cell: 8}).goal, ends({cell: 8}).move, ends({cell: 8}).shown(2).framed], ['2,2', '', ['2,2']]);
  deepEqual([ends({line: 3, number: 2}).goal, ends({line: 3, number: 2}).move, ends({line: 3, number: 2}).shown(2).framed], [null, '', ['0,0', '0,1', '0,2']]);
});

test('a contradiction has no move, and leaves a square nothing', () => {
  const walked = new WalkedHint({...hint, kind: 'contradiction', cell: null, number: null}, 3);
  equal(walked.move, '');
  equal(walked.goal, '1,0');
});
