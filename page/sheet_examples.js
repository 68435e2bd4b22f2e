// A first lesson: the cards of the course, each with its board and the step that shows the number.
import {drawn, edgeOf, extentOf, nameOf, penOf} from './sheet_drawing.js';
import {packed, roomiest, rulesOf} from './sheet_layout.js';
import {linesIn, marked} from './sheet_steps.js';
import {TABLES} from './sheet_tables.js';
import {lengths, tag} from './sheet_tree.js';

/** @typedef {import('./turns.js').Game} Game */
/** @typedef {import('./objects.js').Board} Board */
/** @typedef {import('./sheet_layout.js').Paper} Paper */
/** @typedef {{head: string, board: Board, texts: import('./objects.js').Sentence[], cell: number | null}} Lesson */
/** @typedef {{game: Game, lessons: Lesson[]}} Example */
/** @typedef {{lesson: Lesson, height: number, width: number}} Row */

const {BESIDE, BELOW} = TABLES.LESSONS;

// The part between head and foot, on as few sheets of paper as can be: with squares as large as there is room for.
/** @param {Paper} paper @param {Example} told */
export function exampleOn(paper, {game, lessons}) {
  const [most, least] = paper.print.lesson_sides, room = paper.room([game]);
  const [side, found] = roomiest(most, least, (side) => packed(lessons.map((lesson) => rowOf(paper, game, side, lesson)), room));
  const rules = tag('p', {class: 'rules'}, tag('b', {}, TABLES.CALLED[game]), ` ${rulesOf(game, TABLES.ANY_SIZE)}`);
  return found.map((rows) =>
    [rules, '\n', tag('div', {class: 'lessons'}, '\n', ...rows.flatMap((row) => [drawnRow(paper, game, side, row), '\n'])), '\n']);
}

// A row with its height.
/** @param {Paper} paper @param {Game} game @param {number} side @param {Lesson} lesson @returns {[Row, number]} */
function rowOf(paper, game, side, lesson) {
  const font = paper.print.lesson, full = extentOf(game, lesson.board.size, penOf(game, side, paper.print.strength)) + edgeOf(side);
  const width = paper.width - full - BESIDE, text = lesson.texts.reduce((sum, each) => sum + linesIn(each, width, font), 1);
  const height = Math.max(full, Math.floor(text * font * 27 / 20)) + BELOW;
  return [{lesson, height, width}, height];
}

/** @param {Paper} paper @param {Game} game @param {number} side @param {Row} row */
function drawnRow(paper, game, side, {lesson: {head, board, texts, cell}, height, width}) {
  const picture = drawn(game, board, penOf(game, side, paper.print.strength), nameOf(head, game, board.size, ''), {hinted: cell, hasEdges: true});
  const words = [tag('p', {}, tag('b', {}, head)), ...texts.map((text) => tag('p', {}, ...marked(text)))];
  return tag('div', {class: 'example', style: lengths({height})}, picture, tag('div', {style: lengths({width})}, ...words));
}
