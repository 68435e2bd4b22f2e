// How answers go on, move by move, in the sentences of the program's hints: the first moves and the hardest, or all, in columns.
import {headed, sentences} from './objects.js';
import {packed} from './sheet_layout.js';
import {linesOf} from './sheet_letters.js';
import {TABLES} from './sheet_tables.js';
import {lengths, tag} from './sheet_tree.js';

/** @typedef {import('./objects.js').Hint} Hint */
/** @typedef {import('./objects.js').Sentence} Sentence */
/** @typedef {import('./sheet_layout.js').Numbered} Numbered */
/** @typedef {import('./sheet_layout.js').Paper} Paper */
/** @typedef {import('./sheet_tree.js').Tree} Tree */
/** A move puts the number of a square; the last one may say that no more follows. */
/** @typedef {{number: number, texts: Sentence[], grade: number, steps: number, cell: number | null, isHardest: boolean}} Move */
/** @typedef {{content: Tree, lines: number}} Paragraph */

const {SQUARES, LEFT_OUT, TERMS, NO_MORE, FIRST} = TABLES.LISTING, {STEPS_COLUMN_GAP: BETWEEN, STEPS_GAP: GAP} = TABLES.LENGTHS;

// The sentences of a hint; a step that is the only one has no number.
/** @param {Hint} hint */
export function toldIn(hint) {
  const found = sentences(hint);
  return found.filter(({number}) => number).length === 1 ? found.map((each) => ({...each, number: ''})) : found;
}

/** @param {string} text @returns {Sentence} */
export const unnamed = (text) => ({number: '', name: '', text});

// How many lines a sentence takes, behind a label in bold; and how it is printed, its name in italics.
/** @param {Sentence} sentence @param {number} width @param {number} font @param {string} [label] */
export const linesIn = (sentence, width, font, label) => linesOf(sentence.number + headed(sentence), width, font, label);

/** @param {Sentence} sentence @returns {import('./sheet_tree.js').Leaf[]} */
export const marked = ({number, name, text}) => (name ? [number, tag('i', {}, `${name}.`), ` ${text}`] : [number + text]);

// All moves, with the hardest one; and one that says so where no number follows any more.
/** @param {Hint[]} hints @param {string[]} letters  of grades, the least first @param {boolean} isSolved @returns {Move[]} */
export function movesOf(hints, letters, isSolved) {
  const moves = hints.map((hint, at) => (
    {number: at + 1, texts: toldIn(hint), grade: letters.indexOf(hint.grade ?? ''), steps: hint.steps.length, cell: hint.cell, isHardest: false}));
  const hardest = moves.reduce((best, move) => (best && (best.grade - move.grade || best.steps - move.steps) >= 0 ? best : move), moves[0]);
  if (hardest) hardest.isHardest = true;
  return isSolved ? moves : [...moves, {number: moves.length + 1, texts: [unnamed(NO_MORE)], grade: -1, steps: 0, cell: null, isHardest: false}];
}

// The first moves and the hardest one; or all of them.
/** @param {Move[]} moves @param {boolean} areAll */
const toldOf = (moves, areAll) => moves.filter(({number, isHardest, cell}) => areAll || number <= FIRST || isHardest || cell === null);

// The part between head and foot, for each sheet of paper.
/** @param {Paper} paper @param {{numbered: Numbered, moves: Move[]}[]} every @param {boolean} hasGrades @param {boolean} areAll */
export function stepsOn(paper, every, hasGrades, areAll) {
  const {steps_columns: columns, steps: font} = paper.print, width = Math.floor((paper.width - BETWEEN * (columns - 1)) / columns);
  const room = paper.height - paper.head - paper.print.foot;
  const told = every.map(({numbered, moves}) => ({numbered, moves: toldOf(moves, areAll)}));
  const blocks = packed(piecesOf(partsOf(told, width, font, hasGrades, areAll), font, room), room)
    .flatMap((column) => [tag('div', {class: 'steps', style: lengths({width, height: room})}, ...column.flat().map(({content}) => content)), '\n']);
  const found = [];
  for (let at = 0; at < blocks.length; at += 2 * columns) found.push([tag('div', {class: 'listing'}, '\n', ...blocks.slice(at, at + 2 * columns)), '\n']);
  return found;
}

// The pieces that stay together, with their heights: a part, or at least a move, that isn't longer than a column stands in one.
/** @param {{moves: Paragraph[][], gap: number}[]} parts @param {number} font @param {number} room */
function piecesOf(parts, font, room) {
  /** @param {Paragraph[]} piece */
  const heightOf = (piece) => Math.floor(piece.reduce((sum, {lines}) => sum + lines, 0) * font * 5 / 4);
  return parts.flatMap(({moves, gap}) => {
    const whole = moves.flat(), short = moves.flatMap((move) => (heightOf(move) + GAP <= room ? [move] : move.map((each) => [each])));
    const pieces = heightOf(whole) + gap <= room ? [whole] : short;
    return pieces.map((piece, at) => /** @type {[Paragraph[], number]} */ ([piece, heightOf(piece) + (at ? 0 : gap)]));
  });
}

/** @param {{numbered: Numbered, moves: Move[]}[]} every @param {number} width @param {number} font @param {boolean} hasGrades @param {boolean} areAll */
function partsOf(every, width, font, hasGrades, areAll) {
  const said = every.flatMap(({moves}) => moves.flatMap(({texts}) => texts));
  const words = Object.entries(TERMS).filter(([term]) => said.some(({text}) => text.includes(term))).map(([, text]) => String(text));
  const parts = [{moves: [[SQUARES, ...words, ...(areAll ? [] : [LEFT_OUT])].map((text) => sentence(unnamed(text), width, font))], gap: 0}];
  for (const {numbered: {label, name, puzzle}, moves} of every) {
    const pupil = name ? [' · ', tag('bdi', {}, name)] : [];
    const head = tag('p', {class: 'first'}, tag('b', {}, label), ` ${hasGrades ? puzzle.grade : ''}`, ...pupil);
    const [first, ...others] = moves.map((move) => paragraphs(move, width, font));
    parts.push({moves: [[{content: head, lines: 1}, ...first], ...others], gap: GAP});
  }
  return parts;
}

/** @param {Sentence} own @param {number} width @param {number} font @returns {Paragraph} */
const sentence = (own, width, font) => ({content: tag('p', {}, ...marked(own)), lines: linesIn(own, width, font)});

// The label of a move, and its sentences: the label stands before the first one, unless that has a number.
/** @param {Move} move @param {number} width @param {number} font @returns {Paragraph[]} */
function paragraphs({number, texts, isHardest}, width, font) {
  const label = `Move ${number}${isHardest ? ', the hardest' : ''}`, [first, ...rest] = texts;
  if (first.number) return [{content: tag('p', {}, tag('b', {}, label)), lines: 1}, ...texts.map((text) => sentence(text, width, font))];
  const begun = {content: tag('p', {}, tag('b', {}, `${label}.`), ' ', ...marked(first)), lines: linesIn(first, width, font, `${label}.`)};
  return [begun, ...rest.map((text) => sentence(text, width, font))];
}
