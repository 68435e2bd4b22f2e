// The answers, by the numbers of their puzzles: as few sheets of paper as can be, and squares as large as those have room for.
import {drawn, extentOf, nameOf, partsOf, share, smallPen} from './sheet_drawing.js';
import {packed, roomiest} from './sheet_layout.js';
import {TABLES} from './sheet_tables.js';
import {lengths, tag} from './sheet_tree.js';

/** @typedef {import('./sheet_layout.js').Numbered} Numbered */
/** @typedef {import('./sheet_layout.js').Paper} Paper */
/** @typedef {{some: Numbered[], width: number}} Row */
/** How they are printed; with the moves of each puzzle by its label, where the squares have the numbers of moves. */
/** @typedef {{paper: Paper, hasGrades: boolean, orders: Map<string, import('./sheet_steps.js').Move[]>}} Key */

const {ANSWERS} = TABLES;

// The part between head and foot, for each sheet of paper. The answers of a pupil stand together.
/** @param {Key} key @param {Numbered[]} every */
export function answersOn(key, every) {
  const {paper, orders} = key, squares = paper.isLarge ? ANSWERS.large : orders.size ? ANSWERS.ordered : ANSWERS.usual;
  const columns = columnsFor(every, squares.columns), above = orders.size ? [tag('p', {class: 'rules'}, ANSWERS.ORDER), '\n'] : [];
  const least = Math.min(squares.least, widest(paper, every, 2)), most = Math.min(squares.most, widest(paper, every, 1));
  const room = paper.height - paper.head - paper.print.foot - (orders.size ? paper.above(ANSWERS.ORDER) : 0);
  const [side, found] = roomiest(most, least, (side) => packed(rowsOf(paper, every, columns, side), room));
  return found.map((rows) => [...above, ...rows.flatMap((row) => drawnRow(key, row, side))]);
}

// How many stand side by side: as many as come out even where each pupil has so many.
/** @param {Numbered[]} every @param {number} most */
function columnsFor(every, most) {
  const count = every.filter(({pupil}) => pupil === 1).length;
  if (!count) return most;
  const own = Math.ceil(count / Math.ceil(count / most));
  return own * Math.floor(most / own);
}

// The greatest side of squares with which so many of the largest answers stand side by side.
/** @param {Paper} paper @param {Numbered[]} puzzles @param {number} columns */
const widest = (paper, puzzles, columns) =>
  Math.floor((answerWidth(paper, columns) - ANSWERS.LINES) * 100 / Math.max(...puzzles.map(({puzzle: {game, size}}) => partsOf(game, size))));

/** @param {Paper} paper @param {number} columns */
const answerWidth = (paper, columns) => Math.floor((paper.width - paper.print.answer_gap * (columns - 1)) / columns);

// With their heights.
/** @param {Paper} paper @param {Numbered[]} every @param {number} columns @param {number} side */
function rowsOf(paper, every, columns, side) {
  /** @type {[Row, number][]} */
  const found = [];
  for (let at = 0; at < every.length;) {
    const row = nextRow(paper, every.slice(at, at + columns + 1), columns, side);
    found.push([row, heightOf(paper, row, side)]);
    at += row.some.length;
  }
  return found;
}

// As many answers as have room side by side; those of the last pupil go into the next row where they don't all have room.
/** @param {Paper} paper @param {Numbered[]} left @param {number} columns @param {number} side @returns {Row} */
function nextRow(paper, left, columns, side) {
  for (let number = columns; number > 1; number--) {
    const some = left.slice(0, number), width = answerWidth(paper, number);
    if (some.some((each) => extent(each, side) > width)) continue;
    const next = left[number], begins = next?.pupil ? some.findIndex(({pupil}) => pupil === next.pupil) : -1;
    return {some: begins > 0 ? some.slice(0, begins) : some, width};
  }
  return {some: left.slice(0, 1), width: paper.width};
}

/** @param {Numbered} each @param {number} side */
const extent = ({puzzle: {game, size}}, side) => extentOf(game, size, smallPen(game, side));

/** @param {Paper} paper @param {Row} row @param {number} side */
function heightOf(paper, {some}, side) {
  return Math.max(...some.map((each) => extent(each, side))) + share(fontOf(paper, side), 120) + paper.print.answer_free + (some[0].pupil ? headOf(paper) : 0);
}

/** @param {Paper} paper */
const headOf = ({print}) => share(print.name, 150);

/** @param {Paper} paper @param {number} side */
const fontOf = ({print}, side) => Math.max(print.answer_number, Math.min(print.most_answer_number, share(side, 45)));

/** @param {Key} key @param {Row} row @param {number} side */
function drawnRow({paper, hasGrades, orders}, row, side) {
  const {some, width} = row, style = lengths({height: heightOf(paper, row, side), 'font-size': fontOf(paper, side)});
  const figures = some.flatMap((each, at) => {
    const {number, puzzle: {game, size, answer, grade}} = each, shown = hasGrades ? grade : '', pen = smallPen(game, side);
    const line = tag('p', {class: 'line'}, tag('b', {}, String(number)), tag('span', {}, shown));
    const picture = drawn(game, answer, pen, nameOf(`Answer to puzzle ${each.label}`, game, size, shown), {order: orders.get(each.label)});
    return [tag('figure', {style: lengths({width})}, ...pupilAbove(paper, row, at), line, picture), '\n'];
  });
  return [tag('div', {class: 'answers', style}, '\n', ...figures), '\n'];
}

// The name stands above the first answer of a pupil in a row, as wide as all of them.
/** @param {Paper} paper @param {Row} row @param {number} at */
function pupilAbove(paper, {some, width}, at) {
  const {pupil, name} = some[at], count = some.filter((each) => each.pupil === pupil).length;
  if (!pupil) return [];
  const own = width * count + paper.print.answer_gap * (count - 1);
  const named = some[at - 1]?.pupil === pupil ? [] : [tag('b', {}, String(pupil)), ' ', tag('bdi', {}, name)];
  return [tag('p', {class: 'pupil', style: lengths({width: own, height: headOf(paper), 'font-size': paper.print.name})}, ...named)];
}
