// The board of the setter's desk: each place is there where an item may stand, and what the verdict says is drawn over it.
import {MARKS, SIDES} from './desk_texts.js';
import {set, shape} from './drawing.js';
import {signName} from './items.js';
import {PEN} from './measures.js';
import {cellOf} from './objects.js';
import {Picture} from './picture.js';

/** @typedef {import('./turns.js').Game} Game */
/** @typedef {import('./objects.js').Board} Board */
/** @typedef {import('./objects.js').Sign & {isNone?: boolean}} Sign */
/** @typedef {import('./picture.js').View} View */
/**
 * The marks that are drawn over the board: both numbers where two solutions differ, the items that are marked and how, and the solution.
 * @typedef {{differ: Map<number, number[]>, marked: Set<string>, mark: string, solution: number[] | null}} Over
 */

// The board with a clue 0 at each empty place of the edge, or a sign that says nothing between neighbours.
/** @param {boolean} isTowers @param {Board} board @returns {Board & {signs: Sign[]}} */
function whole(isTowers, board) {
  const {size, clues, signs, givens} = board, edge = givens.slice(0, size).flatMap((_, at) => [[at, -1], [at, size], [-1, at], [size, at]]);
  const pairs = givens.flatMap((_, cell) => [[cell, (cell + 1) % size && cell + 1], [cell, cell + size]]).filter(([, other]) => givens[other] >= 0 && other);
  return {
    ...board,
    clues: isTowers ? edge.map(([x, y]) => clues.find((own) => own.x === x && own.y === y) ?? {x, y, clue: 0, done: false, error: false}) : [],
    signs: isTowers ? [] : pairs.map(([greater, less]) => {
      return signs.find((own) => signName(own.greater, own.less) === signName(greater, less)) ?? {greater, less, error: false, isNone: true};
    }),
  };
}

export class DeskPicture extends Picture {
  /** @param {Game} game @param {Board} board @param {string} title */
  constructor(game, board, title) {
    const all = whole(game === 'towers', board);
    super(game, all, title);
    this.board = board;
    all.signs.forEach(({greater, less}, at) => set(this.signs[at], 'data-sign', signName(greater, less)));
    this.over = this.svg.appendChild(shape('g', {class: 'over'}));
  }

  /** @param {Board} board @param {View} view @param {Over} over */
  paintDesk(board, view, {differ, marked, mark, solution}) {
    const {measures, size} = this;
    this.board = board;
    this.paint(whole(measures.isTowers, board), view);
    this.over.replaceChildren(...[...marked].map((name) => shape('circle', {...this.around(name), class: mark})));
    for (const [place, node] of this.places) {
      const cell = cellOf(place, size), {x, y} = measures.centre(cell), two = differ.get(cell), number = board.givens[cell] === 0 && solution?.[cell];
      if (two) this.over.append(this.text(x - 22, y - 16, 38, two[0], 'once'), this.text(x + 22, y + 18, 38, two[1], 'other'));
      if (number) this.over.append(this.text(x, y, PEN.number, number, 'left'));
      node.classList.toggle('rests', Boolean(two) || node.classList.contains('rests'));
      const signs = SIDES.filter(([, [dx, dy]]) => cell >= 0 && marked.has(signName(cell, cell + dx + size * dy))).map(([side]) => `sign ${side} ${MARKS[mark]}`);
      const said = [node.getAttribute('aria-label'), marked.has(place) && MARKS[mark], two?.join(' or '), number && `solution ${number}`, ...signs];
      set(node, 'aria-label', said.filter(Boolean).join(', '));
    }
  }

  // A circle around an item.
  /** @param {string} name */
  around(name) {
    const {measures} = this, [one, other] = name.split('-').map(Number), [x, y] = name.split(',').map(Number);
    const {x: cx, y: cy} = name.includes(',') ? {x: measures.middle(x), y: measures.middle(y)} : measures.between(one, other);
    return {cx, cy, r: cellOf(name, this.size) < 0 ? 26 : 42};
  }

  // A square's name has the signs that are there, and no others.
  /** @param {Board} _ @param {number} cell @param {View} view */
  paintSquare(_, cell, view) {
    super.paintSquare(this.board, cell, view);
  }

  /** @param {Sign} sign @param {SVGElement} node */
  paintSign(sign, node) {
    const {x, y} = this.measures.between(sign.greater, sign.less);
    super.paintSign(sign, node);
    set(node.children[1], 'd', sign.isNone ? `M${x} ${y}h.1` : this.measures.wedge(sign.greater, sign.less));
    node.classList.toggle('none', Boolean(sign.isNone));
  }
}
