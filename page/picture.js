// The board as SVG: built once for a game, then what has changed is written. Its looks are in the style sheet alone.
import {set, shape} from './drawing.js';
import {PEN, Measures} from './measures.js';
import {clueName, square} from './names.js';
import {cellOf, crossing, placeAt, placeOf} from './objects.js';

/** @typedef {import('./turns.js').Game} Game */
/** @typedef {import('./objects.js').Board} Board */
/** @typedef {import('./objects.js').Clue} Clue */
/** @typedef {import('./objects.js').Sign} Sign */
/** @typedef {import('./objects.js').Place} Place */
/** @typedef {import('./walked_hint.js').Shown} Shown */

/**
 * The things that are seen beside the board itself: the chosen place, whether digits are marks, what a hint points at, the number that is lit wherever it
 * stands, 0 where none is, and whether the row and column of the chosen square are tinted.
 * @typedef {{chosen: Place, marking: boolean, shown: Shown | null, lit: number, lanes: boolean}} View
 */

// How a square is seen.
/** @typedef {{given: boolean, wrong: boolean, same: boolean, lane: boolean, rests: boolean, struck: boolean}} Look */

export class Picture {
  /** @param {Game} game @param {Board} board @param {string} title */
  constructor(game, board, title) {
    this.size = board.size;
    this.measures = new Measures(game, board.size);
    const grid = {role: 'grid', 'aria-label': title, 'aria-rowcount': this.size, 'aria-colcount': this.size};
    this.svg = shape('svg', {viewBox: this.measures.view, ...grid});
    /** @type {Map<Place, SVGElement>} */
    this.places = new Map();
    for (let y = -1; y <= this.size; y++) this.addRow(y, board);
    this.svg.append(...(this.measures.isTowers ? this.lines() : []), ...this.numbers());
    this.signs = board.signs.map((sign) => this.svg.appendChild(this.sign(sign)));
    this.frames = this.svg.appendChild(shape('g', {class: 'look', 'stroke-width': 1.2 * this.measures.frame}, shape('g')));
    this.ring = this.svg.appendChild(shape('rect', {class: 'ring', rx: 6, 'stroke-width': PEN.ring}));
  }

  // A row of squares with the clues at its ends, or a row of clues.
  /** @param {number} y @param {Board} board */
  addRow(y, {clues}) {
    const row = shape('g', {role: 'row'}), {measures} = this;
    for (let x = -1; x <= this.size; x++) {
      const place = placeAt(x, y), isSquare = cellOf(place, this.size) >= 0;
      if (!isSquare && !clues.some((clue) => clue.x === x && clue.y === y)) continue;
      const outline = isSquare && !measures.isTowers ? {'stroke-width': measures.frame} : {};
      const index = isSquare ? {'aria-rowindex': y + 1, 'aria-colindex': x + 1} : {};
      const node = shape('g', {role: 'gridcell', tabindex: -1, 'data-place': place, ...index}, shape('rect', {...measures.box(x, y), ...outline}));
      this.places.set(place, node);
      row.append(node);
    }
    if (row.firstChild) this.svg.append(row);
  }

  /** The lines of Towers. */
  lines() {
    const [first, ...between] = this.measures.at, last = between.pop();
    const inner = between.map((at) => `M${at} ${first}V${last}M${first} ${at}H${last}`).join('');
    return [
      shape('path', {d: inner, class: 'inner', 'stroke-width': PEN.inner}),
      shape('path', {d: `M${first} ${first}H${last}V${last}H${first}z`, class: 'frame', 'stroke-width': this.measures.frame}),
    ];
  }

  /** The numbers of rows and columns, which are seen where a sentence names squares by them. */
  numbers() {
    const {margin, out} = this.measures, away = -out - margin / 2;
    const all = Array.from({length: this.size}, (_, index) => {
      const middle = this.measures.middle(index);
      return [this.text(middle, away, 0.85 * margin, index + 1, 'index'), this.text(away, middle, 0.85 * margin, index + 1, 'index')];
    });
    return all.flat();
  }

  /** @param {Sign} sign */
  sign({greater, less}) {
    const {measures} = this, path = shape('path', {d: measures.wedge(greater, less), 'stroke-width': PEN.wedge});
    return shape('g', {'aria-hidden': true}, shape('rect', {...measures.gap(greater, less), rx: 8}), path);
  }

  /** @param {Board} board @param {View} view */
  paint(board, view) {
    const {shown} = view;
    board.numbers.forEach((_, cell) => this.paintSquare(board, cell, view));
    for (const clue of board.clues) this.paintClue(clue, shown);
    board.signs.forEach((sign, at) => this.paintSign(sign, this.signs[at]));
    const framed = shown?.framed ?? [];
    renew(this.frames, framed.join(' '), () => this.measures.around(framed).map((box) => shape('rect', {...box, rx: 6})));
    this.paintRing(view);
    set(this.svg, 'class', shown ? 'named' : '');
  }

  /** @param {View} view */
  paintRing({chosen, marking}) {
    const [x, y] = chosen.split(',').map(Number);
    for (const [key, value] of Object.entries(this.measures.box(x, y))) set(this.ring, key, value);
    set(this.ring, 'class', `ring${marking ? ' marking' : ''}`);
    for (const [place, node] of this.places) {
      set(node, 'tabindex', place === chosen ? 0 : -1);
      set(node, 'aria-selected', place === chosen);
    }
  }

  /** @param {Board} board @param {number} cell @param {View} view @returns {Look} */
  look(board, cell, {chosen, shown, lit, lanes}) {
    const own = cellOf(chosen, this.size);
    return {
      given: Boolean(board.givens[cell]),
      wrong: board.errors.includes(cell),
      same: lit > 0 && board.numbers[cell] === lit,
      lane: lanes && !shown && own >= 0 && crossing(own, this.size).includes(cell),
      rests: Boolean(shown?.rests.includes(placeOf(cell, this.size))),
      struck: Boolean(shown?.struck.has(cell)),
    };
  }

  /** @param {Board} board @param {number} cell @param {View} view */
  paintSquare(board, cell, view) {
    const place = placeOf(cell, this.size), node = this.places.get(place);
    if (!node) return;
    const look = this.look(board, cell, view), left = view.shown?.left?.[cell] ?? null, struck = view.shown?.struck.get(cell) ?? [];
    set(node, 'class', ['square', ...Object.entries(look).filter(([, is]) => is).map(([name]) => name)].join(' '));
    set(node, 'aria-label', square(board, cell));
    set(node, 'aria-readonly', look.given);
    set(node, 'aria-invalid', look.wrong);
    const seen = [board.numbers[cell], board.marks[cell], look.wrong, look.rests, look.struck, left, struck].join('|');
    renew(node, seen, () => [...this.corner(place, look.rests), ...this.inside(board, cell, look, left, struck)]);
    this.light(node, cell, view.lit);
  }

  // Of the marks of a square the one of this number has a light behind it. Nothing else is made anew for that: a large board has 700 marks.
  /** @param {SVGElement} node @param {number} cell @param {number} number */
  light(node, cell, number) {
    const mark = [...node.querySelectorAll('.mark')].find(({textContent}) => textContent === String(number)), light = node.querySelector('.light');
    if (light?.nextSibling === mark) return;
    const {x, y} = this.measures.mark(cell, number);
    light?.remove();
    mark?.before(shape('circle', {cx: x, cy: y, r: PEN.mark / 2, class: 'light'}));
  }

  // A place that a step rests on has a corner, so that it is seen by a form and not by the colour alone.
  /** @param {Place} place @param {boolean} rests */
  corner(place, rests) {
    const [column, row] = place.split(',').map(Number), box = this.measures.box(column, row);
    return rests ? [shape('path', {d: `M${box.x} ${box.y}h22l-22 22z`, class: 'corner'})] : [];
  }

  /** @param {Board} board @param {number} cell @param {Look} look @param {number[] | null} left @param {number[]} struck */
  inside({numbers, marks}, cell, {wrong}, left, struck) {
    const {x, y} = this.measures.centre(cell), number = numbers[cell], kind = left ? 'left' : 'mark';
    if (!number) return (left ?? marks[cell]).flatMap((own) => this.mark(cell, own, kind, struck.includes(own)));
    return [this.text(x, y, PEN.number, number, 'number'), ...(wrong ? [this.text(x + 34, y - 26, PEN.bang, '!', 'bad')] : [])];
  }

  // A pencil mark, or a number that is left; one that a step strikes is crossed out.
  /** @param {number} cell @param {number} number @param {string} kind @param {boolean} isStruck */
  mark(cell, number, kind, isStruck) {
    const {x, y} = this.measures.mark(cell, number), half = PEN.mark * 0.45;
    const cross = shape('path', {d: `M${x - half} ${y + half}L${x + half} ${y - half}`, class: 'cross', 'stroke-width': 4});
    return [this.text(x, y, PEN.mark, number, isStruck ? `${kind} gone` : kind), ...(isStruck ? [cross] : [])];
  }

  /** @param {Clue} clue @param {Shown | null} shown */
  paintClue(clue, shown) {
    const place = placeAt(clue.x, clue.y), node = this.places.get(place), x = this.measures.middle(clue.x), y = this.measures.middle(clue.y);
    if (!node) return;
    const rests = Boolean(shown?.rests.includes(place));
    set(node, 'class', `clue${clue.clue ? '' : ' none'}${clue.done ? ' done' : ''}${clue.error ? ' wrong' : ''}${rests ? ' rests' : ''}`);
    set(node, 'aria-label', clueName(clue, this.size));
    renew(node, [clue.clue, clue.done, clue.error, rests].join('|'), () => [
      ...this.corner(place, rests),
      this.text(x, y, clue.error ? PEN.wrongClue : PEN.clue, `${clue.error ? '!' : ''}${clue.clue || '•'}`, ''),
      ...(clue.done ? [shape('path', {d: `M${x - 20} ${y + 20}L${x + 20} ${y - 20}`, class: 'strike', 'stroke-width': 4})] : []),
    ]);
  }

  /** @param {Sign} sign @param {SVGElement} node */
  paintSign({greater, less, error}, node) {
    const {x, y} = this.measures.between(greater, less), isAcross = Math.abs(greater - less) === 1;
    set(node, 'class', `sign${error ? ' wrong' : ''}`);
    renew(node, String(error), () => (error ? [this.text(x + (isAcross ? 0 : 34), y - (isAcross ? 34 : 0), 34, '!', 'bad')] : []), 2);
  }

  /** @param {number} x @param {number} y @param {number} font @param {string | number} content @param {string} kind */
  text(x, y, font, content, kind) {
    return shape('text', {x, y: y + font * PEN.baseline, 'font-size': font, class: kind, 'aria-hidden': true}, String(content));
  }
}

// Makes what is in a node behind its first children anew where it is to be seen otherwise than before.
/** @param {SVGElement} node @param {string} seen @param {() => SVGElement[]} inside @param {number} first */
function renew(node, seen, inside, first = 1) {
  if (node.dataset.seen === seen) return;
  node.dataset.seen = seen;
  node.replaceChildren(...[...node.childNodes].slice(0, first), ...inside());
}
