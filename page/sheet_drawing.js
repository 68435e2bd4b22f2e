// A board as a picture for paper, black on white: one unit is a hundredth of a millimetre, and all is in whole numbers.
import {NAMES} from './games.js';
import {TABLES} from './sheet_tables.js';
import {length, tag} from './sheet_tree.js';

/** @typedef {import('./objects.js').Board} Board */
/** @typedef {import('./turns.js').Game} Game */
/** @typedef {import('./sheet_tree.js').Tree} Tree */
/** @typedef {{side: number, frame: number, inner: number, wedge: number, number: number, clue: number}} Pen */

/** The things that a board may have besides: one square with a thick frame, the names of rows and columns, and the numbers of moves. */
/** @typedef {{hinted?: number | null, hasEdges?: boolean, order?: import('./sheet_steps.js').Move[]}} More */

const {OUTSIDE, BETWEEN, CLUE, DEPTH, HEIGHT, EDGE, EDGE_FONT, ORDER, ORDER_LEFT, BASELINE, LINES, DIGITS, THICK, THIN} = TABLES.DRAWING;

/** @param {number} number @param {number} percent */
export const share = (number, percent) => Math.floor(number * percent / 100);

// How strong all is drawn for squares of this side; the lines may be stronger, in per cent.
/** @param {Game} game @param {number} side @param {number} strength @param {boolean} [isSmall] @returns {Pen} */
export function penOf(game, side, strength, isSmall = false) {
  const [frame, inner, wedge] = [game, 'inner', 'wedge'].map((kind) => {
    const [percent, least, most] = (isSmall ? THIN : THICK)[kind];
    return share(Math.min(most, Math.max(least, share(side, percent))), strength);
  });
  return {side, frame, inner, wedge, number: share(side, 58), clue: share(side, isSmall ? 52 : 46)};
}

// For an answer: its lines are thin and its clues large.
/** @param {Game} game @param {number} side */
export const smallPen = (game, side) => penOf(game, side, 100, true);

/** @param {Game} game @param {number} size */
export const partsOf = (game, size) => 100 * size + (game === 'towers' ? 2 * OUTSIDE : BETWEEN * (size - 1));

/** @param {Game} game @param {number} size @param {Pen} pen */
export const extentOf = (game, size, pen) => share(partsOf(game, size), pen.side) + pen.frame;

/** @param {number} side */
export const edgeOf = (side) => share(side, EDGE);

// Where squares, clues and wedges are.
class Places {
  /** @param {Game} game @param {number} size @param {Pen} pen */
  constructor(game, size, {frame, side}) {
    const isTowers = game === 'towers', first = Math.floor(frame / 2) + share(side, isTowers ? OUTSIDE : 0);
    this.size = size;
    this.side = side;
    this.at = Array.from({length: size + 1}, (_, at) => first + share(side, 100 + (isTowers ? 0 : BETWEEN)) * at);
  }

  /** @param {number} at */
  middle(at) {
    if (at < 0) return this.at[0] - share(this.side, CLUE);
    return at === this.size ? this.at[at] + share(this.side, CLUE) : this.at[at] + Math.floor(this.side / 2);
  }

  /** @param {number} cell */
  square(cell) {
    const {at, side, size} = this;
    return `M${at[cell % size]} ${at[Math.floor(cell / size)]}h${side}v${side}h-${side}z`;
  }

  // A path that opens towards the greater number.
  /** @param {import('./objects.js').Sign} sign */
  wedge({greater, less}) {
    const {size, side} = this, height = share(side, HEIGHT), depth = share(side, DEPTH) * (greater < less ? -1 : 1);
    /** @param {(cell: number) => number} index */
    const between = (index) => Math.floor((this.middle(index(greater)) + this.middle(index(less))) / 2);
    const x = between((cell) => cell % size), y = between((cell) => Math.floor(cell / size));
    if (Math.abs(greater - less) === 1) return `M${x + depth} ${y - height}l${-2 * depth} ${height}l${2 * depth} ${height}`;
    return `M${x - height} ${y + depth}l${height} ${-2 * depth}l${height} ${2 * depth}`;
  }
}

// The picture, with its name and the board in words.
/** @param {Game} game @param {Board} board @param {Pen} pen @param {string} name @param {More} [more] @returns {Tree} */
export function drawn(game, board, pen, name, more = {}) {
  const {hinted = null, hasEdges = false, order = []} = more, {size} = board, places = new Places(game, size, pen), outside = hasEdges ? edgeOf(pen.side) : 0;
  const full = extentOf(game, size, pen) + outside, mm = length(full), inside = [tag('title', {}, name), tag('desc', {}, `${told(game, board).join(' ')} `)];
  if (hinted !== null) inside.push(tag('path', {class: 'hint', d: places.square(hinted), 'stroke-width': 2 * pen.frame}));
  inside.push(...grid(game, places, pen));
  // A card without a solution may have a sign that is wrong: it comes last.
  for (const isWrong of [false, true]) {
    const d = board.signs.filter(({error}) => error === isWrong).map((sign) => places.wedge(sign)).join('');
    if (d) inside.push(tag('path', {d, 'stroke-width': pen.wedge, ...(isWrong ? {class: 'wrong'} : {})}));
  }
  inside.push(numbers(board, places, pen));
  if (order.some(({cell}) => cell !== null)) inside.push(ordered(places, order));
  if (hasEdges) inside.push(edges(places, Math.floor(-outside / 2)));
  return tag('svg', {role: 'img', width: mm, height: mm, viewBox: `${-outside} ${-outside} ${full} ${full}`, ...LINES}, ...inside);
}

/** @param {Game} game @param {Places} places @param {Pen} pen */
function grid(game, places, {inner, frame}) {
  const {at, size} = places, [first, ...between] = at, last = between.pop();
  if (game === 'unequal') return [tag('path', {d: Array.from({length: size * size}, (_, cell) => places.square(cell)).join(''), 'stroke-width': frame})];
  return [
    tag('path', {d: between.map((each) => `M${each} ${first}V${last}M${first} ${each}H${last}`).join(''), 'stroke-width': inner}),
    tag('path', {d: `M${first} ${first}H${last}V${last}H${first}z`, 'stroke-width': frame}),
  ];
}

/** @param {Board} board @param {Places} places @param {Pen} pen */
function numbers({size, numbers, givens, clues}, places, pen) {
  /** @param {number} font @param {(number | string)[][]} digits @param {import('./sheet_tree.js').Given} [more] */
  const group = (font, digits, more = {}) => {
    const texts = digits.map(([x, y, text]) => tag('text', {x: places.middle(Number(x)), y: places.middle(Number(y)) + share(font, BASELINE)}, String(text)));
    return texts.length ? [tag('g', {'font-size': font, ...more}, ...texts)] : [];
  };
  /** @param {boolean} isGiven */
  const squares = (isGiven) => numbers
    .map((number, cell) => [cell % size, Math.floor(cell / size), number, Number(Boolean(givens[cell]) === isGiven)])
    .filter(([, , number, is]) => number && is);
  return tag('g', DIGITS,
    ...group(pen.number, squares(true), {'font-weight': 700}),
    ...group(pen.number, squares(false)),
    ...group(pen.clue, clues.map(({x, y, clue}) => [x, y, clue])));
}

// The number of its move, small in the corner of each square. The hardest one is underlined.
/** @param {Places} places @param {import('./sheet_steps.js').Move[]} order */
function ordered({at, side, size}, order) {
  const font = share(side, ORDER), left = share(side, ORDER_LEFT);
  const texts = order.flatMap(({cell, number, isHardest}) => {
    if (cell === null) return [];
    /** @type {import('./sheet_tree.js').Given} */
    const hardest = isHardest ? {'font-weight': 700, 'text-decoration': 'underline'} : {};
    return [tag('text', {x: at[cell % size] + left, y: at[Math.floor(cell / size)] + font, ...hardest}, String(number))];
  });
  return tag('g', {...DIGITS, 'text-anchor': 'start', 'font-size': font, class: 'order'}, ...texts);
}

/** @param {Places} places @param {number} at */
function edges(places, at) {
  const font = share(places.side, EDGE_FONT), down = share(font, BASELINE), half = Math.floor(places.side / 2);
  const texts = Array.from({length: places.size}, (_, index) => {
    const middle = places.at[index] + half;
    return [tag('text', {x: middle, y: at + down}, `c${index + 1}`), tag('text', {x: at, y: middle + down}, `r${index + 1}`)];
  });
  return tag('g', {...DIGITS, 'font-size': font, 'font-style': 'italic', class: 'edges'}, ...texts.flat());
}

// The board in words, for who doesn't see it.
/** @param {Game} game @param {Board} board */
function told(game, {size, numbers, clues, signs}) {
  const line = Array.from({length: size}, (_, at) => at);
  /** @param {(number | undefined)[]} row */
  const row = (row) => row.map((number) => number || '-').join(' ');
  /** @param {number} cell */
  const named = (cell) => `r${Math.floor(cell / size) + 1}c${(cell % size) + 1}`;
  /** @param {number} x @param {number} y */
  const clue = (x, y) => clues.find((each) => each.x === x && each.y === y)?.clue;
  const found = [['Rows', line.map((y) => row(numbers.slice(y * size, (y + 1) * size))).join('; ')]];
  if (game === 'towers') {
    found.push(['Clues above', row(line.map((x) => clue(x, -1)))], ['Clues below', row(line.map((x) => clue(x, size)))]);
    found.push(['Clues left', row(line.map((y) => clue(-1, y)))], ['Clues right', row(line.map((y) => clue(size, y)))]);
  }
  if (signs.length) found.push(['Greater', signs.map(({greater, less}) => `${named(greater)} than ${named(less)}`).join(', ')]);
  return found.map(([name, text]) => `${name}: ${text}.`);
}

// The name of a picture.
/** @param {string} kind @param {Game} game @param {number} size @param {string} grade */
export const nameOf = (kind, game, size, grade) => [`${kind}: ${NAMES[game]}`, `${size} by ${size}`, grade].filter(Boolean).join(', ');
