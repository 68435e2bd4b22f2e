// The meaning of a table of symbols that was read of a drawing: a puzzle of Towers, one of Unequal, or squares alone. As in playing/drawings/tables.py.
import {SIZES} from './games.js';

/** @typedef {import('./turns.js').Game} Game */
/** Rows of symbols: of squares, and of what is at their edges or between them; null is what isn't drawn at all. */
/** @typedef {(string | null)[][]} Table */
/** A puzzle by its items, as lines of the program have them. */
/** @typedef {{game: Game, size: number, items: string[]}} Puzzle */
/**
 * A puzzle that lines may mean: what could have been lost in it; whether nothing above or below could belong to it, too; and what has been left out, so that it
 * isn't taken.
 * @typedef {{puzzle: Puzzle, doubt: string, isWhole: boolean, lost: string}} Reading
 */

export const EMPTY = '.';
export const BLANK = ' ';
export const CORNER = '+';
export const NUMBERS = '123456789';
export const SIGNS = '<>^v';
/** Pencil marks, which say nothing of a puzzle; and what can be no symbol of one. */
export const MARKS = '~';
export const ODD = '@';
const NONE = [EMPTY, '-', BLANK], SQUARES = [...NUMBERS, ...NONE], CORNERS = [null, CORNER, ...NONE];

// Other letters of the same meaning.
/** @type {Record<string, string>} */
const OTHERS = {
  '.': '_0xXoO*?·•∙・□☐▢⬜◻○＿０＊？．', '-': '–—−‐‑─━═╌┄－', '|': '│┃║¦｜', '+': '┌┐└┘├┤┬┴┼┏┓┗┛┣┫┳┻╋╔╗╚╝╠╣╦╩╬╤╧╟╢╪╫╒╕╘╛╞╡╓╖╙╜╥╨┯┷┠┨┿╂＋', ' ': '\xa0\u2007\u2009\u3000', '<': '＜﹤‹〈', '>': '＞﹥›〉',
  '^': '∧˄⌃⋀Λ︿▲△A＾', v: '∨˅⌄⋁V﹀▼▽', 1: '１', 2: '２', 3: '３', 4: '４', 5: '５', 6: '６', 7: '７', 8: '８', 9: '９',
};
const SAME = new Map(Object.entries(OTHERS).flatMap(([own, others]) => [...others].map((other) => [other, own])));

/** All letters that drawings are made of. */
export const DRAWN = new Set([...Object.entries(OTHERS).flat().join(''), ...SIGNS]);

/** @param {string} text */
export const translated = (text) => [...text].map((letter) => SAME.get(letter) ?? letter).join('');
/** @param {number} to */
export const upTo = (to, from = 0) => Array.from({length: Math.max(0, to - from)}, (_, at) => from + at);
/** @param {Iterable<unknown>} some @param {unknown[]} all */
export const within = (some, all) => [...some].every((own) => all.includes(own));
/** @param {unknown[]} some @param {unknown[]} others */
const hasSome = (some, others) => others.some((own) => some.includes(own));
/** @param {string} line */
export const isBlank = (line) => !line.trim();
/** @param {string} line @param {string} letters */
export const hasAny = (line, letters) => [...letters].some((letter) => line.includes(letter));

// --- puzzles ---

/** @param {Puzzle} puzzle */
export const linesOf = ({size, items}) => [`blank ${size}`, ...items];

// Whether an item is a number in a square.
/** @param {Puzzle} puzzle @param {string} item */
export function isGiven({size}, item) {
  const [x, y, ...others] = item.slice('item '.length).split(',').map(Number);
  return others.length === 1 && Math.min(x, y) >= 0 && Math.max(x, y) < size;
}

// Whether it has nothing but numbers in squares.
/** @param {Puzzle} puzzle */
export const isBare = (puzzle) => puzzle.items.every((item) => isGiven(puzzle, item));

/** @param {Puzzle} puzzle */
export const fits = ({size, items}) => items.every((item) => Number(item[item.length - 1]) <= size);

/** @param {Puzzle} puzzle @param {Partial<Reading>} [more] @returns {Reading} */
const readingOf = (puzzle, more) => ({puzzle, doubt: '', isWhole: true, lost: '', ...more});

// --- tables ---

// A square of squares, and at each side a line of clues, or none. In a table of cells, which is told, all four are there.
/** @param {Table} table @param {boolean} isTold @returns {Reading[]} */
export function towers(table, isTold) {
  const high = table.length, wide = table[0].length, ends = [table[0], table[high - 1], table.map((row) => row[0]), table.map((row) => row[wide - 1])];
  return SIZES.flatMap((size) => [[1, 1], [1, 0], [0, 1], [0, 0]].flatMap(([top, left]) => {
    const sides = [top, high - size - top, left, wide - size - left];
    if (!within(sides, [0, 1]) || !sides.some(Boolean) || (isTold && !sides.every(Boolean))) return [];
    // In the place of a side that isn't drawn stand squares, and no line of clues.
    if (!sides.every((is, at) => is || ends[at].some((symbol) => symbol !== null && NONE.includes(symbol)))) return [];
    return framed(upTo(size + 2).map((y) => upTo(size + 2).map((x) => table[y - 1 + top]?.[x - 1 + left] ?? null)));
  }));
}

// The puzzle of Towers with these squares and all four sides, if it is one.
/** @param {Table} table @returns {Reading[]} */
function framed(table) {
  const inner = table.slice(1, -1), size = inner.length, corners = cornersOf(table), squares = inner.flatMap((row) => row.slice(1, -1));
  const edges = [table[0].slice(1, -1), table[size + 1].slice(1, -1), inner.map((row) => row[0]), inner.map((row) => row[size + 1])], symbols = edges.flat();
  // Without any clue the edge is told from the squares by its corners alone; '+' there says that each place is drawn.
  const isEdge = symbols.some(isNumber) || hasSome(corners, [null, BLANK, CORNER]);
  const areEven = ![squares, corners, [...symbols, ...(corners.includes(CORNER) ? ['-'] : [])]].some(isMixed);
  if (!isEdge || !areEven || !within(squares, SQUARES) || !within(corners, CORNERS) || !within(symbols, [null, ...SQUARES])) return [];
  const bare = edges.map((edge) => within(edge, [null])), isWhole = !bare.includes(true), lines = ['above', 'below'].filter((_, at) => bare[at]);
  const doubt = lines.length ? `no line of clues stands ${lines.join(' and ')}, so there are none: if one was left out, add it` : '';
  const lacking = edges.flatMap((edge, at) => (bare[at] ? [] : edge.filter((symbol) => symbol === null))).length;
  // A side with nothing at all is one without clues if others have such places, too. If a single place has nothing, a letter may be lost.
  const isLost = isWhole ? lacking === 1 && !squares.includes(BLANK) : !lacking;
  const lost = isLost ? (isWhole ? 'one place at the edge has no clue' : 'a side has no clue') : '';
  return [readingOf({game: 'towers', size, items: numbersIn(table, 1)}, {doubt, isWhole, lost})];
}

/** @param {Table} table */
export const cornersOf = (table) => [table[0], table[table.length - 1]].flatMap((row) => [row[0], row[row.length - 1]]);

// Whether places without a number say so in two ways: by a symbol, and by nothing.
/** @param {(string | null)[]} symbols */
const isMixed = (symbols) => hasSome(symbols, [null, BLANK]) && hasSome(symbols, [EMPTY, '-']);

/** @param {string | null} symbol */
const isNumber = (symbol) => symbol !== null && NUMBERS.includes(symbol);

// The items of a table's numbers, of which so many lines are outside of the squares.
/** @param {Table} table */
const numbersIn = (table, outside = 0) => table.flatMap((row, y) => row.flatMap((symbol, x) => (isNumber(symbol) ? [`item ${x - outside},${y - outside},${symbol}`] : [])));

// Squares at each second place, and signs between.
/** @param {Table} table @returns {Reading[]} */
export function unequal(table, doubt = '') {
  const extent = table.length, size = (extent + 1) / 2;
  if (!SIZES.includes(size) || table[0].length !== extent) return [];
  const items = table.flatMap((row, y) => row.map((symbol, x) => itemBetween(symbol ?? ODD, x, y)));
  return items.includes(null) ? [] : [readingOf({game: 'unequal', size, items: items.flatMap((item) => item || [])}, {doubt})];
}

// The item of a place of such a table, or '' where it says none; nothing where the symbol can't stand there.
/** @param {string} symbol @param {number} x @param {number} y */
function itemBetween(symbol, x, y) {
  const place = `${x >> 1},${y >> 1}`, other = `${(x + 1) >> 1},${(y + 1) >> 1}`;
  if (x % 2 === 0 && y % 2 === 0) return isNumber(symbol) ? `item ${place},${symbol}` : NONE.includes(symbol) ? '' : null;
  if (x % 2 !== y % 2 && SIGNS.includes(symbol)) {
    if (!(x % 2 ? '<>' : '^v').includes(symbol)) return null;
    return '>v'.includes(symbol) ? `item ${place},${other},1` : `item ${other},${place},1`;
  }
  return symbol === BLANK || (symbol === '-' && y % 2) ? '' : null;
}

// Squares alone. They belong to any game.
/** @param {Table} table @param {Game[]} games @returns {Reading[]} */
export function plain(table, games) {
  const size = table.length;
  if (!SIZES.includes(size) || table[0].length !== size || !within(table.flat(), SQUARES)) return [];
  return games.map((game) => readingOf({game, size, items: numbersIn(table)}, {isWhole: false}));
}
