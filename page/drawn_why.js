// Why lines are no drawing, or not that of one puzzle: the first reason that there is, and where. As in playing/drawings/sentences.py.
import {NAMES, SIZES} from './games.js';
import {BLANK, NUMBERS, SIGNS, fits, hasAny, isBare, isBlank, isGiven} from './drawn_tables.js';
import {gridOf} from './drawn_rules.js';
import {readings, tried} from './drawn_ways.js';

/** @typedef {import('./drawn_tables.js').Puzzle} Puzzle */
/** @typedef {import('./drawn_tables.js').Reading} Reading */
/** @typedef {import('./drawn_ways.js').Meant} Meant */
/**
 * A line, counted from 0; a column, counted from 1, or 0 where it is the whole line; and the reason.
 * @typedef {[line: number, column: number, why: string]} Why
 */
/**
 * Lines that are to be a drawing: those that aren't of signs nor ruled with how many symbols each has, how many most have, and those with others; of Towers the
 * first and the last one may have fewer.
 * @typedef {{lines: string[], game: Meant, isSigned: boolean, first: number, rows: Row[], middle: Row[], usual: number, odd: Row[]}} Lines
 */
/** @typedef {{y: number, count: number}} Row */

/** So many lines that aren't blank a drawing has at most. */
export const MOST_LINES = 24;

/** All that drawings are made of, once letters of one meaning are one. */
const KNOWN = `${NUMBERS}${SIGNS}.-+| \t,;[]()"!~`;
const SMALLEST = SIZES[0], LARGEST = SIZES[SIZES.length - 1];

// A puzzle that was read, as `Towers 5x5, 20 clues, 2 given`.
/** @param {Puzzle} puzzle */
export function called(puzzle) {
  const {game, size, items} = puzzle, given = items.filter((item) => isGiven(puzzle, item)).length, others = items.length - given;
  return `${NAMES[game]} ${size}x${size}, ${others} ${game === 'towers' ? 'clue' : 'sign'}${others === 1 ? '' : 's'}, ${given} given`;
}

/** @param {string[]} lines @param {Meant} game @returns {Lines} */
function linesOf(lines, game) {
  const isSigned = hasAny(lines.join(''), SIGNS) || game === 'unequal', drawn = lines.map((line, y) => ({line, y})).filter(({line}) => !isBlank(line) && !hasAny(line, '^v') && !line.includes('--'));
  const rows = drawn.filter(({line}) => !isSigned || /[^- ]/.test(line)).map(({line, y}) => ({y, count: line.replace(/[\s<>|,;"]/g, '').length}));
  const middle = !isSigned && rows.length > 3 ? rows.slice(1, -1) : rows, all = middle.map(({count}) => count), often = (/** @type {number} */ count) => all.filter((own) => own === count).length;
  const usual = all.reduce((best, count) => (often(count) > often(best) ? count : best), all[0] ?? 0);
  return {lines, game, isSigned, first: Math.max(lines.findIndex((line) => !isBlank(line)), 0), rows, middle, usual, odd: middle.filter(({count}) => count !== usual)};
}

// The places of letters, each with its line and its column, counted from 0.
/** @param {string[]} lines @param {(letter: string) => boolean} isMeant */
const placesOf = (lines, isMeant) => lines.flatMap((line, y) => [...line].flatMap((letter, x) => (isMeant(letter) ? [{y, x, letter}] : [])));

// The reason for lines that may be several puzzles, or none, and the game of which a form is to be shown.
/** @param {string[]} lines @param {Meant} game @param {Reading[]} found */
export function whyNot(lines, game, found) {
  const own = linesOf(lines, game);
  /** @type {Why} */
  const [line, column, why] = found.length > 1 ? [own.first, 0, two(found.map(({puzzle}) => puzzle))] : reasons(own).next().value;
  return {line, column, why, game: found[0]?.puzzle.game ?? (game || (own.isSigned ? 'unequal' : 'towers'))};
}

/** @param {Puzzle[]} puzzles */
function two(puzzles) {
  const [sizes, games] = [new Set(puzzles.map(({size}) => size)), new Set(puzzles.map(({game}) => game))];
  if (puzzles.every(isBare) && sizes.size === 1 && games.size === 2) return "it has no clue and no sign, so it may be of both games: write 'towers' or 'unequal' on a line above it";
  return `${puzzles.slice(0, 2).map(called).join(' or ')}: there are two ways to read it. Draw each place, also an empty one`;
}

// In this order.
/** @param {Lines} own @returns {Generator<Why>} */
function* reasons(own) {
  yield* strange(own);
  yield* notTaken(own);
  yield* tabs(own);
  yield* foreignSign(own);
  yield* edgeSign(own);
  yield* grid(own);
  yield* whole(own);
  yield* counts(own);
}

/** @param {Lines} own @returns {Generator<Why>} */
function* strange({lines}) {
  // The board has this word for pencil marks of all numbers.
  const [odd] = placesOf(lines.map((line) => (line.split('|').length > 3 ? line.replaceAll('all', '   ') : line)), (letter) => !KNOWN.includes(letter));
  if (!odd) return;
  const {y, x, letter} = odd, code = (letter.codePointAt(0) ?? 0).toString(16).toUpperCase().padStart(4, '0');
  yield [y, x + 1, `${/[\p{C}\p{Z}]/u.test(letter) ? `U+${code}` : `'${letter}'`} is no number, no sign and no empty square`];
}

// A reading in which something has been left out, or a number is above the size.
/** @param {Lines} own @returns {Generator<Why>} */
function* notTaken({lines, game, first}) {
  const found = tried(lines, game), [lost] = found.filter(({lost: text, puzzle}) => text && fits(puzzle)).map(({lost: text}) => text).sort().reverse();
  if (lost) yield [first, 0, `${lost}, and each other place has one: if nothing was left out, write - for each place without a clue`];
  const sizes = found.filter(({lost: text}) => !text).map(({puzzle}) => puzzle.size), size = sizes.length ? Math.max(...sizes) : NUMBERS.length;
  for (const {y, x} of placesOf(lines, (letter) => NUMBERS.includes(letter) && Number(letter) > size)) yield [y, x + 1, `a number is above the size, ${size}`];
}

/** @param {Lines} own @returns {Generator<Why>} */
function* tabs({lines}) {
  const [tab] = placesOf(lines, (letter) => letter === '\t');
  if (!tab) return;
  if (lines.some((line) => line.includes('\t') && line.trim().includes(' '))) yield [tab.y, tab.x + 1, 'tabs and spaces are mixed: write one of them between two places'];
  const cells = lines.flatMap((line, y) => (line.replace(/^ +| +$/g, '') ? [{y, count: line.split('\t').length}] : []));
  for (const {y, count} of cells) if (count !== cells[0].count) yield [y, 0, `this line has ${count} cells, and the first one ${cells[0].count}`];
}

// A sign in a drawing that would be one of Towers without it.
/** @param {Lines} own @returns {Generator<Why>} */
function* foreignSign({lines, game}) {
  const signs = placesOf(lines, (letter) => SIGNS.includes(letter)), [{y, x, letter}] = [...signs, {y: 0, x: 0, letter: ''}];
  if (signs.length !== 1 || game === 'unequal') return;
  const without = lines.map((line, at) => (at === y ? `${line.slice(0, x)} ${line.slice(x + 1)}` : line));
  if (readings(without, game).some(({puzzle}) => puzzle.game === 'towers')) yield [y, x + 1, `'${letter}' stands between two squares of Towers, which has no signs`];
}

/** @param {Lines} own @returns {Generator<Why>} */
function* edgeSign({lines}) {
  for (const {y, x, letter} of placesOf(lines, (own) => '<>'.includes(own))) {
    const line = lines[y], isInner = !isBlank(line.slice(0, x)) && !isBlank(line.slice(x + 1));
    if (!line.includes('|') && !isInner) yield [y, x + 1, `'${letter}' stands at the edge, and a sign stands between two squares`];
  }
}

/** @param {Lines} own @returns {Generator<Why>} */
function* grid({lines}) {
  const own = gridOf(lines), gap = own?.gap, stray = own?.isWhole && own.stray;
  if (own && gap && own.lines.filter((line) => '|+<>'.includes(line[gap.x])).length > 2) yield [gap.y, gap.x + 1, 'no wall stands here, as in the other lines'];
  if (stray) yield [stray.y, stray.x + 1, `'${lines[stray.y][stray.x]}' doesn't stand between two squares`];
}

// The reasons that are of no single line.
/** @param {Lines} own @returns {Generator<Why>} */
function* whole({lines, rows, middle, usual, isSigned, odd, first}) {
  const height = lines.filter((line) => !isBlank(line)).length, most = Math.max(...rows.map(({count}) => count)), isShort = middle.filter(({count}) => count < most).length > 1;
  // As high as wide, and too small or too large. A clue of a size that is too large may have two digits.
  const isLarge = !isSigned && usual === rows.length && usual > LARGEST + 2, size = usual - (isLarge ? 2 : 0);
  const isOther = (isLarge || !odd.length) && !SIZES.includes(size) && (size > LARGEST || usual < SMALLEST);
  const isFour = !isSigned && rows.length === 4 && SIZES.includes(usual) && rows.every(({count}) => count === usual);
  if (isFour) yield [first, 0, "four lines of clues? Write 'top:', 'bottom:', 'left:' or 'right:' before each"];
  if (isShort && [...lines.join('')].every((letter) => `${NUMBERS}${BLANK}`.includes(letter))) yield [first, 0, 'numbers alone, and nothing where squares are empty, can have several meanings: draw each place, also an empty one'];
  if (height < SMALLEST || height > MOST_LINES) yield [first, 0, `${height} line${height > 1 ? 's' : ''}, and a drawing has from ${SMALLEST} to ${MOST_LINES}`];
  if (isOther) yield [first, 0, `a drawing of size ${size}, and sizes go from ${SMALLEST} to ${LARGEST}`];
}

// A line of another length than most; or they are as long as one another, and too few or too many.
/** @param {Lines} own @returns {Generator<Why>} */
function* counts({rows, usual, isSigned, odd, first}) {
  const height = rows.length;
  for (const {y, count} of odd) yield [y, 0, `this line has ${count} symbol${count === 1 ? '' : 's'}, and the others ${usual}`];
  if (usual >= SMALLEST && usual <= LARGEST + 2) {
    const isShort = height < usual && (isSigned || usual >= SMALLEST + 2);
    if (isShort) yield [rows[height - 1].y, 0, `the drawing ends here, after ${height} ${isSigned ? 'rows' : 'lines'} of ${usual}`];
    if (height > usual) yield [rows[usual].y, 0, `a line more than the ${usual} that are as long as they are many`];
  }
  if (height === usual && SIZES.includes(usual)) yield [first, 0, 'it is in no form that can be read'];
  yield [first, 0, `${height} lines of ${usual} symbols make no square of a size from ${SMALLEST} to ${LARGEST}`];
}
