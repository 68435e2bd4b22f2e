// The ways to read the lines of a drawing as tables, and all puzzles that they may be. As in playing/drawings: readings, columns, signed, copied.
import {SIZES} from './games.js';
import {gridOf} from './drawn_rules.js';
import {BLANK, CORNER, EMPTY, NUMBERS, ODD, SIGNS, cornersOf, fits, hasAny, isBlank, plain, towers, unequal, upTo, within} from './drawn_tables.js';

/** @typedef {import('./drawn_tables.js').Table} Table */
/** @typedef {import('./drawn_tables.js').Reading} Reading */
/** @typedef {import('./turns.js').Game} Game */
/** @typedef {{y: number, x: number, letter: string}} Numbered */
/** The game that is named above, if one is. */
/** @typedef {Game | ''} Meant */

// Each puzzle that the lines may be.
/** @param {string[]} lines @param {Meant} game @returns {Reading[]} */
export const readings = (lines, game) => tried(lines, game).filter(({puzzle, lost}) => !lost && fits(puzzle));

// Those too in which something has been left out, or a number is above the size.
/** @param {string[]} lines @param {Meant} game @returns {Reading[]} */
export function tried(lines, game) {
  const copies = copiesIn(lines, game);
  if (copies.length) return copies;
  const flat = lines.map((line) => line.replace(/\[(.)\]|\((.)\)/g, (_, one, other) => ` ${(one || other).trim() || EMPTY} `));
  const told = cells(lines), grid = gridOf(flat), tables = told.length ? told : grid?.tables ?? [];
  const all = !tables.length ? ofSymbols(flat, game) : tables.flatMap((table) => (grid?.isLone ? plain(table, gamesOf(game)) : ofTable(table, game, true)));
  const found = all.filter(({puzzle}) => !game || puzzle.game === game);
  /** @type {Map<string, Reading>} */
  const best = new Map();
  for (const each of found) {
    // The same puzzle by a way in which nothing could have been lost.
    const name = JSON.stringify(each.puzzle), before = best.get(name);
    if (!before || rank(each) < rank(before)) best.set(name, each);
  }
  return [...best.values()];
}

// The puzzle of lines that are just as the usual program copies Towers, so that they are nothing else.
/** @param {string[]} lines @param {Meant} game @returns {Reading[]} */
export const copiesIn = (lines, game) => (game === 'unequal' ? [] : exact(lines));

/** @param {Reading} reading */
const rank = ({lost, doubt, isWhole}) => (lost ? 4 : 0) + (doubt ? 2 : 0) + (isWhole ? 0 : 1);

// Of lines without rules and cells. Where a tab may be as wide as it likes nothing stands below anything.
/** @param {string[]} lines @param {Meant} game @returns {Reading[]} */
function ofSymbols(lines, game) {
  const rows = unbarred(lines.map((line) => line.replaceAll('\t', BLANK))), hasTabs = lines.some((line) => line.includes('\t'));
  const found = [...(hasTabs ? [] : columns(rows)), ...counts(rows)].flatMap((table) => ofTable(table, game, false));
  return hasTabs ? found : [...found, ...signed(rows).flatMap(([table, doubt]) => unequal(table, doubt)), ...copied(lines)];
}

/** @param {Table} table @param {Meant} game @param {boolean} isTold */
function ofTable(table, game, isTold) {
  const isPlain = game === 'unequal' || cornersOf(table).every((symbol) => symbol !== null && symbol !== BLANK && symbol !== CORNER);
  return [...towers(table, isTold), ...unequal(table), ...(isPlain ? plain(table, gamesOf(game)) : [])];
}

/** @param {Meant} game @returns {Game[]} */
const gamesOf = (game) => (game ? [game] : ['towers', 'unequal']);

// --- cells, columns and counts ---

/** @param {string[]} lines @returns {Table[]} */
function cells(lines) {
  return ['\t', ',', ';'].flatMap((between) => {
    const rows = lines.filter((line) => line.replace(/^ +| +$/g, '')).map((line) => line.split(between).map((cell) => cell.trim().replace(/^"+|"+$/g, '') || BLANK));
    return rows.length && rows.every((row) => row.length > 2 && row.length === rows[0].length) ? [rows.map((row) => row.map(numberIn))] : [];
  });
}

// Spreadsheets write 3.0 of a 3.
/** @param {string} cell */
const numberIn = (cell) => (/^[1-9]\.[0.]+$/.test(cell) ? cell[0] : [...cell].length === 1 ? cell : ODD);

/** @param {string[]} lines @returns {Table[]} */
function columns(lines) {
  const used = [...new Set(lines.flatMap((line) => [...line].flatMap((letter, x) => (letter === BLANK ? [] : [x]))))].sort((one, other) => one - other);
  return used.length ? [lines.filter((line) => !isBlank(line)).map((line) => used.map((x) => (x < line.length && line[x] !== BLANK ? line[x] : null)))] : [];
}

/** @param {string[]} lines @returns {Table[]} */
function counts(lines) {
  /** @type {Table} */
  const rows = lines.filter((line) => !isBlank(line)).map((line) => [...line.replaceAll(BLANK, '')]), size = rows.length - 2;
  if (size > 0) for (const at of [0, size + 1]) if (rows[at].length === size) rows[at] = [null, ...rows[at], null];
  return size > 0 && rows.every((row) => row.length === size + 2) ? [rows] : [];
}

// Without the bars that stand at the same places in all lines that have some, and the ruled lines between.
/** @param {string[]} lines */
function unbarred(lines) {
  const bars = lines.filter((line) => line.includes('|')).map((line) => [...line].flatMap((letter, x) => (letter === '|' ? [x] : [])));
  if (bars.length < 3 || bars.some((own) => String(own) !== String(bars[0]))) return lines;
  const inner = lines.filter((line) => !/^[\s+-]*-[+-]+[\s+-]*$/.test(line)), places = bars[0].length === 2 ? inBox(bars[0][0], bars[0][1], bars.length) : [];
  return inner.map((line) => (line.includes('|') ? filled(line, places) : line).replaceAll('|', BLANK));
}

// Where the squares of a row are in a box around them, which is as wide as they need: side by side, apart, with blanks around, or ruled no more.
/** @param {number} begin @param {number} end @param {number} size */
function inBox(begin, end, size) {
  const found = [[size, 1, 1], [2 * size - 1, 1, 2], [2 * size + 1, 2, 2], [4 * size - 1, 2, 4]].find(([wide]) => wide === end - begin - 1);
  return found ? upTo(end, begin + found[1]).filter((x) => (x - begin - found[1]) % found[2] === 0) : [];
}

// Empty squares that are blank have a symbol then, if all others in the line are numbers.
/** @param {string} line @param {number[]} places */
function filled(line, places) {
  const isFit = places.every((x) => `${BLANK}${NUMBERS}`.includes(line[x]));
  return isFit ? [...line].map((letter, x) => (letter === BLANK && places.includes(x) ? EMPTY : letter)).join('') : line;
}

// --- lines of squares and of signs ---

/** @param {string} line */
export const squaresIn = (line) => line.replace(/[\s<>]/g, '').length;

// Each table with what could have been lost in it.
/** @param {string[]} lines @returns {[Table, string][]} */
function signed(lines) {
  const rows = lines.join('\n').replace(/^\n+|\n+$/g, '').split('\n'), size = Math.max(0, ...rows.filter((line) => !hasAny(line, '^v')).map(squaresIn));
  if (!SIZES.includes(size)) return [];
  return inTurn(rows, size, []).flatMap((found) => {
    const between = found.filter((_, at) => at % 2), lacking = between.flatMap((line, at) => (line ? [] : [at + 1]));
    // Where '-' or a blank line says that there is no sign, each line is there; so it is where there is no sign at all.
    const isTold = !hasAny(rows.join(''), SIGNS) || between.some((line) => line.includes('-') || (line && isBlank(line)));
    const table = lacking.length && isTold ? null : placed(found, size), isDoubtful = lacking.length && lacking.length < between.length;
    const doubt = isDoubtful ? `no line of signs stands below row ${lacking[0]}, so there are none: if one was left out, add it` : '';
    return table ? [/** @type {[Table, string]} */ ([table, doubt])] : [];
  });
}

/** @param {string[]} rows @param {number} size @param {string[]} found @returns {string[][]} */
function inTurn(rows, size, found) {
  if (!rows.length) return found.length === 2 * size - 1 ? [found] : [];
  const [row, ...rest] = rows;
  if (found.length % 2) return [...(/[^\^v -]/.test(row) ? [] : inTurn(rest, size, [...found, row || BLANK])), ...(isBlank(row) ? [] : inTurn(rows, size, [...found, '']))];
  if (isBlank(row)) return inTurn(rest, size, found);
  return squaresIn(row) === size && !hasAny(row, '^v') && found.length < 2 * size - 1 ? inTurn(rest, size, [...found, row]) : [];
}

// The table of such lines; nothing where a sign isn't between two squares, or a letter between two may be lost.
/** @param {string[]} lines @param {number} size */
function placed(lines, size) {
  const gaps = lines.flatMap((line, at) => (at % 2 ? [] : line.split(/[^\s<>]/u).slice(1, -1)));
  if (gaps.includes('') && gaps.some((gap) => gap && isBlank(gap))) return null;
  const rows = lines.map((line, at) => (at % 2 ? standing(lines[at - 1], line, lines[at + 1], size) : lying(line)));
  return rows.includes(null) ? null : /** @type {Table} */ (rows);
}

/** @param {string} line */
function lying(line) {
  const parts = line.replace(/\s/g, '').split(/([^\s<>])/u), isFit = !parts[0] && !parts[parts.length - 1] && parts.every((sign, i) => i % 2 || sign.length < 2);
  return isFit ? parts.slice(1, -1).map((part) => part || BLANK) : null;
}

// A line of signs: one for each column, as far from one another, or each below its square.
/** @param {string} above @param {string} line @param {string} below @param {number} size */
function standing(above, line, below, size) {
  const [squares, others] = [above, below].map((own) => [...own].flatMap((letter, x) => (' <>'.includes(letter) ? [] : [x])));
  const signs = new Map([...line].flatMap((letter, x) => (letter === BLANK ? [] : [[x, letter]]))), places = [...signs.keys()];
  const isEven = new Set(places.slice(1).map((x, at) => x - places[at])).size === 1;
  if (signs.size === size && (String(places) === String(squares) || isEven)) return [...[...signs.values()].join(BLANK)];
  // Squares need not stand below one another where no sign is between them.
  const isFit = !signs.size || (String(squares) === String(others) && within(places, squares) && ![...signs.values()].includes('-'));
  return isFit ? [...squares.map((x) => signs.get(x) ?? BLANK).join(BLANK)] : null;
}

// --- numbers alone ---

/**
 * Where the columns and lines are of a drawing with nothing in empty squares: the step between two columns, and how far the squares are from what is left of
 * them, and above. First as the usual program copies it; then all as people may write it: no clue beside the squares is nearer to them than they are to one
 * another.
 */
const USUAL = [2, 3, 2], FORMS = [1, 2, 3, 4].flatMap((step) => [0, 1, 2].flatMap((more) => [1, 2].map((top) => [step, step + more, top])));

/** @param {number[]} form @param {number} size */
const placesOf = ([step, left, top], size) => ({
  xs: [0, ...upTo(size).map((x) => left + step * x), 2 * left + step * (size - 1)], ys: [0, ...upTo(size).map((y) => top + y), 2 * top + size - 1],
});

/** @param {string[]} lines */
const numbersIn = (lines) => lines.flatMap((line, y) => [...line].flatMap((letter, x) => (letter === BLANK ? [] : [{y, x, letter}])));

// The puzzle of lines that are as long as the usual program makes them, blanks at their ends included: nothing in it can have been lost.
/** @param {string[]} lines @returns {Reading[]} */
function exact(lines) {
  const rows = lines.join('\n').replace(/^\n+|\n+$/g, '').split('\n'), size = rows.length - 4, numbers = numbersIn(rows);
  const lengths = [2 * size + 2, 0, ...upTo(Math.max(size, 0)).map(() => 2 * size + 5), 0, 2 * size + 2];
  if (!SIZES.includes(size) || rows.some((row, y) => row.length !== lengths[y]) || !numbers.every(({letter}) => NUMBERS.includes(letter))) return [];
  const table = tableOf(numbers, placesOf(USUAL, size)), found = table ? towers(table, true) : [];
  return found.filter(({puzzle}) => fits(puzzle)).map((reading) => ({...reading, doubt: '', lost: ''}));
}

// The puzzle of numbers alone, if all forms that the lines may have give the same.
/** @param {string[]} lines @returns {Reading[]} */
function copied(lines) {
  const numbers = numbersIn(lines);
  if (!numbers.length || !numbers.every(({letter}) => NUMBERS.includes(letter))) return [];
  const extent = [lines.join('\n').trimEnd().split('\n').length, Math.max(...lines.map((line) => line.length))];
  const found = FORMS.flatMap((form) => SIZES.flatMap((size) => (size + 1 < numbers.length ? foundIn(lines, numbers, extent, form, size) : [])));
  const near = found.filter(({isApart: own}) => !own), isSure = near.length === found.length || near.some(({isUsual}) => isUsual);
  const isOne = near.length && isSure && near.every(({table}) => JSON.stringify(table) === JSON.stringify(near[0].table));
  return (isOne ? towers(near[0].table, true) : []).filter(({lost}) => !lost).map((reading) => ({...reading, doubt: near[0].doubt, isWhole: false}));
}

// Blank where a square is empty, and nothing at the edge; no table where a number is in a corner or between two places.
/** @param {Numbered[]} numbers @param {{xs: number[], ys: number[]}} places @returns {Table | null} */
function tableOf(numbers, {xs, ys}) {
  const end = ys.length - 1;
  if (!numbers.every(({y, x}) => ys.includes(y) && xs.includes(x))) return null;
  /** @type {Table} */
  const table = ys.map((_, y) => xs.map((_x, x) => (y % end && x % end ? BLANK : null)));
  for (const {y, x, letter} of numbers) table[ys.indexOf(y)][xs.indexOf(x)] = letter;
  return [table[0][0], table[0][end], table[end][0], table[end][end]].every((symbol) => symbol === null) ? table : null;
}

// The numbers in this form: whether clues may stand apart from the table, and whether it is wholly in the usual program's form. The text ends where the
// drawing does, or with the squares of a row; with the last row in the usual program's form alone.
/** @param {string[]} lines @param {Numbered[]} numbers @param {number[]} extent @param {number[]} form @param {number} size */
function foundIn(lines, numbers, extent, form, size) {
  const places = placesOf(form, size), {xs, ys} = places, end = size + 1, ends = [extent[0] <= ys[end] + 1 && ys[end] + 1 <= lines.length, extent[1] === xs[end] + 1];
  const isUsual = String(form) === String(USUAL), isWhole = ends.every(Boolean);
  const lasts = [isUsual && Math.max(...numbers.map(({y}) => y)) === ys[size], Math.max(...numbers.map(({x}) => x)) === xs[size]];
  const table = ends.some(Boolean) && ends.every((is, axis) => is || lasts[axis]) ? tableOf(numbers, places) : null;
  return table ? [{table, doubt: lostIn(lines, ys), isApart: isApart(table, form[2] === 1 || !ends[0]), isUsual: isUsual && isWhole}] : [];
}

// Whether nothing stands next to the first and the last numbers, so that these may be clues of fewer squares; where lines are close one of both is enough.
/** @param {Table} table @param {boolean} isClose */
function isApart(table, isClose) {
  const used = table.flatMap((row, y) => (row.some((symbol) => symbol && NUMBERS.includes(symbol)) ? [y] : [])), [last, before] = [...used].reverse();
  const gaps = [used[1] - used[0] > 1, last - before > 1];
  return SIZES.includes(table.length - 3) && gaps[isClose ? 'some' : 'every'](Boolean);
}

// The signs that could have been lost where a line of it has nothing, not even blanks.
/** @param {string[]} lines @param {number[]} ys */
function lostIn(lines, ys) {
  const empty = ys.findIndex((y) => !lines[y]), size = ys.length - 2;
  if (empty < 0) return '';
  if (empty % (size + 1)) return `an empty line counts as row ${empty} of ${size}: if a line was left out, this is another puzzle`;
  return `no line of clues stands ${empty ? 'below' : 'above'}, so there are none: if one was left out, add it`;
}
