// Drawings with ruled lines around the squares: clues outside of them, and signs on them. As in playing/drawings/ruled.py.
import {BLANK, MARKS, ODD, SIGNS, hasAny, isBlank, upTo} from './drawn_tables.js';

/** @typedef {import('./drawn_tables.js').Table} Table */

/** A ruled line, perhaps with signs on it, or with a document's marks of where cells are aligned; and the numbers that are left in a square, in their order. */
const RULE = /^[\s|+v^:-]*(--|-\+|:-|-:)[\s|+v^:-]*$/, LEFT = /^(?=..)1?2?3?4?5?6?7?8?9?$/;

/** @param {string} text */
function square(text) {
  const own = text.replace(/!+$/, '') || BLANK;
  return own === 'all' || LEFT.test(own) ? MARKS : [...own].length === 1 ? own : ODD;
}

// A clue with what the board puts beside one: a dot where it is done, and '!' where it is wrong.
/** @param {string} text */
function clue(text) {
  const own = text.replace(/!+$/, '');
  return own.replace(/\.+$/, '').length < 2 ? own[0] ?? null : ODD;
}

/** @param {(string | null)[]} row */
const unmarked = (row) => row.map((symbol) => (symbol === MARKS ? BLANK : symbol));

// What stands between each two, among them.
/** @template T @param {T[]} all @param {T[]} between @returns {T[]} */
const among = (all, between) => all.flatMap((each, at) => (at < between.length ? [each, between[at]] : [each]));

/**
 * Lines with walls between their columns: which of them are rules, which are rows of squares, and which stand around these. Each line is as long as the last wall
 * needs; the table has the squares of each row, with the clues beside them.
 */
class Grid {
  /** @param {string[]} lines @param {number[]} walls */
  constructor(lines, walls) {
    const isRule = lines.map((line) => RULE.test(line)), ys = upTo(lines.length).filter((y) => !isRule[y]);
    this.lines = lines.map((line) => line.padEnd(walls[walls.length - 1] + 1));
    this.walls = walls;
    this.isRule = isRule;
    this.rows = ys.filter((y) => /[|<>]/.test(lines[y]));
    this.others = ys.filter((y) => !/[|<>]/.test(lines[y]) && !isBlank(lines[y]));
    this.first = this.rows[0];
    this.last = this.rows[this.rows.length - 1];
    /** @type {Table} */
    this.table = this.rows.map((y) => this.cut(y)).map((row) => [clue(row[0]), ...row.slice(1, -1).map(square), clue(row[row.length - 1])]);
    this.isSigned = hasAny(lines.join(''), SIGNS);
    this.isBare = !this.others.length && this.table.every((row) => row[0] === null && row[row.length - 1] === null);
  }

  // What stands in a line at the left, in each column, and at the right.
  /** @param {number} y */
  cut(y) {
    const line = this.lines[y];
    return [...this.walls, line.length].map((end, at) => line.slice(at ? this.walls[at - 1] + 1 : 0, end).trim());
  }

  // The first place at which a wall is missing.
  get gap() {
    return this.rows.flatMap((y) => this.walls.map((x) => ({y, x}))).find(({y, x}) => !'|<>'.includes(this.lines[y][x]));
  }

  // The first sign that isn't between two squares, as one at a corner or at the edge.
  get stray() {
    const {lines, walls, rows, first, last} = this, signs = lines.flatMap((line, y) => [...line].flatMap((letter, x) => (SIGNS.includes(letter) ? [{y, x}] : [])));
    return signs.find(({y, x}) => !(rows.includes(y) ? walls.slice(1, -1).includes(x) : y > first && y < last && !walls.includes(x)));
  }

  // Whether no wall is missing, and nothing but rules is between the rows.
  get isWhole() {
    return this.rows.length > 0 && !this.gap && this.others.every((y) => y < this.first || y > this.last);
  }

  // Whether each row but the last has one rule below it.
  get isSpaced() {
    return this.rows.every((y, at) => y === this.first + 2 * at && (y === this.last || this.isRule[y + 1]));
  }

  // Whether a rule stands below each row, and nothing around: these are squares alone.
  get isLone() {
    return this.isWhole && this.isSpaced && this.isBare && !this.isSigned;
  }

  // The table that is drawn, if one is.
  /** @returns {Table[]} */
  get tables() {
    const {isWhole, isBare, isSigned} = this, squares = this.table.map((row) => row.slice(1, -1)), isSquare = squares.length === this.walls.length - 1;
    // Several numbers in one square alone are no marks; nor are they in squares without clues.
    if (isWhole && (squares.flat().filter((symbol) => symbol === MARKS).length === 1 || (isBare && !isSigned))) return [squares];
    if (isWhole && isSquare && !isSigned) return [this.framed];
    return isWhole && isSquare && isBare && this.isSpaced && !this.stray ? [this.woven] : [];
  }

  // The squares with the clues around them.
  get framed() {
    const [above, below] = [true, false].map((isAbove) => this.others.filter((y) => y < this.first === isAbove));
    return [this.clues(above), ...this.table.map(unmarked), this.clues(below)];
  }

  // Those above or below, in one line. A symbol between two columns is none.
  /** @param {number[]} ys @returns {(string | null)[]} */
  clues(ys) {
    if (!ys.length) return [null, ...this.walls.map(() => null)];
    const places = this.cut(ys[0]).slice(1, -1), isAll = ys.length === 1 && this.lines[ys[0]].replaceAll(BLANK, '').length === places.join('').replaceAll(BLANK, '').length;
    return [null, ...places.map((place) => (isAll ? clue(place) : ODD)), null];
  }

  // The squares and what is between them.
  get woven() {
    const inner = this.walls.slice(1, -1), rows = this.rows.map((y, at) => among(unmarked(this.table[at]).slice(1, -1), inner.map((x) => this.lines[y][x].replace('|', BLANK))));
    const rules = this.rows.slice(0, -1).map((y) => this.cut(y + 1).slice(1, -1).map((part) => part.replace(/^[ -]+|[ -]+$/g, '') || BLANK));
    return among(rows, rules.map((signs) => among(signs, inner.map(() => BLANK))));
  }
}

// The grid of lines whose walls are as far from one another, though a wall may be missing in one.
/** @param {string[]} lines @returns {Grid | null} */
export function gridOf(lines) {
  const walled = lines.filter((line) => RULE.test(line) || line.split('|').length > 3);
  const walls = [...new Set(walled.flatMap((line) => [...line].flatMap((letter, x) => ('|+'.includes(letter) ? [x] : []))))].sort((one, other) => one - other);
  const isEven = new Set(walls.slice(1).map((x, at) => x - walls[at])).size === 1;
  return walls.length > 3 && isEven && lines.some((line) => line.includes('|')) ? new Grid(lines, walls) : null;
}
