// Puzzles as people draw or copy them: what a text has, its IDs and its drawings. As in playing/drawings, and one table of rows in tests/drawings is for both.
import {parts} from './drawn_parts.js';
import {DRAWN, EMPTY, NUMBERS, isBare, isBlank, translated} from './drawn_tables.js';
import {MOST_LINES, called, whyNot} from './drawn_why.js';
import {readings} from './drawn_ways.js';
import {SIZES} from './games.js';

/** @typedef {import('./drawn_tables.js').Puzzle} Puzzle */
/** @typedef {import('./drawn_ways.js').Meant} Meant */
/**
 * The finding at a line, counted from 1: a puzzle, with what could have been lost in it; an ID, with the game that is named before it; or why there is none, with a
 * column, counted from 1, and the game of which a form is to be shown.
 * @typedef {{line: number, puzzle: Puzzle | null, id: string, game: Meant, why: string, column: number, doubt: string}} Read
 */

/** A form of each game that would do. */
const FORMS = {towers: ['  2 3 1', '2 . . . -', '- . . 1 -', '- . . . 3', '  - - -'], unequal: ['.<. .', '^ - -', '. . 2', '- - v', '. .>.']};

/** @param {Puzzle} puzzle */
export const calledOf = (puzzle) => called(puzzle);

/** @param {Read} read */
export const formOf = ({game}) => FORMS[game || 'towers'];

// --- lines beside drawings ---

// How the games are called: by the words of the programs, and as newspapers do.
/** @type {Record<string, 'towers' | 'unequal'>} */
const GAME_NAMES = {towers: 'towers', skyscrapers: 'towers', skyscraper: 'towers', unequal: 'unequal', futoshiki: 'unequal', hutosiki: 'unequal'};
const SIDES = ['top', 'bottom', 'left', 'right'], NO_WORD = '[^\\p{L}\\p{N}_]';
const NAMED = new RegExp(`^${NO_WORD}*(?:(?:clues?|from|on|at|the)${NO_WORD}+)*(?:(top|above|north|up)|(bottom|below|south|down)|(left|west)|(right|east))`
  + `(?:${NO_WORD}+(?:clues?|side|row|column))*\\s*[:=]?\\s*([^A-Za-z:]*)$`, 'iu');
const GAME = Object.keys(GAME_NAMES).join('|');
const AFTER_GAME = `(${GAME})[\\s:]+["']?([0-9][^\\s"']*[:!#][^\\s"']*)`;
const BY_FORM = '([0-9]+[a-z]*:[^\\s"\']*[/,][^\\s"\']*|[0-9]+[a-z]*[!#][^\\s"\']+|[3-9](?:d[a-z])?:\\w[^\\s"\']*)';
const ID_FIRST = new RegExp(`^[\\s"'>]*(?:(?:[0-9]{1,3}[.)]|[-*•])\\s+)?["']?(?:${AFTER_GAME}|${BY_FORM})`, 'i');
const ID_INSIDE = new RegExp(`(?:(${GAME}):)?(?<![\\w./,])([3-9](?:d[a-z])?(?::[\\w/,]*[/,][\\w/,]*|![0-9]+))`, 'i');
const TITLE = /^(#\s*[0-9]*$|#.*\p{L}{2}|\s*\/\/.*\p{L}{2}|\s*\(?[0-9]{1,3}[):]\s*$|\s*(```|~~~)|\s*[=#~]{3,}\s*$)/u;
/** With nothing directly above and below a line may also be that. */
const ALONE = /^\s*([0-9]{1,3}\.|-{3,}|\*{3,}|_{3,})\s*$/;
/** What `show` prints of Towers: its last line says that it is the last. */
const SHOWN = /^\+( [1-9-])+ \+\n([1-9-]( [1-9.])+ [1-9-]\n)+\+( [1-9-])+ \+$/;

/** @param {string} text @returns {Meant} */
function gameIn(text) {
  const games = new Set((text.toLowerCase().match(/[a-z]+/g) ?? []).flatMap((word) => (Object.hasOwn(GAME_NAMES, word) ? [GAME_NAMES[word]] : [])));
  return games.size === 1 ? [...games][0] : '';
}

// The ID of a line, and the game that is named before it, if one is.
/** @param {string} line @returns {{game: Meant, text: string} | null} */
function idIn(line) {
  const first = ID_FIRST.exec(line), inside = first ? null : ID_INSIDE.exec(line);
  if (first) return {game: GAME_NAMES[first[1]?.toLowerCase()] ?? '', text: first[2] ?? first[3]};
  return inside ? {game: inside[1] ? GAME_NAMES[inside[1].toLowerCase()] : gameIn(line.slice(0, inside.index)), text: inside[2]} : null;
}

// Whether the line has words, and isn't drawn.
/** @param {string} line */
function isTitle(line) {
  if (TITLE.test(line)) return true;
  const runs = line.match(/\p{L}+/gu) ?? [], first = line.trim().split(/\s+/).slice(0, 3);
  // Pencil marks, as the board has them.
  if (runs.length && runs.every((run) => run === 'all') && (line.match(/[|│┃]/g) ?? []).length > 2) return false;
  return runs.some((run) => [...run].filter((letter) => !'xXvVAΛoO'.includes(letter)).length > 1) && !(first.length === 3 && first.every((word) => DRAWN.has(word)));
}

// --- a text ---

/** So many blank lines are in no drawing; so many letters a line has at most. */
const GAP = 12, LONGEST = 400;

const NAMED_BESIDE = 'clues with the names of their sides stand beside it: draw these around it, or name all four sides and draw no squares';

// The findings in a text, in its order.
/** @param {string} text @returns {Read[]} */
export function read(text) {
  const reader = new Reader();
  for (const line of text.replace(/(\r\n|\r|\n)$/, '').split(/\r\n|\r|\n/)) reader.take(line.replace(/^\ufeff+/, ''));
  reader.end();
  return reader.found;
}

/** @param {string} line */
const isEmpty = (line) => !line.replace(/^ +| +$/g, '');

/** @param {string[]} lines */
const firstOf = (lines) => lines.findIndex((line) => !isEmpty(line));

/**
 * A text so far: `lines` are those that are drawn since the last other one, `block` is where the last ones of them begin, and `sides` is the puzzle of four sides
 * that were named, until it is known whether squares stand below them.
 */
class Reader {
  constructor() {
    /** @type {Read[]} */
    this.found = [];
    this.number = 0;
    /** @type {Meant} */
    this.game = '';
    /** @type {string[]} */
    this.lines = [];
    this.begun = 1;
    this.block = -1;
    /** @type {Map<string, string>} */
    this.named = new Map();
    /** @type {Partial<Read> & {line: number} | null} */
    this.sides = null;
    this.isLong = false;
  }

  /** @param {number} line @param {Partial<Read>} read */
  tell(line, read) { this.found.push({line, puzzle: null, id: '', game: '', why: '', column: 0, doubt: '', ...read}); }

  /** @param {string} line */
  take(line) {
    this.number++;
    const side = NAMED.exec(line), id = side ? null : idIn(line);
    if (side) {
      this.drawings(this.block >= 0);
      this.side(SIDES[side.slice(1, 5).findIndex(Boolean)], side[5]);
    } else if (id) {
      this.end();
      this.tell(this.number, {id: id.text, game: id.game || this.game});
    } else if (isTitle(line)) {
      this.end();
      this.game = gameIn(line) || this.game;
    } else {
      this.draw(translated(line.slice(0, LONGEST + 1)));
    }
  }

  end() {
    this.drawings();
    if (this.named.size) this.tell(this.number, {game: 'towers', why: `clues are named for ${[...this.named.keys()].join(', ')}, and the other sides are missing`});
    this.named.clear();
  }

  /** @param {string} line */
  draw(line) {
    const isBetween = isEmpty(line);
    if (isBetween) this.endBlock();
    else if (this.isLong) return;
    if (!this.lines.length) this.begun = this.number;
    if (!isBetween && this.block < 0) this.block = this.lines.length;
    this.lines.push(line);
    if (this.block >= 0) this.lookAtBlock();
    else if (this.lines.length >= GAP && this.lines.slice(-GAP).every(isEmpty)) this.drawings();
  }

  // A block that is closed is taken with all that stands above it, and so is one that is too long.
  lookAtBlock() {
    const begin = this.begun + this.block, own = this.lines.slice(this.block).map((line) => line.replace(/^ +| +$/g, ''));
    const closed = !this.named.size && SHOWN.test(own.join('\n')) ? readings(own, this.game) : [];
    if (closed.length === 1) {
      this.ofSides();
      this.lines.splice(this.block);
      this.parted();
      this.tell(begin, {puzzle: closed[0].puzzle});
      this.forget();
    } else if (own.length > 2 * MOST_LINES) {
      this.isLong = true;
      this.drawings();
    }
  }

  // A blank line comes after a block: a drawing to which nothing more can belong is taken.
  endBlock() {
    const {block} = this;
    this.isLong = false;
    this.block = -1;
    if (block >= 0) this.ofSides();
    if (block < 0 || !this.lines.length) return;
    if (this.lines.length - block === 1 && ALONE.test(this.lines[block])) {
      this.lines.pop();
      this.drawings();
    } else if (!this.named.size && this.lines.slice(0, block).every(isEmpty)) {
      const found = readings(this.drawn, this.game);
      if (found.length !== 1 || !found[0].isWhole) return;
      this.tell(this.begun + firstOf(this.drawn), {puzzle: found[0].puzzle, doubt: found[0].doubt});
      this.forget();
    }
  }

  // Clues that are named may belong to what is drawn, if some are missing above it or they stand just below it.
  drawings(isBeside = false) {
    this.ofSides();
    const isDrawn = !this.drawn.every(isBlank);
    if (isDrawn && (this.named.size || isBeside)) this.tell(this.begun + firstOf(this.drawn), {game: 'towers', why: NAMED_BESIDE});
    else if (isDrawn) this.parted();
    this.forget(isDrawn ? '' : this.game);
  }

  // The lines without the marks of a mail's quotation, where each has one: no line of a drawing begins so.
  get drawn() {
    const isQuoted = this.lines.every((line) => isEmpty(line) || line.startsWith('>'));
    return isQuoted ? this.lines.map((line) => line.replace(/^> ?/, '')) : this.lines;
  }

  // The game that is named above is that of one drawing.
  /** @param {Meant} [game] */
  forget(game = '') {
    this.lines = [];
    this.block = -1;
    this.game = game;
  }

  // The drawings of the lines.
  parted() {
    const lines = this.drawn;
    for (const {begin, end, found} of parts(lines, this.game)) {
      const own = lines.slice(begin, end);
      if (found.length === 1) this.tell(this.begun + begin + firstOf(own), {puzzle: found[0].puzzle, doubt: found[0].doubt});
      else {
        const {line, ...why} = whyNot(own, this.game, found);
        this.tell(this.begun + begin + line, why);
      }
    }
  }

  /** @param {string} side @param {string} text */
  side(side, text) {
    if (this.named.has(side)) this.tell(this.number, {game: 'towers', why: `'${side}' stands here twice`});
    this.named.set(side, text);
    if (this.named.size < SIDES.length) return;
    this.sides = {line: this.number, ...ofSides(this.named)};
    this.named.clear();
  }

  // The puzzle of four sides, with the squares below it: alone these would belong to any game.
  ofSides() {
    const {sides} = this, own = sides?.puzzle;
    this.sides = null;
    if (!sides) return;
    const found = readings(this.drawn, '').map(({puzzle}) => puzzle), squares = found.filter((puzzle) => puzzle.size === own?.size && isBare(puzzle));
    if (!own || !squares.length) this.tell(sides.line, sides);
    else {
      if (squares.length === found.length) this.tell(sides.line, {puzzle: {...own, items: [...own.items, ...squares[0].items]}});
      else this.tell(this.begun + firstOf(this.drawn), {game: 'towers', why: NAMED_BESIDE});
      this.forget();
    }
  }
}

// Four lines of clues, by their names.
/** @param {Map<string, string>} named @returns {Partial<Read>} */
function ofSides(named) {
  const texts = [...named].map(([name, text]) => ({name, own: [...translated(text).replace(/[\s,;|()[\]{}]/g, '')]})), items = [];
  const size = texts.find(({name}) => name === 'top')?.own.length ?? 0, counts = texts.map(({name, own}) => `${own.length} (${name})`).join(', ');
  const refused = (/** @type {string} */ why) => ({game: /** @type {Meant} */ ('towers'), why});
  if (!SIZES.includes(size) || texts.some(({own}) => own.length !== size)) return refused(`the four sides have ${counts} clues: one for each line, and - for none`);
  for (const {name, own} of texts) for (const [at, symbol] of own.entries()) {
    const place = {top: [at, -1], bottom: [at, size], left: [-1, at], right: [size, at]}[name];
    if (NUMBERS.slice(0, size).includes(symbol)) items.push(`item ${place},${symbol}`);
    else if (symbol !== EMPTY && symbol !== '-') return refused(`'${symbol}' is no clue of a puzzle of size ${size}`);
  }
  return {puzzle: {game: 'towers', size, items}};
}
