// How many puzzles a page of paper can have, and how large their squares are there.
import {extentOf, penOf, share} from './sheet_drawing.js';
import {boldWidth, idLetters, idLines, lettersIn, linesOf, widthOf} from './sheet_letters.js';
import {TABLES} from './sheet_tables.js';
import {NO_ROOM, longTitleText, tooManyText} from './sheet_texts.js';

/** @typedef {import('./turns.js').Game} Game */
/** @typedef {import('./sheet_choice.js').Puzzle} Puzzle */
/** A puzzle with its number on the sheet; with the pupil whom it is for, counted from 1, and a label with both; 0 and the number where nobody is named. */
/** @typedef {{number: number, label: string, pupil: number, name: string, puzzle: Puzzle}} Numbered */
/** @typedef {{columns: number, rows: number, most_side: number, number: number, note: number, id: number, number_line: number, note_line: number, id_line: number}} Density */
/** @typedef {{numbered: Numbered, side: number, captionWidth: number}} Figure */
/** @typedef {{density: Density, figures: Figure[], height: number, captionHeight: number, notes: number, rowGap: number}} Page */
/** How puzzles of one game and size come into their places. */
/** @typedef {{side: number, full: number, captionWidth: number, captionHeight: number}} Fit */

const {LENGTHS, PAPERS, PRINTS, DENSITIES, GRIDS, CALLED, RULES, ANY_SIZE, MOST_NOTES, STEP} = TABLES;

/** A page has no room for what is asked. The text says for how much it has. */
export class NoRoom extends Error {}

/** A kind of paper, and how it is printed on. */
export class Paper {
  /** @param {string} name @param {boolean} isLarge @param {string} title @param {boolean} hasIDs */
  constructor(name, isLarge, title, hasIDs) {
    const kind = isLarge ? 'large' : 'usual';
    this.isLarge = isLarge;
    this.hasIDs = hasIDs;
    this.size = PAPERS[name];
    this.width = this.size.width - 2 * LENGTHS.SIDE;
    this.height = this.size.height - 2 * LENGTHS.TOP - LENGTHS.SPARE;
    this.print = PRINTS[kind];
    /** @type {Density[]} */
    this.densities = DENSITIES[kind];
    const count = linesOf(title, this.width - this.print.name_width, this.print.title, '', boldWidth);
    if (count > this.print.title_lines) throw new NoRoom(longTitleText(count, this.print.title_lines));
    this.head = this.print.head + share((count - 1) * this.print.title, 120);
    /** How wide a name beside the title may be. */
    this.nameRoom = this.print.name_width - LENGTHS.NAME_GAP;
  }

  /** @param {string} text @param {string} [label]  what a line of the rules takes, or of another text in their font */
  above(text, label = '') {
    const {rules} = this.print;
    return 60 + Math.floor(linesOf(text, this.width, rules, label) * rules * 5 / 4);
  }

  /** @param {Game[]} games */
  room(games) {
    const taken = games.map((game) => this.above(rulesOf(game, ANY_SIZE), CALLED[game]));
    return taken.reduce((left, each) => left - each, this.height - this.head - this.print.foot) - LENGTHS.HEAD_GAP;
  }
}

// Pieces with their heights one below the other, on as many pages or columns as they take.
/** @template Piece @param {[piece: Piece, height: number][]} pieces @param {number} room */
export function packed(pieces, room) {
  /** @type {Piece[][]} */
  const found = [[]];
  let used = 0;
  for (const [piece, height] of pieces) {
    if (used && used + height > room) {
      found.push([]);
      used = 0;
    }
    found[found.length - 1].push(piece);
    used += height;
  }
  return found;
}

// The greatest side of squares for which there are no more pages than for the least, and these pages.
/** @template Piece @param {number} most @param {number} least @param {(side: number) => Piece[][]} pages @returns {[side: number, pages: Piece[][]]} */
export function roomiest(most, least, pages) {
  const fewest = pages(least);
  for (let side = most; side > least; side -= STEP) {
    const found = pages(side);
    if (found.length <= fewest.length) return [side, found];
  }
  return [least, fewest];
}

/** @param {Game} game @param {string} last */
export const rulesOf = (game, last) => RULES[game].replace('{last}', last);

/** @param {Numbered[]} some @returns {Game[]} */
export const gamesOf = (some) => [...new Set(some.map(({puzzle: {game}}) => game))];

/** A page that some puzzles could be on, with squares of a least side by their size. */
class Plan {
  /** @param {Paper} paper @param {Density} density @param {Numbered[]} some @param {(size: number) => number} least */
  constructor(paper, density, some, least) {
    const {columns, rows} = density;
    this.paper = paper;
    this.density = density;
    this.some = some;
    this.least = least;
    this.room = paper.room(gamesOf(some));
    this.width = Math.floor((paper.width - LENGTHS.COLUMN_GAP * (columns - 1)) / columns);
    this.height = Math.floor((this.room - LENGTHS.ROW_GAP * (rows - 1)) / rows);
    this.widths = columns > 1 ? [this.width] : [LENGTHS.CAPTION_WIDTH, this.width];
    const longest = Math.max(0, ...some.map(({puzzle: {caption}}) => widthOf(caption ?? '')));
    this.notes = Math.min(MOST_NOTES, Math.ceil(longest / lettersIn(this.widths[0], density.note)));
  }

  // Nothing where a square would be too small.
  /** @returns {Page | null} */
  get page() {
    // All captions are as high as the highest, so that those of a row stand on one line.
    const first = this.fits(0), fits = first.length ? this.fits(Math.max(...first.map(({captionHeight}) => captionHeight))) : [];
    if (!fits.length) return null;
    const {density, some, notes, room} = this, {captionHeight} = fits[0];
    const figures = some.map((numbered, at) => ({numbered, side: fits[at].side, captionWidth: fits[at].captionWidth}));
    const height = Math.max(...fits.map(({full}) => full)) + captionHeight;
    const gap = Math.floor((room - height * density.rows) / Math.max(1, density.rows - 1));
    return {density, figures, height, captionHeight, notes, rowGap: Math.min(LENGTHS.MOST_ROW_GAP, gap)};
  }

  // One for each puzzle, with captions of this height at least; none where one doesn't fit.
  /** @param {number} leastCaption @returns {Fit[]} */
  fits(leastCaption) {
    /** @type {Map<string, Fit | null>} */
    const found = new Map();
    for (const {puzzle: {game, size}} of this.some) {
      const kind = `${game}${size}`;
      if (!found.has(kind)) found.set(kind, this.fit(game, size, leastCaption));
    }
    const fits = this.some.flatMap(({puzzle: {game, size}}) => found.get(`${game}${size}`) ?? []);
    return fits.length < this.some.length ? [] : fits;
  }

  // The greatest square at which the picture, and the caption with the longest of the IDs, come into their place.
  /** @param {Game} game @param {number} size @param {number} leastCaption @returns {Fit | null} */
  fit(game, size, leastCaption) {
    const ids = this.some.filter(({puzzle}) => puzzle.game === game && puzzle.size === size).map(({puzzle: {id}}) => id);
    for (const own of this.widths) {
      for (let side = this.density.most_side; side >= this.least(size); side -= STEP) {
        const full = extentOf(game, size, penOf(game, side, this.paper.print.strength));
        if (full > this.width || full > this.height) continue;
        const captionWidth = Math.max(full, own), captionHeight = Math.max(leastCaption, ...ids.map((id) => this.captionHeight(id, captionWidth)));
        if (full + captionHeight <= this.height) return {side, full, captionWidth, captionHeight};
      }
    }
    return null;
  }

  /** @param {string} id @param {number} width */
  captionHeight(id, width) {
    const {id: font, number_line: line, note_line: noteLine, id_line: idLine} = this.density;
    return line + noteLine * this.notes + (this.paper.hasIDs ? idLine * idLines(id, idLetters(width, font)) : 0);
  }
}

// The pages: as few as there can be with large squares, and on each no more puzzles than are needed for that; or as many on each as is asked.
/** @param {Paper} paper @param {Numbered[]} puzzles @param {number} perPage  0 where it isn't asked */
export function pagesOf(paper, puzzles, perPage) {
  if (perPage && !paper.isLarge) return askedPages(paper, puzzles, perPage);
  const allowed = paper.densities.filter(({columns, rows}) => columns * rows <= LENGTHS.PER_PAGE);
  const every = allowed.map((_, at) => inTurn(paper, allowed.slice(at), puzzles)), [fewest] = every;
  return every.filter(({length}) => length === fewest.length).pop() ?? fewest;
}

/** @param {Paper} paper @param {Density[]} densities @param {Numbered[]} puzzles */
function inTurn(paper, densities, puzzles) {
  /** @type {Page[]} */
  const found = [];
  for (let at = 0; at < puzzles.length; at += found[found.length - 1].figures.length) {
    /** @type {Page | null} */
    let page = null;
    for (const density of densities) {
      page ??= new Plan(paper, density, puzzles.slice(at, at + density.columns * density.rows), (size) => LENGTHS.LEAST_SIDE[size]).page;
    }
    if (!page) throw new NoRoom(NO_ROOM);
    found.push(page);
  }
  return found;
}

/** @param {Paper} paper @param {Numbered[]} puzzles @param {number} perPage */
function askedPages(paper, puzzles, perPage) {
  for (let number = perPage; number > 0; number--) {
    const found = withSoMany(paper, puzzles, number);
    if (found.length && number === perPage) return found;
    if (found.length) throw new NoRoom(tooManyText(perPage, LENGTHS.LEAST_ASKED / 100, number));
  }
  throw new NoRoom(NO_ROOM);
}

/** @param {Paper} paper @param {Numbered[]} puzzles @param {number} number @returns {Page[]} */
function withSoMany(paper, puzzles, number) {
  /** @type {Page[]} */
  const found = [];
  for (let at = 0; at < puzzles.length; at += number) {
    const some = puzzles.slice(at, at + number);
    /** @type {Page[]} */
    const pages = GRIDS[Math.min(number, puzzles.length)].flatMap((/** @type {Density} */ density) => new Plan(paper, density, some, () => LENGTHS.LEAST_ASKED).page ?? []);
    if (!pages.length) return [];
    found.push(pages.reduce((best, each) => (leastSide(each) > leastSide(best) ? each : best)));
  }
  return found;
}

/** @param {Page} page */
const leastSide = ({figures}) => Math.min(...figures.map(({side}) => side));
