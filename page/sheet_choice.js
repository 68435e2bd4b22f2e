// Which puzzles come onto sheets: fair games of a series, no two with one solution, turned over or not, as long as there are others.
import {GRADES, gradeOf, isOffered, letters, lineOf} from './games.js';
import {isSolved} from './objects.js';
import {TABLES} from './sheet_tables.js';
import {NOT_ONE, noKindText, noneFoundText} from './sheet_texts.js';

/** @typedef {import('./objects.js').Board} Board */
/** @typedef {import('./turns.js').Game} Game */
/** @typedef {import('./games.js').Kind} Kind */
/** @typedef {{game: Game, size: number, id: string, letter: string, grade: string, board: Board, answer: Board, caption?: string}} Puzzle */
/** The answers to lines in a new session, or in one that was saved. */
/** @typedef {(game: Game, lines: string[], saved?: import('./bytes.js').ByteText) => Promise<import('./worker.js').Answered>} Ask */

const {ALIKE, TRIES, UNEVEN, LIKE, REPEATED, FEWER, ONE} = TABLES.CHOICE, STRIDE = BigInt(TABLES.CHOICE.STRIDE), SEEDS = 2n ** 64n;

/** No sheet can be made of what is asked. The text says why. */
export class Unfit extends Error {}

// The number of a series that is typed, without leading zeros; nothing where it is none.
/** @param {string} text */
export const seriesIn = (text) => (/^[0-9]+$/.test(text.trim()) && BigInt(text.trim()) < STRIDE ? String(BigInt(text.trim())) : '');

// Rising by size, and then by grade.
/** @param {Game} game @param {number[]} sizes @param {string[]} some @returns {Kind[]} */
export const kindsOf = (game, sizes, some) =>
  [...new Set(sizes)].sort().flatMap((size) => letters(game, 9).filter((letter) => some.includes(letter)).map((letter) => ({game, size, letter})));

// The kind of each of so many puzzles: as many of one as of another, as far as that comes out even.
/** @param {Kind[]} every @param {number} count */
const shared = (every, count) => Array.from({length: count}, (_, at) => every[Math.floor(at * every.length / count)]);

// The puzzles of a kind: those of the seeds of a series, so many of them made at once. Each kind has each seed once: they are not the same games.
/** @param {Ask} ask @param {Kind} kind @param {string} series @param {number} ahead @returns {AsyncGenerator<Puzzle, never>} */
async function* puzzlesOf(ask, kind, series, ahead) {
  /** @type {Promise<Puzzle | null>[]} */
  const made = [];
  let seed = BigInt(series);
  for (let tries = 0; tries < TRIES; tries++) {
    for (; made.length < ahead; seed = (seed + STRIDE) % SEEDS) {
      const next = provedBy(ask, kind.game, lineOf({...kind, number: String(seed)}));
      // One that is made ahead may be stopped, and nobody waits for it.
      next.catch(() => null);
      made.push(next);
    }
    const puzzle = await made.shift();
    if (!puzzle) continue;
    yield puzzle;
    tries = -1;
  }
  throw new Unfit(noneFoundText(kind.size, gradeOf(kind), TRIES));
}

// The puzzle that a line begins, with its only solution; nothing where the line begins none.
/** @param {Ask} ask @param {Game} game @param {string} line @returns {Promise<Puzzle | null>} */
export async function provedBy(ask, game, line) {
  const {answers: [begun, first, ways, graded, , last]} = await ask(game, [line, 'board', 'completable', 'grade', 'solve', 'board']);
  if (begun.refused) return null;
  const board = first.board, answer = last?.board, id = first.session?.id ?? '', letter = graded.grade ?? /^[3-9]d(\w):/.exec(id)?.[1] ?? '';
  if (ways.completable !== 'one' || !board || !answer || !isSolved(answer)) throw new Unfit(NOT_ONE);
  return {game, size: board.size, id, letter, grade: capital(GRADES[game][letter] ?? ''), board, answer};
}

/** @param {string} text */
const capital = (text) => text.slice(0, 1).toUpperCase() + text.slice(1);

// So many puzzles of these kinds for each pupil, no two pupils the same as long as there are others; and what there is to say of them.
/**
 * @param {Ask} ask @param {{kinds: Kind[], count: number, pupils: number, series: string, ahead: number}} wanted @param {(made: number) => void} progress
 * @returns {Promise<{sheets: Puzzle[][], told: string[]}>}
 */
export async function chosen(ask, {kinds, count, pupils, series, ahead}, progress) {
  const bad = kinds.find((kind) => !isOffered(kind));
  if (bad) throw new Unfit(noKindText(bad.size, gradeOf(bad)));
  const found = new Chosen(new Map(kinds.map((kind) => [kind, puzzlesOf(ask, kind, series, ahead)]))), own = shared(kinds, count);
  /** @type {Puzzle[][]} */
  const sheets = [];
  for (let pupil = 0; pupil < pupils; pupil++) {
    /** @type {Puzzle[]} */
    const sheet = [];
    sheets.push(sheet);
    for (const kind of own) {
      const puzzle = await found.add(kind) ?? found.again(kind, sheet);
      if (puzzle) sheet.push(puzzle);
      progress(sheets.reduce((sum, {length}) => sum + length, 0));
    }
  }
  return {sheets, told: [...uneven(kinds, own), ...found.told(sheets, count)]};
}

// A sentence on so many puzzles, with some words in their places.
/** @param {string} text @param {number} number @param {Record<string, string | number>} words */
const sentence = (text, number, words) => text.replace(/\{(\w+)\}/g, (_, name) => String(words[name] ?? (number === 1 ? ONE[name] : name)));

/** @param {Kind[]} kinds @param {Kind[]} own */
function uneven(kinds, own) {
  const counts = kinds.map((kind) => own.filter((each) => each === kind).length);
  if (new Set(counts).size === 1) return [];
  const shares = kinds.map((kind, at) => `${counts[at]} of size ${kind.size} ${gradeOf(kind)}`).join(', ');
  return [sentence(UNEVEN, own.length, {count: own.length, kinds: kinds.length, shares})];
}

class Chosen {
  /** @param {Map<Kind, AsyncGenerator<Puzzle, never>>} series */
  constructor(series) {
    this.series = series;
    /** @type {Map<string, Puzzle>} */
    this.every = new Map();
    this.forms = new Set();
    this.spent = new Set();
    this.exhausted = new Set();
    this.alike = this.repeated = 0;
  }

  // The next puzzle with a new solution; after many without one the first that is new at all, or none.
  /** @param {Kind} kind @returns {Promise<Puzzle | null>} */
  async add(kind) {
    /** @type {Puzzle | null} */
    let spare = null;
    if (this.exhausted.has(kind)) return null;
    for (let tries = 0; tries < ALIKE; tries++) {
      const {value: puzzle} = await /** @type {AsyncGenerator<Puzzle, never>} */ (this.series.get(kind)).next(), form = formOf(kind.game, puzzle.answer);
      if (!this.forms.has(form)) {
        this.forms.add(form);
        this.every.set(puzzle.id, puzzle);
        return puzzle;
      }
      if (!this.every.has(puzzle.id)) spare ??= puzzle;
      if (spare && this.spent.has(kind.size)) break;
    }
    this.spent.add(kind.size);
    if (!spare) this.exhausted.add(kind);
    else {
      this.every.set(spare.id, spare);
      this.alike++;
    }
    return spare;
  }

  // Another pupil's puzzle where there is none of a kind any more: one that isn't on this sheet, each in turn.
  /** @param {Kind} kind @param {Puzzle[]} sheet */
  again({size, letter}, sheet) {
    const others = [...this.every.values()].filter((each) => each.size === size && each.id.startsWith(`${size}d${letter}:`) && !sheet.includes(each));
    if (!others.length) return null;
    return others[this.repeated++ % others.length];
  }

  /** @param {Puzzle[][]} sheets @param {number} each */
  told(sheets, each) {
    const {alike, repeated} = this, count = sheets.flat().length, wanted = sheets.length * each;
    const told = [[LIKE, alike], [REPEATED, repeated], [FEWER, count < wanted ? count : 0]].filter(([, number]) => number);
    return told.map(([text, number]) => sentence(text, number, {alike, repeated, count, wanted, tries: ALIKE}));
  }
}

// The same for two solutions of one game just where one of them turns into the other.
/** @param {Game} game @param {Board} answer */
function formOf(game, {size, numbers}) {
  const every = game === 'unequal' ? [numbers, numbers.map((number) => size + 1 - number)] : [numbers], line = numbers.slice(0, size).map((_, at) => at);
  return every.flatMap((each) => [0, 1, 2, 3, 4, 5, 6, 7].map((turn) => line.flatMap((y) => line.map((x) => {
    const [a, b] = turn & 1 ? [y, x] : [x, y];
    return each[(turn & 2 ? size - 1 - b : b) * size + (turn & 4 ? size - 1 - a : a)];
  })).join(''))).sort()[0];
}
