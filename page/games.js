// Which new games there are, and the links that name a game. To players the seed of a fair game is its number.

/** @typedef {import('./turns.js').Game} Game */
// A class of games.
/** @typedef {{game: Game, size: number, letter: string}} Kind */
// A fair game, its number in decimal.
/** @typedef {Kind & {number: string}} Fair */
// The puzzle that a link or a typed text names.
/** @typedef {{fair: Fair, id?: undefined} | {fair?: null, id: string, game: Game | null}} Named */

/** @type {Record<Game, string>} */
export const NAMES = {towers: 'Towers', unequal: 'Unequal'};

// The letters of difficulty, by the usual programs' words.
/** @type {Record<Game, Record<string, string>>} */
export const GRADES = {
  towers: {e: 'easy', h: 'hard', x: 'extreme', u: 'unreasonable'},
  unequal: {t: 'trivial', e: 'easy', k: 'tricky', x: 'extreme', r: 'recursive'},
};

export const SIZES = [3, 4, 5, 6, 7, 8, 9];

// Of each game the grades of fair games, the least first, with the least size of each: docs/RULES.md, section 10.
/** @type {Record<Game, Record<string, number>>} */
const OFFERED = {towers: {e: 3, h: 4}, unequal: {t: 3, e: 3, k: 4}};

/** Seeds are below this; those by chance have eight digits at most, so that they are soon typed. */
const SEEDS = 2n ** 64n, SHORT = 10 ** 8;

/** @param {unknown} word @returns {word is Game} */
export const isGame = (word) => word === 'towers' || word === 'unequal';

// The letters of the grades that are offered of a game at a size.
/** @param {Game} game @param {number} size */
export const letters = (game, size) => Object.keys(OFFERED[game]).filter((letter) => size >= OFFERED[game][letter]);

// Whether there are fair games of this kind.
/** @param {Kind} kind */
export const isOffered = ({game, size, letter}) => SIZES.includes(size) && letters(game, size).includes(letter);

// The kind itself, or the one nearest to it that is offered.
/** @param {Kind} kind @returns {Kind} */
export function nearest({game, size, letter}) {
  const there = letters(game, size);
  return {game, size, letter: there.includes(letter) ? letter : there[there.length - 1]};
}

/** @param {Kind} kind */
export const gradeOf = ({game, letter}) => GRADES[game][letter] ?? '';

// The line that begins a fair game.
/** @param {Fair} fair */
export const lineOf = ({size, letter, number}) => `fair ${size} ${letter} ${number}`;

export const byChance = () => String(Math.floor(Math.random() * SHORT));

// The number of a day's game.
/** @param {Date} day */
export const numberOfDay = (day) => String((day.getFullYear() * 100 + day.getMonth() + 1) * 100 + day.getDate());

// The number that is typed, without leading zeros; nothing where it is none.
/** @param {string} text */
export function numberIn(text) {
  const number = /^[0-9]{1,20}$/.test(text.trim()) ? BigInt(text.trim()) : SEEDS;
  return number < SEEDS ? String(number) : '';
}

// The name of a kind, in links and where it is kept.
/** @param {Kind} kind */
export const nameOfKind = (kind) => `${kind.game}-${kind.size}-${gradeOf(kind)}`;

// The kind of such a name; nothing where there is none.
/** @param {string} name @returns {Kind | null} */
export function kindOfName(name) {
  const found = /^(towers|unequal)-([3-9])-([a-z]+)$/.exec(name), game = found?.[1];
  if (!found || !isGame(game)) return null;
  const letter = Object.keys(GRADES[game]).find((one) => GRADES[game][one] === found[3]);
  const kind = {game, size: Number(found[2]), letter: letter ?? ''};
  return isOffered(kind) ? kind : null;
}

// The part of a link after its #.
/** @param {{game: Game, id: string, fair: Fair | null}} played */
export const linkOf = ({game, id, fair}) => (fair ? `${nameOfKind(fair)}-${fair.number}` : `${game}:${encodeURI(id)}`);

// The puzzle that a text names: a whole link, its part after the #, or an ID.
/** @param {string} text @returns {Named | null} */
export function named(text) {
  const own = plain(text.slice(text.indexOf('#') < 0 || /^[3-9](d[a-z])?#/.test(text) ? 0 : text.indexOf('#') + 1).trim());
  const [, name, digits] = /^([a-z]+-[3-9]-[a-z]+)-([0-9]+)$/.exec(own) ?? [];
  const kind = name ? kindOfName(name) : null, number = digits ? numberIn(digits) : '';
  if (kind && number) return {fair: {...kind, number}};
  const [, game, id] = /^(towers|unequal):(.+)$/s.exec(own) ?? [];
  if (isGame(game)) return {id, game};
  return /^[3-9][^ ]*[:!#]/.test(own) ? {id: own, game: null} : null;
}

// Without the signs that an address has for other characters.
/** @param {string} text */
function plain(text) {
  try {
    return decodeURIComponent(text);
  } catch {
    return text;
  }
}
