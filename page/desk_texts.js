// The sentences of the setter's desk.
import {BEYOND, NEEDS_ONE, NONE_BLAMED, NOT_ONE, NO_OTHER, REFUSED_MOVES, SEEKING, SOLUTIONS, THINNING, TRIED, WHY_NOT} from './shared_texts.js';
import {counted, listed, squareName} from './texts.js';

/** How many numbers that would do are named. */
const MOST_NAMED = 3;

/** @typedef {import('./turns.js').Game} Game */
/** @typedef {import('./objects.js').Board} Board */

export const TITLE = 'Check or set';
export const LATE = `${SEEKING}…`;
export const AT_THINNING = `${THINNING}…`;
export const RULINGS = {none: `✗ ${SOLUTIONS.none}`, one: `✓ ${SOLUTIONS.one}`, several: `≥2 ${SOLUTIONS.several}`};
export const NO_NEIGHBOUR = 'No square is there: < and > stand right of the chosen square, ^ and v below it.';
export const UNREAD_DRAFT = 'A draft that can’t be read is kept beside this one, as it is.';
export const MOVED_DRAFT = 'Another tab has changed this draft in between. Look again.';

// The sentences on an item that is marked.
/** @type {Record<string, string>} */
export const MARKS = {spare: 'not needed', blamed: 'may be the mistake'};

// The neighbours of a square, by columns and rows, each with its arrow.
/** @type {[string, number[], string][]} */
export const SIDES = [['left', [-1, 0], '←'], ['above', [0, -1], '↑'], ['below', [0, 1], '↓'], ['right', [1, 0], '→']];

// The buttons of the verdict, and the others of the desk.
export const TOOLS = {play: 'Play', solve: 'Solution', thin: 'Thin out', fill: 'Fill in'};
export const MORE = {
  only: 'Why only one?', game: 'My game', rules: 'Rules', link: 'Link', text: 'Copy as text', table: 'Copy as a table', save: 'Save', print: 'Print',
};

// How an empty board is filled.
/** @type {Record<Game, string>} */
export const TYPING = {
  towers: 'Tap a place at the edge or a square, then its number.',
  unequal: 'Tap a dot between two squares: the sign turns with each tap. Tap a square, then its number.',
};

// By which name an item goes first, and how that is said.
/** @type {Record<Game, [string, string][]>} */
export const FIRSTS = {towers: [['numbers', 'numbers'], ['clues', 'clues']], unequal: [['numbers', 'numbers'], ['clues', 'signs']]};

/** The name of the grade of a puzzle that only needs one solution. */
export const ANY = 'any';

// Why a button does nothing now; nothing where it does something.
/** @param {import('./verdict.js').Verdict} verdict @param {Record<string, unknown>} along  what undo and redo lead to @param {string} name */
export function hindrance({kind, hint}, along, name) {
  if (name in along) return along[name] ? '' : REFUSED_MOVES[name === 'undo' ? 'NothingToUndo' : 'NothingToRedo'];
  const need = /** @type {Record<string, string>} */ (NEEDS_ONE)[name];
  if (need) return kind === 'one' ? '' : `${need}: ${NOT_ONE[kind || 'unknown']}`;
  if (name === 'only' && !kind) return `${SEEKING}…`;
  if (name !== 'why' || hint) return '';
  return kind === 'none' ? TRIED : kind ? WHY_NOT : `${SEEKING}…`;
}

// The words at the end of a walk from the empty board.
export const SAVE_WHY = 'Save the certificate';
export const SUPPOSES = 'Hints lead no further: numbers have to be supposed. In a terminal, puzzles-check --certificate does so.';
/** @param {number} sentences */
export const shownText = (sentences) => `Shown${sentences ? ` in ${counted(sentences, 'sentence')}` : ''}. A second checker agrees.`;

/** @param {string} grade */
export const gradeText = (grade) => (grade ? `It is ${grade} by our steps.` : BEYOND);

/** @param {number} steps */
export const chainText = (steps) => (steps > 1 ? `Why? shows it in ${steps} steps.` : 'Why? shows it.');

/** @param {number} cells @param {number} all */
export const differText = (cells, all) => `Two of them differ in ${cells} of ${all} squares.`;

/** @param {number} spare @param {string} grade */
export function spareText(spare, grade) {
  const why = grade ? ' for that grade' : '';
  if (!spare) return `All items are needed${why}.`;
  return `${spare > 1 ? `Each of the ${spare} in circles is` : 'The one in a circle is'} not needed${why}.`;
}

/** @param {number} blamed */
export function blamedText(blamed) {
  if (!blamed) return NONE_BLAMED;
  return `Without ${blamed > 1 ? `any one of the ${blamed} in circles` : 'the one in a circle'} there is a solution.`;
}

// By which numbers or signs there would be a solution, where they are few enough to be named.
/** @param {import('./items.js').Mend[]} mends @param {boolean} isOne  whether just one @param {boolean} isAlone  whether one item is marked */
export function mendsText(mends, isOne, isAlone) {
  const has = `it has ${isOne ? 'one solution' : 'several'}.`, [{number = 0, where = ''} = {}] = mends, isSquare = /^r\d/.test(where);
  if (mends.length > MOST_NAMED) return isOne ? '' : NO_OTHER;
  if (number && mends.every((mend) => mend.where === where)) {
    return `With ${listed(mends.map((mend) => mend.number), 'or')} ${isAlone ? 'there' : `${isSquare ? 'in ' : ''}${where}`} ${has}`;
  }
  return `With ${listed(mends.map((mend) => (mend.number ? `${mend.number} (${mend.where})` : mend.where)), 'or')} ${has}`;
}

/** @param {number} pairs @param {number} items */
export function pairsText(pairs, items) {
  return pairs > 1 ? `Without two of the ${items} in circles there is a solution, in ${pairs} ways.` : 'Without the two in circles there is a solution.';
}

// Where a sign went, or that none is there.
/** @param {Board} board @param {number[]} pair */
export function signText({signs, size}, [one, other]) {
  const first = squareName(one, size), second = squareName(other, size);
  const sign = signs.find(({greater, less}) => [one, other].includes(greater) && [one, other].includes(less));
  return sign ? `${first} ${sign.greater === one ? '>' : '<'} ${second}` : `no sign between ${first} and ${second}`;
}

/** @param {Game} game @param {Board} board @param {string} more */
export function itemsText(game, {clues, signs: own, givens}, more) {
  const said = counted(clues.length + own.length, game === 'towers' ? 'clue' : 'sign');
  return [said, `${givens.filter(Boolean).length} given`, more].filter(Boolean).join(' · ');
}
