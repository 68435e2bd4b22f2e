// The verdict on a puzzle on the setter's desk: how many solutions it has, and why, from the module's answers; and what else items could say.
import {itemsOf, itemsOn} from './items.js';
import {RULINGS, TYPING, blamedText, chainText, differText, gradeText, mendsText, pairsText, spareText} from './desk_texts.js';
import {GRADES} from './games.js';
import {NO_PAIR, SAID_AFTER_EACH, TRIED, TYPE_IN} from './shared_texts.js';

/** @typedef {import('./objects.js').Board} Board */
/** @typedef {import('./objects.js').Hint} Hint */
/** @typedef {import('./items.js').Item} Item */
/**
 * `letter` is that of the grade, and `hint` a contradiction that can be walked.
 * @typedef {import('./desk_picture.js').Over & {kind: 'blank' | 'none' | 'one' | 'several' | '', text: string, more: string, letter: string,
 *   hint: Hint | null}} Verdict
 */
// How the module is asked: for the answer to the last of some lines, which change nothing. And the call that is given each verdict.
/** @typedef {(...lines: string[]) => Promise<import('./objects.js').Answer>} Ask */
/** @typedef {(verdict: Verdict) => void} Tell */

/** @type {Verdict} */
export const NOTHING = {kind: '', text: '', more: '', letter: '', hint: null, differ: new Map(), marked: new Set(), mark: 'spare', solution: null};

// The items that the module marks.
/** @param {Ask} ask @param {Board} board @param {string[]} lines */
const marksOf = async (ask, board, ...lines) => itemsOf((await ask(...lines)).spare ?? {clues: [], signs: [], givens: []}, board);

/** @param {Item[]} items */
const names = (items) => new Set(items.map(({name}) => name));

/** @param {'none' | 'one' | 'several'} kind @param {string} more @param {Partial<Verdict>} [rest] @returns {Verdict} */
const ruled = (kind, more, rest) => ({...NOTHING, kind, text: RULINGS[kind], more, ...rest});

// Says what there is to say as soon as it is known: the verdict first, and then which items are marked. An empty board says how it is filled.
/** @param {import('./turns.js').Game} game @param {Board} board @param {Ask} ask @param {Tell} tell */
export async function judge(game, board, ask, tell) {
  if (!itemsOn(board).length) return tell({...NOTHING, kind: 'blank', text: TYPE_IN, more: `${TYPING[game]} ${SAID_AFTER_EACH}`});
  const [one, other] = (await ask('solutions')).solutions ?? [];
  if (!one) return none(board, ask, tell);
  if (!other) return only(GRADES[game], board, one, ask, tell);
  const differ = new Map(one.flatMap((number, cell) => (number === other[cell] ? [] : [[cell, [number, other[cell]]]])));
  return tell(ruled('several', differText(differ.size, one.length), {differ}));
}

/** @param {Board} board @param {Ask} ask @param {Tell} tell */
async function none(board, ask, tell) {
  const found = (await ask('hint')).hint, hint = found?.kind === 'contradiction' ? found : null, why = hint ? chainText(hint.groups.length) : TRIED;
  tell(ruled('none', why, {hint}));
  const blamed = await marksOf(ask, board, 'spare'), marked = names(blamed), said = `${why} ${blamedText(marked.size)}`;
  tell(ruled('none', said, {hint, marked, mark: 'blamed'}));
  if (marked.size) return tell(ruled('none', `${said} ${await mends(blamed, ask)}`.trim(), {hint, marked, mark: 'blamed'}));
  const pairs = await pairsOf(board, ask);
  const either = names(pairs.flat()), more = pairs.length ? `${said} ${pairsText(pairs.length, either.size)}` : `${why} ${NO_PAIR}`;
  return tell(ruled('none', more, {hint, marked: either, mark: 'blamed'}));
}

// The numbers or signs by which the items that are to blame would give exactly one solution; where none does, several.
/** @param {Item[]} blamed @param {Ask} ask */
async function mends(blamed, ask) {
  /** @type {import('./items.js').Mend[][]} */
  const found = [[], [], []];
  for (const mend of blamed.flatMap(({others}) => others)) found[(await ask(mend.line, 'solutions')).solutions?.length ?? 0].push(mend);
  return mendsText(found[1].length ? found[1] : found[2], found[1].length > 0, blamed.length === 1);
}

// The pairs without both of which there is a solution.
/** @param {Board} board @param {Ask} ask */
async function pairsOf(board, ask) {
  /** @type {Map<string, Item[]>} */
  const found = new Map();
  for (const item of itemsOn(board)) {
    for (const other of await marksOf(ask, board, item.off, 'spare')) found.set([item.name, other.name].sort().join(' '), [item, other]);
  }
  return [...found.values()];
}

/** @param {Record<string, string>} grades @param {Board} board @param {number[]} solution @param {Ask} ask @param {Tell} tell */
async function only(grades, board, solution, ask, tell) {
  const letter = (await ask('grade')).grade ?? '', grade = gradeText(grades[letter]);
  tell(ruled('one', grade, {letter, solution}));
  const marked = names(await marksOf(ask, board, `spare ${letter}`.trim()));
  tell(ruled('one', `${grade} ${spareText(marked.size, letter)}`, {letter, solution, marked}));
}
