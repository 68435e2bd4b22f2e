// The acts of the setter's desk, by its buttons and keys.
import {bytesOf} from './bytes.js';
import {openDialog} from './dialogs.js';
import {ANY, FIRSTS, MORE, NO_NEIGHBOUR, SIDES, TOOLS} from './desk_texts.js';
import {button, choose, part, selectOf} from './drawing.js';
import {give} from './files.js';
import {GRADES} from './games.js';
import {cellOf, placeAt} from './objects.js';
import {openRules} from './rules.js';
import {thinned, wishes} from './setting.js';
import {NOTHING_TO_FILL, NO_THINNING, OTHER_GRADE, SYMMETRIES} from './shared_texts.js';
import {keptText} from './texts.js';

/** @typedef {import('./actions.js').Page} Page */
/** @typedef {import('./desk.js').Desk} Desk */
/** @typedef {import('./objects.js').Board} Board */

// Where a sign stands as it is read, and whether the chosen square is the greater one.
/** @type {Record<string, [by: number[], isGreater: boolean]>} */
export const READ = {'<': [[1, 0], false], '>': [[1, 0], true], '^': [[0, 1], false], v: [[0, 1], true]};

// The acts that keys of the board stand for here.
/** @type {Record<string, string>} */
export const OTHERWISE = {hint: 'why', leave: 'why', all: 'thin', tidy: 'thin', marks: 'play', id: 'link', desk: 'quit'};

export function addButtons() {
  for (const [place, tools] of /** @type {const} */ ([['by-verdict', TOOLS], ['desk-more', MORE]])) {
    part(place).append(...Object.entries(tools).map(([name, text]) => button(text, {'data-do': name})));
  }
  part('signs').append(...SIDES.map(([side, , arrow]) => button(`${arrow} <>`, {'data-do': side, 'aria-label': side})));
}

// The sign of the chosen square on a side: the next one; or the one by which the square is the greater one or the lesser, where that is told.
/** @param {Desk} desk @param {number[]} by @param {boolean} [isGreater] */
export function putSign(desk, [dx, dy], isGreater) {
  const {board, game, page: {messages, screen: {chosen}}} = desk, size = board?.size ?? 0, [x, y] = chosen.split(',').map(Number);
  const other = cellOf(placeAt(x + dx, y + dy), size);
  if (game === 'unequal' && other >= 0) desk.turn(cellOf(chosen, size), other, isGreater);
  else if (game === 'unequal' && isGreater !== undefined) messages.tell(NO_NEIGHBOUR);
}

/** @type {('grade' | 'first' | 'symmetry')[]} */
const ASKED = ['grade', 'first', 'symmetry'];

// The sheet that asks how it is thinned out: at first to the puzzle's own grade.
/** @param {Desk} desk */
function openSheet({game, verdict: {letter}}) {
  /** @type {[string, string][][]} */
  const choices = [wishes(game, letter).map((own) => [own, GRADES[game][own] ?? ANY]), FIRSTS[game], Object.entries(SYMMETRIES)];
  ASKED.forEach((name, at) => choose(selectOf(`thin-${name}`), choices[at], at ? selectOf(`thin-${name}`).value : letter));
  openDialog('thin');
}

// Goes on with what comes of it, unless nothing does: then that is said.
/** @typedef {(board: Board, id: string, ask: import('./verdict.js').Ask) => Promise<{id: string, isAsWished: boolean}>} Seek */
/** @param {Desk} desk @param {Seek} seek @param {string} none */
function goOn(desk, seek, none) {
  const {board, puzzle: {id}, page: {messages}} = desk;
  if (board) desk.work(async (ask) => {
    const found = await seek(board, id, ask), told = !found.isAsWished ? OTHER_GRADE : found.id === id ? none : '';
    if (told) messages.tell(told);
    return found.id === id ? null : {line: `new ${found.id}`};
  });
}

// Opens the desk with the present game, and walks that.
/** @param {Desk} desk */
export async function whyOfGame(desk) {
  desk.open();
  desk.act('game');
  await desk.queue;
  desk.act('only');
}

// The act of each name.
/** @type {Record<string, (desk: Desk, page: Page) => unknown>} */
export const ACTS = {
  undo: (desk) => desk.change(() => desk.along(-1)),
  redo: (desk) => desk.change(() => desk.along(1)),
  clear: (desk) => desk.number(0),
  game(desk, {present: {kept}}) {
    if (desk.game !== kept.game) desk.turnTo(kept.game);
    desk.change(() => ({line: `new ${kept.id}`}));
  },
  why({verdict: {hint}, board}, {walk, screen}) {
    if (walk.isOpen) walk.forget();
    else if (hint && board) {
      walk.begin(hint, board);
      walk.open();
    }
    screen.paint();
  },
  solve(desk, {screen}) {
    desk.isSolved = !desk.isSolved;
    screen.paint();
  },
  async only(desk) {
    await desk.queue;
    await (await import('./why.js')).whyOnlyOne(desk);
  },
  thin: openSheet,
  thinned: (desk) => goOn(desk, (board, id, ask) => thinned(desk.game, board, id, ASKED.map((name) => selectOf(`thin-${name}`).value), ask), NO_THINNING),
  fill: (desk) => goOn(desk, async (_, id, ask) => ({id: (await ask('fill')).session?.id ?? id, isAsWished: true}), NOTHING_TO_FILL),
  play: (desk, {beginning}) => desk.idle().then(() => beginning.named(desk.puzzle)),
  more: () => openDialog('desk-menu'),
  rules: ({game}, {keeping}) => openRules(game, keptText(keeping)),
  link: ({links, puzzle, title}) => links.copyLink(puzzle, title),
  text: ({game, board, links}) => board && links.copyText(game, board),
  table: ({game, board, links}) => board && links.copyText(game, board, true),
  save: ({game, board, saved}) => give(`${game}-${board?.size}.sav`, bytesOf(saved)),
  print: () => print(),
  quit: (desk) => desk.close(),
  escape: (desk, {walk}) => desk.act(walk.isOpen ? 'why' : 'quit'),
};
