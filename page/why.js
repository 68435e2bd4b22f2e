// Why a puzzle has so many solutions: the hints from the empty board to the end as one walk, and the certificate that they make.
import {verify} from '../certificate/verify.mjs';
import {SAVE_WHY, SUPPOSES, shownText} from './desk_texts.js';
import {give} from './files.js';
import {FAULTS} from './texts.js';
import {Unanswered} from './turns.js';
import {NOTHING_SHOWN, WalkedHint} from './walked_hint.js';

/** @typedef {import('./objects.js').Hint} Hint */
/** @typedef {import('./objects.js').Board} Board */
/** @typedef {import('./desk.js').Desk} Desk */
// The strikes of a certificate: squares, each with numbers.
/** @typedef {[number, number[]][]} Strikes */

/** The sentences of hints, one after the other, and one more at their end. */
class WholeWalk extends WalkedHint {
  /** @param {Hint[]} hints @param {number} size @param {string} end */
  constructor(hints, size, end) {
    super(hints[0], size);
    const walks = hints.map((hint) => new WalkedHint(hint, size));
    this.parts = walks.flatMap((walk) => walk.sentences.map((sentence, at) => ({sentence, walk, at})));
    this.sentences = [...this.parts.map(({sentence}) => sentence), {number: '', name: '', text: end}];
  }

  get move() { return ''; }

  /** @param {number} at */
  shown(at) {
    const {walk, at: own} = this.parts[at] ?? {};
    return walk?.shown(own) ?? NOTHING_SHOWN;
  }
}

/** The steps of a certificate, and what they leave. */
class Steps {
  /** @param {Board} board */
  constructor({size, givens}) {
    this.size = size;
    /** @type {[string, unknown, Strikes][]} */
    this.steps = [];
    this.left = givens.map((given) => (given ? [given] : Array.from({length: size}, (_, at) => at + 1)));
    givens.forEach((given, cell) => { if (given) this.settle(cell, given); });
  }

  /** @param {string} kind @param {unknown} what @param {Strikes} strikes */
  strike(kind, what, strikes) {
    const found = strikes.map(([cell, numbers]) => /** @type {[number, number[]]} */ ([cell, numbers.filter((number) => this.left[cell].includes(number))]));
    const own = found.filter(([, numbers]) => numbers.length);
    for (const [cell, numbers] of own) this.left[cell] = this.left[cell].filter((number) => !numbers.includes(number));
    if (own.length) this.steps.push([kind, what, own]);
  }

  /** @param {number} line */
  cells(line) {
    const {size} = this;
    return Array.from({length: size}, (_, at) => (line < size ? line * size + at : at * size + line - size));
  }

  /** @param {number} cell */
  lines(cell) { return [Math.floor(cell / this.size), this.size + cell % this.size]; }

  // A number goes from the other squares of its lines.
  /** @param {number} cell @param {number} number */
  settle(cell, number) {
    this.strike('line', this.lines(cell)[0], [[cell, this.left[cell].filter((other) => other !== number)]]);
    for (const line of this.lines(cell)) this.strike('line', line, this.cells(line).filter((other) => other !== cell).map((other) => [other, [number]]));
  }

  /** @param {Hint} hint */
  tell({kind, steps, cell, number, line}) {
    const {size} = this;
    for (const {reason, x, y, greater, less, cells, line: own, strikes} of steps) {
      const all = strikes.map(({cell, numbers}) => /** @type {[number, number[]]} */ ([cell, numbers]));
      const place = y === -1 ? x : y === size ? size + Number(x) : x === -1 ? 2 * size + Number(y) : 3 * size + Number(y);
      if (reason === 'sign') this.strike('sign', [greater, less], all);
      else if (reason === 'peer') for (const along of this.lines(Number(cells?.[0]))) this.strike('line', along, all.filter(([cell]) => this.cells(along).includes(cell)));
      else this.strike(x === null ? 'line' : 'clue', x === null ? own : place, all);
    }
    if (kind === 'follows' && line !== null) this.strike('line', line, [[Number(cell), this.left[Number(cell)].filter((other) => other !== number)]]);
    if (kind === 'follows') this.settle(Number(cell), Number(number));
    // A line without a square for a number has no arrangement at all.
    else if (line !== null && this.left.every((numbers) => numbers.length)) this.strike('line', line, [[this.cells(line)[0], [...this.left[this.cells(line)[0]]]]]);
  }
}

// Walks the hints of the desk's puzzle from its start to the end, and offers the certificate. Another change, or no answer, ends that.
/** @param {Desk} desk */
export async function whyOnlyOne(desk) {
  try {
    await shown(desk);
  } catch (fault) {
    if (!(fault instanceof Unanswered)) throw fault;
    desk.page.messages.tell(FAULTS[fault.fault]);
  }
}

/** @param {Desk} desk */
async function shown(desk) {
  const {game, board, saved, asked, verdict: {kind}, page: {walk, messages, screen}} = desk, {id} = desk.puzzle;
  if (!board || !kind) return;
  const steps = new Steps(board), {hints, solutions} = await walked(desk, board, saved, steps);
  if (asked !== desk.asked || !desk.isOpen) return;
  const answer = ['none', 'one', 'several'][solutions.length], certificate = JSON.stringify({game, id, answer, solutions, steps: steps.steps});
  const count = hints.flatMap((hint) => new WalkedHint(hint, board.size).sentences).length, isShown = verify(certificate).status === 0;
  const end = isShown ? shownText(count) : SUPPOSES, run = () => give(`${game}-${board.size}-why.json`, new TextEncoder().encode(`${certificate}\n`));
  walk.forget();
  if (hints.length) {
    walk.walked = new WholeWalk(hints, board.size, end);
    walk.open();
  }
  messages.tell(end, {lasting: true, offer: isShown ? {text: SAVE_WHY, run} : null});
  screen.paint();
}

// The hints, and the solutions that there are. Those of several need no hint.
/** @param {Desk} desk @param {Board} board @param {Desk['saved']} saved @param {Steps} steps */
async function walked(desk, board, saved, steps) {
  const {asked} = desk, /** @type {Hint[]} */ hints = [];
  let turned = await desk.ask(['solutions', 'hint'], saved), open = board.givens.filter((given) => !given).length;
  const {solutions = []} = turned.answers[0];
  if (solutions.length > 1) open = steps.steps.length = 0;
  for (; open && asked === desk.asked; open--) {
    const {hint} = turned.answers[turned.answers.length - 1];
    if (!hint || hint.kind === 'nothing') break;
    hints.push(hint);
    steps.tell(hint);
    if (hint.kind === 'contradiction') break;
    turned = await desk.ask([new WalkedHint(hint, board.size).move, 'hint'], turned.saved);
  }
  return {hints, solutions};
}
