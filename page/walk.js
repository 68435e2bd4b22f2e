// A hint as it is shown: where to look, why, and the number; or all its steps one by one, in place of the buttons.
import {button, element, focus, part, show} from './drawing.js';
import {headed} from './objects.js';
import {WalkedHint} from './walked_hint.js';
import {inSteps, lookAt, lookAtGoal, stepOf} from './texts.js';

/** @typedef {import('./objects.js').Hint} Hint */
/** @typedef {import('./objects.js').Board} Board */
/** @typedef {import('./objects.js').Place} Place */
/** @typedef {import('./walked_hint.js').Shown} Shown */
// How far a hint is shown.
/** @typedef {'nothing' | 'look' | 'reason'} Stage */

export class Walk {
  /** @param {(text: string) => void} say */
  constructor(say) {
    this.say = say;
    /** @type {WalkedHint | null} */
    this.walked = null;
    /** @type {Stage} */
    this.stage = 'nothing';
    /** @type {Shown | null} */
    this.shown = null;
    /** Which sentence of the panel is shown; none where it is closed. */
    this.at = -1;
    /** The parts of a missing mark that aren't said yet. */
    this.missed = /** @type {{text: string, shown: Shown}[]} */ ([]);
  }

  /** Nothing is shown of a hint any more. */
  forget() {
    this.close();
    [this.walked, this.stage, this.missed] = [null, 'nothing', []];
  }

  /** The board is seen without the hint, of which the number comes next. */
  close() {
    [this.stage, this.shown, this.at] = ['reason', null, -1];
    show(part('play'), true);
    show(part('walk'), false);
  }

  get isOpen() { return this.at >= 0; }

  /** Whether the last sentence is shown, of a hint that shows a number. */
  get isAtEnd() {
    const {walked} = this;
    return Boolean(walked?.move) && (this.isOpen ? this.at === walked?.groups.length : this.stage === 'reason');
  }

  /** @param {Hint} hint @param {{size: number}} board @param {number} [number]  that is missing among the marks of the square that the hint names */
  begin(hint, {size}, number = 0) {
    this.walked = new WalkedHint(hint, size);
    this.missed = this.walked.hasWrongMarks ? this.walked.missing(number) : [];
  }

  // Whether a hint is of another board: of other numbers, or of other marks, where it begins from these.
  /** @param {Board} before @param {Board} after */
  isPast(before, after) {
    const parts = this.walked?.hint.from === 'marks' ? /** @type {const} */ (['numbers', 'marks']) : /** @type {const} */ (['numbers']);
    return parts.some((part) => before[part].join(' ') !== after[part].join(' '));
  }

  /** Of wrong marks what is said next of the one that is missing; nothing where all is said. */
  nextMissed() {
    const missed = this.missed.shift();
    if (missed) this.shown = missed.shown;
    return missed?.text ?? '';
  }

  /** The next part of a hint: what is said then; nothing where the number is to be put in. */
  next() {
    const {walked} = this;
    if (!walked || this.stage === 'reason') return '';
    if (this.stage === 'nothing') {
      this.stage = 'look';
      this.shown = walked.look();
      return walked.steps.length ? lookAt(walked.steps[0], walked.size) : lookAtGoal(walked.hint.line, walked.size);
    }
    this.stage = 'reason';
    const {groups: {length}} = walked, texts = walked.sentences.map(({text}) => text);
    this.shown = walked.shown(length === 1 ? 0 : length);
    return length === 1 ? texts.join(' ') : [texts[length], inSteps(length)].filter(Boolean).join(' ');
  }

  /** All steps, in place of the buttons: the first step has the focus where one of these had it. */
  open() {
    const {walked} = this, hadFocus = part('play').contains(document.activeElement);
    if (!walked) return;
    part('steps').replaceChildren(...walked.sentences.map((sentence, at) => element('li', '', {}, rowOf(sentence, at))));
    show(part('walk'), true);
    show(part('play'), false);
    part('walk').querySelector('[data-do=take]')?.toggleAttribute('hidden', !walked.move);
    this.go(0);
    if (hadFocus) focus(part('steps').querySelector('button'));
  }

  // Shows a sentence.
  /** @param {number} at */
  go(at) {
    const {walked} = this;
    if (!walked) return;
    this.at = Math.max(0, Math.min(at, walked.sentences.length - 1));
    this.shown = walked.shown(this.at);
    show(part('keep'), this.isAtEnd && walked.steps.length > 0);
    part('steps').querySelectorAll('button').forEach((node, index) => node.setAttribute('aria-current', index === this.at ? 'step' : 'false'));
    // The sentence is what has to be seen.
    for (const node of [part('keep'), part('steps').children[this.at]]) node.scrollIntoView({block: 'nearest'});
    this.say([this.at < walked.groups.length && stepOf(this.at, walked.groups.length), headed(walked.sentences[this.at])].filter(Boolean).join('. '));
  }
}

// A sentence below which the others stand, with its name before it.
/** @param {import('./objects.js').Sentence} sentence @param {number} at */
function rowOf({name, text}, at) {
  const node = button('', {'data-step': at});
  node.append(...(name ? [element('b', `${name}.`), ' '] : []), text);
  return node;
}
