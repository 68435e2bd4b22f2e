// Texts that are typed or pasted at New, or let fall onto the page as a file: a puzzle that is drawn is shown back before it counts.
import {NO_BYTES} from './bytes.js';
import {closeDialogs} from './dialogs.js';
import {button, element, part} from './drawing.js';
import {named} from './games.js';
import {SO_DRAWN} from './shared_texts.js';
import {BEGIN_IT, CHECK_IT, NOTHING_THERE, NO_SUCH_LINK, WHICH_ONE, oddText} from './texts.js';

/** @typedef {import('./drawings.js').Read} Read */
/** @typedef {import('./drawings.js').Puzzle} Puzzle */
/** @typedef {import('./games.js').Named} Named */
/** The ways to go on with a puzzle that was read. */
/** @typedef {{check(puzzle: Puzzle): void, named(named: Named): void}} Doing */

/** So many milliseconds nothing changes before it is read; so many puzzles are shown at most, and so many letters are read. */
const REST = 300, MOST = 30, LONGEST = 100000;

/** How a save begins. */
const SAVE = 'SAVEFILE:41:';

/** @param {string} text */
export const isSave = (text) => text.trimStart().startsWith(SAVE);

// The link or ID that a text is, where it is a single line.
/** @param {string} text */
export const nameIn = (text) => (text.trim().includes('\n') ? null : named(text.trim()));

// The parts of a text that is neither a link nor a save: puzzles, IDs, and why others are none.
/** @param {string} text */
export async function readIn(text) {
  const {read} = await import('./drawings.js');
  return text.length > LONGEST ? [] : read(text);
}

export class Pasted {
  /** @param {HTMLTextAreaElement} field @param {Doing} doing */
  constructor(field, doing) {
    this.field = field;
    this.doing = doing;
    this.timer = 0;
    field.addEventListener('input', () => {
      clearTimeout(this.timer);
      this.timer = setTimeout(() => this.show(), REST);
    });
  }

  /** The puzzles of the text, as a list. */
  async show() {
    const text = this.field.value, isOther = text.trim() && !nameIn(text) && !isSave(text), found = isOther ? await readIn(text) : [];
    if (text !== this.field.value) return;
    const {calledOf, formOf} = isOther ? await import('./drawings.js') : {calledOf: null, formOf: null}, shown = new Set();
    const nodes = found.slice(0, MOST).flatMap((read) => {
      if (read.puzzle && calledOf) return this.offer(calledOf(read.puzzle), read);
      if (read.id) return this.offer(read.id, read);
      const own = [element('p', oddText(read))], isNew = !shown.has(read.game);
      shown.add(read.game);
      return isNew && formOf ? [...own, element('p', SO_DRAWN), element('pre', formOf(read).join('\n'))] : own;
    });
    part('fresh-read').replaceChildren(...nodes);
  }

  // A line on what was read, and a button that takes it.
  /** @param {string} text @param {Read} read */
  offer(text, read) {
    const line = element('p', `${text} · `), node = button(read.puzzle ? CHECK_IT : BEGIN_IT);
    node.addEventListener('click', () => this.take(read));
    line.append(node);
    return read.doubt ? [line, element('p', oddText({...read, why: read.doubt}))] : [line];
  }

  /** @param {Read} read */
  take({puzzle, id, game}) {
    closeDialogs();
    if (puzzle) this.doing.check(puzzle);
    else this.doing.named({id, game: game || null});
  }

  // Takes the one puzzle that stands there; otherwise why there is none.
  async submit() {
    const found = await readIn(this.field.value), taken = found.filter(({puzzle, id}) => puzzle || id);
    if (taken.length === 1 && found.length === 1) this.take(taken[0]);
    else if (taken.length) return WHICH_ONE;
    else if (!this.field.value.trim().includes('\n')) return NO_SUCH_LINK;
    else return found.length ? oddText(found[0]) : NOTHING_THERE;
    return '';
  }
}

// A puzzle that was read comes to the desk, as one step of its draft.
/** @param {import('./desk.js').Desk} desk @param {Puzzle} puzzle */
export async function toDesk(desk, {game, size, items}) {
  const {answers} = await desk.page.turns.turn({game, saved: NO_BYTES, lines: [`blank ${size}`, ...items], end: 'last'});
  const line = `new ${answers[answers.length - 1].session?.id}`;
  if (!desk.isOpen) desk.open(game);
  else if (desk.game !== game) desk.turnTo(game);
  return desk.change(() => ({line}));
}
