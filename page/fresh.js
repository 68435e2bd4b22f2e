// The dialog for a new game: by its kind and number, by what is typed or pasted (a drawing, a link or an ID), or from a file.
import {choose, inputOf, part, selectOf} from './drawing.js';
import {closeDialogs, openDialog} from './dialogs.js';
import {GRADES, NAMES, SIZES, isGame, letters, nearest, numberIn, numberOfDay} from './games.js';
import {Pasted, isSave, nameIn, readIn} from './pasted.js';
import {NO_NUMBER} from './texts.js';

/** @typedef {import('./games.js').Kind} Kind */
/** @typedef {import('./games.js').Fair} Fair */
/** @typedef {import('./games.js').Named} Named */

/** Three lists that choose a kind of game: which grades there are depends on the game and the size. */
export class KindLists {
  /** @param {string} name  what their IDs begin with @param {(kind: Kind) => void} changed */
  constructor(name, changed) {
    this.game = selectOf(`${name}-game`);
    this.size = selectOf(`${name}-size`);
    this.grade = selectOf(`${name}-grade`);
    for (const list of [this.game, this.size, this.grade]) {
      list.addEventListener('change', () => {
        this.show(this.kind);
        changed(this.kind);
      });
    }
  }

  /** @returns {Kind} */
  get kind() {
    const game = this.game.value;
    return nearest({game: isGame(game) ? game : 'towers', size: Number(this.size.value), letter: this.grade.value});
  }

  /** @param {Kind} kind */
  show({game, size, letter}) {
    choose(this.game, Object.entries(NAMES), game);
    choose(this.size, SIZES.map((own) => [String(own), `${own} by ${own}`]), String(size));
    choose(this.grade, letters(game, size).map((own) => [own, GRADES[game][own]]), letter);
  }
}

/**
 * How a game begins. The promise gives the reason why it doesn't: nothing where it does.
 * @typedef {{kind(kind: Kind): void, numbered(fair: Fair): Promise<string>, named(named: Named): Promise<string>, file(file: File): void,
 *   save(text: string): void, check(puzzle: import('./drawings.js').Puzzle): void}} Begin
 */

export class Fresh {
  /** @param {Begin} begin */
  constructor(begin) {
    this.begin = begin;
    this.lists = new KindLists('fresh', () => {});
    this.number = inputOf('fresh-number');
    this.id = /** @type {HTMLTextAreaElement} */ (part('fresh-id'));
    this.pasted = new Pasted(this.id, {check: begin.check, named: (named) => this.ask(this.id, begin.named(named))});
    const form = part('fresh').querySelector('form');
    form?.addEventListener('submit', (event) => {
      event.preventDefault();
      this.submit();
    });
    form?.addEventListener('input', () => this.forgive());
    // A link or an ID is a line, which ends by this key.
    this.id.addEventListener('keydown', (event) => {
      if (event.key !== 'Enter' || event.shiftKey || !nameIn(this.id.value)) return;
      event.preventDefault();
      this.submit();
    });
    part('fresh-today').addEventListener('click', () => {
      this.ask(this.number, begin.numbered({...this.lists.kind, number: numberOfDay(new Date())}));
    });
    const file = inputOf('fresh-file');
    file.addEventListener('change', () => {
      const [own] = file.files ?? [];
      closeDialogs();
      if (own) begin.file(own);
      file.value = '';
    });
  }

  /** @param {Kind} kind */
  open(kind, text = '') {
    this.lists.show(kind);
    this.number.value = '';
    this.id.value = text;
    this.forgive();
    this.pasted.show();
    openDialog('fresh');
  }

  // Opens with a text, where a puzzle can be read of it; whether one can.
  /** @param {Kind} kind @param {string} text */
  async paste(kind, text) {
    const isRead = (await readIn(text)).some(({puzzle, id}) => puzzle || id);
    if (isRead) this.open(kind, text);
    return isRead;
  }

  /** Begins what the fields name. A typed or pasted text comes before a number. */
  async submit() {
    const {number, id, begin, lists: {kind}} = this, text = id.value.trim(), digits = number.value.trim();
    const link = nameIn(text), seed = numberIn(digits);
    if (link) return this.ask(id, begin.named(link));
    if (isSave(text)) return closeDialogs(), begin.save(`${text}\n`);
    const why = text ? await this.pasted.submit() : '';
    if (text) return why && this.refuse(id, why);
    if (digits) return seed ? this.ask(number, begin.numbered({...kind, number: seed})) : this.refuse(number, NO_NUMBER);
    closeDialogs();
    return begin.kind(kind);
  }

  // Where the game that is asked for doesn't begin, the dialog comes back with its choices, and with the reason at a field.
  /** @param {HTMLInputElement | HTMLTextAreaElement} field @param {Promise<string>} refusal */
  async ask(field, refusal) {
    closeDialogs();
    const why = await refusal;
    if (!why) return;
    openDialog('fresh');
    this.refuse(field, why);
  }

  /** @param {HTMLInputElement | HTMLTextAreaElement} field @param {string} why */
  refuse(field, why) {
    field.setCustomValidity(why);
    field.reportValidity();
  }

  /** Takes back each complaint of a field. */
  forgive() {
    for (const field of [this.number, this.id]) field.setCustomValidity('');
  }
}
