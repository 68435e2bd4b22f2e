// Sheets for print: what is chosen, and how they are made beside the game.
import {NO_BYTES} from './bytes.js';
import {dialogOf, choose, element, inputOf, part, selectOf, show} from './drawing.js';
import {openDialog} from './dialogs.js';
import {GRADES, NAMES, SIZES, isGame, letters, numberOfDay} from './games.js';
import {lessonsBy, movesBy} from './sheet_asked.js';
import {Unfit, chosen, kindsOf, seriesIn} from './sheet_choice.js';
import {NoRoom} from './sheet_layout.js';
import {Sheets} from './sheet_pages.js';
import {SheetsShown, tell} from './sheet_shown.js';
import {CHOICES, NO_COUNT, NO_GRADE, NO_NUMBER, NO_STEPS, SIZES_FALL, madeText, stepsText, tooManyPuzzlesText} from './sheet_texts.js';
import {plainText} from './sheet_tree.js';
import {FAULTS} from './texts.js';
import {Turns, Unanswered} from './turns.js';

/** @typedef {import('./turns.js').Game} Game */
/** @typedef {import('./sheet_pages.js').Form} Form */
/** The sheets that are asked for, besides the form. */
/** @typedef {{form: Form, game: Game, kinds: import('./games.js').Kind[], count: number, pupils: number, series: string}} Asked */

/** The most puzzles of one sheet and of all, and the most workers that make them. */
const MOST = 200, MOST_OF_ALL = 400, WORKERS = 4;

/** Countries in which paper is Letter. */
const LETTER = /-(BZ|CA|CL|CO|CR|GT|MX|NI|PA|PH|PR|SV|US|VE)\b/;

export class SheetDialog {
  constructor() {
    /** @type {Turns[]} */
    this.workers = [];
    this.shown = new SheetsShown(() => openDialog('sheet'));
    for (const [name, choices] of Object.entries(CHOICES)) choose(selectOf(`sheet-${name}`), choices, choices[0][0]);
    if (LETTER.test(navigator.language)) selectOf('sheet-paper').value = 'letter';
    for (const id of ['sheet-from', 'sheet-to']) choose(selectOf(id), SIZES.map((size) => [String(size), `${size} × ${size}`]), '5');
    inputOf('sheet-series').value = numberOfDay(new Date());
    selectOf('sheet-game').addEventListener('change', () => this.showGrades());
    selectOf('sheet-from').addEventListener('change', () => this.follow());
    part('sheet').querySelector('form')?.addEventListener('submit', (event) => {
      event.preventDefault();
      // Enter in a field comes here, too, while sheets are being made.
      if (!part('sheet-make').hidden) this.make();
    });
    part('sheet-stop').addEventListener('click', () => this.stop());
    part('sheet').addEventListener('close', () => { if (!dialogOf('sheet').open) this.stop(); });
  }

  /** @param {Game} game */
  open(game) {
    if (!selectOf('sheet-game').options.length) {
      choose(selectOf('sheet-game'), Object.entries(NAMES), game);
      this.showGrades();
    }
    this.tell('');
    openDialog('sheet');
  }

  showGrades() {
    const {value} = selectOf('sheet-game'), game = isGame(value) ? value : 'towers';
    part('sheet-grades').replaceChildren(...letters(game, 9).map((letter) => {
      const box = element('input', '', {type: 'checkbox', value: letter, checked: letter === 'e' || undefined});
      return element('label', '', {class: 'box'}, box, document.createTextNode(GRADES[game][letter]));
    }));
  }

  /** A greater first size takes the last one with it. */
  follow() {
    const [from, to] = [selectOf('sheet-from'), selectOf('sheet-to')];
    if (Number(from.value) > Number(to.value)) to.value = from.value;
  }

  // The sheets that are asked for; or why they can't be made.
  /** @returns {Asked | string} */
  get asked() {
    /** @type {NodeListOf<HTMLInputElement>} */
    const fields = part('sheet').querySelectorAll('[id]:is(input, select, textarea)');
    // All that is chosen and written, by the names of the fields.
    /** @type {any} */
    const values = Object.fromEntries([...fields].map(({id, type, value, checked}) => [id.slice('sheet-'.length), type === 'checkbox' ? checked : value]));
    const {game, from, to} = values, count = Number(values.count), series = seriesIn(values.series);
    /** @type {string[]} */
    const names = values.names.split('\n').map(plainText).filter(Boolean), pupils = names.length || 1;
    const sizes = SIZES.filter((size) => size >= Number(from) && size <= Number(to));
    const grades = [...part('sheet-grades').querySelectorAll('input')].filter(({checked}) => checked).map((box) => box.value);
    if (!sizes.length) return SIZES_FALL;
    if (!grades.length) return NO_GRADE;
    if (!Number.isInteger(count) || count < 1 || count > MOST) return NO_COUNT;
    if (count * pupils > MOST_OF_ALL) return tooManyPuzzlesText(pupils, count, MOST_OF_ALL);
    if (values.steps && values.answers === 'none') return NO_STEPS;
    if (!series) return NO_NUMBER;
    const more = {names, title: plainText(values.heading), grades: values.shown};
    const form = {...values, ...more, perPage: values.large ? 0 : Number(values.per), source: `, series ${series}`};
    return {form, game, kinds: kindsOf(game, sizes, grades), count, pupils, series};
  }

  // Makes the puzzles, in workers of their own, so that the game goes on; and then the pages.
  async make() {
    const {asked} = this;
    if (typeof asked === 'string') return this.tell(asked);
    this.tell(madeText(0, asked.count * asked.pupils));
    this.busy(true);
    const length = Math.max(1, Math.min(WORKERS, navigator.hardwareConcurrency || 1));
    const workers = this.workers = Array.from({length}, () => new Turns(part('module').textContent ?? '', part('worker').textContent ?? ''));
    try {
      await this.made(asked, sharedBy(workers), length);
    } catch (fault) {
      if (fault instanceof Unanswered) this.tell(FAULTS[fault.fault]);
      else if (fault instanceof NoRoom || fault instanceof Unfit) this.tell(fault.message);
      else throw fault;
    } finally {
      this.stop(workers);
      this.busy(false);
    }
  }

  /** @param {Asked} asked @param {import('./sheet_choice.js').Ask} ask @param {number} ahead */
  async made({form, game, kinds, count, pupils, series}, ask, ahead) {
    const all = count * pupils, whole = form.steps ? 2 * all : all;
    const {sheets, told} = await chosen(ask, {kinds, count, pupils, series, ahead}, (made) => this.tell(madeText(made, all), made / whole));
    const moves = form.steps ? await movesBy(ask, sheets.flat(), (made) => this.tell(stepsText(made, all), (all + made) / whole)) : [];
    const made = new Sheets(form, {puzzles: sheets, moves, examples: form.example ? [await lessonsBy(ask, game)] : []});
    await this.shown.show(made, [...told, ...made.cut]);
    this.tell('');
  }

  /** @param {string} text @param {number} [done]  how much of all */
  tell(text, done = 0) {
    tell('sheet-told', text, done > 0);
    /** @type {HTMLProgressElement} */ (part('sheet-bar')).value = done;
  }

  /** @param {boolean} isBusy */
  busy(isBusy) {
    for (const id of ['sheet-bar', 'sheet-stop']) show(part(id), isBusy);
    show(part('sheet-make'), !isBusy);
    if (dialogOf('sheet').open) part(isBusy ? 'sheet-stop' : 'sheet-make').focus();
  }

  stop(workers = this.workers) {
    for (const worker of workers) worker.end();
  }
}

// Each line goes to the worker that has the least to do.
/** @param {Turns[]} workers @returns {import('./sheet_choice.js').Ask} */
function sharedBy(workers) {
  const busy = workers.map(() => 0);
  return async (game, lines, saved = NO_BYTES) => {
    const at = busy.indexOf(Math.min(...busy));
    busy[at]++;
    try {
      return await workers[at].turn({game, saved, lines, end: 'last'});
    } finally {
      busy[at]--;
    }
  };
}
