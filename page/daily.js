// Today's game of a kind of one's own choice, and a calendar of the days whose games were solved.
import {button, element, part} from './drawing.js';
import {closeDialogs, openDialog} from './dialogs.js';
import {KindLists} from './fresh.js';
import {kindOfName, nameOfKind, numberOfDay} from './games.js';
import {kindOf} from './kept.js';
import {dayName, daysText, monthText} from './texts.js';

/** @typedef {import('./games.js').Kind} Kind */
/** @typedef {import('./games.js').Fair} Fair */
/** @typedef {import('./keeping.js').Keeping} Keeping */

const WEEKDAYS = ['Mo', 'Tu', 'We', 'Th', 'Fr', 'Sa', 'Su'];

// The days of a month, each as its date.
/** @param {Date} first */
export function daysOf(first) {
  const count = new Date(first.getFullYear(), first.getMonth() + 1, 0).getDate();
  return Array.from({length: count}, (_, at) => new Date(first.getFullYear(), first.getMonth(), at + 1));
}

// The column of a day in a week that begins on Monday, from 1 on.
/** @param {Date} day */
export const column = (day) => ((day.getDay() + 6) % 7) + 1;

// The day whose game has a number; nothing where it is that of no day.
/** @param {string} number */
export function dayOf(number) {
  const [, year, month, date] = /^(20\d\d)(\d\d)(\d\d)$/.exec(number) ?? [], day = new Date(Number(year), Number(month) - 1, Number(date));
  return numberOfDay(day) === number ? day : null;
}

// How many days in a row have their games solved, up to today, or to yesterday where today's isn't solved yet.
/** @param {Set<string>} solved  the numbers of games @param {Date} today */
export function streak(solved, today) {
  const isSolved = (/** @type {number} */ back) => {
    return solved.has(numberOfDay(new Date(today.getFullYear(), today.getMonth(), today.getDate() - back)));
  };
  const last = isSolved(0) ? 0 : 1;
  let days = 0;
  while (isSolved(last + days)) days++;
  return days;
}

// The numbers of the games of a kind that were solved.
/** @param {Keeping} keeping @param {Kind} kind */
const solvedNumbers = (keeping, kind) => new Set(keeping.solved().filter((game) => game.kind === nameOfKind(kind)).map(({number}) => number));

// The days in a row that a solved game ends; 0 where it isn't today's.
/** @param {Keeping} keeping @param {import('./kept.js').Kept} kept */
export function streakOf(keeping, kept) {
  const today = new Date(), isToday = kept.fair?.number === numberOfDay(today);
  return isToday ? streak(solvedNumbers(keeping, kindOf(kept)), today) : 0;
}

export class Daily {
  /** @param {Keeping} keeping @param {(fair: Fair) => void} begin */
  constructor(keeping, begin) {
    this.keeping = keeping;
    this.begin = begin;
    this.first = new Date();
    this.lists = new KindLists('daily', (kind) => {
      keeping.set({daily: nameOfKind(kind)});
      this.show();
    });
    part('daily-before').addEventListener('click', () => this.turn(-1));
    part('daily-after').addEventListener('click', () => this.turn(1));
    part('daily-today').addEventListener('click', () => this.play(numberOfDay(new Date())));
    part('daily-days').addEventListener('click', ({target}) => {
      const day = target instanceof Element ? target.closest('button')?.dataset.day : '';
      if (day) this.play(day);
    });
  }

  open() {
    const now = new Date(), kind = kindOfName(this.keeping.settings.daily);
    this.first = new Date(now.getFullYear(), now.getMonth(), 1);
    if (kind) this.lists.show(kind);
    this.show();
    openDialog('daily');
  }

  /** @param {number} months */
  turn(months) {
    this.first = new Date(this.first.getFullYear(), this.first.getMonth() + months, 1);
    this.show();
  }

  /** @param {string} day */
  play(day) {
    closeDialogs();
    this.begin({...this.lists.kind, number: day});
  }

  show() {
    const solved = solvedNumbers(this.keeping, this.lists.kind), now = new Date(), today = numberOfDay(now);
    part('daily-month').textContent = monthText(this.first);
    part('daily-streak').textContent = daysText(streak(solved, now));
    const days = daysOf(this.first).map((day) => this.day(day, solved.has(numberOfDay(day)), today));
    part('daily-days').replaceChildren(...WEEKDAYS.map((name) => element('span', name, {'aria-hidden': true})), ...days);
    /** @type {HTMLButtonElement} */ (part('daily-after')).disabled = Number(numberOfDay(this.first)) + 31 > Number(today);
  }

  /** @param {Date} day @param {boolean} isSolved @param {string} today */
  day(day, isSolved, today) {
    const number = numberOfDay(day), node = button(String(day.getDate()), {'data-day': number, 'aria-label': dayName(day, isSolved)});
    node.classList.toggle('solved', isSolved);
    node.disabled = Number(number) > Number(today);
    if (number === today) node.setAttribute('aria-current', 'date');
    node.style.gridColumn = String(column(day));
    return node;
  }
}
