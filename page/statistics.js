// How many games of each class were solved, and in which times.
import {element, part} from './drawing.js';
import {openDialog} from './dialogs.js';
import {kindOfName} from './games.js';
import {NO_STATISTICS, clockText, kindText} from './texts.js';

/** @typedef {import('./keeping.js').Solved} Solved */
/** @typedef {{kind: string, solved: number, alone: number, best: number, mean: number}} Row */

// A row for each class, by its name.
/** @param {Solved[]} solved @returns {Row[]} */
export function rows(solved) {
  const kinds = [...new Set(solved.map(({kind}) => kind))].sort();
  return kinds.map((kind) => {
    const own = solved.filter((one) => one.kind === kind), times = own.map(({seconds}) => seconds).filter(Boolean);
    const mean = times.length ? times.reduce((sum, time) => sum + time, 0) / times.length : 0;
    return {kind, solved: own.length, alone: own.filter(({hints}) => !hints).length, best: times.length ? Math.min(...times) : 0, mean};
  });
}

/** @param {Solved[]} solved */
export function openStatistics(solved) {
  const all = rows(solved), head = ['', 'Solved', 'Without hints', 'Best', 'Mean'].map((text) => element('th', text, {scope: 'col'}));
  part('statistics-none').textContent = NO_STATISTICS;
  part('statistics-none').hidden = all.length > 0;
  part('statistics-table').hidden = all.length === 0;
  part('statistics-table').replaceChildren(element('tr', '', {}, ...head), ...all.map(line));
  openDialog('statistics');
}

/** @param {Row} row */
function line({kind, solved, alone, best, mean}) {
  const known = kindOfName(kind), name = element('th', known ? kindText(known) : kind, {scope: 'row'});
  return element('tr', '', {}, name, ...[solved, alone, best ? clockText(best) : '–', mean ? clockText(mean) : '–'].map((text) => element('td', String(text))));
}
