// The rules of a game, with a clue or signs worked through in a picture.
import {element, part, shape} from './drawing.js';
import {openDialog} from './dialogs.js';
import {Measures, PEN} from './measures.js';
import {NAMES} from './games.js';
import {ABOUT_BOARD, ABOUT_DESK, ABOUT_HINT, ABOUT_PRESSING, KEYS, RULES, WORKED} from './rules_texts.js';

/** @typedef {import('./turns.js').Game} Game */

/** A row of towers, from the side, with the clues at its ends. */
function towers() {
  const heights = [1, 3, 2, 4], seen = [true, true, false, true];
  const svg = shape('svg', {viewBox: '-60 -12 520 232', class: 'worked', 'aria-hidden': true});
  heights.forEach((height, at) => {
    svg.append(shape('rect', {x: at * 100 + 16, y: 160 - 40 * height, width: 68, height: 40 * height, class: seen[at] ? 'tower' : 'tower hidden'}));
    svg.append(shape('rect', {x: at * 100, y: 160, width: 100, height: 60, class: 'cell'}), text(at * 100 + 50, 190, height, 'own'));
  });
  svg.append(text(-30, 190, 3, 'clue'), text(430, 190, 1, 'clue'));
  return svg;
}

/** Three squares in a chain, with the numbers that each may have. */
function unequal() {
  const measures = new Measures('unequal', 3), svg = shape('svg', {viewBox: '-4 -4 382 108', class: 'worked', 'aria-hidden': true});
  ['1 2', '2 3', '3 4'].forEach((numbers, cell) => {
    const box = {...measures.box(cell, 0)};
    svg.append(shape('rect', {...box, class: 'cell'}), text(box.x + 50, box.y + 50, numbers, 'own'));
    if (cell) svg.append(shape('path', {d: measures.wedge(cell, cell - 1), 'stroke-width': PEN.wedge, class: 'wedge'}));
  });
  return svg;
}

/** @param {number} x @param {number} y @param {string | number} content @param {string} kind */
const text = (x, y, content, kind) => shape('text', {x, y: y + 14, 'font-size': 40, class: kind}, String(content));

/** @param {Game} game @param {string} kept  how games are kept */
export function openRules(game, kept) {
  const hasKeys = matchMedia('(any-hover: hover) and (any-pointer: fine)').matches;
  part('rules-title').textContent = `Rules of ${NAMES[game]}`;
  const keys = element('dl', '', {}, ...KEYS.flatMap(([key, does]) => [element('dt', key), element('dd', does)]));
  part('rules-text').replaceChildren(
    ...RULES[game].map((sentence) => element('p', sentence)),
    game === 'towers' ? towers() : unequal(),
    ...[WORKED[game], ABOUT_BOARD, ABOUT_PRESSING, ABOUT_HINT, ABOUT_DESK, kept].map((sentence) => element('p', sentence)),
    ...(hasKeys ? [element('h3', 'Keys'), keys] : []),
  );
  openDialog('rules');
}
