// Each red mark is a contradiction that the object of `board` tells, and each of those is red: on a thousand boards in play, with all that a hint shows on
// them, and on the setter's desk with each item marked as one to blame. The style sheet says which are red.
import {deepEqual, equal} from 'node:assert/strict';
import {readFileSync} from 'node:fs';
import {test} from 'node:test';
import {bytesOf, NO_BYTES, textOf} from '../../../page/bytes.js';
import {DeskPicture} from '../../../page/desk_picture.js';
import {itemsOn} from '../../../page/items.js';
import {placeAt, placeOf} from '../../../page/objects.js';
import {Picture} from '../../../page/picture.js';
import {NOTHING_SHOWN, WalkedHint} from '../../../page/walked_hint.js';
import {moduleOf} from '../../module/node/module.mjs';
import {makeElements} from './elements.mjs';

const BOARDS = 1000, OF_A_PUZZLE = 10;

const here = (path) => new URL(path, import.meta.url), read = (path) => readFileSync(here(path), 'utf8');
const module = moduleOf(here('../../../programs/web/puzzles.wasm')), style = read('../../../page/style.css').replace(/\/\*[^]*?\*\//g, '');

/** The selectors of what is painted in a colour of contradictions, and those of them that are of no board. */
const RED = [...style.matchAll(/([^{};]+)\{([^{}]*)\}/g)].filter(([, , rules]) => /(?<!-)\b[a-z-]+: *[^;]*var\(--wrong/.test(rules)).flatMap(([, all]) => all.trim().split(/\s*,\s*/));
const ELSEWHERE = ['#told.bad', 'input:invalid', '#verdict.is-none'], OF_BOARDS = RED.filter((one) => !ELSEWHERE.includes(one));

/** Numbers by chance, always the same ones: each is below the other. */
let seed = 20261130;
const chance = (below) => {
  seed = (Math.imul(seed, 1664525) + 1013904223) >>> 0;
  return Math.floor((seed / 2 ** 32) * below);
};

class Session {
  constructor(game, id) {
    [this.game, this.saved] = [game, NO_BYTES];
    this.ask(`new ${id}`);
  }
  ask(line) {
    const {said, saved} = module.turn(this.game, bytesOf(this.saved), new TextEncoder().encode(line));
    this.saved = textOf(saved);
    return JSON.parse(new TextDecoder().decode(said));
  }
}

/** A move by chance: mostly a number, into any square, or a mark, or a clue that is done. */
function move({size, clues}) {
  const place = `${chance(size)},${chance(size)}`, kind = chance(10), clue = clues[chance(clues.length)];
  if (kind === 0 && clue) return `move D${clue.x},${clue.y}`;
  return kind < 7 ? `move R${place},${1 + chance(size)}` : kind < 9 ? `move P${place},${1 + chance(size)}` : 'move M';
}

/** Where something is red in a picture: squares and clues by their places, signs by their numbers, anything else by what it is. */
function redIn(picture) {
  const owner = (node) => {
    if (picture.signs.includes(node)) return `sign ${picture.signs.indexOf(node)}`;
    return node.getAttribute('data-place') ?? (node.parent ? owner(node.parent) : '');
  };
  const red = picture.svg.querySelectorAll(OF_BOARDS.join());
  return [...new Set(red.map((node) => owner(node) || `${node.tag} ${node.classes}`))].sort();
}

/** The places that the object of `board` tells as contradicted. */
function wrongIn({size, errors, clues, signs}) {
  const wrong = signs.flatMap(({error}, at) => (error ? [`sign ${at}`] : []));
  return [...errors.map((cell) => placeOf(cell, size)), ...clues.filter(({error}) => error).map(({x, y}) => placeAt(x, y)), ...wrong].sort();
}

test('each red place is contradicted, and each contradicted place is red', () => {
  makeElements();
  const rows = ['towers', 'unequal'].flatMap((game) => {
    const ids = read(`../../../playing/bank/${game}.txt`).trim().split('\n'), every = Math.floor((ids.length * OF_A_PUZZLE * 2) / BOARDS);
    return ids.filter((_, at) => at % every === 0).slice(0, BOARDS / OF_A_PUZZLE / 2).map((id) => ({game, id}));
  });
  let boards = 0, contradicted = 0, crossed = 0;
  for (const {game, id} of rows) {
    const session = new Session(game, id), {board: first} = session.ask('board'), picture = new Picture(game, first, ''), desk = new DeskPicture(game, first, '');
    for (let count = 0; count < OF_A_PUZZLE; count++) {
      for (let moves = 1 + chance(first.size); moves; moves--) session.ask(move(first));
      const {board} = session.ask('board'), {hint} = session.ask('hint'), walked = new WalkedHint(hint, board.size), wanted = wrongIn(board);
      const shows = [chance(2) ? null : walked.look(), walked.shown(chance(walked.sentences.length))];
      for (const shown of shows) {
        picture.paint(board, {chosen: placeOf(chance(board.numbers.length), board.size), marking: false, shown, lit: chance(board.size + 1), lanes: true});
        deepEqual([id, redIn(picture)], [id, wanted]);
      }
      const over = {differ: new Map([[0, [1, 2]]]), marked: new Set(itemsOn(board).map(({name}) => name)), mark: 'blamed', solution: null};
      desk.paintDesk(board, {chosen: '0,0', marking: false, shown: NOTHING_SHOWN, lit: 0, lanes: false}, over);
      const own = redIn(desk).filter((name) => !name.startsWith('sign')), all = [own, desk.signs.filter((_, at) => redIn(desk).includes(`sign ${at}`)).length];
      deepEqual([id, all], [id, [wanted.filter((name) => !name.startsWith('sign')), board.signs.filter(({error}) => error).length]]);
      [boards, contradicted, crossed] = [boards + 1, contradicted + Math.sign(wanted.length), crossed + Math.sign(picture.svg.querySelectorAll('.cross').length)];
    }
  }
  equal(boards, BOARDS);
  // They are neither all right nor all wrong, and hints strike numbers on many of them.
  equal(contradicted > 300 && contradicted < 1000 && crossed > 100, true, `${contradicted} ${crossed}`);
});

test('of no board the red places are known', () => {
  deepEqual(RED.filter((one) => !OF_BOARDS.includes(one)).sort(), [...ELSEWHERE].sort());
});

/** How far a colour of six digits is from red, of 180 degrees; that of a grey one is the greatest. */
function fromRed(text) {
  const [red, green, blue] = [1, 3, 5].map((at) => parseInt(text.slice(at, at + 2), 16)), most = Math.max(red, green, blue), range = most - Math.min(red, green, blue);
  if (range < most / 8) return 180;
  const hue = most === red ? (60 * (green - blue)) / range : most === green ? 120 + (60 * (blue - red)) / range : 240 + (60 * (red - green)) / range;
  return Math.abs(((hue + 540) % 360) - 180);
}

test('no other colour can be taken for that of contradictions, light or dark', () => {
  const named = [...style.matchAll(/(--[a-z-]+): *(#[0-9a-f]{6})\b(?![0-9a-f])/g)], red = named.filter(([, , text]) => fromRed(text) < 25);
  equal(named.length > 30, true);
  deepEqual([...new Set(red.map(([, name]) => name))].sort(), ['--wrong', '--wrong-tint']);
  // Each colour has a name, but for the ground behind a dialog.
  deepEqual(style.replace(/--[a-z-]+: *[^;]*;/g, '').match(/#[0-9a-f]{3,8}\b(?=[^{}]*[;}])|\brgba?\(|\bred\b/g), ['#0008']);
});
