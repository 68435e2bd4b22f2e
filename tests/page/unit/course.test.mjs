// On each card of the course the numbers of its only solution are taken, and no other ones: by the module's answer on the board with each of them.
import {deepEqual, equal} from 'node:assert/strict';
import {test} from 'node:test';
import {NO_BYTES, bytesOf, textOf} from '../../../page/bytes.js';
import {Course} from '../../../page/course.js';
import {Keeping} from '../../../page/keeping.js';
import {Moves} from '../../../page/moves.js';
import {isSolved, placeOf} from '../../../page/objects.js';
import {Present} from '../../../page/present.js';
import {CARDS, RIGHT} from '../../../page/shared_texts.js';
import {moduleOf} from '../../module/node/module.mjs';

const module = moduleOf(new URL('../../../programs/web/puzzles.wasm', import.meta.url)), nothing = () => undefined;

function asked({game, saved, lines}) {
  const answers = lines.map((line) => {
    const turned = module.turn(game, bytesOf(saved), new TextEncoder().encode(line));
    saved = textOf(turned.saved);
    return JSON.parse(new TextDecoder().decode(turned.said));
  });
  return {answers, saved};
}

/** The course of a game, at a page that shows nothing. */
async function courseOf(game) {
  const rest = () => course.isOpen && course.rest(), front = {begins: rest, changes: rest, tell: nothing, busy: nothing};
  const present = new Present({turn: async (asks) => asked(asks)}, new Keeping(() => ({all: null, tab: null})), front);
  const messages = {rest: {text: ''}, stay(text) { this.rest.text = text; }, tell: nothing, clear: nothing};
  const walk = {forget: nothing, next: () => ''}, page = {present, messages, walk, moves: new Moves(present, async () => true), screen: {choose: nothing}};
  const course = new Course(page), {answers: [, {board, session}], saved} = await present.askAll([`new ${CARDS[game][0][0]}`, 'board'], NO_BYTES, game);
  present.show({board, session, kept: {game, save: saved, key: 'a'}});
  return course;
}

for (const game of ['towers', 'unequal']) for (const [at, [id, text]] of CARDS[game].entries()) test(`${game} ${id}`, async () => {
  const course = await courseOf(game);
  await course.go(at);
  const {present, messages} = course.page, {goal, size, hint} = course.walked, order = present.board.numbers.map((_, cell) => placeOf(cell, size));
  equal(messages.rest.text.startsWith(text), true);
  // That of the card is the last one, since none is put in after it.
  for (const place of order.filter((one) => one !== goal).concat(goal)) for (let number = 1; number <= size; number++) {
    const before = present.board.numbers, cell = order.indexOf(place);
    if (before[cell]) break;
    const {answers: [, , {completable}]} = asked({game, saved: NO_BYTES, lines: [`new ${id}`, `move R${place},${number}`, 'completable']});
    await course.answer(place, number);
    deepEqual([place, number, present.board.numbers[cell]], [place, number, completable === 'one' ? number : 0]);
  }
  deepEqual([isSolved(present.board), messages.rest.text === RIGHT], [hint.kind === 'follows', hint.kind === 'follows']);
});
