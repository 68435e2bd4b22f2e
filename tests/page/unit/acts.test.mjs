// Each act of a player is the same lines of the program on the page and on the board: the rows of tests/acts.json, which tests/board plays, too.
import {deepEqual} from 'node:assert/strict';
import {readFileSync} from 'node:fs';
import {test} from 'node:test';
import {NO_BYTES, bytesOf, textOf} from '../../../page/bytes.js';
import {Keeping} from '../../../page/keeping.js';
import {Moves} from '../../../page/moves.js';
import {Present} from '../../../page/present.js';
import {WalkedHint} from '../../../page/walked_hint.js';
import {moduleOf} from '../../module/node/module.mjs';

const here = (path) => new URL(path, import.meta.url);
const module = moduleOf(here('../../../programs/web/puzzles.wasm'));

/** Asks the module as the page's worker does, and notes the lines. */
class Noted {
  constructor() { this.lines = []; }
  async turn({game, saved, lines}) {
    const answers = [];
    for (const line of lines) {
      this.lines.push(line);
      const {said, saved: after} = module.turn(game, bytesOf(saved), new TextEncoder().encode(line));
      saved = textOf(after);
      answers.push(JSON.parse(new TextDecoder().decode(said)));
      if (answers[answers.length - 1].refused) break;
    }
    return {answers, saved};
  }
}

const keep = async (moves) => moves.keep(new WalkedHint(await moves.hint(), moves.present.board.size));

const does = (moves, act) => {
  const [word, place, number] = act.split(' ');
  if (word === 'typed') return moves.typed(act.slice(6));
  if (word === 'number' || word === 'mark') return moves.put(place, Number(number), word === 'mark');
  if (word === 'keep') return keep(moves);
  return word === 'possible' ? moves.possible() : moves.line(word === 'all' ? 'move M' : word);
};

for (const row of JSON.parse(readFileSync(here('../../acts.json'), 'utf8'))) {
  test(row.name, async () => {
    const store = new Map(), all = {length: 0, key: () => null, getItem: (name) => store.get(name) ?? null, setItem: (name, text) => store.set(name, text)};
    const nothing = () => undefined, front = {begins: nothing, changes: nothing, tell: nothing, busy: nothing};
    const turns = new Noted(), keeping = new Keeping(() => ({all, tab: null})), present = new Present(turns, keeping, front);
    keeping.set({tidy: row['do marks go']});
    const {answers: [, {board, session}], saved} = await present.askAll([`new ${row.id}`, 'board'], NO_BYTES, row.game);
    present.begin(saved, {board, session}, null);
    const moves = new Moves(present, async () => true);
    for (const [at, [act, lines]] of row.acts.entries()) {
      turns.lines = [];
      await does(moves, act);
      deepEqual([at, act, turns.lines.filter((line) => /^(move|restart|undo|redo)/.test(line))], [at, act, lines]);
    }
  });
}
