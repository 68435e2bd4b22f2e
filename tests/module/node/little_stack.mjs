// The module with a shorter stack, until it is long enough:     node little_stack.mjs MODULE
//
// A line has its answer, or the module traps; it never answers otherwise. A new module goes on with the same text.

import {bothAnswered, isSame} from './game.mjs';
import {moduleOf} from './module.mjs';

/** Each stack has so many bytes more than the one before. */
const STEP = 4096;

/**
 * Whether the line had its answer, in a module of its own. Throws where it had another one.
 * @param {string} path @param {number} stack @param {import('./game.mjs').Answered} wanted @returns {boolean}
 */
function hasAnswer(path, stack, wanted) {
  const module = moduleOf(path, {stack});
  try {
    const {outcome, said, saved} = module.turn(wanted.game, wanted.before, wanted.line);
    if (!isSame(said, wanted.said) || !isSame(saved, wanted.saved)) {
      throw new Error(`${Buffer.from(wanted.line)}: ${outcome}, ${Buffer.from(said)}`);
    }
    return true;
  } catch (fault) {
    if (fault instanceof WebAssembly.RuntimeError && fault.message === 'unreachable') {
      return false;
    }
    throw fault;
  }
}

const [, , path] = process.argv;
const games = bothAnswered(path);
let trapped = 0;
let isWhole = false;
let stack = 0;
while (!isWhole) {
  stack += STEP;
  const lacking = games.filter((wanted) => !hasAnswer(path, stack, wanted));
  trapped += lacking.length;
  isWhole = !lacking.length;
}
console.log(`${stack} bytes are enough, ${trapped} lines trapped`);
