// Each growth of the module's memory is refused in turn, until none is:     node little_memory.mjs MODULE
//
// Whatever is refused, a line has the answer that it has with all memory, or it is told that there was none, and then the session is the one before or, where
// the object alone had none, the one after. The same module answers the lines that come then, too.

import {readFileSync} from 'node:fs';
import {bothAnswered, isSame} from './game.mjs';
import {moduleOf, pagesOf} from './module.mjs';

/** @typedef {import('./game.mjs').Answered} Answered */

/** The answer if there was no memory: to the line, and as its object. */
const REFUSED = '{"refused":"OutOfMemory"';
const LOST = '{"lost":"OutOfMemory"}\n';

/**
 * Whether the line had its answer. Throws where it had another one.
 * @param {import('../../../page/module.js').Module} module @param {Answered} wanted @returns {boolean}
 */
function hasAnswer(module, wanted) {
  const {outcome, said, saved} = module.turn(wanted.game, wanted.before, wanted.line);
  if (outcome === 'memory') {
    return false;
  }
  const text = Buffer.from(said).toString();
  if (isSame(said, wanted.said) && isSame(saved, wanted.saved)) {
    return true;
  }
  const isTold = text.startsWith(REFUSED) ? isSame(saved, wanted.before) : text === LOST && (isSame(saved, wanted.before) || isSame(saved, wanted.saved));
  if (!isTold) {
    throw new Error(`${Buffer.from(wanted.line)}: ${outcome}, ${text}`);
  }
  return false;
}

const [, , path] = process.argv;
const games = bothAnswered(path);
const least = pagesOf(readFileSync(path));
let refused = 0;
let tried = 0;
let isWhole = false;
for (let pages = least; !isWhole; pages += 1) {
  const module = moduleOf(path, {pages});
  const lacking = games.filter((wanted) => !hasAnswer(module, wanted));
  refused += lacking.length;
  isWhole = !lacking.length;
  tried += 1;
}
console.log(`${tried} limits, ${refused} lines refused`);
