// The worker in which the module runs, so that nothing that it works on stops the page: one answer for each message, in order.

import {NO_BYTES, bytesOf, textOf} from './bytes.js';
import {Module} from './module.js';
import {unpacked} from './unpacked.js';

/** @typedef {import('./bytes.js').ByteText} ByteText */
/** @typedef {import('./module.js').Game} Game */
/** @typedef {import('./objects.js').Answer} Answer */
/** @typedef {{packed: string}} Beginning             the first message: the module, packed */
/**
 * Each other one: lines to the session of this save, one after the other. The rest isn't asked after a line that is refused or that is the end.
 * @typedef {{game: Game, saved: ByteText, lines: string[], end: End}} Asked
 */
/** Where the lines end: with the last one, or as soon as one tells that the numbers can be completed. */
/** @typedef {'last' | 'completable'} End */
/** @typedef {'unread' | 'memory' | 'trap' | 'unable'} WorkerFault */
/** The answer to each line that was asked, and the text of a save of the session after them; empty where there is none. */
/** @typedef {{answers: Answer[], saved: ByteText}} Answered */
/** @typedef {Answered | {fault: WorkerFault, why: string}} Reply */

/** @type {Module | undefined} */
let module;

const encoder = new TextEncoder();
const decoder = new TextDecoder();

/** The answer to a line that has no object, such as `quit`. */
const NOTHING = '{"refused": null, "reply": [], "session": null}';

self.onmessage = async ({data}) => {
  self.postMessage('packed' in data ? await begun(data) : answered(data));
};

/** @param {Beginning} beginning @returns {Promise<Reply>} */
async function begun({packed}) {
  try {
    const {instance} = await WebAssembly.instantiate(await unpacked(packed), {});
    module = new Module(instance);
    return {answers: [], saved: NO_BYTES};
  } catch (error) {
    return {fault: 'unable', why: String(error)};
  }
}

/** @param {Asked} asked @returns {Reply} */
function answered(asked) {
  if (!module) {
    return {fault: 'unable', why: 'there is no module'};
  }
  try {
    return toLines(module, asked);
  } catch (error) {
    return {fault: 'trap', why: String(error)};
  }
}

/** @param {Module} module @param {Asked} asked @returns {Reply} */
function toLines(module, {game, saved, lines, end}) {
  /** @type {Answer[]} */
  const answers = [];
  let bytes = bytesOf(saved);
  for (const line of lines) {
    const turned = module.turn(game, bytes, encoder.encode(line));
    const said = decoder.decode(turned.said);
    if (turned.outcome === 'unread' || turned.outcome === 'memory') {
      return {fault: turned.outcome, why: said};
    }
    bytes = turned.saved;
    const answer = JSON.parse(said || NOTHING);
    answers.push(answer);
    if (isLast(answer, end)) break;
  }
  return {answers, saved: textOf(bytes)};
}

/** @param {Answer} answer @param {End} end */
function isLast({refused, lost, completable}, end) {
  return Boolean(refused ?? lost) || (end === 'completable' && completable !== undefined && completable !== 'none');
}
