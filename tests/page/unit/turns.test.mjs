// Workers that fail: what is asked next is asked of a new one. In a browser `test_faults` tries it.
import {deepEqual} from 'node:assert/strict';
import {test} from 'node:test';
import {Turns} from '../../../page/turns.js';

/** Each answers as the next of these words says: it can't begin, or fails at what it is asked, or doesn't; `unable` is what it says itself. */
class FailingWorker {
  constructor() { FailingWorker.count++; }
  terminate() {}
  postMessage(message) {
    setImmediate(() => {
      const word = 'packed' in message ? FailingWorker.begins.shift() : FailingWorker.answers.shift();
      if (word === 'error') this.onerror({message: 'it failed'});
      else this.onmessage({data: word ? {fault: word, why: word} : {answers: [], saved: ''}});
    });
  }
}

const rows = [
  // How workers begin, how they answer what they are asked, and what comes of each turn.
  [['', ''], ['error', ''], ['trap', 'answered']],
  [['error', ''], [''], ['unable', 'answered']],
  [['error', 'error', ''], [''], ['unable', 'unable', 'answered']],
  [['unable', ''], [''], ['unable', 'answered']],
  [['', ''], ['trap', ''], ['trap', 'answered']],
  [[''], ['unread', ''], ['unread', 'answered']],
];

test('after a worker that failed the next turn has a new one', async () => {
  globalThis.Worker = FailingWorker;
  URL.createObjectURL = () => 'worker';
  for (const [begins, answers, wanted] of rows) {
    Object.assign(FailingWorker, {begins: [...begins], answers: [...answers], count: 0});
    const turns = new Turns('', ''), found = [];
    for (const _ of wanted) {
      found.push(await turns.turn({game: 'towers', saved: '', lines: [], end: 'last'}).then(() => 'answered', ({fault}) => fault));
      // The new one begins by itself.
      for (let round = 0; round < 5; round++) await new Promise((done) => setImmediate(done));
    }
    deepEqual([found, FailingWorker.count], [wanted, begins.length], begins.join());
  }
});
