// Bytes and texts, and a module that asks for room for ever.
import {deepEqual, equal, throws} from 'node:assert/strict';
import {test} from 'node:test';
import {bytesOf, isByteText, textOf} from '../../../page/bytes.js';
import {Module} from '../../../page/module.js';

test('bytes come back as they were', () => {
  const bytes = Uint8Array.from({length: 20000}, (_, at) => at % 256), text = textOf(bytes);
  equal(text.length, bytes.length);
  deepEqual(bytesOf(text), bytes);
  deepEqual([text, '', 'gr\xfcn', 'Ωmega', '日本', 7].map(isByteText), [true, true, true, false, false, false]);
});

test('a call that asks for room twice is a fault, and no loop', () => {
  const memory = new WebAssembly.Memory({initial: 16});
  let calls = 0, end = 64;
  const exports = {
    memory, page_give() {}, page_take: (length) => BigInt((end += Number(length)) - Number(length)),
    puzzles_turn(...all) {
      calls++;
      new BigUint64Array(memory.buffer, Number(all[9]), 3).set([4n, 20000n, 20000n]);
    },
  };
  throws(() => new Module({exports}).turn('towers', new Uint8Array(0), new Uint8Array(0)), /room/);
  equal(calls, 2);
});
