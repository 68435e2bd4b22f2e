// The page's module in node, as a test wants it: with less memory to grow into, or less of a stack.

import {readFileSync} from 'node:fs';
import {Module} from '../../../page/module.js';

/** The sections that a smaller module has otherwise. */
const MEMORIES = 5;
const GLOBALS = 6;

/** A module begins with eight bytes that say so. */
const HEAD = 8;

/** A 64-bit number that is written in a module stands behind this byte. */
const I64_CONST = 0x42;

/**
 * @param {string} path
 * @param {{pages?: number, stack?: number}} [less]  the most pages that the memory may grow to, and the bytes of the stack
 * @returns {Module}
 */
export function moduleOf(path, less = {}) {
  const code = new WebAssembly.Module(smaller(readFileSync(path), less));
  return new Module(new WebAssembly.Instance(code, {}));
}

/**
 * The pages that a module's memory has at first.
 * @param {Uint8Array} bytes @returns {number}
 */
export function pagesOf(bytes) {
  const memories = sections(bytes).find(({number}) => number === MEMORIES);
  return memories ? numberAt(memories.content, 2).value : 0;
}

/** @param {Uint8Array} bytes @param {{pages?: number, stack?: number}} less @returns {Uint8Array} */
function smaller(bytes, {pages, stack}) {
  const parts = sections(bytes).map(({number, content}) => {
    if (number === MEMORIES && pages !== undefined) {
      return section(number, limited(content, pages));
    }
    return section(number, number === GLOBALS && stack !== undefined ? withStack(content, stack) : content);
  });
  return Buffer.concat([bytes.subarray(0, HEAD), ...parts]);
}

/** @param {Uint8Array} bytes @returns {{number: number, content: Uint8Array}[]} */
function sections(bytes) {
  const found = [];
  for (let at = HEAD; at < bytes.length;) {
    const {value, end} = numberAt(bytes, at + 1);
    found.push({number: bytes[at], content: bytes.subarray(end, end + value)});
    at = end + value;
  }
  return found;
}

/**
 * The one memory, which has no limit, with one.
 * @param {Uint8Array} content @param {number} pages @returns {number[]}
 */
function limited(content, pages) {
  if (content[0] !== 1 || content[1] !== 0) {
    throw new Error('the module has not one memory without a limit');
  }
  return [1, 1, ...content.subarray(2), ...unsigned(pages)];
}

/**
 * The first global is where the stack begins, from which it grows down to 0.
 * @param {Uint8Array} content @param {number} stack @returns {number[]}
 */
function withStack(content, stack) {
  const start = content.indexOf(I64_CONST) + 1;
  const {end} = numberAt(content, start);
  return [...content.subarray(0, start), ...signed(stack), ...content.subarray(end)];
}

/** @param {number} number @param {number[] | Uint8Array} content @returns {Uint8Array} */
function section(number, content) {
  return Buffer.concat([Uint8Array.from([number, ...unsigned(content.length)]), Uint8Array.from(content)]);
}

/**
 * A number as a module has it: seven bits a byte, the low ones first.
 * @param {Uint8Array} bytes @param {number} at @returns {{value: number, end: number}}
 */
function numberAt(bytes, at) {
  let value = 0;
  let end = at;
  do {
    value += (bytes[end] & 0x7f) * 2 ** (7 * (end - at));
    end += 1;
  } while (bytes[end - 1] >= 0x80);
  return {value, end};
}

/** @param {number} number @returns {number[]} */
function unsigned(number) {
  return number < 0x80 ? [number] : [(number & 0x7f) | 0x80, ...unsigned(number >> 7)];
}

/**
 * The same of a number that may be below 0, whose sign is the highest bit.
 * @param {number} number @returns {number[]}
 */
function signed(number) {
  return number < 0x40 ? [number] : [(number & 0x7f) | 0x80, ...signed(number >> 7)];
}
