// A save as the page has it: a text each of whose letters stands for one byte. Texts of people are of another type, so neither is taken for the
// other.

/** @typedef {string & {readonly letters: 'bytes'}} ByteText */

/** No bytes, which stand for no session. */
export const NO_BYTES = /** @type {ByteText} */ ('');

/** So many bytes become letters at once; engines take no longer lists. */
const LETTERS = 1 << 13;

// The bytes as text: each is the letter of its number, so that none is lost.
/** @param {Uint8Array} bytes @returns {ByteText} */
export function textOf(bytes) {
  let text = '';
  // By `apply`: to spread the bytes takes ten times as long.
  for (let at = 0; at < bytes.length; at += LETTERS) text += String.fromCharCode.apply(null, /** @type {any} */ (bytes.subarray(at, at + LETTERS)));
  return /** @type {ByteText} */ (text);
}

// By a loop: over the letters of a text `Uint8Array.from` takes up to a hundred times as long.
/** @param {ByteText} text */
export function bytesOf(text) {
  const bytes = new Uint8Array(text.length);
  for (let at = 0; at < text.length; at++) bytes[at] = text.charCodeAt(at);
  return bytes;
}

/** @param {unknown} text @returns {text is ByteText} */
export const isByteText = (text) => typeof text === 'string' && !/[^\0-\xff]/.test(text);
