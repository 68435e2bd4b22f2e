// The packed parts of the page: the module, and the scripts that aren't wanted at first.

/**
 * Five letters stand for four bytes. The letters are those of Python's base85, with a comma for the one that may begin an element.
 */
const LETTERS_85 = '0123456789ABCDEFGHIJKLMNOPQRSTUVWXYZabcdefghijklmnopqrstuvwxyz!#$%&()*+-;,=>?@^_`{|}~';

/**
 * The bytes that were packed: gzip, in base 85.
 * @param {string} packed
 * @returns {Promise<ArrayBuffer>}
 */
export function unpacked(packed) {
  // TypeScript's list of what browsers have lacks it.
  const {DecompressionStream} = /** @type {any} */ (globalThis);
  // Not the stream of a Blob: WebKit can't read one in a worker of a page from a disk.
  const unzip = new DecompressionStream('gzip');
  const writer = unzip.writable.getWriter();
  writer.write(bytesOf85(packed.trim()));
  writer.close();
  return new Response(unzip.readable).arrayBuffer();
}

/**
 * @param {string} text
 * @returns {Uint8Array}
 */
function bytesOf85(text) {
  const values = new Map([...LETTERS_85].map((letter, value) => [letter.charCodeAt(0), value]));
  const words = Math.ceil(text.length / 5);
  const view = new DataView(new ArrayBuffer(4 * words));
  for (let word = 0; word < words; word += 1) {
    let value = 0;
    for (let at = 5 * word; at < 5 * word + 5; at += 1) {
      // The last word may lack letters: they count as the greatest.
      value = 85 * value + (values.get(text.charCodeAt(at)) ?? 84);
    }
    view.setUint32(4 * word, value);
  }
  return new Uint8Array(view.buffer, 0, 4 * words - (5 * words - text.length));
}
