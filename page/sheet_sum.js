// SHA-256: a page that a server hands out without TLS has none of the browser's.

/** @param {number} count */
function primes(count) {
  /** @type {number[]} */
  const found = [];
  for (let number = 2; found.length < count; number++) if (found.every((prime) => number % prime)) found.push(number);
  return found;
}

/** @param {number} root */
const fraction = (root) => ((root - Math.floor(root)) * 2 ** 32) | 0;

const PRIMES = primes(64), ROUND = PRIMES.map((prime) => fraction(Math.cbrt(prime))), START = PRIMES.slice(0, 8).map((prime) => fraction(Math.sqrt(prime)));

/** @param {number} word @param {number} by */
const turned = (word, by) => (word >>> by) | (word << (32 - by));

// The sum of a text, in letters of base 16.
/** @param {string} text */
export function sumOf(text) {
  const bytes = new TextEncoder().encode(text), length = Math.ceil((bytes.length + 9) / 64) * 64, view = new DataView(new ArrayBuffer(length));
  bytes.forEach((byte, at) => view.setUint8(at, byte));
  view.setUint8(bytes.length, 0x80);
  view.setBigUint64(length - 8, BigInt(bytes.length * 8));
  let sum = [...START];
  for (let block = 0; block < length; block += 64) {
    const words = Array.from({length: 16}, (_, at) => view.getInt32(block + 4 * at));
    let [a, b, c, d, e, f, g, h] = sum;
    ROUND.forEach((own, at) => {
      if (at > 15) {
        const [one, two] = [words[at - 15], words[at - 2]];
        words.push((words[at - 16] + words[at - 7] + (turned(one, 7) ^ turned(one, 18) ^ (one >>> 3)) + (turned(two, 17) ^ turned(two, 19) ^ (two >>> 10))) | 0);
      }
      const more = h + (turned(e, 6) ^ turned(e, 11) ^ turned(e, 25)) + ((e & f) ^ (~e & g)) + own + words[at];
      const most = (turned(a, 2) ^ turned(a, 13) ^ turned(a, 22)) + ((a & b) ^ (a & c) ^ (b & c));
      [a, b, c, d, e, f, g, h] = [(more + most) | 0, a, b, c, (d + more) | 0, e, f, g];
    });
    sum = sum.map((word, at) => (word + [a, b, c, d, e, f, g, h][at]) | 0);
  }
  return sum.map((word) => (word >>> 0).toString(16).padStart(8, '0')).join('');
}
