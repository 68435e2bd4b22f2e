// The module of the proved turn, called with bytes. A page's worker and node run this same code, so it knows neither of them.

/** @typedef {'towers' | 'unequal'} Game */
/** @typedef {'answered' | 'ended' | 'unread' | 'memory'} Outcome */

/**
 * The result of a call: the text that is said, and the text of a save of the session after. Where the text before was no save, the program's line on it is
 * said.
 * @typedef {{outcome: Outcome, said: Uint8Array, saved: Uint8Array}} Turned
 */

/**
 * The names that the module hands to its host. Addresses and lengths are of 64 bits.
 * @typedef {object} Exports
 * @property {WebAssembly.Memory} memory
 * @property {(length: bigint) => bigint} page_take   the address of a block of memory; 0 where there is none
 * @property {(address: bigint) => void} page_give    takes a block back
 * @property {(isUnequal: number, before: bigint, beforeLength: bigint, line: bigint, lineLength: bigint,
 *     said: bigint, saidRoom: bigint, saved: bigint, savedRoom: bigint, ending: bigint) => void} puzzles_turn
 */

/**
 * The outcomes by their numbers. The last one says that a room was too short, and how long both have to be.
 * @type {readonly (Outcome | 'room')[]}
 */
const OUTCOMES = ['answered', 'ended', 'unread', 'memory', 'room'];

/** An ending is three numbers of 8 bytes: that of the outcome, and the lengths of what is said and saved. */
const ENDING_NUMBERS = 3;
const ENDING_BYTES = 8 * ENDING_NUMBERS;

/** The fewest bytes that a room has, so that it seldom has to grow. */
const LEAST_ROOM = 1 << 14;

/** A call that lacks room says how much it needs, so that the next one has it. */
const ROUNDS = 2;

/** Where a room lies that has no bytes: nobody looks there. */
const NOWHERE = 1n;

const NOTHING = new Uint8Array(0);

/** The module has no memory for a room. */
class NoMemory extends Error {}

/** Room in the module's memory for bytes that go in or come out. */
class Room {
  /** @param {Exports} exports */
  constructor(exports) {
    this.exports = exports;
    this.address = NOWHERE;
    this.length = 0;
  }

  /**
   * Makes room for so many bytes at least. The bytes in it may be lost.
   * @param {number} length
   */
  grow(length) {
    if (this.length >= length) {
      return;
    }
    this.leave();
    const wanted = Math.max(LEAST_ROOM, 2 * length);
    const address = this.exports.page_take(BigInt(wanted));
    if (address === 0n) {
      throw new NoMemory();
    }
    this.address = address;
    this.length = wanted;
  }

  leave() {
    if (this.length > 0) {
      this.exports.page_give(this.address);
    }
    this.address = NOWHERE;
    this.length = 0;
  }

  /** @param {Uint8Array} bytes */
  put(bytes) {
    this.grow(bytes.length);
    this.seen(bytes.length).set(bytes);
  }

  /** @param {number} length @returns {Uint8Array} */
  copy(length) {
    return this.seen(length).slice();
  }

  /**
   * Its first bytes, until the memory grows.
   * @param {number} length @returns {Uint8Array}
   */
  seen(length) {
    return new Uint8Array(this.exports.memory.buffer, Number(this.address), length);
  }
}

/** An instance of the module. After a trap it is not to be called any more. */
export class Module {
  /** @param {WebAssembly.Instance} instance */
  constructor(instance) {
    this.exports = /** @type {Exports} */ (/** @type {unknown} */ (instance.exports));
    this.before = new Room(this.exports);
    this.line = new Room(this.exports);
    this.said = new Room(this.exports);
    this.saved = new Room(this.exports);
    this.ending = new Room(this.exports);
  }

  /**
   * Answers the bytes of a line to the session of which the bytes before are a save; no bytes stand for no session.
   * @param {Game} game @param {Uint8Array} before @param {Uint8Array} line
   * @returns {Turned}
   */
  turn(game, before, line) {
    try {
      this.before.put(before);
      this.line.put(line);
      this.said.grow(LEAST_ROOM);
      this.saved.grow(LEAST_ROOM);
      this.ending.grow(ENDING_BYTES);
      return this.turned(game, before.length, line.length);
    } catch (fault) {
      if (fault instanceof NoMemory) {
        return {outcome: 'memory', said: NOTHING, saved: NOTHING};
      }
      throw fault;
    }
  }

  /**
   * Calls the module until the answer has its room: the same line to the same session has the same answer.
   * @param {Game} game @param {number} before @param {number} line
   * @returns {Turned}
   */
  turned(game, before, line) {
    for (let round = 0; round < ROUNDS; round += 1) {
      const [number, said, saved] = this.called(game, before, line);
      const outcome = OUTCOMES[number];
      if (outcome === 'memory') {
        return {outcome, said: NOTHING, saved: NOTHING};
      }
      if (outcome !== 'room') {
        return {outcome, said: this.said.copy(said), saved: this.saved.copy(saved)};
      }
      this.said.grow(said);
      this.saved.grow(saved);
    }
    throw new Error('the module has asked for room again');
  }

  /**
   * One call, and its ending.
   * @param {Game} game @param {number} before @param {number} line
   * @returns {number[]}
   */
  called(game, before, line) {
    this.exports.puzzles_turn(
      game === 'unequal' ? 1 : 0,
      this.before.address, BigInt(before),
      this.line.address, BigInt(line),
      this.said.address, BigInt(this.said.length),
      this.saved.address, BigInt(this.saved.length),
      this.ending.address,
    );
    return [...new BigUint64Array(this.exports.memory.buffer, Number(this.ending.address), ENDING_NUMBERS)].map(Number);
  }
}
