// Gives the page's module the words and the lines of puzzles-json, so that the tests of that program try the module:
//
//     node puzzles-json.mjs MODULE GAME [--id ID] [--load FILE] [--save FILE]
//
// The statuses and the lines on standard error are the program's; it has no help.

import {readFileSync, readSync, renameSync, writeFileSync, writeSync} from 'node:fs';
import {parseArgs} from 'node:util';
import {moduleOf} from './module.mjs';

/** @typedef {import('../../../page/module.js').Turned} Turned */

const LINE_FEED = 10;
const CHUNK = 1 << 16;
const NOTHING = new Uint8Array(0);

/** Why it ends, and with which status. */
class End extends Error {
  /** @param {number} status @param {string} [line] */
  constructor(status, line = '') {
    super(line);
    this.status = status;
  }
}

/** A game, whose session is kept as the text of a save. */
class Session {
  /** @param {import('../../../page/module.js').Module} module @param {import('../../../page/module.js').Game} game */
  constructor(module, game) {
    this.module = module;
    this.game = game;
    this.saved = NOTHING;
  }

  /**
   * The answer to a line, after which the session is the one that it leaves.
   * @param {Uint8Array} line @param {Uint8Array} [before] @returns {Turned}
   */
  turn(line, before = this.saved) {
    const turned = this.module.turn(this.game, before, line);
    if (turned.outcome === 'memory') {
      throw new End(1, 'out of memory');
    }
    if (turned.outcome === 'unread') {
      throw new End(3, Buffer.from(turned.said).toString());
    }
    this.saved = turned.saved;
    return turned;
  }

  /**
   * Begins with a file. No bytes would stand for no session, and a file without bytes is no save.
   * @param {Uint8Array} bytes
   */
  load(bytes) {
    if (!bytes.length) {
      throw new End(3, 'refused: NotASave');
    }
    this.turn(NOTHING, bytes);
  }

  /** @param {string} id */
  begin(id) {
    const {refused} = JSON.parse(Buffer.from(this.turn(Buffer.from(`new ${id}`)).said).toString());
    if (refused) {
      throw new End(3, `refused: ${refused}`);
    }
  }

  /** Answers the lines of standard input. */
  play() {
    for (const line of lines()) {
      const turned = this.turn(line);
      write(turned.said);
      if (turned.outcome === 'ended') {
        return;
      }
    }
  }
}

/**
 * The lines of standard input, each as soon as it is there, and what stands after the last LF.
 * @returns {Generator<Uint8Array>}
 */
function* lines() {
  const chunk = Buffer.alloc(CHUNK);
  /** @type {Buffer} */
  let left = Buffer.alloc(0);
  for (;;) {
    const count = or('cannot read the input', () => come(chunk));
    if (!count) {
      yield left;
      return;
    }
    left = Buffer.concat([left, chunk.subarray(0, count)]);
    for (let end = left.indexOf(LINE_FEED); end >= 0; end = left.indexOf(LINE_FEED)) {
      yield left.subarray(0, end);
      left = left.subarray(end + 1);
    }
  }
}

/**
 * How many bytes have come from standard input; none at its end, which Windows tells by a fault.
 * @param {Uint8Array} chunk
 */
function come(chunk) {
  try {
    return readSync(0, chunk);
  } catch (fault) {
    if (/** @type {{code?: string}} */ (fault).code === 'EOF') {
      return 0;
    }
    throw fault;
  }
}

/** @param {Uint8Array} bytes */
function write(bytes) {
  for (let at = 0; at < bytes.length;) {
    at += or('cannot write the output', () => writeSync(1, bytes, at));
  }
}

/**
 * Does something, or ends so; of a file that is to be read with its name and why it isn't.
 * @template T @param {string} line @param {() => T} does @param {string} [name] @returns {T}
 */
function or(line, does, name) {
  try {
    return does();
  } catch (fault) {
    throw new End(1, name === undefined ? line : `${line}\n${name}: ${fault instanceof Error ? fault.message : fault}`);
  }
}

/** @param {string} path @param {Uint8Array} text */
function save(path, text) {
  or('cannot write the file', () => {
    writeFileSync(`${path}.new`, text);
    renameSync(`${path}.new`, path);
  });
}

/**
 * The game and the options that the words name.
 * @param {string[]} args
 */
function read(args) {
  try {
    const {positionals: [game, ...more], values} = parseArgs({
      args, allowPositionals: true, options: {id: {type: 'string'}, load: {type: 'string'}, save: {type: 'string'}},
    });
    if ((game === 'towers' || game === 'unequal') && !more.length && (values.id === undefined || values.load === undefined)) {
      return /** @type {const} */ ([game, values]);
    }
  } catch {
    // Words that are none.
  }
  throw new End(2, 'usage: puzzles-json towers | unequal [--id ID] [--load FILE] [--save FILE]');
}

/** @param {string[]} given */
function main([path, ...given]) {
  const [game, words] = read(given);
  const {load, id} = words;
  const file = load === undefined ? undefined : or('cannot read the file', () => readFileSync(load), load);
  const session = new Session(moduleOf(path), game);
  if (file) {
    session.load(file);
  } else if (id !== undefined) {
    session.begin(id);
  }
  session.play();
  if (words.save !== undefined && session.saved.length) {
    save(words.save, session.saved);
  }
}

try {
  main(process.argv.slice(2));
} catch (end) {
  if (!(end instanceof End)) {
    throw end;
  }
  console.error(end.message);
  process.exitCode = end.status;
}
