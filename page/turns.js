// The page's questions to the module: lines to a session, which the page has as the text of a save. The module runs in a worker.
import {addressOf} from './later.js';

/** @typedef {import('./module.js').Game} Game */
/** @typedef {import('./worker.js').Asked} Asked */
/** @typedef {import('./worker.js').Reply} Reply */
/** @typedef {import('./worker.js').Answered} Answered */
/** @typedef {import('./worker.js').WorkerFault | 'stopped'} Fault */

/** Why lines have no answer. The session is as it was before, since the page has its text. */
export class Unanswered extends Error {
  /** @param {Fault} fault @param {string} [why] */
  constructor(fault, why) {
    super(why || fault);
    this.fault = fault;
  }
}

/**
 * The faults after which a worker is asked no more.
 * @type {Set<Fault>}
 */
const LAST_FAULTS = new Set(['memory', 'trap', 'unable']);

/** The address of the worker's script: a browser with trusted types takes it once. */
let address = '';

/** A worker, which is asked one thing at a time. */
class Helper {
  /** @param {string} script */
  constructor(script) {
    this.worker = new Worker(script);
    /** @type {(reply: Reply) => void} */
    this.answer = () => undefined;
    /** @type {(why: Unanswered) => void} */
    this.refuse = () => undefined;
    this.worker.onmessage = ({data}) => this.answer(data);
    // Once it has answered, this browser can run it: another one may.
    this.hasAnswered = false;
    this.worker.onerror = ({message}) => this.refuse(new Unanswered(this.hasAnswered ? 'trap' : 'unable', message));
  }

  /** @param {import('./worker.js').Beginning | Asked} message @returns {Promise<Answered>} */
  async ask(message) {
    const reply = await new Promise((/** @type {(reply: Reply) => void} */ settle, refuse) => {
      this.answer = settle;
      this.refuse = refuse;
      this.worker.postMessage(message);
    });
    if ('fault' in reply) {
      throw new Unanswered(reply.fault, reply.why);
    }
    this.hasAnswered = true;
    return reply;
  }

  /** The lines that it was asked have no answer, then. */
  end() {
    this.worker.terminate();
    this.refuse(new Unanswered('stopped'));
  }
}

/** Messages are answered one by one, in the order in which they were asked. */
export class Turns {
  /** @param {string} packed  the module, packed  @param {string} script  the text of the worker */
  constructor(packed, script) {
    this.packed = packed;
    this.script = script;
    /** How often turns were stopped. */
    this.stops = 0;
    /** @type {Promise<unknown>} */
    this.last = Promise.resolve();
    /** @type {Promise<Helper> | null} */
    this.helper = null;
  }

  /** A worker that can answer lines, begun where there is none. Refused as `unable` where this browser can't run the module. */
  ready() {
    return this.helper ??= this.begun();
  }

  async begun() {
    try {
      address ||= addressOf(this.script);
      this.begins = new Helper(address);
    } catch (fault) {
      throw new Unanswered('unable', String(fault));
    }
    const {begins} = this;
    await begins.ask({packed: this.packed});
    return begins;
  }

  /**
   * The answers to lines, in the session of this save, or in none where that is empty.
   * @param {Asked} asked
   * @returns {Promise<Answered>}
   */
  turn(asked) {
    const {stops} = this;
    const turn = this.last.then(() => this.answered(stops, asked));
    this.last = turn.catch(() => undefined);
    return turn;
  }

  /** Ends what is worked on. Each turn that was asked for and has no answer yet is refused as `stopped`. */
  stop() {
    this.stops += 1;
    this.anew();
  }

  /** Ends it for good, with all that was asked. */
  end() {
    this.stops += 1;
    this.begins?.end();
  }

  anew() {
    this.begins?.end();
    this.helper = null;
    // The next turn is refused where this fails; there may be none.
    this.ready().catch(() => undefined);
  }

  /** @param {number} stops @param {Asked} asked @returns {Promise<Answered>} */
  async answered(stops, asked) {
    if (stops !== this.stops) {
      throw new Unanswered('stopped');
    }
    try {
      const helper = await this.ready();
      if (stops !== this.stops) {
        throw new Unanswered('stopped');
      }
      return await helper.ask(asked);
    } catch (why) {
      if (why instanceof Unanswered && LAST_FAULTS.has(why.fault)) {
        this.anew();
      }
      throw why;
    }
  }
}
