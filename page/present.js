// The present game: lines go to the module with the text of its save, and what comes of them is kept. One thing at a time, whatever is asked for.
import {begunGame, seenOf} from './kept.js';
import {showsAs} from './objects.js';
import {NOTHING_CHANGES} from './shared_texts.js';
import {FAULTS, MOVED, refusal} from './texts.js';
import {Unanswered} from './turns.js';

/** @typedef {import('./bytes.js').ByteText} ByteText */
/** @typedef {import('./turns.js').Turns} Turns */
/** @typedef {import('./turns.js').Game} Game */
/** @typedef {import('./worker.js').End} End */
/** @typedef {import('./games.js').Fair} Fair */
/** @typedef {import('./kept.js').Kept} Kept */
/** @typedef {import('./keeping.js').Keeping} Keeping */
/** @typedef {import('./objects.js').Answer} Answer */
/** @typedef {import('./objects.js').Board} Board */
/** @typedef {import('./objects.js').Session} Session */
// A state that can be shown: a board and the session that it is of.
/** @typedef {{board: Board, session: Session}} Looked */
/**
 * The one that shows the game: another one has begun; it has changed, by this tab or another one; there is something to say; the program takes long.
 * @typedef {{begins(): void, changes(before: Board, isOwn: boolean): void, tell(text: string, how?: {bad?: boolean}): void,
 *   busy(isBusy: boolean): void}} Front
 */

/** After so many milliseconds the player learns that the program is at work. */
const PATIENCE = 400;

export class Present {
  /** @param {Turns} turns @param {Keeping} keeping @param {Front} front */
  constructor(turns, keeping, front) {
    this.turns = turns;
    this.keeping = keeping;
    this.front = front;
    /** @type {Promise<unknown>} */
    this.queue = Promise.resolve();
    /** @type {(Looked & {kept: Kept}) | null} */
    this.there = null;
    this.isBusy = false;
  }

  get kept() { return this.game().kept; }
  get board() { return this.game().board; }
  get session() { return this.game().session; }

  game() {
    if (!this.there) throw new Error('no game has begun');
    return this.there;
  }

  // Does something when its turn has come. Where the module fails nothing has changed, and a sentence says so.
  /** @template T @param {() => Promise<T>} work @returns {Promise<T | null>} */
  inTurn(work) {
    const done = this.queue.then(async () => {
      const timer = setTimeout(() => this.busy(true), PATIENCE);
      try {
        return await work();
      } catch (fault) {
        if (!(fault instanceof Unanswered)) throw fault;
        this.front.tell(FAULTS[fault.fault], {bad: fault.fault !== 'stopped'});
        return null;
      } finally {
        clearTimeout(timer);
        if (this.isBusy) this.busy(false);
      }
    });
    this.queue = done.catch(() => null);
    return done;
  }

  /** @param {boolean} isBusy */
  busy(isBusy) {
    this.isBusy = isBusy;
    this.front.busy(isBusy);
  }

  // One line to the session of a save, in a game.
  /** @param {string} line @param {ByteText} [save] @param {Game} [game] */
  async ask(line, save, game) {
    const {answers, saved} = await this.askAll([line], save, game);
    return {answer: answers[0], saved};
  }

  // One line after the other, in one message: their answers, up to the first that is refused or that is the end.
  /** @param {string[]} lines @param {ByteText} [saved] @param {Game} [game] @param {End} [end] */
  askAll(lines, saved = this.kept.save, game = this.kept.game, end = 'last') {
    return this.turns.turn({game, saved, lines, end});
  }

  // Whether the module refuses a line, which is said then.
  /** @param {string} line @param {Answer} answer */
  isRefused(line, {lost, refused}) {
    const name = lost ?? refused;
    if (name) this.front.tell(refusal(line, name, this.kept.game));
    return Boolean(name);
  }

  // The board of a save.
  /** @param {ByteText} save @param {Game} game @returns {Promise<Looked>} */
  async look(save, game) {
    const {answer} = await this.ask('board', save, game), {board, session} = answer;
    if (!board || !session) throw new Unanswered(answer.lost ? 'memory' : 'unread');
    return {board, session};
  }

  // Plays lines as one move, and keeps the game that comes of them; the last answer. Lines that change nothing are no move.
  /** @param {string[]} lines @param {boolean} isHistory  undo or redo */
  async play(lines, isHistory = false) {
    if (await this.isBehind()) return null;
    const asked = [...lines, 'board'], {answers, saved} = await this.askAll(asked), last = answers.length - 1, {board, session} = answers[last];
    if (this.isRefused(asked[last], answers[last]) || !board || !session) return null;
    const before = this.session.position, after = session.position, {joined} = this.kept;
    if (after !== before && !isHistory && showsAs(board, this.board)) {
      this.front.tell(NOTHING_CHANGES);
      return null;
    }
    /** @type {[number, number][]} */
    const added = after - before > 1 ? [[after, before]] : [];
    const stays = isHistory || after <= before ? joined : [...joined.filter(([last]) => last <= before), ...added];
    await this.advance({...this.kept, ...seenOf(session, board, saved), joined: stays}, {board, session});
    return answers[last - 1];
  }

  // How many states the last move, or the next one, is.
  /** @param {'undo' | 'redo'} way @param {number} position */
  statesOf(way, position) {
    const {kept, session} = this;
    const [last, first] = kept.joined.find((pair) => pair[way === 'undo' ? 0 : 1] === position && pair[0] <= session.states) ?? [1, 0];
    return last - first;
  }

  /** Whether another tab has moved in between; its game is shown then, and a sentence says so. */
  async isBehind() {
    const isBehind = await this.catchUp();
    if (isBehind) this.front.tell(MOVED, {bad: true});
    return isBehind;
  }

  // Shows what another tab has made of this game, where it has; whether it has.
  /** @param {Kept | null} there */
  async catchUp(there = this.keeping.game(this.kept.key)) {
    if (!there || there.key !== this.kept.key || there.turn === this.kept.turn) return false;
    this.change(there, await this.look(there.save, there.game), false);
    return true;
  }

  // The game as it is now is kept, and shown.
  /** @param {Kept} kept @param {Looked} looked */
  async advance(kept, looked) {
    const next = {...kept, turn: this.kept.turn + 1, seconds: this.kept.seconds};
    if (!this.keeping.keep(next)) await this.isBehind();
    else this.change(next, looked, true);
  }

  /** @param {Kept} kept @param {Looked} looked @param {boolean} isOwn */
  change(kept, looked, isOwn) {
    const before = this.board;
    this.there = {...looked, kept};
    this.front.changes(before, isOwn);
  }

  // Shows another game, which is kept.
  /** @param {Kept} kept @param {Looked} looked */
  open(kept, looked) {
    this.keeping.now = kept.key;
    this.show({...looked, kept});
  }

  // Shows another game, or a board that is kept nowhere.
  /** @param {Looked & {kept: Kept}} there */
  show(there) {
    if (this.there) this.keeping.keepTime(this.kept);
    this.there = there;
    this.front.begins();
  }

  // Begins a game that isn't kept yet.
  /** @param {ByteText} save @param {Looked} looked @param {Fair | null} fair */
  begin(save, looked, fair) {
    const kept = begunGame(looked.session, looked.board, save, fair);
    this.keeping.keep(kept);
    this.open(kept, looked);
  }
}
