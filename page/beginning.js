// How a game begins: by its size and grade, by a number, an ID, a link or a save; and how a kept one goes on.
import {NO_BYTES} from './bytes.js';
import {byChance, isGame, kindOfName, lineOf, named, NAMES} from './games.js';
import {CANNOT_BE_READ, FAULTS, GOES_ON, GONE, NO_SUCH_LINK, WELCOME, numberedText, refusal, unreadText} from './texts.js';
import {Unanswered} from './turns.js';

/** @typedef {import('./bytes.js').ByteText} ByteText */
/** @typedef {import('./present.js').Present} Present */
/** @typedef {import('./present.js').Looked} Looked */
/** @typedef {import('./kept.js').Kept} Kept */
/** @typedef {import('./turns.js').Game} Game */
/** @typedef {import('./games.js').Kind} Kind */
/** @typedef {import('./games.js').Fair} Fair */
/** @typedef {import('./games.js').Named} Named */
/** The outcome, and the sentence that tells it. */
/** @typedef {{how: 'begun' | 'goesOn' | 'refused', text: string, bad?: boolean}} Outcome */
/**
 * The result of a line: a game that can be shown, or nothing and why. With the game of the same ID that is kept, if there is one.
 * @typedef {{save: ByteText, looked: Looked | null, why: string, before?: Kept}} Made
 */

/** So many numbers by chance are tried, since a few have no game, and some the same one. */
const TRIES = 20;

export class Beginning {
  /** @param {Present} present */
  constructor(present) {
    this.present = present;
  }

  // --- what a player asks for ---

  /** @param {Kind} kind */
  byChance(kind) { return this.inTurn(() => this.chance(kind)); }
  /** @param {Fair} fair */
  numbered(fair) { return this.inTurn(() => this.fair(fair)); }
  /** @param {Named} name */
  named(name) { return this.inTurn(() => this.ofName(name)); }
  /** @param {string} key */
  goOn(key) { return this.inTurn(() => this.kept(key)); }
  /** @param {ByteText} text */
  save(text) { return this.inTurn(() => this.ofSave(text)); }

  // A line of the program that begins a game.
  /** @param {string} line */
  async typed(line) {
    await this.inTurn(async () => this.ofMade(await this.made(line, this.present.kept.game), null));
    return null;
  }

  // The game of the address, otherwise the one that was shown last, otherwise one by chance.
  /** @param {string} hash */
  first(hash) {
    const {present} = this, {keeping} = present, {now} = keeping, link = named(hash), kind = kindOfName(keeping.settings.kind);
    return this.inTurn(async () => {
      /** @type {Outcome[]} */
      const outcomes = [];
      if (hash.length > 1) outcomes.push(link ? await this.tried(() => this.ofName(link)) : {how: 'refused', text: NO_SUCH_LINK});
      if (!present.there && keeping.has(now)) outcomes.push(await this.tried(() => this.kept(now)));
      if (!present.there && kind) outcomes.push(welcomed(await this.chance(kind)));
      return outcomes.find(({how}) => how === 'refused') ?? outcomes[outcomes.length - 1];
    });
  }

  // --- how it is done ---

  // Does something when its turn has come, and says what came of it: how a game has begun only where nothing hinders it from being kept. That is
  // said otherwise.
  /** @param {() => Promise<Outcome>} work */
  inTurn(work) {
    const {front, keeping} = this.present;
    return this.present.inTurn(async () => {
      const {how, text, bad} = await work();
      if (text && (how === 'refused' || !keeping.trouble)) front.tell(text, {bad});
      return how;
    });
  }

  // The outcome, where the module has no answer, too.
  /** @param {() => Promise<Outcome>} work @returns {Promise<Outcome>} */
  async tried(work) {
    try {
      return await work();
    } catch (fault) {
      if (!(fault instanceof Unanswered)) throw fault;
      return {how: 'refused', text: FAULTS[fault.fault], bad: true};
    }
  }

  // A game of a kind, of a number by chance. One that is solved already counts as a number without a game; where there are no others it begins anew.
  /** @param {Kind} kind */
  async chance(kind) {
    let fair = {...kind, number: byChance()}, made = await this.ofFair(fair);
    for (let left = TRIES - 1; left > 0 && (!made.looked || made.before?.state === 'solved'); left--) {
      fair = {...kind, number: byChance()};
      made = await this.ofFair(fair);
    }
    return this.ofMade(made.before?.state === 'solved' ? {...made, before: undefined} : made, fair);
  }

  // The game of a number. The same board may have been another number's, such as another day's: then it begins anew.
  /** @param {Fair} fair */
  async fair(fair) {
    const made = await this.ofFair(fair), isSame = made.before?.fair?.number === fair.number;
    return this.ofMade(isSame ? made : {...made, before: undefined}, fair);
  }

  // Begins the puzzle that a link or a typed text names: where it names no game, that is the present one or the other one.
  /** @param {Named} name @returns {Promise<Outcome>} */
  async ofName(name) {
    if (name.fair) return this.fair(name.fair);
    const {id, game} = name, line = `new ${id}`, first = game ?? this.present.there?.kept.game ?? 'towers', made = await this.made(line, first);
    if (made.looked || game) return this.ofMade(made, null);
    const other = await this.made(line, first === 'towers' ? 'unequal' : 'towers');
    return this.ofMade(other.looked ? other : made, null);
  }

  // A kept game.
  /** @param {string} key @returns {Promise<Outcome>} */
  async kept(key) {
    const {present} = this, kept = present.keeping.game(key);
    if (!kept) return present.keeping.has(key) ? {how: 'refused', text: CANNOT_BE_READ, bad: true} : {how: 'refused', text: GONE};
    present.open(kept, await present.look(kept.save, kept.game));
    return {how: 'goesOn', text: ''};
  }

  // The game of a save's text, of whichever of the two games it is.
  /** @param {ByteText} text @returns {Promise<Outcome>} */
  async ofSave(text) {
    const found = await this.read(text);
    if (typeof found === 'string') return {how: 'refused', text: unreadText(text, found), bad: true};
    this.present.begin(text, found, null);
    return {how: 'begun', text: ''};
  }

  // A game that has been made goes on where it was begun before, and begins otherwise.
  /** @param {Made} made @param {Fair | null} fair @returns {Promise<Outcome>} */
  async ofMade({save, looked, why, before}, fair) {
    if (!looked) return {how: 'refused', text: why};
    if (before) return {...await this.kept(before.key), text: before.state === 'playing' ? GOES_ON : ''};
    this.present.begin(save, looked, fair);
    return {how: 'begun', text: fair ? numberedText(fair) : ''};
  }

  // --- what is asked of the module ---

  /** @param {Fair} fair */
  ofFair(fair) {
    return this.made(lineOf(fair), fair.game, fair.number);
  }

  // The result of a line. Of the kept games with its ID that is the one of this number, if there is one.
  /** @param {string} line @param {Game} game @param {string} [number] @returns {Promise<Made>} */
  async made(line, game, number) {
    const {answers, saved} = await this.present.askAll([line, 'board'], NO_BYTES, game);
    const {board, session, lost, refused} = answers[answers.length - 1];
    if (!board || !session) return {save: saved, looked: null, why: refusal(line, String(lost ?? refused), game)};
    const same = this.present.keeping.games().filter((kept) => kept.game === game && kept.id === session.id && kept.state !== 'filled');
    return {save: saved, looked: {board, session}, why: '', before: same.find(({fair}) => fair?.number === number) ?? same[0]};
  }

  // The board of a save's text; where it is none, the name by which the module refuses it.
  /** @param {ByteText} text @returns {Promise<Looked | string>} */
  async read(text) {
    let why = text ? '' : 'NotASave';
    for (const game of text ? Object.keys(NAMES).filter(isGame) : []) {
      try {
        return await this.present.look(text, game);
      } catch (fault) {
        if (!(fault instanceof Unanswered) || fault.fault !== 'unread') throw fault;
        // A save of this game is refused by both, by the other one since it isn't its own.
        if (!why || why.includes('WrongGame')) why = fault.message;
      }
    }
    return why;
  }
}

/** @param {Outcome} outcome @returns {Outcome} */
const welcomed = (outcome) => (outcome.how === 'refused' ? outcome : {...outcome, text: WELCOME});
