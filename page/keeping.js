// The things that are kept in the browser: every game that was begun, until its player deletes it, which ones were solved, and the settings.
// It is `localStorage`, since what is put there is there when the call returns: no page can be closed in between. The other tabs hear of it.
// Beside it is a database, since a browser that is killed may lose the last seconds of its store.
import {LAST_MOMENT, deletionIn, goesOn, isCount, isLater, isUpTo, keptIn, moment, newKey, parsed} from './kept.js';
import {FIRST, settingsIn} from './settings.js';

/** @typedef {import('./kept.js').Kept} Kept */
/** @typedef {Pick<import('./journal.js').Journal, 'put' | 'isThere'>} Beside */
/** @typedef {Pick<Storage, 'length' | 'key' | 'getItem' | 'setItem' | 'removeItem'>} Store */
/** The browser's stores for all tabs, and for this one alone; null where it refuses one. */
/** @typedef {{all: Store | null, tab: Store | null}} Stores */
/**
 * A game that was solved without the program's help: its class, when, in how many seconds (0 where that wasn't counted), with how many hints, and
 * its number if it has one.
 * @typedef {{kind: string, when: number, seconds: number, hints: number, number: string}} Solved
 */
/** @typedef {import('./settings.js').Settings} Settings */

const GAME = 'puzzles:game:', NOW = 'puzzles:now', SETTINGS = 'puzzles:settings', SOLVED = 'puzzles:solved';

// So long the journal says of a game that it was deleted: no store is so far behind.
const DAY = 24 * 60 * 60 * 1000;

// Why something isn't kept.
/** @typedef {'refused' | 'full'} Trouble */

export class Keeping {
  /** @param {() => Stores} open  asked at the first use @param {Beside} [journal]  what has each change, too */
  constructor(open, journal) {
    this.open = open;
    this.journal = journal;
    /** @type {Stores | null} */
    this.opened = null;
    // The texts that the store doesn't have yet, and why, the last change last: they last as long as the page.
    /** @type {Map<string, {text: string, trouble: Trouble | ''}>} */
    this.unkept = new Map();
    // Texts that were parsed last, and what they are: a long game takes a while.
    /** @type {{text: string | null, kept: Kept | null}} */
    this.read = {text: null, kept: null};
    this.readSettings = {text: '', settings: FIRST};
    // The names of the texts that this page has kept itself, until the journal is there.
    /** @type {Set<string>} */
    this.own = new Set();
  }

  get stores() { return this.opened ??= this.open(); }

  /** Whether the journal has all of it, too. */
  get isBeside() { return this.journal?.isThere ?? false; }

  /** Why the last of what isn't kept is not: neither the store nor the journal has it. */
  get trouble() { return this.isBeside ? '' : [...this.unkept.values()].pop()?.trouble ?? ''; }

  // --- games ---

  /** @param {string} key */
  game(key) {
    const text = this.get(GAME + key);
    if (text !== this.read.text) this.read = {text, kept: keptIn(text)};
    return this.read.kept;
  }

  // Whether there is a game of this key, be it that it can't be read.
  /** @param {string} key */
  has(key) {
    return this.get(GAME + key) !== null;
  }

  /** The texts of all games. */
  texts() {
    const {all} = this.stores, names = new Set(this.unkept.keys());
    for (let at = 0; all && at < all.length; at++) names.add(all.key(at) ?? '');
    return [...names].filter((name) => name.startsWith(GAME)).map((name) => this.get(name) ?? '');
  }

  /** All of them, the last ones first. */
  games() {
    const games = /** @type {Kept[]} */ (this.texts().map(keptIn).filter(Boolean));
    return games.sort((one, other) => other.when - one.when);
  }

  /** The texts that stand in the place of games and can't be read. */
  unread() {
    return this.texts().filter((text) => !keptIn(text));
  }

  // Keeps a game, unless another tab has changed it since; whether it did. A game without a key is kept nowhere.
  /** @param {Kept} kept */
  keep(kept) {
    if (!kept.key) return true;
    const before = this.game(kept.key);
    if (before && before.turn !== kept.turn - 1) return false;
    this.replace(kept);
    return true;
  }

  // Keeps a game in the place of what there is of it.
  /** @param {Kept} kept */
  replace(kept) {
    const text = JSON.stringify(kept);
    // As it is now: its seconds are counted on.
    this.read = {text, kept: {...kept}};
    this.put(GAME + kept.key, text);
  }

  // Keeps for how long a game was played, where it is as it was.
  /** @param {Kept} kept */
  keepTime(kept) {
    if (this.game(kept.key)?.turn === kept.turn) this.replace(kept);
  }

  /** @param {string} key */
  delete(key) {
    // The store of a browser that is killed may have the game again: the journal says that it is gone.
    this.journal?.put(GAME + key, JSON.stringify({turn: this.game(key)?.turn ?? 0, gone: Math.max(1, moment())}));
    this.remove(GAME + key);
    this.flush();
  }

  /** The key of the game that this tab shows, or of the one that any tab showed last. */
  get now() {
    return (this.stores.tab?.getItem(NOW) ?? this.settings.now) || (this.get(NOW) ?? '');
  }

  set now(key) {
    this.set({now: key});
    try {
      this.stores.tab?.setItem(NOW, key);
    } catch {
      // The last game of any tab goes on then.
    }
  }

  // The key of the game of which the browser tells that another tab has changed it; nothing where it tells of something else.
  /** @param {string | null} name */
  keyOf(name) {
    return name?.startsWith(GAME) ? name.slice(GAME.length) : null;
  }

  // --- what was solved ---

  /** @returns {Solved[]} */
  solved() {
    return solvedIn(this.get(SOLVED));
  }

  /** @param {Solved[]} more  those that are there already are passed over */
  addSolved(more) {
    const before = this.solved(), known = new Set(before.map(({kind, when}) => `${kind} ${when}`));
    const added = more.filter(({kind, when}) => !known.has(`${kind} ${when}`));
    if (added.length) this.put(SOLVED, JSON.stringify([...before, ...added]));
  }

  // --- settings ---

  /** @returns {Settings} */
  get settings() {
    const text = this.get(SETTINGS) ?? '';
    if (text !== this.readSettings.text) this.readSettings = {text, settings: settingsIn(text)};
    return this.readSettings.settings;
  }

  /** @param {Partial<Settings>} change */
  set(change) {
    const {settings} = this;
    this.put(SETTINGS, JSON.stringify({...settings, ...change, turn: settings.turn + 1}));
  }

  // --- the store itself ---

  /** @param {string} name */
  get(name) {
    return this.unkept.get(name)?.text ?? this.stored(name);
  }

  /** @param {string} name */
  stored(name) {
    return this.stores.all?.getItem(name) ?? null;
  }

  /** @param {string} name @param {string} text */
  put(name, text) {
    this.journal?.put(name, text);
    this.own.add(name);
    // The last one is the last to be tried, and says why.
    this.unkept.delete(name);
    this.unkept.set(name, {text, trouble: ''});
    this.flush();
  }

  /** @param {string} name */
  remove(name) {
    this.unkept.delete(name);
    this.stores.all?.removeItem(name);
  }

  /** Tries whatever the store doesn't have yet, and again as long as there is room for more. */
  flush() {
    const before = this.unkept.size;
    for (const [name, {text, trouble}] of [...this.unkept]) {
      const own = trouble && this.isOvertaken(name, text) ? this.asCopy(text) : {name, text}, why = this.refusal(own.name, own.text);
      if (why) this.unkept.set(name, {text, trouble: why});
      else this.unkept.delete(name);
    }
    if (this.unkept.size && this.unkept.size < before) this.flush();
  }

  // Why the store doesn't take a text; nothing where it has it now.
  /** @param {string} name @param {string} text @returns {Trouble | ''} */
  refusal(name, text) {
    try {
      this.stores.all?.setItem(name, text);
      return this.stores.all ? '' : 'refused';
    } catch (fault) {
      return fault instanceof DOMException && /quota/i.test(fault.name) ? 'full' : 'refused';
    }
  }

  // Whether another tab has kept moves of a game, while this tab's couldn't be kept.
  /** @param {string} name @param {string} text */
  isOvertaken(name, text) {
    const kept = name.startsWith(GAME) ? keptIn(this.stored(name)) : null, own = keptIn(text);
    return kept !== null && own !== null && kept.turn >= own.turn && kept.save !== own.save;
  }

  // The game beside the one of the other tab, with another key.
  /** @param {string} text */
  asCopy(text) {
    const key = newKey();
    return {name: GAME + key, text: JSON.stringify({...parsed(text), key})};
  }

  // Takes over the texts that the journal has and the store hasn't, or has of an earlier state: a browser that was killed may have lost them. Whether games
  // came so late that this page has played on without them: then both are there.
  /** @param {Map<string, string>} journal */
  restore(journal) {
    const {own} = this;
    let isLate = false;
    this.own = new Set();
    for (const [name, text] of journal) {
      const here = this.get(name), deletion = deletionIn(text), isNew = isLater(text, here);
      if (name === SOLVED) this.addSolved(solvedIn(text));
      else if (deletion) this.forget(name, deletion);
      else {
        const copy = own.has(name) ? this.overtaken(text, here, isNew) : null;
        if (copy) this.put(copy.name, copy.text);
        if (isNew) this.put(name, text);
        isLate ||= copy !== null;
      }
    }
    return isLate;
  }

  // Of two states of one game the earlier one, as a copy, where the later one doesn't go on from all its moves.
  /** @param {string} text @param {string | null} here @param {boolean} isNew  whether the first one is the later one */
  overtaken(text, here, isNew) {
    const [one, other] = [text, here].map(keptIn);
    if (!one || !other || (isNew ? goesOn(one, other) : goesOn(other, one))) return null;
    return this.asCopy(isNew ? here ?? '' : text);
  }

  // A game that was deleted goes out of a store that is older, and the journal's word for that a day later.
  /** @param {string} name @param {{turn: number, gone: number}} deletion */
  forget(name, {turn, gone}) {
    if (isUpTo(this.get(name), turn)) this.remove(name);
    else if (gone < moment() - DAY) this.journal?.put(name, null);
  }
}

/** @param {string | null} text @returns {Solved[]} */
function solvedIn(text) {
  const list = parsed(text);
  return Array.isArray(list) ? list.filter(isSolvedGame) : [];
}

/** @param {any} one @returns {one is Solved} */
export function isSolvedGame(one) {
  const {when, seconds, hints, kind, number} = one ?? {};
  return isCount(when, LAST_MOMENT) && isCount(seconds) && isCount(hints) && [kind, number].every((text) => typeof text === 'string');
}

// Not to be asked for before the page's worker has answered: on a busy machine Chromium may give an empty store to a page that asks at once. As far
// as we can tell the browser doesn't know yet that the page is there.
/** @returns {Stores} */
export const storesHere = () => ({all: storeOf('localStorage'), tab: storeOf('sessionStorage')});

/** @param {'localStorage' | 'sessionStorage'} name */
function storeOf(name) {
  try {
    const store = window[name];
    store.getItem(NOW);
    return store;
  } catch {
    return null;
  }
}
