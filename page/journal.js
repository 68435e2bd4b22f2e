// A database beside the browser's store, with the same texts by the same names. Each text in it outlives a browser that is killed. The store may
// lose its last seconds then: Chromium writes it to the disk a while later.

// All pages of one origin share their databases, so the name is our own; earlier pages had the other one. And how the names of our texts begin.
const NAME = 'verified-puzzles', EARLIER = 'puzzles', TEXTS = 'texts', OURS = 'puzzles:';

// A failed write is tried again after so many milliseconds, and after twice as long each time, but for the greatest delay.
const FIRST_DELAY = 25, LAST_DELAY = 1000;

export class Journal {
  /** @param {(texts: Map<string, string>) => void} found  what is done with the texts that the database has, once that is open */
  constructor(found) {
    this.found = found;
    /** @type {IDBDatabase | null} */
    this.database = null;
    // The texts that aren't known to be written, by their names; null stands for one that goes.
    /** @type {Map<string, string | null>} */
    this.waiting = new Map();
    this.isWriting = this.isOpening = this.isRead = this.hasFailed = false;
    this.delay = FIRST_DELAY;
    this.timer = 0;
  }

  /** Whether what is put into it lasts, as far as is known. */
  get isThere() { return this.database !== null && !this.hasFailed; }

  // Writes a text in the place of the one that has this name; or takes that away.
  /** @param {string} name @param {string | null} text */
  put(name, text) {
    this.waiting.set(name, text);
    this.write();
  }

  /** Opens the database where it isn't, and writes what waits. */
  async open() {
    if (this.database || this.isOpening) return;
    this.isOpening = true;
    try {
      const database = await opened();
      // Another page that deletes the database, or makes another one of it, need not wait for this one, not even while it is read.
      database.onversionchange = () => this.leave(database);
      await this.readOnce(database);
      // The page has come back meanwhile, and has opened it anew.
      if (this.database) return database.close();
      database.onclose = () => {
        this.leave(database);
        this.open();
      };
      this.database = database;
      this.isOpening = false;
      this.write();
    } catch {
      this.isOpening = false;
      this.fail();
    }
  }

  // Each text that is put tries again, and so does a timer as long as something waits.
  fail() {
    this.hasFailed = true;
    clearTimeout(this.timer);
    this.timer = setTimeout(() => this.write(), this.delay);
    this.delay = Math.min(2 * this.delay, LAST_DELAY);
  }

  // Once, since from then on the store has all of it. An empty one is new: what an earlier page has kept goes into it by the first write.
  /** @param {IDBDatabase} database */
  async readOnce(database) {
    if (this.isRead) return;
    let texts = await textsOf(database).catch((fault) => {
      database.close();
      throw fault;
    });
    if (!texts.size) {
      texts = await earlierTexts();
      this.waiting = new Map([...texts, ...this.waiting]);
    }
    this.isRead = true;
    this.found(texts);
  }

  /** The page comes back from where a browser keeps pages that were left: it may have closed the database there, and says nothing of it. */
  comeBack() {
    if (this.database) this.leave(this.database);
    this.isOpening = false;
    return this.open();
  }

  /** @param {IDBDatabase} database */
  leave(database) {
    database.close();
    if (this.database === database) [this.database, this.isWriting] = [null, false];
  }

  /** All that waits, at once: what comes meanwhile waits until it is on the disk. */
  write() {
    const {database, waiting} = this, texts = [...waiting];
    if (this.isWriting || !texts.length) return;
    if (!database) {
      this.open();
      return;
    }
    try {
      const transaction = database.transaction(TEXTS, 'readwrite', {durability: 'strict'}), there = transaction.objectStore(TEXTS);
      this.isWriting = true;
      transaction.oncomplete = () => this.ended(database, texts);
      transaction.onabort = () => this.ended(database, null);
      for (const [name, text] of texts) text === null ? there.delete(name) : there.put(text, name);
      // At once, and not once the page has heard of each: in WebKit a page that is left before would keep the next one from the database.
      transaction.commit?.();
    } catch {
      // It is closed.
      this.leave(database);
      this.fail();
    }
  }

  // Written texts wait no more, but for those that were put meanwhile; the others go on waiting.
  /** @param {IDBDatabase} database @param {[string, string | null][] | null} written */
  ended(database, written) {
    if (database !== this.database) return;
    this.isWriting = false;
    if (!written) return this.fail();
    [this.hasFailed, this.delay] = [false, FIRST_DELAY];
    for (const [name, text] of written) if (this.waiting.get(name) === text) this.waiting.delete(name);
    return this.write();
  }
}

// Another page may have made one of this name without our texts: the next version has them.
/** @param {number} [version] @returns {Promise<IDBDatabase>} */
const opened = (version) => new Promise((settle, refuse) => {
  const request = indexedDB.open(NAME, version);
  request.onupgradeneeded = () => { if (!hasTexts(request.result)) request.result.createObjectStore(TEXTS); };
  request.onerror = () => refuse(request.error);
  request.onsuccess = () => {
    const {result} = request;
    if (hasTexts(result)) return settle(result);
    result.close();
    return opened(result.version + 1).then(settle, refuse);
  };
});

/** @param {IDBDatabase} database */
const hasTexts = ({objectStoreNames}) => objectStoreNames.contains(TEXTS);

// The texts that an earlier page has kept in its database, which stays as it is; none where there is no database, and then none is made.
/** @returns {Promise<Map<string, string>>} */
const earlierTexts = () => new Promise((settle) => {
  const request = indexedDB.open(EARLIER);
  request.onupgradeneeded = () => request.transaction?.abort();
  request.onerror = () => settle(new Map());
  request.onsuccess = async () => {
    const {result} = request;
    settle(hasTexts(result) ? await textsOf(result).catch(() => new Map()) : new Map());
    result.close();
  };
});

/** @param {IDBDatabase} database @returns {Promise<Map<string, string>>} */
const textsOf = (database) => new Promise((settle, refuse) => {
  const transaction = database.transaction(TEXTS), texts = transaction.objectStore(TEXTS);
  const names = texts.getAllKeys(), all = texts.getAll();
  transaction.commit?.();
  transaction.oncomplete = () => {
    const found = new Map(all.result.map((text, at) => [String(names.result[at]), text]));
    for (const [name, text] of found) if (!name.startsWith(OURS) || typeof text !== 'string') found.delete(name);
    settle(found);
  };
  transaction.onabort = refuse;
});

/** Asks the browser never to clear what it keeps for this page by itself. */
export const askToPersist = () => navigator.storage?.persist?.().catch(() => false);
