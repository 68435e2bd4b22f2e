// The journal over a browser's database that fails, closes, or is another page's. In browsers `test_journal` and `test_killed` try it.
import {deepEqual, equal} from 'node:assert/strict';
import {test} from 'node:test';
import {Journal} from '../../../page/journal.js';

/** So many rounds what is asked of the database is answered. */
const rests = async () => { for (let round = 0; round < 30; round++) await new Promise((done) => setImmediate(done)); };

/** The call that waits for its time, in the place of a clock. */
let later = () => undefined;
globalThis.setTimeout = (run) => { later = run; };

/** Databases by their names, as far as the page uses them; so many are refused, and so many writes and reads. */
class Databases {
  constructor(stores = {}) {
    this.all = new Map(Object.entries(stores));
    [this.opens, this.silent, this.refused, this.aborts, this.unread, this.there] = [0, 0, 0, 0, 0, null];
  }

  open(name, version = 1) {
    const request = {}, isMade = !this.all.has(name), stores = this.all.get(name) ?? {};
    this.opens++;
    if (this.silent-- > 0) return request;
    setImmediate(() => {
      if (this.refused-- > 0) return request.onerror();
      request.result = this.database(name, stores, version);
      if (name !== 'puzzles') this.there = request.result;
      if (!isMade && version === 1) return request.onsuccess();
      let isAborted = false;
      request.transaction = {abort: () => { isAborted = true; }};
      request.onupgradeneeded();
      if (isAborted) return request.onerror();
      this.all.set(name, stores);
      return request.onsuccess();
    });
    return request;
  }

  database(name, stores, version) {
    const one = {version, isClosed: false, close() { one.isClosed = true; }, createObjectStore: (store) => { stores[store] = new Map(); }};
    one.objectStoreNames = {contains: (store) => store in stores};
    one.transaction = (store) => {
      if (one.isClosed) throw new Error('closed');
      const transaction = {}, done = [], texts = stores[store];
      transaction.objectStore = () => ({
        put: (text, name) => done.push(() => texts.set(name, text)), delete: (name) => done.push(() => texts.delete(name)),
        getAllKeys: () => ({get result() { return [...texts.keys()]; }}), getAll: () => ({get result() { return [...texts.values()]; }}),
      });
      setImmediate(() => {
        if (done.length ? this.aborts-- > 0 : this.unread-- > 0) return transaction.onabort();
        for (const one of done) one();
        return transaction.oncomplete();
      });
      return transaction;
    };
    return one;
  }

  texts(name = 'verified-puzzles') { return Object.fromEntries(this.all.get(name)?.texts ?? []); }
}

/** A journal over these databases, and what it finds. */
async function begun(databases) {
  const found = [], journal = new Journal((texts) => found.push(Object.fromEntries(texts)));
  globalThis.indexedDB = databases;
  await journal.open();
  await rests();
  return {journal, found};
}

test('a database that is refused once is opened by the next text, with what waits', async () => {
  const databases = new Databases();
  databases.refused = 1;
  const {journal, found} = await begun(databases);
  deepEqual([journal.isThere, found], [false, []]);
  journal.put('puzzles:game:a', '1');
  journal.put('puzzles:game:b', '2');
  await rests();
  deepEqual([journal.isThere, found, databases.texts()], [true, [{}], {'puzzles:game:a': '1', 'puzzles:game:b': '2'}]);
});

test('one that can\'t be read is closed, and opened by the next text', async () => {
  const databases = new Databases();
  databases.unread = 1;
  const {journal, found} = await begun(databases);
  deepEqual([journal.isThere, found, databases.there.isClosed], [false, [], true]);
  journal.put('puzzles:game:a', '1');
  await rests();
  deepEqual([journal.isThere, found, databases.texts(), databases.there.isClosed], [true, [{}], {'puzzles:game:a': '1'}, false]);
});

test('one that closes by itself, or has closed silently, is opened again, and all of it is written', async () => {
  const databases = new Databases(), {journal, found} = await begun(databases);
  journal.put('puzzles:now', '1');
  await rests();
  databases.there.close();
  databases.there.onclose();
  await rests();
  journal.put('puzzles:now', '2');
  await rests();
  databases.there.close();
  journal.put('puzzles:now', '3');
  await rests();
  equal(journal.isThere, false);
  later();
  await rests();
  deepEqual([databases.texts(), journal.isThere, found.length], [{'puzzles:now': '3'}, true, 1]);
  databases.there.onversionchange();
  equal(journal.isThere, false);
  journal.put('puzzles:now', '4');
  await rests();
  await journal.comeBack();
  await rests();
  deepEqual([databases.texts(), databases.opens], [{'puzzles:now': '4'}, 6]);
});

test('one that another page wants while it is read is left at once, and opened again by the next text', async () => {
  const databases = new Databases(), journal = new Journal(() => undefined);
  globalThis.indexedDB = databases;
  const opening = journal.open();
  while (!databases.there) await new Promise((done) => setImmediate(done));
  databases.there.onversionchange();
  equal(databases.there.isClosed, true);
  await opening;
  journal.put('puzzles:now', '1');
  later();
  await rests();
  deepEqual([databases.texts(), journal.isThere], [{'puzzles:now': '1'}, true]);
});

test('a write that is undone waits, but for what was put meanwhile, and is told', async () => {
  const databases = new Databases(), {journal} = await begun(databases);
  databases.aborts = 1;
  journal.put('puzzles:game:a', '1');
  journal.put('puzzles:game:b', '1');
  await rests();
  deepEqual([journal.isThere, databases.texts()], [false, {}]);
  journal.put('puzzles:game:b', '2');
  await rests();
  deepEqual([journal.isThere, databases.texts(), journal.waiting.size], [true, {'puzzles:game:a': '1', 'puzzles:game:b': '2'}, 0]);
});

test('a page that comes back waits for no answer to what it asked before', async () => {
  const databases = new Databases(), journal = new Journal(() => undefined);
  [globalThis.indexedDB, databases.silent] = [databases, 1];
  journal.open();
  journal.put('puzzles:now', '1');
  await rests();
  await journal.comeBack();
  await rests();
  deepEqual([journal.isThere, databases.texts()], [true, {'puzzles:now': '1'}]);
});

test('the database of another page of this name comes to have our texts', async () => {
  const databases = new Databases({'verified-puzzles': {theirs: new Map()}}), {journal} = await begun(databases);
  journal.put('puzzles:game:a', '1');
  await rests();
  deepEqual([Object.keys(databases.all.get('verified-puzzles')), databases.texts()], [['theirs', 'texts'], {'puzzles:game:a': '1'}]);
});

test('texts that an earlier page has kept are found once', async () => {
  const old = new Map([['puzzles:game:a', '1'], ['puzzles:game:b', '1'], ['theirs', '1'], ['puzzles:game:c', 7]]);
  const databases = new Databases({puzzles: {texts: old}}), games = {'puzzles:game:a': '1', 'puzzles:game:b': '1'};
  const {journal, found} = await begun(databases);
  deepEqual([found, databases.texts()], [[games], games]);
  journal.put('puzzles:game:a', null);
  await rests();
  old.set('puzzles:game:a', '2');
  deepEqual([(await begun(databases)).found, old.size], [[{'puzzles:game:b': '1'}], 4]);
  const none = new Databases({puzzles: {theirs: new Map()}});
  deepEqual([(await begun(none)).found, (await begun(new Databases())).found, [...none.all.keys()]], [[{}], [{}], ['puzzles', 'verified-puzzles']]);
});
