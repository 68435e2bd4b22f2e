// The page: the module, what is kept, the screen, and what a player may ask for are put together here.
import {Actions} from './actions.js';
import {Beginning} from './beginning.js';
import {confirmed, isDialogOpen, listenToDialogs} from './dialogs.js';
import {part} from './drawing.js';
import {isGame} from './games.js';
import {listenToPlayer} from './input.js';
import {Journal, askToPersist} from './journal.js';
import {keptIn} from './kept.js';
import {Messages} from './messages.js';
import {Moves} from './moves.js';
import {Present} from './present.js';
import {Screen} from './screen.js';
import {Keeping, storesHere} from './keeping.js';
import {AT_WORK, CAME_LATE, DELETED_ELSEWHERE, FAILED, LEARN, STOP, WELCOME, unableText} from './texts.js';
import {Turns} from './turns.js';
import {Walk} from './walk.js';

/** @typedef {import('./objects.js').Board} Board */

/** How many milliseconds the page waits for its database. */
const PATIENCE = 2000;

const messages = new Messages(), journal = new Journal((texts) => restore(texts)), keeping = new Keeping(storesHere, journal);
const turns = new Turns(part('module').textContent ?? '', part('worker').textContent ?? '');
const walk = new Walk((text) => messages.say(text));

/** Shows the present game. */
const front = {
  begins() {
    actions.desk.leave();
    actions.course.begins();
    walk.forget();
    messages.clear();
    screen.begin();
    rest();
    actions.askGrade();
  },
  /** @param {Board} before @param {boolean} isOwn  whether this tab has moved */
  changes(before, isOwn) {
    if (!screen.desk) {
      if (walk.isPast(before, present.board)) walk.forget();
      messages.clear();
      screen.change(before);
    }
    if (isOwn && present.kept.key) {
      askToPersistOnce();
      actions.noteSolved();
    }
    rest();
  },
  /** @param {string} text @param {{bad?: boolean}} [how] */
  tell(text, how) { messages.tell(text, how); },
  /** @param {boolean} isBusy */
  busy(isBusy) {
    if (isBusy) messages.hold(AT_WORK, {offer: {text: STOP, run: () => turns.stop()}});
    else messages.release(AT_WORK);
  },
};

const present = new Present(turns, keeping, front), screen = new Screen(present, messages, walk);
const beginning = new Beginning(present), moves = new Moves(present, confirmed);
const actions = new Actions({present, moves, beginning, screen, walk, messages, keeping, turns});

/** The lasting line is seen, and a browser asks before it closes the page while something isn't kept. */
function rest() {
  if (present.kept.key || screen.desk) screen.rest(() => actions.act('next'));
  else actions.course.rest();
  onbeforeunload = keeping.trouble ? () => true : null;
}

/** Once there is something to lose: a browser may ask the player. */
function askToPersistOnce() {
  if (!isAsked) askToPersist();
  isAsked = true;
}

let isAsked = false;

/** The worker first, then what is kept, and then a game. */
async function begin() {
  try {
    await turns.ready();
    // The stores are asked for here first, after the worker has answered. A database that doesn't answer keeps nobody waiting for long.
    await Promise.race([journal.open(), new Promise((settle) => setTimeout(settle, PATIENCE))]);
    // A player who comes for the first time is offered the course.
    const {hash} = location, {desk} = history.state ?? {}, isFirst = !keeping.settings.turn;
    forgetLink();
    await beginning.first(hash);
    // A reload, and a browser that threw the page away.
    if (isGame(desk) && !hash) actions.desk.open(desk);
    if (isFirst && !keeping.trouble) messages.tell(messages.text || WELCOME, {offer: {text: LEARN, run: () => actions.act('learn')}});
  } catch (fault) {
    messages.tell(unableText(fault instanceof Error ? fault.message : String(fault)), {bad: true, lasting: true});
  }
}

// The texts of the database come into the store, and moves that were made without it stay beside.
/** @param {Map<string, string>} texts */
function restore(texts) {
  if (!keeping.restore(texts) || !present.there) return;
  present.inTurn(async () => {
    await present.catchUp();
    messages.tell(CAME_LATE, {bad: true});
  });
}

/** A link has begun its game once: with the address as it is without it a reload goes on with whatever game is played by then. */
function forgetLink() {
  if (location.hash) history.replaceState(null, '', location.href.split('#')[0]);
}

/** Attends to other tabs, and to the time. */
function attend() {
  addEventListener('hashchange', () => {
    const {hash} = location;
    forgetLink();
    if (hash.length > 1) actions.named(hash);
  });
  addEventListener('unhandledrejection', () => messages.tell(FAILED, {bad: true}));
  addEventListener('storage', ({key, newValue}) => {
    keeping.flush();
    if (!present.there || keeping.keyOf(key) !== present.kept.key) return;
    if (newValue === null) messages.tell(DELETED_ELSEWHERE, {bad: true});
    // Not as the store has it: WebKit may tell of a change before this tab can read it.
    else present.inTurn(() => present.catchUp(keptIn(newValue)));
  });
  addEventListener('pageshow', ({persisted}) => { if (persisted) journal.comeBack(); });
  setInterval(() => {
    if (!present.there) return;
    rest();
    // Of a page from a disk WebKit may tell the other tabs nothing.
    if (!present.isBusy) present.inTurn(() => present.catchUp());
    if (document.visibilityState !== 'visible' || screen.desk || isDialogOpen() || present.kept.state !== 'playing') return;
    present.kept.seconds++;
    if (keeping.settings.time) screen.paintCount();
  }, 1000);
  for (const event of ['pagehide', 'visibilitychange']) {
    addEventListener(event, () => {
      if (!present.there) return;
      if (event === 'pagehide' || document.visibilityState === 'hidden') keeping.keepTime(present.kept);
      else present.inTurn(() => present.catchUp());
    });
  }
}

listenToDialogs(() => { if (present.there) screen.choose(screen.chosen); });
listenToPlayer(actions);
attend();
begin();
