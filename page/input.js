// Keys, mouse and finger: which action each of them asks for.
import {isDialogOpen} from './dialogs.js';
import {part} from './drawing.js';

/** @typedef {import('./objects.js').Place} Place */
/**
 * The wishes of a player, whichever way they come.
 * @typedef {{isReady(): boolean, act(name: string): void, move(dx: number, dy: number): void, number(number: number, isOther: boolean): void,
 *   pad(number: number, isOther: boolean): void, choose(place: Place): void, press(place: Place, isLong: boolean): void, step(at: number): void,
 *   along(by: number): boolean, set(name: string): void, turn(one: number, other: number): void, sign(by: number[]): boolean}} Asked
 */

// Columns and rows by which a key moves.
/** @type {Record<string, [number, number]>} */
const STEPS = {
  ArrowLeft: [-1, 0], ArrowRight: [1, 0], ArrowUp: [0, -1], ArrowDown: [0, 1],
  l: [1, 0], k: [0, -1], j: [0, 1], L: [1, 0], K: [0, -1], J: [0, 1],
};

// The action of each key, by its name: the keys of the board in a terminal, and some more.
/** @type {Record<string, string>} */
export const KEYS = {
  Enter: 'enter', p: 'marks', ' ': 'clear', 0: 'clear', Backspace: 'clear', Delete: 'clear', m: 'all', P: 'possible', M: 'tidy',
  u: 'undo', r: 'redo', d: 'done', R: 'restart', h: 'hint', H: 'why', x: 'keep', c: 'check', b: 'back', S: 'solve',
  n: 'new', o: 'games', t: 'daily', E: 'desk', w: 'save', i: 'id', '?': 'rules', ':': 'command', q: 'quit', Escape: 'escape',
};

// On the setter's desk alone.
/** @type {Record<string, string>} */
const DESK_KEYS = {F: 'fill', '<': '<', '>': '>', '^': '^', v: 'v'};

// The same with Control, or on a Mac with Command; the capital letter with Shift.
/** @type {Record<string, string>} */
const COMMANDS = {z: 'undo', Z: 'redo', y: 'redo'};

/** For how many milliseconds a long press lasts, and how far the finger may go in it. */
const LONG = 450, STILL = 12;

/** @param {Asked} asked */
export function listenToPlayer(asked) {
  document.addEventListener('keydown', (event) => key(event, asked));
  const press = new LongPress(asked);
  const board = part('board');
  board.addEventListener('pointerdown', (event) => {
    const place = placeOf(event.target);
    if (!place || !event.isPrimary || event.button) return;
    event.preventDefault();
    asked.choose(place);
    press.begin(event, () => asked.press(place, true));
  });
  // After the right button WebKit tells of no pointer that is pressed, but of the mouse.
  board.addEventListener('mousedown', (event) => {
    const place = placeOf(event.target);
    if (place && !event.button) asked.choose(place);
  });
  board.addEventListener('click', ({target}) => {
    const place = placeOf(target), [one, other] = (nodeOf(target, 'sign')?.dataset.sign ?? '').split('-').map(Number);
    if (place && !press.isLong) asked.press(place, false);
    if (other) asked.turn(one, other);
  });
  board.addEventListener('contextmenu', (event) => {
    const place = placeOf(event.target);
    if (!place) return;
    event.preventDefault();
    if (/** @type {PointerEvent} */ (event).pointerType === 'touch') return;
    // WebKit may tell of a click after it, as of the first button, and Firefox does on a Mac, with Control.
    press.isLong = event.button > 0 || event.ctrlKey;
    asked.choose(place);
    asked.press(place, true);
  });
  buttons(asked, press);
  fingers();
}

// Keys count where the board has the focus, or nothing has: they must not surprise a player who is in a field or on a button.
/** @param {KeyboardEvent} event @param {Asked} asked */
function key(event, asked) {
  const at = document.activeElement, isOnBoard = part('board').contains(at) || at === document.body;
  if (!asked.isReady() || isDialogOpen() || !isOnBoard || event.altKey) return;
  const isCommand = event.ctrlKey || event.metaKey, name = isCommand ? letterOf(event) : nameOf(event);
  const action = isCommand ? COMMANDS[name] : KEYS[name] ?? DESK_KEYS[name], step = isCommand ? undefined : STEPS[name];
  const number = isCommand ? 0 : Number(/^[1-9]$/.exec(name));
  if (step && !asked.along(step[0] + step[1]) && !(event.shiftKey && asked.sign(step))) asked.move(...step);
  else if (number) asked.number(number, false);
  else if (action) asked.act(action);
  if (step || action || number) event.preventDefault();
}

// How a key is called. Where a keyboard has digits with Shift alone, or other letters than Latin ones, its place counts: 1 is `&` in French.
/** @param {KeyboardEvent} event */
function nameOf({key, code, shiftKey}) {
  const [, digit, letter] = /^(?:Digit(\d)|Key(\w))$/.exec(code) ?? [];
  if (digit && !shiftKey && !/^\d$/.test(key)) return digit;
  return letter && key > '~' ? cased(letter, shiftKey) : key;
}

// The letter of a key, whether or not capitals are locked.
/** @param {KeyboardEvent} event */
const letterOf = (event) => cased(nameOf(event), event.shiftKey);

/** @param {string} letter @param {boolean} isCapital */
const cased = (letter, isCapital) => (isCapital ? letter.toUpperCase() : letter.toLowerCase());

/** @param {Asked} asked @param {LongPress} press */
function buttons(asked, press) {
  const main = document.querySelector('main');
  // A button leaves the focus where it was, so that keys and clicks go together. WebKit listens to the mouse alone.
  for (const kind of ['pointerdown', 'mousedown']) {
    main?.addEventListener(kind, (event) => { if (event.target instanceof Element && event.target.closest('button')) event.preventDefault(); });
  }
  main?.addEventListener('pointerdown', (event) => {
    const node = event.target instanceof Element ? event.target.closest('button') : null, number = Number(node?.dataset.number);
    if (number) press.begin(event, () => asked.pad(number, true));
  });
  document.addEventListener('click', ({target}) => {
    const node = target instanceof Element ? target.closest('button') : null;
    const {isLong} = press;
    press.isLong = false;
    if (!node || node.disabled || isLong || !asked.isReady()) return;
    const {do: name, number, step, set} = node.dataset;
    if (number) asked.pad(Number(number), false);
    if (step) asked.step(Number(step));
    if (set) asked.set(set);
    if (name) asked.act(name);
  });
}

/**
 * A finger counts as it is lifted, and not by the click that comes of it: with that a browser shows the button pressed, and takes no answer
 * meanwhile.
 */
function fingers() {
  /** @type {HTMLButtonElement | null} */
  let lifted = null;
  document.addEventListener('pointerup', ({pointerType, target, clientX, clientY}) => {
    const node = target instanceof Element ? /** @type {HTMLButtonElement | null} */ (target.closest('#side button')) : null;
    lifted = pointerType === 'touch' && node?.contains(document.elementFromPoint(clientX, clientY)) ? node : null;
  });
  document.addEventListener('touchend', (event) => {
    if (lifted && event.cancelable) {
      event.preventDefault();
      lifted.click();
    }
    lifted = null;
  }, {passive: false});
}

/** A press that lasts, of a finger or of the mouse. The click that ends it counts for nothing. */
class LongPress {
  /** @param {Asked} asked */
  constructor(asked) {
    this.asked = asked;
    this.timer = 0;
    /** Whether the press that a click ends is a long one. */
    this.isLong = false;
    this.from = {x: 0, y: 0};
    document.addEventListener('pointermove', ({clientX, clientY}) => {
      if (Math.hypot(clientX - this.from.x, clientY - this.from.y) > STILL) this.end();
    });
    document.addEventListener('pointerdown', () => { this.isLong = false; }, {capture: true});
    for (const event of ['pointerup', 'pointercancel']) document.addEventListener(event, () => this.end());
  }

  /** @param {PointerEvent} event @param {() => void} act */
  begin({clientX, clientY}, act) {
    this.end();
    this.from = {x: clientX, y: clientY};
    this.timer = setTimeout(() => {
      this.isLong = true;
      act();
    }, LONG);
  }

  end() {
    clearTimeout(this.timer);
  }
}

/** @param {EventTarget | null} target @param {string} data */
const nodeOf = (target, data) => (target instanceof Element ? /** @type {SVGElement | null} */ (target.closest(`[data-${data}]`)) : null);

/** @param {EventTarget | null} target */
const placeOf = (target) => nodeOf(target, 'place')?.dataset.place ?? '';
