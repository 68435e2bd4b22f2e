// Messages: a line that is seen, which fades, with an offer beside it; and one for readers of screens alone.
import {part, show} from './drawing.js';

// An offer that can be taken at once.
/** @typedef {{text: string, run: () => void}} Offer */
/** @typedef {{bad?: boolean, lasting?: boolean, offer?: Offer | null}} How */

/** How long a sentence stays at least, and for each of its letters, in milliseconds. */
const STAYS = 4000, A_LETTER = 60;

export class Messages {
  constructor() {
    /** @type {Offer | null} */
    this.offered = null;
    this.timer = 0;
    // The text that is seen where there is nothing else to say.
    /** @type {{text: string, how: How}} */
    this.rest = {text: '', how: {}};
    // The text that is seen now, and the one in whose place another one is told for a while.
    this.last = this.before = this.rest;
    part('offer').addEventListener('click', () => this.offered?.run());
  }

  /** The text that is seen now. */
  get text() { return part('told').textContent ?? ''; }

  /** @param {string} text @param {How} [how] */
  tell(text, how = {}) {
    clearTimeout(this.timer);
    this.write(text, how);
    if (text && !how.lasting && !how.offer) this.timer = setTimeout(() => this.fade(), STAYS + A_LETTER * text.length);
  }

  // Says something for as long as it holds.
  /** @param {string} text @param {How} how */
  hold(text, how) {
    this.before = part('message').classList.contains('fading') ? this.rest : this.last;
    this.tell(text, how);
  }

  // That holds no more: what was told before is seen again, where nothing else was told meanwhile.
  /** @param {string} text */
  release(text) {
    if (this.text === text) this.tell(this.before.text, this.before.how);
  }

  fade() {
    if (this.rest.text) this.clear();
    else part('message').classList.add('fading');
  }

  /** Nothing more of what was said, but what is to be seen then. */
  clear() {
    clearTimeout(this.timer);
    this.write(this.rest.text, this.rest.how);
  }

  // Sets the text that is seen from here on where there is nothing else to say.
  /** @param {string} text @param {How} [how] */
  stay(text, how = {}) {
    const isNew = text !== this.rest.text;
    this.rest = {text, how};
    if (isNew) this.clear();
  }

  // The same sentence once more is announced only where it was gone in between.
  /** @param {string} text @param {How} how */
  write(text, how) {
    const {bad = false, offer = null} = how, message = part('message'), told = part('told');
    this.last = {text, how};
    this.offered = offer;
    message.classList.remove('fading');
    told.replaceChildren();
    told.append(text);
    told.classList.toggle('bad', bad);
    part('offer').textContent = offer?.text ?? '';
    show(part('offer'), Boolean(offer));
  }

  // For readers of screens.
  /** @param {string} text */
  say(text) {
    part('said').textContent = text;
  }
}
