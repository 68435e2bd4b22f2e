// The list of the games that are kept, each with a small picture: those that are to be finished first.
import {button, element, focus, part, shape, show} from './drawing.js';
import {closeDialogs, confirmed, openDialog, pictured} from './dialogs.js';
import {farOf, kindOf, sizeOf} from './kept.js';
import {NO_GAME} from './shared_texts.js';
import {clockText, dayAndTime, deleteFinishedText, deleteGameText, farText, kindText, unreadGames} from './texts.js';

/** @typedef {import('./kept.js').Kept} Kept */
/** @typedef {import('./keeping.js').Keeping} Keeping */

// The words for how far a game is.
/** @type {Record<import('./kept.js').State, string>} */
const STATES = {playing: '', solved: 'solved', filled: 'filled in'};

/** @param {Kept} kept */
function picture({id, numbers, givens}) {
  const size = Number(id.charAt(0)), ground = shape('rect', {width: size, height: size, class: 'ground'});
  const digits = numbers.flatMap((number, cell) => (number ? digit(cell, size, number, givens[cell] ? 'given' : 'own') : []));
  const lines = Array.from({length: size - 1}, (_, at) => `M${at + 1} 0V${size}M0 ${at + 1}H${size}`).join('');
  const frame = shape('rect', {width: size, height: size, class: 'around', 'stroke-width': 0.1});
  return [ground, ...digits, shape('path', {d: lines, 'stroke-width': 0.03}), frame];
}

/** @param {number} cell @param {number} size @param {number} number @param {string} kind */
function digit(cell, size, number, kind) {
  const x = cell % size, y = Math.floor(cell / size);
  const text = shape('text', {x: x + 0.5, y: y + 0.75, 'font-size': 0.72, class: kind}, String(number));
  return [shape('rect', {x, y, width: 1, height: 1, class: kind}), text];
}

export class List {
  // The calls for a chosen game, and after games were deleted: whether another one begins then.
  /** @param {Keeping} keeping @param {(key: string) => void} goOn @param {(keys: string[]) => Promise<boolean>} deleted */
  constructor(keeping, goOn, deleted) {
    this.keeping = keeping;
    this.goOn = goOn;
    this.deleted = deleted;
    /** @type {Kept[]} */
    this.games = [];
    // A picture is drawn where it comes into view: those of a thousand games have a hundred thousand elements.
    this.view = new IntersectionObserver((seen) => seen.forEach((one) => this.draw(one)), {root: part('games'), rootMargin: '100%'});
    part('games-list').addEventListener('click', ({target}) => {
      const node = target instanceof Element ? target.closest('button') : null, {key, gone} = node?.dataset ?? {};
      if (key) {
        closeDialogs();
        goOn(key);
      }
      if (gone) this.delete(gone);
    });
    part('games-finished').addEventListener('click', () => this.deleteFinished());
  }

  open() {
    this.show();
    openDialog('games');
  }

  show() {
    const games = this.keeping.games(), finished = games.filter(({state}) => state !== 'playing');
    this.games = [...games.filter(({state}) => state === 'playing'), ...finished];
    part('games-none').textContent = NO_GAME;
    show(part('games-none'), games.length === 0);
    part('games-unread').textContent = unreadGames(this.keeping.unread().length);
    show(part('games-finished'), finished.length > 0);
    this.view.disconnect();
    part('games-list').replaceChildren(...this.games.map((kept) => this.item(kept)));
  }

  // The list keeps its place, since its other items stay as they are.
  /** @param {string[]} keys */
  drop(keys) {
    const items = [...part('games-list').children];
    this.games.forEach(({key}, at) => { if (keys.includes(key)) items[at].remove(); });
    this.games = this.games.filter(({key}) => !keys.includes(key));
    show(part('games-finished'), this.games.some(({state}) => state !== 'playing'));
  }

  /** @param {Kept} kept */
  item(kept) {
    const size = sizeOf(kept), name = kindText(kindOf(kept)), time = kept.seconds ? clockText(kept.seconds) : '';
    const more = [kept.fair ? `number ${kept.fair.number}` : '', time, dayAndTime(kept.when)].filter(Boolean).join(' · ');
    const svg = shape('svg', {viewBox: `-0.1 -0.1 ${size + 0.2} ${size + 0.2}`, class: 'small-board', 'aria-hidden': true});
    const node = pictured(svg, element('b', name), element('span', ` · ${stateText(kept)}`), element('br'), element('small', more));
    node.dataset.key = kept.key;
    this.view.observe(svg);
    return element('li', '', {}, node, button('Delete', {'data-gone': kept.key, 'aria-label': `Delete ${name}, ${more}`}));
  }

  /** @param {IntersectionObserverEntry} seen */
  draw({isIntersecting, target}) {
    const key = target.closest('button')?.dataset.key, kept = this.games.find((game) => game.key === key);
    if (!isIntersecting || !kept) return;
    target.append(...picture(kept));
    this.view.unobserve(target);
  }

  /** @param {string} key */
  async delete(key) {
    const at = this.games.findIndex((game) => game.key === key), kept = this.games[at];
    await this.deleteAll([key], deleteGameText(`${kindText(kindOf(kept))}, ${stateText(kept)}`));
    // The next one is where this was; a player who goes on deleting needs look for nothing.
    focus(part('games-list').children[Math.min(at, this.games.length - 1)]?.lastElementChild);
  }

  async deleteFinished() {
    const keys = this.games.filter(({state}) => state !== 'playing').map(({key}) => key);
    await this.deleteAll(keys, deleteFinishedText(keys.length));
    focus(part('games').querySelector('[data-close]'));
  }

  // After a question.
  /** @param {string[]} keys @param {string} question */
  async deleteAll(keys, question) {
    if (!(await confirmed(question))) return;
    for (const key of keys) this.keeping.delete(key);
    if (await this.deleted(keys)) this.show();
    else this.drop(keys);
  }
}

/** @param {Kept} kept */
function stateText(kept) {
  const {filled, empty} = farOf(kept);
  return STATES[kept.state] || farText(filled, empty);
}
