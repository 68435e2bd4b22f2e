// All that is on the screen: the board, the head, the numbers and the buttons, as the present game is.
import {streakOf} from './daily.js';
import {button, focus, part, set, show} from './drawing.js';
import {GRADES, gradeOf} from './games.js';
import {kindOf, sizeOf} from './kept.js';
import {linkTo} from './links.js';
import {changeName} from './names.js';
import {cellOf, isFull, isSolved, placeAt, progress} from './objects.js';
import {Picture} from './picture.js';
import {FILLED_IN, FULL_AND_WRONG} from './shared_texts.js';
import {begunText, clockText, farText, keptText, NEXT_GAME, numberName, solvedText, titleText} from './texts.js';

/** @typedef {import('./present.js').Present} Present */
/** @typedef {import('./objects.js').Board} Board */
/** @typedef {import('./objects.js').Place} Place */
/** @typedef {import('./messages.js').Messages} Messages */
/** @typedef {import('./walk.js').Walk} Walk */
/** @typedef {import('./walked_hint.js').Shown} Shown */

/** @param {string} key */
const toolOf = (key) => document.querySelector(`#tools [data-do=${key}]`);

export class Screen {
  /** @param {Present} present @param {Messages} messages @param {Walk} walk */
  constructor(present, messages, walk) {
    this.present = present;
    // The setter's desk, where that has the game's place.
    /** @type {import('./desk.js').Desk | null} */
    this.desk = null;
    this.messages = messages;
    this.walk = walk;
    /** @type {Picture | null} */
    this.picture = null;
    /** @type {Place} */
    this.chosen = '0,0';
    this.marking = false;
    /** Where numbers are chosen first: the one that each pressed square gets; 0 where there is none. */
    this.held = 0;
    this.isPrinted = false;
    for (const kind of ['beforeprint', 'afterprint']) addEventListener(kind, () => this.print(kind === 'beforeprint'));
    // Of a card of the course what stands in the place of what is told of a game, and what is shown while no hint is.
    /** @type {{text: string, shown: Shown} | null} */
    this.card = null;
    /** The grade that the module finds, where the ID has another one or none. */
    this.found = '';
  }

  get board() { return this.desk?.board ?? this.present.board; }

  get title() {
    const {kept} = this.present;
    return titleText(kept.game, sizeOf(kept));
  }

  /** Draws a game anew. */
  begin() {
    const {kept, board} = this.present;
    [this.marking, this.held, this.found] = [false, 0, ''];
    this.messages.say(begunText(board, [this.title, gradeOf(kindOf(kept))].filter(Boolean).join(', ')));
    this.draw(new Picture(kept.game, board, this.title), this.title);
  }

  // A board takes the place of the one before, and the focus.
  /** @param {Picture} picture @param {string} title */
  draw(picture, title) {
    const {size} = picture, hadFocus = part('board').contains(document.activeElement);
    this.picture = picture;
    this.chosen = '0,0';
    part('board').replaceChildren(picture.svg);
    part('title').textContent = document.title = title;
    part('pad').style.setProperty('--columns', String(size > 6 ? Math.ceil(size / 2) : size));
    part('pad').replaceChildren(...Array.from({length: size}, (_, at) => numberButton(at + 1)));
    if (hadFocus) this.choose(this.chosen);
    else this.paint();
  }

  // Each change is said.
  /** @param {Board} before */
  change(before) {
    this.messages.say(changeName(before, this.present.board, this.chosen));
    this.paint();
  }

  paint() {
    if (this.desk) return this.desk.paint();
    const {board, session, keeping} = this.present, {chosen, marking, shown, lit} = this;
    this.picture?.paint(board, {chosen, marking, shown, lit, lanes: keeping.settings.lanes});
    this.paintCount();
    this.paintPad(board);
    toolOf('marks')?.setAttribute('aria-pressed', String(this.marking));
    // Not `disabled`: that would drop the focus of a player who undoes by the button.
    toolOf('undo')?.setAttribute('aria-disabled', String(session.position < 2));
    toolOf('redo')?.setAttribute('aria-disabled', String(session.position >= session.states));
  }

  // On paper no hint is open, and the link stands where the time was.
  /** @param {boolean} isPrinted */
  print(isPrinted) {
    this.isPrinted = isPrinted;
    if (this.present.there) this.paint();
  }

  get shown() { return this.isPrinted ? null : this.walk.shown ?? this.card?.shown ?? null; }

  /** The number that is lit wherever it stands: the one that is held, or that of the chosen square. */
  get lit() {
    const {board, keeping} = this.present;
    if (this.shown || this.isPrinted || !keeping.settings.equal) return 0;
    return this.held || board.numbers[cellOf(this.chosen, board.size)] || 0;
  }

  /** The line below the title. */
  paintCount() {
    if (this.desk) return;
    const {kept, board, keeping} = this.present, {filled, empty} = progress(board), grade = this.found || gradeOf(kindOf(kept));
    const clock = keeping.settings.time ? clockText(kept.seconds) : '', last = this.isPrinted ? linkTo(kept) : clock;
    part('count').textContent = this.card?.text ?? [grade, isSolved(board) ? 'solved' : farText(filled, empty), last].filter(Boolean).join(' · ');
  }

  // How many of each number are left, and which one is held.
  /** @param {Board} board */
  paintPad({numbers, size}) {
    const {numberFirst} = this.present.keeping.settings;
    part('pad').querySelectorAll('button').forEach((node, at) => {
      const left = size - numbers.filter((number) => number === at + 1).length;
      set(node, 'aria-label', numberName(at + 1, left));
      if (numberFirst) set(node, 'aria-pressed', this.held === at + 1);
      else node.removeAttribute('aria-pressed');
      node.classList.toggle('used', left <= 0);
      const count = node.querySelector('small');
      if (count) count.textContent = left > 0 ? String(left) : '';
    });
  }

  // From here on each square that is pressed gets this number; where it is pressed once more none does.
  /** @param {number} number */
  hold(number) {
    this.held = this.held === number ? 0 : number;
    this.paint();
  }

  /** @param {Place} place */
  choose(place) {
    this.chosen = place;
    focus(this.picture?.places.get(place));
    this.paint();
  }

  // On to the next place that there is: a square, a clue, or from a clue the next one of its edge.
  /** @param {number} dx @param {number} dy */
  move(dx, dy) {
    const {size} = this.board, places = this.picture?.places;
    let [x, y] = this.chosen.split(',').map(Number);
    const isAlong = (dx !== 0 && (y < 0 || y === size)) || (dy !== 0 && (x < 0 || x === size));
    do [x, y] = [x + dx, y + dy];
    while (isAlong && Math.max(x, y, -1 - x, -1 - y) <= size && !places?.has(placeAt(x, y)));
    if (places?.has(placeAt(x, y))) this.choose(placeAt(x, y));
  }

  // The grade by our own steps, where the ID has another one or none.
  /** @param {string | null | undefined} letter */
  grade(letter) {
    const {kept} = this.present, own = gradeOf(kindOf(kept)), found = GRADES[kept.game][letter ?? ''] ?? '';
    this.found = found && found !== own ? [own, `${found} by our steps`].filter(Boolean).join(', ') : '';
    this.paintCount();
  }

  // The lasting line: how the game has ended, or what hinders it from being kept.
  /** @param {() => void} next */
  rest(next) {
    const {board, kept, keeping} = this.present, {trouble} = keeping, offer = {text: NEXT_GAME, run: next};
    const seconds = keeping.settings.time ? kept.seconds : 0;
    if (!trouble && this.desk) return;
    if (trouble) this.messages.stay(keptText(keeping), {bad: true});
    else if (kept.state === 'filled') this.messages.stay(FILLED_IN, {offer});
    else if (kept.state === 'solved') this.messages.stay(solvedText(kept.hints, seconds, streakOf(keeping, kept)), {offer});
    else this.messages.stay(isFull(board) ? FULL_AND_WRONG : '');
    show(part('share'), kept.state === 'solved');
  }
}

/** @param {number} number */
function numberButton(number) {
  const node = button(String(number), {'data-number': number});
  node.append(document.createElement('small'));
  return node;
}
