// The setter's desk, in the place of the game: a puzzle is checked or set, item by item, and a verdict is sought after each change.
import {NO_BYTES} from './bytes.js';
import {ACTS, OTHERWISE, READ, addButtons, putSign} from './desk_acts.js';
import {DeskPicture} from './desk_picture.js';
import {AT_THINNING, LATE, MOVED_DRAFT, SIDES, TITLE, UNREAD_DRAFT, hindrance, itemsText, signText} from './desk_texts.js';
import {Drafts, longer} from './drafts.js';
import {choose, part, selectOf, set, show} from './drawing.js';
import {NAMES, SIZES, isGame, nearest} from './games.js';
import {numberLine, signLine} from './items.js';
import {kindOf} from './kept.js';
import {linkTo} from './links.js';
import {FAULTS, STOP, refusal, titleText} from './texts.js';
import {Unanswered} from './turns.js';
import {NOTHING, judge} from './verdict.js';

/** @typedef {import('./turns.js').Game} Game */
/** @typedef {import('./objects.js').Board} Board */
/** @typedef {import('./actions.js').Page} Page */
/** @typedef {import('./drafts.js').Draft} Draft */
// A line that makes another puzzle of the present one; where it goes back or forth, the place in the draft.
/** @typedef {{line: string, at?: number}} Change */
// A search for such a line, by questions on the present puzzle; nothing where there is none.
/** @typedef {(ask: import('./verdict.js').Ask) => Promise<Change | null>} Work */

/** After so many milliseconds it is said that solutions are sought, and the next change ends that; so long nothing changes before a verdict is said. */
const PATIENCE = 300, REST = 500;

export class Desk {
  /** @param {Page} page @param {import('./links.js').Links} links */
  constructor(page, links) {
    this.page = page;
    this.links = links;
    this.drafts = new Drafts(page.keeping);
    /** @type {Game} */
    this.game = 'towers';
    /** @type {Draft | null} */
    this.draft = null;
    /** @type {Board | null} */
    this.board = null;
    this.saved = NO_BYTES;
    this.verdict = NOTHING;
    /** @type {Promise<unknown>} */
    this.queue = Promise.resolve();
    /** How many changes were asked for, and whether the last one takes long. */
    this.asked = 0;
    this.isLate = this.isSolved = this.isAtWork = false;
    [this.timer, this.why] = [0, ''];
    this.pair = /** @type {number[] | null} */ (null);
    const {game, size} = this.lists = {game: selectOf('desk-game'), size: selectOf('desk-size')};
    game.onchange = () => isGame(game.value) && this.turnTo(game.value);
    size.onchange = () => { const line = `blank ${size.value}`; this.change(() => ({line})); };
    addButtons();
  }

  get isOpen() { return this.page.screen.desk !== null; }
  /** The puzzle that a link names. */
  get puzzle() { return {game: this.game, id: this.draft?.ids[this.draft.at] ?? '', fair: null}; }
  get title() { return titleText(this.game, this.board?.size ?? 0); }

  /** @param {Game} [game] */
  open(game = this.page.present.kept.game) {
    const {screen, walk, messages} = this.page;
    [document.body.className, screen.desk] = ['setting', this];
    walk.forget();
    messages.stay('');
    messages.clear();
    this.turnTo(game);
  }

  // The draft of a game goes on; where there is none a board without items begins.
  /** @param {Game} game */
  turnTo(game) {
    const {size} = this.board ?? this.page.present.board;
    [this.game, this.board, this.saved] = [game, null, NO_BYTES];
    history.replaceState({desk: game}, '');
    if (this.drafts.setAside(game, false)) this.page.messages.tell(UNREAD_DRAFT, {lasting: true});
    this.draft = this.drafts.of(game);
    this.change(() => this.along(0) ?? {line: `blank ${size}`});
  }

  /** Another game has the place. */
  leave() {
    if (!this.isOpen) return;
    this.hurry();
    clearTimeout(this.timer);
    history.replaceState(null, '');
    document.body.classList.remove('setting');
    this.page.screen.desk = this.board = null;
  }

  /** Back to the game before. */
  async close() {
    const {beginning, keeping, present: {kept}} = this.page;
    await this.idle();
    if ((await beginning.goOn(keeping.now)) === 'refused') await beginning.byChance(nearest(kindOf(kept)));
  }

  /** The search that still goes on ends, at once where it takes long. */
  hurry() {
    if (this.isLate) this.page.turns.stop();
    return ++this.asked;
  }

  /** Nothing more is sought, so that nothing else is stopped with it. */
  idle() {
    this.hurry();
    return this.queue;
  }

  // A change, when its turn has come; and between which squares a sign goes by it.
  /** @param {() => Change | null} ask @param {number[] | null} [pair] */
  change(ask, pair = null) {
    return this.inTurn(async () => {
      this.pair = pair;
      return this.isOpen ? ask() : null;
    });
  }

  // Begins a search that takes its time before it comes to a change: the next change ends it, and so does Stop.
  /** @param {Work} work */
  work(work) {
    return this.inTurn(async (own) => {
      const {messages} = this.page, timer = setTimeout(() => this.late(own), PATIENCE);
      this.isAtWork = true;
      try {
        return await work(this.asking(own));
      } catch (fault) {
        if (!(fault instanceof Unanswered)) throw fault;
        messages.tell(own === this.asked ? FAULTS[fault.fault] : '');
        return null;
      } finally {
        clearTimeout(timer);
        if (messages.text === AT_THINNING) messages.clear();
        this.isLate = this.isAtWork = false;
      }
    });
  }

  /** @param {(own: number) => Promise<Change | null>} ask */
  inTurn(ask) {
    const {messages} = this.page, own = this.hurry(), done = this.queue.then(async () => this.changed(own, await ask(own)));
    this.queue = done.catch(() => null);
    if (messages.text === this.why) messages.clear();
    return done;
  }

  // A change is made whatever comes after it, however long that takes; its verdict ends with the next change.
  /** @param {number} own @param {Change | null} change */
  async changed(own, change) {
    let timer = 0;
    try {
      if (change) await this.make(change);
      timer = setTimeout(() => this.late(own), PATIENCE);
      await this.judge(own);
    } catch (fault) {
      if (!(fault instanceof Unanswered)) throw fault;
      if (own === this.asked) this.tell({...NOTHING, text: FAULTS[fault.fault]});
    } finally {
      clearTimeout(timer);
      this.isLate = false;
    }
  }

  /** @param {number} own */
  late(own) {
    const {messages, turns} = this.page;
    this.isLate = true;
    if (own !== this.asked && this.isOpen) turns.stop();
    else if (this.isAtWork) messages.tell(AT_THINNING, {offer: {text: STOP, run: () => turns.stop()}});
    else if (!this.verdict.kind) this.tell({...NOTHING, text: LATE});
  }

  // Makes another puzzle, keeps it and shows it. A refused line changes nothing.
  /** @param {Change} change @returns {Promise<void>} */
  async make({line, at}) {
    const {game, saved, drafts, page: {messages}} = this, turned = await this.ask([line, 'board'], saved);
    const {board, session, lost, refused} = turned.answers[turned.answers.length - 1];
    if (!board || !session) {
      messages.tell(refusal(line, String(lost ?? refused), game));
      // A draft that the module refuses is another version's.
      if (at === undefined || !drafts.setAside(game, true)) return;
      this.draft = null;
      return this.make({line: 'blank 5'});
    }
    const next = this.next(session.id.replace(/^(.)d./, '$1'), at), isOwn = drafts.keep(next);
    this.draft = isOwn ? next : drafts.of(game);
    if (!isOwn) {
      messages.tell(MOVED_DRAFT);
      return this.make(/** @type {Change} */ (this.along(0)));
    }
    this.saved = turned.saved;
    this.show(board);
  }

  /** @param {string} id @param {number} [at] @returns {Draft} */
  next(id, at) {
    const {game, draft} = this, {turn, ids} = draft ?? {turn: this.drafts.of(game)?.turn ?? 0, ids: []};
    return draft && at === undefined ? longer(draft, id) : {turn: turn + 1, game, ids: draft ? ids : [id], at: at ?? 0};
  }

  /** @param {string[]} lines @param {typeof NO_BYTES} saved */
  ask(lines, saved) {
    return this.page.turns.turn({game: this.game, saved, lines, end: 'last'});
  }

  /** @param {number} own */
  async judge(own) {
    const {game, board} = this;
    if (board) await judge(game, board, this.asking(own), (verdict) => this.tell(verdict));
  }

  // Asks of the present puzzle, which stays, as long as nothing else was asked for.
  /** @param {number} own @returns {import('./verdict.js').Ask} */
  asking(own) {
    const {saved} = this, isAgain = () => { if (own !== this.asked) throw new Unanswered('stopped'); };
    return async (...lines) => {
      isAgain();
      const {answers} = await this.ask(lines, saved), answer = answers[answers.length - 1];
      isAgain();
      if (answer.lost) throw new Unanswered('memory');
      return answer;
    };
  }

  // Back or forth along the draft; nothing where that has an end.
  /** @param {number} by @returns {Change | null} */
  along(by) {
    const at = (this.draft?.at ?? 0) + by, id = this.draft?.ids[at];
    return id ? {line: `new ${id}`, at} : null;
  }

  /** @param {Board} board */
  show(board) {
    const {game, lists, page: {screen}} = this, {size} = board, isOther = this.board?.size !== size;
    [this.board, this.verdict] = [board, NOTHING];
    screen.rest(() => {});
    if (isOther) {
      choose(lists.game, Object.entries(NAMES), game);
      choose(lists.size, SIZES.map((own) => [String(own), `${own} by ${own}`]), String(size));
      show(part('signs'), game === 'unequal');
      screen.draw(new DeskPicture(game, board, this.title), TITLE);
    }
    this.tell(NOTHING);
  }

  // The verdict is seen at once, and said once nothing has changed for a while.
  /** @param {import('./verdict.js').Verdict} verdict */
  tell(verdict) {
    const {walk, messages, screen} = this.page, {kind, text, more} = verdict;
    if (!kind) walk.forget();
    this.isSolved = this.isSolved && Boolean(kind);
    this.verdict = verdict;
    part('verdict').className = `set is-${kind}`;
    part('ruling').textContent = text;
    part('grounds').textContent = more;
    clearTimeout(this.timer);
    this.timer = setTimeout(() => messages.say(`${text}. ${more}`), REST);
    screen.paint();
  }

  paint() {
    const {board, game, verdict, isSolved, page: {screen, walk}} = this, {picture, chosen, isPrinted} = screen;
    if (!board || !(picture instanceof DeskPicture)) return;
    const marked = walk.isOpen ? NOTHING.marked : verdict.marked, solution = isSolved ? verdict.solution : null;
    picture.paintDesk(board, {chosen, marking: false, shown: isPrinted ? null : walk.shown, lit: 0, lanes: false}, {...verdict, marked, solution});
    part('title').textContent = isPrinted ? this.title : TITLE;
    part('count').textContent = itemsText(game, board, isPrinted ? linkTo(this.puzzle) : this.pair ? signText(board, this.pair) : '');
    part('play').querySelectorAll('[data-do]').forEach((node) => set(node, 'aria-disabled', Boolean(this.hindrance(node.getAttribute('data-do') ?? ''))));
  }

  // Why something can't be done now.
  /** @param {string} name */
  hindrance(name) { return name === 'why' && this.page.walk.isOpen ? '' : hindrance(this.verdict, {undo: this.draft?.at, redo: this.along(1)}, name); }

  // A number at the chosen place. The same one once more takes it out.
  /** @param {number} number */
  number(number) {
    const place = this.page.screen.chosen;
    this.change(() => this.board && numberLine(this.board, place, number));
  }

  // The next sign between two squares, or the one by which the first is the greater one, or the lesser.
  /** @param {number} first @param {number} second @param {boolean} [isGreater] */
  turn(first, second, isGreater) {
    this.change(() => this.board && {line: signLine(this.board, first, second, isGreater)}, [first, second].sort((one, other) => one - other));
  }

  /** @param {number[]} by */
  sign(by) { putSign(this, by); }

  /** @param {string} name */
  act(name) {
    const side = SIDES.find(([own]) => own === name), own = OTHERWISE[name] ?? name;
    this.why = this.hindrance(own);
    if (READ[name]) putSign(this, ...READ[name]);
    else if (side) this.sign(side[1]);
    else if (this.why) this.page.messages.tell(this.why);
    else ACTS[own]?.(this, this.page);
  }
}
