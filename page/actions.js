// Whatever a player asks for by keys, mouse or finger, by name.
import {bytesOf, textOf} from './bytes.js';
import {Course} from './course.js';
import {Daily} from './daily.js';
import {Desk} from './desk.js';
import {whyOfGame} from './desk_acts.js';
import {closeDialogs, openDialog, showPage, typedLine} from './dialogs.js';
import {inputOf, part} from './drawing.js';
import {allGames, bringIn, give, saveIn} from './files.js';
import {Fresh} from './fresh.js';
import {gradeOf, kindOfName, nameOfKind, nearest, numberOfDay} from './games.js';
import {Hints} from './hints.js';
import {fileName, kindOf, moment} from './kept.js';
import {Links} from './links.js';
import {List} from './list.js';
import {cellOf} from './objects.js';
import {isSave, nameIn, toDesk} from './pasted.js';
import {openRules} from './rules.js';
import {openStatistics} from './statistics.js';
import {BY_STEPS, COMMAND, MARKING, NONE_HELD, NO_SUCH_LINK, PLACING, SET, heldText, keptText} from './texts.js';

/** @typedef {import('./objects.js').Place} Place */
/** @typedef {import('./games.js').Kind} Kind */
/** @typedef {import('./keeping.js').Settings} Settings */
/**
 * The parts of the page that the actions work on.
 * @typedef {{present: import('./present.js').Present, moves: import('./moves.js').Moves, beginning: import('./beginning.js').Beginning,
 *   screen: import('./screen.js').Screen, walk: import('./walk.js').Walk, messages: import('./messages.js').Messages,
 *   keeping: import('./keeping.js').Keeping, turns: import('./turns.js').Turns}} Page
 */

/** Settings that a button switches on or off. */
const SWITCHES = /** @type {const} */ (['tidy', 'fromMarks', 'numberFirst', 'equal', 'lanes', 'time']);

export class Actions {
  /** @param {Page} page */
  constructor(page) {
    this.page = page;
    this.hints = new Hints(page);
    this.course = new Course(page);
    const {beginning, keeping} = page;
    this.fresh = new Fresh({
      kind: (kind) => this.begin(kind),
      numbered: (fair) => this.refusal(() => beginning.numbered(fair)),
      named: (link) => this.refusal(() => beginning.named(link)),
      file: (file) => this.file(file),
      save: (text) => beginning.save(textOf(new TextEncoder().encode(text))),
      check: (puzzle) => toDesk(this.desk, puzzle),
    });
    this.links = new Links(page);
    this.desk = new Desk(page, this.links);
    /** @type {import('./sheet.js').SheetDialog | null} */
    this.sheet = null;
    this.daily = new Daily(keeping, (fair) => beginning.numbered(fair));
    this.list = new List(keeping, (key) => beginning.goOn(key), (keys) => this.leave(keys));
    const games = inputOf('games-file');
    games.addEventListener('change', () => { if (games.files?.[0]) this.bringIn(games.files[0]); });
    document.addEventListener('dragover', (event) => event.preventDefault());
    document.addEventListener('drop', (event) => this.drop(event));
  }

  /** @param {number} at */
  step(at) { this.hints.step(at); }
  /** @param {number} by */
  along(by) { return this.hints.along(by); }

  isReady() { return this.page.present.there !== null; }

  /** @param {string} name */
  act(name) {
    const isAlong = name === 'earlier' || name === 'later';
    if (!isAlong) closeDialogs();
    const {course} = this, by = course.isOpen && IN_COURSE[name];
    if (!isAlong && this.desk.isOpen) this.desk.act(name);
    else if (by) course.go(course.at + by);
    else ACTIONS[name]?.(this, this.page);
  }

  /** @param {number} number @param {boolean} isOther  a mark where numbers are put in, or the other way round */
  number(number, isOther) {
    const {screen} = this.page;
    if (screen.desk) screen.desk.number(number);
    else this.put(screen.chosen, number, screen.marking !== isOther);
  }

  /** @param {Place} place @param {number} number @param {boolean} isMark @param {boolean} [isFlipped]  whether the same number goes out again */
  put(place, number, isMark, isFlipped) {
    if (isMark || !this.course.isOpen) this.page.moves.put(place, number, isMark, isFlipped);
    else this.course.answer(place, number);
  }

  // A number is pressed: it goes into the chosen square; or, where numbers are chosen first, into those that are pressed next.
  /** @param {number} number @param {boolean} isOther */
  pad(number, isOther) {
    const {keeping, messages, screen} = this.page;
    if (isOther || screen.desk || !keeping.settings.numberFirst) return this.number(number, isOther);
    screen.hold(number);
    messages.tell(screen.held ? heldText(number) : NONE_HELD);
  }

  // A clue or a square is pressed, shortly or for long.
  /** @param {Place} place @param {boolean} isLong */
  press(place, isLong) {
    if (this.desk.isOpen) return;
    const {moves, present: {board}, screen: {held, marking}} = this.page, cell = cellOf(place, board.size), isMark = marking !== isLong;
    if (cell >= 0 && held) this.put(place, held, isMark, true);
    else if (isLong) this.act('enter');
    else if (cell < 0) moves.done(place);
  }

  /** @param {Place} place */
  choose(place) { this.page.screen.choose(place); }
  /** @param {number} dx @param {number} dy */
  move(dx, dy) { this.page.screen.move(dx, dy); }

  // The sign between two squares of the setter's desk; or that of the chosen one on a side, and whether there is such a desk.
  /** @param {number} one @param {number} other */
  turn(one, other) { this.page.screen.desk?.turn(one, other); }
  /** @param {number[]} by */
  sign(by) {
    this.page.screen.desk?.sign(by);
    return this.desk.isOpen;
  }

  // A new game of a kind, which is the kind of the next one, too.
  /** @param {Kind} kind */
  async begin(kind) {
    this.page.keeping.set({kind: nameOfKind(kind)});
    await this.page.beginning.byChance(kind);
  }

  // Another game begins where the present one is among those that are deleted; whether it is.
  /** @param {string[]} keys */
  async leave(keys) {
    const {kept} = this.page.present, isAmong = keys.includes(kept.key);
    if (isAmong) await this.begin(nearest(kindOf(kept)));
    return isAmong;
  }

  // A game that is asked for begins; where it doesn't, the sentence that says why, and no other place has it then.
  /** @param {() => Promise<unknown>} ask */
  async refusal(ask) {
    const {present, messages} = this.page, before = present.there;
    await ask();
    if (present.there !== before) return '';
    const why = messages.text;
    messages.clear();
    return why;
  }

  // A text that is dropped or in the address: a link or an ID, or what New can read.
  /** @param {string} text */
  async named(text) {
    const {beginning, messages} = this.page, link = nameIn(text);
    if (link) beginning.named(link);
    else if (!(await this.paste(text))) messages.tell(NO_SUCH_LINK);
  }

  /** @param {string} text */
  paste(text) { return this.fresh.paste(kindOfName(this.page.keeping.settings.kind) ?? nearest(kindOf(this.page.present.kept)), text); }

  /** A game that was solved for the first time is noted, if not with the program's help. */
  noteSolved() {
    const {present, keeping} = this.page, {kept, board, session} = present;
    if (kept.state !== 'solved' || kept.solved) return;
    const when = moment(), seconds = keeping.settings.time ? kept.seconds : 0;
    keeping.addSolved([{kind: nameOfKind(kindOf(kept)), number: kept.fair?.number ?? '', when, seconds, hints: kept.hints}]);
    present.inTurn(() => present.advance({...present.kept, solved: when}, {board, session}));
  }

  /** The grade by our own steps, of a game that isn't made by a grade. */
  async askGrade() {
    const {present, screen, messages} = this.page, {kept} = present;
    if (kept.fair || !kept.key) return;
    const turned = await present.inTurn(() => present.ask('grade', kept.save, kept.game));
    if (!turned || present.kept.key !== kept.key) return;
    screen.grade(turned.answer.grade);
    if (screen.found && !messages.text) messages.tell(BY_STEPS);
  }

  /** @param {File} file */
  async file(file) {
    if (file.name.endsWith('.json')) return this.bringIn(file);
    const text = await saveIn(file, (text) => this.page.messages.tell(text, {bad: true}));
    if (text !== null && (isSave(text) || !(await this.paste(new TextDecoder().decode(bytesOf(text)))))) await this.page.beginning.save(text);
  }

  /** @param {File} file */
  async bringIn(file) {
    const said = await bringIn(file, this.page.keeping, this.page.beginning);
    inputOf('games-file').value = '';
    closeDialogs();
    this.page.messages.tell(said);
  }

  // A file, a link or an ID is dropped onto the page.
  /** @param {DragEvent} event */
  drop(event) {
    event.preventDefault();
    const [file] = event.dataTransfer?.files ?? [], text = event.dataTransfer?.getData('text/plain').trim();
    if (file) this.file(file);
    else if (text) this.named(text);
  }

  async command() {
    const line = await typedLine(COMMAND);
    if (!line) return;
    const reply = await (/^(new|fair) /.test(line) ? this.page.beginning.typed(line) : this.page.moves.typed(line));
    if (reply && (reply.length > 1 || reply.join('').length > 60)) showPage(line, reply);
    else if (reply) this.page.messages.tell(reply.join(' '));
  }

  /** @param {string} name */
  set(name) {
    const known = SWITCHES.find((one) => one === name), {keeping, screen, messages, present, walk} = this.page;
    if (!known) return;
    keeping.set({[known]: !keeping.settings[known], ...(known === 'fromMarks' && {isFromChosen: true})});
    this.showSettings();
    if (known === 'numberFirst') screen.held = 0;
    if (known === 'fromMarks') walk.forget();
    screen.paint();
    const said = SET[known]?.[Number(keeping.settings[known])];
    // After the moves that were asked for before, which would take the sentence away.
    if (said) present.inTurn(async () => messages.tell(said));
  }

  showSettings() {
    const {settings} = this.page.keeping;
    for (const name of SWITCHES) part('menu').querySelector(`[data-set=${name}]`)?.setAttribute('aria-pressed', String(settings[name]));
  }
}

// By how many cards these go on in the course: to its end by more than there are.
/** @type {Record<string, number>} */
const IN_COURSE = {enter: 1, new: 1, back: -1, quit: 9};

// The act of each name.
/** @type {Record<string, (actions: Actions, page: Page) => unknown>} */
const ACTIONS = {
  new: ({fresh, page}) => fresh.open(kindOfName(page.keeping.settings.kind) ?? nearest(kindOf(page.present.kept))),
  next: (actions, {present}) => actions.begin(nearest(kindOf(present.kept))),
  learn: ({course}) => course.go(0),
  menu(actions) {
    actions.showSettings();
    part('about').textContent = keptText(actions.page.keeping);
    openDialog('menu');
  },
  desk: ({desk}) => desk.open(),
  only: ({desk}) => whyOfGame(desk),
  games: ({list}) => list.open(),
  async sheet(actions) {
    const {SheetDialog} = await import('./sheet.js');
    (actions.sheet ??= new SheetDialog()).open(actions.page.present.kept.game);
  },
  daily: ({daily}) => daily.open(),
  rules: (_, {present, keeping}) => openRules(present.kept.game, keptText(keeping)),
  statistics: (_, {keeping}) => openStatistics(keeping.solved()),
  link: ({links}) => links.copyLink(),
  text: ({links}, {present: {kept, board}}) => links.copyText(kept.game, board),
  share: ({links}) => links.copyResult(),
  id: ({links}) => links.showID(),
  save: (_, {present: {kept}}) => give(fileName(kept, gradeOf(kindOf(kept))), bytesOf(kept.save)),
  export: (_, {keeping}) => give(`puzzles-games-${numberOfDay(new Date())}.json`, allGames(keeping)),
  print: () => print(),
  pause: () => openDialog('pause'),
  command: (actions) => actions.command(),
  quit: (_, {messages, keeping}) => messages.tell(keptText(keeping)),
  tidy: (actions) => actions.set('tidy'),
  marks(_, {screen, messages, present}) {
    screen.marking = !screen.marking;
    screen.paint();
    present.inTurn(async () => messages.tell(screen.marking ? MARKING : PLACING));
  },
  enter: (actions, {screen, present}) => actions.act(cellOf(screen.chosen, present.board.size) < 0 ? 'done' : 'marks'),
  clear: (_, {moves, screen}) => moves.clear(screen.chosen),
  all: (_, {moves}) => moves.line('move M'),
  possible: ({hints}) => hints.possible(),
  undo: (_, {moves}) => moves.line('undo'),
  redo: (_, {moves}) => moves.line('redo'),
  done: (_, {moves, screen}) => moves.done(screen.chosen),
  restart: (_, {moves}) => moves.restart(),
  solve: (_, {moves}) => moves.solve(),
  check: ({hints}) => hints.check(),
  back: (_, {moves}) => moves.back(),
  hint: ({hints}) => hints.inOrder(() => hints.next()),
  why: ({hints}) => hints.inOrder(() => hints.open()),
  take: ({hints}) => hints.take(),
  keep: ({hints}) => hints.inOrder(() => hints.keep()),
  earlier: ({hints}) => hints.along(-1),
  later: ({hints}) => hints.along(1),
  leave(_, {walk, screen}) {
    walk.forget();
    screen.paint();
  },
  escape(actions, {present, turns, messages}) {
    if (present.isBusy) turns.stop();
    messages.clear();
    actions.act('leave');
  },
};
