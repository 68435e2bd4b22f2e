// The changes that a player makes to the present game, as lines of the module.
import {cellOf, crossing, isFull, isSolved, placeAt, placeOf} from './objects.js';
import {ALL_POSSIBLE, FULL, NEVER_RIGHT, NO_HINT, NOTHING_CHANGES, NOTHING_TO_CLEAR, NOTHING_TO_KEEP, SOLVED, STILL_RIGHT} from './shared_texts.js';
import {AT_START, COMPLETABLE, FILL_IN, NOT_A_CLUE, NOT_A_SQUARE, takenBackText} from './texts.js';

/** @typedef {import('./present.js').Present} Present */
/** @typedef {import('./objects.js').Board} Board */
/** @typedef {import('./objects.js').Place} Place */
/** @typedef {import('./objects.js').Hint} Hint */
/** @typedef {import('./walked_hint.js').WalkedHint} WalkedHint */

export class Moves {
  /** @param {Present} present @param {(question: string) => Promise<boolean>} confirm */
  constructor(present, confirm) {
    this.present = present;
    this.confirm = confirm;
  }

  // Puts a number, or flips a pencil mark, in a square. A number that is there already stays, or goes out again where it is flipped, too.
  /** @param {Place} place @param {number} number @param {boolean} isMark @param {boolean} [isFlipped] */
  put(place, number, isMark, isFlipped = false) {
    return this.onSquare(place, (board, cell) => {
      if (isMark) return [`move P${place},${number}`];
      if (isFlipped && board.numbers[cell] === number && !board.givens[cell]) return [`move R${place},0`];
      return this.linesOf(`move R${place},${number}`);
    });
  }

  /** @param {Place} place */
  clear(place) {
    return this.onSquare(place, ({numbers, marks}, cell) => (numbers[cell] || marks[cell].length ? [`move R${place},0`] : NOTHING_TO_CLEAR));
  }

  // A change of a square depends on its number and marks when its turn has come.
  /** @param {Place} place @param {(board: Board, cell: number) => string[] | string} made */
  onSquare(place, made) {
    return this.present.inTurn(async () => {
      const cell = cellOf(place, this.present.board.size), lines = cell < 0 ? NOT_A_SQUARE : made(this.present.board, cell);
      if (typeof lines === 'string') this.present.front.tell(lines);
      else if (lines.length) await this.present.play(lines);
    });
  }

  // A line with those that are one move with it, by whatever it is asked for. Where marks go with numbers: moves before the number that take its marks
  // out of its row and column, so that it is the first to be undone. None where the number is there; and back or forth of however many states.
  /** @param {string} line */
  linesOf(line) {
    const {present} = this, {board, session} = present, [, x, y, number] = (/^move R([0-9]),([0-9]),([1-9])$/.exec(line) ?? []).map(Number);
    if (line === 'undo' || line === 'redo') return Array(present.statesOf(line, session.position)).fill(line);
    const cell = number ? cellOf(placeAt(x, y), board.size) : -1;
    if (cell < 0 || board.givens[cell]) return [line];
    if (board.numbers[cell] === number) return [];
    const cells = present.keeping.settings.tidy ? crossing(cell, board.size).filter((one) => one !== cell && board.marks[one].includes(number)) : [];
    return [...cells.map((one) => `move P${placeOf(one, board.size)},${number}`), line];
  }

  // Plays a line.
  /** @param {string} line */
  line(line) {
    return this.present.inTurn(async () => {
      const lines = this.linesOf(line);
      if (lines.length) return this.present.play(lines, line === 'undo' || line === 'redo');
      this.present.front.tell(NOTHING_CHANGES);
      return null;
    });
  }

  /** @param {Place} place */
  done(place) {
    if (cellOf(place, this.present.board.size) < 0) return this.line(`move D${place}`);
    this.present.front.tell(NOT_A_CLUE);
    return Promise.resolve(null);
  }

  restart() {
    return this.present.inTurn(async () => {
      if (await this.present.play(['restart'])) this.present.front.tell(AT_START);
    });
  }

  /** The marks become the numbers that are possible by what is in view, as the module says it. */
  possible() {
    return this.present.inTurn(async () => {
      const {board} = this.present, {answer} = await this.present.ask('hint'), view = answer.hint?.view;
      if (!view) return false;
      const lines = possibleLines(board, view);
      if (!lines.length) this.present.front.tell(ALL_POSSIBLE);
      return lines.length > 0 && Boolean(await this.present.play(lines));
    });
  }

  // The numbers that a hint ruled out go from the marks of the empty squares, as one move.
  /** @param {WalkedHint} walked  a hint of the numbers that are shown */
  keep(walked) {
    const {numbers} = this.present.board;
    return this.present.inTurn(async () => {
      const {present} = this, {board} = present;
      // A number may have come in between.
      if (board.numbers.join() !== numbers.join()) return false;
      const lines = flips(board, keptMarks(board, walked));
      if (!lines.length) present.front.tell(NOTHING_TO_KEEP);
      return lines.length > 0 && Boolean(await present.play(lines));
    });
  }

  /** Fills in the solution, after a question. */
  async solve() {
    if (isSolved(this.present.board)) this.present.front.tell(SOLVED);
    else if (await this.confirm(FILL_IN)) await this.fillIn();
  }

  fillIn() {
    return this.present.inTurn(async () => {
      const answer = await this.present.play(['solve']);
      if (answer && !isSolved(this.present.board)) this.present.front.tell(`${answer.reply.join(' ')}.`);
    });
  }

  // A line that the player has typed: what it says where it changes nothing.
  /** @param {string} line @returns {Promise<string[] | null>} */
  typed(line) {
    return this.line(line).then((answer) => (answer && answer.reply.join() !== 'ok' ? answer.reply : null));
  }

  /** Whether these numbers can be completed, as a sentence; `none` where they can't, and nothing where that isn't known. */
  check() {
    return this.present.inTurn(async () => {
      const {board} = this.present, {answer} = await this.present.ask('completable');
      if (this.present.isRefused('completable', answer) || !answer.completable) return null;
      if (answer.completable === 'none') return 'none';
      return isSolved(board) ? SOLVED : COMPLETABLE[answer.completable];
    });
  }

  /** How many moves ago the numbers could be completed last; 0 where they never could, and nothing where that isn't known. */
  sinceRight() {
    return this.present.inTurn(async () => {
      const {present} = this, {kept, session} = present;
      /** @type {string[]} */
      const lines = [];
      for (let position = session.position; position > 1;) {
        const before = position - present.statesOf('undo', position);
        for (; position > before; position--) lines.push('undo');
        lines.push('completable');
      }
      const {answers} = await present.askAll(lines, kept.save, kept.game, 'completable'), last = answers[answers.length - 1];
      if (last && present.isRefused(lines[answers.length - 1], last)) return null;
      return last?.completable === 'none' ? 0 : answers.filter(({completable}) => completable).length;
    });
  }

  // Takes so many moves back.
  /** @param {number} moves */
  takeBack(moves) {
    return this.present.inTurn(async () => {
      let {position} = this.present.session, states = 0;
      for (let move = 0; move < moves; move++) {
        const more = this.present.statesOf('undo', position);
        [position, states] = [position - more, states + more];
      }
      if (await this.present.play(Array(states).fill('undo'), true)) this.present.front.tell(takenBackText(moves));
    });
  }

  /** Takes moves back until the numbers can be completed. */
  async back() {
    const answer = await this.check(), moves = answer === 'none' ? await this.sinceRight() : null;
    if (moves) await this.takeBack(moves);
    else if (moves === 0) this.present.front.tell(NEVER_RIGHT, {bad: true});
    else if (answer && answer !== 'none') this.present.front.tell(STILL_RIGHT);
  }

  // The hint of the board's numbers. Nothing where none follows, and a sentence says so then; 'none' where the numbers can't be completed, though no
  // steps show it.
  /** @returns {Promise<Hint | 'none' | null>} */
  hint() {
    return this.present.inTurn(async () => {
      const {board, front, kept, keeping} = this.present, line = keeping.settings.fromMarks && kept.key ? 'hint marks' : 'hint';
      const {answer} = await this.present.ask(line);
      if (this.present.isRefused(line, answer) || !answer.hint) return null;
      const {kind} = answer.hint;
      if (kind === 'nothing' && isFull(board)) {
        front.tell(isSolved(board) ? SOLVED : FULL);
        return null;
      }
      // A wrong number is told before a missing mark.
      const isShown = kind === 'contradiction' && answer.hint.from !== 'marks';
      if (!isShown && (await this.present.ask('completable')).answer.completable === 'none') return 'none';
      if (kind === 'nothing') front.tell(NO_HINT);
      return kind === 'nothing' ? null : answer.hint;
    });
  }

  // The number of a square by the puzzle's only solution; 0 where there are several, or that isn't known.
  /** @param {number} cell */
  async numberOf(cell) {
    const turned = await this.present.inTurn(() => this.present.ask('solutions')), solutions = turned?.answer.solutions ?? [];
    return solutions.length === 1 ? solutions[0][cell] ?? 0 : 0;
  }

  /** One hint more is counted. */
  countHint() {
    return this.present.inTurn(async () => {
      const {kept, board, session} = this.present;
      await this.present.advance({...kept, hints: kept.hints + 1}, {board, session});
    });
  }
}

// The moves by which the marks of all empty squares become these: one by one, or from all marks on, where that is shorter.
/** @param {Board} board @param {number[][]} view */
function possibleLines(board, view) {
  const all = Array.from({length: board.size}, (_, at) => at + 1), single = flips(board, view);
  const whole = ['move M', ...flips({...board, marks: view.map(() => all)}, view)];
  return whole.length < single.length ? whole : single;
}

// The moves by which the marks of the empty squares become these, one by one.
/** @param {Board} board @param {number[][]} wanted */
function flips({size, numbers, marks}, wanted) {
  const all = Array.from({length: size}, (_, at) => at + 1);
  return numbers.flatMap((filled, cell) => {
    const other = filled ? [] : all.filter((number) => marks[cell].includes(number) !== wanted[cell].includes(number));
    return other.map((number) => `move P${placeOf(cell, size)},${number}`);
  });
}

// The marks without what a hint ruled out. A square whose marks say nothing else gets what is left of its view.
/** @param {Board} board @param {WalkedHint} walked */
function keptMarks({marks}, walked) {
  const {struck} = walked, view = walked.left(0) ?? marks;
  return marks.map((own, cell) => {
    const [left, possible] = [own, view[cell]].map((numbers) => numbers.filter((number) => !struck.get(cell)?.includes(number)));
    return left.length || !struck.has(cell) ? left : possible;
  });
}
