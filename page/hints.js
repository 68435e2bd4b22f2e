// The hint that a player asks for: its parts one after the other, all its steps, and what is wrong where there is none.
import {BY_MARKS, BY_NUMBERS, HINTS_FROM_MARKS, KEEP_AT_END, KEPT, NEVER_RIGHT} from './shared_texts.js';
import {sinceText, takeBackText} from './texts.js';

export class Hints {
  /** @param {import('./actions.js').Page} page */
  constructor(page) {
    this.page = page;
    /** @type {Promise<unknown>} */
    this.parts = Promise.resolve();
  }

  /** The hint of the board's numbers is there then. Where they contradict one another it is said first how many moves to take back. */
  async learn() {
    const {moves, walk, present} = this.page;
    if (walk.walked) return true;
    const hint = await moves.hint(), {board} = present;
    if (hint === 'none') await this.wrong();
    if (!hint || hint === 'none') return false;
    const number = typeof hint.unmarked === 'number' ? await moves.numberOf(hint.unmarked) : 0;
    if (hint.kind === 'follows') await moves.countHint();
    else if (hint.from !== 'marks') await this.wrong();
    walk.begin(hint, board, number);
    // A move may have come in between.
    if (walk.isPast(board, present.board)) walk.forget();
    return walk.walked !== null;
  }

  /** From what a hint begins, where that isn't always the same. */
  get origin() {
    const {walk: {walked}, present: {board, keeping, kept}} = this.page;
    if (!keeping.settings.fromMarks || !kept.key || walked?.hint.kind !== 'follows') return '';
    return walked.hint.from === 'marks' && board.marks.some((marks) => marks.length) ? BY_MARKS : BY_NUMBERS;
  }

  /** The possible marks; hints go on from them. */
  async possible() {
    if ((await this.page.moves.possible()) && this.marksAreWhole()) this.page.walk.forget();
  }

  /** Each number that is possible is marked where marks are: hints go on from them, unless the player has chosen. Whether that is so from here on. */
  marksAreWhole() {
    const {keeping, messages, present} = this.page, isNew = !keeping.settings.isFromChosen && present.kept.key !== '';
    if (isNew) keeping.set({fromMarks: true, isFromChosen: true});
    if (isNew) messages.tell([messages.text, HINTS_FROM_MARKS].filter(Boolean).join(' '));
    return isNew;
  }

  /** Says since how many moves the numbers can't be completed, and offers to take them back. */
  async wrong() {
    const {moves, messages} = this.page, count = await moves.sinceRight();
    if (count === null) return;
    const offer = count ? {text: takeBackText(count), run: () => moves.takeBack(count)} : null;
    messages.tell(count ? sinceText(count) : NEVER_RIGHT, {bad: true, lasting: true, offer});
  }

  // One part after the other, however fast they are asked for.
  /** @param {() => Promise<unknown>} part */
  inOrder(part) {
    this.parts = this.parts.then(part, part);
  }

  /** The next part. */
  async next() {
    const {walk, messages, screen} = this.page;
    if (walk.isOpen) return this.along(1);
    if (!(await this.learn()) || !walk.walked) return;
    const missed = walk.nextMissed();
    if (missed) messages.tell(missed, {lasting: true});
    if (missed) return screen.paint();
    if (walk.walked.hint.kind !== 'follows') return this.open();
    const text = walk.next();
    if (!text) return this.take();
    messages.tell([text, walk.stage === 'look' && this.origin].filter(Boolean).join(' '), {lasting: true});
    if (walk.stage === 'reason' && walk.walked.goal) screen.choose(walk.walked.goal);
    screen.paint();
  }

  /** All steps. */
  async open() {
    const {walk, messages} = this.page;
    if (!(await this.learn())) return;
    if (this.origin) messages.tell(this.origin);
    else if (walk.walked?.hint.kind === 'follows') messages.clear();
    walk.open();
    this.page.screen.paint();
  }

  /** Puts the number of the hint in. */
  take() {
    const {walk, moves, screen} = this.page, {goal, hint} = walk.walked ?? {};
    walk.forget();
    if (!goal || !hint?.number) return null;
    screen.choose(goal);
    return moves.put(goal, hint.number, false);
  }

  /** The marks lose what the hint ruled out, and are seen. */
  async keep() {
    const {walk, moves, messages, screen} = this.page, {walked} = walk;
    if (!walked || !walk.isAtEnd) return messages.tell(KEEP_AT_END);
    if (!(await moves.keep(walked))) return;
    // The marks are others now, and the number of this hint comes next.
    walk.walked = walked;
    walk.close();
    screen.paint();
    messages.tell(KEPT);
    this.marksAreWhole();
  }

  /** @param {number} at */
  step(at) {
    this.page.walk.go(at);
    this.page.screen.paint();
  }

  // Along the steps, where they are open; whether they are.
  /** @param {number} by */
  along(by) {
    const {walk} = this.page, {isOpen} = walk;
    if (isOpen) this.step(walk.at + by);
    return isOpen;
  }

  /** Says whether the numbers can be completed. */
  async check() {
    const answer = await this.page.moves.check();
    if (answer === 'none') await this.wrong();
    else if (answer) this.page.messages.tell(answer);
  }
}
