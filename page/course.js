// The course: small boards, one step each. None is a game of the list, and the game before it is there again at its end.
import {NO_BYTES} from './bytes.js';
import {begunGame} from './kept.js';
import {cellOf} from './objects.js';
import {CARDS, NOT_YET, RIGHT} from './shared_texts.js';
import {FRAMED, SEE_WHY, cardText} from './texts.js';
import {NOTHING_SHOWN, WalkedHint} from './walked_hint.js';

/** @typedef {import('./objects.js').Place} Place */

export class Course {
  /** @param {import('./actions.js').Page} page */
  constructor(page) {
    this.page = page;
    this.cards = CARDS.towers;
    this.at = 0;
    // The hint of the card that is shown: a WalkedHint, where one is.
    /** @type {any} */
    this.walked = null;
    // The numbers of its only solution; none where it has none.
    /** @type {number[]} */
    this.solution = [];
  }

  /** Whether a card is shown: it has no key to be kept by. */
  get isOpen() { return this.page.present.there?.kept.key === ''; }

  // A card of the game that is shown. Before the first one and after the last one is the game that was shown before; a new one where that was deleted meanwhile.
  /** @param {number} at */
  async go(at) {
    const {present, screen, beginning, keeping} = this.page, {game} = present.kept, cards = CARDS[game];
    if (cards[at]) return present.inTurn(async () => {
      const {answers, saved} = await present.askAll([`new ${cards[at][0]}`, 'hint', 'solutions', 'board'], NO_BYTES, game);
      /** @type {any} */
      const [, {hint}, {solutions: [solution = []]}, {board, session}] = answers, walked = new WalkedHint(hint, board.size);
      Object.assign(this, {cards, at, walked, solution});
      present.show({board, session, kept: {...begunGame(session, board, saved, null), key: ''}});
      screen.choose(this.walked.goal);
    });
    if ((await beginning.goOn(keeping.now)) === 'refused') beginning.byChance({game, size: 5, letter: 'e'});
  }

  // Puts a number in where it is right, in whichever square; otherwise it is said where to look. Once the one of the card is in nothing else is put in.
  /** @param {Place} place @param {number} number */
  answer(place, number) {
    const {moves, walk, messages, screen} = this.page, {goal, size} = this.walked;
    if (messages.rest.text === RIGHT) return messages.clear();
    if (this.solution[cellOf(place, size)] === number) return moves.put(place, number, false);
    walk.forget();
    walk.walked = this.walked;
    messages.tell(`${NOT_YET} ${walk.next()}`, {lasting: true});
    screen.choose(goal);
  }

  /** Another board is shown: a card or a game. */
  begins() {
    const {isOpen, at, cards, walked} = this;
    document.body.classList.toggle('learn', isOpen);
    this.page.screen.card = isOpen ? {text: cardText(at, cards.length), shown: {...NOTHING_SHOWN, framed: [walked.goal]}} : null;
  }

  /** The text of a card is seen where there is nothing else to say. */
  rest() {
    const {present: {board}, messages} = this.page, {hint: {cell, number}, move} = this.walked, [, text] = this.cards[this.at];
    messages.stay(board.numbers[cell ?? -1] === number ? RIGHT : `${text} ${move ? FRAMED : SEE_WHY}`);
  }
}
