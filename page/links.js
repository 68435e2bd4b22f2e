// The texts that a player gives to others: the link and the ID of a game, and how it was solved. Nothing of the solution is in it.
import {dayOf, streakOf} from './daily.js';
import {showPage} from './dialogs.js';
import {linkOf} from './games.js';
import {kindOf} from './kept.js';
import {
  ID_OF, LINK_COPIED, LINK_HERE, NAME_COPIED, NAME_HERE, RESULT_COPIED, RESULT_HERE, TABLE_COPIED, TEXT_COPIED, TEXT_HERE, gameText, numberedText,
  resultText, solvedText,
} from './texts.js';

/** @typedef {Parameters<typeof linkOf>[0]} Linked */

/** A page from a disk has no address for others: they have the part that names the game. */
const isOnDisk = () => location.protocol === 'file:';

/** @param {Linked} played */
export const linkTo = (played) => `${isOnDisk() ? '' : location.href.split('#')[0]}#${linkOf(played)}`;

export class Links {
  /** @param {import('./actions.js').Page} page */
  constructor({present, messages, keeping}) {
    this.present = present;
    this.messages = messages;
    this.keeping = keeping;
  }

  get link() { return linkTo(this.present.kept); }

  get name() {
    const {kept} = this.present, number = kept.fair?.number ?? '';
    return gameText(kindOf(kept), number, dayOf(number));
  }

  // The link to the game, or to a puzzle that is none yet; where there is no address, the name that New takes, too.
  /** @param {Linked} puzzle @param {string} name */
  copyLink(puzzle = this.present.kept, name = this.name) {
    const link = linkTo(puzzle);
    return isOnDisk() ? this.copy(`${name}: ${link}`, NAME_COPIED, NAME_HERE) : this.copy(link, LINK_COPIED, LINK_HERE);
  }

  copyResult() {
    const {keeping, present: {kept}} = this, seconds = keeping.settings.time ? kept.seconds : 0;
    const solved = solvedText(kept.hints, seconds, streakOf(keeping, kept));
    return this.copy(resultText(this.name, solved, this.link), RESULT_COPIED, RESULT_HERE);
  }

  // The puzzle as the usual program copies it, or as a table for a spreadsheet.
  /** @param {import('./turns.js').Game} game @param {import('./objects.js').Board} board @param {boolean} [isTable] */
  async copyText(game, board, isTable) {
    const {copied, puzzleOf, tabbed} = await import('./drawn_writing.js'), puzzle = puzzleOf(game, board);
    return isTable ? this.copy(tabbed(puzzle), TABLE_COPIED, TEXT_HERE) : this.copy(copied(puzzle), TEXT_COPIED, TEXT_HERE);
  }

  showID() {
    const {kept} = this.present, numbered = kept.fair ? ['', numberedText(kept.fair)] : [];
    showPage(ID_OF, [kept.id, ...numbered, '', isOnDisk() ? NAME_HERE : LINK_HERE, this.link]);
  }

  // Where the browser lets no page copy, the text stands there to be copied by hand.
  /** @param {string} text @param {string} said @param {string} title */
  async copy(text, said, title) {
    try {
      await navigator.clipboard.writeText(text);
      this.messages.tell(said);
    } catch {
      showPage(title, [text]);
    }
  }
}
