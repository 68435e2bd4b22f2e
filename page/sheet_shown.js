// Sheets in the place of the game: as they come onto paper, to be printed, or saved as a file.
import {closeDialogs} from './dialogs.js';
import {focus, part, set, show} from './drawing.js';
import {give} from './files.js';
import {NO_PRINT, sheetText, shownText} from './sheet_texts.js';
import {nodeOf} from './sheet_tree.js';

/** @typedef {import('./sheet_pages.js').Sheets} Sheets */

/** A pixel of CSS in hundredths of a millimetre; and how many of them stay free beside the paper. */
const PIXEL = 2540 / 96, BESIDE = 20;

/** After so many milliseconds without a print window it is told how to print without one. */
const PATIENCE = 1000;

/** On a screen the paper is seen whole, and pages that aren't in sight take no time. */
const ON_SCREEN = '@media screen{section{content-visibility:auto;zoom:var(--zoom)}}';

// Says something in a part of the page. While it counts there, a screen reader is silent: it says how that begins, and how it ends.
/** @param {string} id @param {string} text @param {boolean} [isCounting] */
export function tell(id, text, isCounting = false) {
  set(part(id), 'aria-live', isCounting ? 'off' : 'polite');
  part(id).textContent = text;
}

export class SheetsShown {
  /** @param {() => void} change  where something else is chosen */
  constructor(change) {
    /** @type {Sheets | null} */
    this.sheets = null;
    this.pages = new CSSStyleSheet();
    this.look = new CSSStyleSheet();
    part('made-print').addEventListener('click', () => this.print());
    part('made-save').addEventListener('click', () => this.save());
    part('made-close').addEventListener('click', () => this.leave());
    part('made-change').addEventListener('click', () => {
      this.leave();
      change();
    });
    document.addEventListener('keydown', ({key}) => { if (key === 'Escape' && this.sheets) this.leave(); });
    addEventListener('resize', () => this.zoom());
  }

  // The pages stand in a tree of their own, which the page's style doesn't reach; the size of the paper is that of the whole page.
  /** @param {Sheets} sheets @param {string[]} told */
  async show(sheets, told) {
    const lines = sheets.style.split('\n'), isOfPaper = (/** @type {string} */ line) => line.startsWith('@page'), host = part('made-paper');
    this.sheets = sheets;
    this.look.replaceSync(lines.filter((line) => !isOfPaper(line)).join('\n').replace(/\b(html|body)\{/g, ':host{') + ON_SCREEN);
    this.pages.replaceSync(lines.filter(isOfPaper).join(''));
    const root = host.shadowRoot ?? host.attachShadow({mode: 'open'});
    root.adoptedStyleSheets = [this.look];
    document.adoptedStyleSheets = [this.pages];
    root.replaceChildren();
    this.zoom();
    closeDialogs();
    document.body.classList.add('sheets');
    // A browser names the file so that it prints into.
    document.title = sheets.title;
    part('made').hidden = false;
    show(part('made-print'), false);
    part('made-close').focus();
    // Page by page, so that nothing waits for all of them.
    for (const [at, section] of sheets.sections.entries()) {
      if (this.sheets !== sheets) return;
      root.append(nodeOf(section));
      tell('made-told', shownText(at + 1, sheets.sections.length), true);
      await new Promise((settle) => setTimeout(settle));
    }
    tell('made-told', sheetText(sheets.code, sheets.counts, told));
    show(part('made-print'), true);
    part('made-print').focus();
  }

  zoom() {
    const {sheets} = this;
    if (sheets) part('made-paper').style.setProperty('--zoom', String(Math.min(1, (innerWidth - BESIDE) * PIXEL / sheets.paper.size.width)));
  }

  print() {
    let isThere = false;
    addEventListener('beforeprint', () => { isThere = true; }, {once: true});
    try {
      print();
    } finally {
      setTimeout(() => { if (!isThere) tell('made-told', NO_PRINT); }, PATIENCE);
    }
  }

  save() {
    if (this.sheets) give(`sheet-${this.sheets.code}.html`, new TextEncoder().encode(this.sheets.file));
  }

  leave() {
    this.sheets = null;
    document.title = part('title').textContent ?? '';
    document.body.classList.remove('sheets');
    document.adoptedStyleSheets = [];
    part('made-paper').shadowRoot?.replaceChildren();
    part('made').hidden = true;
    focus(part('board').querySelector('[tabindex="0"]'));
  }
}
