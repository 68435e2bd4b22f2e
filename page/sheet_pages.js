// Sheets as pages: a section for each sheet of paper, which nothing flows out of, and their style; or all of it as a file.
import {NAMES} from './games.js';
import {answersOn} from './sheet_answers.js';
import {drawn, nameOf, penOf} from './sheet_drawing.js';
import {exampleOn} from './sheet_examples.js';
import {Paper, gamesOf, pagesOf, rulesOf} from './sheet_layout.js';
import {boldWidths, idLetters, idPieces, noteOf, shortened} from './sheet_letters.js';
import {stepsOn} from './sheet_steps.js';
import {sumOf} from './sheet_sum.js';
import {TABLES} from './sheet_tables.js';
import {escaped, htmlOf, length, lengths, tag} from './sheet_tree.js';

/** @typedef {import('./sheet_layout.js').Numbered} Numbered */
/** @typedef {import('./sheet_layout.js').Page} Page */
/** @typedef {import('./sheet_layout.js').Figure} Figure */
/** @typedef {import('./sheet_tree.js').Tree} Tree */
/** @typedef {import('./sheet_tree.js').Leaf} Leaf */
/**
 * How sheets are printed. Steps are those of answers: none, the first and the hardest, or all. The source is what the foot says of how the puzzles are made
 * again; and again and titled are the words that do so.
 * @typedef {{title: string, names: string[], perPage: number, answers: 'end' | 'none' | 'only', grades: 'answers' | 'all' | 'none',
 *   steps: '' | 'first' | 'all', example: boolean, ids: boolean, paper: 'a4' | 'letter', large: boolean, duplex: boolean, source: string,
 *   again?: string, titled?: string}} Form
 */
/** @typedef {{puzzles: import('./sheet_choice.js').Puzzle[][], moves: import('./sheet_steps.js').Move[][], examples: import('./sheet_examples.js').Example[]}} Content */
/** A page between its head and its foot. */
/** @typedef {{kind: string, body: Leaf[], right: Leaf[]}} Section */

const {LENGTHS, KINDS, LONG_NAME, CUT_CAPTION, MOST_NOTES} = TABLES, [EXAMPLE, OWN, ANSWERS, STEPS] = KINDS;

/** The back of a page on which nothing is printed. */
const BLANK = tag('section');

export class Sheets {
  /** @param {Form} form @param {Content} content */
  constructor(form, content) {
    const every = content.puzzles.map((sheet, pupil) => sheet.map((puzzle, at) => numbered(puzzle, at + 1, form.names, pupil)));
    this.form = form;
    this.all = every.flat();
    this.title = form.title || gamesOf(this.all).map((game) => NAMES[game]).join(' and ');
    this.code = sumOf(content.puzzles[0].map(({id}) => id).join('\n')).slice(0, 4).toUpperCase();
    /** @type {Record<string, Paper>} */
    this.papers = Object.fromEntries(KINDS.map((/** @type {string} */ kind) => [kind, new Paper(form.paper, form.large, kind + this.title, form.ids)]));
    this.paper = this.papers[OWN];
    /** @type {Page[][]} */
    this.pages = form.answers === 'only' ? [] : every.map((sheet) => pagesOf(this.paper, sheet, form.perPage));
    const groups = this.groups(content);
    /** How many pages there are of each kind, and how many backs are left blank. */
    this.counts = [OWN, ANSWERS, STEPS, EXAMPLE].map((kind) => groups.flat().filter((each) => each.kind === kind).length);
    this.sections = this.counted(groups);
    this.counts.push(this.sections.filter((section) => section === BLANK).length);
  }

  // The parts that belong together: an example, the pages of a pupil, the answers, the steps.
  /** @param {Content} content @returns {Section[][]} */
  groups({moves, examples}) {
    const {all, form, papers} = this, hasGrades = form.grades !== 'none', key = [tag('p', {class: 'name'}, `Sheet ${this.code}`)];
    /** @param {string} kind @param {Leaf[][]} bodies @param {Leaf[]} right */
    const group = (kind, bodies, right = key) => bodies.map((body) => ({kind, body, right}));
    const found = examples.map((told) => group(EXAMPLE, exampleOn(papers[EXAMPLE], told)));
    found.push(...this.pages.map((pages, at) => group(OWN, pages.map((page) => this.body(page)), [nameLine(form.names[at])])));
    if (form.answers !== 'none') {
      const orders = new Map(moves.map((some, at) => [all[at].label, some]));
      found.push(group(ANSWERS, answersOn({paper: papers[ANSWERS], hasGrades, orders}, all)));
    }
    if (moves.length) found.push(group(STEPS, stepsOn(papers[STEPS], moves.map((some, at) => ({numbered: all[at], moves: some})), hasGrades, form.steps === 'all')));
    return found;
  }

  // With names each pupil's pages are counted, and so are those of the answers. Where both sides are printed each group begins on the front of a sheet of paper.
  /** @param {Section[][]} groups @returns {Tree[]} */
  counted(groups) {
    const {duplex, names} = this.form, whole = groups.flat().length;
    /** @type {Tree[]} */
    const found = [];
    let number = 0;
    for (const group of groups) {
      if (duplex && found.length % 2) found.push(BLANK);
      if (names.length) number = 0;
      for (const section of group) found.push(this.section(section, `${++number} / ${names.length ? group.length : whole}`));
    }
    return found;
  }

  /** The sentences on names and captions that are too long. */
  get cut() {
    const room = Math.floor(this.paper.nameRoom * 100 / this.paper.print.name);
    const names = this.form.names.flatMap((name, at) => (boldWidths(name) > room ? [LONG_NAME.replace('{number}', String(at + 1))] : []));
    const captions = this.pages.flat().flatMap((page) => page.figures.flatMap((figure) => {
      const {label, puzzle: {caption}} = figure.numbered;
      return caption && noteIn(page, figure) !== caption ? [CUT_CAPTION.replace('{label}', label).replace('{lines}', String(MOST_NOTES))] : [];
    }));
    return [...names, ...captions];
  }

  /** @param {Section} section @param {string} number */
  section({kind, body, right}, number) {
    const title = tag('h1', {dir: 'auto'}, ...(kind ? [kind] : []), tag('bdi', {}, this.title));
    const {titled = '', again: other = '', source} = this.form, most = idLetters(Math.floor(this.paper.width * 3 / 4), this.paper.print.command);
    const again = titled ? [shortened(titled.length <= most ? titled : other, most)] : [];
    const foot = tag('footer', {}, tag('span', {}, `Sheet ${this.code}${source}`), tag('code', {}, ...again), tag('span', {}, number));
    return tag('section', {}, '\n', tag('header', {}, title, ...right), '\n', ...body, foot, '\n');
  }

  /** @param {Page} page @returns {Leaf[]} */
  body(page) {
    const some = page.figures.map((figure) => figure.numbered);
    const rules = gamesOf(some).flatMap((game) => {
      const sizes = new Set(some.filter(({puzzle}) => puzzle.game === game).map(({puzzle: {size}}) => size));
      const last = sizes.size === 1 ? String([...sizes][0]) : TABLES.ANY_SIZE;
      return [tag('p', {class: 'rules'}, tag('b', {}, TABLES.CALLED[game]), ` ${rulesOf(game, last)}`), '\n'];
    });
    const figures = page.figures.flatMap((figure) => [this.figure(page, figure), '\n']);
    return [...rules, tag('div', {class: `puzzles columns${page.density.columns}`, style: lengths({'row-gap': page.rowGap})}, '\n', ...figures), '\n'];
  }

  /** @param {Page} page @param {Figure} figure */
  figure(page, figure) {
    const {density, height, captionHeight, notes} = page, {numbered: {number, label, puzzle}, side, captionWidth} = figure;
    const {game, size, id, board} = puzzle, grade = this.form.grades === 'all' ? puzzle.grade : '';
    const picture = drawn(game, board, penOf(game, side, this.paper.print.strength), nameOf(`Puzzle ${label}`, game, size, grade));
    const note = tag('i', {style: lengths({'font-size': density.note})}, `${NAMES[game]} ${size} × ${size} · ${this.code}-${label}`);
    const style = lengths({height: density.number_line - LENGTHS.CAPTION_TOP, 'font-size': density.number});
    const line = tag('p', {class: 'line', style}, tag('b', {}, String(number)), tag('span', {}, grade), note);
    const below = [...noteBelow(noteIn(page, figure), density, notes), ...(this.form.ids ? [idBelow(id, density)] : [])];
    const caption = tag('figcaption', {style: lengths({width: captionWidth, height: captionHeight})}, '\n', line, '\n', ...below);
    return tag('figure', {style: lengths({height})}, picture, caption);
  }

  /** The style sheet. */
  get style() {
    const {print, size, nameRoom} = this.paper, own = {width: size.width, height: size.height - LENGTHS.SPARE, own_name: nameRoom};
    const paper = `${length(size.width)} ${length(size.height)}`, numbers = {...LENGTHS, ...print, ...own};
    /** @param {string} _ @param {string} name */
    const piece = (_, name) => (name === 'paper' ? paper : length(numbers[name]));
    return `${this.form.names.length ? TABLES.NAMES : ''}${TABLES.STYLE}`.replace(/\$(\w+)/g, piece);
  }

  /** All of it as a file in HTML. */
  get file() {
    return `<!DOCTYPE html>\n<html lang="en"><head><meta charset="utf-8"><title>${escaped(this.title)}</title>\n`
      + `<meta http-equiv="Content-Security-Policy" content="${TABLES.POLICY}">\n`
      + `<meta name="viewport" content="width=device-width"><style>${this.style}</style></head>\n<body>\n`
      + `${this.sections.map((section) => `${htmlOf(section)}\n`).join('')}</body></html>\n`;
  }
}

/** @param {Page} page @param {Figure} figure */
const noteIn = ({density, notes}, {numbered: {puzzle}, captionWidth}) => noteOf(puzzle.caption ?? '', captionWidth, density.note, notes);

/** @param {import('./sheet_choice.js').Puzzle} puzzle @param {number} number @param {string[]} names @param {number} pupil @returns {Numbered} */
function numbered(puzzle, number, names, pupil) {
  const name = names[pupil] ?? '';
  return {puzzle, number, label: name ? `${pupil + 1}.${number}` : String(number), pupil: name ? pupil + 1 : 0, name};
}

/** @param {string} [name] */
const nameLine = (name) => (name ? tag('p', {class: 'name own', dir: 'auto'}, tag('b', {}, name)) : tag('p', {class: 'name'}, 'Name ', tag('u')));

/** @param {string} text @param {import('./sheet_layout.js').Density} density @param {number} notes */
function noteBelow(text, density, notes) {
  const style = `${lengths({'font-size': density.note, 'max-height': density.note_line * notes})};-webkit-line-clamp:${notes}`;
  return text ? [tag('p', {class: 'note', dir: 'auto', style}, text), '\n'] : [];
}

/** @param {string} id @param {import('./sheet_layout.js').Density} density */
function idBelow(id, density) {
  const pieces = idPieces(id).flatMap((piece, at) => (at ? [tag('wbr'), piece] : [piece]));
  /** @type {import('./sheet_tree.js').Given} */
  const bold = density.id < LENGTHS.BOLD_BELOW ? {class: 'small'} : {};
  return tag('code', {...bold, style: lengths({'font-size': density.id, 'line-height': density.id_line})}, ...pieces);
}
