// Which of some lines belong together: drawings may have blank lines in them, and stand below one another. As in playing/drawings/splitting.py.
import {isBlank, upTo} from './drawn_tables.js';
import {copiesIn, readings} from './drawn_ways.js';
import {MOST_LINES} from './drawn_why.js';

/** @typedef {import('./drawn_tables.js').Reading} Reading */
/** @typedef {import('./drawn_ways.js').Meant} Meant */
/** Some of the lines, and all that they may be. */
/** @typedef {{begin: number, end: number, found: Reading[]}} Part */

/** @param {string[]} lines @param {number} begin @param {number} end */
const heightOf = (lines, begin, end) => lines.slice(begin, end).filter((line) => !isBlank(line)).length;

// The drawings of lines, in their order.
/** @param {string[]} lines @param {Meant} game @returns {Part[]} */
export function parts(lines, game) {
  const has = lines.map((line) => Boolean(line.replace(/^ +| +$/g, ''))), starts = upTo(lines.length).filter((y) => has[y] && !has[y - 1]);
  // Blank lines before the first and after each block may belong to a drawing.
  const borders = [0, ...starts.slice(1), lines.length], spans = spansOf(lines, borders, game);
  const found = pairs(uncrossed(spans, 0, starts.length)).flatMap(([begin, end]) => {
    const whole = onWholeWays(spans, begin, end), sure = whole.length ? uncrossed(whole, begin, end) : [begin, end];
    return pairs(sure).map(([first, last]) => ({begin: borders[first], end: borders[last], found: whole.flatMap((span) => (span.begin === first ? span.found : []))}));
  });
  return joined(found, lines);
}

// The drawings that there may be, from one border to another; and none begins within a copy of the usual program.
/** @param {string[]} lines @param {number[]} borders @param {Meant} game @returns {Part[]} */
function spansOf(lines, borders, game) {
  const spans = [];
  for (let begin = 0; begin < borders.length - 1;) {
    const first = begin, ends = upTo(borders.length, begin + 1).filter((end) => heightOf(lines, borders[first], borders[end]) <= MOST_LINES);
    const own = ends.map((end) => ({begin: first, end, lines: lines.slice(borders[first], borders[end])})), copy = own.find((span) => copiesIn(span.lines, game).length);
    spans.push(...(copy ? [copy] : own).map((span) => ({...span, found: readings(span.lines, game)})).filter(({found}) => found.length));
    begin = copy ? copy.end : begin + 1;
  }
  return spans;
}

// Those of a stretch that can follow one another from its begin to its end.
/** @param {Part[]} spans @param {number} begin @param {number} end */
function onWholeWays(spans, begin, end) {
  const own = spans.filter((span) => span.begin >= begin && span.begin < end), reached = new Set([begin]), leading = new Set([end]);
  for (const span of own) if (reached.has(span.begin)) reached.add(span.end);
  for (const span of [...own].reverse()) if (leading.has(span.end)) leading.add(span.begin);
  return own.filter((span) => reached.has(span.begin) && leading.has(span.end));
}

// The borders that no drawing crosses.
/** @param {Part[]} spans @param {number} begin @param {number} end */
const uncrossed = (spans, begin, end) => upTo(end + 1, begin).filter((at) => !spans.some((span) => span.begin < at && at < span.end));

/** @param {number[]} borders */
const pairs = (borders) => borders.slice(1).map((last, at) => [borders[at], last]);

// A part that can't be read is one with a part that is too small to be a drawing, and with one that may be torn off.
/** @param {Part[]} found @param {string[]} lines */
function joined(found, lines) {
  const isTorn = found.map(({found: own}, at) => [found[at - 1], found[at + 1]].some((beside) => beside && !beside.found.length) && own.some(({isWhole}) => !isWhole));
  /** @type {Part[]} */
  const all = [];
  for (const [at, part] of found.entries()) {
    const own = isTorn[at] ? {...part, found: []} : part, last = all[all.length - 1];
    const isSmall = (/** @type {Part} */ {begin, end}) => heightOf(lines, begin, end) < 3;
    if (last && !last.found.length && !own.found.length && (isTorn[at] || isTorn[at - 1] || isSmall(last) || isSmall(own))) last.end = own.end;
    else all.push({...own});
  }
  return all;
}
