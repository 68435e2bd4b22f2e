// How many lines titles, texts, captions and IDs take at most on paper, whatever font a page gets: nothing of them is cut.
import {TABLES} from './sheet_tables.js';

const {LENGTHS, TITLES} = TABLES;

// Letters that are as wide as two, from the first to the last.
/** @type {[number, number][]} */
const WIDE = TABLES.WIDE;

/** How wide the letters of texts are at most. @type {Map<string, number>} */
const TEXT_WIDTHS = new Map(Object.entries(TITLES.TEXT_WIDTHS).flatMap(([width, letters]) => [...String(letters)].map((letter) => [letter, Number(width)])));

/** @param {string} text @param {(letter: string) => number} width */
const sum = (text, width) => [...text].reduce((all, letter) => all + width(letter), 0);

/** @param {string} letter @returns {number} */
const textWidth = (letter) => TEXT_WIDTHS.get(letter) ?? TITLES.TEXT_ANY;

/** @param {string} letter @returns {number} */
export function boldWidth(letter) {
  if (letter === ' ') return TITLES.SPACE;
  if (TITLES.NARROW_LETTERS.includes(letter)) return TITLES.NARROW;
  if (TITLES.WIDE_LETTERS.includes(letter)) return TITLES.WIDE;
  if (/[\p{Mn}\p{Cf}]/u.test(letter)) return 0;
  if (letter >= '\u0180') return TITLES.ANY;
  return /[\p{Lowercase}\p{Nd}¹²³]/u.test(letter) ? TITLES.SMALL : TITLES.CAPITAL;
}

/** @param {string} text */
export const boldWidths = (text) => sum(text, boldWidth);

// How many lines a text takes, behind a label in bold. A word that is longer than a line begins a new one, and is broken wherever a line is full.
/** @param {string} text @param {number} room @param {number} font @param {string} [label] @param {(letter: string) => number} [width] */
export function linesOf(text, room, font, label = '', width = textWidth) {
  const most = Math.floor(room * 100 / font);
  let count = 1, used = boldWidths(label);
  for (const word of text.split(' ').filter(Boolean)) {
    if (used && used + width(' ') + sum(word, width) > most) [count, used] = [count + 1, 0];
    used += used ? width(' ') : 0;
    for (const letter of word) {
      const own = width(letter);
      if (used + own > most) [count, used] = [count + 1, 0];
      used += own;
    }
  }
  return count;
}

// How many letters of a caption a line has room for; and of an ID or a command, whose letters are all as wide.
/** @param {number} room @param {number} font */
export const lettersIn = (room, font) => Math.floor(room * 100 / (font * LENGTHS.LETTER));

/** @param {number} room @param {number} font */
export const idLetters = (room, font) => Math.floor(room * 100 / (font * LENGTHS.ID_LETTER));

/** @param {string} letter */
const isWide = (letter, code = Number(letter.codePointAt(0))) => WIDE.some(([first, last]) => first <= code && code <= last);

/** @param {string} text  in letters: marks over another one have no width */
export const widthOf = (text) => sum(text, (letter) => (/\p{Mn}/u.test(letter) ? 0 : isWide(letter) ? 2 : 1));

// The beginning of a text that has so many letters at most, with a sign where something is left out.
/** @param {string} text @param {number} most */
export function shortened(text, most) {
  const letters = [...text];
  let room = most;
  for (const [at, letter] of letters.entries()) {
    room -= widthOf(letter);
    if (room < 0) return `${letters.slice(0, Math.max(0, at - 1)).join('').replace(/ +$/, '')}…`;
  }
  return text;
}

// The puzzle's own caption, as far as so many lines have room for it; each but the last may lose a word.
/** @param {string} caption @param {number} room @param {number} font @param {number} notes */
export const noteOf = (caption, room, font, notes) => (caption ? shortened(caption, lettersIn(room, font) * notes - 6 * (notes - 1)) : '');

// An ID, cut where a line may end.
/** @param {string} id */
export const idPieces = (id) => id.match(/[^,/:]*[,/:]|[^,/:]+/g) ?? [];

/** @param {string} id @param {number} most */
export function idLines(id, most) {
  let count = 1, used = 0;
  for (const {length} of idPieces(id)) {
    if (used && used + length > most) [count, used] = [count + 1, 0];
    count += Math.floor((used + length - 1) / most);
    used = ((used + length - 1) % most) + 1;
  }
  return count;
}
