// Sentences on sheets for print: what is chosen for them, how far they are, and why they can't be made.

/** @typedef {[value: string, text: string][]} Choices */

/** @type {Record<string, Choices>} */
export const CHOICES = {
  per: [['0', 'as many as fit well'], ['1', '1'], ['2', '2'], ['3', '3'], ['4', '4'], ['6', '6'], ['8', '8'], ['9', '9'], ['12', '12']],
  answers: [['end', 'at the end'], ['none', 'none'], ['only', 'nothing but answers']],
  steps: [['', 'none'], ['first', 'order, first ones, hardest'], ['all', 'order, and all of them']],
  shown: [['answers', 'with the answers'], ['all', 'also below the puzzles'], ['none', 'nowhere']],
  paper: [['a4', 'A4'], ['letter', 'Letter']],
};

export const SIZES_FALL = 'The first size is greater than the last one.';
export const NO_GRADE = 'Choose a grade.';
export const NO_NUMBER = 'The series is a number below 1,000,000,000,000.';
export const NO_COUNT = 'Choose 1 to 200 puzzles.';
export const NO_STEPS = 'Steps go with answers.';
export const NO_ROOM = 'Not even one puzzle has room on a page.';
export const NOT_ONE = 'The program has made a puzzle that has not one solution.';
export const NO_PRINT = 'If no print window opens, save the sheets as a file, and print that.';

/** @param {number} pupils @param {number} count @param {number} most */
export const tooManyPuzzlesText = (pupils, count, most) => {
  const named = pupils > 1 ? `${pupils} names with ${count === 1 ? 'a puzzle' : `${count} puzzles`} each are ${pupils * count} puzzles.` : `These are ${count} puzzles.`;
  return `${named} ${most} have room at once.`;
};

/** @param {number} lines @param {number} most */
export const longTitleText = (lines, most) => `The title is too long: it may take ${lines} lines, and ${most} have room.`;

/** @param {number} asked @param {number} least @param {number} room */
export const tooManyText = (asked, least, room) => `With ${asked} on a page the squares would be smaller than ${least} mm; ${room} have room.`;

/** @param {number} size @param {string} grade */
export const noKindText = (size, grade) => `Size ${size} has no ${grade} puzzles.`;

/** @param {number} size @param {string} grade @param {number} tries */
export const noneFoundText = (size, grade, tries) => `No ${grade} puzzle of size ${size} was found in ${tries} tries.`;

/** @param {number} made @param {number} all */
export const madeText = (made, all) => `Puzzle ${made} of ${all}`;

/** @param {number} made @param {number} all */
export const stepsText = (made, all) => `Steps of puzzle ${made} of ${all}`;

/** @param {number} shown @param {number} all */
export const shownText = (shown, all) => `Page ${shown} of ${all}`;

/** The words for the pages of each kind. */
const ON_PAGES = ['with puzzles', 'with answers', 'with steps', 'with an example', 'left blank'];

// The sentence on the sheets that were made.
/** @param {string} code @param {number[]} counts  of the pages of each kind @param {string[]} told */
export function sheetText(code, counts, told) {
  const kinds = counts.flatMap((count, at) => (count ? [`${count} ${ON_PAGES[at]}`] : []));
  return [`Sheet ${code}: pages, ${kinds.join(', ')}.`, ...told.map((text) => `${text.charAt(0).toUpperCase()}${text.slice(1)}.`)].join(' ');
}
