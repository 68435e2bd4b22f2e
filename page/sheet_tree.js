// The content of a sheet, as a tree: it becomes elements of this page, or the text of a file. Text goes in as text alone.
import {element, shape} from './drawing.js';

// Lengths of a style are its attribute; those of a picture have names of their own.
/** @typedef {Record<string, string | number>} Given */
/** @typedef {{name: string, given: Given, inside: Leaf[]}} Tree */
/** @typedef {Tree | string} Leaf */

/** @param {string} name @param {Given} [given] @param {Leaf[]} inside @returns {Tree} */
export const tag = (name, given = {}, ...inside) => ({name, given, inside});

// A length on paper, of hundredths of a millimetre.
/** @param {number} hundredths */
export const length = (hundredths) => `${Math.floor(hundredths / 100)}.${String(hundredths % 100).padStart(2, '0')}mm`;

/** @param {Record<string, number>} lengths */
export const lengths = (lengths) => Object.entries(lengths).map(([name, value]) => `${name}:${length(value)}`).join(';');

const IN_PICTURE = new Set(['svg', 'path', 'g', 'text']);

// A style is set piece by piece: the policy of the page lets no attribute do it.
/** @param {Leaf} leaf @param {boolean} [isPicture] @returns {Node} */
export function nodeOf(leaf, isPicture = false) {
  if (typeof leaf === 'string') return document.createTextNode(leaf);
  const {name, given: {style, ...given}, inside} = leaf, isShape = isPicture || IN_PICTURE.has(name);
  const node = isShape ? shape(name, given) : element(name, '', given);
  for (const piece of style ? String(style).split(';') : []) {
    const [key, value] = piece.split(':');
    node.style.setProperty(key, value);
  }
  node.append(...inside.map((each) => nodeOf(each, isShape)));
  return node;
}

// A text from outside on one line, without what no page may have. A mark of UTF-8 is a letter without a width, and no blank.
/** @param {string} text */
export const plainText = (text) => text.replace(/\p{Cc}/gu, ' ').split(/[^\S\ufeff]+/).filter(Boolean).join(' ');

/** @type {Record<string, string>} */
const ESCAPED = {'&': '&amp;', '<': '&lt;', '>': '&gt;', '"': '&quot;', "'": '&#x27;'};

/** @param {string} text */
export const escaped = (text) => text.replace(/[&<>"']/g, (sign) => ESCAPED[sign]);

/** @param {Leaf} leaf @param {boolean} [isPicture] @returns {string} */
export function htmlOf(leaf, isPicture = false) {
  if (typeof leaf === 'string') return isPicture ? leaf.replace(/[&<>]/g, (sign) => ESCAPED[sign]) : escaped(leaf);
  const {name, given, inside} = leaf, isShape = isPicture || name === 'svg';
  const head = name + Object.entries(given).map(([key, value]) => ` ${key}="${value}"`).join('');
  if (!inside.length && (isShape || name === 'wbr')) return isShape ? `<${head} />` : `<${head}>`;
  return `<${head}>${inside.map((each) => htmlOf(each, isShape)).join('')}</${name}>`;
}
