// How wide the page's sheets take each letter of a text, and what becomes of it in one from outside: `node letters.mjs < TEXT` prints all of it as JSON.
import {readFileSync} from 'node:fs';
import {boldWidths, widthOf} from '../../page/sheet_letters.js';
import {plainText} from '../../page/sheet_tree.js';

console.log(JSON.stringify([...readFileSync(0, 'utf-8')].map((letter) => [boldWidths(letter), widthOf(letter), plainText(`a${letter}b`)])));
