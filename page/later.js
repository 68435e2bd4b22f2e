// The scripts that the page runs besides its first one: the worker, and the scripts that are packed until they are wanted.
import {part} from './drawing.js';
import {unpacked} from './unpacked.js';

/** @typedef {{createScriptURL(address: string): any, createScript(text: string): any}} Policy */

/** @param {string} text */
const same = (text) => text;

/** @type {Policy | null} */
let policy = null;

/** @type {Promise<void> | null} */
let scripts = null;

// A browser with trusted types takes scripts from this policy alone. The page's own policy names the packed ones by their sum.
/** @returns {Policy} */
function own() {
  const {trustedTypes} = /** @type {any} */ (globalThis), rules = {createScriptURL: same, createScript: same};
  return policy ??= trustedTypes ? trustedTypes.createPolicy('puzzles', rules) : rules;
}

// The address of a script that came with the page.
/** @param {string} script @returns {string} */
export const addressOf = (script) => own().createScriptURL(URL.createObjectURL(new Blob([script], {type: 'text/javascript'})));

// Runs the packed scripts, once. In the one file of the page each import that waits stands for that.
export function later() {
  scripts ??= unpacked(part('later').textContent ?? '').then((bytes) => {
    const node = document.createElement('script');
    node.textContent = own().createScript(new TextDecoder().decode(bytes));
    document.head.append(node);
  });
  return scripts;
}
