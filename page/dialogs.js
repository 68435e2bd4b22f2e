// The dialogs over the board: questions, pages of text, and how all of them open and close.
import {button, dialogOf, inputOf, part} from './drawing.js';

// Sheets for print stand in the place of the game, as a dialog does over it.
export const isDialogOpen = () => document.querySelector('dialog[open], #made:not([hidden])') !== null;

export const closeDialogs = () => document.querySelectorAll('dialog[open]').forEach((dialog) => /** @type {HTMLDialogElement} */ (dialog).close());

/** @param {string} id */
export function openDialog(id) {
  closeDialogs();
  dialogOf(id).showModal();
}

/** @param {string} title @param {string[]} lines */
export function showPage(title, lines) {
  part('page-title').textContent = title;
  part('page-text').textContent = lines.join('\n');
  openDialog('page');
}

// Whether something is to be done.
/** @param {string} question @returns {Promise<boolean>} */
export async function confirmed(question) {
  return (await asked(question, null)) !== null;
}

// A line that is typed; nothing where the player goes back.
/** @param {string} question */
export const typedLine = (question) => asked(question, '');

/** @param {string} question @param {string | null} line @returns {Promise<string | null>} */
function asked(question, line) {
  const dialog = dialogOf('ask'), input = inputOf('ask-line'), isLine = line !== null;
  part('ask-text').textContent = question;
  input.hidden = !isLine;
  input.value = line ?? '';
  part('ask-yes').textContent = isLine ? 'Do it' : 'Yes';
  part('ask-no').textContent = isLine ? 'Cancel' : 'No';
  dialog.returnValue = '';
  // Over a dialog that is open: it is as it was, then.
  dialog.showModal();
  (isLine ? input : part('ask-no')).focus();
  return new Promise((resolve) => {
    dialog.addEventListener('close', function closed() {
      // A browser tells of it a moment later: the next question may be open by then.
      if (dialog.open) return;
      dialog.removeEventListener('close', closed);
      resolve(dialog.returnValue === 'yes' ? input.value : null);
    });
  });
}

// Called once: what all dialogs have in common.
/** @param {() => void} onClosed  where none is open any more */
export function listenToDialogs(onClosed) {
  /** @type {HTMLButtonElement} */ (part('ask-yes')).value = 'yes';
  document.querySelectorAll('dialog').forEach((dialog) => {
    dialog.addEventListener('close', () => { if (!isDialogOpen()) onClosed(); });
    dialog.addEventListener('click', (event) => { if (event.target === dialog && isBeside(dialog, event)) dialog.close(); });
  });
  document.addEventListener('click', ({target}) => {
    if (target instanceof Element && target.closest('[data-close]')) target.closest('dialog')?.close();
  });
}

// Whether a click is beside a dialog.
/** @param {HTMLDialogElement} dialog @param {MouseEvent} event */
function isBeside(dialog, {clientX, clientY}) {
  const {left, right, top, bottom} = dialog.getBoundingClientRect();
  return clientX < left || clientX > right || clientY < top || clientY > bottom;
}

// A button in a list, whose text has a small picture before it.
/** @param {Node} picture @param {Node[]} lines */
export function pictured(picture, ...lines) {
  const node = button('', {class: 'pictured'}), words = document.createElement('span');
  words.append(...lines);
  node.append(picture, words);
  return node;
}
