// Elements that are made by script: of SVG and of HTML. Text goes in as text alone, never as markup.

// One that is nothing isn't set.
/** @typedef {Record<string, string | number | boolean | undefined>} Attributes */

/** @param {string} name @param {Attributes} [attributes] @param {(Node | string)[]} inside @returns {SVGElement} */
export function shape(name, attributes = {}, ...inside) {
  const node = document.createElementNS('http://www.w3.org/2000/svg', name);
  give(node, attributes);
  node.append(...inside);
  return node;
}

/** @param {Element} node @param {Attributes} attributes */
function give(node, attributes) {
  for (const [key, value] of Object.entries(attributes)) if (value !== undefined) node.setAttribute(key, String(value));
}

// Writes an attribute where it is another than before.
/** @param {Element} node @param {string} key @param {string | number | boolean} value */
export function set(node, key, value) {
  if (node.getAttribute(key) !== String(value)) node.setAttribute(key, String(value));
}

/** @param {string} name @param {string} [text] @param {Attributes} [attributes] @param {Node[]} inside @returns {HTMLElement} */
export function element(name, text = '', attributes = {}, ...inside) {
  const node = document.createElement(name);
  give(node, attributes);
  node.append(text, ...inside);
  return node;
}

/** @param {string} text @param {Attributes} [attributes] @returns {HTMLButtonElement} */
export const button = (text, attributes = {}) => /** @type {HTMLButtonElement} */ (element('button', text, {type: 'button', ...attributes}));

// An element of the page by its ID.
/** @param {string} id @returns {HTMLElement} */
export function part(id) {
  const found = document.getElementById(id);
  if (!found) throw new Error(`no element ${id}`);
  return found;
}

// Shows an element or hides it. Where one that is hidden has the focus, the chosen square gets it.
/** @param {HTMLElement} node @param {boolean} isShown */
export function show(node, isShown) {
  const hadFocus = !isShown && node.contains(document.activeElement);
  node.hidden = !isShown;
  if (hadFocus) focus(part('board').querySelector('[tabindex="0"]'));
}

// Gives the focus to an element, and nothing is scrolled by it.
/** @param {Element | null | undefined} node */
export const focus = (node) => /** @type {HTMLElement | null | undefined} */ (node)?.focus({preventScroll: true});

/** @param {string} id */
export const dialogOf = (id) => /** @type {HTMLDialogElement} */ (part(id));

/** @param {string} id */
export const selectOf = (id) => /** @type {HTMLSelectElement} */ (part(id));

/** @param {string} id */
export const inputOf = (id) => /** @type {HTMLInputElement} */ (part(id));

// Fills a list of choices, and chooses one of them.
/** @param {HTMLSelectElement} select @param {[string, string][]} choices @param {string} value */
export function choose(select, choices, value) {
  select.replaceChildren(...choices.map(([own, text]) => new Option(text, own)));
  select.value = choices.some(([own]) => own === value) ? value : choices[0][0];
}
