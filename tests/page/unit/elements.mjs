// As much of a browser's elements as the picture of a board needs.

class Element {
  constructor(tag) { Object.assign(this, {tag, attributes: new Map(), classes: [], childNodes: [], parent: null, dataset: {}}); }
  get children() { return this.childNodes.filter((one) => one instanceof Element); }
  get firstChild() { return this.childNodes[0] ?? null; }
  get nextSibling() { return this.parent.childNodes[this.parent.childNodes.indexOf(this) + 1] ?? null; }
  get textContent() { return this.childNodes.map((one) => one.textContent ?? one).join(''); }
  get classList() {
    return {
      contains: (name) => this.classes.includes(name),
      toggle: (name, is) => this.setAttribute('class', [...this.classes.filter((one) => one !== name), ...(is ? [name] : [])].join(' ')),
    };
  }
  getAttribute(key) { return this.attributes.get(key) ?? null; }
  setAttribute(key, text) {
    this.attributes.set(key, text);
    if (key === 'class') this.classes = text.split(' ').filter(Boolean);
  }
  append(...nodes) { this.put(this.childNodes.length, nodes); }
  appendChild(node) { this.append(node); return node; }
  before(...nodes) { this.parent.put(this.parent.childNodes.indexOf(this), nodes); }
  remove() { this.parent.childNodes.splice(this.parent.childNodes.indexOf(this), 1); }
  replaceChildren(...nodes) {
    this.childNodes = [];
    this.append(...nodes);
  }
  put(at, nodes) {
    this.childNodes.splice(at, 0, ...nodes);
    for (const node of nodes) if (node instanceof Element) node.parent = this;
  }
  querySelectorAll(selectors, found = [], all = selectors.split(',').map(partsOf)) {
    for (const one of this.childNodes) {
      if (!one.tag) continue;
      if (all.some((parts) => isOf(one, parts))) found.push(one);
      one.querySelectorAll('', found, all);
    }
    return found;
  }
  querySelector(selector) { return this.querySelectorAll(selector)[0] ?? null; }
}

/** Elements are made by `document` from here on. */
export function makeElements() {
  globalThis.document = {createElementNS: (_, tag) => new Element(tag)};
}

/** A selector of names and classes, one within the other: the inner one first. */
function partsOf(selector) {
  return selector.trim().split(/\s+/).reverse().filter(Boolean).map((part) => {
    const [tag, ...names] = part.split('.');
    return {tag, names};
  });
}

/** Whether it is of an element. */
function isOf(node, parts, at = 0) {
  const {tag, names} = parts[at];
  if ((tag && tag !== node.tag) || !names.every((name) => node.classes.includes(name))) return false;
  if (at === parts.length - 1) return true;
  for (let {parent} = node; parent; parent = parent.parent) if (isOf(parent, parts, at + 1)) return true;
  return false;
}
