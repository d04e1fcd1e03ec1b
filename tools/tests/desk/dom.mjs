// As much of a browser's document as the page's modules ask for: elements keep what they are given, and lay out nothing.
const nothing = () => {};
const BOX = {left: 0, top: 0, right: 100, bottom: 10, width: 100, height: 10, x: 0, y: 0};
const PEN = new Proxy({}, {get: (_, name) => (name === 'measureText' ? () => ({width: 8}) : nothing), set: () => true});

class Element {
  constructor(name) {
    Object.assign(this, {name, children: [], style: {}, dataset: {}, attributes: {}, hidden: false, open: false, kept: ''});
    Object.assign(this, {textContent: '', scrollTop: 0, scrollLeft: 0, clientHeight: 400, clientWidth: 600});
    Object.assign(this, {offsetWidth: 10, offsetHeight: 10, offsetTop: 0, selectionStart: 0, selectionEnd: 0});
    const names = new Set();
    this.classList = {add: it => names.add(it), contains: it => names.has(it),
      toggle: (it, is = !names.has(it)) => (is ? names.add(it) : names.delete(it))};
  }

  get value() {
    return this.kept;
  }

  set value(text) {
    this.kept = String(text ?? '');
  }

  get childNodes() {
    return this.children;
  }

  get childElementCount() {
    return this.children.length;
  }

  get firstChild() {
    return this.children[0] ?? null;
  }

  get lastChild() {
    return this.children.at(-1) ?? new Element('');
  }

  append(...them) {
    for (const it of them) {
      const child = typeof it === 'string' ? Object.assign(new Element(''), {textContent: it}) : it;
      child.parentNode = this;
      this.children.push(child);
    }
  }

  prepend(...them) {
    const after = this.children.splice(0);
    this.append(...them, ...after);
  }

  replaceChildren(...them) {
    this.children.length = 0;
    this.append(...them);
  }

  remove() {
    const {children} = this.parentNode;
    children.splice(children.indexOf(this), 1);
  }

  setAttribute(name, value) {
    this.attributes[name] = value;
  }

  getAttribute(name) {
    return this.attributes[name] ?? null;
  }

  click() {
    this.onclick?.({target: this});
  }

  getBoundingClientRect() {
    return BOX;
  }

  getContext() {
    return PEN;
  }

  querySelector() {
    return null;
  }

  querySelectorAll() {
    return [];
  }

  contains() {
    return false;
  }
}
const DEEDS = ['addEventListener', 'removeAttribute', 'focus', 'select', 'scrollIntoView', 'setSelectionRange'];
for (const name of [...DEEDS, 'dispatchEvent', 'showModal', 'close']) Element.prototype[name] = nothing;

const elements = new Map();
export function element(id) {
  if (!elements.has(id)) elements.set(id, Object.assign(new Element(id), {parentNode: new Element('')}));
  return elements.get(id);
}
const make = name => new Element(name);
globalThis.document = Object.assign(make('document'), {getElementById: element, createElement: make,
  createDocumentFragment: () => make(''), documentElement: make('html'), body: make('body'), activeElement: null});
const STYLE = {lineHeight: '18px', font: '12px mono', fontSize: '12px', getPropertyValue: () => '#000'};
Object.assign(globalThis, {window: globalThis, addEventListener: nothing, onbeforeunload: null});
Object.assign(globalThis, {matchMedia: () => make(''), getComputedStyle: () => STYLE});
Object.assign(globalThis, {ResizeObserver: class { observe() {} }, innerWidth: 1280, innerHeight: 720});
Object.assign(globalThis, {localStorage: {setItem: nothing, getItem: () => null, removeItem: nothing}});
globalThis.Option = function option(text, value) {
  return Object.assign(make('option'), {textContent: text, value});
};
