/* What the language server tells of the source: lines that are refused as you type, what a word means, and what
   completes one. */
import {$, ask, made, made_of} from './asking.js';
import {lineHigh, live_lines, note_live} from './editor.js';
import {isHex} from './files.js';
const PAUSE = 400, LINGER = 500, MOST_LONG = 200000, LEFT = 6, TAB = 8, MOST_CHOICES = 200;
const source = $('source'), meaning = $('meaning'), choices = $('choices');
/* An answer of the text as it is still, or nothing. */
async function asked(what, line = 0, column = 0) {
  const text = source.value;
  if (isHex || text.length > MOST_LONG) return null;
  try {
    const answer = await ask('language', {what, source: text, line, column});
    return source.value === text && !answer.sorry ? answer : null;
  } catch {
    return null;
  }
}
/* Lines that are refused are underlined when the typing pauses. */
let pausing = 0;
async function judge() {
  const text = source.value, answer = await asked('refused');
  if (answer) note_live(text, answer.refused);
}
source.addEventListener('input', () => {
  clearTimeout(pausing);
  hide();
  pausing = setTimeout(judge, PAUSE);
  if (!choices.hidden) choose();
});

/* Places: a line and a column of the text, and where these are seen. */
function wide() {
  const pen = document.createElement('canvas').getContext('2d');
  pen.font = getComputedStyle(source).font;
  return pen.measureText('0').width;
}
function shown_column(text) { return [...text].reduce((at, it) => it === '\t' ? at + TAB - at % TAB : at + 1, 0); }
function place_at(x, y) {
  const box = source.getBoundingClientRect(), line = Math.floor((y - box.top + source.scrollTop) / lineHigh);
  const text = source.value.split('\n')[line] ?? '', seen = (x - box.left - LEFT + source.scrollLeft) / wide();
  let column = 0;
  while (column < text.length && shown_column(text.slice(0, column + 1)) <= seen) column += 1;
  return column < text.length && seen >= 0 ? [line, column] : null;
}
function caret() {
  const before = source.value.slice(0, source.selectionStart).split('\n');
  return [before.length - 1, before[before.length - 1].length];
}
function put(box, line, column) {
  const text = source.value.split('\n')[line] ?? '', paper = source.getBoundingClientRect();
  box.hidden = false;
  const left = paper.left + LEFT + shown_column(text.slice(0, column)) * wide() - source.scrollLeft,
    top = paper.top + (line + 1) * lineHigh - source.scrollTop;
  box.style.left = `${Math.max(4, Math.min(left, innerWidth - box.offsetWidth - 4))}px`;
  box.style.top = `${top + box.offsetHeight > innerHeight ? Math.max(4, top - lineHigh - box.offsetHeight) : top}px`;
}

/* What a word means: under the pointer when it rests, or by F1 at the caret. */
let resting = 0, asking = 0;
function hide() { clearTimeout(resting); asking += 1; meaning.hidden = true; }
async function tell_meaning(line, column) {
  const mine = ++asking, answer = await asked('hover', line, column),
    bad = live_lines().find(it => it.line === line + 1);
  if (mine !== asking || !(answer && answer.html || bad)) return;
  meaning.innerHTML = answer ? answer.html : '';
  if (bad) meaning.prepend(made('p', {className: 'why', textContent: bad.text}));
  put(meaning, line, column);
}
source.addEventListener('mousemove', event => {
  hide();
  if (event.buttons || !choices.hidden) return;
  resting = setTimeout(() => {
    const place = place_at(event.clientX, event.clientY);
    if (place) tell_meaning(...place);
  }, LINGER);
});
for (const name of ['mouseleave', 'mousedown', 'blur']) source.addEventListener(name, () => {
  hide();
  if (name !== 'mouseleave') close_choices();
});
source.addEventListener('scroll', () => { meaning.hidden = true; close_choices(); });

/* What completes a word: by Ctrl+Space, then as it is typed on. */
let items = [], chosen = 0;
function close_choices() { choices.hidden = true; source.removeAttribute('aria-activedescendant'); }
function begun() { return /\w*$/.exec(source.value.slice(0, source.selectionStart))[0]; }
function choose() {
  const word = begun(), start = word.toLowerCase(), [line, column] = caret();
  const fitting = items.filter(it => it.label.toLowerCase().startsWith(start)).slice(0, MOST_CHOICES);
  if (!fitting.length) { close_choices(); return; }
  chosen = 0;
  choices.replaceChildren(...fitting.map((it, at) => {
    const onmousedown = event => { event.preventDefault(); chosen = at; take(); };
    const what = made('span', {textContent: it.detail}), more = {id: `choice-${at}`, role: 'option', onmousedown};
    const one = made_of('li', more, it.label, what);
    one.dataset.label = it.label;
    return one;
  }));
  put(choices, line, column - word.length);
  mark();
}
function mark() {
  for (const [at, it] of [...choices.children].entries()) it.setAttribute('aria-selected', String(at === chosen));
  source.setAttribute('aria-activedescendant', `choice-${chosen}`);
  choices.children[chosen].scrollIntoView({block: 'nearest'});
}
function take() {
  const {label} = choices.children[chosen].dataset, end = source.selectionStart;
  close_choices();
  source.setSelectionRange(end - begun().length, end);
  document.execCommand('insertText', false, label);
}
export async function complete() {
  const answer = await asked('completion', ...caret());
  items = answer ? answer.items : [];
  choose();
}
function step(by) { const count = choices.childElementCount; chosen = (chosen + by + count) % count; mark(); }
/* Before the editor's own keys, which Enter and Tab are too. */
document.addEventListener('keydown', event => {
  if (document.activeElement !== source) return;
  const isOpen = !choices.hidden, plain = !event.ctrlKey && !event.altKey && !event.metaKey && !event.shiftKey;
  const opening = event.ctrlKey && event.key === ' ' ? complete : plain && event.key === 'F1'
    ? () => tell_meaning(...caret()) : null;
  const deed = isOpen && plain ? {ArrowDown: () => step(1), ArrowUp: () => step(-1), Enter: take, Tab: take,
    Escape: close_choices}[event.key] : null;
  if (!meaning.hidden && event.key !== 'F1') hide();
  if (isOpen && !deed && /^(Arrow|Home|End|Page)/.test(event.key)) close_choices();
  if (!opening && !deed) return;
  event.preventDefault();
  event.stopPropagation();
  (deed || opening)();
}, true);
