/* The editor: the source, line numbers and marks, and what is refused. Only the lines that are in sight are drawn. */
import {$, made, made_of} from './asking.js';
import {board, lines, stops, toggle_stop, view} from './board.js';
import {show_code} from './code.js';
import {isHex} from './files.js';
import {touched} from './saving.js';
import {key} from './screen.js';
/* A line's height, as the page's style has it: more where fingers point. */
const height = () => parseFloat(getComputedStyle($('source')).lineHeight);
export let lineHigh = height();
matchMedia('(pointer: coarse)').addEventListener('change', () => { lineHigh = height(); draw_paper(); });
export let assembled = '', refused = [];
export function note_assembled(text) { assembled = text; stale(); }
/* Lines that are underlined as you type, with what is wrong; those of an older text aren't. */
let judged = '', live = [];
export function note_live(text, them) { judged = text; live = them; draw_paper(); }
export function live_lines() { return $('source').value === judged ? live : []; }
export function tell_refused(them) { refused = them; draw_refusals(); }
export function stale() {
  const is = board !== null && $('source').value !== assembled;
  $('edit').classList.toggle('stale', is);
  $('stale').hidden = !is;
}
/* So many rows, which stay when they are drawn anew: from a press on one that is taken out before the release no click
   comes. */
function keep_rows(list, count) {
  while (list.childElementCount > Math.max(0, count)) list.lastChild.remove();
  while (list.childElementCount < count) list.append(document.createElement('span'));
}
export function draw_paper(isFollowed = false) {
  const source = $('source'), now = view && board ? view.line : null, high = source.clientHeight;
  if (isFollowed && now && document.activeElement !== source) {
    const top = (now - 1) * lineHigh;
    if (top < source.scrollTop + lineHigh || top > source.scrollTop + high - 3 * lineHigh)
      source.scrollTop = Math.max(0, top - high / 2);
  }
  const top = source.scrollTop, texts = source.value.split('\n'), first = Math.floor(top / lineHigh),
    last = Math.min(texts.length, first + Math.ceil(high / lineHigh) + 1);
  const bad = new Set(refused.map(it => it.line));
  draw_gutter(first, last, top, now, bad);
  draw_ink(texts, first, last, top, new Set([...bad, ...live_lines().map(it => it.line)]));
}
/* A mark behind a line, which says more than its colour where the board has halted. */
function kind_of(line, now) { return line === now ? /^(halted|ended)/.test(view.state) ? 'halted' : 'now' : ''; }
function draw_gutter(first, last, top, now, bad) {
  const stopped = new Set(stops.map(it => it.line)), gutter = $('gutter'), shown = [];
  keep_rows(gutter, last - first);
  for (let line = first + 1; line <= last; line++) {
    const row = gutter.children[line - first - 1], kind = kind_of(line, now), high = `${(line - 1) * lineHigh - top}px`;
    row.textContent = line;
    row.dataset.line = line;
    row.className = [lines[line] && 'can', stopped.has(line) && 'stop', kind, bad.has(line)
      && 'bad'].filter(Boolean).join(' ');
    row.style.top = high;
    row.title = lines[line] ? `${lines[line]}: click for a stop` : '';
    for (const name of [kind, bad.has(line) && 'bad']) if (name) {
      const mark = made('div', {className: `mark ${name}`});
      if (name === 'halted') mark.dataset.told = view.state === 'halted' ? 'halted until an interrupt' : view.state;
      mark.style.top = high;
      shown.push(mark);
    }
  }
  for (const old of document.querySelectorAll('#sheet .mark')) old.remove();
  $('sheet').prepend(...shown);
}
/* The text in its colours lies under the editor's own, which can't be seen. Its words are those of the other editors'
   grammar; a refused line is underlined from its first sign to its last. */
let words = null, kinds = [];
export function note_grammar(rows) {
  kinds = rows.map(it => it.name.split('.').slice(0, 2).join('-'));
  words = rows.length ? new RegExp(rows.map(it => `(${it.match.replace('(?i)', '')})`).join('|'), 'gi') : null;
  draw_paper();
}
function draw_ink(texts, first, last, top, bad) {
  const ink = $('ink');
  keep_rows(ink, last - first);
  ink.style.transform = `translate(${-$('source').scrollLeft}px, ${first * lineHigh - top}px)`;
  for (let line = first; line < last; line++) {
    const row = ink.children[line - first], text = texts[line], isBad = bad.has(line + 1), key = `${isBad} ${text}`;
    if (row.said === key) continue;
    row.said = key;
    row.replaceChildren(...(isBad ? underlined(text) : coloured(text)));
  }
}
function coloured(text) {
  if (!words || isHex) return [text];
  const parts = [];
  let at = 0;
  for (const found of text.matchAll(words)) {
    const which = found.findIndex((it, place) => place && it !== undefined) - 1;
    if (found.index > at) parts.push(text.slice(at, found.index));
    parts.push(made('span', {className: kinds[which], textContent: found[0]}));
    at = found.index + found[0].length;
  }
  return [...parts, text.slice(at)];
}
export function underlined(text) {
  const [, before, code, after] = /^(\s*)(.*?)(\s*)$/.exec(text);
  return [before, made_of('span', {className: 'refused'}, ...coloured(code)), after];
}
function draw_refusals() {
  $('refusals').hidden = !refused.length;
  $('source').setAttribute('aria-invalid', String(refused.some(it => it.line)));
  $('refusals').replaceChildren(...refused.map(({line, text}) => {
    const textContent = line ? `line ${line}: ${text}` : text;
    return made_of('li', {}, made('button', {textContent, onclick: () => to_line(line)}));
  }));
  if (refused.length) show_code(false);
  if (refused.length && refused[0].line) to_line(refused[0].line);
  draw_paper();
}
export function to_line(line) {
  if (!line) return;
  const source = $('source'), before = source.value.split('\n').slice(0, line - 1).join('\n').length + (line > 1 ? 1
    : 0);
  source.focus();
  source.setSelectionRange(before, before);
  show_line(line);
  draw_paper();
}
function show_line(line) {
  const source = $('source');
  if ((line - 1) * lineHigh < source.scrollTop || (line + 3) * lineHigh > source.scrollTop + source.clientHeight)
    source.scrollTop = Math.max(0, (line - 1) * lineHigh - source.clientHeight / 2);
}

$('gutter').addEventListener('click', event => {  // by its height, since the numbers may be drawn anew under a finger
  const line = Math.floor((event.clientY - $('gutter').getBoundingClientRect().top + $('source').scrollTop) / lineHigh)
    + 1;
  if (line <= $('source').value.split('\n').length) toggle_stop(line);
});
$('gutter').addEventListener('wheel', event => {
  if (event.ctrlKey) return;  // which makes the page larger
  const source = $('source'), before = source.scrollTop;
  source.scrollTop += event.deltaY * (event.deltaMode ? lineHigh : 1);
  if (source.scrollTop !== before) event.preventDefault();
}, {passive: false});
/* So many lines are changed as if typed; of more the browser takes milliseconds each, so these are put there, and can't
   be undone. */
const MOST_TYPED = 200;
/* What is typed: by the browser's own command, so that it can be undone. */
function insert(text) { document.execCommand('insertText', false, text); }
/* The lines of the selection, from the first one's beginning to the last one's end. */
function chosen_lines() {
  const source = $('source'), text = source.value, from = text.lastIndexOf('\n', source.selectionStart - 1) + 1;
  const end = source.selectionEnd > source.selectionStart && text[source.selectionEnd - 1] === '\n'
    ? source.selectionEnd - 1 : source.selectionEnd;
  const until = text.indexOf('\n', end) < 0 ? text.length : text.indexOf('\n', end);
  return [from, until, text.slice(from, until).split('\n')];
}
function put_lines([from, until], them) {
  const source = $('source'), isOne = source.selectionStart === source.selectionEnd,
    behind = until - source.selectionEnd;
  source.setSelectionRange(from, until);
  if (them.length <= MOST_TYPED) insert(them.join('\n'));
  else { source.setRangeText(them.join('\n'), from, until, 'end'); source.dispatchEvent(new Event('input')); }
  const end = source.selectionEnd;
  if (isOne) source.setSelectionRange(Math.max(from, end - behind), Math.max(from, end - behind));
  else source.setSelectionRange(from, end);
}
const WIDE = 8;
/* Tab goes to the next column of eight, or moves the chosen lines; after Escape it leaves the editor. */
let isLeaving = false;
function tab(isBack) {
  const source = $('source'), [from, until, chosen] = chosen_lines();
  if (isBack) put_lines([from, until], chosen.map(it => it.replace(/^(\t| {1,8})/, '')));
  else if (chosen.length > 1) put_lines([from, until], chosen.map(it => it && ' '.repeat(WIDE) + it));
  else insert(' '.repeat(WIDE - (source.selectionStart - from) % WIDE));
}
function comment() {
  const [from, until, chosen] = chosen_lines(), filled = chosen.filter(it => it.trim()), isAll = filled.length > 0
    && filled.every(it => /^\s*;/.test(it));
  put_lines([from, until], chosen.map(it => !it.trim() ? it : isAll ? it.replace(/^(\s*); ?/, '$1') : `; ${it}`));
}
/* A new line begins where the one before does; behind a label, where statements do. */
function new_line() {
  const line = $('source').value.slice(0, $('source').selectionStart).split('\n').pop();
  insert(`\n${/^\w+:/.test(line) ? ' '.repeat(WIDE) : /^[ \t]*/.exec(line)[0]}`);
}
$('source').addEventListener('keydown', event => {
  const isControl = event.ctrlKey || event.metaKey, wasLeaving = isLeaving;
  if (!['Shift', 'Control', 'Alt', 'Meta'].includes(event.key)) isLeaving = event.key === 'Escape';
  const deed = isControl && !event.altKey && event.key === '/' ? comment : isControl || event.altKey ? null
    : {Tab: wasLeaving ? null : () => tab(event.shiftKey), Enter: isHex ? null : new_line}[event.key];
  if (!deed) return;
  event.preventDefault();
  deed();
});
$('source').addEventListener('blur', () => { isLeaving = false; });

/* Find, and go to a line. */
export function open_find(start) {
  const source = $('source'), chosen = source.value.slice(source.selectionStart, source.selectionEnd);
  $('find').hidden = false;
  if (start || (chosen && !chosen.includes('\n'))) $('find-text').value = start || chosen;
  $('find-text').focus();
  $('find-text').setSelectionRange(start ? start.length : 0, $('find-text').value.length);
  find(0);
}
function close_find() { $('find').hidden = true; $('source').focus(); }
/* Chooses the next place of what is sought, the one before, or, for 0, counts alone. */
function find(way) {
  const sought = $('find-text').value, source = $('source'), text = source.value.toLowerCase(), places = [];
  const line = /^:(\d*)$/.exec(sought);
  if (line) {
    const count = text.split('\n').length, to = Math.min(Math.max(Number(line[1]), 1), count);
    $('find-told').textContent = `line 1 to ${count}`;
    if (way && line[1]) { close_find(); to_line(to); }
    return;
  }
  for (let at = text.indexOf(sought.toLowerCase()); sought && at >= 0; at = text.indexOf(sought.toLowerCase(), at + 1))
    places.push(at);
  $('find-told').textContent = !sought ? 'a text, or :LINE' : places.length ? `${places.length} found` : 'not found';
  if (!way || !places.length) return;
  const here = source.selectionStart, isFound = source.selectionEnd - here === sought.length && places.includes(here);
  const next = way > 0 ? places.find(it => it > here || it === here && !isFound) ?? places[0]
    : places.filter(it => it < here).pop() ?? places[places.length - 1];
  $('find-told').textContent = `${places.indexOf(next) + 1} of ${places.length}`;
  show_line(text.slice(0, next).split('\n').length);
  source.setSelectionRange(next, next + sought.length);
  draw_paper();
}
$('find-text').addEventListener('input', () => find(0));
$('find-text').addEventListener('keydown', event => {
  if (event.key !== 'Enter' && event.key !== 'Escape') return;
  event.preventDefault();
  if (event.key === 'Escape') close_find(); else find(event.shiftKey ? -1 : 1);
});
$('find-next').onclick = () => find(1);
$('find-before').onclick = () => find(-1);
$('find-close').onclick = close_find;
$('source').addEventListener('scroll', () => draw_paper());
$('source').addEventListener('input', () => {
  stale();
  touched();
  if (refused.length) { refused = []; draw_refusals(); } else draw_paper();
});
