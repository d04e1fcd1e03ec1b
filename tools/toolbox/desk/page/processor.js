/* What the processor and memory hold: registers, stack, trail, bytes, chips. */
import {$, ask, hex, made, made_of} from './asking.js';
import {act, acts, board, followed, go_to, running, view, working} from './board.js';
import {opens_menu, with_menus} from './byte.js';
import {base, forget_data, in_base} from './data.js';
import {edit_in_place, edited, is_edited} from './edit.js';
import {assembled, to_line} from './editor.js';
import {fit} from './screen.js';
const FLAGS = [['OF', 11], ['DF', 10], ['IF', 9], ['TF', 8], ['SF', 7], ['ZF', 6], ['AF', 4], ['PF', 2], ['CF', 0]];
let memoryBefore = null, chipsBefore = null;
export function forget_before() { memoryBefore = null; chipsBefore = null; forget_data(); }
/* The same registers, in another base. */
let registersShown = [null, null];
export function redraw_registers() { if (registersShown[1]) draw_registers(...registersShown); }
export function draw_registers(before, now) {
  registersShown = [before, now];
  $('registers').replaceChildren(...Object.entries(now).map(([name, value]) => {
    const className = before && before[name] !== value ? 'changed' : '';
    const one = made('span', {textContent: in_base(value), className});
    edited(one, () => edit_in_place(one, name, in_base(value), base === 0, () => redraw_registers()));
    return made_of('span', {}, made('b', {textContent: name}), ' ', one);
  }));
  $('flags').replaceChildren(...FLAGS.map(([name, bit]) => {
    const isSet = now.FL >> bit & 1, isChanged = before && (before.FL >> bit & 1) !== isSet;
    const className = (isSet ? 'set ' : '') + (isChanged ? 'changed' : '');
    return made('span', {textContent: `${name} ${isSet}`, className});
  }));
}
/* A line of what runs, without its comment. */
function source_at(line) {
  if (!line) return '';
  const text = $('edit').classList.contains('stale') ? assembled : $('source').value;
  return `| ${line}: ${text.split('\n')[line - 1].replace(/;.*/, '').trim()}`;
}
/* Where the present routine, and those that called it, return to; a click leads to the line. */
export function draw_callers() {
  $('callers').replaceChildren(...view.callers.map(([place, label, line]) => {
    const textContent = `${place} ${label.padEnd(12)} ${source_at(line)}`.trimEnd();
    if (!line) return made('div', {textContent});
    return made('button', {textContent, title: `line ${line}`, onclick: () => to_line(line)});
  }));
  if (!view.callers.length) $('callers').textContent = 'Nothing has called what runs here.';
}
/* The trail is one stop of Tab; arrow keys go along it. */
export function draw_trail() {
  const wasIn = $('trail').contains(document.activeElement);
  const list = view.trail.map(([clock, place, label, text, line]) => {
    const textContent =
      `${String(clock).padStart(9)} ${place} ${label.padEnd(12)} ${text.padEnd(26)} ${source_at(line)}`.trimEnd();
    const onclick = () => acts(() => go_to(clock));
    return made('button', {textContent, title: `to clock ${clock}`, tabIndex: -1, onclick});
  });
  $('trail').replaceChildren(...list);
  $('trail').scrollTop = $('trail').scrollHeight;
  if (list.length) list[list.length - 1].tabIndex = 0;
  if (wasIn && list.length) list[list.length - 1].focus();
}
export function by_arrows(list) {
  list.addEventListener('keydown', event => {
    const all = [...list.children], at = all.indexOf(document.activeElement);
    const to = {ArrowDown: at + 1, ArrowUp: at - 1, Home: 0, End: all.length - 1}[event.key];
    if (to === undefined || !all.length) return;
    event.preventDefault();
    const next = all[Math.min(Math.max(to, 0), all.length - 1)];
    for (const it of all) it.tabIndex = it === next ? 0 : -1;
    next.focus();
  });
}
by_arrows($('trail'));
export function draw_stack() {
  $('stack').textContent = view.stack.slice(0, 8).map(([at, word, label]) =>
    `${at}: ${word} ${label}`.trimEnd()).join('\n');
}
export async function draw_memory() {
  if (!board) return;
  const answer = await ask('memory', {board, place: $('place').value, count: 256}).then(followed);
  if (answer.sorry) { $('bytes').textContent = answer.sorry; return; }
  if (!answer.bytes || is_edited()) return;
  const octets = answer.bytes.match(/../g).map(it => parseInt(it, 16)), before = memoryBefore
    && memoryBefore.address === answer.address ? memoryBefore.octets : null;
  const inside = [];
  for (let at = 0; at < octets.length; at += 16) {
    inside.push(`${hex(answer.address + at, 5)}: `);
    const row = octets.slice(at, at + 16);
    row.forEach((octet, place) => {
      const className = before && before[at + place] !== octet ? 'changed' : '';
      const one = made('span', {textContent: hex(octet, 2), className});
      inside.push(opens_menu(one, answer.address + at + place, 1), ' ');
    });
    inside.push('  '.padEnd(2 + 3 * (16 - row.length)), row.map(it => it >= 32 && it < 127 ? String.fromCharCode(it)
      : '.').join(''), '\n');
  }
  $('bytes').replaceChildren(...inside);
  memoryBefore = {address: answer.address, octets};
}

export async function draw_chips() {
  if (!board) return;
  const answer = await ask('chips', {board}).then(followed);
  if (answer.sorry) {
    $('chip-lines').textContent = answer.sorry;
    $('chip-facts').replaceChildren();
    chipsBefore = null;
  }
  if (!answer.lines) return;
  const now = answer.lines.map(it => it.split(' ')), before = chipsBefore || now;
  $('chip-lines').replaceChildren(...now.map((words, at) => {
    const className = place => before[at][place] !== words[place] ? 'changed' : '';
    const others = words.slice(1).flatMap((textContent, n) =>
      [' ', made('span', {textContent, className: className(n + 1)})]);
    return made_of('div', {}, made('b', {textContent: words[0]}), ...others);
  }));
  $('chip-facts').replaceChildren(...answer.facts.map(textContent => made('p', {textContent})));
  chipsBefore = now;
}

$('place').addEventListener('change', () => act(draw_memory));
with_menus($('bytes'), 16);

/* Why the run goes nowhere, under the screen, as long as the clock is the one that it is told of. A line's number leads
   to it. */
export function forget_why() {
  if (!view || $('why').dataset.clock === String(view.clock)) return;
  if (!$('why').hidden) { $('why').hidden = true; fit(); }
}
export async function draw_why() {
  if (!board || running || working) return;
  const answer = await ask('why', {board}).then(followed);
  if (!answer.told || answer.clock !== view.clock) return;
  const leading = part => {
    const line = /^line (\d+)$/.exec(part);
    return line ? made('button', {textContent: part, onclick: () => to_line(Number(line[1]))}) : part;
  };
  $('why').replaceChildren(...answer.told.map(it => made_of('p', {}, ...it.split(/\b(line \d+)\b/).map(leading))));
  $('why').dataset.clock = answer.clock;
  $('why').hidden = !answer.told.length;
  fit();
}
