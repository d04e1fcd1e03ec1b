/* The time line: the clock, stops that were met, interrupts and the speaker. */
import {$, ask, counted, number, say} from './asking.js';
import {act, acts, board, go_to, running, show, view, working} from './board.js';
import {draw_code} from './code.js';
import {draw_data} from './data.js';
import {is_edited} from './edit.js';
import {draw_chips, draw_memory} from './processor.js';
import {draw_sound, speaker} from './sound.js';
export let marks = null, met = [], timer = 0, drawn = 0;
export let dragging = false, wanted = null, zoom = 1, middle = 0;
export function forget_marks() { marks = null; drawnSpeaker = null; }
export function begin_line() { marks = null; drawnSpeaker = null; met = []; zoom = 1; }
export function later(action) { clearTimeout(timer); timer = setTimeout(action, 120); }
/* Behind each look that isn't followed by another at once: memory, and the marks of the time line. */
export function look_on() {
  if (running || working || !board || !view || is_edited()) return;
  if (!$('memory').hidden) act(draw_memory);
  if (!$('chips').hidden) act(draw_chips);
  if (!$('data').hidden) act(draw_data);
  act(draw_code);
  const clock = view.clock, mine = board;
  ask('marks', {board}).then(answer => {
    if (answer.busy || mine !== board) { later(look_on); return; }
    if (answer.sorry || answer.gone) return;
    marks = answer; draw_marks(); draw_sound(); ask_speaker();
    if (view.clock !== clock || answer.clock !== clock) return;
    const why = answer.changed ? 'changed, and so isn’t shown with' : 'too long to show';
    if (!answer.told) { $('told').textContent = `the run is ${why} its speaker and interrupts`; return; }
    const lost = view.lost ? `${counted(view.lost, 'key')} lost, ` : '';
    const upTo = answer['interrupts up to'], some = upTo < answer.until ? ` up to clock ${number(upTo)}` : '';
    const changes = counted(answer['all changes'], 'change'), them = counted(answer.interrupts.length, 'interrupt');
    $('told').textContent = `${lost}${changes} of the speaker, ${them}${some}`;
  }, () => {});
}
/* What the speaker did in the clocks that are in sight, joined to what can be seen apart. */
export let drawnSpeaker = null;
function ask_speaker() {
  const [low, high] = span(), mine = board;
  if (!board || !marks) return;
  ask('speaker', {board, low, high}).then(answer => {
    if (mine !== board || !answer.stretches) return;
    drawnSpeaker = answer; draw_marks();
  }, () => {});
}
/* The clocks that the time line shows: all, or so many around a clock, up to where the run has been. */
export function span() {
  const end = Math.max(view ? view.furthest : 1, 1), wide = Math.max(Math.floor(end / zoom), 100);
  if (zoom === 1 || wide >= end) return [0, end];
  if (view.clock < middle - wide / 2 || view.clock > middle + wide / 2) middle = view.clock;
  const low = Math.max(0, Math.min(Math.floor(middle - wide / 2), end - wide));
  return [low, low + wide];
}
function look_closer(times) {
  if (!view) return;
  zoom = times > 1 && view.furthest / zoom <= 100 ? zoom : Math.max(1, zoom * times);
  middle = view.clock;
  const [low, high] = span(), time = $('time');
  time.min = low; time.max = high; time.value = view.clock;
  say(zoom === 1 ? '' : `the time line shows clocks ${number(low)} to ${number(high)}`, true);
  draw_marks();
  ask_speaker();
}
export function draw_marks() {
  drawn = performance.now();
  const canvas = $('marks'), ratio = window.devicePixelRatio || 1, width = canvas.clientWidth,
    pen = canvas.getContext('2d');
  canvas.width = width * ratio; canvas.height = 20 * ratio;
  pen.scale(ratio, ratio);
  const style = getComputedStyle(document.documentElement), colour = name => style.getPropertyValue(name),
    [low, end] = span();
  const x = clock => 8 + (clock - low) / (end - low) * (width - 16);
  pen.fillStyle = colour('--edge');
  pen.fillRect(8, 19, width - 16, 1);
  if (marks) {
    pen.fillStyle = colour('--sound');
    if (drawnSpeaker)
      for (const [from, until] of drawnSpeaker.stretches)
        if (until >= low && from <= end) pen.fillRect(x(from), 12, Math.max(x(until) - x(from), .5), 7);
    pen.fillStyle = colour('--interrupt');
    for (const [clock] of marks.interrupts) if (clock >= low && clock <= end) pen.fillRect(x(clock), 2, 1.5, 9);
  }
  pen.fillStyle = colour('--stop');
  for (const clock of met) if (clock >= low && clock <= end) {
    pen.beginPath();
    pen.moveTo(x(clock) - 4, 0);
    pen.lineTo(x(clock) + 4, 0);
    pen.lineTo(x(clock), 8);
    pen.fill();
  }
}
async function drag() {
  while (wanted !== null) { const clock = wanted; wanted = null; await go_to(clock); }
}
$('time').addEventListener('input', () => {
  const isFree = wanted === null;
  wanted = Number($('time').value);
  dragging = true;
  if (isFree) acts(drag);
});
$('time').addEventListener('change', () => { dragging = false; });

$('closer').onclick = () => look_closer(4);
$('wider').onclick = () => look_closer(1 / 4);
