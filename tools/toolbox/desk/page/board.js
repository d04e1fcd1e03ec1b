/* The board that the page shows: how it begins, is moved and comes back; and its stops. */
import {$, HERTZ, LAST, ask, counted, differ, made, made_of, number, say, time_of} from './asking.js';
import {draw_rows} from './code.js';
import {assembled, draw_paper, note_assembled, refused, tell_refused} from './editor.js';
import {fields_now, isHex, note_run, runFile} from './files.js';
import {draw_callers, draw_registers, draw_stack, draw_trail, draw_why, forget_before} from './processor.js';
import {forget_why} from './processor.js';
import {touched} from './saving.js';
import {codes, draw_keys, draw_screen, send_keys} from './screen.js';
import {tell_last} from './served.js';
import {speaker} from './sound.js';
import {begin_line, dragging, draw_marks, drawn, later, look_on, met, span} from './timeline.js';
const TICK = 60, LONG_TICK = 240, STILL = 10, FRAME = Math.round(HERTZ / 60);
const ENDS = {jammed: 'the processor has jammed: there is no instruction here',
  'halted for good': 'halted with interrupts off: nothing more will happen'};
/* Why nothing more will happen in a state, if so: a program with services has ended. */
const end_of = state => ENDS[state] || (state && state.startsWith('ended') ? state : '');
export let board = null, seen = 0, view = null, looked = null, running = null, working = false,
  queue = Promise.resolve();
export let lines = {}, stops = [];
export let wake = () => {};  // ends the wait between two pieces of a run

/* A page asks one thing at a time, and follows what takes long. What was told before stands there again then. */
export async function followed(answer) {
  const told = $('said').textContent, isGood = $('said').className === 'good';
  let far = '';
  while (answer.working) {
    far = `at clock ${number(answer.clock)}; Pause ends it`;
    say(far, true);
    working = true;
    draw_run();
    answer = await ask('wait', {board});
  }
  if (far && $('said').textContent === far) say(told, isGood);  // what was said meanwhile stays
  working = false;
  draw_run();
  return answer;
}
export async function move(word, fields = {}) {
  if (!board) { say('Assemble the source first.'); return {}; }
  const answer = await followed(await ask(word, {board, seen, ...fields}));
  if (answer.gone) return come_back(answer.gone, word);
  if (answer.sorry) { say(answer.sorry); return answer; }
  if (answer.registers) { show(answer, fields.light); tell_place(); }
  if (answer.told) say(answer.told, true);
  if (['step', 'over', 'out'].includes(word) && (ENDS[answer.why] || end_of(answer.state)))
    say(end_of(answer.state) || ENDS[answer.why], true);
  if (answer.why === 'far') say('not over after 50,000,000 clocks; press it again to go on');
  return answer;
}
/* Where the board is after a move, for who listens. */
function tell_place() {
  const source = $('source').value === assembled ? assembled.split('\n')[view.line - 1] : '',
    code = (source || '').replace(/;.*/, '').trim();
  const where = view.line ? `line ${view.line}${code ? `: ${code}` : ''}` : view.place;
  $('aloud').textContent = `clock ${number(view.clock)}, ${where}${view.state === 'running' ? '' : `, ${view.state}`}`;
}
/* A board that was left alone is begun anew, of the text that it had, at the clock where it was, with its keys and
   stops. */
export async function come_back(why, word) {
  const clock = view ? view.clock : 0, keys = (view && view.raw) || runFile.keys;
  board = null;
  if (word === 'again') { say(`The board has ended: ${why}`); return {}; }
  await begin({...runFile, keys}, clock, assembled);
  say(`The board had ended (${why}). It was started again and is at the same clock.`);
  return {};
}
/* One action after the other; a run that goes on is paused first. */
export function act(action) {
  return queue = queue.then(async () => {
    try { await action(); } catch (error) { say(error.message); running = null; working = false; draw_run(); }
  });
}
export async function acts(action) {
  if (working) { working = false; await ask('pause', {board}); }
  running = null; wake();
  say('');
  return act(action);
}

/* That a source has the services by its look is told once. */
let services = '', wasTold = false;
function told_once() { const told = wasTold ? '' : services; wasTold = wasTold || Boolean(services); return told; }
export async function begin(fields, clock = null, text = $('source').value) {
  note_run(fields);
  const answer = await ask('open', {source: text, run: fields, hex: isHex, instead: board});
  board = null; seen = 0; looked = null;
  begin_line(); forget_before();
  tell_refused(answer.refused || []);
  if (answer.sorry || answer.gone) { say(answer.sorry || answer.gone); return; }
  if (answer.refused) {
    say(refused[0].line ? `${counted(refused.length, 'line')} refused` : 'refused');
    lines = {};
    draw_paper();
    return;
  }
  board = answer.board; lines = answer.lines; note_assembled(text);
  services = answer.services;
  $('to').value = answer.budget;
  show(answer);
  if (stops.length) await put_stops(stops); else draw_stops();
  const to = clock === null ? answer.budget : clock;
  if (to > 0) await run_to(to);
}
/* Runs on past all stops to a clock, in pieces that can be paused. */
async function run_to(to) {
  let answer = {};
  working = true;
  do {
    answer = await follow_quietly(await ask('run', {board, seen, to, past: true, ms: 200}));
    if (!answer.registers) break;
    show(answer);
    if (working && answer.clock < to) {
      say(`at clock ${number(answer.clock)} of ${number(to)}; Pause ends it`, true);
      draw_run();
    }
  } while (working && answer.clock < to);
  working = false;
  draw_run();
  if (answer.gone) await come_back(answer.gone, 'again');
  else { say(answer.sorry || told_once(), !answer.sorry); act(draw_why); }
}
async function follow_quietly(answer) { while (answer.working) answer = await ask('wait', {board}); return answer; }
export async function assemble() { await begin(fields_now()); }

/* What is shown. */
export function show(answer, isLight = false) {
  if (answer.screen) { draw_screen(answer.screen); seen = answer['screen number']; }
  const kept = view, isOn = isLight && kept !== null;
  view = {...(isOn ? kept : {}), ...answer};
  if (answer.keys) { view.raw = answer.keys.map(it => [it[0], it[3]]); touched(); }
  $('undo').hidden = !answer.changed;
  forget_why();
  if (answer.why === 'stop' && !met.includes(answer.clock)) met.push(answer.clock);
  if (!isLight) {
    draw_registers(looked && looked.registers, answer.registers);
    looked = answer;
    draw_trail();
    draw_callers();
    draw_stack();
    draw_keys();
    later(look_on);
  }
  else if (!isOn || differ(kept.registers, answer.registers))
    draw_registers(looked && looked.registers, answer.registers);
  if (!isOn || kept.line !== answer.line) draw_paper(!isLight);
  /* While a run goes on, its clock and the time line are drawn five times a second. */
  if (isOn && answer.why !== 'stop' && performance.now() < drawn + 200) return;
  $('now').textContent = `clock ${number(answer.clock)}`;
  const label = answer.label ? ` ${answer.label}` : '';
  $('where').textContent = `${time_of(answer.clock)}, ${answer.state}, ${answer.place}${label}`;
  if (!isLight) $('told').textContent = '';
  const time = $('time');
  if (!dragging) { const [low, high] = span(); time.min = low; time.max = high; time.value = answer.clock; }
  time.setAttribute('aria-valuetext', `clock ${answer.clock} of ${answer.furthest}`);
  draw_marks();
}

/* Stops. */
export async function put_stops(wanted) {
  if (!board) return;
  let answer = await ask('stops', {board, stops: wanted.map(it => it.place)});
  if (answer.sorry && wanted.length) {
    say(answer.sorry);
    answer = await ask('stops', {board, stops: stops === wanted ? [] : stops.map(it => it.place)});
  }
  if (answer.stops)
    stops = answer.stops.map(([place, label, line]) => ({place: line ? `:${line}` : place, at: place, label, line}));
  draw_stops();
}
/* A stop in words: of a place its address, label and line. */
function told_of(stop) {
  if (stop.place === 'sound') return 'the speaker is high';
  if (stop.place === 'halted') return 'the processor is halted';
  const [, address, value] = /^byte (\w+) (\w+)$/.exec(stop.place) || [];
  if (address) return `the byte at ${address}${stop.label ? ` ${stop.label}` : ''} is ${value.padStart(2, '0')}`;
  const [, first, count] = /^changes (\w+) (\d+)$/.exec(stop.place) || [];
  const which = count === '1' ? 'the byte' : `one of ${count} bytes`;
  if (first) return `${which} at ${first}${stop.label ? ` ${stop.label}` : ''} changes`;
  return stop.at ? `${stop.at} ${stop.label}${stop.line ? `, line ${stop.line}` : ''}` : stop.place;
}
function draw_stops() {
  touched();
  $('stop-list').replaceChildren(...stops.map(stop => {
    const onclick = () => acts(() => put_stops(stops.filter(it => it !== stop)));
    const gone = made('button', {textContent: 'Remove', onclick});
    return made_of('div', {className: 'bar mono'}, `${told_of(stop)} `, gone);
  }));
  draw_paper();
  draw_rows();
}
export function toggle_stop(line) {
  const there = stops.find(it => it.line === line);
  return acts(async () => {
    const count = stops.length;
    await put_stops(there ? stops.filter(it => it !== there) : [...stops, {place: `:${line}`}]);
    if (stops.length !== count)
      $('aloud').textContent = there ? `no stop at line ${line}` : `stop at line ${stops[stops.length - 1].line}`;
  });
}

/* Moving. */
export const go_to = async clock => {
  if (!board) return;
  if (clock > view.clock) await run_to(clock);
  else if (clock < view.clock) await move('go to', {clock});
};
function draw_run() {
  const isOn = running || working;
  $('run').textContent = isOn ? 'Pause' : 'Run';
  document.body.classList.toggle('on', Boolean(isOn));
}
export async function run_or_pause() {
  if (running || working) {
    if (working) { working = false; await ask('pause', {board}); }
    running = null; wake();
    return;
  }
  say('');
  if (board && !$('edit').classList.contains('stale')) { act(run_on); return; }
  /* What is run is what is seen, from its start. */
  act(async () => { await begin(fields_now(), 0); if (board) await run_on(); });
}
export async function run_on() {
  const mine = running = {}, isReal = $('pace').value === 'real';
  let begun = performance.now(), from = view.clock, answer = null, told = '', still = 0;
  draw_run();
  speaker.follow(from, isReal);
  while (running === mine) {
    let tick = performance.now(), least = view.clock;
    const isTyped = codes.length > 0;
    if (isTyped) {
      await send_keys();
      if (running !== mine) break;
      begun += performance.now() - tick;
      tick = performance.now();
      least = view.clock + FRAME;  // what is typed is seen at once, also right after a tick
    }
    const here = view.clock, target = isReal ? Math.floor(from + (tick - begun) * HERTZ / 1000) : LAST;
    const asked = ask('run', {board, seen, to: Math.min(Math.max(target, least), LAST), light: true, ms: isReal
      ? 50 : 100});
    if (isTyped) speaker.follow(here, isReal);  // asks, too, and later
    answer = await asked.then(follow_quietly);
    if (answer.gone || answer.sorry) break;
    still = answer.screen || differ(view.registers, answer.registers) ? 0 : still + 1;
    show(answer, true);
    if (answer.why === 'stop') { told = answer.told || 'a stop is met'; break; }
    if (end_of(answer.state)) { told = end_of(answer.state); break; }
    if (answer.clock >= LAST) break;
    if (isReal) {
      if (speaker.chunk(answer.clock)) still = 0;
      const behind = (target - answer.clock) / HERTZ;
      if (behind > .25 || performance.now() - tick > 1000) {
        begun = performance.now();
        from = answer.clock;
        say('slower than a real board', true);
        speaker.follow(from, true);
      }
      /* Where nothing is seen or heard to change for a while, it is looked at less often. */
      const wait = codes.length ? 0 : (still > STILL ? LONG_TICK : TICK) - (performance.now() - tick);
      await new Promise(go => { wake = go; setTimeout(go, Math.max(0, wait)); });
    }
  }
  running = null;
  speaker.end();
  draw_run();
  if (answer && answer.gone) { await come_back(answer.gone); return; }
  await move('look');
  if (answer && view) view.why = answer.why;  // a look says where the board is, and not why
  act(draw_why);
  if (answer && answer.sorry) { say(answer.sorry); return; }
  if (told) say(told, true);
  if (codes.length) await send_keys();
}
/* Another source has stops of its own, and no keys of the board that was. */
export function forget_run(them) { if (view) view.raw = null; stops = them; draw_stops(); }
export function pause_here() { running = null; wake(); }
/* Who leaves the page ends its board. */
export function leave() { if (board) tell_last({do: 'close', board}); board = null; }
