/* The screen, and the keys that are typed to the board. */
import {$, ask, counted, made, made_of, number, say, yes} from './asking.js';
import {act, acts, board, come_back, followed, move, pause_here, run_on, running, seen, show, view} from './board.js';
import {wake} from './board.js';
import {draw_paper} from './editor.js';
import {page} from './tabs.js';
import {draw_marks, forget_marks} from './timeline.js';
export let codes = [], helds = new Set(), sticky = new Set();
export function draw_screen(rows) {
  const shown = ([textContent, look]) => {
    const className = [1, 2, 4].filter(it => look & it).map(it => `b${it}`).join(' ');
    return look ? made('span', {textContent, className}) : textContent;
  };
  $('screen').replaceChildren(...rows.map(row => made_of('div', {}, ...row.map(shown))));
}

/* Keys. A key's code is by its place. */
const AS_THEY_WERE = 'Paused: the keys are as they were.';
const PLACES = {Escape: 1, Minus: 12, Equal: 13, Backspace: 14, BracketLeft: 26, BracketRight: 27, Enter: 28,
  ControlLeft: 29, ControlRight: 29, Semicolon: 39, Quote: 40, Backquote: 41, ShiftLeft: 42, Backslash: 43, Comma: 51,
  Period: 52, Slash: 53, NumpadDivide: 53, ShiftRight: 54, PrintScreen: 55, NumpadMultiply: 55, AltLeft: 56,
    AltRight: 56, Space: 57, CapsLock: 58, NumLock: 69, ScrollLock: 70, Home: 71, Numpad7: 71, ArrowUp: 72,
      Numpad8: 72, PageUp: 73, Numpad9: 73, NumpadSubtract: 74, ArrowLeft: 75, Numpad4: 75, Numpad5: 76,
        ArrowRight: 77, Numpad6: 77, NumpadAdd: 78, End: 79, Numpad1: 79, ArrowDown: 80, Numpad2: 80, PageDown: 81,
          Numpad3: 81, Insert: 82, Numpad0: 82, Delete: 83, NumpadDecimal: 83, NumpadEnter: 28};
for (let n = 1; n <= 10; n++) { PLACES[`Digit${n % 10}`] = n + 1; PLACES[`F${n}`] = 58 + n; }
[['QWERTYUIOP', 16], ['ASDFGHJKL', 30], ['ZXCVBNM', 44]].forEach(([row, first]) => [...row].forEach((it, at) => {
  PLACES[`Key${it}`] = first + at;
}));
const SCREEN_KEYS = [['Esc', 1], ...Array.from({length: 10}, (_, n) => [`F${n + 1}`, 59 + n]), ['Tab', 15],
  ['Ctrl', 29], ['Shift', 42], ['Alt', 56], ['Caps', 58], ['Num', 69], ['Scroll', 70], ['PrtSc', 55], ['Ins', 82],
  ['Del', 83], ['Home', 71], ['End', 79], ['PgUp', 73], ['PgDn', 81], ['\u2190', 75], ['\u2191', 72], ['\u2193', 80],
    ['\u2192', 77], ['5', 76], ['+', 78], ['-', 74], ['Bksp', 14], ['Enter', 28], ['Space', 57]];
export function key(code) {
  codes.push(code); wake();
  if (!running) act(async () => { if (codes.length) await send_keys(); });
}
/* Stamps the codes that were typed, or a text; whether that was done. */
export async function send_keys(more = {}) {
  const them = codes;
  codes = [];
  if (!board) { say('Assemble the source first.'); return false; }
  const fields = them.length ? {codes: them} : more;
  let answer = await ask('type', {board, seen, ...fields}).then(followed);
  if (answer.later) {
    pause_here();
    const [one, more] = ['key code was typed at a later clock. Drop it',
      'key codes were typed at later clocks. Drop them'];
    if (!await yes(`${counted(answer.later, one, more)}, and type here?`)) { drop_codes(); return false; }
    answer = await ask('type', {board, seen, ...fields, drop: true}).then(followed);
  }
  if (answer.gone) { await come_back(answer.gone); return false; }
  if (answer.sorry) { say(answer.sorry); return false; }
  if (answer.why === 'paused') { pause_here(); drop_codes(); show(answer); say(AS_THEY_WERE); return false; }
  if (answer.registers) {
    forget_marks();
    show(answer, Boolean(running));
    if (running) { draw_keys(); }
    const stamp = answer.keys.length ? answer.keys[answer.keys.length - 1][0] : 0;
    say(running ? '' : `stamped ${number(stamp)}; run on to see its effect`, true);
  }
  return true;
}
/* By sign: a sign's keys as a US keyboard has them, so that a keyboard of another country types what it says. */
const SIGNS = {' ': [57]};
[['1234567890-=', '!@#$%^&*()_+', 2], ['qwertyuiop[]', 'QWERTYUIOP{}', 16], ["asdfghjkl;'`", 'ASDFGHJKL:"~', 30],
  ['\\zxcvbnm,./', '|ZXCVBNM<>?', 43]].forEach(([plain, shifted, first]) => {
  [...plain].forEach((it, at) => { SIGNS[it] = [first + at]; });
  [...shifted].forEach((it, at) => { SIGNS[it] = [42, first + at]; });
});
const ASIDE = ['Shift', 'AltGraph', 'Dead'];
/* Types the sign of a key; whether that was done, and the key's place says no more. */
function type_sign(event) {
  if (ASIDE.includes(event.key) || event.key === 'Alt' && event.code === 'AltRight') return true;
  if (event.key.length !== 1 || (event.ctrlKey || event.altKey) && !event.getModifierState('AltGraph')) return false;
  const them = SIGNS[event.key];
  if (!them) { say(`no key of the board types ${event.key}`); return true; }
  for (const it of them) key(it);
  for (const it of [...them].reverse()) key(it + 128);
  return true;
}
$('screen').addEventListener('keydown', event => {
  const code = PLACES[event.code], isBySign = $('by-sign').value === 'sign';
  if (event.code === 'Tab' || event.metaKey || !code && !isBySign) return;
  if (event.ctrlKey && event.code === 'KeyC' && !getSelection().isCollapsed) return;
  if (event.ctrlKey && event.code === 'KeyV') return;  // a paste comes
  if (isBySign && event.key.length === 1 && event.repeat) { event.preventDefault(); return; }
  if (isBySign && type_sign(event)) { event.preventDefault(); return; }
  if (!code) return;
  event.preventDefault();
  if (event.repeat || helds.has(event.code)) return;
  helds.add(event.code);
  key(code);
});
$('screen').addEventListener('keyup', event => {
  if (!helds.delete(event.code)) return;
  event.preventDefault();
  key(PLACES[event.code] + 128);
});
/* What is pasted is typed, once the keys that are held for it are let go. */
$('screen').addEventListener('paste', event => {
  event.preventDefault();
  let_go();
  type_text(event.clipboardData.getData('text').replace(/\r\n?/g, '\n').replace(/[{}]/g, '$&$&'));
});
function let_go() { for (const it of helds) key(PLACES[it] + 128); helds.clear(); }
$('screen').addEventListener('blur', let_go);
export function draw_screen_keys() {
  $('board-keys').replaceChildren(...SCREEN_KEYS.map(([name, code]) => {
    const isHeld = [29, 42, 56].includes(code), one = made('button', {textContent: name});
    if (isHeld) { one.setAttribute('aria-pressed', 'false'); one.title = 'stays down for the next key'; }
    one.onclick = () => {
      if (isHeld) {
        const isDown = !sticky.delete(code);
        if (isDown) sticky.add(code);
        one.setAttribute('aria-pressed', String(isDown));
        key(isDown ? code : code + 128);
        return;
      }
      key(code); key(code + 128);
      release();
    };
    return one;
  }));
}
/* A key that goes down and isn't stamped doesn't come up either. */
function drop_codes() { codes = []; helds.clear(); sticky.clear(); release(); }
function release() {
  for (const it of sticky) key(it + 128);
  sticky.clear();
  for (const it of document.querySelectorAll('#board-keys [aria-pressed]')) it.setAttribute('aria-pressed', 'false');
}

export function draw_keys() {
  const rows = view.keys.map(([stamp, name, isDown]) => {
    const what = `${String(stamp).padStart(12)} ${name.padEnd(10)} ${isDown ? 'down' : 'up'}`;
    return `${what}${stamp > view.clock ? '  to come' : ''}`;
  });
  $('key-list').textContent = rows.join('\n') || 'no keys yet';
}
$('keys-open').onclick = () => {
  const is = $('board-keys').hidden;
  $('board-keys').hidden = !is;
  $('keys-open').setAttribute('aria-expanded', String(is));
  fit();
};
/* Types a text; one that is refused stays in the field. */
function type_text(text) {
  const wasRunning = running;
  act(async () => { if (!await send_keys({text})) $('text').value = text; });
  if (wasRunning) { pause_here(); act(run_on); }
}
$('type').onclick = () => { const text = $('text').value; $('text').value = ''; if (text) type_text(text); };
$('text').addEventListener('keydown', event => { if (event.key === 'Enter') $('type').click(); });
/* Takes keys out of the list. The board is run anew without them, which may be paused. */
const drop_keys = isGone => acts(async () => {
  const answer = await move('drop keys', {keys: view.keys.flatMap((it, at) => isGone(it) ? [at] : [])});
  if (answer.why === 'paused') say(AS_THEY_WERE);
});
$('keys-drop').onclick = () => drop_keys(() => true);
$('keys-drop-later').onclick = () => drop_keys(it => it[0] > view.clock);

/* The screen's type is as large as 80 columns fit. */
export function fit() {
  const screen = $('screen'), tube = $('tube');
  screen.style.fontSize = '20px';
  const probe = made('span', {textContent: 'M'.repeat(80)});
  screen.append(probe);
  const wide = probe.getBoundingClientRect().width / 20;
  probe.remove();
  const isNarrow = matchMedia('(max-width: 900px)').matches, room = tube.clientWidth - (isNarrow ? 22 : 30),
    high = tube.clientHeight - 24;
  const size = Math.min(room / wide, isNarrow && !document.fullscreenElement ? 20 : Math.max(high / 29, 6), 96);
  screen.style.fontSize = `${Math.floor(size * 20) / 20}px`;
  draw_paper(); draw_marks();
}
/* The whole window for the screen; Escape ends it. */
$('full').onclick = async () => {
  try {
    await $('tube').requestFullscreen();
    $('screen').focus();
  } catch { say('the browser lets no page fill its screen'); }
};
/* In a narrow window one touch leads to each part. */
for (const [id, part] of [['view-screen', 'look'], ['view-source', 'edit'], ['view-more', 'more']])
  $(id).onclick = () => $(part).scrollIntoView();
addEventListener('resize', fit);
new ResizeObserver(fit).observe($('tube'));
matchMedia('(prefers-color-scheme: dark)').addEventListener('change', draw_marks);
