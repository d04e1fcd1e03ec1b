/* Everything that is pressed, and the keyboard's shortcuts. */
import {$, LAST, number, say} from './asking.js';
import {act, acts, assemble, go_to, leave, move, put_stops, run_or_pause, stops, toggle_stop} from './board.js';
import {open_find} from './editor.js';
import {first} from './files.js';
import './language.js';
import {save_now, send_last_words, touched} from './saving.js';
import {draw_screen, draw_screen_keys, fit} from './screen.js';
$('assemble').onclick = () => acts(assemble);
$('run').onclick = run_or_pause;
$('step').onclick = () => acts(() => move('step'));
$('over').onclick = () => acts(() => move('over'));
$('out').onclick = () => acts(() => move('out'));
$('back').onclick = () => acts(() => move('back'));
$('last').onclick = () => acts(() => move('last'));
$('start').onclick = () => acts(() => go_to(0));
function go() {
  const text = $('to').value.replace(/[,_ ]/g, '');
  if (!/^\d{1,13}$/.test(text) || Number(text) > LAST) { say('To clock takes a decimal number up to 2^40.'); return; }
  acts(() => go_to(Number(text)));
}
$('go').onclick = go;
$('to').addEventListener('keydown', event => { if (event.key === 'Enter') go(); });
$('stop-kind').onchange = () => {
  const kind = $('stop-kind').value;
  $('stop-at').hidden = !['break', 'byte', 'changes'].includes(kind);
  $('stop-is').hidden = kind !== 'byte';
  $('stop-hint').textContent =
    {break: 'label, label+N, :LINE or SEGMENT:OFFSET; or click beside a line, F9 in the editor',
    byte: 'at a label or an address; the value is hexadecimal',
      changes: 'at a label or an address; or click a byte under Memory or Data'}[kind] || '';
};
$('stop-add').onclick = () => {
  const kind = $('stop-kind').value, words = [kind,
    ...['stop-at', 'stop-is'].filter(it => !$(it).hidden).map(it => $(it).querySelector('input').value.trim())];
  if (words.includes('')) return;
  acts(() => put_stops([...stops, {place: words.join(' ')}]));
  for (const name of ['stop-place', 'stop-value']) $(name).value = '';
};
for (const name of ['stop-place', 'stop-value']) $(name).addEventListener('keydown', event => {
  if (event.key === 'Enter') $('stop-add').click();
});
for (const name of ['input', 'change']) $('fields').addEventListener(name, touched);
$('help').onclick = () => $('helping').showModal();
document.addEventListener('keydown', event => {
  if (event.ctrlKey && event.key === 'Enter') { event.preventDefault(); acts(assemble); return; }
  if ((event.ctrlKey || event.metaKey) && event.key.toLowerCase() === 's') {
    event.preventDefault();
    if (!document.querySelector('dialog[open]')) save_now();
    return;
  }
  const isEdited = $('edit').contains(document.activeElement) && !document.querySelector('dialog[open]');
  if (isEdited && (event.ctrlKey || event.metaKey) && 'fg'.includes(event.key.toLowerCase()) && event.key) {
    event.preventDefault();
    open_find(event.key.toLowerCase() === 'g' ? ':' : '');
    return;
  }
  if (document.activeElement === $('screen') || document.querySelector('dialog[open]') || event.ctrlKey || event.altKey
    || event.metaKey) return;
  const pressed = (event.shiftKey ? 'Shift+' : '') + event.key;
  const id = {F8: 'run', F5: 'run', 'Shift+F8': 'last', F2: 'step', F11: 'step', 'Shift+F2': 'back', F4: 'over',
    F10: 'over', 'Shift+F11': 'out'}[pressed];
  if (id) { event.preventDefault(); $(id).click(); }
  if (pressed === 'F9' && document.activeElement === $('source')) {
    event.preventDefault();
    toggle_stop($('source').value.slice(0, $('source').selectionStart).split('\n').length);
  }
});
/* A phone may end a page once it is hidden. One that is left is hidden too, when its board and the keys typed there are
   gone. */
let isLeft = false;
addEventListener('visibilitychange', () => { if (document.hidden && !isLeft) send_last_words(); });
addEventListener('pagehide', () => { send_last_words(); isLeft = true; leave(); });
addEventListener('pageshow', () => { isLeft = false; });

draw_screen(Array(25).fill([[' '.repeat(80), 0]]));
draw_screen_keys();
fit();
act(first);
