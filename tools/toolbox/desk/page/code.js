/* The instructions of Intel HEX, where a source would be. A row is the one that comes next, may have a stop, and by a
   click gets one. */
import {$, ask, made} from './asking.js';
import {act, acts, board, followed, put_stops, stops, view} from './board.js';
import {isHex} from './files.js';
import {by_arrows} from './processor.js';
let rows = [], isWanted = true;
/* Records are shown instead where the user wants them, and where one is refused. */
export function show_code(is = isWanted) {
  const isOn = isHex && is;
  $('as-code').hidden = !isHex;
  $('as-code').setAttribute('aria-pressed', String(isOn));
  $('code').hidden = $('code-at').hidden = !isOn;
  $('paper').hidden = isOn;
  if (isOn) act(draw_code);
}
export async function draw_code() {
  if (!board || $('code').hidden) return;
  const answer = await ask('code', {board, place: $('code-place').value}).then(followed);
  if (answer.sorry) { $('code').textContent = answer.sorry; return; }
  if (!answer.code) return;
  rows = answer.code;
  draw_rows();
}
/* The rows, with what of them changes by itself: which comes next, and where stops are. */
export function draw_rows() {
  if ($('code').hidden || !view) return;
  const stopped = new Set(stops.map(it => it.at)), wasIn = $('code').contains(document.activeElement)
    ? [...$('code').children].indexOf(document.activeElement) : -1;
  const list = rows.map(([place, label, octets, text, line]) => {
    const isNow = place === view.place, isStop = stopped.has(place), kind = /^(halted|ended)/.test(view.state);
    const textContent =
      `${place} ${label.padEnd(12)} ${octets.padEnd(14)} ${text.padEnd(26)} ${line ? `| ${line}` : ''}`.trimEnd();
    const className = [isNow && (kind ? 'halted' : 'now'), isStop && 'stop'].filter(Boolean).join(' ');
    const title = isStop ? `a stop at ${place}: a click removes it` : `a click sets a stop at ${place}`;
    const onclick = () => acts(() => put_stops(isStop ? stops.filter(it => it.at !== place) : [...stops, {place}]));
    const one = made('button', {textContent, className, title, onclick, tabIndex: isNow ? 0 : -1});
    one.setAttribute('aria-pressed', String(isStop));
    if (isNow) one.setAttribute('aria-current', 'true');
    return one;
  });
  if (list.length && !list.some(it => it.tabIndex === 0)) list[0].tabIndex = 0;
  $('code').replaceChildren(...list);
  if (list[wasIn]) list[wasIn].focus();
  const now = $('code').querySelector('[aria-current]');
  if (now && wasIn < 0) now.scrollIntoView({block: 'nearest'});
}
by_arrows($('code'));
$('as-code').onclick = () => { isWanted = $('code').hidden; show_code(); };
$('code-place').addEventListener('change', () => act(draw_code));
