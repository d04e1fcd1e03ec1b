/* A byte's menu: stop where it changes, and who wrote it. Bytes are one stop of Tab; arrow keys go along them, and
   Enter opens the menu. */
import {$, hex, say} from './asking.js';
import {acts, move, put_stops, stops} from './board.js';
import {edit_in_place} from './edit.js';
import {later, look_on} from './timeline.js';
let bytesChosen = null, opener = null;
/* An element of bytes of memory, so many from an address on. */
export function opens_menu(element, address, count) {
  element.dataset.address = address;
  element.dataset.count = count;
  element.classList.add('byte');
  element.setAttribute('role', 'button');
  element.setAttribute('aria-haspopup', 'menu');
  element.tabIndex = -1;
  return element;
}
function open(element) {
  const menu = $('byte-menu'), {left, bottom} = element.getBoundingClientRect();
  opener = element;
  bytesChosen = [Number(element.dataset.address), Number(element.dataset.count)];
  $('byte-named').textContent = `${hex(bytesChosen[0], 5)}${bytesChosen[1] > 1 ? `, ${bytesChosen[1]} bytes` : ''}`;
  menu.hidden = false;
  menu.style.left = `${Math.max(4, Math.min(left, innerWidth - menu.offsetWidth - 4))}px`;
  menu.style.top = `${Math.max(4, Math.min(bottom, innerHeight - menu.offsetHeight - 4))}px`;
  $('byte-stop').focus();
}
function close_menu(isBack = true) {
  if ($('byte-menu').hidden) return;
  $('byte-menu').hidden = true;
  if (isBack && opener) opener.focus();
  later(look_on);
}
$('byte-stop').onclick = () => {
  const [address, count] = bytesChosen, place = `changes ${hex(address, 5)} ${count}`, before = stops.length;
  close_menu();
  acts(async () => {
    await put_stops([...stops, {place}]);
    if (stops.length > before) say(`Run stops where ${hex(address, 5)} changes`, true);
  });
};
$('byte-who').onclick = () => {
  const [address, count] = bytesChosen;
  close_menu();
  acts(() => move('who', {address, count}));
};
$('byte-set').onclick = () => {
  const one = opener, [address, count] = bytesChosen, shown = one.textContent, kept = [...one.childNodes];
  const at = address > 0xFFFF ? `[0${hex(address, 5)}h]` : `0:[0${hex(address, 4)}h]`;
  close_menu();
  edit_in_place(one, `${count === 2 ? 'WORD' : 'BYTE'} ${at}`, /^[0-9A-F]{2}$/.test(shown) ? shown : '',
    true, () => one.replaceChildren(...kept));
};
$('byte-menu').addEventListener('keydown', event => {
  const all = [$('byte-stop'), $('byte-who'), $('byte-set')];
  if (event.key === 'Escape' || event.key === 'Tab') { event.preventDefault(); close_menu(); }
  if (event.key === 'ArrowDown' || event.key === 'ArrowUp') {
    event.preventDefault();
    all[(all.indexOf(document.activeElement) + (event.key === 'ArrowDown' ? 1 : all.length - 1)) % all.length].focus();
  }
});
document.addEventListener('pointerdown', event => { if (!$('byte-menu').contains(event.target)) close_menu(false); });
/* In a list of bytes, so many in a row. */
export function with_menus(list, wide) {
  list.addEventListener('click', event => {
    const one = event.target.closest('.byte');
    if (one && event.target.tagName !== 'INPUT') open(one);
  });
  list.addEventListener('focus', () => { const one = list.querySelector('.byte'); if (one) one.focus(); });
  list.addEventListener('keydown', event => {
    const all = [...list.querySelectorAll('.byte')], at = all.indexOf(document.activeElement);
    if (at < 0 || event.target.tagName === 'INPUT') return;
    const to = {ArrowRight: at + 1, ArrowLeft: at - 1, ArrowDown: at + wide, ArrowUp: at - wide, Home: 0,
      End: all.length - 1}[event.key];
    if (event.key === 'Enter' || event.key === ' ') { event.preventDefault(); open(all[at]); }
    if (to === undefined) return;
    event.preventDefault();
    if (all[to]) all[to].focus();
  });
}
