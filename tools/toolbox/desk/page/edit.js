/* A register or a byte changed in place, and the last change undone. */
import {$, made} from './asking.js';
import {acts, move, running, working} from './board.js';
import {later, look_on} from './timeline.js';
/* An element that is edited by a click. */
export function edited(element, opened) {
  element.title = 'click to change it';
  element.classList.add('edited');
  element.onclick = event => { if (event.target === element) opened(); };
}
/* Whether a field or a byte's menu is open: what has it isn't drawn anew meanwhile. */
export const is_edited = () => !$('byte-menu').hidden || document.querySelector('.byte input, .edited input') !== null;
/* A field stands in an element's place until Enter, which changes what it names, or Escape. */
export function edit_in_place(element, place, shown, isHex, redraw) {
  if (running || working) return;
  const end = () => { redraw(); later(look_on); };
  const field = made('input', {value: shown, className: 'mono', size: Math.max(shown.length, 4), onblur: end});
  field.setAttribute('aria-label', `new value of ${place}`);
  field.onkeydown = event => {
    event.stopPropagation();
    if (event.key === 'Escape') end();
    if (event.key !== 'Enter' || !field.value.trim()) return;
    const value = field.value.trim(), isPlain = isHex && /^[0-9A-Fa-f]+$/.test(value);
    field.onblur = null;
    end();
    acts(() => move('set', {text: `${place} = ${isPlain ? `0${value}h` : value}`}));
  };
  element.replaceChildren(field);
  field.focus();
  field.select();
}
$('undo').onclick = () => acts(() => move('undo'));
