/* The source's own data: each label of DB, DW and DD with its values, and numbers in any base. */
import {$, ask, hex, made, made_of, number} from './asking.js';
import {board, followed} from './board.js';
import {opens_menu, with_menus} from './byte.js';
import {is_edited} from './edit.js';
import {to_line} from './editor.js';
import {redraw_registers} from './processor.js';
export let lastValues = {}, base = 0;
const unfolded = new Set(), WIDTHS = {DB: 1, DW: 2, DD: 4};
export function forget_data() { lastValues = {}; }
const BASES = [
  ['hexadecimal', (value, bits) => hex(value, bits / 4)],
  ['decimal', value => String(value)],
  ['signed', (value, bits) => String(signed(value, bits))],
  ['binary', (value, bits) => value.toString(2).padStart(bits, '0')],
  ['text', (value, bits) => signs_of(value, bits)],
];
export function signed(value, bits) { return value >= 2 ** (bits - 1) ? value - 2 ** bits : value; }
/* The signs of a number's bytes, the low one first, as memory has them. */
function signs_of(value, bits) {
  let told = '';
  for (let at = 0; at < bits; at += 8) {
    const octet = Math.floor(value / 2 ** at) % 256;
    told += octet >= 32 && octet < 127 ? String.fromCharCode(octet) : '.';
  }
  return told;
}
/* A register in the base that is chosen. */
export function in_base(value) { return BASES[base][1](value, 16); }
$('base').onclick = () => {
  base = (base + 1) % BASES.length;
  $('base').textContent = BASES[base][0];
  redraw_registers();
};
function numbers_in(octets, wide) {
  const found = [];
  for (let at = 0; at + wide <= octets.length; at += wide)
    found.push(octets.slice(at, at + wide).reduceRight((sum, it) => sum * 256 + it, 0));
  return found;
}
function row_of(cells, isChanged, address, wide, index = null) {
  const all = [...(index === null ? [] : [String(index)]), ...cells].map(textContent => made('td', {textContent}));
  const row = made_of('tr', {className: isChanged ? 'changed' : ''}, ...all);
  opens_menu(row.children[index === null ? 0 : 1], address, wide);
  return row;
}
function cells_of(value, wide) {
  return [`${hex(value, 2 * wide)}h`, String(value), String(signed(value, 8 * wide)), signs_of(value, 8 * wide)];
}
function drawn_label({name, line, kind, place, length, bytes}) {
  const octets = (bytes.match(/../g) || []).map(it => parseInt(it, 16)), wide = WIDTHS[kind],
    values = numbers_in(octets, wide), last = lastValues[`${name} ${place}`] || values;
  lastValues[`${name} ${place}`] = values;
  const title = line ? `line ${line}, ${place}` : place, isArray = values.length > 1;
  const onclick = event => { event.preventDefault(); to_line(line); };
  const head = made('button', {textContent: name, title, onclick}), table = rows => made_of('table', {}, ...rows);
  const changed = values.map((it, at) => last[at] !== it), [segment, offset] =
    place.split(':').map(it => parseInt(it, 16)), first = (16 * segment + offset) % 2 ** 20;
  const rows = isArray ? values.map((it, at) => row_of(cells_of(it, wide), changed[at], first + at * wide, wide, at))
    : values.map(it => row_of(cells_of(it, wide), changed[0], first, wide));
  if (!isArray) return made_of('div', {className: 'datum'}, head, ` ${kind} `, table(rows));
  const shown = values.slice(0, 8).map(it => hex(it, 2 * wide)).join(' ') + (values.length > 8 ? ' ..' : '');
  const signs = wide === 1 ? `  ${values.slice(0, 40).map(it => signs_of(it, 8)).join('')}` : '';
  const brief = made('span', {textContent: shown + signs, className: changed.includes(true) ? 'changed' : ''});
  const told = made_of('summary', {}, head, ` ${kind}, ${length / wide}: `, brief);
  const all = made_of('details', {className: 'datum', open: unfolded.has(name)}, told, table(rows));
  all.ontoggle = () => { if (all.open) unfolded.add(name); else unfolded.delete(name); };
  if (length > octets.length) all.append(`${number(length - octets.length)} bytes more: see Memory, from ${place}`);
  return all;
}
with_menus($('data-list'), 1);
export async function draw_data() {
  if (!board) return;
  const answer = await ask('data', {board}).then(followed);
  if (answer.sorry) { $('data-list').textContent = answer.sorry; return; }
  if (!answer.data || is_edited()) return;
  $('data-list').replaceChildren(...answer.data.map(drawn_label));
  if (!answer.data.length) $('data-list').textContent = 'No label of the source stands at DB, DW or DD.';
}
