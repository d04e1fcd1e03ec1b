/* What all parts of the page share: its elements, words for numbers, and how the desk is asked. */
import {answer_of} from './served.js';
export const HERTZ = 14318180 / 3, LAST = 2 ** 40;
export const $ = id => document.getElementById(id);
/* A new element with these properties. */
export const made = (name, properties = {}) => Object.assign(document.createElement(name), properties);
/* A new one, in which these stand. */
export const made_of = (name, properties, ...inside) => {
  const one = made(name, properties);
  one.append(...inside);
  return one;
};
export const number = n => n.toLocaleString('en-US');
export const counted = (n, one, more = `${one}s`) => `${number(n)} ${n === 1 ? one : more}`;
export function hex(value, digits) { return value.toString(16).toUpperCase().padStart(digits, '0'); }
export function differ(before, now) { return Object.keys(now).some(name => before[name] !== now[name]); }
/* How long a real board takes for so many clocks. */
export function time_of(clocks) {
  const seconds = clocks / HERTZ, isLong = seconds >= 1, shown = {minimumFractionDigits: 3, maximumFractionDigits: 3};
  return `${(isLong ? seconds : seconds * 1000).toLocaleString('en-US', shown)} ${isLong ? 's' : 'ms'}`;
}
/* Asking. A page asks one thing at a time, and follows what takes long. */
export const ask = (word, fields = {}) => answer_of({do: word, ...fields});
/* A run file's text, the fields in the order of docs/formats.md. */
export function run_text(run) {
  const order = ['version', 'ram', 'sw1', 'sw2', 'budget', 'keys', 'timer', 'clocks'];
  const names = [...order.filter(it => it in run), ...Object.keys(run).filter(it => !order.includes(it))];
  return `${JSON.stringify(Object.fromEntries(names.map(it => [it, run[it]])))}\n`;
}
export function say(text, isGood = false) { $('said').textContent = text; $('said').className = isGood ? 'good' : ''; }
export function yes(text) {
  return new Promise(answer => {
    const dialog = $('asked');
    $('asked-text').textContent = text;
    dialog.returnValue = 'no';
    dialog.onclose = () => answer(dialog.returnValue === 'yes');
    dialog.showModal();
  });
}
