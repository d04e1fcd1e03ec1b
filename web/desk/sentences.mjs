// Sentences about a run and the clauses in them: tables of sentences.json and clauses.json, which Python reads too.
import {grouped, hex} from './session.mjs';

let rows = {};
export const clauses = {};
export function noteSentences(them, more) {
  rows = Object.fromEntries(them.map(row => [row.name, row]));
  Object.assign(clauses, more);
}
export const rowOf = name => rows[name];

// A text with these values in their places; `{level:02X}` is a number in two hexadecimal digits. In a pattern texts
// stand for themselves, and patterns for what they match.
export function filled(text, values, isPattern = false) {
  return text.replace(/\{(\w+)(?::0?(\d*)(,?)X?)?\}/g, (whole, key, digits, comma) => {
    const value = values[key];
    if (comma) return grouped(value);
    if (whole.endsWith('X}')) return hex(value, Number(digits || 1));
    return isPattern ? (value.source ?? String(value).replace(/[.*+?^${}()|[\]\\]/g, '\\$&')) : String(value);
  });
}
// A row's sentence with these values.
export const said = (name, values) => filled(rows[name].says, values);
