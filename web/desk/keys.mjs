// Typed text as scan codes of the IBM PC's keyboard of 83 keys (IBM PC Technical Reference, "Keyboard"), US layout.
import {Sorry} from './session.mjs';

const UP = 0x80, SIGNS = new Map(), NAMED = {};
// Each key's name: its sign without shift, or its name.
export const NAMES = new Map();
// keys.json has the signs of the four rows, plain and with shift, from a code on, and keys by their names.
export function noteKeys({rows, named}) {
  const note = (signs, code, isShifted) => [...signs].forEach((sign, n) => SIGNS.set(sign, [code + n, isShifted]));
  for (const [code, plain, shifted] of rows) { note(plain, code, false); note(shifted, code, true); }
  SIGNS.set(' ', [0x39, false]).set('\n', [0x1c, false]).set('\t', [0x0f, false]);
  for (const [name, code] of Object.entries(Object.assign(NAMED, named))) NAMES.set(code, name);
  for (const [sign, [code, isShifted]] of SIGNS) if (!isShifted && sign > ' ') NAMES.set(code, sign);
}

// A typed character; if it is plain, without the shift that it needs.
function strokeOf(sign, isPlain) {
  if (!SIGNS.has(sign)) throw new Sorry(`no key types '${sign}'`);
  const [code, isShifted] = SIGNS.get(sign);
  return {codes: isShifted && !isPlain ? [NAMED.shift, code] : [code], pause: 0};
}

// What stands in braces: a key by name, keys held together (ctrl+c), or wait N.
function namedStroke(text) {
  const wait = /^wait (\d+)$/.exec(text);
  if (wait) return {codes: [], pause: Number(wait[1])};
  const codes = text.split('+').map(name => NAMED[name.toLowerCase()]
    ?? (name.length === 1 ? SIGNS.get(name)?.[0] : null));
  if (codes.every(Boolean)) return {codes, pause: 0};
  const known = Object.keys(NAMED).join(', ');
  throw new Sorry(`{${text}} is neither a key, nor keys joined by +, nor wait CLOCKS; the keys are ${known}`);
}

// A typed text; `{{` types a brace.
export function strokesOf(text, isPlain = false) {
  return (text.match(/\{\{|\{[^{}]*\}|\}\}|[\s\S]/gu) ?? []).map(part => {
    if (part === '{{' || part === '}}') return strokeOf(part[0], isPlain);
    if (part === '{' || part === '}')
      throw new Sorry(`a ${part} stands alone: write ${part}${part} for the sign, and {enter} for a key`);
    return part.startsWith('{') ? namedStroke(part.slice(1, -1)) : strokeOf(part, isPlain);
  });
}

// The codes with their clocks: a stroke's keys are held for `hold` clocks, `gap` lies between two strokes, and one
// clock in which a code reaches the keyboard lies between two codes of a stroke.
export function stamped(strokes, first, hold, gap) {
  const keys = [];
  let clock = first;
  for (const {codes, pause} of strokes) {
    clock += pause;
    if (!codes.length) continue;
    codes.forEach((code, place) => keys.push([clock + place, code]));
    clock += codes.length - 1 + hold;
    [...codes].reverse().forEach((code, place) => keys.push([clock + place, code + UP]));
    clock += codes.length - 1 + gap;
  }
  return keys;
}
