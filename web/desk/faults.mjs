// Faults by their numbers: name, whose they are, and what they mean. faults.json is the table, which Python reads too.
import {Refused} from './session.mjs';

let kinds = {};
export function noteFaults(table) { kinds = table; }
export const kindOf = number => kinds[number];

// The first fault that a text tells, as {number, line}, if it tells one.
function faultIn(text) {
  for (const [, number, name, line] of text.matchAll(/^fault (\d+) (\w+)(?: line (\d+))?(?: clock \d+)?\s*$/gm))
    if (kinds[number]?.name === name) return {number: Number(number), line: line ? Number(line) : null};
  return null;
}

// What the fault means that a text tells, if it tells one.
export const kindIn = text => kinds[faultIn(text)?.number] ?? {};

// A refusal's sentence.
export function told(error) {
  const kind = error instanceof Refused && kinds[error.number];
  return kind ? `${kind.name}: ${kind.meaning}` : error.message;
}
