// A program's own data: its labels of DB, DW and DD, how long they are, and what memory holds there.
import {codeOf, labelIn, ownName} from './listing.mjs';
import {MEMORY, far, hexOf, physical} from './session.mjs';

export const SIZES = {DB: 1, DW: 2, DD: 4};
const MOST_BYTES = 1024; // that are shown of a label
const SHOWN = 8; // bytes of a line that a listing has
const MOVES = /\b(?:ORG|SEGMENT|ENDS)\b/i; // what is after it doesn't stand after what is before it
const CONSTANT = /^\s*([A-Za-z_]\w*)\s+EQU\s+((?:'[^']*'|[^;'])*)/i;
const NAMED_SEGMENT = /^(?:\s*\w+\s*:)?\s*SEGMENT\s+(\w+)\s+AT\s+([^;]*)/i;

// DB, DW or DD of a line, with a label or without; of another line null.
export function kindIn(text) {
  const found = /^\s*(?:[A-Za-z_]\w*\s*:)?\s*(DB|DW|DD)\b/i.exec(codeOf(text));
  return found && found[1].toUpperCase();
}
const isEmpty = text => /^\s*(?:[A-Za-z_]\w*\s*:)?\s*$/.test(codeOf(text));

// The labels of data in the order of the source whose bytes stand one after the other. A label's data are its statement
// and those of its kind after it, up to the next label or another statement. The image is asked for where the listing
// doesn't tell an end, which has a line's first bytes, or if it is loaded those that stand there.
export function dataOf(listing, image, isLoaded) {
  const found = [], ends = new Ends(listing.rows.length ? listing.rows : listing.lines, image, isLoaded);
  let labelled = [];
  ends.lines.forEach((line, at) => {
    const name = labelIn(line.said), kind = kindIn(line.said), {address: place, number} = line;
    if (name) labelled.push(line.isMade ? ownName(name) : name);
    if (kind && place && labelled.length) {
      const first = physical(...place), length = ends.endOf(at, kind) - first;
      const isWhole = length > 0 && length % SIZES[kind] === 0;
      if (isWhole && place[1] + length <= 0x10000 && first + length <= MEMORY)
        for (const label of labelled) found.push({name: label, line: number, kind, place, length});
    }
    if (kind || !isEmpty(line.said)) labelled = [];
  });
  return found;
}

// Where the data of lines end.
class Ends {
  constructor(lines, image, isLoaded) {
    const starts = lines.filter(line => line.address).map(line => physical(...line.address));
    Object.assign(this, {lines, image, isLoaded, octets: null, starts: new Set(starts)});
  }

  // Where the data of a statement end that stands at a line, with those of its kind after it.
  endOf(at, kind) {
    const goesOn = ({said}) => !labelIn(said) && (kindIn(said) === kind || isEmpty(said));
    let last = at;
    for (let here = at + 1; here < this.lines.length && goesOn(this.lines[here]); here++)
      if (this.lines[here].address) last = here;
    return this.endOfLine(last);
  }

  endOfLine(at) {
    const {address, shown} = this.lines[at], begin = physical(...address);
    if (!this.isLoaded && shown.length < SHOWN) return begin + shown.length;
    const next = this.lines.slice(at + 1).find(line => line.address || MOVES.test(codeOf(line.said)));
    if (next && !MOVES.test(codeOf(next.said))) return physical(...next.address);
    this.octets ??= this.image();
    let end = begin;
    while (this.octets.has(end) && (end === begin || !this.starts.has(end))) end++;
    return end;
  }
}

// EQU's names with their values, as far as numbers and earlier names tell them.
export function constantsOf(lines) {
  const known = new Map(), found = new Map();
  for (const {text} of lines) {
    const equal = CONSTANT.exec(text), named = equal ?? NAMED_SEGMENT.exec(text);
    const number = named ? sumOf(named[2], known) : null;
    if (number === null) continue;
    known.set(named[1], number);
    if (equal) found.set(named[1], number);
  }
  return found;
}

// What terms joined by + and - come to; null if one isn't known.
export function sumOf(text, known) {
  let [sum, sign, isTerm] = [0, 1, false];
  for (const [, mark, word] of text.matchAll(/\s*(?:([-+])|('[^']{1,4}'|[^-+\s]+))/g)) {
    const number = word === undefined ? 0 : (known.get(word) ?? numberIn(word));
    if (number === null || (word !== undefined && isTerm)) return null;
    sum += sign * number;
    sign = word !== undefined ? 1 : mark === '-' ? -sign : sign;
    isTerm = word !== undefined;
  }
  return isTerm ? sum : null;
}
function numberIn(word) {
  if (word[0] === "'") return [...word.slice(1, -1)].reduce((sum, sign, n) => sum + sign.charCodeAt(0) * 256 ** n, 0);
  if (/^[0-9][0-9A-F]*H$/i.test(word)) return parseInt(word, 16);
  if (/^[01]+B$/i.test(word)) return parseInt(word, 2);
  return /^[0-9]+$/.test(word) ? Number(word) : null;
}

// The labels with what memory holds there.
export function valuesOf(data, dump) {
  return data.map(({name, line, kind, place, length}) => {
    const bytes = hexOf(dump(physical(...place), Math.min(length, MOST_BYTES))).toLowerCase();
    return {name, line, kind, place: far(...place), length, bytes};
  });
}
