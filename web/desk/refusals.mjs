// Every refused line of a source. The program tells the first alone; so a copy is made in which that line is blank, or
// has only what others need of it, and asked about again, until none is refused.
import {kindOf, told} from './faults.mjs';
import {hintOf, isStatement, isWord} from './hints.mjs';
import {codeOf, labelIn, ownLines, rowsOfSource} from './listing.mjs';
import {Refused, patience} from './session.mjs';

const MOST = 20, NO_SEGMENT = 11, TWICE = 6, SHORT_OF_A_LINE = [8, 9, 10, 12];
const DEFINING = /^(?:EQU|D[BWDQT]|RES[BWDQ]|PROC|LABEL|MACRO|SEGMENT|STRUC|TIMES)$/i;
const OPENING = /^\s*(\w+\s*:\s*)?SEGMENT\b/i;

// What may stand for a refused line, so that the lines after it are judged as they would be: its label, or nothing.
function standIns(line) {
  const data = /^\s*([A-Za-z_]\w*)\s+(D[BWD]|PROC|LABEL)\b/i.exec(codeOf(line)), name = labelIn(line) ?? data?.[1];
  return name ? [`${name}:`, ''] : [''];
}

// The names that a line is likely meant to define, in upper case.
function namesOf(line) {
  const code = codeOf(line), plain = /^\s*([A-Za-z_]\w*)\s*(?:=|\s(\w+))/.exec(code);
  let name = /^\s*(?:%\s*(?:define|assign)|SEGMENT)\s+([A-Za-z_]\w*)/i.exec(code)?.[1];
  const first = plain?.[1].toUpperCase(), isDefining = plain && (!plain[2] || DEFINING.test(plain[2]));
  if (plain && (isDefining || isStatement(plain[2].toUpperCase())) && !isStatement(first) && !isWord(first))
    name = name ?? plain[1];
  return [labelIn(line), name].filter(Boolean).map(it => it.toUpperCase());
}
const uses = (line, names) =>
  (codeOf(line).replace(/'[^']*'/g, '').match(/[A-Za-z_]\w*/g) ?? []).some(word => names.has(word.toUpperCase()));

class Copy {
  constructor(library, text) { Object.assign(this, {library, lines: text.split('\n'), lost: new Set()}); }

  // The copy's first fault, or null.
  fault() {
    try { rowsOfSource(this.library, this.lines.join('\n')); return null; }
    catch (error) { if (!(error instanceof Refused)) throw error; return error; }
  }

  lose(line) { for (const name of namesOf(line)) this.lost.add(name); }

  // Puts something harmless for the fault's line, and returns the next fault.
  takeOut(fault) {
    const at = fault.line - 1, line = this.lines[at];
    let found = fault;
    for (const standIn of standIns(line)) {
      if (standIn === line.trim()) continue;
      this.lines[at] = standIn;
      found = this.fault();
      if (!found || found.line !== fault.line) break;
    }
    if (!this.lines[at]) this.lose(line);
    return found;
  }

  // Blanks all lines from one that lacks a segment to the next that opens one. Their names are lost.
  takeOutToTheNextSegment(fault) {
    for (let at = fault.line - 1; at < this.lines.length; at++) {
      if (at > fault.line - 1 && OPENING.test(this.lines[at])) break;
      this.lose(this.lines[at]);
      this.lines[at] = '';
    }
    return this.fault();
  }
}

// The refused lines of a source: each fault, and whether it was judged without the earlier ones.
export function* refusedIn(library, text) {
  const copy = new Copy(library, text);
  let isOpened = true, isAfter = false;
  for (let fault = copy.fault(); fault; ) {
    if (!fault.line) { yield [fault, isAfter]; return; }
    const line = copy.lines[fault.line - 1], isOfSegment = fault.number === NO_SEGMENT;
    if (!uses(line, copy.lost) && !(isOfSegment && !isOpened))
      yield [fault, isAfter && SHORT_OF_A_LINE.includes(fault.number)];
    isAfter = true;
    isOpened = isOfSegment || (isOpened && !OPENING.test(line));
    fault = isOfSegment ? copy.takeOutToTheNextSegment(fault) : copy.takeOut(fault);
  }
}

// The earlier line that defines what line `number` defines again.
function firstDefinition(lines, number) {
  const name = /^\s*(?:SEGMENT\s+)?(\w+)/i.exec(lines[number - 1])?.[1];
  if (!name) return null;
  const word = new RegExp(`^\\s*(SEGMENT\\s+)?${name}\\s*(:|\\sEQU\\b|\\sAT\\b)`, 'i');
  return lines.slice(0, number - 1).findIndex(line => word.test(line)) + 1;
}

// A hint by the line's look, else what the fault means.
export function whatToDo(lines, fault) {
  const line = fault.line ? lines[fault.line - 1] : undefined;
  const advice = (line !== undefined && hintOf(line, fault.number, lines)) || kindOf(fault.number).meaning;
  const first = line !== undefined && fault.number === TWICE ? firstDefinition(lines, fault.line) : 0;
  return (first ? `${advice}, first in line ${first}` : advice).split(/\s+/).join(' ');
}

// The refused lines, each with what to do: the first twenty, and with the fault's name, if they aren't told as they are
// typed.
export function messagesOf(library, source, isTyped = false) {
  const lines = ownLines(source), found = [], until = Date.now() + 1000 * patience.seconds;
  for (const [fault, isAfter] of refusedIn(library, source)) {
    const after = isAfter ? ' (where the refused lines above are blank)' : '', name = isTyped ? ''
      : `${kindOf(fault.number).name}: `;
    found.push({line: fault.line ?? 1, text: `${name}${whatToDo(lines, fault)}${after}`});
    if ((found.length === MOST && !isTyped) || Date.now() > until) break;
  }
  return found;
}

// What the page is told of a refused source or run file.
export function refusalsOf(library, error, {source, isHex}) {
  const kind = error instanceof Refused ? kindOf(error.number) : null;
  if (kind?.of === 'source' && !isHex) return messagesOf(library, source);
  return [{line: error.line ?? null, text: told(error), of: kind?.of ?? ''}];
}
