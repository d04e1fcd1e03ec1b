// What a line's IN or OUT reaches, and what a byte that is written there says: by docs/machine.md and docs/chips.md.
import {constantsOf, sumOf} from './data.mjs';
import {codeOf, labelIn} from './listing.mjs';
import {hex} from './session.mjs';

const HALVES = {AX: ['AL', 'AH'], DX: ['DL', 'DH']}, MOST_LINES = 200;
const COMMA = /,(?=(?:[^']*'[^']*')*[^']*$)/; // in no quotes
const LEAVING = 'CALL INT INT3 INTO RET RETF IRET JMP HLT'.split(' ');
const KEEPING = 'OUT CMP TEST PUSH NOP CLI STI CLD STD CLC STC CMC'.split(' ');
const IMPLYING = 'CBW CWD AAA AAS AAM AAD DAA DAS LAHF XLAT LODSB LODSW MUL IMUL DIV IDIV POPF'.split(' ');

// The name of a word at 21h: by the words that were written before, each with its port, the next of a sequence, or the
// mask.
function nameAfter(before) {
  const first = before.findLastIndex(([port, word]) => port === 0x20 && word & 0x10), word = before[first]?.[1];
  const sequence = first < 0 ? [] : ['ICW2', ...(word & 2 ? [] : ['ICW3']), ...(word & 1 ? ['ICW4'] : [])];
  return sequence[before.slice(first).filter(([port]) => port === 0x21).length] ?? 'OCW1';
}

// A text of port_words.json for a byte: `{4.2}` is the number in two bits from bit 4 on, `{4.2?a|b|c|d}` what is so by
// it, `{&F8}` and `{|07}` what these bits make of it.
function saidBy(text, octet, modes) {
  const levels = [0, 1, 2, 3, 4, 5, 6, 7].filter(level => (octet >> level) & 1).map(level => `IR${level}`);
  const bits = /\{(?:(\d)\.(\d)(?:\?([^}]*))?|([&|])(\w\w))\}/g;
  return text.replace('{levels}', levels.join(' ') || 'none').replace(bits, (_, first, count, choices, sign, mask) => {
    const number = (octet >> first) & (2 ** count - 1), other = parseInt(mask, 16);
    if (sign) return hex(sign === '&' ? octet & other : octet | other, 2);
    return choices === '@modes' ? modes[number & 2 ? number & 3 : number] : (choices?.split('|')[number] ?? number);
  });
}

// What a byte says that is written to a port, or nothing.
export function writtenTo(port, octet, before, {modes, port_words: words}) {
  const isSo = ([mask, is]) => (octet & parseInt(mask, 16)) === parseInt(is, 16);
  const [, , head, ...parts] = words[port === 0x21 ? nameAfter(before) : hex(port)]?.find(isSo) ?? [0, 0, ''];
  const told = parts.map(part => saidBy(part, octet, modes)).filter(Boolean).join(', ');
  return saidBy(head, octet, modes) + (parts.length ? told || 'nothing' : '');
}

// What registers hold before a line, as far as the lines above it, with no label or jump between, put a constant there.
export class Straight {
  // Of a text's lines, with the dialect's words by their kinds.
  constructor(lines, words) {
    Object.assign(this, {lines, words});
    const named = constantsOf(lines.map(text => ({text})));
    this.constants = new Map([...named].map(([name, value]) => [name.toUpperCase(), value]));
  }

  // A line's instruction in upper case: its name and its operands; null of a line that has none, and no name of a
  // directive's.
  statement(at) {
    const code = codeOf(this.lines[at]).replace(/'[^']*'|[^']+/g, it => (it[0] === "'" ? it : it.toUpperCase()));
    const parts = code.replace(/^\s*[A-Z_]\w*\s*:/, '').trim().split(/\s+/);
    const is = kind => this.words[kind].has(parts[0]);
    while (is('prefix')) parts.shift();
    if (!parts[0]) return null;
    const rest = parts.slice(1).join(' ');
    return {name: is('mnemonic') ? parts[0] : '', operands: rest ? rest.split(COMMA).map(it => it.trim()) : []};
  }

  // The lines with a statement above a line, from the nearest one up, to a label or to what goes elsewhere.
  *above(line) {
    for (let at = line; at > Math.max(line - MOST_LINES, 0); at--) {
      if (labelIn(this.lines[at])) return;
      const one = this.statement(at - 1);
      if (one && (!one.name || LEAVING.includes(one.name))) return;
      if (one) yield at - 1;
    }
  }

  // The constant that a register holds before a line, or null if that isn't known.
  held(line, register) {
    const touches = one => one === register || HALVES[one]?.includes(register) || HALVES[register]?.includes(one);
    for (const at of this.above(line)) {
      const {name, operands} = this.statement(at), [first, second] = operands;
      if (KEEPING.includes(name) || (!operands.length && !IMPLYING.includes(name))) continue;
      if (IMPLYING.includes(name) || (name === 'XCHG' && touches(operands.at(-1)))) return null;
      if (!touches(first)) continue;
      const value = name === 'MOV' && operands.length === 2 ? sumOf(second, this.constants) : null;
      if (value === null || (first !== register && !HALVES[first]?.includes(register))) return null;
      const own = first !== register && register[1] === 'H' ? value >> 8 : value;
      return own & (/[LH]$/.test(register) ? 0xff : 0xffff);
    }
    return null;
  }

  // The port that a line's IN or OUT names, in its number or in DX; or null.
  portOf(line) {
    const {name, operands} = this.statement(line) ?? {name: '', operands: []};
    if (!['IN', 'OUT'].includes(name) || operands.length !== 2) return null;
    const operand = operands[name === 'OUT' ? 0 : 1];
    return operand === 'DX' ? this.held(line, 'DX') : sumOf(operand, this.constants);
  }

  // The ports and bytes that a line's OUT writes, if both are known: a word is two.
  bytesOut(line) {
    const one = this.statement(line), port = one?.name === 'OUT' ? this.portOf(line) : null;
    const register = port !== null && ['AL', 'AX'].find(it => it === one.operands[1]);
    const value = register ? this.held(line, register) : null;
    if (value === null) return [];
    return register === 'AL' ? [[port, value]] : [[port, value & 0xff], [(port + 1) & 0xffff, value >> 8]];
  }

  // Those that the lines above write, in their order, as far as they are known.
  bytesBefore(line) { return [...this.above(line)].reverse().flatMap(at => this.bytesOut(at)); }
}
