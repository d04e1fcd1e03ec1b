// Changes of registers and memory as a person says them: `AX = 5`, `[tick] = 90h`, `WORD [count] = 1, 2, 3`.
import {addressOf, farOf} from './listing.mjs';
import {checkBracketed, checkSegment, isAddress, saidOf, valueNumber} from './places.mjs';
import {MEMORY, Sorry, hex, hexOf, physical} from './session.mjs';
import {valueSize} from './watches.mjs';

const TOKEN = /[ \t\n\r\f\v]*(\w+|'[^']'|&&|\|\||[=!<>]=|<>|[-+*:[\]()=<>!&])/y;
export const FLAGS = {OF: 11, DF: 10, IF: 9, TF: 8, SF: 7, ZF: 6, AF: 4, PF: 2, CF: 0};
const HALVES = ['AL', 'AH', 'BL', 'BH', 'CL', 'CH', 'DL', 'DH'];
const PLACE = /^(?:(BYTE|WORD)\s*)?\[([^[\]]*)\]$/i, COMMA = /,(?=(?:[^']*'[^']*')*[^']*$)/;
const COMPARISONS = {
  '=': (a, b) => a === b,
  '==': (a, b) => a === b,
  '!=': (a, b) => a !== b,
  '<>': (a, b) => a !== b,
  '<': (a, b) => a < b,
  '<=': (a, b) => a <= b,
  '>': (a, b) => a > b,
  '>=': (a, b) => a >= b,
};
const SIGNS = {'+': (a, b) => a + b, '-': (a, b) => a - b, '*': (a, b) => a * b, '&': (a, b) => a & b};
const withSign = (a, b, sign) => value(SIGNS[sign](a.number, b.number), Math.max(a.size, b.size));
const truth = is => ({number: Number(is), size: 1, address: null});
const value = (number, size = 2, address = null) => ({number, size, address});
const modulo = (number, most) => ((number % most) + most) % most;

// An expression: sums and products of registers, flags, labels, numbers, and memory as BYTE [..], WORD [..], ES:[..];
// comparisons of them without signs; and these joined by AND, OR and NOT.
class Expression {
  constructor(board, listing, text) {
    Object.assign(this, {board, listing, text, registers: board.registers(), words: []});
    for (let at = 0; text.slice(at).trim(); at = TOKEN.lastIndex) {
      TOKEN.lastIndex = at;
      const found = TOKEN.exec(text);
      if (!found) throw new Sorry(`${text.slice(at).trim().slice(0, 40)} is no part of an expression`);
      this.words.push(found[1]);
    }
    if (!this.words.length || this.words.length > 200) throw new Sorry('an expression has 1 to 200 words');
  }

  value() {
    const found = this.either();
    if (this.words.length) throw new Sorry(`${this.words[0]} is one word too many`);
    return found;
  }

  // Parts that some words join, from the left.
  joined(part, join, ...words) {
    let found = part();
    for (let sign = this.take(...words); sign; sign = this.take(...words)) found = join(found, part(), sign);
    return found;
  }

  either() { return this.joined(() => this.both(), (a, b) => truth(a.number || b.number), '||', 'OR'); }

  both() { return this.joined(() => this.comparison(), (a, b) => truth(Boolean(a.number && b.number)), '&&', 'AND'); }

  comparison() {
    if (this.take('!', 'NOT')) return truth(!this.comparison().number);
    const found = this.sum(), sign = this.take(...Object.keys(COMPARISONS));
    if (!sign) return found;
    const right = this.sum(), most = 256 ** Math.max(found.size, right.size);
    return truth(COMPARISONS[sign](modulo(found.number, most), modulo(right.number, most)));
  }

  // The next word, if it is one of these.
  take(...wanted) {
    return this.words.length && wanted.includes(this.words[0].toUpperCase()) ? this.words.shift() : '';
  }

  sum() { return this.joined(() => this.product(), withSign, '+', '-'); }

  product() { return this.joined(() => this.term(), withSign, '*', '&'); }

  term() {
    if (this.take('-')) return value(-this.term().number);
    if (this.take('(')) { const found = this.either(); this.close(')'); return found; }
    const size = {BYTE: 1, WORD: 2}[this.take('BYTE', 'WORD').toUpperCase()] ?? 0;
    if (this.words[0] === '[') return this.memory(null, size || 1);
    const word = this.words[0] ?? '', found = this.name();
    if (!size && this.words[0] !== ':') return found;
    checkSegment(word);
    return this.memory(found.number, size || 1);
  }

  close(sign) { if (!this.take(sign)) throw new Sorry(`${this.text}: a ${sign} is missing`); }

  // What stands in memory; without a segment in that of DS, or with BP in that of SS.
  memory(given, size) {
    if (given !== null) this.close(':');
    if (!this.take('[')) throw new Sorry(`${this.text}: memory is written BYTE [..] or WORD ES:[..]`);
    const end = this.words.findIndex(word => '[]'.includes(word)), count = end < 0 ? this.words.length : end;
    const inside = this.words.slice(0, count).join('');
    if (given === null && isAddress(inside) && !this.listing.labelOf(inside)) {
      this.words.splice(0, count);
      this.close(']');
      const address = addressOf(this.listing, saidOf(this.registers, inside));
      return this.read(size, n => (address + n) % MEMORY);
    }
    checkBracketed(this.registers, inside, given !== null);
    const isStack = this.words.some(word => word.toUpperCase() === 'BP'), offset = modulo(this.sum().number, 0x10000);
    this.close(']');
    const segment = given === null ? this.registers[isStack ? 'SS' : 'DS'] : modulo(given, 0x10000);
    return this.read(size, n => physical(segment, (offset + n) & 0xffff));
  }

  // The number that some bytes hold, the low one first.
  read(size, placeOf) {
    let number = 0;
    for (let n = 0; n < size; n++) number += this.board.dump(placeOf(n), 1)[0] << (8 * n);
    return value(number, size, placeOf(0));
  }

  // A register, flag, label or number.
  name() {
    const word = this.words.shift() ?? '', upper = word.toUpperCase();
    if (upper in this.registers) return value(this.registers[upper]);
    if (HALVES.includes(upper) || upper in FLAGS) return value(partOf(this.registers, upper), 1);
    if (upper === 'SEG' && this.words.length) return value(farOf(this.listing, this.words.shift())[0]);
    if (/^\d/.test(word)) return value(valueNumber(word), valueNumber(word) < 0x10000 ? 2 : 4);
    if (word.length === 3 && word[0] === "'") return value(word.charCodeAt(1), 1);
    const label = this.listing.labelOf(word), constant = this.listing.constants.get(word);
    if (!label && constant !== undefined) return value(constant, constant >= -0x8000 && constant < 0x10000 ? 2 : 4);
    if (!label) throw new Sorry(`${word || this.text} is no register, flag, label or number`);
    return value(label[1], 2, physical(...label));
  }
}

// A half of a register, or a flag.
function partOf(registers, name) {
  if (name in FLAGS) return (registers.FL >> FLAGS[name]) & 1;
  return (registers[`${name[0]}X`] >> (name[1] === 'H' ? 8 : 0)) & 0xff;
}

// A number of so many bytes as memory has it, with a sign or without.
function bytesOfNumber(number, size) {
  const most = 256 ** size;
  if (number < -most / 2 || number >= most) throw new Sorry(`${number} is no number of ${8 * size} bits`);
  return Array.from({length: size}, (_, n) => Math.floor(modulo(number, most) / 256 ** n) % 256);
}

async function setRegister(board, upper, number) {
  const registers = board.registers();
  if (HALVES.includes(upper)) {
    const whole = `${upper[0]}X`, shift = upper[1] === 'H' ? 8 : 0, [octet] = bytesOfNumber(number, 1);
    await board.setRegister(whole, (registers[whole] & ~(0xff << shift)) | (octet << shift));
  } else if (upper in FLAGS) {
    if (number !== 0 && number !== 1) throw new Sorry(`${upper} is a flag: 0 or 1`);
    await board.setRegister('FL', (registers.FL & ~(1 << FLAGS[upper])) | (number << FLAGS[upper]));
  } else {
    const [low, high] = bytesOfNumber(number, 2);
    await board.setRegister(upper, low + 256 * high);
  }
}

// A value as the dialect writes it, and in decimal.
function shown({number, size}) {
  const sign = size === 1 && number >= 32 && number < 127 ? ` '${String.fromCharCode(number)}'` : '';
  return `${hex(number, 2 * size + 1)}h (${number})${sign}`;
}

// What a change says is done; what stands there now, in words.
export async function assign(board, listing, text) {
  const at = text.indexOf('='), [left, right] = at < 0 ? [text, '']
    : [text.slice(0, at), text.slice(at + 1)].map(it => it.trim());
  if (!left || !right) throw new Sorry('use: AX = 5, or [PLACE] = 90h');
  const numbers = right.split(COMMA).map(part => new Expression(board, listing, part).value().number);
  const found = PLACE.exec(left), address = found ? addressOrNull(board, listing, found[2].trim()) : null;
  const size = {BYTE: 1, WORD: 2}[found?.[1]?.toUpperCase()];
  const target = address === null ? targetOf(board, listing, left)
    : {address, size: size ?? valueSize(listing, address)};
  if (!target.register) {
    const octets = Uint8Array.from(numbers.flatMap(number => bytesOfNumber(number, target.size)));
    await board.setBytes(target.address, octets);
    return `${hex(target.address, 5)}: ${hexOf(octets).replace(/..(?=.)/g, '$& ')}`;
  }
  if (numbers.length > 1) throw new Sorry(`${target.register} takes one value`);
  await setRegister(board, target.register, numbers[0]);
  return `${target.register} = ${shown(new Expression(board, listing, target.register).value())}`;
}

// What an expression names that can be set: a register, a half of one, a flag, or memory.
function targetOf(board, listing, text) {
  const upper = text.toUpperCase();
  if (upper in board.registers() || HALVES.includes(upper) || upper in FLAGS) return {register: upper};
  const found = new Expression(board, listing, text).value();
  if (found.address === null || !text.includes('['))
    throw new Sorry(`${text} is no register, and no place: AX = 5, or [PLACE] = 90h`);
  return {address: found.address, size: found.size};
}

// The address of a place in brackets, or null of what isn't one. What could be two is refused.
function addressOrNull(board, listing, text) {
  const registers = board.registers();
  if (!isAddress(text)) checkBracketed(registers, text, false);
  try { return addressOf(listing, saidOf(registers, text)); }
  catch (error) { if (error instanceof Sorry) return null; throw error; }
}
