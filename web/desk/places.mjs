// Numbers and places as a person says them in an expression. What could be read two ways isn't taken, and both are
// told.
import {numberOf} from './listing.mjs';
import {Sorry, hex} from './session.mjs';

// A number as a source writes it in hexadecimal.
export function written(number) { const digits = hex(number); return `${/^\d/.test(digits) ? '' : '0'}${digits}h`; }
const isDecimal = word => /^[0-9]+$/.test(word);
const isTwo = word => isDecimal(word) && Number(word) > 9;
const refused = (what, one, other) => new Sorry(`${what} is read two ways: ${one}, ${other}; write one of these`);
const twoWays = (word, decimal) =>
  refused(word, `in decimal it is ${decimal}`, `in hexadecimal ${written(parseInt(word, 16))}`);

// A number where a source could stand: decimal, unless it says its base as the dialect or C does.
export function valueNumber(word) {
  if (/^0x[0-9A-F]+$/i.test(word)) return parseInt(word.slice(2), 16);
  if (/^[0-9][0-9A-F]*H$/i.test(word)) return parseInt(word, 16);
  if (/^[01]+B$/i.test(word)) return parseInt(word, 2);
  if (!isDecimal(word)) {
    const isHex = /^[0-9A-F]+$/i.test(word), some = '; 40, 28h and 0x28 are some';
    throw new Sorry(`${word} is no number${isHex ? `: in hexadecimal it is ${written(parseInt(word, 16))}` : some}`);
  }
  if (word[0] === '0' && Number(word) !== parseInt(word, 16)) throw twoWays(word, Number(word));
  return Number(word);
}

// Whether what stands in brackets is an address as in commands, which no operand of a source is: SEGMENT:OFFSET, five
// hexadecimal digits with a letter among them, or a number above FFFFh that says its base.
export function isAddress(text) {
  if (text.includes(':')) return true;
  const plain = text.replace(/^0x|h$/gi, ''), isBased = plain !== text && /^[0-9]/.test(text);
  if (!/^[0-9A-F]{1,6}$/i.test(plain)) return false;
  return isBased ? parseInt(plain, 16) > 0xffff : text.length === 5 && !isDecimal(text);
}

// Refuses what stands in brackets, after a segment or without one, if as an operand of the dialect it is one place, and
// as an address of a command another.
export function checkBracketed(registers, text, hasSegment) {
  const words = text.match(/\w+/g) ?? [], plain = text.trim();
  if (text.includes(':') || words.some(word => word.toUpperCase() in registers)) return;
  const word = words.find(isTwo);
  if (!hasSegment && words.length === 1 && /^(0x)?[0-9]\w*$/.test(plain)) {
    if (isAddress(plain)) return;
    const operand = written(word ? Number(word) : valueNumber(words[0])), address = numberOf(words[0]);
    const segment = address > 0xffff ? written((address >> 4) & 0xf000) : '0';
    const place = `${segment}:[${written(address & 0xffff)}]`;
    throw refused(`[${plain}]`, `in a source it is DS:[${operand}]`, `as an address ${place}`);
  }
  if (word) throw twoWays(word, written(Number(word)));
}

// Refuses a segment's number that says no base: a place has it in hexadecimal.
export function checkSegment(word) { if (isTwo(word)) throw twoWays(word, written(Number(word))); }

// A place in which registers stand for their values, as ES:DI.
export function saidOf(registers, place) {
  const parts = place.split(':'), isRegister = name => name.toUpperCase() in registers;
  if (parts.length !== 2 || !parts.some(isRegister)) return place;
  return parts.map(name => (isRegister(name) ? hex(registers[name.toUpperCase()]) : name)).join(':');
}
