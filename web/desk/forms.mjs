// What instructions do, as `forms` of pcprobe tells it of their bytes. What isn't known of bytes yet is asked of a
// session whose ROM has them, which ends with its answer: so `learn` asks for many at once.
import {record} from './guest.mjs';
import {Session, far, hexOf} from './session.mjs';

export const CALLING = ['call', 'enter']; // what CALL and INT do; INTO and a division do `may-enter`
const PLAIN = ['next', 'branch', 'halt', 'repeat', 'nothing'];
const GENERAL = ['AX', 'CX', 'DX', 'BX', 'BP', 'SI', 'DI'];
export const PREFIXES = new Set([0x26, 0x2e, 0x36, 0x3e, 0xf0, 0xf2, 0xf3]);
const ROM = 0xf000, PARAGRAPHS = 1 << 12; // its first paragraph, and how many it has: each for one instruction's bytes
const RUN = {version: 1, ram: 64, sw1: 0, sw2: 0, budget: 1, keys: []};
const LINE = /^\S+ (\w+) does (\S+) to (.+) sp (\S+) sets (\S+) alters \S+ mem \S+ (\S+) .* clocks (\S+) (\S+)$/;
const FAR = [0x9a, 0xea]; // CALL and JMP that have a far pointer in their bytes
const LONGEST = 13, MOST_KNOWN = 1 << 16;
const known = new Map();

// A word as a number from -32,768 to 32,767.
export const signed = value => ((((value + 0x8000) % 0x10000) + 0x10000) % 0x10000) - 0x8000;

// What a line of `forms` tells of the instruction that these bytes begin with; one that has more bytes isn't theirs.
// `sp` is null if its bytes don't tell by how much it moves SP; of one that may enter an interrupt it is what is so if
// it does, and it `pushes` if it writes to where it moves SP down. One that `isFollowed` has to do with the stack, or
// with where a routine ends. A jump or call that says where leads `by` so many bytes from where it begins, or `to` a
// place; and one that enters an interrupt, or may, to that `type`'s handler.
function formIn(line, octets) {
  const [, shown, does, to, moves, sets, writes, ...clocks] = LINE.exec(line), names = sets.split(',');
  const own = octets.subarray(0, shown.length / 2), code = own.find(it => !PREFIXES.has(it));
  if (does === 'nothing' || 2 * octets.length < shown.length)
    return {octets: octets.subarray(0, 0), does: 'nothing', type: null, by: null, to: null, sp: 0, pushes: false};
  const sp = moves === 'loads' ? null : parseInt(moves, 10), loadsStack = sp === null || names.includes('SS');
  const isPlain = PLAIN.includes(does) || (does === 'jump' && to !== 'register');
  const popsRegister = sp === 2 && names.some(name => GENERAL.includes(name));
  const isFollowed = !isPlain || loadsStack || sp !== 0;
  const leads = to.includes(':') && ['jump', 'branch', 'call'].includes(does), isFar = leads && FAR.includes(code);
  const by = leads && !isFar ? signed(parseInt(to.slice(5), 16)) : null, [a, b, c, d] = own.slice(-4);
  const type = to.startsWith('vector') ? parseInt(to.slice(7), 16) : null, pushes = parseInt(writes, 10) > 0 && sp < 0;
  const place = isFar ? [c + 256 * d, a + 256 * b] : null, stack = {sp, loadsStack, popsRegister, isFollowed, pushes};
  return {octets: own, does, type, by, to: place, clocks, ...stack};
}

function ask(library, some) {
  const records = some.map(([, octets], at) => record(16 * at, 0, [...octets.subarray(0, LONGEST)]));
  const text = [record(0, 2, [ROM >> 8, 0]), ...records, record(0, 1, []), ''].join('\n');
  const session = new Session(library, {text, isHex: true, run: RUN});
  try {
    some.forEach(([digits, octets], at) =>
      known.set(digits, formIn(session.many(`forms ${far(ROM + at, 0)} 1`)[0], octets)));
  } finally {
    session.close();
  }
}

// Asks for what isn't known of these. What others have asked for is forgotten, once that is very much.
export function learn(library, them) {
  if (known.size > MOST_KNOWN) known.clear();
  const fresh = [...new Map(them.map(octets => [hexOf(octets), octets]))].filter(([digits]) => !known.has(digits));
  for (let at = 0; at < fresh.length; at += PARAGRAPHS) ask(library, fresh.slice(at, at + PARAGRAPHS));
}

// The form of the instruction that these bytes begin with.
export function formOf(library, octets) { learn(library, [octets]); return known.get(hexOf(octets)); }

// Whether what loads SP takes it from BP, as the end of a routine with a frame does: MOV SP,BP, or LEA SP with BP.
export function isByFrame(octets) {
  const [first, form] = octets.subarray(octets.findIndex(octet => !PREFIXES.has(octet)));
  if ((first === 0x8b && form === 0xe5) || (first === 0x89 && form === 0xec)) return true;
  return first === 0x8d && [2, 3, 6].includes(form & 7) && form >> 6 > ((form & 7) === 6 ? 0 : -1);
}
