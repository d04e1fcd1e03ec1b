// What the services (services/) left in their RAM, which is the upper 64 KB.
import {clauses, filled} from './sentences.mjs';
import {grouped, hex} from './session.mjs';

export const LEAST_RAM = 144;
export const MOST_RAM = 640;
export const SIGNED = 0xfe009;
export const SIGNATURE = 'services of Zebludor';
const SPAN = 0x10000, KEPT = 0xfc00, MARK = 0x5a53;
// The first key of typed text, how long a key is held, and from a key up to the next one down: the services begin
// first.
export const TYPING = [200_000, 20_000, 80_000];
const LISTED = 0x200, MOST_LISTED = 24, CALL = 10; // after the state: how many calls, and a call's bytes

// Where the services note that the program runs, or how it ended.
export const markOf = ramEnd => ramEnd - SPAN + KEPT + 2;

// What the services left where a board stands: the phase, how the program ended, and in words; which calls weren't
// served; how many keys were lost; and the disk's paragraph. Null where they haven't begun.
export function leftAt(board, ramEnd) {
  if (ramEnd < 1024 * LEAST_RAM || ramEnd > 1024 * MOST_RAM) return null;
  const base = ramEnd - SPAN + KEPT, state = board.dump(base, 0x30), phase = wordIn(state, 2), how = state[4];
  if (wordIn(state, 0) !== MARK) return null;
  const text = clauses.ends[hex(how, 2)] ?? clauses.ends.other, notes = wordIn(state, 10);
  const octets = notes ? board.dump(base + LISTED, MOST_LISTED * CALL) : [], ending = phase === 2 ? text : '';
  const listed = Array.from({length: octets.length / CALL}, (_, n) => callIn(octets, CALL * n)).filter(it => it.times);
  const calls = notes && !listed.length ? [{...callIn(state, 12), times: notes}] : listed;
  const told = filled(ending, {code: state[5], how});
  return {phase, how, ending: told, notes, calls, lost: wordIn(state, 20), disk: wordIn(state, 46)};
}
const wordIn = (octets, at) => octets[at] + 256 * octets[at + 1];
function callIn(octets, first) {
  const [ax, offset, segment, times] = [2, 4, 6, 8].map(at => wordIn(octets, first + at));
  return {number: octets[first], ax, offset, segment, times};
}

// What a person has to know of it besides, as sentences: of each call that wasn't served all places, which `placeOf`
// names, and what there is in its place.
export function remarksOf({calls, notes, lost}, placeOf) {
  const {functions, unserved} = clauses, found = [];
  const nameOf = ({number, ax}) => (number === 3 ? 'INT 3' : `INT ${hex(number, 2)}h function ${hex(ax >> 8, 2)}h`);
  const times = call => (call.times > 1 ? ` (${grouped(call.times)} times)` : '');
  for (const name of new Set(calls.map(nameOf))) {
    const them = calls.filter(call => nameOf(call) === name), [{number, ax}] = them;
    const kind = Object.keys(functions).find(it => number === 0x21 && functions[it].includes(ax >> 8));
    const places = them.map(call => placeOf(call.segment, (call.offset - 2) & 0xffff) + times(call)).join(' and ');
    found.push(`${name}, called ${places}, ${unserved[kind ?? (number === 3 ? 'INT 3' : 'other')]}`);
  }
  const more = notes - calls.reduce((sum, call) => sum + call.times, 0);
  if (calls.length && more > 0) found.push(filled(unserved.more, {count: grouped(more), listed: calls.length}));
  return lost ? [...found, filled(unserved.keys, {count: lost})] : found;
}
