// Stops on bytes that change, and what one has seen.
import {MEMORY, Sorry, hex, physical} from './session.mjs';
import {kindIn, SIZES} from './data.mjs';
import {lineText} from './listing.mjs';

const MOST_WATCHED = 1 << 16;

// The stop at which one of so many bytes differs from the clock before.
export function watchOf(address, length = 1) {
  if (length < 1 || length > MOST_WATCHED || address + length > MEMORY)
    throw new Sorry(`${length} bytes from ${hex(address, 5)} on: 1 to ${MOST_WATCHED} can be watched, up to FFFFF`);
  return `changes ${hex(address)} ${length}`;
}

// The bytes that a stop watches, [first, how many]; null of another stop.
export function watchedBy(stop) {
  const found = /^changes (\w+)(?: (\d+))?$/.exec(stop);
  return found && [parseInt(found[1], 16), Number(found[2] ?? 1)];
}

// How many bytes a value has that begins at an address: as its variable's or its line's DB, DW or DD says, else one.
export function valueSize(listing, address) {
  const datum = listing.datumAt(address), line = listing.at.get(address);
  return SIZES[datum ? datum.kind : line && kindIn(line.said)] ?? 1;
}

// How many bytes are meant by a place: all of a variable's; else those of the value that begins there, or one.
export function bytesAt(listing, place, address) {
  const named = listing.data.find(({name}) => name.toLowerCase() === place.toLowerCase()) ?? listing.datumAt(address);
  return named ? named.length : valueSize(listing, address);
}

// The bytes that a stop watches and that were changed in the clock that led to the present one, rising.
export function changedAt(board, stop) {
  const places = watchedBy(stop);
  if (!places) return [];
  const [first, count] = places, range = `${hex(first)}-${hex(first + count - 1)}`, values = new Map();
  for (const line of board.happened(`writes=${range}`)) {
    const [, , at, octet] = line.split(' ');
    values.set(parseInt(at, 16), parseInt(octet, 16));
  }
  if (!values.size) return [];
  const after = new Map([...values.keys()].map(at => [at, board.dump(at, 1)[0]]));
  board.one('back 1');
  const before = new Map([...values.keys()].map(at => [at, board.dump(at, 1)[0]]));
  board.lines(1, 'keys');
  const rising = [...values.keys()].sort((a, b) => a - b);
  const found = rising.map(at => ({at, before: before.get(at), after: after.get(at)}));
  return found.filter(each => each.before !== each.after);
}

// What a stop has seen that holds here, and what did it. Of a stop of another kind nothing.
export function whatWasSeen(board, listing, stop) {
  if (!watchedBy(stop)) return '';
  const labels = new Map([...listing.labels].map(([name, [segment, offset]]) => [physical(segment, offset), name]));
  const what = changedAt(board, stop).map(({at, before, after}) => {
    const name = [hex(at, 5), labels.get(at)].filter(Boolean).join(' ');
    return `${name} was ${hex(before, 2)}, is ${hex(after, 2)}`;
  });
  const last = board.trail().at(-1);
  if (!what.length || !last) return what.join(', ');
  return `${what.join(', ')}: clock ${last.clock}, ${lineText(listing, last).split(/\s+/).filter(Boolean).join(' ')}`;
}
