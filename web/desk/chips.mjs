// What the chips hold, as pcprobe tells it, and what of it keeps an interrupt or a key away.
import {bytesOf, grouped, hex} from './session.mjs';

const END_OF_INTERRUPT = 'no end of interrupt (20h to port 20h)', ASKED_BACK = 50_000_000, AT_ONCE = 10_000_000;

function valuesOf(name, words) {
  if (name === 'speaker') return {level: words[0]};
  if (name === 'ports')
    return Object.fromEntries([0, 3, 6].map(at => [words[at], words.slice(at + 1, at + 3).join(' ')]));
  if (name === 'keyboard') {
    const at = words.indexOf('waiting');
    return {...valuesOf('', words.slice(0, at)), waiting: words.slice(at + 1).join(' ')};
  }
  const pairs = name === 'processor' ? ['state', ...words] : words;
  return Object.fromEntries(pairs.flatMap((word, n) => (n % 2 ? [] : [[word, pairs[n + 1]]])));
}

export class Chips {
  constructor(lines) {
    this.lines = {};
    for (const line of lines) {
      let [name, ...words] = line.split(' ');
      if (name === 'counter') name = `${name} ${words.shift()}`;
      this.lines[name] = valuesOf(name, words.filter(Boolean));
    }
  }

  value(line, word) { return this.lines[line][word]; }

  // Running, halted, halted for good, or jammed.
  get state() {
    const state = this.value('processor', 'state');
    return state === 'halted' && !this.isOpen ? 'halted for good' : state;
  }

  // Whether the processor takes requests: IF is 1.
  get isOpen() { return this.value('processor', 'IF') === '1'; }

  get isHalted() { return this.value('processor', 'state') === 'halted'; }

  // The interrupt controller's registers.
  get controller() {
    const values = this.lines.controller, is = name => values[name] === '1', awaited = values.awaits;
    const [requests, served, masked] = ['IRR', 'ISR', 'IMR'].map(name => parseInt(values[name], 16));
    const held = is('SMM') ? served & ~masked : served, first = Number(values.lowest) + 1;
    const blocking = [0, 1, 2, 3, 4, 5, 6, 7].map(n => (first + n) % 8).filter(it => (held >> it) & 1);
    return {requests, served, masked, awaited, is8086: is('uPM'), isAsking: is('INT'), blocking,
      isReady: awaited === 'none' && is('uPM')};
  }

  // The word of text memory that the adapter shows first, or null if it shows nothing.
  get start() { const {start, video} = this.lines.adapter; return video === '1' ? parseInt(start, 16) % 2048 : null; }
}


// Why the controller passes no request on, though levels ask.
async function ofRequests(chips, ends) {
  const {controller} = chips, asking = levelsIn(controller.requests);
  if (controller.isAsking || !asking.length) return [];
  const values = {level: asking[0], requests: controller.requests, served: controller.served};
  if (!controller.isReady) {
    const {awaited} = controller, isWaiting = awaited !== 'none';
    const sequence = isWaiting ? `its initialisation waits for ${awaited}` : "it isn't in 8086 mode (bit 0 of ICW4)";
    return [['initialisation', {...values, sequence, awaits: awaited, is_8086: Number(controller.is8086)}]];
  }
  const isMasked = level => (controller.masked >> level) & 1;
  const found = asking.filter(isMasked).map(level => ['masked', {...values, level}]);
  const [first] = asking.filter(level => !isMasked(level)), [served] = controller.blocking;
  if (first !== undefined && served !== undefined) {
    const asks = first === served ? `IR${first} asks again, and ` : `IR${first} asks, and IR${served} `;
    const kind = parseInt(chips.value('controller', 'vector'), 16) & 0xf8;
    found.push(['in service', {...values, level: first, asks, ...(await ends(kind + served))}]);
  }
  return found;
}
const levelsIn = set => [0, 1, 2, 3, 4, 5, 6, 7].filter(level => (set >> level) & 1);

// What ends of interrupt have come up to where a board stands since a type was entered last: `since` when, the trail's
// line of that, `taken`, and in words. The board goes back to look.
export async function endsBefore(board, kind) {
  const here = board.clock, first = Math.max(board.changes.first, here - ASKED_BACK), lines = [];
  await board.goTo(first);
  while (board.clock < here) {
    lines.push(...board.lines(Math.min(AT_ONCE, here - board.clock), 'entries ports=20-20'));
    await board.poll();
  }
  const words = lines.map(line => line.split(' '));
  const taken = words.findLastIndex(([, what, type]) => what === 'entry' && type === hex(kind, 2));
  const isEnd = ([, what, , octet]) => what === 'out' && (bytesOf(octet)[0] & 0x38) === 0x20;
  const ends = words.slice(Math.max(taken, 0)).filter(isEnd).length;
  const since = taken < 0 ? first : Number(words[taken][0]);
  const when = taken < 0 ? `in the last ${grouped(here - first)} clocks` : `since it was taken at clock ${since}`;
  const came = ends > 1 ? `${ends} ends of interrupt have` : `${ends ? 'an end of interrupt' : END_OF_INTERRUPT} has`;
  const but = ends > 1 ? ', and none was for it' : ends ? ", and it wasn't for it" : '';
  const line = new RegExp(taken < 0 ? '' : `^${since} .*entry ${hex(kind, 2)}$`);
  return {since, taken: line, ends: `${came} come ${when}${but}`};
}

// Whether a halted processor waits for a tick that no count brings, and whether a count is half written.
function ofTheTimer(chips) {
  const {controller} = chips, counter = chips.lines['counter 0'];
  if (counter.first !== 'none') {
    const written = ['1', '2'].includes(counter.RW) ? 'one byte' : 'two bytes, the low one first';
    return [['half a count', {first: counter.first, written}]];
  }
  const waits = chips.isHalted && controller.isReady && !controller.requests && !(controller.masked & 1);
  return waits && counter.newest === 'none' ? [['no count', {}]] : [];
}

// Why key codes wait.
function ofKeys(chips) {
  const waiting = chips.value('keyboard', 'waiting'), count = waiting ? waiting.split(' ').length : 0;
  if (!count) return [];
  const latch = chips.value('keyboard', 'latch'), portB = parseInt(chips.value('ports', 'B').split(' ')[1], 16);
  let why = '';
  if (portB & 0x80) why = ': line 7 of port B is 1 and empties the latch';
  else if (latch !== 'none') why = ` behind ${latch}h in the latch, which line 7 of port B hasn't emptied`;
  else if (!(portB & 0x40)) why = ': line 6 of port B is 0 and lets the keyboard send nothing';
  const said = `${count} key code${count > 1 ? 's wait' : ' waits'}`;
  return why ? [['keys', {count: said, why, waiting}]] : [];
}

// What keeps an interrupt or a key away: rows of sentences.json, each with its values.
export async function factsOf(chips, ends) {
  const open = chips.isOpen ? [...(await ofRequests(chips, ends)), ...ofTheTimer(chips)] : [];
  return [...open, ...ofKeys(chips)];
}
