// A run at its end, and what happened in its first clocks and its last ones, as `events` of pcprobe tells it.
import {Chips} from './chips.mjs';
import {PREFIXES, formOf, learn} from './forms.mjs';
import {codeOf, hexOfSource, imageOf, lineAt} from './listing.mjs';
import {eventOf, registersOf} from './machine.mjs';
import {clauses, filled, rowOf} from './sentences.mjs';
import {markOf} from './services.mjs';
import {Session, bytesOf, far, hex, hexOf, physical, unrefused} from './session.mjs';

const A_SECOND = 4_772_727, SERVICES = 0xf6000, COLOUR = 0xb8000, COLOUR_END = 0xc0000;
const TEXT = 0xb0000, TEXT_END = 0xb0fff, IF = 0x200, TF = 0x100;
export {A_SECOND, SERVICES, COLOUR, COLOUR_END, TEXT, TEXT_END, IF, TF};
const FIRST = 50_000, LAST = 5000, OFTEN = 64, ROM = 0xf0000;
const LONG = 1000, LONGEST = 2_000_000; // clocks that no instruction takes, and no repeated one
const STATEMENT = /^\s*(?:\w+\s*:(?!\s*\[))?\s*(?:(?:LOCK|REPN?[EZ]?|[ECSD]S:)\s*)*(\w+)/i;

// The first word of a line's statement.
export const statementOf = line => (line && STATEMENT.exec(codeOf(line.said))?.[1].toUpperCase()) || '';
// A line's number and what it says, in words and as values.
export const shownOf = line => `line ${line.number} (${codeOf(line.text).trim()})`;
export const lineIn = line => ({line: line.number, code: codeOf(line.text).trim()});
export const spaced = octets => hexOf(octets).replace(/..(?=.)/g, '$& ');
// An event as the trail has it.
export const textOf = ({clock, segment, offset, octets, text}) =>
  `${clock} ${far(segment, offset)} ${hexOf(octets)} ${text}`.replace('  ', ' ');
// The first byte of an instruction after its prefixes; of an entry, or a jam, -1.
export const opcodeOf = ({entry, octets}) => (entry === null ? (octets.find(it => !PREFIXES.has(it)) ?? -1) : -1);
// Of things with one key the first, by their keys.
function firstsOf(them, keyOf) {
  const found = new Map();
  for (const it of them) if (!found.has(keyOf(it))) found.set(keyOf(it), it);
  return found;
}

// What a line of `events` tells that begins something: `key` is all of it but the clock.
function begunIn(key) {
  const [what, place, octets] = key.split(' '), isEntry = what === 'entry';
  const [segment, offset] = isEntry ? [0, 0] : [parseInt(place, 16), parseInt(place.slice(5), 16)];
  return {key, segment, offset, address: physical(segment, offset), octets: bytesOf(octets ?? ''), text: '',
    entry: isEntry ? parseInt(place, 16) : null};
}

// What happened in some clocks without a gap: what began, and which of it wrote what to where, and read what from which
// port.
export function partOf(library, lines) {
  const part = {events: [], writes: [], reads: []}, known = new Map();
  for (const line of lines) {
    const key = line.slice(line.indexOf(' ') + 1), [what, place, value] = key.split(' ');
    const more = {at: part.events.length - 1, place: parseInt(place, 16), value: parseInt(value, 16)};
    if (what === 'write') part.writes.push(more);
    else if (what === 'in') part.reads.push(more);
    else if (what !== 'out') {
      if (!known.has(key)) known.set(key, begunIn(key));
      part.events.push({...known.get(key), clock: parseInt(line, 10)});
    }
  }
  learn(library, [...known.values()].filter(({entry}) => entry === null).map(({octets}) => octets));
  return part;
}

export class Run {
  constructor(library, board, listing) {
    const chips = new Chips(board.chips()), {files} = board, left = board.left(), known = {};
    Object.assign(this, {library, board, listing, files, chips, left, known, clock: board.clock, state: chips.state});
    Object.assign(this, {registers: board.registers(), trail: board.trail(), ramEnd: 1024 * files.run.ram});
    this.mark = left ? markOf(this.ramEnd) : 0; // where the services note that the program runs
    this.isEnded = left?.phase === 2;
    this.isForGood = chips.isHalted && !(this.registers.FL & (IF | TF));
    this.free = new Session(library, files);
  }

  close() { this.free.close(); }

  // What is found of it, once it is asked for.
  once(name, find) { if (!(name in this.known)) this.known[name] = find(); return this.known[name]; }

  // Asking

  // What is done with a session of its own at a clock.
  within(clock, work) {
    const session = new Session(this.library, this.files);
    try { session.goTo(clock); return work(session); } finally { session.close(); }
  }

  // The lines that commands are answered.
  answers(commands) { return this.within(0, session => commands.flatMap(command => session.many(command))); }

  // A row's sentence, if it is a guess, or pcprobe answers so; of an event with its clock, its place and its bytes.
  tell(name, more = {}, event = null) {
    const its = event ? this.valuesOf(event) : {}, row = rowOf(name);
    const values = {clock: this.clock, second: A_SECOND, ...its, ...more};
    const answers = row.asks ? this.answers(filled(row.asks.join('\n'), values).split('\n')) : [];
    const isThere = text => {
      const pattern = new RegExp(filled(text, values, true));
      return answers.some(line => pattern.test(line));
    };
    const isSo = (row.shows ?? []).every(isThere) && !(row.lacks ?? []).some(isThere);
    return isSo ? [{name, text: filled(row.says, values)}] : [];
  }

  valuesOf(event) {
    const {clock: at, segment, offset, octets, entry} = event, there = far(segment, offset);
    const isEntry = entry !== null, where = isEntry ? new RegExp(`\\S+ entry ${hex(entry, 2)}`) : '';
    return {at, after: at + 1, place: this.place(event), where: where || `${there} ${hexOf(octets)}`.trim(),
      what: isEntry ? `entry ${hex(entry, 2)}` : `start ${there}`};
  }

  // Whether a stop is met after a clock.
  meets(condition, since = 0) {
    return this.within(since, session => {
      session.one(condition);
      return session.go(this.clock - since).startsWith('stop');
    });
  }

  // What began last before a stop was met last, before a clock.
  lastChange(condition, clock = this.clock) {
    return this.within(clock, session => {
      session.one(condition);
      const last = unrefused(session.answer('back stop')).startsWith('stop') && session.many('trail').at(-1);
      return last ? eventOf(last) : null;
    });
  }

  // The session that has no stops, at a clock.
  at(clock) { this.free.goTo(clock); return this.free; }

  registersAt(clock) { return registersOf(this.at(clock).many('regs')); }

  trailAt(clock) { return this.at(clock).many('trail').map(eventOf); }

  // What happened

  // The clock at which the program began: 0, or once the services had.
  get begun() {
    return this.once('begun', () => (this.mark ? this.within(0, session => {
      session.one(`byte ${hex(this.mark)} 1`);
      session.go(this.end);
      return session.clock;
    }) : 0));
  }

  // A clock after which nothing begins: the run's end, or one soon after the last event, if nothing has come since.
  get end() {
    const last = this.trail.at(-1);
    return Math.min(this.clock, last ? last.clock + (last.text.includes('REP') ? LONGEST : LONG) : 0);
  }

  get parts() {
    return this.once('parts', () => {
      const kinds = `starts entries ports writes=${hex(Math.min(this.ramEnd, TEXT))}-FFFFF`, {begun, end} = this;
      const isWhole = end - begun <= FIRST + LAST, from = isWhole ? [[begun, end - begun]]
        : [[begun, FIRST], [end - LAST, LAST]];
      return from.map(([at, count]) => partOf(this.library, count ? this.at(at).lines(count, kinds) : []));
    });
  }

  // Each event with the one after it, as it came first; at the end of a run that has jammed, with what it jammed at.
  get steps() {
    return this.once('steps', () => {
      const {CS: segment, IP: offset} = this.registers, address = physical(segment, offset), last = this.trail.at(-1);
      const pairs = this.parts.flatMap(({events}) => events.slice(1).map((after, n) => [events[n], after]));
      const steps = [...firstsOf(pairs, ([before, after]) => `${before.key} ${after.key}`).values()];
      if (this.state !== 'jammed' || !last) return steps;
      const octets = this.board.dump(address, 6);
      return [...steps, [last, {clock: this.clock, segment, offset, address, octets, text: '', entry: null}]];
    });
  }

  // Whatever began as it began first, by its key.
  get allFirsts() { return this.once('firsts', () => firstsOf(this.parts.flatMap(part => part.events), it => it.key)); }

  // Each instruction of the source's lines as it began first.
  get firsts() {
    return [...this.allFirsts.values()].filter(it => it.entry === null && this.isOwn(it) && this.lineAt(it));
  }

  // The registers that an instruction found, its first times.
  *registersOften({key}) {
    const them = this.parts.flatMap(({events}) => events.filter(event => event.key === key)).slice(0, OFTEN);
    for (const {clock} of them) yield this.registersAt(clock);
  }

  // What the program is

  // Whether the program has a byte at an address.
  has(address) {
    const image = () => (this.files.isHex ? new Map() : imageOf(hexOfSource(this.library, this.files.text)));
    return this.listing.has(address) || this.once('image', image).has(address);
  }

  // Whether an instruction isn't one of the services.
  isOwn(event) { return !(this.mark && event.address >= SERVICES); }

  lineAt(event) { return lineAt(this.listing, event); }

  // The last line whose bytes begin at an address or before it.
  lineOver(address) {
    const near = [...this.listing.at.keys()].filter(at => at <= address);
    return this.listing.at.get(near.reduce((a, b) => Math.max(a, b), -1)) ?? null;
  }

  // Where an event was, with its source line, or what it did.
  place(event) {
    const line = this.lineAt(event), there = far(event.segment, event.offset);
    if (event.entry !== null) return `interrupt ${hex(event.entry, 2)}`;
    if (line && this.isOwn(event)) return `${shownOf(line)}, ${there}`;
    const row = event.text || !event.octets.length ? event : this.trailAt(event.clock + 1).at(-1);
    return row?.text && row.clock === event.clock ? `${there} (${row.text})` : there;
  }

  formOf(event) { return formOf(this.library, event.octets); }

  // What an instruction does, by the word of `forms`; an entry is as INT.
  doneBy(event) {
    return event.entry === null ? this.formOf(event).does : 'enter';
  }

  // Whether what has written somewhere has pushed.
  hasPushed(event) { return event.entry !== null || this.formOf(event).pushes; }

  // Whether it enters interrupt 0 if it has no quotient.
  isDivision(event) { return this.doneBy(event) === 'may-enter' && this.formOf(event).type === 0; }

  // The place that a jump or call has in its own bytes, as [segment, offset]; null of another instruction.
  targetOf(event) {
    const {by, to} = this.formOf(event);
    return by === null ? to : [event.segment, (event.offset + by) & 0xffff];
  }

  // What is wrong with writing at an address: nothing, or a clause.
  region(address) {
    const above = this.ramEnd <= address && address < TEXT ? 'above RAM' : address > TEXT_END ? 'nothing' : '';
    const kind = address >= ROM ? 'rom' : COLOUR <= address && address < COLOUR_END ? 'colour' : above;
    return kind && filled(clauses.wrong[kind], {end: this.ramEnd - 1});
  }
}
