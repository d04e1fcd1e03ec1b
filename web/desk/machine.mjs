// The board at a clock, over sessions of pcprobe: stops, ways to a clock, and beginnings anew. Each place is that of a
// session; a long way is gone in pieces, between which `poll` may end it.
import {Changes} from './changes.mjs';
import {kindIn} from './faults.mjs';
import {filled} from './sentences.mjs';
import {BEFORE_START, LAST_CLOCK, MEMORY, Session, Sorry, bytesOf, hex, hexOf, physical,
  unrefused} from './session.mjs';
import {changedAt, watchedBy} from './watches.mjs';

const MOST_STOPS = 16, MOST_LISTED = 4096, MOST_PASSED = 64, SET_AT_ONCE = 16;
export const PIECE = 10_000_000; // clocks that are run at once
const FIRST_PIECE = 1 << 16, LOOKED_AT_FIRST = 1024, PASSED_AT_ONCE = 1 << 20;
const HLT = 0xf4, ROM = 0xf0000;
export const NONE = 'no instruction of the 8086';

// The run is to end where it is.
export class Paused extends Sorry {}

export const breakAt = ([segment, offset]) => `break ${hex(segment)}:${hex(offset)}`;
// Its CS:IP, or null of a stop of another kind.
export function placeOf(stop) {
  const found = /^break (\w+):(\w+)$/.exec(stop);
  return found && [parseInt(found[1], 16), parseInt(found[2], 16)];
}
export const isAt = (one, other) => Boolean(one && other) && one[0] === other[0] && one[1] === other[1];

// A line of the trail: an instruction's start, or the entry of an interrupt (then its type, and no bytes).
export function eventOf(line) {
  const [, clock, segment, offset, what] = /^(\d+) (\w{4}):(\w{4}) (.*)$/.exec(line);
  const event = {clock: Number(clock), segment: parseInt(segment, 16), offset: parseInt(offset, 16)};
  event.address = physical(event.segment, event.offset);
  const isEntry = what.startsWith('entry '), cut = what.indexOf(' ');
  if (isEntry) return {...event, octets: new Uint8Array(), text: what, entry: parseInt(what.slice(6), 16)};
  const [digits, text] = cut < 0 ? [what, ''] : [what.slice(0, cut), what.slice(cut + 1)];
  return {...event, octets: bytesOf(digits), text, entry: null};
}

// The registers of an answer to `regs`, in its order.
export function registersOf(lines) {
  return Object.fromEntries(lines.join(' ').match(/\w\w=[0-9A-F]{4}/g).map(it =>
    [it.slice(0, 2), parseInt(it.slice(3), 16)]));
}

export class SessionBoard {
  constructor(library, files, poll = async () => {}) {
    Object.assign(this, {library, files, poll, stops: [], changes: new Changes(), undone: [], halts: new Map()});
    this.forget();
    this.session = new Session(library, files);
  }

  // The registers and the trail are asked for once at each clock: what a board holds there is determined, until keys
  // change, or it is changed.
  forget() { this.halts.clear(); this.registersAt = [-1, {}]; this.trailAt = [-1, []]; }

  get clock() { return this.session.clock; }

  close() { this.session.close(); }

  // Questions

  answer(command) { return this.session.answer(command); }

  one(command) { return this.session.one(command); }

  many(command) { return this.session.many(command); }

  dump(address, count) { return this.session.dump(address, count); }

  // So many instructions from a place on, as memory has them now: each with its offset, its bytes and its text.
  listed([segment, offset], count) {
    const found = [];
    for (let first = 0; first < count; first += MOST_LISTED) {
      for (const line of this.many(`list ${hex(segment)}:${hex(offset)} ${Math.min(count - first, MOST_LISTED)}`)) {
        const [, at, digits, text] = /^\w+:(\w+) (\w+) (.*)$/.exec(line), octets = bytesOf(digits);
        offset = parseInt(at, 16);
        found.push([offset, octets, text.startsWith('DB ') ? NONE : text]);
        offset = (offset + octets.length) & 0xffff;
      }
    }
    return found;
  }

  registers() {
    if (this.registersAt[0] !== this.clock) this.registersAt = [this.clock, registersOf(this.many('regs'))];
    return this.registersAt[1];
  }

  place() { const {CS, IP} = this.registers(); return [CS, IP]; }

  // The last instruction starts and entries.
  trail() {
    if (this.trailAt[0] !== this.clock) this.trailAt = [this.clock, this.many('trail').map(eventOf)];
    return this.trailAt[1];
  }

  chips() { return this.many('chips'); }

  // Whether the processor is halted, after its HLT.
  get isHalted() {
    const last = this.trail().at(-1), isLikely = last && last.octets.at(-1) === HLT;
    return Boolean(isLikely) && this.chips().at(-1).startsWith('processor halted busy 0 ');
  }

  // What happens in so many clocks, past all stops, as lines of the probe's events.
  lines(clocks, kinds) { return clocks ? this.session.lines(clocks, kinds) : []; }

  // Ends what is under way, as where a byte has just been written, so that a step makes the next instruction.
  endInstruction() { if (!this.chips().at(-1).includes(' busy 0 ')) this.one('step'); }

  // What happened in the clock that led to the present one; stops are passed. To a change's clock none led.
  happened(kinds) { if (this.clock === this.changes.first) return []; this.one('back 1'); return this.lines(1, kinds); }

  state() { return this.chips().at(-1).split(' ')[1]; }

  // Types a key, which comes at this clock; returns its stamp.
  type(code, clock) {
    const answer = this.answer(`key ${hex(code)} ${clock}`), {typed} = kindIn(answer);
    if (typed) throw new Sorry(filled(typed, {code, clock: this.clock}));
    const stamp = Number(unrefused(answer).split(' ')[2]);
    if (this.changes.deeds.length) this.changes.take(this.changes.first, `key ${hex(code)} ${stamp}`);
    else this.files = withKeys(this.files, [...this.files.run.keys, [stamp, code]]);
    this.forget();
    return stamp;
  }

  // Changes

  setRegister(name, word) { return this.set(`set ${name} ${hex(word)}`); }

  // Bytes get these values, from a physical address on; all of them, or none.
  async setBytes(address, octets) {
    if (!octets.length || address < 0 || address + octets.length > MEMORY)
      throw new Sorry(`${octets.length} bytes from ${hex(address, 5)} on: at least one can be set, up to FFFFF`);
    const before = this.dump(address, octets.length);
    let begun = false;
    for (let at = 0; at < octets.length; at += SET_AT_ONCE) {
      const words = hexOf(octets.slice(at, at + SET_AT_ONCE)).replace(/..(?=.)/g, '$& ');
      try {
        begun = (await this.set(`set ${hex(address + at)} ${words}`)) || begun;
      } catch (error) {
        if (begun) await this.undo();
        else if (at) await this.setBytes(address, before.slice(0, at));
        throw error;
      }
    }
  }

  // Changes the board as it stands; whether that is a change of its own, and not one more at the clock of the last.
  async set(command) {
    this.make(command);
    const isNew = this.changes.take(this.clock, command);
    this.areOthers();
    return isNew;
  }

  make(command) {
    const answer = this.answer(command), {changed} = kindIn(answer);
    if (changed) throw new Sorry(changed);
    unrefused(answer);
  }

  // The board was changed at the present clock, so what is known of it and of later ones holds no more.
  areOthers() { this.forget(); }

  // Goes back to before the last change; what that was, in words.
  async undo() {
    if (!this.changes.deeds.length) throw new Sorry('nothing was set that could be undone');
    const clock = this.changes.first, what = this.changes.last(), deeds = [...this.changes.deeds];
    const isKept = this.one('undo') !== BEFORE_START;
    this.changes.undo();
    if (!isKept) await this.beginAnew(this.stops, {clock, deeds: deeds.slice(0, this.changes.deeds.length)});
    this.areOthers();
    return `clock ${clock}: undone: ${what}`;
  }

  mark() { return [this.clock, [...this.changes.deeds]]; }

  // The board as it was marked, from a way on which changes may have been undone.
  async returnTo([clock, deeds]) {
    if (deeds.length === this.changes.deeds.length) await this.goTo(clock);
    else {
      this.undone = [];
      await this.beginAnew(this.stops, {clock, deeds});
    }
  }

  // Stops

  // A session at this clock, else at the present one, with these stops alone, and with the board's changes up to there,
  // or these ones; of other files, if they are given, which have all keys. Until it stands there, the old one stays.
  async beginAnew(stops, {clock = this.clock, files = null, deeds = this.changes.deeds} = {}) {
    const changes = new Changes(), session = new Session(this.library, files ?? this.files);
    let ended = null;
    try {
      try {
        for (const [at, command] of deeds) {
          if (at > clock || (files && command.startsWith('key'))) continue;
          await this.runByPieces(session, at);
          session.one(command);
          changes.take(at, command);
        }
        await this.runByPieces(session, clock);
      } catch (error) {
        if (!(error instanceof Paused) || session.clock <= this.clock) throw error;
        ended = error;
      }
      for (const stop of stops) session.one(stop);
    } catch (error) {
      session.close();
      throw error;
    }
    const old = this.session;
    Object.assign(this, {session, stops: [...stops], files: files ?? this.files, changes});
    this.forget(Boolean(files));
    old.close();
    if (ended) throw ended;
  }

  // Sees to it that the session stops at these. Of the stops that hold at a clock the first is told, so that one which
  // isn't wanted could hide one that is, and those that aren't places stand as is wanted; but no two places hold at
  // once.
  async want(stops) {
    const more = stops.filter(each => !this.stops.includes(each)), them = [...this.stops, ...more];
    const unwanted = them.findIndex(each => !stops.includes(each)), wanted = them.filter(each => stops.includes(each));
    const isInOrder = wanted.every((each, n) => Boolean(placeOf(each)) === Boolean(placeOf(stops[n])));
    const passed = unwanted < 0 ? [] : them.slice(unwanted);
    if (them.length > MOST_STOPS || !isInOrder || !passed.every(placeOf)) { await this.beginAnew(stops); return; }
    for (const stop of more) { this.one(stop); this.stops.push(stop); }
  }

  // Ways

  // A session without stops goes on to this clock.
  async runByPieces(session, end) {
    while (session.clock < end) { session.go(Math.min(PIECE, end - session.clock)); await this.poll(); }
  }

  // The stop that an answer tells.
  stopIn(answer) { const found = /^stop (\d+)/.exec(answer); return found ? this.stops[Number(found[1]) - 1] : null; }

  // Goes on to the session's next stop, at most to this clock, and returns it.
  async goOn(end) {
    while (this.clock < end) {
      const met = this.stopIn(this.session.go(Math.min(PIECE, end - this.clock)));
      if (met) return met;
      await this.poll();
    }
    return null;
  }

  // The board at this clock, earlier or later, past all stops.
  async goTo(clock) {
    while (clock < this.changes.first) this.undone.push(await this.undo());
    if (clock < this.clock) this.one(`back ${this.clock - clock}`);
    else if (this.stops.length && clock - this.clock > PASSED_AT_ONCE) await this.beginAnew(this.stops, {clock});
    else if (this.stops.length) this.lines(clock - this.clock, 'keys');
    else await this.goOn(clock);
  }

  // Goes on to one of these stops, at most to this clock, and returns it. In a halt the place after the HLT is none.
  async run(wanted, end) {
    await this.want(wanted);
    let passed = 0;
    while (this.clock < end) {
      let met = await this.goOn(end);
      if (met && placeOf(met) && this.isBehindHalt() && this.isHalted) {
        met = await this.leaveHalt(wanted, end);
        await this.want(wanted);
      } else if (met && !wanted.includes(met)) await this.pass(++passed, wanted);
      if (met && wanted.includes(met)) return met;
    }
    return null;
  }

  // Whether HLT stands before CS:IP, as it does if the processor is halted there.
  isBehindHalt() {
    const [segment, offset] = this.place(), address = physical(segment, (offset - 1) & 0xffff);
    if (address < ROM) return this.dump(address, 1)[0] === HLT;
    if (!this.halts.has(address)) this.halts.set(address, this.dump(address, 1)[0] === HLT);
    return this.halts.get(address);
  }

  // Passes a stop that nobody wants any more; after many of them there are none.
  async pass(passed, wanted) { if (passed === MOST_PASSED) await this.beginAnew(wanted); await this.poll(); }

  // From within a halt to where the interrupt that ends it begins to be taken, at most to this clock, or to one of
  // these stops. The place after the HLT is none: there it would hold at each clock.
  async leaveHalt(wanted, end) {
    const here = this.clock, place = this.place(), kept = wanted.filter(stop => !isAt(placeOf(stop), place));
    let length = FIRST_PIECE, woken = end;
    while (this.clock < end) {
      const [first] = this.lines(Math.min(length, end - this.clock), 'states');
      if (first) { woken = parseInt(first, 10); break; }
      await this.poll();
      length = Math.min(2 * length, PIECE);
    }
    await this.goTo(kept.length ? here : woken);
    if (kept.length && this.stops.some(stop => isAt(placeOf(stop), this.place()))) await this.beginAnew(kept);
    while (this.clock < woken) {
      await this.want(kept);
      const met = await this.goOn(woken);
      if (met && kept.includes(met)) return met;
    }
    return null;
  }

  // Goes back to the last earlier clock at which one of these stops held, and returns it; without one to the first
  // clock.
  async backTo(wanted) {
    await this.want(wanted);
    for (let passed = 0; wanted.length && this.clock; ) {
      const met = await this.lastStop();
      if (!met && this.changes.deeds.length) { this.undone.push(await this.undo()); continue; }
      if (!met) break;
      if (placeOf(met) && this.isBehindHalt() && this.isHalted) await this.goTo(this.trail().at(-1).clock);
      else if (wanted.includes(met)) return met;
      await this.pass(++passed, wanted);
    }
    await this.goTo(0);
    return null;
  }

  // To the last earlier clock at which a stop of the session held, and the stop. A call can't be interrupted, so what
  // may be long is looked through in pieces, the nearest first: whether a stop holds in one, a way forth tells.
  async lastStop() {
    const first = this.changes.first;
    let end = this.clock, length = LOOKED_AT_FIRST;
    const here = end;
    try {
      while (end > first) {
        const low = Math.max(first, end - length);
        this.back(low);
        const isMet = end - 1 > low && this.session.go(end - 1 - low).startsWith('stop');
        if (isMet) { this.pastStops(end); return this.stopIn(this.session.one('back stop')); }
        if (low === first) { const met = this.firstStop(low); if (met) return met; }
        end = low === first ? low : low + 1;
        length = Math.min(8 * length, PIECE);
        await this.poll();
      }
    } catch (error) {
      if (error instanceof Paused) await this.goTo(here);
      throw error;
    }
    await this.goTo(first);
    return null;
  }

  // The stop that holds at the session's first clock, to which the board goes.
  firstStop(low) { this.back(low); this.lines(1, 'keys'); return this.stopIn(this.session.one('back stop')); }

  // Goes back to a clock, or on to it past all stops.
  back(clock) { if (clock < this.clock) this.one(`back ${this.clock - clock}`); else this.pastStops(clock); }

  pastStops(clock) { this.lines(clock - this.clock, 'keys'); }

  // To the last earlier clock at which the processor was free; whether there is one.
  async stepBack() {
    while (this.one('back step') === BEFORE_START) {
      if (!this.changes.deeds.length) return false;
      this.undone.push(await this.undo());
    }
    return true;
  }

  // Whether a stop that watches bytes, or tells what happens, holds here.
  hasChanged(stop) {
    return this.clock !== this.changes.first && Boolean(watchedBy(stop)) && changedAt(this, stop).length > 0;
  }
}

export function withKeys(files, keys) {
  const sorted = keys.map((key, n) => [key, n]).sort(([a, m], [b, n]) => a[0] - b[0] || m - n);
  return {...files, run: {...files.run, keys: sorted.map(([key]) => key)}};
}
export {LAST_CLOCK};
