// The board as the desk moves it: by instructions, over calls and halts, and out of routines, forth and back; with
// services or without.
import {Follower, Out, asksForStack, marksOf} from './following.mjs';
import {CALLING, formOf, signed} from './forms.mjs';
import {SessionBoard, breakAt, placeOf, registersOf} from './machine.mjs';
import {leftAt, SIGNATURE, SIGNED} from './services.mjs';
import {Sorry, far, hex, physical} from './session.mjs';

const STACKED = 'starts entries', LOOKED_BACK = 100_000, MOST_FOLLOWED = 1 << 20, FIRST_FOLLOWED = 1000;
const TRAIL = 32, OWN_LOOKED_BACK = [100_000, 3_000_000, 30_000_000], OWN_AT_ONCE = 3_000_000;
const BLOCK = 0xfffe0, SECTOR = 0x7c00, SERVICES = 0xf6000, IF = 0x200;
export const ENDS = {
  jammed: 'the processor has jammed, and nothing returned',
  'halted for good': 'halted with interrupts off, and nothing returned',
};

export class Machine extends SessionBoard {
  // `breathe` lets others be heard while nothing may end.
  constructor(library, files, listing, poll, breathe) {
    super(library, files, poll);
    Object.assign(this, {listing, breathe, budget: 0, why: '', known: new Map(), served: null});
  }

  forget(isOther = true) {
    super.forget();
    if (!isOther) return;
    this.followed = [-1, null]; // the calls under way at a clock
    this.isWhole = false; // whether they were followed from power-on on
    this.bases = new Map(); // by a change's clock the calls under way, and whether these are all
  }

  areOthers() { super.forget(); this.followed = [-1, null]; }

  // With services

  // RAM's end, if the services stand in ROM, else 0.
  get ramEnd() {
    if (this.served === null) {
      const isThere = String.fromCharCode(...this.dump(SIGNED, SIGNATURE.length)) === SIGNATURE;
      this.served = isThere ? 1024 * this.files.run.ram : 0;
    }
    return this.served;
  }

  left() { return this.ramEnd ? leftAt(this, this.ramEnd) : null; }

  // How the program has ended, in words, or nothing.
  ending() { return this.left()?.ending ?? ''; }

  // Whether the processor is in the services.
  get isServedHere() { return Boolean(this.ramEnd) && physical(...this.place()) >= SERVICES; }

  // Whether the services haven't begun the program yet.
  get isBefore() { return this.isServedHere && !this.left()?.phase; }

  // The stop at which the program begins.
  firstStop() {
    const [a, b, c, d] = this.dump(BLOCK + 2, 4), offset = a + 256 * b, segment = c + 256 * d;
    return breakAt(offset === 0xffff && segment === 0xffff ? [0, SECTOR] : [segment, offset]);
  }

  // The last instruction starts without those of the services, as far as the last clocks tell them; before the program
  // begins none.
  async ownTrail() {
    const found = this.trail();
    let own = this.ramEnd ? found.filter(event => event.address < SERVICES) : found;
    if (own.length === found.length) return own;
    const here = this.clock;
    for (const [number, span] of OWN_LOOKED_BACK.entries()) {
      if (own.length === TRAIL || (number && own.length)) break;
      await this.goTo(Math.max(this.changes.first, here - span));
      const clocks = [];
      while (this.clock < here) {
        for (const line of this.lines(Math.min(OWN_AT_ONCE, here - this.clock), 'starts'))
          if (startAt(line) < SERVICES) clocks.push(parseInt(line, 10));
        await this.breathe();
      }
      own = clocks.slice(-TRAIL).map(clock => { this.back(clock + 1); return this.trail().at(-1); });
      this.pastStops(here);
    }
    return own;
  }

  // What is followed

  // A change leaves the calls that are under way, unless it is one of the stack's place.
  async set(command) {
    const {clock} = this, isKnown = this.bases.has(clock) && clock === this.changes.first;
    let base = isKnown ? this.bases.get(clock) : null;
    if (/^set S[PS] /.test(command)) base = null;
    else if (!isKnown) base = {follower: (await this.follower()).copy(), isWhole: this.isWhole};
    const isNew = await super.set(command);
    this.bases.set(clock, base);
    return isNew;
  }

  trail() {
    const found = super.trail();
    for (const event of found) if (event.entry === null) this.known.set(event.address, event);
    return found;
  }

  // So many words from SS:SP on: how far from there each stands, itself, and the label of one that leads to code of the
  // program.
  stack(count) {
    const {SS, SP, CS} = this.registers(), octets = this.dump(physical(SS, SP), Math.min(2 * count, 0x10000 - SP));
    const found = [];
    for (let at = 0; at + 1 < octets.length; at += 2) {
      const word = octets[at] + 256 * octets[at + 1], isCode = word && this.listing.has(physical(CS, word));
      found.push([at, word, isCode ? this.listing.labelBefore(CS, word) : '']);
    }
    return found;
  }

  // The marks of lines that tell what led to here, with the registers that their bytes don't tell.
  marks(lines) {
    const marks = marksOf(lines, this.library), here = this.clock;
    const asking = marks.filter(asksForStack);
    for (const mark of asking) { this.back(mark.clock + 1); mark.state = registersOf(this.many('regs')); }
    if (asking.length) this.back(here);
    return marks;
  }

  follow(follower, end) { for (const mark of this.marks(this.lines(end - this.clock, STACKED))) follower.follow(mark); }

  // The calls under way, as the last clocks before this one tell them, or from power-on on.
  async follower() {
    const here = this.clock, first = this.changes.first;
    let [known, follower] = this.followed;
    if (here < known || here - known > MOST_FOLLOWED || known < first) follower = null;
    if (!follower) {
      known = Math.max(first, here - LOOKED_BACK);
      const base = known === first ? this.bases.get(first) : null;
      follower = base?.follower.copy() ?? null;
      this.isWhole = base ? base.isWhole : known === 0;
    }
    await this.goTo(known);
    follower = follower ?? new Follower(this.registers());
    this.follow(follower, here);
    this.followed = [here, follower];
    return follower;
  }

  // The places to which the present routine and those above it return; null at the end, if calls before those aren't
  // known.
  async callers() {
    const {nest} = await this.follower(), found = [...nest].reverse().map(frame => this.caller(frame));
    return this.isWhole ? found : [...found, null];
  }

  // Where a call returns to: as its address stands on the stack, or after the call, if the routine has taken that.
  caller({place, what, pushed, isLifted}) {
    const [a, b, c, d] = this.dump(place, 4);
    let offset = a + 256 * b, segment = c + 256 * d;
    if (!what.isEntry) {
      if (pushed <= 2) segment = what.place[0];
      if (isLifted) offset = (what.place[1] + what.form.octets.length) & 0xffff;
    }
    return [segment, offset];
  }

  // Moves

  // Makes one instruction, iteration or entry, and returns what began. A halted processor goes on to its interrupt.
  async step() {
    if (this.isHalted && this.clock < this.budget) {
      await this.leaveHalt([], this.budget);
      if (this.clock === this.budget) return null;
    }
    const here = this.clock;
    this.one('step');
    return this.trail().find(event => event.clock >= here) ?? null;
  }

  // As `step`, but over what the services do, out of them, and from power-on to where the program begins.
  async stepOwn() {
    this.why = 'returned';
    if (this.isBefore) { await this.run([this.firstStop()], this.budget); return null; }
    const begun = this.isServedHere ? null : await this.step();
    while (this.isServedHere && this.why === 'returned' && !this.ending()) await this.outOnce();
    return begun;
  }

  // To where the processor was free before, within a halt to its HLT, and from the program's own instructions or its
  // end to the last of these.
  async stepOwnBack() {
    const own = this.ramEnd && (!this.isServedHere || this.ending()) ? await this.ownTrail() : [];
    if (own.length) await this.goTo(own.at(-1).clock);
    else if (this.isHalted) await this.goTo(this.trail().at(-1).clock);
    else if (!(await this.stepBack())) throw new Sorry('this is the start of the run');
  }

  // Makes one instruction with all that it calls, an interrupt that comes first, and all its repeats, at most to one of
  // these stops, which it returns.
  over(wanted, run) { return this.toStops(() => this.overOnce(), wanted, run); }

  // Runs to where the routine has returned, or dropped its address; at most to one of these stops, to a jam, a halt for
  // good, or the budget.
  out(wanted, run) { return this.toStops(() => this.outOnce(), wanted, run); }

  // A way, at most to one of these stops: to find them, it is gone once more, by another way to run. A place at its end
  // is no stop before it.
  async toStops(way, wanted, run) {
    const here = this.clock;
    await way();
    const there = this.clock;
    if (!wanted.length || there <= here) return null;
    await this.goTo(here);
    const met = await run(wanted, there);
    if (!met || (placeOf(met) && this.clock === there)) return null;
    this.why = 'stop';
    return met;
  }

  async overOnce() {
    if (this.isBefore) { await this.stepOwn(); return; }
    const here = this.clock;
    this.why = 'returned';
    let begun = null;
    while ((begun = await this.step())) {
      await this.overAll(begun);
      if (begun.entry === null || this.why !== 'returned') break;
    }
    if (this.why === 'far' || (!begun && this.clock >= this.budget)) this.why = await this.ended(here);
  }

  // Over all that an instruction or entry does which has just been made: what it calls, and its repeats.
  async overAll(begun) {
    this.why = 'returned';
    const does = begun.entry === null ? formOf(this.library, begun.octets).does : 'enter';
    if (CALLING.includes(does) || does === 'may-enter') await this.overCall(begun.clock);
    else if (/\bREP(NE)?\b.* /.test(begun.text)) await this.overRepeats(begun);
  }

  // Over what an instruction or entry that began at a clock has called, if it has called something.
  async overCall(begun) {
    const after = this.clock;
    for (const isKnown of [false, true]) {
      await this.goTo(begun);
      const follower = isKnown ? await this.taken() : new Follower(this.registers());
      this.follow(follower, after);
      if (!follower.nest.length) return;
      const out = new Out(follower, follower.nest.at(-1), isKnown);
      await this.end(out);
      if (!out.isUnsure) return;
    }
  }

  // To where another instruction begins than a repeat, over interrupts that come first.
  async overRepeats(begun) {
    const repeats = ` ${far(begun.segment, begun.offset)} `;
    for (;;) {
      let found = null;
      for await (const lines of this.pieces(this.budget)) {
        found = lines.find(line => !line.includes(repeats));
        if (found) break;
      }
      if (!found) break;
      const clock = parseInt(found, 10);
      await this.goTo(clock);
      if (!found.includes(' entry ')) return;
      this.one('step');
      await this.overCall(clock);
      if (this.why !== 'returned') return;
    }
    this.why = 'far';
  }

  // The calls under way, which are followed on from here.
  async taken() { const follower = await this.follower(); this.followed = [-1, null]; return follower; }

  // Out of the routine.
  async outOnce() {
    const here = this.clock, follower = await this.taken();
    await this.end(new Out(follower, follower.nest.at(-1) ?? null));
    if (this.why === 'returned') this.followed = [this.clock, follower];
    else this.why = await this.ended(here);
  }

  // What begins up to a clock, to which the board goes past all stops, piece by piece.
  async *pieces(end) {
    for (let length = FIRST_FOLLOWED; this.clock < end; length = Math.min(2 * length, MOST_FOLLOWED)) {
      yield this.lines(Math.min(length, end - this.clock), STACKED);
      await this.poll();
    }
  }

  // Goes on to where a call has ended, at most to the budget.
  async end(out) {
    const here = this.clock;
    this.why = 'returned';
    for await (const lines of this.pieces(this.budget)) {
      const ending = this.marks(lines).find(mark => out.ends(mark));
      if (ending) { await this.goTo(ending.clock); this.one('step'); return; }
      if (!lines.length && this.hasEnded()) break;
      if (this.clock - here > MOST_FOLLOWED) await this.skip(out);
    }
    this.why = 'far';
  }

  // Goes on as long as no return can have ended a call: nothing is pushed to where its address lies, and SP isn't above
  // that.
  async skip(out) {
    const {stack} = out.follower, level = out.frame ? out.frame.level : out.intact,
      place = physical(stack.segment, level & 0xffff);
    if (!out.isOwn || place + 1 >= 1 << 20) return;
    const stop = `when writes=${hex(place)}-${hex(place + 1)}`;
    while (this.clock < this.budget) {
      await this.want([stop]);
      const here = this.clock, end = Math.min(here + MOST_FOLLOWED, this.budget);
      let met = null;
      while (this.clock < end && met !== stop) met = await this.goOn(end);
      const now = this.registers();
      if (met === stop || now.SS !== stack.segment || signed(now.SP - level) > 0) { await this.goTo(here); return; }
      stack.level = level + signed(now.SP - level);
      await this.poll();
    }
  }

  // `jammed` or `halted for good`, if nothing more will happen, or nothing.
  hasEnded() {
    if (this.isHalted) return this.registers().FL & IF ? '' : 'halted for good';
    return this.state() === 'jammed' ? 'jammed' : '';
  }

  // What ended a way that led from a clock to no return: at the clock at which that began, else `far`.
  async ended(here) {
    const last = this.trail().at(-1), kind = this.hasEnded() || 'far';
    if (kind !== 'far' && last && last.clock >= here) { await this.goTo(last.clock); this.one('step'); }
    return kind;
  }
}

function startAt(line) {
  const at = line.indexOf(' start ') + 7;
  return physical(parseInt(line.slice(at, at + 4), 16), parseInt(line.slice(at + 5, at + 9), 16));
}
