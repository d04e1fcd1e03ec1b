// The board of one page, at a clock. It is moved in jobs, which end between the pieces of a run. What it shows is a
// session's answer, or a report of the same files.
import {ENDS, Machine} from './board.mjs';
import {Chips, endsBefore, factsOf} from './chips.mjs';
import {constantsOf, dataOf, valuesOf} from './data.mjs';
import {kindOfSource, takenAs} from './guest.mjs';
import {NAMES, stamped, strokesOf} from './keys.mjs';
import {addressOf, answerOf, farOf, hexOfSource, imageOf, lineAt, listingOf, listingOfHex,
  numberOf} from './listing.mjs';
import {LAST_CLOCK, Paused, breakAt, placeOf, withKeys} from './machine.mjs';
import {said} from './sentences.mjs';
import {TYPING} from './services.mjs';
import {MOST_SAMPLES, Speaker} from './sound.mjs';
import {Session, Sorry, far, grouped, hex, hexOf, patience, physical, runText} from './session.mjs';
import {assign} from './values.mjs';
import {bytesAt, watchOf, watchedBy, whatWasSeen} from './watches.mjs';
import {whyOf} from './why.mjs';

// A typed key reaches the keyboard so many clocks on, and lies so many after the one before: a handler takes some
// hundred.
const AHEAD = 1000, GAP = 1000, HOLD = 500, PAUSE = 1500, MOST_TYPED = 1000, MOST_SET = 1000;
const FARTHEST = 50_000_000; // clocks of a step: ten of the board's seconds
const STACK_WORDS = 16, CLOCKS_OF_HLT = 2, LOOKS_WITHOUT_ATTRIBUTES = 4, CODE_ROWS = 48, CODE_BEFORE = 40,
  MOST_STOPS = 15;
const MARKED_AT_ONCE = 1_000_000, MOST_MARKS = 1000, MOST_LISTED = 500, PARTS = 4096;
const MOST_REPORTED = 200_000_000; // clocks; a report of more takes too long
const ORDER = ['break', 'changes', 'sound', 'byte', 'halted']; // of the stops that hold at a clock the first is told
const TOO_MANY_TYPED = `${grouped(MOST_TYPED)} are the most, and none was typed`;
const TEXT_MEMORY = 0xb0000, WORDS = 2048, COLUMNS = 80;
const now = () => performance.now();

function isKeyList(given) {
  return Array.isArray(given) && given.every(pair => Array.isArray(pair) && pair.length === 2
    && pair.every(Number.isInteger));
}

export class Board {
  constructor(library, data, {source, run, isHex, how, includes}) {
    this.library = library;
    this.fields = Object.fromEntries(Object.entries(run).filter(([name]) => name !== 'keys'));
    const given = 'keys' in run ? {keys: run.keys} : {};
    this.keys = isKeyList(run.keys) ? run.keys.map(([stamp, code]) => ({stamp, code, turn: -1})) : [];
    Object.assign(this, {source, isHex, isEnded: false, until: Infinity, job: null, rested: now()});
    Object.assign(this, {screenNumber: 0, rows: [], screen: null, looks: 0, count: 1, stops: [], held: [-1, []]});
    Object.assign(this, {furthest: 0, wasAt: 0, turn: 0, beganAt: 0, speakers: new Speaker([], 0),
      ofTheRun: [[0, 0], {}]});
    this.kind = isHex ? '' : kindOfSource(library, source, how);
    const made = takenAs(library, source, this.fields, data, this.kind, {args: how.args, includes});
    this.listing = made?.listing ?? (isHex ? listingOfHex(source, how.symbols) : listingOf(library, source));
    if (!isHex) this.readData(source, made?.image);
    const files = {text: made?.text ?? source, isHex: Boolean(made) || isHex, run: {...this.fields, ...given}};
    this.machine = new Machine(library, files, this.listing, () => this.poll(), () => this.breathe());
  }

  // The listing tells data and constants once they are asked for; of an image that is loaded by its bytes.
  readData(source, image) {
    const {listing, library} = this;
    listing.readData = () => dataOf(listing, () => image ?? imageOf(hexOfSource(library, source)), Boolean(image));
    if (!listing.rows.length) listing.readConstants = () => constantsOf(listing.lines);
  }

  get clock() { return this.machine.clock; }

  get budget() { return Number.isInteger(this.fields.budget) ? this.fields.budget : 0; }

  close() { this.isEnded = true; this.machine.close(); }

  // Jobs

  // Called between the pieces of a run. Others are heard now and then, and the run ends if it is to. Its time isn't
  // over before it has moved the board.
  async poll() {
    await this.breathe();
    if (this.isEnded || (now() > this.until && this.clock !== this.beganAt)) throw new Paused('paused');
  }

  async breathe() { if (now() - this.rested < 20) return; await new Promise(go => rest(go)); this.rested = now(); }

  begin(work, seconds = Infinity) {
    if (this.job) throw new Sorry('the board is at work; pause it first');
    Object.assign(this, {isEnded: false, until: now() + 1000 * seconds, beganAt: this.clock, rested: now()});
    const job = (this.job = work().finally(() => { if (this.job === job) this.job = null; }));
    this.last = job;
    job.catch(() => {});
  }

  pause() { this.isEnded = true; }

  // Moves; each gives what is seen then

  async run(to, isPast, seen, isLight) {
    const here = this.clock, end = Math.min(to, LAST_CLOCK);
    let why = 'there', met = null;
    try {
      if (isPast) await this.machine.run([], end);
      else if ((met = await this.runToStop(this.stops, end))) why = 'stop';
    } catch (error) {
      if (!(error instanceof Paused)) throw error;
      why = 'paused';
    }
    if (!isPast && why !== 'stop') await this.backToTheEnd(here);
    return {...(await this.view(why, seen, isLight)), ...this.seenBy(met)};
  }

  // What a stop on bytes has seen that is met here, in words.
  seenBy(stop) { return stop && watchedBy(stop) ? {told: whatWasSeen(this.machine, this.listing, stop)} : {}; }

  // Goes on to a stop, at most to this clock. One that isn't a place and holds here already counts once it has ceased
  // to hold.
  async runToStop(wanted, end) {
    let met = null;
    try { met = (await this.pastHeld(end)) || (await this.machine.run(wanted, end)); }
    finally { this.held = met ? [-1, []] : [this.clock, this.held[1]]; }
    return met;
  }

  // Goes on past the stops that hold here and aren't places, to where none of them does, or to another stop.
  async pastHeld(end) {
    let held = this.held[0] === this.clock ? this.held[1] : this.holding();
    while (held.length && this.clock < end) {
      const here = this.clock, others = this.stops.filter(stop => !held.includes(stop));
      this.held = [here, held];
      if (held.length === 1 && held[0] === 'halted' && this.machine.isHalted) {
        const met = await this.machine.leaveHalt(others, end);
        if (met) return met;
      }
      if (this.clock === here) {
        await this.machine.want(this.stops);
        const met = await this.machine.goOn(here + 1);
        if (met && (watchedBy(met) || (placeOf(met) && !this.machine.isHalted))) return met;
        const after = met ? this.holding() : [], more = after.filter(stop => !held.includes(stop));
        if (more.length) return more[0];
        held = after;
      }
      this.held = [this.clock, held];
      await this.poll();
    }
    this.held = [this.clock, held];
    return null;
  }

  // The stops that hold here and aren't places.
  holding() { return this.stops.filter(stop => this.holds(stop)); }

  holds(stop) {
    const [kind, place, octet] = stop.split(' ');
    if (kind === 'byte') return this.machine.dump(parseInt(place, 16), 1)[0] === parseInt(octet, 16);
    if (kind === 'halted') return this.chipsNow().isHalted;
    return kind === 'sound' && this.chipsNow().value('speaker', 'level') === '1';
  }

  chipsNow() { return new Chips(this.machine.chips()); }

  // If the processor has halted for good since a clock: back to where it did, so that the run isn't full of nothing.
  async backToTheEnd(here) {
    if (this.chipsNow().state !== 'halted for good') return;
    const last = this.machine.trail().at(-1).clock + CLOCKS_OF_HLT + 1;
    await this.machine.goTo(Math.min(Math.max(here, last), this.clock));
  }

  async step(seen) { return (await this.fromHalt(seen)) ?? this.moved(() => this.machine.stepOwn(), seen); }

  async over(seen) {
    return (await this.fromHalt(seen))
      ?? this.moved(() => this.machine.over(this.stops, (them, end) => this.runToStop(them, end)), seen);
  }

  out(seen) { return this.moved(() => this.machine.out(this.stops, (them, end) => this.runToStop(them, end)), seen); }

  // A step of a halted processor: into the interrupt that ends the halt; if none can, a clock. None of one that runs.
  async fromHalt(seen) {
    const here = this.clock, {state} = this.chipsNow();
    if (state === 'running') return null;
    if (state !== 'halted') return this.moved(async () => this.machine.one('step'), seen, false);
    const found = await this.moved(() => this.machine.stepOwn(), seen);
    if (found.why !== 'far') return found;
    await this.machine.goTo(here);
    Object.assign(this, {wasAt: here, furthest: Math.max(here, Math.min(this.furthest, found.clock - 1))});
    throw new Sorry(`no interrupt ends this halt within ${grouped(FARTHEST)} clocks; type a key, or run on`);
  }

  // What is seen after a move; one that would never end, ends.
  async moved(move, seen, mayMeet = true) {
    const {machine} = this, here = this.clock;
    let why = 'there', met = null;
    Object.assign(machine, {budget: Math.min(here + FARTHEST, LAST_CLOCK), why: ''});
    try {
      machine.endInstruction();
      const found = await move();
      if (mayMeet && typeof found === 'string') [why, met] = ['stop', found];
      else if (machine.why in ENDS) ({why} = machine);
      else if (this.clock === machine.budget) why = 'far';
    } catch (error) {
      if (!(error instanceof Paused)) throw error;
      why = 'paused';
    }
    return {...(await this.view(why, seen)), ...this.seenBy(met)};
  }

  async back(seen) { await this.machine.stepOwnBack(); return this.view('there', seen); }

  // To the last earlier clock at which a stop held.
  async lastStop(seen) {
    if (!this.stops.length) throw new Sorry('there is no stop; click beside a line, or type a place under Stops');
    return this.backTo(this.stops, 'stop', seen, 'no stop held at any earlier clock');
  }

  async backTo(stops, why, seen, none) {
    const here = this.machine.mark();
    try {
      const met = await this.machine.backTo(stops);
      if (!met) { await this.machine.returnTo(here); throw new Sorry(none); }
      return {...(await this.view(why, seen)), ...this.seenBy(met)};
    } catch (error) {
      if (!(error instanceof Paused)) throw error;
      return this.view('paused', seen);
    }
  }

  // To where one of some bytes was changed last, in the clock that led to here or before, and what did it.
  async who(address, count, seen) {
    const stop = watchOf(address, count);
    if (this.machine.hasChanged(stop)) return {...(await this.view('there', seen)), ...this.seenBy(stop)};
    return this.backTo([stop], 'there', seen,
      `nothing has changed ${hex(address, 5)} up to here: it is as it was at clock 0`);
  }

  async goTo(clock, seen) {
    if (clock > this.clock) return this.run(clock, true, seen, false);
    await this.machine.goTo(clock);
    return this.view('there', seen);
  }

  // Changes

  async set(text, seen) {
    if (text.length > MOST_SET) throw new Sorry(`${MOST_SET} characters are the most that say a change`);
    const told = await assign(this.machine, this.listing, text);
    this.are(this.keys);
    return {...(await this.view('there', seen)), told};
  }

  async undo(seen) { this.machine.undone.push(await this.machine.undo()); return this.view('there', seen); }

  // What a way back has undone, in words. Keys that were typed since are gone.
  undone() {
    const what = this.machine.undone.join('; ');
    this.machine.undone = [];
    if (!what) return {};
    const left = new Set([...this.machine.files.run.keys, ...this.machine.changes.keys()].map(String));
    this.are(this.keys.filter(({stamp, code}) => left.has(String([stamp, code]))));
    return {told: what};
  }

  // What is seen

  // What the page shows. The screen comes if it isn't the one that the page has; a light view leaves out what is looked
  // at while nothing runs.
  async view(why, seen, isLight = false) {
    const undone = this.undone(), {machine, listing} = this;
    this.turn += Number(this.clock < this.wasAt);
    Object.assign(this, {wasAt: this.clock, furthest: Math.max(this.furthest, this.clock)});
    const trail = isLight ? machine.trail() : await machine.ownTrail(), registers = machine.registers(),
      chips = this.chipsNow();
    const place = [registers.CS, registers.IP], {state} = chips;
    // A halted processor is still at its HLT, what stands after it may never run; and a program in the services still
    // at its call.
    const isThere = state.startsWith('halted') || machine.isServedHere, last = trail.at(-1);
    const line = isThere && last ? lineAt(listing, last) : listing.at.get(physical(...place));
    const found = {
      why,
      clock: this.clock,
      furthest: this.furthest,
      registers,
      state: (state === 'halted for good' && machine.ending()) || state,
      lost: Number(chips.value('keyboard', 'lost')),
      place: far(...place),
      line: this.isHex ? null : (line?.number ?? null),
      label: listing.labelBefore(...place),
      'screen number': this.lookAtScreen(isLight, chips),
      changed: machine.changes.deeds.length > 0,
      ...undone,
    };
    if (seen !== this.screenNumber) found.screen = this.rows;
    if (isLight) return found;
    const words = machine.stack(STACK_WORDS).map(([at, word, label]) =>
      [hex(registers.SP + at, 4), hex(word, 4), label]);
    const callers = (await machine.callers()).map(it => (it ? this.shown(it) : ['unknown', '', null]));
    return {...found, trail: trail.map(event => this.event(event)), callers, stack: words, keys: this.keyList()};
  }

  // The screen's number, which rises if it changes. A light look at the same characters looks for other attributes now
  // and then alone.
  lookAtScreen(isLight, chips) {
    const lines = this.machine.many('screen'), text = lines.join('\n');
    this.looks += 1;
    if (isLight && text === this.screen?.text && this.looks % LOOKS_WITHOUT_ATTRIBUTES) return this.screenNumber;
    const {start} = chips, memory = this.machine.dump(TEXT_MEMORY, 2 * WORDS),
      shown = `${text}${start}${hexOf(memory)}`;
    if (shown !== this.screen?.shown) {
      this.screen = {text, shown};
      this.rows = lines.map((line, row) => stretches(line, row, memory, start));
      this.screenNumber += 1;
    }
    return this.screenNumber;
  }

  // A line of the trail: clock, address, label, text, source line.
  event(event) {
    const line = lineAt(this.listing, event), isStart = event.entry === null, {segment, offset} = event;
    const text = isStart ? event.text : `interrupt ${hex(event.entry, 2)}`,
      label = this.listing.labelBefore(segment, offset);
    return [event.clock, far(segment, offset), label, text, line && isStart ? line.number : null];
  }

  // A place as the page has it: address, label and source line.
  shown(place) {
    const line = this.listing.at.get(physical(...place));
    return [far(...place), this.listing.labelBefore(...place), line ? line.number : null];
  }

  // The keys: stamp, name, whether it goes down, code.
  keyList() { return this.keys.map(({stamp, code}) => [stamp, NAMES.get(code % 0x80) ?? '?', code < 0x80, code]); }

  // Bytes from a place on: a label, SEGMENT:OFFSET, an address, or two registers, as SS:SP.
  memory(place, count) {
    const text = place.trim(), registers = this.machine.registers(), names = text.toUpperCase().split(':');
    const isOfRegisters = names.length === 2 && names.every(name => name in registers);
    const address = isOfRegisters ? physical(...names.map(name => registers[name])) : addressOf(this.listing, text);
    const bytes = hexOf(this.machine.dump(address, Math.min(Math.max(count, 16), 4096))).toLowerCase();
    return {address, bytes};
  }

  // The instructions around the next one, or from a place on: address, label that stands there, bytes and text.
  code(place) {
    const {CS, IP} = this.machine.registers(), text = place.trim();
    const [segment, offset] = text ? farOf(this.listing, text) : [CS, this.codeBefore(CS, IP)];
    let rows = this.machine.listed([segment, offset], CODE_ROWS);
    if (!text && rows.every(([at]) => at !== IP)) rows = this.machine.listed([CS, IP], CODE_ROWS);
    const code = rows.map(([at, octets, said]) => {
      const label = [...this.listing.labels].find(([, [para, there]]) => para === segment && there === at)?.[0] ?? '';
      return [far(segment, at), label, hexOf(octets), said, this.listing.textAt(physical(segment, at))];
    });
    return {clock: this.clock, code};
  }

  // The first offset a little before a place from which instructions can be told: a label's, a line's, or of one that
  // ran.
  codeBefore(segment, here) {
    const known = [...this.listing.labels.values(),
      ...[...this.machine.known.values()].map(it => [it.segment, it.offset])];
    known.push(...[...this.listing.at.values()].map(line => line.address), ...this.listing.begun);
    const near = known.filter(([para, at]) => para === segment && here - at >= 0 && here - at <= CODE_BEFORE);
    return near.reduce((least, [, at]) => Math.min(least, at), here);
  }

  // What the chips hold, and what in them keeps an interrupt or a key away.
  async chips() {
    const lines = this.machine.chips(), mark = this.machine.mark();
    try {
      const facts = await factsOf(new Chips(lines), kind => endsBefore(this.machine, kind));
      return {lines, facts: facts.map(fact => said(...fact))};
    } finally {
      await this.machine.returnTo(mark);
    }
  }

  // Why the run goes nowhere, if it does.
  async why() {
    const {clock} = this, mark = this.machine.mark();
    try { return {clock, told: await whyOf(this.library, this.machine, this.listing)}; }
    finally { await this.machine.returnTo(mark); }
  }

  // The program's labels of data, with what memory holds there.
  data() { return {clock: this.clock, data: valuesOf(this.listing.data, (at, count) => this.machine.dump(at, count))}; }

  // Stops and keys

  // The stops from now on. Of those that hold at a clock the first is told.
  setStops(texts) {
    const stops = [...new Set(texts.map(text => this.stop(text)))];
    const order = stop => ORDER.indexOf(stop.split(' ')[0]);
    stops.sort((a, b) => order(a) - order(b));
    if (stops.length > MOST_STOPS) throw new Sorry(`${MOST_STOPS} stops are the most`);
    Object.assign(this, {stops, held: [-1, []]});
    return {stops: stops.map(stop => this.told(stop))};
  }

  // The debugger's stop that a page means: a place, `break` before it or not, `byte PLACE VALUE`, `changes PLACE [N]`,
  // `sound` or `halted`.
  stop(text) {
    const [kind, ...words] = text.split(/\s+/);
    if (kind === 'changes' && /^\S+( \d{1,6})?$/.test(words.join(' '))) {
      const address = addressOf(this.listing, words[0]);
      return watchOf(address, words[1] ? Number(words[1]) : bytesAt(this.listing, words[0], address));
    }
    if (kind === 'byte' && words.length === 2)
      return `byte ${hex(addressOf(this.listing, words[0]))} ${hex(numberOf(words[1], 0xff))}`;
    if (text === 'sound' || text === 'halted') return text;
    return breakAt(farOf(this.listing, text.replace(/^break/, '').trim()));
  }

  // A stop as the page has it: its address or the debugger's words, label and source line.
  told(stop) {
    const place = placeOf(stop);
    if (place) return this.shown(place);
    const at = /^(?:byte|changes) (\w+)/.exec(stop), address = at && parseInt(at[1], 16);
    const label = at && [...this.listing.labels].findLast(([, it]) => physical(...it) === address);
    return [stop, label ? label[0] : '', null];
  }

  // Whether a key's clock lies ahead, and it wasn't typed since the board last went back.
  comesLater(key) { return key.stamp > this.clock && key.turn !== this.turn; }

  laterKeys() { return this.keys.filter(key => this.comesLater(key)).length; }

  // The codes of a text, each with how many clocks it lies after the one before.
  typed(text, isPlain) {
    if (text.length > MOST_TYPED)
      throw new Sorry(`${grouped(text.length)} characters are too many to type at once: ${TOO_MANY_TYPED}`);
    const keys = stamped(strokesOf(text, isPlain), 0, ...(this.kind ? TYPING.slice(1) : [HOLD, PAUSE]));
    return [keys.map(([, code]) => code), keys.map(([clock], n) => clock - (n ? keys[n - 1][0] : 0))];
  }

  // Codes typed now, each so many clocks after the one before. Keys that come later are dropped.
  async type(codes, pauses, seen) {
    const kept = this.keys.filter(key => !this.comesLater(key));
    let stamp = Math.max(this.clock + AHEAD, kept.length ? kept.at(-1).stamp + GAP : 0);
    if (stamp + pauses.reduce((a, b) => a + b, 0) > LAST_CLOCK)
      throw new Sorry('the last key would lie past clock 2^40');
    if (kept.length !== this.keys.length && (await this.withKeys(kept, seen)).why === 'paused')
      return this.view('paused', seen);
    codes.forEach((code, n) => {
      stamp += pauses[n];
      this.keys.push({stamp: this.machine.type(code, stamp), code, turn: this.turn});
    });
    this.cut();
    this.are(this.keys);
    return this.view('there', seen);
  }

  // The marks up to here, if they are known: keys that are typed now leave them as they are.
  cut() {
    const [[count, until], known] = this.ofTheRun;
    if (count !== this.count || until < this.clock) return;
    const changes = this.speakers.changes.filter(([clock]) => clock <= this.clock);
    const marks = {...known, changes: changes.slice(0, MOST_LISTED), 'all changes': changes.length};
    marks.interrupts = known.interrupts.filter(([clock]) => clock < this.clock);
    marks['interrupts up to'] = Math.min(known['interrupts up to'], this.clock);
    this.speakers = new Speaker(changes, this.clock);
    this.ofTheRun = [[count + 1, this.clock], marks];
  }

  // The board at the same clock with these of its keys alone. A session gives no key back: one is begun anew.
  async withKeys(keys, seen) {
    const files = withKeys(this.machine.files, keys.map(({stamp, code}) => [stamp, code]));
    try { await this.machine.beginAnew([], {files}); }
    catch (error) { if (!(error instanceof Paused)) throw error; return this.view('paused', seen); }
    this.are(keys);
    return this.view('there', seen);
  }

  // The keys from now on: what was known of later clocks is known no more.
  are(keys) {
    Object.assign(this, {keys, furthest: this.clock, count: this.count + 1});
    if (this.held[0] > this.clock) this.held = [-1, []];
  }

  // Of the whole run

  // The speaker's changes up to a clock, or null if that takes too long, or the board was changed: a report is of a run
  // from its start.
  changesUpTo(clock) {
    if (this.machine.changes.deeds.length || clock > MOST_REPORTED) return null;
    const {text, isHex, run} = this.machine.files, words = ['run', ...(isHex ? ['--hex'] : []), '--', 'FILE', 'RUN'];
    const lines = answerOf(this.library, words, text, runText({...run, budget: clock})).split('\n');
    const at = lines.findIndex(line => line.startsWith('sound ')), count = Number(lines[at].slice(6));
    return lines.slice(at + 1, at + 1 + count).map(line => line.split(' ').map(Number));
  }

  // What the time line shows beside the stops: the speaker's changes and the interrupts.
  async marks() {
    const {clock} = this, until = Math.max(this.furthest, clock), [[count, end]] = this.ofTheRun;
    if (count !== this.count || end !== until) {
      const run = [this.count, until], changes = this.changesUpTo(until);
      const [interrupts, first] = changes ? await this.interrupts(until) : [[], until];
      this.speakers = new Speaker(changes ?? [], until);
      const told = {told: Boolean(changes), changes: this.speakers.changes.slice(0, MOST_LISTED)};
      this.ofTheRun = [run,
        {...told, 'all changes': this.speakers.changes.length, interrupts, 'interrupts up to': first}];
    }
    return {clock, until, changed: this.machine.changes.deeds.length > 0, ...this.ofTheRun[1]};
  }

  // The interrupts of the run, and up to which clock they were looked for.
  async interrupts(until) {
    const deadline = now() + 1000 * patience.seconds, found = [];
    const session = new Session(this.library, this.machine.files);
    try {
      while (session.clock < until && now() < deadline && found.length <= MOST_MARKS) {
        for (const line of session.lines(Math.min(MARKED_AT_ONCE, until - session.clock), 'entries')) {
          const [clock, , kind] = line.split(' ');
          found.push([Number(clock), parseInt(kind, 16)]);
        }
        await new Promise(go => rest(go));
      }
      return [found.slice(0, MOST_MARKS), found.length > MOST_MARKS ? found[MOST_MARKS][0] : session.clock];
    } finally {
      session.close();
    }
  }

  // The stretches in which the speaker was high, of a run whose marks were told, joined to what a line can show.
  speaker(low, high) { return {low, high, stretches: this.speakers.stretches(low, high, PARTS)}; }

  // The speaker's samples from one clock to another, as text; none if it doesn't move. The other clock may lie ahead:
  // with the keys that there are, what comes is determined.
  heard(begin, end, slow) {
    let speaker = this.speakers;
    if (speaker.until < end || this.ofTheRun[0][0] !== this.count) {
      const changes = this.changesUpTo(Math.min(end, LAST_CLOCK));
      if (!changes) return {begin, end: begin, samples: ''};
      speaker = new Speaker(changes, end);
    }
    if (speaker.isStill(begin, end)) return {begin, end, samples: ''};
    const samples = speaker.samples(begin, end, slow);
    return {begin, end, samples: base64(samples), 'is cut': samples.length === MOST_SAMPLES};
  }
}

// A line's stretches of one look: 1 is bright, 2 underlined, 4 reverse, and their sums.
function stretches(line, row, memory, start) {
  const found = [];
  [...line].forEach((sign, column) => {
    const word = start === null ? null : (start + COLUMNS * row + column) % WORDS, attribute = word === null ? 0
      : memory[2 * word + 1];
    const look = Number((attribute & 8) > 0) + 2 * Number((attribute & 0x77) === 1)
      + 4 * Number((attribute & 0x77) === 0x70);
    if (found.length && found.at(-1)[1] === look) found.at(-1)[0] += sign;
    else found.push([sign, look]);
  });
  return found;
}
function base64(octets) {
  let text = '';
  for (let at = 0; at < octets.length; at += 0x8000) text += String.fromCharCode(...octets.subarray(at, at + 0x8000));
  return btoa(text);
}
// Others are heard before it goes on: by a message, which is no slower than that, as a timer may be; node has a call
// for it, and hands on many messages before it hears others.
const channel = new MessageChannel(), waiting = [];
channel.port1.onmessage = () => waiting.shift()();
channel.port1.unref?.();
function byMessage(go) { waiting.push(go); channel.port2.postMessage(0); }
export const rest = globalThis.setImmediate ?? byMessage;
