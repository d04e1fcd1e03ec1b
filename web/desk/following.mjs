// Follows a run by the lines of the probe's events: which calls are under way, and which return ends which call.
import {CALLING, formOf, isByFrame, learn, signed} from './forms.mjs';
import {bytesOf, physical} from './session.mjs';

const OF_AN_INTERRUPT = 6; // bytes that it pushes
const MOST_TOLD = 1 << 16;
export const farIn = text => [parseInt(text.slice(0, 4), 16), parseInt(text.slice(5, 9), 16)];
const octetsIn = rest => bytesOf(rest.slice(rest.lastIndexOf(' ') + 1));
const told = new Map();

// What a line tells after its clock: a start with its place, or an entry.
function whatIn(rest, library) {
  const [kind, place] = rest.split(' ');
  if (kind === 'entry') return {isEntry: true, type: parseInt(place, 16), form: null};
  return {place: farIn(place), form: formOf(library, octetsIn(rest))};
}

// The marks of lines of starts and entries: what there is to follow.
export function marksOf(lines, library) {
  if (told.size > MOST_TOLD) told.clear();
  const rests = lines.map(line => line.slice(line.indexOf(' ') + 1));
  const fresh = [...new Set(rests)].filter(rest => !told.has(rest));
  learn(library, fresh.filter(rest => rest.startsWith('start')).map(octetsIn));
  for (const rest of fresh) told.set(rest, whatIn(rest, library));
  const marks = rests.map((rest, n) => ({clock: parseInt(lines[n], 10), what: told.get(rest), state: null}));
  return marks.filter(({what}) => what.isEntry || what.form.isFollowed);
}
// What an instruction does; an entry is as INT.
const doneBy = ({what}) => (what.isEntry ? 'enter' : what.form.does);
// Whether SS and SP after a mark are wanted, which its bytes don't tell.
export const asksForStack = ({what: {form}}) => Boolean(form && (form.loadsStack || form.does === 'may-enter'));

// SS and SP. Of each segment SP is kept as a number that goes on below 0 and above 65,535.
class Stack {
  constructor(segment, pointer) { this.segment = segment; this.level = pointer; this.levels = new Map(); }

  // The address of the word on top.
  get place() { return physical(this.segment, this.level & 0xffff); }

  copy() { const found = new Stack(this.segment, this.level); found.levels = new Map(this.levels); return found; }

  move(by) { this.level += by; }

  load(segment, pointer) {
    this.levels.set(this.segment, this.level);
    const near = this.levels.get(segment) ?? pointer;
    this.segment = segment;
    this.level = near + signed(pointer - near);
  }
}

// The calls under way on the present stack, `nest`, and the one that the last mark has ended, `ended`, if it has.
export class Follower {
  constructor(registers) {
    this.stack = new Stack(registers.SS, registers.SP);
    this.nest = [];
    this.ended = null;
    this.open = new Map(); // by where their return addresses lie
    this.base = registers.SP; // how high the present stack is known to be, beside what its calls tell
    this.left = new Map(); // the nests and bases of other stacks, by SS and SP as they were left
  }

  copy() {
    const copies = new Map(), found = Object.assign(Object.create(Follower.prototype), this,
      {stack: this.stack.copy()});
    const copied = frames =>
      frames.map(frame => { if (!copies.has(frame)) copies.set(frame, {...frame}); return copies.get(frame); });
    const ofMap = (them, copy) => new Map([...them].map(([key, value]) => [key, copy(value)]));
    const left = ofMap(this.left, ([nest, base]) => [copied(nest), base]);
    return Object.assign(found, {nest: copied(this.nest), open: ofMap(this.open, copied), left});
  }

  follow(mark) {
    this.ended = null;
    if (mark.what.isEntry) this.call(mark, -OF_AN_INTERRUPT);
    else this.start(mark, mark.what.form);
  }

  start(mark, {octets, does, sp, loadsStack, popsRegister}) {
    const {stack, nest} = this, {state} = mark, top = nest[nest.length - 1];
    if (CALLING.includes(does)) this.call(mark, sp);
    else if (does === 'return') this.return(mark, sp);
    else if (does === 'jump') this.jump();
    else if (does === 'may-enter') {
      if (state && signed(state.SP - stack.level) === sp) this.call(mark, sp);
    } else if (loadsStack) {
      if (state) this.load(octets, state.SS, state.SP);
    } else {
      if (popsRegister && top && top.level === stack.level) top.isLifted = top.pushed === 2;
      stack.move(sp);
    }
  }

  // A call, or an interrupt, whose return address is on the stack.
  call(mark, moves) {
    const {stack, nest} = this, above = stack.level;
    stack.move(moves);
    const {place, segment, level} = stack;
    const frame = {clock: mark.clock, what: mark.what, pushed: -moves, above, place, segment, level, isLifted: false};
    if (!this.open.has(place)) this.open.set(place, []);
    this.open.get(place).push(frame);
    while (nest.length && nest[nest.length - 1].level <= level - Number(nest[nest.length - 1].isLifted)) nest.pop();
    nest.push(frame);
  }

  // A return, which takes its address from the top of the stack.
  return(mark, moves) {
    const {stack, nest} = this, frames = this.open.get(stack.place);
    const frame = (this.ended = frames?.pop() ?? null);
    while (nest.length && nest[nest.length - 1].level <= stack.level) nest.pop();
    if (frame && frames.length && frames[frames.length - 1].isLifted) nest.push(frames[frames.length - 1]);
    stack.move(moves);
  }

  // A jump to where a register says: a return, if the routine has taken its address by POP.
  jump() {
    const top = this.nest[this.nest.length - 1];
    if (!top?.isLifted || this.stack.level !== top.level + 2) return;
    this.ended = this.nest.pop();
    this.ended.isLifted = false;
  }

  // SS or SP is loaded: back to another task's stack; within the present one, by which calls below are dropped; or to a
  // stack of which nothing is known.
  load(octets, segment, pointer) {
    const {stack, nest} = this, {level} = stack;
    const here = [stack.segment, level & 0xffff], there = `${segment}:${pointer}`;
    stack.load(segment, pointer);
    const top = nest.length ? Math.max(this.base, nest[0].above) : this.base;
    const isWithin = !this.left.has(there) && level <= stack.level && stack.level <= top;
    if (segment === here[0] && (isWithin || isByFrame(octets))) {
      while (nest.length && nest[nest.length - 1].level < stack.level) nest.pop();
      return;
    }
    this.left.set(here.join(':'), [nest, this.base]);
    [this.nest, this.base] = this.left.get(there) ?? [[], stack.level];
    this.left.delete(there);
  }
}

// The way out of a call that the follower has in its nest, or without a frame out of the routine that runs. If what
// called before isn't known, it may be `isUnsure` whether SP was loaded to above the call or to another stack.
export class Out {
  constructor(follower, frame = null, isKnown = true) {
    Object.assign(this, {follower, frame, isKnown, isUnsure: false, nest: follower.nest});
    this.intact = follower.stack.level; // from there on upwards nothing has been pushed since
  }

  // Whether the stack is the one on which it began.
  get isOwn() { return this.follower.nest === this.nest; }

  // Follows a mark, and tells whether it ends the call, or whether that can't be told.
  ends(mark) {
    const {follower, frame, isOwn} = this, {stack} = follower, {level, segment} = stack;
    follower.follow(mark);
    if (frame && follower.ended === frame) return true;
    if (doneBy(mark) === 'return') return isOwn && level >= this.intact && (!frame || level > frame.level);
    const isLoad = mark.what.form?.loadsStack && frame && isOwn;
    if (isLoad && stack.segment === segment && stack.level > frame.level) {
      this.isUnsure = !this.isOwn && !this.isKnown;
      return this.isUnsure || this.isOwn;
    }
    if (isOwn && stack.level < level) this.intact = Math.max(this.intact, level);
    return false;
  }
}
