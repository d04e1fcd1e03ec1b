// How a run left its program's instructions: to 0000:0000, by a step to where none is, by a return of a word that isn't
// its own, by a push over instructions; and what was written where nothing keeps it.
import {CALLING, PREFIXES, formOf, learn} from './forms.mjs';
import {eventOf} from './machine.mjs';
import {STRINGS} from './meant.mjs';
import {COLOUR, COLOUR_END, lineIn, opcodeOf, partOf, shownOf, statementOf, textOf} from './run.mjs';
import {clauses, filled} from './sentences.mjs';
import {far, grouped, hex, hexOf, physical, same} from './session.mjs';

const DATA = ['DB', 'DW', 'DD'], INTO = 0xce, IRET = 0xcf, RET = 0xc3, RETF = 0xcb, CALL = 0xe8, LOOP = 0xe2;
const NEAR = 32, FEW = 8, DF = 0x400, MOST_LOST = 3, A_TICK = 300_000, HALVES = 60;
const SERVICES = 'with nothing at FFFF:0000 a source has services that answer (docs/services.md)';

// By what a run came to 0000:0000, where 00 00 stands: by a vector that nothing set, or by a jump or a return.
export function ofZero(run) {
  const [last, after] = run.within(0, session => {
    session.one('break 0:0');
    const isThere = session.go(run.clock).startsWith('stop') && !session.dump(0, 2).some(Boolean);
    return isThere ? [eventOf(session.many('trail').at(-1)), session.clock] : [];
  });
  if (!last) return [];
  const {segment, offset, octets, entry} = last, {advice} = clauses, place = run.place(last), at = far(segment, offset);
  const endsThere = segment === 0 && ((offset + octets.length) & 0xffff) === 0;
  const kind = entry !== null || endsThere ? entry : run.formOf(last).type;
  if (kind === null)
    return run.tell('to 0000:0000', {after, advice: advice[run.doneBy(last) === 'return' ? 'return' : 'jump']}, last);
  const none = 'has no quotient (the divisor is 0, or the quotient too large), which enters', type = hex(kind, 2);
  const enters = run.isDivision(last) ? none : 'enters', vector = 4 * kind;
  const does = entry === null ? `${place} ${enters} interrupt ${type}` : `at ${at} interrupt ${type} came`;
  const told = filled(advice[type] ?? advice.other, {services: SERVICES, vector});
  return run.tell('empty vector', {after, does, kind, vector, advice: told}, last);
}

// Whether an instruction was 00 00, and no ADD of the source.
export const isZeros = (run, event) => hexOf(event.octets) === '0000' && statementOf(run.lineAt(event)) !== 'ADD';
// Whether it was, or stood where the program has no byte and no RAM is.
const isOutside = (run, event) => event.entry === null
  && (isZeros(run, event) || (run.region(event.address) !== '' && !run.has(event.address)));

// The first step that led out of the program's instructions, as far as the run is looked at, else one by halving.
function wayOut(run) {
  const isLast = run.trail.length > 0 && isOutside(run, run.trail.at(-1)), endsBadly = run.state === 'jammed' || isLast;
  const isOut = ([before, event]) => {
    if (event.entry !== null || (before.entry === null && !run.lineAt(before))) return false;
    const isData = DATA.includes(statementOf(run.lineOver(event.address)));
    return isOutside(run, event) || (endsBadly && (isData || !run.has(event.address)));
  };
  return (run.listing.lines.length ? run.steps.find(isOut) : null) ?? (isLast ? byHalving(run) : null);
}

// A step to where no instruction of the program is, if the halves of the run tell.
function byHalving(run) {
  let [low, high] = [0, run.end];
  while (high - low > HALVES) {
    const middle = (low + high) >> 1, last = run.trailAt(middle).at(-1);
    if (last && isOutside(run, last)) high = middle;
    else low = middle;
  }
  const trail = run.trailAt(high), at = trail.findIndex((event, n) => n && isOutside(run, event)
    && !isOutside(run, trail[n - 1]));
  return at < 0 ? null : [trail[at - 1], trail[at]];
}

// The step that led out of the program's instructions.
export function ofAstray(run) {
  const [before, event] = wayOut(run) ?? [];
  if (!before) return [];
  const to = far(event.segment, event.offset), line = run.has(event.address) ? run.lineOver(event.address) : null;
  const after = physical(before.segment, before.offset + before.octets.length);
  const isJump = before.entry !== null || event.address !== after;
  const what = line ? `${shownOf(line)}, ${to}` : `${to}, where the program has no byte`, place = run.place(before);
  const next = new RegExp(event.clock < run.clock ? `^${event.clock} start ${to} ` : ' jammed$');
  const span = Math.min(event.clock, run.clock - 1) - before.clock + 1;
  const advice = before.entry !== null || run.doneBy(before) === 'return' ? '' : `\nhint: ${clauses.advice.jump}`;
  const how = isJump ? `${place} led to ${what}` : `behind ${place} came ${what}`;
  return run.tell('astray', {how, span, next, advice}, before);
}

// Returns

// Steps of IRETs that no interrupt came before, and of returns of the source to where no CALL and no INT stands before.
function* suspicious(run) {
  const [{events}] = run.parts, isSources = event => run.lineAt(event) && run.isOwn(event);
  let depth = 0;
  for (const [n, event] of events.slice(0, -1).entries()) {
    depth += Number(run.doneBy(event) === 'enter' || opcodeOf(event) === INTO) - Number(opcodeOf(event) === IRET);
    if (opcodeOf(event) !== IRET || depth >= 0 || !isSources(event)) continue;
    yield [event, events[n + 1]];
    depth = 0;
  }
  const isReturn = ([event, after]) => after.entry === null && opcodeOf(event) !== IRET && isSources(event)
    && run.doneBy(event) === 'return';
  const returns = run.steps.filter(isReturn), ends = returns.map(([, after]) => endsBefore(run, after));
  learn(run.library, ends.flat());
  yield* returns.filter((_, n) => !ends[n].some(end => isCall(run.library, end)));
}

// What stands before a place, of two bytes or more; and whether it is a CALL or INT without a prefix.
function endsBefore({board}, {segment, offset}) {
  const octets = board.dump(physical(segment, (offset - 5) & 0xffff), 5);
  return [2, 3, 4, 5].filter(n => n <= octets.length).map(n => octets.slice(-n));
}
function isCall(library, end) {
  const {does, octets} = formOf(library, end);
  return !PREFIXES.has(end[0]) && CALLING.includes(does) && same(octets, end);
}

// What a return took: what nothing had written, what an interrupt had pushed, or, if the run ends badly, what something
// else had.
export function ofReturns(run, endsBadly) {
  for (const [event, after] of suspicious(run)) {
    const found = ofReturn(run, event, after, endsBadly);
    if (found.length) return found;
  }
  return [];
}
function ofReturn(run, event, {segment: code, offset}, endsBadly) {
  const {SS: segment, SP} = run.registersAt(event.clock), address = physical(segment, SP);
  const by = run.lastChange(`when writes=${hex(address)}-${hex(address)}`, event.clock);
  const isPlaced = run.has(address) || run.has(address + 1);
  if (!by) return isPlaced ? [] : run.tell('nothing pushed', {address, last: address + 1, segment}, event);
  const where = textOf(by).replace(/^\d+ /, ''), pushed = by.clock, isIret = opcodeOf(event) === IRET;
  const values = {address, pushed, after: pushed + 1, where, by: run.place(by)};
  if (by.entry !== null && [RET, RETF].includes(opcodeOf(event)))
    return run.tell('return of an interrupt', {kind: by.entry, ...values}, event);
  const isCall = [...CALLING, 'may-enter'].includes(run.doneBy(by));
  return endsBadly && !isIret && !isCall ? run.tell('pushed by', {to: far(code, offset), ...values}, event) : [];
}

// A RET that ended a program, in a routine from which a CALL hasn't returned, or into which the program ran on.
export function ofAnEarlyEnd(run) {
  const last = run.parts.at(-1).events.findLast(it => it.entry === null && run.isOwn(it) && run.lineAt(it));
  if (!last || opcodeOf(last) !== RET) return [];
  const calls = run.firsts.filter(event => opcodeOf(event) === CALL).map(event => [run.targetOf(event)?.[1], event]);
  const entries = calls.filter(([to, event]) => event.segment === last.segment && to <= last.offset);
  const within = Math.max(...entries.map(([to]) => to)), by = entries.length && entered(run, last.segment, within);
  if (!by) return [];
  const label = run.listing.labelBefore(last.segment, within), after = by.offset + by.octets.length;
  const call = entries.findLast(([to]) => to === within)[1], values = {label, by: run.place(by)};
  const isNext = by.segment === last.segment && after === within;
  if (isNext) return run.tell('ran on', {...values, call: run.place(call)}, last);
  const isOpen = opcodeOf(by) === CALL && !run.meets(`break ${hex(by.segment)}:${hex(after)}`, by.clock);
  return isOpen ? run.tell('ended within', values, last) : [];
}

// The program's own instruction that began last before that at a place did.
function entered(run, segment, offset) {
  return run.within(run.end, session => {
    session.one(`break ${hex(segment)}:${hex(offset)}`);
    session.answer('back stop');
    const end = session.clock;
    session.goTo(Math.max(0, end - A_TICK));
    return partOf(run.library, session.lines(end - session.clock, 'starts')).events.findLast(event => run.isOwn(event));
  });
}

// Instructions of the source just below or at SS:SP over which something was pushed last.
export function ofCodeInTheStack(run) {
  const {registers: {SS, SP}, listing, ramEnd, board} = run, top = physical(SS, SP);
  for (const [address, line] of [...listing.at].sort(([a], [b]) => a - b)) {
    const {shown} = line, size = shown.length, isNear = top - NEAR <= address && address <= top + 1 && address < ramEnd;
    const isCode = isNear && size && ![...DATA, ''].includes(statementOf(line));
    if (!isCode || same(board.dump(address, size), shown)) continue;
    const by = run.lastChange(`changes ${hex(address, 5)} ${size}`);
    if (by && run.hasPushed(by))
      return run.tell('over code', {address, size, ...lineIn(line), ...mostPushed(run, by.clock)}, by);
  }
  return [];
}

// Which line had pushed most often by a clock, how often, the row of `counts` that tells so, and what that may mean.
function mostPushed(run, clock) {
  let [most, count, found] = ['nothing', 0, ''];
  learn(run.library, [...run.listing.at.values()].map(line => line.shown));
  for (const row of run.at(0).happenings(`counts ${clock + 1}`)) {
    const words = row.split(' ').filter(Boolean), times = Number(words.at(-2)), [segment, offset] = words[0].split(':');
    const line = offset && run.listing.at.get(physical(parseInt(segment, 16), parseInt(offset, 16)));
    const form = line && formOf(run.library, line.shown);
    if (form?.pushes && form.does !== 'may-enter' && times >= count) [most, count, found] = [shownOf(line), times, row];
  }
  const perhaps = filled(clauses.pushed[count > FEW ? 'many' : 'few'], {most});
  return {most, times: grouped(count), row: found, perhaps};
}

// What is written, or pushed, where it is lost, of each instruction once.
export function ofLostWrites(run) {
  const found = [], known = new Set(), isOver = run.isForGood || run.state === 'jammed';
  const isTold = event => known.has(event.key) || !(isOver || run.allFirsts.get(event.key) === event)
    || !run.isOwn(event) || (run.listing.lines.length && event.entry === null && !run.has(event.address));
  for (const {events, writes} of run.parts)
    for (const {at, place: address} of writes) {
      const event = events[at], wrong = event && run.region(address);
      if (!wrong || isTold(event)) continue;
      known.add(event.key);
      if (found.length >= MOST_LOST) continue;
      const does = run.hasPushed(event) ? 'pushes to' : 'writes to';
      const advice = found.length || (COLOUR <= address && address < COLOUR_END) ? '' : clauses.lost[does];
      found.push(...run.tell('lost write', {address, does, wrong, advice}, event));
      if (found.length === 1) found.push(...ofDirection(run, event), ...ofACount(run, event));
    }
  return found;
}

// A string instruction that goes downward.
function ofDirection(run, event) {
  const flags = STRINGS.includes(opcodeOf(event)) ? run.registersAt(event.clock).FL : 0;
  return flags & DF ? run.tell('downward', {flags}, event) : [];
}

// A loop round an instruction that began with CX 0.
function ofACount(run, event) {
  const isRound = loop => opcodeOf(loop) === LOOP && physical(...run.targetOf(loop)) <= event.address
    && event.address < loop.address && run.registersAt(loop.clock).CX === 0;
  const loop = event.entry === null && run.firsts.find(isRound);
  return loop ? run.tell('count of 0', {}, loop) : [];
}
