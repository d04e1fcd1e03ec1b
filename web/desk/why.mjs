// Why a run goes nowhere. Each sentence is a row of sentences.json: the commands that ask pcprobe for it, what its
// answers must show and lack, and the sentence; one without commands is a guess, and begins with 'perhaps'. Here is
// found what may have been so.
import {ofCalls} from './asked.mjs';
import {isZeros, ofAnEarlyEnd, ofAstray, ofCodeInTheStack, ofLostWrites, ofReturns, ofZero} from './astray.mjs';
import {endsBefore, factsOf} from './chips.mjs';
import {PREFIXES} from './forms.mjs';
import {codeOf} from './listing.mjs';
import {ofLoop} from './loop.mjs';
import {ofTheSource} from './meant.mjs';
import {A_SECOND, Run, lineIn, shownOf, spaced, textOf} from './run.mjs';
import {clauses} from './sentences.mjs';
import {remarksOf} from './services.mjs';
import {LAST_CLOCK, far, grouped, hex, physical} from './session.mjs';

// Clocks that are run anew, a tenth of a second's work; a longer run is if it waits most of what comes after them: if
// about so few instructions begin there, by those that do in so many clocks.
const REACH = 20_000_000, MOST_STARTS = 3_000_000, SAMPLE = 1_000_000;
const ZEROS = 4, NEAR = 32, TEXT_MEMORY = 0xb0000, CELLS = 2000, CALLED = /\bINT\s+(10|16|1A|20|21)h/i;

// What bytes that jam the 8086 are on a later processor, as a clause.
function later(octets) {
  const plain = octets.slice(octets.findIndex(it => !PREFIXES.has(it))), length = plain[0] === 0x0f ? 2 : 1;
  const code = spaced(plain.slice(0, length));
  return code in clauses.later ? `${code} is ${clauses.later[code]}` : '';
}

// Where the processor jammed, at which bytes, and what ran before; what led there may be told already.
function ofJam(run, isLed) {
  const {registers: {CS, IP}, listing: {lines, at}} = run, address = physical(CS, IP), last = run.trail.at(-1);
  const octets = run.board.dump(address, 6), line = at.get(address);
  const changed = line ? ofChangedCode(run, line, octets) : [];
  const found = run.tell('jammed', {address, place: far(CS, IP), octets: spaced(octets)});
  if (!last) return [...found, ...ofNoStart(run)];
  const isCode = line ? !codeOf(line.text).includes("'") : !lines.length, what = isCode ? later(octets) : '';
  found.push(...(changed.length || !what ? changed : run.tell('later processor', {what})));
  found.push(...run.tell('last before', {row: textOf(last)}));
  const isPast = !isLed && octets[0] === 0xff && octets[1] === 0xff && run.region(address) && !run.has(address);
  return isPast ? [...found, ...run.tell('past the end')] : found;
}

// Why nothing has begun.
function ofNoStart(run) {
  const call = run.listing.lines.find(line => CALLED.test(codeOf(line.text)));
  if (call) return run.tell('bare call', {...lineIn(call), services: 'a desk without --bare'});
  const own = 'SEGMENT RESET AT 0FFFFh, JMP FAR start, ENDS', rom = "is a ROM's file loaded at its own address?";
  return run.tell('no reset', {instead: run.files.isHex ? rom : own});
}

// What the source placed where other bytes are now, and which instruction changed the first of these last.
function ofChangedCode(run, line, octets) {
  const place = line.shown.findIndex((octet, n) => n < octets.length && octet !== octets[n]);
  const address = physical(...line.address) + place;
  const last = place < 0 ? null : run.lastChange(`changes ${hex(address, 5)}`), was = spaced(line.shown);
  return last ? run.tell('changed', {address, value: octets[place], ...lineIn(line), octets: was}, last) : [];
}

// Text memory that would be seen, if it were shown.
function ofBlank(run) {
  if (run.board.many('screen').join('').trim()) return [];
  const memory = run.board.dump(TEXT_MEMORY, 2 * CELLS), words = [...Array(CELLS).keys()];
  const isSign = word => memory[2 * word] > 0x20 && memory[2 * word] <= 0x7e;
  const isSeen = word => memory[2 * word] > 0 && memory[2 * word] !== 0x20 && (memory[2 * word + 1] & 0x77) !== 0;
  const seen = words.find(isSeen), at = seen ?? words.find(isSign);
  if (at === undefined) return [];
  const octets = memory.slice(2 * at, 2 * at + 2), values = {address: TEXT_MEMORY + 2 * at, octets: spaced(octets)};
  if (seen !== undefined) return run.tell('video off', values);
  return run.tell('dark', {...values, sign: `'${String.fromCharCode(octets[0])}'`, attribute: octets[1]});
}

// Zeros at the trail's end.
function ofZeros(run) {
  const {trail} = run, count = trail.length - 1 - trail.findLastIndex(event => !isZeros(run, event));
  return count >= ZEROS ? run.tell('zeros', {count, row: textOf(trail.at(-1))}) : [];
}

// A halt with interrupts off where one seems awaited: a jump back stands after it, a handler's vector is set, and
// interrupts were never on.
function ofHalt(run) {
  const {registers: {CS, IP}, board} = run, last = run.trail.at(-1);
  if (!run.isForGood || !last || run.doneBy(last) !== 'halt' || run.parts.length > 1) return [];
  const [jump, by] = board.dump(physical(CS, IP), 2), back = jump === 0xeb ? by - 256 : 0;
  const isAwaited = -NEAR <= back && back <= -3 && board.dump(0x20, 0x20).some(Boolean);
  return isAwaited ? run.tell('halted with interrupts off', {}, last) : [];
}

// How the run ended, and what led there.
function ofTheEnd(run) {
  const zero = ofZero(run), over = ofCodeInTheStack(run), isJammed = run.state === 'jammed';
  const astray = zero.length ? zero : [...ofZeros(run), ...(over.length ? [] : ofAstray(run))];
  const returns = zero.length ? [] : ofReturns(run, astray.length > 0 || isJammed);
  const end = isJammed ? ofJam(run, [...astray, ...returns, ...over].length > 0) : ofBlank(run);
  const loop = () => (zero.length ? [] : ofLoop(run));
  return [...end, ...over, ...returns, ...astray, ...ofHalt(run), ...ofLostWrites(run), ...loop()];
}

// What keeps an interrupt or a key away, a second later too.
async function ofChips(run) {
  const {chips, board, clock} = run, {controller} = chips;
  if (run.isForGood || run.state === 'jammed' || clock + A_SECOND > LAST_CLOCK) return [];
  const base = parseInt(chips.value('controller', 'vector'), 16) & 0xf8;
  const vectors = controller.isReady ? board.dump(4 * base, 32) : new Uint8Array(32), found = [];
  const hasVector = level => vectors.slice(4 * level, 4 * level + 4).some(Boolean);
  const wantsKeys = hasVector(1) && !(controller.masked & 2), isTaken = () => run.meets('when entries');
  for (const [name, values] of await factsOf(chips, kind => endsBefore(board, kind))) {
    const {level = 0, since} = values, span = clock - since - 1;
    if (name === 'masked' && controller.masked !== 0xff) {
      if (hasVector(level) && !isTaken()) found.push(...run.tell('masked, others not', values));
      continue;
    }
    const isPlain = chips.value('controller', 'IC4') === '0' && controller.awaited === 'none';
    const isKept = {keys: !wantsKeys, initialisation: isPlain, 'no count': !hasVector(0)}[name] ?? false;
    if (isKept || (name === 'no count' && isTaken())) continue;
    found.push(...run.tell(name, {span, back: A_SECOND + span, kind: base + level, ...values}));
  }
  const isAwaited = chips.isHalted && chips.isOpen && wantsKeys && !run.mark && !run.files.run.keys.length;
  return isAwaited ? [...found, ...run.tell('no key', {keys: 'click the screen and type'})] : found;
}

// The division that ended a program.
function ofADivision(run) {
  const last = run.parts.at(-1).events.findLast(event => run.isDivision(event) && run.isOwn(event));
  return last ? run.tell('division', {span: 1}, last) : [];
}

// By which line of the source, or at which place, a call was made. INT3 has one byte.
function byLine({listing: {at}}, segment, offset) {
  const line = at.get(physical(segment, offset)) ?? at.get(physical(segment, offset + 1));
  return line ? `by ${shownOf(line)}` : `at ${far(segment, offset)}`;
}

// Whether a run is made again: it has no more than REACH clocks, or waits most of what comes after them.
function isShort(run) {
  if (run.clock <= REACH) return true;
  const rows = run.at(Math.min(REACH, run.clock - SAMPLE)).happenings(`counts ${SAMPLE}`).slice(1);
  const starts = rows.reduce((sum, row) => sum + Number(row.split(' ').at(-2)), 0);
  return (starts * (run.clock - REACH)) / SAMPLE <= MOST_STARTS;
}

// What is asked about a run, one after the other.
function* questionsOf(run) {
  const placeOf = (...place) => byLine(run, ...place), {left, mark} = run;
  const remarks = () => (left ? remarksOf(left, placeOf) : []);
  yield () => remarks().flatMap(remark => run.tell('services', {remark, address: mark - 2}));
  yield () => ofCalls(run, placeOf);
  if (run.isEnded) {
    yield () => (left.how ? ofAnEarlyEnd(run) : ofADivision(run));
    yield () => ofLostWrites(run);
  } else yield () => ofTheEnd(run);
  yield () => ofTheSource(run);
  if (!run.isEnded) yield () => ofChips(run);
}

// What isn't as most programs want it, as lines, of a run up to where a board stands. Others are heard between two
// questions.
export async function whyOf(library, board, listing) {
  if (board.changes.deeds.length) return [];
  const run = new Run(library, board, listing), clocks = grouped(run.clock), most = grouped(REACH);
  const busy = `nothing was asked of this run: of ${clocks} clocks no more than ${most} busy ones are made again`;
  const found = [];
  try {
    if (!isShort(run)) return [busy];
    for (const question of questionsOf(run)) { found.push(...(await question())); await board.breathe(); }
  } finally {
    run.close();
  }
  const isTold = found.some(({name}) => name === 'no port');
  return found.flatMap(({name, text}) => (isTold && name === 'unanswered port' ? [] : text.split('\n')));
}
