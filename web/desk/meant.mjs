// What lines that ran do, and are hardly meant to.
import {NAMES} from './keys.mjs';
import {codeOf, labelIn} from './listing.mjs';
import {TEXT, TEXT_END, lineIn, opcodeOf, statementOf} from './run.mjs';
import {clauses, filled} from './sentences.mjs';
import {far, hexOf, physical} from './session.mjs';

// Ports that answer a read.
export const ANSWERING = [0x20, 0x21, 0x40, 0x41, 0x42, 0x60, 0x61, 0x62, 0x3b5, 0x3ba];
export const STRINGS = [0xa4, 0xa5, 0xaa, 0xab];
const BY_FORM = {0x04: 'SI', 0x05: 'DI', 0x07: 'BX'}, LOADS_AL = [0xb0, 0xb8, 0xac, 0xad, 0xd7, 0xa0, 0xa1];
const SOON = 40, LEA = 0x8d, VECTORS_END = 0x400, OF_WORDS = [0xa5, 0xa7, 0xad], KEYBOARD = 0x60, FF = 0xff;

// Whether a line of the source loads a segment register.
function loads({lines}, register) {
  const load = new RegExp(`\\bMOV\\s+${register}\\s*,|\\bPOP\\s+${register}\\b|\\bL${register}\\b`, 'i');
  return lines.some(({text}) => load.test(codeOf(text)));
}

// DS and ES that nothing has loaded, or that are wrong at the end.
function ofSegments(run) {
  const {registers, listing, firsts} = run, names = new Map([[0xb800, 'colour memory'], [0x0b00, 'a nought too few']]);
  const wrong = ['DS', 'ES'].filter(register => names.has(registers[register]));
  const found = wrong.flatMap(register => run.tell(names.get(registers[register]), {register}));
  if (!registers.DS && !loads(listing, 'DS')) found.push(...ofDataSegment(run));
  if (run.mark) found.push(...ofThePrefix(run));
  const string = firsts.find(event => STRINGS.includes(opcodeOf(event)));
  const isOpen = !registers.ES && listing.lines.length && !loads(listing, 'ES') && !run.isEnded;
  return isOpen && string ? [...found, ...run.tell('extra segment', {}, string)] : found;
}

// The first line that reaches the label of another segment by a DS of 0.
function ofDataSegment(run) {
  const placed = [...run.listing.labels].filter(([, [segment]]) => segment);
  const labels = new Map(placed.map(it => [it[0].toUpperCase(), it]));
  for (const event of run.firsts) {
    const code = codeOf(run.lineAt(event).text);
    const [name, at] = labels.get(/\[(?:[^\]:]*\+)?\s*([A-Za-z_]\w*)\s*[\]+]/.exec(code)?.[1].toUpperCase()) ?? [];
    if (name && opcodeOf(event) !== LEA && !/\bBP\b|\b[ECS]S\s*:/i.test(code))
      return run.tell('data segment', {label: name, target: far(...at)}, event);
  }
  return [];
}

// Data of a program with services that all stand elsewhere than where DS leads, which is the PSP if no line loads it.
function ofThePrefix(run) {
  const {lines, rows} = run.listing, placed = [...lines, ...rows].filter(line => line.address);
  const is = (line, look) => look.test(codeOf(line.said));
  const isData = line => physical(...line.address) >= VECTORS_END && is(line, /\bD[BWD]\b/i);
  const data = placed.filter(isData), [first] = data;
  const isLoading = placed.some(line => is(line, /\b(MOV|POP)\s+DS\b|\bLDS\b|\b[CES]S\s*:/i));
  if (!first || !run.firsts.length || isLoading) return [];
  const {DS: ds} = run.registersAt(run.firsts[0].clock), [segment] = first.address;
  const {line: number, code} = lineIn(first);
  return data.every(line => line.address[0] !== ds) ? run.tell('prefix', {ds, number, code, segment}) : [];
}

// A near jump to a label of another segment.
function ofNearJumps(run) {
  return run.firsts.filter(event => [0xe9, 0xe8].includes(opcodeOf(event))).flatMap(event => {
    const found = /\b(?:JMP|CALL)\s+([A-Za-z_]\w*)\s*$/i.exec(codeOf(run.lineAt(event).text));
    const at = found && run.listing.labelOf(found[1]), to = run.targetOf(event);
    if (!at || !to || physical(...at) === physical(...to)) return [];
    return run.tell('near jump', {segment: event.segment, label: found[1], target: far(...at)}, event);
  });
}

// Lines that ran of which editors warn.
function ofDoubts(run) {
  const {lines} = run.listing, ran = new Set(run.firsts.map(event => run.lineAt(event).number));
  const labels = new Set(lines.map(({text}) => labelIn(text)?.toUpperCase()));
  return lines.filter(({number}) => ran.has(number)).flatMap(({text, number}) => {
    for (const [name, [look, says]] of Object.entries(clauses.doubts)) {
      const word = new RegExp(`^(?:${look})$`, 'i').exec(codeOf(text))?.[1], upper = word?.toUpperCase();
      if (!word || (name === 'offset-in-byte' && !labels.has(upper))) continue;
      return run.tell('doubt', {text: filled(says, [word, upper, Number(word)]), line: number});
    }
    return [];
  });
}

// A far pointer among the vectors that is none of them.
function ofVectors(run) {
  const isOne = ({address, text}) => address && physical(...address) < VECTORS_END && physical(...address) % 4
    && /\bDW\s+\w+\s*,\s*SEG\s/i.test(codeOf(text));
  const line = run.listing.lines.find(isOne);
  return line ? run.tell("vector's place", {...lineIn(line), address: physical(...line.address)}) : [];
}

// A port that the program reads, and where nothing answers.
function ofPorts(run) {
  const known = new Set(ANSWERING);
  return run.parts.flatMap(({events, reads}) => reads.flatMap(({at, place: port, value}) => {
    const event = events[at];
    if (!event || value !== FF || known.has(port) || !run.isOwn(event)) return [];
    known.add(port);
    return run.tell('unanswered port', {port}, event);
  }));
}

// The code of a key that is written as a character soon after it was read, or from which '0' is taken.
function ofScanCodes(run) {
  for (const {events, writes, reads} of run.parts)
    for (const {at, value: code} of reads.filter(({place, value}) => place === KEYBOARD && NAMES.has(value))) {
      const soon = events.slice(at, at + SOON), cut = soon.findIndex(event => LOADS_AL.includes(opcodeOf(event)));
      const isWritten = n => writes.some(({at: by, place, value}) => by === n && value === code && TEXT <= place
        && place <= TEXT_END && place % 2 === 0);
      const isTaken = event => hexOf(event.octets) === '2C30' && code < 0x30
        && (run.registersAt(event.clock).AX & 0xff) === code;
      const place = soon.slice(0, cut < 0 ? SOON : cut).findIndex((event, n) => isWritten(at + n) || isTaken(event));
      const sign = soon[place], values = {code, key: NAMES.get(code), by: sign && run.place(events[at])};
      if (sign && run.isOwn(sign)) return run.tell('scan code', values, sign);
    }
  return [];
}

// The line of DB that begins at an address, of three numbers or more, and the end of its bytes and of those of DB below
// it; or null.
function blockAt({listing: {at, lines}}, address) {
  const line = at.get(address), code = line ? codeOf(line.text) : '';
  if (statementOf(line) !== 'DB' || /'|\bDUP\b/i.test(code) || code.split(',').length < 3) return null;
  const rest = lines.slice(line.number - 1), end = rest.findIndex(row => statementOf(row) !== 'DB');
  const after = end < 0 ? null : rest.slice(end).find(row => row.address);
  return after ? {line, end: physical(...after.address)} : null;
}

// An instruction that reads words from a line of DB on, and past its end.
function ofWordsFromBytes(run) {
  for (const event of run.firsts) {
    const by = opcodeOf(event) === 0x8b ? BY_FORM[event.octets.at(-1) & 0xc7] : null;
    const name = OF_WORDS.includes(opcodeOf(event)) ? 'SI' : by;
    const placeIn = it => physical(it.DS, it[name]), [first] = name ? run.registersOften(event) : [];
    const block = first && blockAt(run, placeIn(first));
    if (!block) continue;
    const {line, end} = block, last = 2 * end + 2 - physical(...line.address);
    const beyond = [...run.registersOften(event)].slice(1).map(placeIn).find(at => end + 2 <= at && at < last);
    if (beyond !== undefined) return run.tell('words from bytes', {line: line.number, address: beyond}, event);
  }
  return [];
}

const ALL = [ofSegments, ofNearJumps, ofDoubts, ofVectors, ofPorts, ofScanCodes, ofWordsFromBytes];
export const ofTheSource = run => ALL.flatMap(of => of(run));
