// How a source is taken by its look: as it is; with the services before it, as a program that DOS would load; or
// translated, of MASM.
import {otherIn} from '../origin.mjs';
import {kindOf} from './faults.mjs';
import {imageOf, Listing, hexOfSource, lineOf, ownLines, ownName, partsOf, placedLabels,
  rowsOfSource} from './listing.mjs';
import {refusedIn, whatToDo} from './refusals.mjs';
import {LEAST_RAM, MOST_RAM} from './services.mjs';
import {Refused, Sorry, hex, physical} from './session.mjs';

const CALL = /^.{10}CD(10|16|20|21) .*?\s(?:\w+\s*:\s*)?INT\s/im, RESET = 0xffff0, ROM = 0xf0000, BLOCK = 0xfffe0;
const SERVICES_OWN = 0x1000, PSP = 0x100, ENVIRONMENT = 0xe0, ROOM_BEFORE = PSP - ENVIRONMENT + 1;
const DIALECT = /^[ \t]*(?:\w+[ \t]*:[ \t]*)?SEGMENT[ \t]+\w+[ \t]+AT\b/im, MADE = /^[.?]+\d+$/, MOST_INCLUDED = 64;
const THEIRS = 'from F6000h on all is theirs';
const NAME = 'SOURCE', TAIL = 126;
const FILE_CALLS = /\xB4[\x3C-\x43\x4E\x4F\x56]|\xB8[^][\x3C-\x43\x4E\x4F\x56]/, DISK_KB = 192;
const decoder = new TextDecoder(), encoder = new TextEncoder(), latin = new TextDecoder('latin1');

// Lines of a source of MASM that are refused: {line, text} each.
export class Remarks extends Sorry {
  constructor(them) { super(them[0]?.text ?? 'refused'); this.them = them; }
}

// A text that a source includes, and that wasn't looked for beside it yet.
export class Wanted extends Sorry {
  constructor(name) { super(`the source includes ${name}`); this.file = name; }
}

// How a source is taken: `masm`, `served` or neither; by its look, if no word says it.
export function kindOfSource(library, source, {bare, services, language} = {}) {
  if (bare) return '';
  if (language === 'masm' || (language !== 'dialect' && isMasm(library, source))) return 'masm';
  if (services) return 'served';
  if (!/\bINT\b/i.test(source)) return '';
  try {
    return !imageOf(hexOfSource(library, source)).has(RESET) && CALL.test(rowsOfSource(library, source).join('\n'))
      ? 'served' : '';
  } catch (error) {
    if (error instanceof Sorry) return '';
    throw error;
  }
}

// Whether what stands in a text shows that it is a source of MASM.
export const isMasm = (library, source) => !DIALECT.test(source) && !otherIn(library, encoder.encode(source));

// A source of MASM in the dialect: its lines, and where each comes from. It includes what stands beside it, by small
// letters, and what is ours.
export function translationOf(library, source, {ours, beside}) {
  const texts = [{name: NAME, bytes: source}];
  for (;;) {
    const {status, out, err} = library.masm(texts, true, true), said = placesIn(decoder.decode(err));
    const wanted = status && said.length ? /^includes (.*), which isn't given$/.exec(said[0].text) : null;
    if (!wanted && status)
      throw said.length ? new Remarks(said.map(remarkOf)) : new Sorry(decoder.decode(err).trim() || 'no translation');
    if (!wanted) return placesIn(decoder.decode(out));
    if (texts.length > MOST_INCLUDED) throw new Sorry(`the source includes more than ${MOST_INCLUDED} files`);
    texts.push(includedBy(wanted[1], ours, beside));
  }
}
function includedBy(wanted, ours, beside) {
  const key = wanted.toLowerCase();
  if (!beside.has(key)) throw new Wanted(wanted);
  const name = Object.keys(ours).find(it => it.toLowerCase() === key), names = Object.keys(ours).sort().join(', ');
  if (beside.get(key)) return beside.get(key);
  if (!name) throw new Sorry(`the source includes ${wanted}, which isn't beside it; of our own there is ${names}`);
  return {name, bytes: ours[name]};
}
function placesIn(answer) {
  const rows = answer.split('\n').map(row =>
    /^([^\n]*?):(\d+):[ \t](.*)$/.exec(row.replace(/\r$/, ''))).filter(Boolean);
  return rows.map(([, name, line, text]) => ({name, line: Number(line), text}));
}
// What is told of a line; of another text's all that is told, and no line.
const remarkOf = ({name, line, text}) => (name === NAME ? {line, text}
  : {line: null, text: `${name}, line ${line}: ${text}`});

// The lines of a translation that the program refuses, each once, as the user's that they are made of.
function* refusedOf(library, rows) {
  const lines = rows.map(({text}) => text), known = new Set();
  for (const [fault] of refusedIn(library, textOf(rows))) {
    const {name} = kindOf(fault.number), at = rows[(fault.line ?? 1) - 1], place = `${at.name}:${at.line}`;
    const why = `(fault ${fault.number}, ${name}, of the dialect's line ${at.text.trim()})`;
    if (!known.has(place)) yield remarkOf({...at, text: `${whatToDo(lines, fault)} ${why}`});
    known.add(place);
  }
}
const textOf = rows => rows.map(({text}) => `${text}\n`).join('');

// The refused lines of a source of MASM: those that aren't translated, else those that the program refuses of the
// translation.
export function refusedOfMasm(library, source, includes) {
  try {
    return [...refusedOf(library, translationOf(library, source, includes))];
  } catch (error) {
    if (error instanceof Wanted) throw error;
    if (error instanceof Remarks) return error.them;
    if (error instanceof Sorry) return [{line: null, text: error.message}];
    throw error;
  }
}

// The rows of the dialect's listing that come of a line of a source of MASM; none, if a line is refused.
export function rowsOfLine(library, source, includes, number) {
  try {
    const rows = translationOf(library, source, includes), listed = rowsOfSource(library, textOf(rows));
    return listed.filter((_, n) => rows[n].name === NAME && rows[n].line === number);
  } catch (error) {
    if (error instanceof Wanted || !(error instanceof Sorry)) throw error;
    return [];
  }
}

// The program of a source of MASM.
function translated(library, source, data, more) {
  const rows = translationOf(library, source, more.includes);
  try {
    const found = loaded(library, textOf(rows), data, more);
    return {...found, listing: ownListing(found, rows, ownLines(source))};
  } catch (error) {
    const {value} = error instanceof Refused ? refusedOf(library, rows).next() : {};
    throw value ? new Remarks([value]) : error;
  }
}

// The listing of a source of MASM: its own lines and names, at the places of what they become.
function ownListing({rows, labels}, places, own) {
  const made =
    rows.map((line, n) => ({...line, number: places[n].line, text: own[places[n].line - 1] ?? '', isMade: true}));
  const isOwn = made.map((_, n) => places[n].name === NAME), first = new Map();
  made.forEach((line, n) => {
    if (isOwn[n] && (!first.has(line.number) || (line.address && !first.get(line.number).address)))
      first.set(line.number, line);
  });
  const blank = number => ({number, text: own[number - 1], said: '', address: null, shown: new Uint8Array()});
  const lines = own.map((_, n) => first.get(n + 1) ?? blank(n + 1)), found = new Listing(lines);
  made.forEach((line, n) => {
    const at = line.address && physical(...line.address);
    if (isOwn[n] && line.address && !found.at.has(at)) found.at.set(at, line);
  });
  const named = placedLabels(made).map(([name, place]) => [ownName(name), place]).filter(([name]) => !MADE.test(name));
  found.labels = new Map([...named, ...labels]);
  found.rows = made;
  return found;
}

// A source of the dialect with the services. It begins where its far jump at FFFF:0000 leads, which gives way to
// theirs, else with its first byte. One that begins at offset 100h of a segment whose first 256 bytes are free is laid
// out as a .COM program; else the PSP stands after the source's last byte in RAM.
function loaded(library, text, data, {ram, args}) {
  const image = imageOf(hexOfSource(library, text));
  const rows = rowsOfSource(library, text).map((row, n) => lineOf(n + 1, row));
  const reset = [...image.keys()].filter(at => at >= RESET).sort((a, b) => a - b), octet = n => image.get(RESET + n);
  const isJump = reset.length === 5 && reset[4] === RESET + 4 && octet(0) === 0xea;
  if (reset.length && !isJump) throw new Sorry('at FFFF:0000 stands nothing but JMP FAR start, or nothing');
  const first = rows.find(line => line.address)?.address ?? [0, 0];
  const start = isJump ? [octet(3) + 256 * octet(4), octet(1) + 256 * octet(2)] : first;
  for (const at of reset) image.delete(at);
  if (!image.size) throw new Sorry('the source has no bytes but at FFFF:0000');
  const psp = placeOfPsp(image, start, ram), environment = psp - ROOM_BEFORE + 1;
  put(image, 16 * psp, prefix(psp, environment, tailOf(args ?? '')));
  put(image, 16 * environment, [...ascii('COMSPEC=C:\\COMMAND.COM\x00\x00\x01\x00C:\\IT.ASM'), 0]);
  put(image, BLOCK, words(psp, start[1], start[0], 0xfffe, psp, environment));
  const labels = new Map([['start', start]]);
  for (const name of ['bios', 'dos']) {
    const theirs = data.services[name], taken = imageOf(theirs.hex);
    const clash = [...image.keys()].filter(at => taken.has(at)).sort((a, b) => a - b)[0];
    if (clash !== undefined)
      throw new Sorry(`the program has a byte at ${hex(clash, 5)}h, where the services stand: ${THEIRS}`);
    for (const [label, place] of Object.entries(theirs.labels)) labels.set(`${name}_${label}`, place);
  }
  withDisk(image, labels, psp + 0x1000, ram);
  const lines =
    rows.map(line => (line.address && physical(...line.address) >= RESET ? {...line, address: null} : line));
  labels.delete('start');
  const hexes = ['bios', 'dos'].map(name => data.services[name].hex.replace(':00000001FF\n', ''));
  return {hex: hexes.join('') + hexOfImage(image), image, rows: lines, labels};
}
const ascii = text => [...text].map(it => it.charCodeAt(0));
const words = (...them) => them.flatMap(it => [it & 0xff, it >> 8]);
function put(image, address, octets) { octets.forEach((octet, n) => image.set(address + n, octet)); }

// The paragraph of a source's PSP.
function placeOfPsp(image, start, ram) {
  const low = 16 * (start[0] - ROOM_BEFORE), [segment] = start, addresses = [...image.keys()];
  const isFree = !addresses.some(at => low <= at && at < 16 * segment + 0x100);
  if (start[1] === 0x100 && low >= 0x600 && isFree) return segment;
  const last = addresses.filter(at => at < ROM).reduce((a, b) => Math.max(a, b), 0x5ff);
  const psp = Math.max((last >> 4) + 1, 0x60) + ROOM_BEFORE;
  if (psp + 0x1000 <= 64 * ram - SERVICES_OWN) return psp;
  const room = `behind it is no room for 64 KB and for the services with ${ram} KB of RAM`;
  throw new Sorry(`the source has a byte at ${hex(last, 5)}h: ${room}`);
}

// A command's tail as DOS hands it on: a blank before what was typed, unless it has one or fills the room, and the
// return after it.
function tailOf(args) {
  if (!/^[ -~]*$/.test(args)) throw new Sorry('--args takes printable ASCII');
  if (args.length > TAIL) throw new Sorry(`--args takes ${TAIL} characters at most, and here are ${args.length}`);
  const tail = !args || args.startsWith(' ') || args.length === TAIL ? args : ` ${args}`;
  return [tail.length, ...ascii(tail), 0x0d];
}

// The program segment prefix. The services set the end of memory in it.
function prefix(psp, environment, tail) {
  const octets = new Uint8Array(256);
  octets.set([0xcd, 0x20, 0, 0, 0, 0x9a, 0xf0, 0xfe, 0x1d, 0xf0]);
  octets.set(words(psp), 0x16);
  octets.set([...words(psp)], 0x36);
  octets.set([1, 1, 1, 0, 2, ...Array(15).fill(0xff)], 0x18);
  octets.set(words(environment), 0x2c);
  octets.set(words(20, 0x18), 0x32);
  octets.set([0xcd, 0x21, 0xcb], 0x50);
  octets.fill(0x20, 0x5d, 0x68).fill(0x20, 0x6d, 0x78);
  octets.set(tail, 0x80);
  return octets;
}

// An empty disk of files for a program that may use it, if there is room.
function withDisk(image, labels, end, ram) {
  const isUsing = partsOf(image).some(([, octets]) => FILE_CALLS.test(latin.decode(octets)));
  const base = 64 * ram - SERVICES_OWN - 64 * DISK_KB;
  const last = [...image.keys()].filter(at => at < ROM).reduce((a, b) => Math.max(a, b), 0) >> 4;
  if (!isUsing || Math.max(last + 1, end) > base) return;
  const [segment, offset] = labels.get('dos_beside'), block = Array.from({length: 12}, (_, n) => image.get(BLOCK + n));
  put(image, BLOCK, [...block.slice(0, 2), ...words(offset, segment), ...block.slice(6), ...block.slice(2, 6)]);
  put(image, 16 * base, [0xff, 0xff]);
}

// An image as Intel HEX, sixteen bytes a record.
function hexOfImage(image) {
  const rows = [];
  let bank = -1;
  for (const [first, octets] of partsOf(image))
    for (let at = 0; at < octets.length; ) {
      const address = first + at, count = Math.min(16 - (address & 15), octets.length - at);
      if (address >> 16 !== bank) { bank = address >> 16; rows.push(record(0, 2, [(bank << 12) >> 8, 0])); }
      rows.push(record(address & 0xffff, 0, [...octets.slice(at, at + count)]));
      at += count;
    }
  return [...rows, record(0, 1, []), ''].join('\n');
}
// A record of Intel HEX.
export function record(offset, kind, data) {
  const octets = [data.length, offset >> 8, offset & 0xff, kind, ...data], sum = octets.reduce((a, b) => a + b, 0);
  return `:${octets.map(it => hex(it, 2)).join('')}${hex(-sum & 0xff, 2)}`;
}

// What a source becomes, with its listing: {text, isHex, listing, image, kind}. Its run's fields may get all the RAM
// that there can be. `more` has the command's tail, and what it may include.
export function takenAs(library, source, fields, data, kind, more) {
  if (!kind) return null;
  if (typeof fields.ram === 'number' && fields.ram < LEAST_RAM) fields.ram = MOST_RAM;
  if (!Number.isInteger(fields.ram) || fields.ram > MOST_RAM)
    throw new Sorry(`the services want ${LEAST_RAM} to ${MOST_RAM} KB of RAM: "ram":${MOST_RAM}`);
  const found = (kind === 'masm' ? translated : loaded)(library, source, data, {...more, ram: fields.ram});
  const whole = imageOf(found.hex), listing = found.listing ?? servedListing(found);
  for (const line of new Set([...listing.lines, ...listing.at.values(), ...listing.rows]))
    if (line.address) asLoaded(line, whole);
  listing.parts = partsOf(whole);
  return {text: found.hex, isHex: true, listing, image: whole};
}
function servedListing({rows, labels}) { return new Listing(rows, new Map([...placedLabels(rows), ...labels])); }
// A line has the program's own bytes, up to eight.
function asLoaded(line, image) {
  const first = physical(...line.address), octets = [];
  while (octets.length < 8 && image.has((first + octets.length) % (1 << 20)))
    octets.push(image.get((first + octets.length) % (1 << 20)));
  line.shown = Uint8Array.from(octets);
}
