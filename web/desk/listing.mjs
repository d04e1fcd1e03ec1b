// Where a source's lines and labels stand, as the program's listing tells it; and places as a person says them.
import {Refused, Sorry, bytesOf, far, hex, physical, same} from './session.mjs';

const ADDRESS_COLUMNS = 28, PROBE = 'PROBE_OF_LABELS';
const PLACED = /^([0-9A-F]{4}):([0-9A-F]{4}) ((?:[0-9A-F]{2})*)\+? /;
const decoder = new TextDecoder();

// The lines of a text.
export const ownLines = text => text.split('\n').map(line => line.replace(/\r+$/, ''));

// A line without its comment; a `;` in quotes is none.
export function codeOf(line) {
  let isQuoted = false;
  for (let at = 0; at < line.length; at++) {
    if (line[at] === ';' && !isQuoted) return line.slice(0, at).trimEnd();
    if (line[at] === "'") isQuoted = !isQuoted;
  }
  return line.trimEnd();
}

// The label that a line defines, or null. A segment's prefix is no label.
export function labelIn(line) {
  const found = line.includes(':') ? /^\s*([A-Za-z_]\w*)\s*:/.exec(codeOf(line)) : null;
  return found && !['ES', 'CS', 'SS', 'DS'].includes(found[1].toUpperCase()) ? found[1] : null;
}

// A name of a source of MASM as its user has it: the translation writes M_.. what the dialect can't have.
export function ownName(written) {
  if (!written.startsWith('M_')) return written;
  const code = (high, low) => String.fromCharCode(16 * (high.charCodeAt(0) - 65) + low.charCodeAt(0) - 65);
  return written.slice(2).replace(/_([A-P])([A-P])/g, (_, high, low) => code(high, low));
}

// A row of the listing: the line's text, and what it says in the dialect, which is another text of a source of MASM.
export function lineOf(number, row) {
  const found = row[4] === ':' ? PLACED.exec(row) : null, text = row.slice(ADDRESS_COLUMNS), said = text;
  if (!found) return {number, text, said, address: null, shown: new Uint8Array()};
  return {number, text, said, address: [parseInt(found[1], 16), parseInt(found[2], 16)], shown: bytesOf(found[3])};
}

// The labels that lines of the dialect define, each with the place of the next byte.
export function placedLabels(lines) {
  const found = [];
  let waiting = [];
  for (const line of lines) {
    const label = labelIn(line.said);
    if (label) waiting.push(label);
    if (!line.address) continue;
    for (const name of waiting) found.push([name, line.address]);
    waiting = [];
  }
  return found;
}

export class Listing {
  constructor(lines = [], labels = new Map()) {
    Object.assign(this, {lines, labels, at: new Map(), parts: [], rows: [], texts: new Map(), begun: [], absent: []});
    Object.assign(this, {readData: () => [], readConstants: () => new Map()});
    for (const line of lines) {
      const at = line.address && physical(...line.address);
      if (line.address && !this.at.has(at)) this.at.set(at, line);
    }
  }

  // The labels of data of which the source tells how long they are.
  get data() { return (this.itsData ??= this.readData()); }

  // EQU's names with their values, as far as the source tells them.
  get constants() { return (this.itsConstants ??= this.readConstants()); }

  // The label of data that begins at a physical address; of several the one that has the most bytes.
  datumAt(address) {
    const them = this.data.filter(({place}) => physical(...place) === address);
    return them.reduce((most, it) => (most && most.length >= it.length ? most : it), null);
  }

  // Whether a line begins at a physical address, or Intel HEX has a byte there.
  has(address) {
    return this.at.has(address) || this.parts.some(([first, octets]) => first <= address
      && address < first + octets.length);
  }

  // What the source has at a physical address: a line's number and text, or nothing.
  textAt(address) {
    const line = this.at.get(address);
    return line ? `${line.number}: ${codeOf(line.text).trim()}` : (this.texts.get(address) ?? '');
  }

  // `label` or `label+N` for an address: the nearest label at or before it in the same paragraph, or nothing.
  labelBefore(segment, offset) {
    let best = null;
    for (const [name, [para, at]] of this.labels)
      if (para === segment && at <= offset && (!best || at > best[0])) best = [at, name];
    if (!best) return '';
    return best[0] === offset ? best[1] : `${best[1]}+${hex(offset - best[0])}`;
  }

  // A label's segment and offset; upper and lower case are one.
  labelOf(name) {
    if (this.absent.includes(name.toLowerCase()))
      throw new Sorry(`${name} is not in the image: --symbols FILE,ram=PARAGRAPH tells where its section stands`);
    for (const [label, at] of this.labels) if (label.toLowerCase() === name.toLowerCase()) return at;
    return null;
  }
}

// What a program of the library prints of a source, or its refusal.
export function answerOf(library, words, text, run = '') {
  const {status, out, err} = library.program('pcboard', words, text, run, '');
  if (!status) return decoder.decode(out);
  const said = decoder.decode(err), fault = /^fault (\d+) \w+(?: line (\d+))?/.exec(said);
  if (fault) throw new Refused(Number(fault[1]), Number(fault[2] ?? 0));
  throw new Sorry(`the program refuses: ${said.trim() || `status ${status}`}`);
}
export const hexOfSource = (library, text) => answerOf(library, ['asm', '--', 'FILE'], text);
export const rowsOfSource = (library, text) =>
  answerOf(library, ['asm', '--list', '--', 'FILE'], text).split('\n').slice(0, -1);

// The labels' addresses, which no listing has. So the program is asked: it lists a copy of the source that ends with a
// segment of far pointers to them, in a place where the source has nothing.
function probed(library, source, names) {
  const text = names.map(name => `        DW ${name},SEG ${name}\n`).join('');
  for (const paragraph of [0x9000, 0x8000, 0x7000, 0x6000])
    for (const closing of ['', 'ENDS\n']) {
      try {
        const copy = `${source}\n${closing}SEGMENT ${PROBE} AT ${hex(paragraph, 5)}h\n${text}`;
        const rows = rowsOfSource(library, copy).slice(-names.length).map(row => lineOf(0, row).shown);
        return new Map(names.map((name, n) => [name, [rows[n][2] + 256 * rows[n][3], rows[n][0] + 256 * rows[n][1]]]));
      } catch (error) {
        if (!(error instanceof Sorry)) throw error;
      }
    }
  return new Map();
}

// The listing of a source of the dialect.
export function listingOf(library, source) {
  const lines = rowsOfSource(library, source).map((row, n) => lineOf(n + 1, row));
  const names = lines.map(line => labelIn(line.text)).filter(Boolean);
  return new Listing(lines, names.length ? probed(library, source, names) : new Map());
}

// The bytes of an Intel HEX text, by their addresses. Whether it is one, the program judges.
export function imageOf(text) {
  const found = new Map();
  let base = 0;
  for (const [, record] of text.matchAll(/^:([0-9A-Fa-f]{10,}) *\r?$/gm)) {
    const octets = bytesOf(record), at = 256 * octets[1] + octets[2], data = octets.slice(4, -1);
    if (octets[3] === 0) data.forEach((octet, place) => found.set((base + at + place) % (1 << 20), octet));
    else if (octets[3] === 2 || octets[3] === 4) base = (256 * data[0] + data[1]) * (octets[3] === 2 ? 16 : 65536);
  }
  return found;
}

// The listing of Intel HEX, with what a file of symbols tells, if it was read for the same bytes: labels, labels of
// sections without bytes, the source's text beside a place, and data.
export function listingOfHex(text, symbols) {
  const found = new Listing(), image = imageOf(text);
  found.parts = partsOf(image);
  if (!symbols || !isSame(image, imageOf(symbols.of))) return found;
  const {labels, absent, texts, data} = symbols;
  Object.assign(found, {labels: new Map(labels), absent, begun: texts.map(([place]) => place), readData: () => data});
  found.texts = new Map(texts.map(([place, shown]) => [physical(...place), shown]));
  return found;
}
const isSame = (one, other) => one.size === other.size && [...one].every(([at, octet]) => other.get(at) === octet);

// The parts of memory that bytes fill, each as long as it goes: [first, bytes].
export function partsOf(image) {
  const found = [];
  let end = -1;
  for (const address of [...image.keys()].sort((a, b) => a - b)) {
    if (address !== end) found.push([address, []]);
    found.at(-1)[1].push(image.get(address));
    end = address + 1;
  }
  return found.map(([first, octets]) => [first, Uint8Array.from(octets)]);
}

// The source line that placed an event's instruction, or none: also where other bytes stand there by now.
export function lineAt(listing, event) {
  const line = listing.at.get(event.address);
  if (!line || event.entry !== null) return line ?? null;
  return same(event.octets.slice(0, 8), line.shown.slice(0, event.octets.length)) ? line : null;
}

// A line of the trail, with label and source line, and without its clock.
export function lineText(listing, event) {
  const label = listing.labelBefore(event.segment, event.offset), line = lineAt(listing, event),
    isStart = event.entry === null;
  const what = isStart ? event.text : `interrupt ${hex(event.entry, 2)}`;
  const source = line && isStart ? `| ${line.number}: ${codeOf(line.text).trim()}` : '';
  return `${far(event.segment, event.offset)} ${label.padEnd(12)} ${what.padEnd(28)} ${source}`.trimEnd();
}

// A hexadecimal number as a user writes it: 0B8h, B8, 0xB8.
export function numberOf(text, most = 0xfffff) {
  const plain = text.replace(/^0x|h$/gi, '');
  if (!/^[0-9A-Fa-f]+$/.test(plain) || parseInt(plain, 16) > most)
    throw new Sorry(`${text} is no hexadecimal number up to ${hex(most)}, and no label`);
  return parseInt(plain, 16);
}

// Segment and offset of a place: a label, label+N, :LINE of the source, or SEGMENT:OFFSET.
export function farOf(listing, text) {
  const line = /^:(\d+)$/.exec(text);
  if (line) return ofLine(listing, Number(line[1]));
  const [before, after] = cutAt(text, ':');
  if (after !== null) return [numberOf(before, 0xffff), numberOf(after, 0xffff)];
  const [name, more] = cutAt(text, '+'), label = listing.labelOf(name);
  if (!label) throw new Sorry(`${text} is no label of the source; write a label, label+N, :LINE or SEGMENT:OFFSET`);
  return [label[0], (label[1] + (more ? numberOf(more, 0xffff) : 0)) & 0xffff];
}
function cutAt(text, sign) {
  const at = text.indexOf(sign);
  return at < 0 ? [text, null] : [text.slice(0, at), text.slice(at + 1)];
}

// Where the first bytes of a source line, or of the next one that places some, stand.
function ofLine(listing, number) {
  const found = listing.lines.find(line => line.number >= number && line.address);
  if (number < 1 || !found) throw new Sorry(`no line of the source from ${number} on places bytes`);
  return found.address;
}

// The physical address of a place: as for `farOf`, or a hexadecimal number.
export function addressOf(listing, text) {
  if (text.includes(':') || listing.labelOf(cutAt(text, '+')[0])) return physical(...farOf(listing, text));
  return numberOf(text);
}
