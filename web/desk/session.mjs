// A session of pcprobe in the library: one command at a time, and its answer.
export const LAST_CLOCK = 2 ** 40;
export const MEMORY = 1 << 20;
export const BEFORE_START = 'fault 54 BeforeStart';
const ORDER = ['version', 'ram', 'sw1', 'sw2', 'budget', 'keys', 'timer', 'clocks'];
const MOST_DUMPED = 4096;
export const patience = {seconds: 2}; // a search that may be long ends after so many
const decoder = new TextDecoder(), encoder = new TextEncoder();

// What the user can mend, as a sentence.
export class Sorry extends Error {}
// The board is gone, and is to be begun anew.
export class Gone extends Sorry {}
// A text that the program refuses: the fault's number, and maybe a line of it.
export class Refused extends Sorry {
  constructor(number, line) {
    super(`fault ${number}${line ? ` line ${line}` : ''}`);
    this.number = number;
    this.line = line || null;
  }
}

// A run file's text, the fields in the order of docs/formats.md.
export function runText(fields) {
  const names = [...ORDER.filter(it => it in fields), ...Object.keys(fields).filter(it => !ORDER.includes(it))];
  return `${JSON.stringify(Object.fromEntries(names.map(it => [it, fields[it]])))}\n`;
}

// An answer that isn't a refusal, but for one that is expected.
export function unrefused(answer) {
  if (answer.startsWith('fault') && answer !== BEFORE_START) throw new Sorry(`the debugger refuses: ${answer}`);
  return answer;
}

export class Session {
  // Of files {text, isHex, run}, of which `run` has the run file's fields.
  constructor(library, files) {
    this.library = library;
    this.clock = 0;
    this.handle = library.session('pcprobe', encoder.encode(files.text), encoder.encode(runText(files.run)),
      files.isHex);
    if (!this.handle.fault) return;
    const {fault, line} = this.handle;
    this.close();
    throw new Refused(fault, line);
  }

  close() { if (this.handle) this.library.drop(this.handle); this.handle = null; }

  // What a command is answered, also a refusal, as lines.
  heard(command) {
    if (!this.handle) throw new Gone('the board has ended');
    const text = decoder.decode(this.library.command(this.handle, command).text);
    const lines = text.split('\n');
    if (lines[lines.length - 1] === '') lines.pop();
    return lines;
  }

  // The line that answers a command, also a refusal.
  answer(command) {
    const [line] = this.heard(command), found = / ?clock (\d+)$/.exec(line);
    if (found) this.clock = Number(found[1]);
    return line;
  }

  // The line that answers a command, and the lines, if it isn't refused.
  one(command) { return unrefused(this.answer(command)); }

  many(command) { const lines = this.heard(command); if (lines.length) unrefused(lines[0]); return lines; }

  go(clocks) { return this.one(`go ${clocks}`); }

  // Back or on to a clock, past every stop.
  goTo(clock) {
    while (this.clock > clock) this.one(`back ${this.clock - clock}`);
    while (this.clock < clock) this.go(clock - this.clock);
  }

  // Bytes from a physical address on, as many as there are.
  dump(address, count) {
    const found = new Uint8Array(Math.max(0, Math.min(count, MEMORY - address)));
    for (let at = 0; at < found.length; ) {
      for (const line of this.many(`dump ${hex(address + at)} ${Math.min(MOST_DUMPED, found.length - at)}`)) {
        const octets = bytesOf(line.slice(line.indexOf(':') + 1).replaceAll(' ', ''));
        found.set(octets, at);
        at += octets.length;
      }
    }
    return found;
  }

  // What happens in so many clocks, past all stops, as lines of the probe's events.
  lines(clocks, kinds) { return this.happenings(`events ${clocks} ${kinds}`); }

  // What a command tells that goes on by clocks, and ends with where it is.
  happenings(command) {
    const found = this.many(command), last = found.pop();
    this.clock = Number(last.slice(6));
    return found;
  }
}

export function hex(value, digits = 1) { return value.toString(16).toUpperCase().padStart(digits, '0'); }
export const far = (segment, offset) => `${hex(segment, 4)}:${hex(offset, 4)}`;
export const physical = (segment, offset) => (16 * segment + offset) % MEMORY;
export function bytesOf(digits) {
  return Uint8Array.from({length: digits.length >> 1}, (_, n) => parseInt(digits.slice(2 * n, 2 * n + 2), 16));
}
export const hexOf = octets => Array.from(octets, it => hex(it, 2)).join('');
export const same = (one, other) => one.length === other.length && one.every((it, n) => it === other[n]);
// A number with commas, as sentences have it.
export const grouped = n => n.toLocaleString('en-US');
