// Calls of services that were made, and ask for what isn't there: a text without its $, a mode of another adapter, a
// character in the wrong register, a file. A session stops where each of these calls begins.
import {registersOf} from './machine.mjs';
import {clauses, filled} from './sentences.mjs';
import {far, hexOf, physical} from './session.mjs';

const MOST_CALLS = 64, LONGEST_TEXT = 2000, LONGEST_NAME = 64; // signs: as many as the screen has, and of a name
const LOADED = /^(B0..B402|B402B0..)$/, MOV_DL = 0xb2, LAST_TEXT_MODE = 3, OWN_MODE = 7, DOLLAR = 0x24;
const DIRECTORY = 0x200, ENTRIES = 48, ENTRY = 32;
const latin = new TextDecoder('latin1');

// A text that no $ ends soon. One that goes past its segment's end isn't looked at.
function ofText(session, {registers: {DS, DX}}) {
  const address = physical(DS, DX), count = LONGEST_TEXT;
  if (DX + count > 0x10000 || session.dump(address, count).includes(DOLLAR)) return null;
  return {says: 'text', values: {text: far(DS, DX), most: count}, address, count};
}

// A character that stands in AL, with 0 in DL, or is loaded just before the call, after no load of DL.
function ofCharacter(session, {registers: {AX, DX}, address}) {
  const sign = AX & 0xff, before = session.dump((address - 6) & 0xfffff, 6);
  const isLoaded = before[0] !== MOV_DL && LOADED.test(hexOf(before.slice(2)));
  if (sign < (isLoaded ? 0x20 : 0x21) || sign >= 0x7f || (DX & 0xff && !isLoaded)) return null;
  const shown = String.fromCharCode(sign).replace('\\', '\\\\'), quote = shown === "'" ? '"' : "'";
  return {says: 'character', values: {sign: quote + shown + quote}};
}

// A mode of graphics, which another adapter has.
function ofMode(_, {registers: {AX}}) {
  const mode = AX & 0x7f;
  return mode <= LAST_TEXT_MODE || mode === OWN_MODE ? null : {says: 'mode', values: {mode}};
}

// A file that isn't on the disk, and is opened.
function ofFile(session, {named}) {
  const file = latin.decode(session.dump(named, LONGEST_NAME)).split('\0')[0];
  return /^[ -~]*$/.test(file) ? {says: 'file', values: {file}} : null;
}

const KINDS = {dos_write_text: ofText, dos_write_char: ofCharacter, bios_mode: ofMode, dos_no_file: ofFile};

// Which of the first calls of a run ask for what isn't there.
function doubtful(run) {
  const kinds = Object.entries(KINDS).map(([name, kind]) => [run.listing.labels.get(name), kind]).filter(([at]) => at);
  return run.within(0, session => {
    const found = [];
    for (const [place] of kinds) session.one(`break ${far(...place)}`);
    for (let count = 0; count < MOST_CALLS && session.clock < run.end; count++) {
      if (!session.go(run.end - session.clock).startsWith('stop')) break;
      const registers = registersOf(session.many('regs')), {SS, BP, CS, IP} = registers;
      const frame = session.dump(physical(SS, BP), 22), word = at => frame[at] + 256 * frame[at + 1];
      const place = [word(20), (word(18) - 2) & 0xffff], named = physical(word(12), word(6));
      const call = {at: session.clock, registers, named, place, address: physical(...place), count: 2};
      const more = kinds.find(([at]) => at[0] === CS && at[1] === IP)[1](session, call);
      if (more) found.push({...call, ...more});
    }
    return found;
  });
}

// Whether a program's disk has a file at the run's end.
function isOnDisk({board, left}, path) {
  const head = left.disk ? board.dump(16 * left.disk + DIRECTORY, ENTRIES * ENTRY) : [];
  const nameIn = at => [[at, at + 8], [at + 8, at + 11]].map(part => latin.decode(head.slice(...part)).trimEnd());
  const names = Array.from({length: head.length / ENTRY}, (_, n) => nameIn(ENTRY * n).filter(Boolean).join('.'));
  return names.includes(path.toUpperCase().replace(/^(.:)?[\\/]?/, ''));
}

// Each by the first time that its place made it; `placeOf` names places.
export function ofCalls(run, placeOf) {
  const found = new Map();
  for (const {says, values, place, registers, ...call} of run.mark ? doubtful(run) : []) {
    const remark = filled(clauses.asked[says], {...values, place: placeOf(...place)});
    if (!found.has(remark) && !(says === 'file' && isOnDisk(run, values.file)))
      found.set(remark, run.tell('asked for', {...registers, ...call, remark}));
  }
  return [...found.values()].flat();
}
