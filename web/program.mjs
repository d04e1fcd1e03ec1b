// The programs in node, over files and streams of the system: each answers by zebludor.wasm.
import fs from 'node:fs';
import {fileURLToPath} from 'node:url';

import {otherIn} from './origin.mjs';
import {print, readAll, readFile, readSome, textOf} from './streams.mjs';
import {Zebludor} from './zebludor.mjs';

const TOP = fileURLToPath(new URL('..', import.meta.url));
const PLACES = ['crates/zebludor_program/out/wasm', 'stored'];
const SOURCE = 1048577; // one byte more than a source may have
const LF = 10;
const IS_QUIT = /^ *quit *$/;
const NONE = new Uint8Array();
const FLAGS = ['--map', '--masm', '--origin'];
const USAGE = 'pcmasm [--map] [--masm] [--origin] FILE [INCLUDED ..]: a source of MASM, TASM or emu8086 in the dialect';

function tell(name, text) {
  print(2, Buffer.from(`${name}: ${text}\n`));
}

// A file's bytes; null if it can't be opened or read.
function bytesOf(path, most) {
  try {
    return readFile(path, most);
  } catch (error) {
    if (!error.code) throw error;
    return null;
  }
}

// What the words ask for, and the places of those that name files, FILE and RUN.
export function taskOf(name, words) {
  const end = words.indexOf('--') < 0 ? words.length : words.indexOf('--');
  const isName = place => place > end || words[place] === '-' || !words[place].startsWith('-');
  const places = [...words.keys()].filter(place => place !== end && isName(place));
  if (name === 'pcprobe') return ['debug', places.slice(0, 2)];
  const task = words[places[0]];
  return [task, places.slice(1, task === 'asm' ? 2 : 3)];
}

// Answers the lines of a session as they come, until one is `quit` or the input ends.
function answerLines(zebludor, session) {
  let typed = Buffer.alloc(0);
  for (let isOpen = true; isOpen; ) {
    const piece = readSome(0);
    typed = Buffer.concat([typed, piece]);
    isOpen = piece.length > 0;
    for (let end; (end = typed.indexOf(LF)) >= 0 || (!isOpen && typed.length); ) {
      const line = typed.subarray(0, end < 0 ? typed.length : end);
      typed = typed.subarray(end < 0 ? typed.length : end + 1);
      if (IS_QUIT.test(line.toString('latin1'))) return;
      print(1, zebludor.command(session, line).text);
    }
  }
}

// As `pcmasm --origin` tells it: masm, nasm or dialect and the first line that shows it; null if no line does. The
// first line that shows MASM is the last of the fewest that do.
function originOf(library, bytes) {
  const ends = [...bytes.keys()].filter(at => bytes[at] === LF).concat(bytes.length), other = otherIn(library, bytes);
  if (other) return other[1] === ends.length + 1 ? null : other;
  let [without, lines] = [0, ends.length];
  while (lines - without > 1) {
    const middle = (without + lines) >> 1;
    if (otherIn(library, bytes.subarray(0, ends[middle - 1]))) without = middle;
    else lines = middle;
  }
  return ['masm', lines];
}

// Runs pcboard or pcprobe on its words, and answers the exit status.
function run(zebludor, name, words) {
  const [task, names] = taskOf(name, words), isHex = words.includes('--hex');
  const files = names.map((place, n) => bytesOf(words[place], n === 0 && !isHex ? SOURCE : Infinity));
  const given = [...words];
  names.forEach((place, n) => (given[place] = files[n] ? ['FILE', 'RUN'][n] : 'NONE'));
  if (given.some(word => /\n|\r$/.test(word))) {
    tell(name, "a word that breaks a line isn't taken");
    return 2;
  }
  const [file, said] = [files[0] ?? NONE, files[1] ?? NONE];
  const input = words.length || name === 'pcprobe' ? NONE : readAll(0);
  const {status, out, err} = zebludor.program(name, given, file, said, input);
  print(1, out);
  print(2, err);
  if (status === 0 && task === 'debug') answerLines(zebludor, zebludor.session(name, file, said, isHex));
  return status;
}

// Runs pcmasm on its words, and answers the exit status.
function translate(zebludor, words) {
  const first = words.findIndex(word => !FLAGS.includes(word));
  const names = first < 0 ? [] : words.slice(first), flags = words.slice(0, words.length - names.length), texts = [];
  for (const name of names) {
    try {
      texts.push({name: name.slice(name.lastIndexOf('/') + 1), bytes: readFile(name)});
    } catch (error) {
      if (!error.code) throw error;
      tell('pcmasm', `${name}: ${textOf(error)}`);
      return 2;
    }
  }
  if (!names.length) {
    print(2, Buffer.from(`${USAGE}\n`));
    return 2;
  }
  if (flags.includes('--origin')) {
    const found = originOf(zebludor, texts[0].bytes);
    if (found) print(1, Buffer.from(`${found.join(' ')}\n`));
    return 0;
  }
  const {status, out, err} = zebludor.masm(texts, flags.includes('--map'), flags.includes('--masm'));
  print(1, out);
  print(2, err);
  if (status !== 3) return status;
  tell('pcmasm', 'no memory');
  return 1;
}

// Runs the program of a name on the words that node was given, and leaves its status as node's.
export function start(name) {
  const place = PLACES.map(folder => `${TOP}${folder}/zebludor.wasm`).find(fs.existsSync);
  const words = process.argv.slice(2);
  if (!place) {
    tell(name, 'there is no zebludor.wasm; dev/build zebludor_program --target wasm makes it');
    process.exitCode = 127;
    return;
  }
  try {
    const zebludor = new Zebludor(new WebAssembly.Module(fs.readFileSync(place)));
    process.exitCode = name === 'pcmasm' ? translate(zebludor, words) : run(zebludor, name, words);
  } catch (error) {
    if (!error.code && !(error instanceof RangeError)) throw error;
    process.exitCode = 3; // a read or a write failed, or there is no memory for a text
  }
}
