// c/benches/answers.c for WebAssembly: node answers.mjs ZEBLUDOR.WASM, by the calls of web/zebludor.mjs. A module takes
// some dozens of questions; then comes a new one.
import fs from 'node:fs';

import {print, readSome} from '../../web/streams.mjs';
import {Zebludor} from '../../web/zebludor.mjs';

const module = new WebAssembly.Module(fs.readFileSync(process.argv[2]));
const LF = 10, NONE = Buffer.alloc(0);
let asked = Buffer.alloc(0), count = 0, most = 0, zebludor;

// The next bytes of standard input, as many as are wanted; fewer at its end.
function take(length) {
  for (let piece; asked.length < length && (piece = readSome(0)).length; ) asked = Buffer.concat([asked, piece]);
  const taken = asked.subarray(0, length);
  asked = asked.subarray(length);
  return taken;
}

// The next line of standard input; nothing at its end.
function takeLine() {
  let line = '';
  for (let next; (next = take(1).toString()) && next !== '\n'; ) line += next;
  return line;
}

// The lines of a text, as a session is typed them.
function linesOf(text) {
  const lines = [];
  for (let from = 0; from < text.length; ) {
    const end = text.indexOf(LF, from);
    lines.push(text.subarray(from, end < 0 ? text.length : end));
    from = end < 0 ? text.length : end + 1;
  }
  return lines;
}

function talk(kind, [file, run, typed, hex]) {
  const session = zebludor.session(kind === 'session' ? 'pcprobe' : 'pcboard', file, run, hex.length > 0);
  const out = session.fault ? [] : linesOf(typed).map(line => zebludor.command(session, line).text);
  zebludor.drop(session);
  return {status: session.fault, out: Buffer.concat(out), err: NONE};
}

function translate([names, lengths, bytes, flags]) {
  const texts = [], counts = new DataView(lengths.buffer, lengths.byteOffset, lengths.length);
  let from = 0;
  linesOf(names).forEach((name, n) => {
    const length = Number(counts.getBigUint64(8 * n, true));
    texts.push({name: name.toString(), bytes: bytes.subarray(from, (from += length))});
  });
  return zebludor.masm(texts, flags.includes('m'), flags.includes('x'));
}

function limit([bytes]) {
  most = Number(bytes);
  zebludor.limit(most);
  return {status: 0, out: NONE, err: NONE};
}

function answer(kind, texts) {
  if (kind === 'limit') return limit(texts);
  if (kind === 'masm') return translate(texts);
  if (kind === 'debug' || kind === 'session') return talk(kind, texts);
  return zebludor.program(kind, ...texts);
}

// What is answered if there is no memory for the texts or the answer.
function answerOrNone(kind, texts) {
  try {
    return answer(kind, texts);
  } catch (error) {
    if (error instanceof RangeError) return {status: 3, out: NONE, err: NONE};
    throw error;
  }
}

for (let line; (line = takeLine()); ) {
  const [kind, ...lengths] = line.split(' ');
  if (count++ % 50 === 0) {
    zebludor = new Zebludor(module);
    zebludor.limit(most);
  }
  const {status, out, err} = answerOrNone(kind, lengths.map(length => take(Number(length))));
  print(1, Buffer.concat([Buffer.from(`${status} ${out.length} ${err.length}\n`), out, err]));
}
