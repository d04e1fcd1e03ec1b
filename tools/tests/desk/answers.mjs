// node answers.mjs HAS [zebludor.wasm]: answers the page's questions on standard input, a line of JSON each, as its
// engine does; one that lasts long by {"working": true}. If a source includes a text, it asks for it by {"wanted": NAME},
// and the next line has what was found. Without a library the programs that PCBOARD, PCPROBE and PCMASM name stand in
// for it.
import fs from 'node:fs';
import readline from 'node:readline';

import {Engine} from '../../../web/desk/engine.mjs';
import {Sorry} from '../../../web/desk/session.mjs';
import {Zebludor} from '../../../web/zebludor.mjs';
import {Native} from './native.mjs';

const [has, wasm] = process.argv.slice(2), {PCBOARD, PCPROBE, PCMASM} = process.env;
const module = wasm && new WebAssembly.Module(fs.readFileSync(wasm));
const make = () => (wasm ? new Zebludor(module) : new Native({pcboard: PCBOARD, pcprobe: PCPROBE, pcmasm: PCMASM}));
const lines = readline.createInterface({input: process.stdin})[Symbol.asyncIterator]();
const next = async () => {
  const {value, done} = await lines.next();
  if (done) process.exit(0);
  return JSON.parse(value);
};
process.stdout.on('error', () => process.exit(0)); // who asked has ended
const print = answer => process.stdout.write(`${JSON.stringify(answer)}\n`);

async function include(name) {
  print({wanted: name});
  const found = await next();
  if (found?.sorry) throw new Sorry(found.sorry);
  return found && {name: found.name, bytes: Uint8Array.from(Buffer.from(found.bytes, 'base64'))};
}

const engine = new Engine(make, JSON.parse(fs.readFileSync(has)), include);
for (;;) {
  const question = await next();
  try {
    print(await engine.answer(question));
  } catch (error) {
    print({error: error.message});
  }
}
