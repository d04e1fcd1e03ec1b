// The calls of the library, answered by the programs themselves on pipes: what the desk's modules are tested over where
// there is no zebludor.wasm.
import {execFileSync, spawn, spawnSync} from 'node:child_process';
import fs from 'node:fs';
import os from 'node:os';
import path from 'node:path';

const ENDING = `back ${2 ** 40 + 1}`, ENDED = 'fault 54 BeforeStart\n';
const FAULT = /^fault (\d+) \w+(?: line (\d+))?/;

export class Native {
  constructor(programs) {
    this.programs = programs;
    this.room = fs.mkdtempSync(path.join(os.tmpdir(), 'zebludor-'));
    this.count = 0;
    process.on('exit', () => fs.rmSync(this.room, {recursive: true, force: true}));
  }

  limit() {}

  #put(name, text) {
    const file = path.join(this.room, `${++this.count}${name}`);
    fs.writeFileSync(file, text);
    return file;
  }

  program(name, words, file, run, input) {
    const files = {FILE: this.#put('file', file), RUN: this.#put('run', run)};
    const ran = spawnSync(this.programs[name], words.map(word => files[word] ?? word), {input, maxBuffer: 1 << 28});
    return {status: ran.status, out: ran.stdout, err: ran.stderr};
  }

  masm(texts, hasMap, isMasm) {
    const folder = fs.mkdtempSync(path.join(this.room, 'masm'));
    const files = texts.map(({name, bytes}) => path.join(folder, name));
    texts.forEach(({bytes}, n) => fs.writeFileSync(files[n], bytes));
    const flags = [...(hasMap ? ['--map'] : []), ...(isMasm ? ['--masm'] : [])];
    const ran = spawnSync(this.programs.pcmasm, [...flags, ...files], {maxBuffer: 1 << 28});
    const named = octets => Buffer.from(octets.toString('latin1').replaceAll(`${folder}/`, ''), 'latin1');
    return {status: ran.status, out: named(ran.stdout), err: named(ran.stderr)};
  }

  session(name, source, run, isHex) {
    const [to, from] = ['to', 'from'].map(end => path.join(this.room, `${++this.count}${end}`));
    execFileSync('mkfifo', [to, from]);
    const file = this.#put('file', source), fields = this.#put('run', run),
      words = [...(isHex ? ['--hex'] : []), '--', file, fields];
    const child = spawn('sh', ['-c', 'exec "$0" "$@" < $TO > $FROM 2> $FROM.err', this.programs[name], ...words], {
      env: {...process.env, TO: to, FROM: from},
      stdio: 'ignore',
    });
    child.unref();
    const session = {child, to: fs.openSync(to, 'w'), from: fs.openSync(from, 'r'), fault: 0, line: 0, heard: ''};
    try {
      session.heard = this.#heard(session, '');
    } catch {
      const fault = FAULT.exec(fs.readFileSync(`${from}.err`, 'utf8')) ?? [0, 99, 0];
      Object.assign(session, {fault: Number(fault[1]), line: Number(fault[2] ?? 0)});
    }
    return session;
  }

  command(session, line) {
    return {text: Buffer.from(this.#heard(session, `${line}\n`)), fault: 0};
  }

  // What lines are answered, up to the answer that ends them.
  #heard(session, lines) {
    fs.writeSync(session.to, `${lines}${ENDING}\n`);
    let heard = '';
    const piece = Buffer.alloc(1 << 16);
    while (!heard.endsWith(ENDED)) {
      const count = fs.readSync(session.from, piece);
      if (!count) throw new Error('the session has ended');
      heard += piece.toString('latin1', 0, count);
    }
    return heard.slice(0, -ENDED.length);
  }

  drop(session) {
    fs.closeSync(session.to);
    fs.closeSync(session.from);
  }
}
