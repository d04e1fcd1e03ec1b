// node refusing.mjs WORD HAS [zebludor.wasm]: answers a list of questions, JSON on standard input, as the page's engine
// does while the first command of sessions that has this word is refused for want of memory. Prints JSON: `said`, the
// answers, which end with one that begins no board, and `seen`, the words of all commands.
import fs from 'node:fs';

import {Engine} from '../../../web/desk/engine.mjs';
import {Zebludor} from '../../../web/zebludor.mjs';
import {Native} from './native.mjs';

const [word, has, wasm] = process.argv.slice(2), {PCBOARD, PCPROBE, PCMASM} = process.env;
const module = wasm && new WebAssembly.Module(fs.readFileSync(wasm)), data = JSON.parse(fs.readFileSync(has));
const make = () => (wasm ? new Zebludor(module) : new Native({pcboard: PCBOARD, pcprobe: PCPROBE, pcmasm: PCMASM}));
const questions = JSON.parse(fs.readFileSync(0, 'utf8')), seen = new Set(), said = [];
let isDone = false;

function refusing() {
  const library = make(), {command} = Object.getPrototypeOf(library);
  library.command = (session, line) => {
    const [first] = line.split(' ');
    seen.add(first);
    if (first !== word || isDone || line === 'go 0') return command.call(library, session, line);
    isDone = true;
    return {text: Buffer.from('fault 53 Memory\n'), fault: 53};
  };
  return library;
}

// What the engine answers; what was paused on a busy machine goes on.
async function answerTo(engine, question) {
  let answer = {why: 'paused'};
  while (answer.why === 'paused') {
    answer = await engine.answer(question);
    while (answer.working) answer = await engine.answer({do: 'wait', board: question.board});
  }
  return answer;
}

const engine = new Engine(refusing, data);
for (const question of questions) {
  try {
    said.push({...(await answerTo(engine, {board: said[0]?.board, ...question})), 'screen number': 0});
  } catch (error) {
    said.push({error: error.stack});
  }
  if (!said[0].board) break;
}
process.stdout.write(JSON.stringify({said, seen: [...seen]}), () => process.exit(0));
