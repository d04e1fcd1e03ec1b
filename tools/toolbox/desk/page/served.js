/* How the page asks: of files its desk, and of all else its engine. A page without a server has another module in this
   one's place. */
import {begin_soon, engine_of} from './engine.js';
export const isAlone = false;
const OF_FILES = ['hello', 'example', 'page', 'include', 'keep', 'changed', 'keep draft', 'drop draft', 'draft'];
const ENDED = 'desk has ended: start tools/desk again';
let how = {};  // as the command's words say that sources are taken

/* The desk. */
async function desk_of(question) {
  let answer;
  try {
    answer = await fetch('do', {
      method: 'POST',
      headers: {'Content-Type': 'application/json'},
      body: JSON.stringify(question),
    });
  } catch {
    throw new Error(ENDED);
  }
  if (!answer.ok) throw new Error(await answer.text() || 'desk is busy with other requests; try again');
  return answer.json();
}
/* The engine, and what it is told first. */
async function octets_of(name) {
  let answer;
  try { answer = await fetch(name); } catch { throw new Error(ENDED); }
  if (!answer.ok) throw new Error(await answer.text());
  return answer.arrayBuffer();
}
const ENGINE = {
  async begun() {
    const worker = new Worker('desk/worker.mjs', {type: 'module'});
    const [library, has] = await Promise.all(['zebludor.wasm', 'has.json'].map(octets_of));
    worker.postMessage({library, has}, [library, has]);
    return worker;
  },
  async include(name) {
    const {sorry, bytes, ...found} = await desk_of({do: 'include', name});
    return sorry ? {sorry} : {...found, bytes: Uint8Array.from(atob(bytes), it => it.charCodeAt(0))};
  },
};
/* What is answered; throws what a server says that answers nothing. */
export async function answer_of(question) {
  if (!OF_FILES.includes(question.do)) return engine_of(question.do === 'open' ? {...question, how} : question, ENGINE);
  if (question.do === 'hello') begin_soon(ENGINE);
  const answer = await desk_of(question);
  if (question.do === 'hello') ({how} = answer);
  return answer;
}
/* What a page says that is left: nobody waits for its answer. Its engine ends with it. */
export function tell_last(question) {
  if (!OF_FILES.includes(question.do)) { engine_of(question, ENGINE).catch(() => {}); return; }
  navigator.sendBeacon('do', new Blob([JSON.stringify(question)], {type: 'application/json'}));
}
/* The system's own files, which only a page without a server asks for. */
export const has_pickers = () => false;
export const pick_files = async () => null;
export const linked = async () => null;
export const link_of = async () => '';
