// The engine in a Worker: what it is told first is the library and what the page has of the repository; then questions,
// each with its number. What a source includes it asks the page for.
import {Zebludor} from '../zebludor.mjs';
import {Engine} from './engine.mjs';
import {Sorry} from './session.mjs';

const wanted = new Map();
let count = 0, engine = null;

async function begun({library, has}) {
  const module = await WebAssembly.compile(library);
  return new Engine(() => new Zebludor(module), JSON.parse(new TextDecoder().decode(has)), include);
}
function include(name) {
  count += 1;
  self.postMessage({wanted: count, name});
  return new Promise((go, fail) => wanted.set(count, {go, fail}));
}
function found({wanted: number, found: it}) {
  const {go, fail} = wanted.get(number);
  wanted.delete(number);
  if (it?.sorry) fail(new Sorry(it.sorry));
  else go(it);
}

self.onmessage = async ({data}) => {
  if (!engine) { engine = begun(data); return; }
  if ('wanted' in data) { found(data); return; }
  const {number, question} = data;
  try { self.postMessage({number, answer: await (await engine).answer(question)}); }
  catch (error) { self.postMessage({number, error: error.message}); }
};
