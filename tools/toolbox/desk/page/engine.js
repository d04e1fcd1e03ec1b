/* The engine in a Worker, which answers what is asked of a board and of a text. One that answers nothing for long is
   ended. How it begins, and where it finds what a source includes, the page says. */
const PATIENCE = 30000, TOO_LONG = 'the engine answered nothing for 30 s, and was ended';
let worker = null, count = 0, waiting = new Map();

async function begin_engine({begun, include}) {
  const one = await begun();
  one.onmessage = ({data}) => {
    if ('wanted' in data) { find_included(one, data, include); return; }
    const its = waiting.get(data.number);
    if (!its) return;
    waiting.delete(data.number);
    clearTimeout(its.timer);
    if (data.error === undefined) its.go(data.answer); else its.fail(new Error(data.error));
  };
  one.onerror = event => end_engine(event.message || 'the engine has ended');
  return one;
}
async function find_included(one, {wanted, name}, include) {
  let found;
  try { found = await include(name); } catch (error) { found = {sorry: error.message}; }
  one.postMessage({wanted, found});
}
/* Ends the engine: who waits is told that the board is gone, and the next question begins another one. */
function end_engine(why) {
  worker?.then(one => one.terminate(), () => {});
  worker = null;
  for (const {go, timer} of waiting.values()) { clearTimeout(timer); go({gone: why}); }
  waiting = new Map();
}
/* Begins the engine before it is asked. */
export function begin_soon(how) { (worker ??= begin_engine(how)).catch(() => {}); }
/* What the engine answers. `how` has `begun`, which begins a Worker and tells it what it is told first, and `include`,
   which finds a text beside the source: its name and bytes, nothing, or a sentence. */
export async function engine_of(question, how) {
  const mine = worker ??= begin_engine(how);
  let one;
  try { one = await mine; } catch (error) { worker = null; throw error; }
  if (worker !== mine) return engine_of(question, how);  // it was ended meanwhile
  const number = ++count;
  return new Promise((go, fail) => {
    waiting.set(number, {go, fail, timer: setTimeout(() => end_engine(TOO_LONG), PATIENCE)});
    one.postMessage({number, question});
  });
}
