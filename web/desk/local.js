/* How a page without a server asks: an engine in a Worker of its own. Files are the system's, by the handles that a
   browser gives; drafts stay in the browser; and a link has all of a program in itself. */
import {run_text} from '../../tools/toolbox/desk/page/asking.js';
import {engine_of} from '../../tools/toolbox/desk/page/engine.js';
export const isAlone = true;
const DRAFT = 'zebludor kept ', MOST_LINKED = 1 << 21, CONTEXT = 3;

/* The engine, whose text, library and tables stand packed in the page. */
function octets_in(id) {
  const signs = atob(document.getElementById(id).textContent), octets = new Uint8Array(signs.length);
  for (let at = 0; at < signs.length; at++) octets[at] = signs.charCodeAt(at);
  return octets;
}
const unpacked = id => new Response(new Blob([octets_in(id)]).stream().pipeThrough(new DecompressionStream('gzip')));
const ENGINE = {
  async begun() {
    const engine = document.getElementById('the-engine').textContent;
    const place = URL.createObjectURL(new Blob([engine], {type: 'text/javascript'})), worker = new Worker(place);
    URL.revokeObjectURL(place);
    const [library, has] = await Promise.all(['the-library', 'the-has'].map(id => unpacked(id).arrayBuffer()));
    worker.postMessage({library, has}, [library, has]);
    return worker;
  },
  include: async () => null,
};
const of_engine = question => engine_of(question, ENGINE);

/* What is asked, by its word. */
export async function answer_of(question) {
  const own = ANSWERS[question.do];
  return own ? own(question) : of_engine(question);
}
export function tell_last(question) { answer_of(question).catch(() => {}); }
const ANSWERS = {
  async hello(question) { return {...await of_engine(question), given: await given_now(), drafts: drafts()}; },
  'keep draft': keep_draft,
  'drop draft': async ({id}) => { localStorage.removeItem(DRAFT + id); return {}; },
  async draft({id, source}) {
    const draft = draft_at(id);
    return draft ? {...draft, difference: difference(source, draft.source)} : {sorry: 'this draft is no longer there'};
  },
  keep,
  changed,
};

/* Drafts: what isn't saved stays in the browser. */
function draft_at(id) {
  try { return JSON.parse(localStorage.getItem(DRAFT + id)); } catch { return null; }
}
async function keep_draft({do: _, base, at, drop, ...draft}) {
  const before = draft_at(draft.id), isWhole = base === 0 && at === 0 && drop === 0;
  if (!isWhole && before?.number !== base) return {again: before?.number ?? 0};
  const kept = isWhole ? '' : before.source;
  const source = kept.slice(0, at) + draft.source + kept.slice(at + drop), time = Date.now() / 1000;
  try { localStorage.setItem(DRAFT + draft.id, JSON.stringify({...draft, source, time})); }
  catch { return {sorry: 'the browser keeps no more drafts'}; }
  return {};
}
function drafts() {
  let ids = [];
  try { ids = Object.keys(localStorage).filter(it => it.startsWith(DRAFT)); } catch { /* it keeps nothing here */ }
  const them = ids.map(it => draft_at(it.slice(DRAFT.length))).filter(it => it && !it.given);
  return them.sort((a, b) => b.time - a.time).map(it => ({...it, lines: it.source.split('\n').length}));
}
/* The lines that differ, as diff tells them, in one stretch. */
function difference(before, after) {
  const [a, b] = [before.split('\n'), after.split('\n')];
  let first = 0, last = 0;
  while (first < a.length && first < b.length && a[first] === b[first]) first++;
  while (last < a.length - first && last < b.length - first && a[a.length - 1 - last] === b[b.length - 1 - last])
    last++;
  if (first === a.length && first === b.length) return [];
  const low = Math.max(0, first - CONTEXT), same = it => ` ${it}`;
  const [oldEnd, newEnd] = [a.length - last, b.length - last], tail = a.slice(oldEnd, oldEnd + CONTEXT).map(same);
  const head = `@@ -${low + 1},${oldEnd + tail.length - low} +${low + 1},${newEnd + tail.length - low} @@`;
  const [gone, come] = [a.slice(first, oldEnd).map(it => `-${it}`), b.slice(first, newEnd).map(it => `+${it}`)];
  return ['--- this page', '+++ the draft', head, ...a.slice(low, first).map(same), ...gone, ...come, ...tail];
}

/* Files of the system, where the browser gives handles of them. */
let handles = {source: null, run: null};
export const has_pickers = () => typeof globalThis.showOpenFilePicker === 'function';
async function read(handle) {
  const file = await handle.getFile(), text = await file.text();
  return {text, sum: `${file.lastModified} ${file.size}`};
}
/* Has the user choose a source, or a source and a run file; what then is given, or null. */
export async function pick_files() {
  const types =
    [{description: 'Source, Intel HEX, run file', accept: {'text/plain': ['.asm', '.hex', '.json', '.txt']}}];
  let them;
  try { them = await showOpenFilePicker({multiple: true, types}); } catch { return null; }
  const isRun = it => /\.json$/i.test(it.name), source = them.find(it => !isRun(it));
  if (!source) throw new Error('a source or Intel HEX is wanted, maybe with its run file');
  handles = {source, run: them.find(isRun) ?? null};
  return given_now();
}
async function given_now() {
  if (!handles.source) return null;
  const source = await read(handles.source), run = handles.run && await read(handles.run), {name} = handles.source;
  const fields = run ? JSON.parse(run.text) : {};
  if (run && (typeof fields !== 'object' || Array.isArray(fields) || !fields))
    throw new Error(`${handles.run.name} is no run file: it is no JSON object`);
  const {defaults} = await of_engine({do: 'hello'});
  return {
    name, file: name, 'run file': run ? handles.run.name : null, source: source.text, run: {...defaults, ...fields},
    hex: /\.hex$/i.test(name), sums: [source.sum, run ? run.sum : null], note: '', settled: {},
  };
}
async function sums_now() {
  return Promise.all([handles.source, handles.run].map(async it => it && (await read(it)).sum));
}
/* Writes a text to its file, unless another hand has changed it since it was read. */
async function keep({source, run, sums, over}) {
  const found = over ? {} : await changed({source, sums});
  if (found.changed) return found;
  const kept = [];
  for (const [handle, text] of [[handles.source, source], [handles.run, run_text(run)]]) {
    if (!handle) continue;
    try {
      const stream = await handle.createWritable();
      await stream.write(text);
      await stream.close();
    } catch (error) {
      return {sorry: `${handle.name} can't be written: ${error.message}`, kept, sums: await sums_now()};
    }
    kept.push(handle.name);
  }
  return {kept, sums: await sums_now()};
}
async function changed({source, sums}) {
  let now;
  try { now = await sums_now(); }
  catch { return {changed: [handles.source.name], now: null, gone: true, difference: []}; }
  const them = [handles.source, handles.run].filter((it, n) => it && now[n] !== sums[n]).map(it => it.name);
  if (!them.length) return {};
  return {changed: them, now, gone: false, difference: difference(source, (await read(handles.source)).text)};
}

/* Links: all that a page holds, as JSON, deflated, in what stands after the address' #, which no server is told. */
const through = (octets, stream) => new Blob([octets]).stream().pipeThrough(stream).getReader();
async function all_of(reader, most) {
  const parts = [];
  for (let length = 0, {value, done} = await reader.read(); !done; {value, done} = await reader.read()) {
    parts.push(value);
    length += value.length;
    if (length > most) { reader.cancel(); throw new Error('the link has more than a program'); }
  }
  return new Uint8Array(await new Blob(parts).arrayBuffer());
}
export async function link_of(held) {
  const octets = new TextEncoder().encode(JSON.stringify(held));
  const packed = await all_of(through(octets, new CompressionStream('deflate-raw')), Infinity);
  let text = '';
  for (const octet of packed) text += String.fromCharCode(octet);
  return `${location.href.split('#')[0]}#${btoa(text).replaceAll('+', '-').replaceAll('/', '_').replace(/=+$/, '')}`;
}
/* What the page's own link has: name, source, run file and stops; null without one. It is a stranger's, so each part is
   looked at. */
export async function linked() {
  const text = location.hash.slice(1);
  if (!text) return null;
  let it;
  try {
    const octets = Uint8Array.from(atob(text.replaceAll('-', '+').replaceAll('_', '/')), sign => sign.charCodeAt(0));
    it = JSON.parse(new TextDecoder().decode(await all_of(through(octets, new DecompressionStream('deflate-raw')),
      MOST_LINKED)));
  } catch (error) { throw new Error(`the link has no program: ${error.message}`); }
  const isText = what => typeof what === 'string', isRun = typeof it?.run === 'object' && it.run !== null
    && !Array.isArray(it.run);
  const isFit = isText(it?.name) && isText(it.source) && isRun && Array.isArray(it.stops) && it.stops.every(isText);
  if (!isFit || typeof it.hex !== 'boolean') throw new Error('the link has no program');
  return {name: it.name.slice(0, 60), source: it.source, run: it.run, stops: it.stops.slice(0, 15), hex: it.hex};
}
