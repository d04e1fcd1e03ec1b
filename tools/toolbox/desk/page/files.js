/* What the page holds: a source with its name, and the run file's fields; where they come from, examples and files. */
import {$, ask, say} from './asking.js';
import {acts, begin, board, forget_run, view} from './board.js';
import {show_code} from './code.js';
import {note_grammar} from './editor.js';
import {send_left} from './keeping.js';
import {leave_draft, may_leave, note_given, offer, settle, touched} from './saving.js';
import {has_pickers, linked, pick_files} from './served.js';
import {show_page} from './tabs.js';
export let isHex = false, isGiven = false, runFile = {}, given = null, pages = {}, ends = '\n';
export function note_run(fields) { runFile = fields; }
/* A source in the editor. It may be the command's own FILE, and have stops from before. */
export function put_file(name, text, fields, hex, more = {}) {
  leave_draft();
  $('name').textContent = name; $('source').value = text; isHex = hex; isGiven = Boolean(more.given);
  ends = text.includes('\r\n') ? '\r\n' : '\n';
  $('source').scrollTop = 0; $('source').setSelectionRange(0, 0);
  put_fields(fields);
  forget_run((more.stops || []).map(place => ({place})));
  if (!isGiven && !more.example) $('example').value = '';
  settle(more.id, more.number);
  show_code();
}
function put_fields(fields) {
  runFile = fields;
  for (const name of ['budget', 'ram', 'sw1', 'sw2']) $(`f-${name}`).value = fields[name] ?? '';
  $('f-timer').value = fields.timer || '8253'; $('f-clocks').value = fields.clocks || 'C1';
}
/* The run file as its fields and the keys that were typed say it. */
export function fields_now() {
  const fields = {...runFile, keys: (board && view && view.raw) || runFile.keys || []};
  for (const name of ['budget', 'ram', 'sw1', 'sw2']) {
    const text = $(`f-${name}`).value.replace(/[,_ ]/g, '');
    fields[name] = /^\d+$/.test(text) ? Number(text) : text;
  }
  const timer = $('f-timer').value, clocks = $('f-clocks').value;
  if (fields.version === 2 || timer !== '8253' || clocks !== 'C1') Object.assign(fields, {version: 2, timer, clocks});
  return fields;
}
async function take_example(name) {
  const answer = await ask('example', {name});
  if (answer.sorry) { say(answer.sorry); return; }
  put_file(answer.name, answer.source, answer.run, answer.hex, {example: true});
  await begin(answer.run);
  const example = pages.examples.find(it => it.name === name);
  if (example) show_page(example.page, example.anchor, true);
}
/* The command's own files, as they are on the disk now, and the drafts that there are. */
export async function take_given(answer) {
  given = answer.given;
  note_given(given);
  put_file(given.name, given.source, given.run, given.hex, {given: true, ...given.settled});
  $('example').value = OWN;
  offer(answer.drafts);
  await begin(given.run);
  if (given.note || answer.amiss) say(given.note || answer.amiss);
}
const OWN = '/own';

/* A file's text, which the page would change in silence where it isn't UTF-8, or has a carriage return alone. */
export async function text_of(file) {
  let text;
  try {
    text = new TextDecoder('utf-8', {fatal: true, ignoreBOM: true}).decode(await file.arrayBuffer());
  } catch { throw new Error(`${file.name} isn't UTF-8, as pcboard wants it; iconv converts a file`); }
  if (/\r(?!\n)/.test(text))
    throw new Error(`${file.name}: a carriage return stands alone there, which pcboard refuses`);
  return text;
}
/* Files that a browser gives handles of are written to as the command's are. */
$('open').onclick = () => {
  if (!has_pickers()) { $('file').click(); return; }
  acts(async () => {
    if (!await may_leave()) return;
    const given = await pick_files();
    if (given) await take_given({given, drafts: []});
  });
};
$('file').onchange = () => {
  const files = [...$('file').files];
  acts(async () => {
    let text = null, name = '', fields = null;
    for (const file of files) {
      const read = await text_of(file);
      if (/\.json$/i.test(file.name)) { try {
        fields = JSON.parse(read);
      } catch { say(`${file.name} is no JSON`); return; } }
      else { text = read; name = file.name; }
    }
    const isRun = Boolean(fields) && typeof fields === 'object' && !Array.isArray(fields), run = isRun ? fields
      : {...pages.defaults};
    if (text === null && !isRun) { say('This is no run file: it is no JSON object.'); return; }
    if (text !== null && !await may_leave()) return;
    if (text !== null) put_file(name, text, run, /\.hex$/i.test(name)); else put_fields(run);
    await begin(run);
    touched();
    if (text !== null && /\r\n/.test(text) && /(^|[^\r])\n/.test(text))
      say(`${name}: its lines end in two ways; a copy that you save ends all with CR LF`);
  });
  $('file').value = '';
};
$('example').onchange = () => {
  const name = $('example').value;
  if (!name) return;
  acts(async () => {
    if (!await may_leave()) { $('example').value = isGiven ? OWN : ''; return; }
    await (name === OWN ? take_given(await ask('hello')) : take_example(name));
  });
};
/* A link's program is shown, and nothing of it runs before it is asked to. */
async function take_linked() {
  let found;
  try { found = await linked(); } catch (error) { say(error.message); return false; }
  if (!found) return false;
  put_file(found.name, found.source, found.run, found.hex, {stops: found.stops});
  say('This program came with the link: look at it, then press Run.', true);
  return true;
}
/* The page's beginning: the command's files, a link's program, or an example. */
export async function first() {
  pages = await ask('hello');
  if (await send_left(pages.given?.file)) pages = await ask('hello');
  $('example').replaceChildren(...(pages.given ? [new Option(`your file, ${pages.given.name}`, OWN)]
    : [new Option('choose one', '')]),
    ...pages.examples.map(it => { const one = new Option(it.name, it.name); one.title = it.shows; return one; }));
  note_grammar(pages.grammar);
  if (pages.given) { await take_given(pages); return; }
  offer(pages.drafts);
  if (await take_linked()) return;
  $('example').value = 'first';
  await take_example('first');
  if (pages.amiss) say(pages.amiss);
}
