/* Saving: what isn't saved yet, drafts of it, and the files that the command's words name. What is saved is known by
   the desk's answer. */
import {$, ask, counted, run_text, say, yes} from './asking.js';
import {act, acts, begin, stops, view} from './board.js';
import {ends, fields_now, given, isGiven, isHex, put_file, take_given} from './files.js';
import {isAlone, link_of} from './served.js';
import {begin_draft, forget_copy, keep_copy, next_number, note_answer, send_anew, send_by_beacon} from './keeping.js';
import {told} from './keeping.js';
const SOON = 500, LATEST = 3000;  // so long after a change, and at most after the first one, its draft is sent
export let draftId = new_id(), kept = '', home = {}, fileHome = {}, sums = [null, null], offers = [];
export let soon = 0, since = 0, drafting = Promise.resolve(), noticed = '', writing = 0;
function new_id() { return crypto.randomUUID(); }
/* All that a draft keeps. */
export function held() {
  return {given: isGiven, name: $('name').textContent, hex: isHex, source: $('source').value, run: fields_now(),
    stops: stops.map(it => it.place)};
}
const said = run => JSON.stringify(run);
/* Until it is settled, what the page holds belongs to no draft. */
export function leave_draft() { draftId = ''; }
/* What the page holds is what the desk has just given it. A draft that was taken is of its file, and of none it is new.
   */
export function settle(id, number) {
  draftId = id || new_id(); kept = id ? said(held()) : '';
  begin_draft(number);
  if (isGiven && fileHome.source !== undefined) home = fileHome;
  else home = {source: $('source').value, run: said(fields_now())};
  if (isGiven) fileHome = home;
  touched();
}
/* The command's files were read: by their sums the page says later what it has read. */
export function note_given(given) { sums = given.sums; fileHome = {}; }
export function is_changed() {
  return home.source !== undefined && ($('source').value !== home.source || said(fields_now()) !== home.run);
}
/* Called at each change: of the text, the run file's fields, keys and stops. */
export function touched() {
  const isChanged = is_changed(), isText = isChanged && $('source').value !== home.source, isRun = isChanged && !isText;
  $('unsaved').textContent = isText ? 'not saved' : isRun ? 'run file not saved' : '';
  document.title = `${isText || isRun ? '\u25cf ' : ''}${$('name').textContent} - Zebludor desk`;
  clearTimeout(soon);
  const now = performance.now(), isNew = draftId !== '' && isChanged && !is_kept(), isShort = !isNew
    || keep_copy(file_of(), told(draftId, held()));
  if (!isNew) forget_copy(draftId);
  since = since || now;
  soon = setTimeout(send_draft, isShort ? Math.max(0, Math.min(SOON, since + LATEST - now)) : 0);
}
const file_of = () => isGiven ? given.file : null;
/* Sends what isn't saved, and forgets the draft of what is. */
function send_draft() {
  clearTimeout(soon);
  since = 0;
  return drafting = drafting.then(async () => {
    const id = draftId, now = held(), text = said(now), isWanted = is_changed() || now.stops.length > 0;
    if (isWanted ? text === kept : !kept) return;
    try {
      const sorry = isWanted ? await send(id, now)
        : (await ask('drop draft', {id, given: now.given, number: next_number()})).sorry;
      if (sorry) { say(sorry); return; }
      if (id !== draftId) return;
      if (!isWanted) send_anew(0);
      kept = isWanted ? text : '';
      if (said(held()) === text) forget_copy(draftId);
    } catch (error) { say(`${error.message}; Save gives you what you wrote`); }
  });
}
/* Sends what has changed, or all of it, if the desk hasn't what it changed from. */
async function send(id, now) {
  let message = told(id, now), answer = await ask('keep draft', message);
  if (answer.again !== undefined && id === draftId) {
    send_anew(answer.again);
    message = told(id, now);
    answer = await ask('keep draft', message);
  }
  if (!answer.sorry && id === draftId) note_answer(message, now.source);
  return answer.sorry;
}
export const is_kept = () => kept !== '' && said(held()) === kept;
/* Whether what was written may be left; it stays as a draft. */
export async function may_leave() {
  if (!is_changed()) return true;
  await send_draft();
  return yes(is_kept() ? 'Your changes are not saved. Leave them? They stay as a draft.'
    : 'Your changes are not saved, and no draft of them is kept. Discard them?');
}
onbeforeunload = event => { if (is_changed() && (isGiven || !is_kept())) event.preventDefault(); };
/* The last half second goes with the page; what is too long for that stays in the browser. */
export function send_last_words() {
  const now = held();
  if (is_changed() && said(now) !== kept) send_by_beacon(told(draftId, now));
}

/* Drafts that are offered, the latest first. */
export function offer(them) {
  offers = them.filter(it => it.id !== draftId);
  $('offer').hidden = !offers.length;
  if (!offers.length) return;
  const one = offers[0], more = offers.length - 1;
  const when = new Date(one.time * 1000).toLocaleString([],
    {day: 'numeric', month: 'long', hour: '2-digit', minute: '2-digit'});
  const what = `A draft of ${one.name} from ${when}, ${counted(one.lines, 'line')}`;
  $('offer-text').textContent = `${what}, isn't saved${more ? `, and ${more} more` : ''}.`;
}
const draft_of = one => ask('draft', {id: one.id, given: one.given, source: $('source').value});
async function take_draft() {
  const one = offers[0], draft = await draft_of(one);
  if (draft.sorry) { say(draft.sorry); offer(offers.slice(1)); return; }
  if (is_changed()) await send_draft();
  put_file(draft.name, draft.source, draft.run, draft.hex, {given: one.given, stops: draft.stops, id: one.id,
    number: draft.number});
  if (!one.given) home = {source: null, run: null};
  offer(offers.slice(1));
  await begin(draft.run);
  touched();
}
$('offer-take').onclick = () => acts(take_draft);
$('offer-show').onclick = () => act(async () => {
  const draft = await draft_of(offers[0]);
  if (draft.sorry) say(draft.sorry); else show_difference(draft.difference, 'The draft says the same as the editor.');
});
$('offer-drop').onclick = () => act(async () => {
  if (!await yes('Discard this draft? It is kept nowhere else.')) return;
  const answer = await ask('drop draft', {id: offers[0].id, given: offers[0].given});
  if (answer.sorry) say(answer.sorry); else offer(offers.slice(1));
});
function show_difference(lines, same) {
  $('difference').textContent = lines.length ? lines.slice(2).join('\n') : same;
  $('differing').showModal();
}

/* Writing. It waits for no run, and needs no board. */
function budgeted(run) { return $('up-to').checked && view ? {...run, budget: view.clock} : run; }
async function write(isOver = false) {
  const now = held();
  let answer;
  writing++;
  try {
    answer = await ask('keep', {source: now.source, run: budgeted(now.run), sums, over: isOver});
  } catch (error) { tell(error.message); open_saving(); return; } finally { writing--; }
  if (answer.changed) { show_conflict(answer, ' Nothing was written.'); return; }
  if (!answer.kept) { tell(answer.sorry); return; }
  sums = answer.sums;
  const [isSource, isRun] = [answer.kept.includes(given.file), answer.kept.includes(given['run file'])];
  fileHome = {source: isSource ? now.source : fileHome.source, run: isRun ? said(now.run) : fileHome.run};
  home = fileHome;
  touched();
  const left = !given['run file'] && said(now.run) !== home.run
    ? '; the run file is not, since desk was started without one: Save gives it' : '';
  tell(answer.sorry || `saved: ${answer.kept.join(', ')}${left}`, !answer.sorry);
  await send_draft();
}
function tell(text, isGood = false) { say(text, isGood); $('kept').textContent = text; }
export function save_now() { if (isGiven) write(); else open_saving(); }
/* Another hand's change is noticed when the window gets the focus, each once. */
export async function notice() {
  const read = sums, isBusy = () => writing > 0 || sums !== read || document.querySelector('dialog[open]') !== null;
  if (!isGiven || given.note || isBusy()) return;
  try {
    const answer = await ask('changed', {source: $('source').value, sums});
    if (!answer.changed || said(answer.now) === noticed || isBusy()) return;
    noticed = said(answer.now);
    show_conflict(answer, '');
  } catch { /* who saves is told */ }
}
addEventListener('focus', notice);
function show_conflict(answer, more) {
  const [has, it] = answer.changed.length > 1 ? ['have', 'them'] : ['has', 'it'];
  const gone = answer.gone ? ': the file is no longer there' : '';
  $('conflict-text').textContent =
    `${answer.changed.join(' and ')} ${has} changed since this page has read ${it}${gone}.${more}`;
  $('conflict-difference').textContent = answer.difference.slice(2).join('\n')
    || 'The texts are the same; the run files differ.';
  $('conflict-difference').hidden = true;
  $('conflict-take').hidden = Boolean(answer.gone);
  if ($('saving').open) $('saving').close();
  $('conflict').showModal();
}
$('conflict-show').onclick = () => { $('conflict-difference').hidden = false; };
$('conflict-over').onclick = () => { $('conflict').close(); write(true); };
$('conflict-take').onclick = () => {
  $('conflict').close();
  acts(async () => { await send_draft(); await take_given(await ask('hello')); });
};

/* The files as links, from what the page holds: also of what is refused, and where the desk has ended. */
function draw_links() {
  const now = held(), name = now.name.replace(/\.\w+$/, '') || 'program', ending = now.hex ? 'hex' : 'asm';
  for (const [id, end, text] of [['save-source', ending, now.source.replaceAll('\n', ends)],
    ['save-run', 'json', run_text(budgeted(now.run))]]) {
    const link = $(id);
    URL.revokeObjectURL(link.href);
    link.href = URL.createObjectURL(new Blob([text], {type: 'application/octet-stream'}));
    link.download = link.textContent = `${name}.${end}`;
  }
  const quoted = /[^\w.-]/.test(name) ? `'${name.replaceAll("'", "'\\''")}` : name, close = quoted === name ? '' : "'";
  $('save-words').textContent =
    `./pcboard run ${quoted}.${ending}${close} ${quoted}.json${close}${now.hex ? ' --hex' : ''}`;
}
function open_saving() {
  draw_links();
  $('keep').hidden = !isGiven; $('kept').textContent = '';
  if (isGiven) $('keep').textContent = `Write ${[given.file, given['run file']].filter(Boolean).join(' and ')}`;
  if (!$('saving').open) $('saving').showModal();
}
$('save').onclick = open_saving;
$('linking').hidden = !isAlone;
$('link').onclick = async () => {
  const {name, source, run, stops: places, hex} = held();
  $('link-text').value = await link_of({name, source, run: budgeted(run), stops: places, hex});
  $('link-text').select();
  tell('The link holds program, run file, keys and stops; what opens it asks no server for them.', true);
};
$('up-to').onchange = draw_links;
$('keep').onclick = () => write();
