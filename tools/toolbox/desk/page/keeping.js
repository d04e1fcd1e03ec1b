/* What the desk is told of a draft: what has changed since the text that it has answered for. A copy of that stays in
   the browser until it has, so that a tab may close at any moment. */
import {ask, say} from './asking.js';
import {tell_last} from './served.js';
/* So many signs are sent by a tab that closes: each has at most three bytes, and a browser takes 64 KB. */
const LAST_WORDS = 20000, NAME = 'zebludor draft ', NONE = {number: 0, source: ''};
let sent = 0, answered = NONE;
/* Another draft: the last number that was sent of it, of a new one 0. */
export function begin_draft(number = 0) { sent = number; answered = NONE; }
/* The desk has answered for a text. What has come since is kept until it has answered for that too. */
export function note_answer(message, source) { answered = {number: message.number, source}; }
/* The desk has another text than this page has sent last, so the next message has all of it. */
export function send_anew(newest) { sent = Math.max(sent, newest); answered = NONE; }
export function next_number() { return ++sent; }
/* A draft as it is sent: `source` stands in place of the `drop` signs at a place of the base. */
export function told(id, now) {
  const {source, ...rest} = now, from = answered.source, most = Math.min(source.length, from.length);
  let at = 0, same = 0;
  while (at < most && source.charCodeAt(at) === from.charCodeAt(at)) at++;
  while (same < most - at && source.charCodeAt(source.length - 1 - same) === from.charCodeAt(from.length - 1 - same))
    same++;
  return {id, ...rest, number: next_number(), base: answered.number, at, drop: from.length - at - same,
    source: source.slice(at, source.length - same)};
}
/* Keeps a copy, and tells whether the desk may have it later: it is there, and short enough for a tab that closes. */
export function keep_copy(file, message) {
  const text = JSON.stringify({file, ...message});
  try { localStorage.setItem(NAME + message.id, text); } catch { return false; }
  return text.length <= LAST_WORDS;
}
export function forget_copy(id) { try { localStorage.removeItem(NAME + id); } catch { /* there is none */ } }
export function send_by_beacon(message) { tell_last({do: 'keep draft', ...message}); }
function copies() {
  try {
    return Object.keys(localStorage).filter(it => it.startsWith(NAME)).map(it => JSON.parse(localStorage.getItem(it)));
  } catch { return []; }
}
/* The copies of tabs that have closed, of the command's file and of none, become drafts; whether there were any. */
export async function send_left(file) {
  const left = copies().filter(it => !it.given || it.file === file);
  for (const message of left) {
    const answer = await ask('keep draft', message);
    if (answer.sorry) say(answer.sorry);
    else if (answer.again < message.number)
      say(`What was typed last into ${message.name} stays in the browser: its draft is no longer there.`);
    else forget_copy(message.id);
  }
  return left.length > 0;
}
