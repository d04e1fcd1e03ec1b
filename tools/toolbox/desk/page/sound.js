/* Sound: the speaker's mean level over each sample, at the board's clock. */
import {$, HERTZ, ask, counted, number, say, time_of} from './asking.js';
import {act, board, view} from './board.js';
import {marks} from './timeline.js';
const RATE = 48000;
export const speaker = {
  context: null, known: null, at: 0, when: 0, moved: -Infinity, isOn: false, asking: false, keys: 0,
  ready() {
    this.context = this.context || new AudioContext();
    if (this.context.state === 'suspended') this.context.resume();
    return this.context;
  },
  follow(clock, isReal) {
    this.isOn = isReal && $('live').checked;
    this.at = clock;
    this.when = 0;
    this.known = null;
    this.moved = -Infinity;
    this.keys++;
    if (this.isOn) this.foresee(clock);
  },
  end() { this.isOn = false; },
  /* With the keys that there are, what comes is determined: so a report tells the samples before they are played. Of a
     long run that takes a while, so one is asked for at a time, however fast somebody types. */
  async foresee(clock) {
    if (this.asking) return;
    const {keys} = this;
    this.asking = true;
    try {
      const answer = await ask('heard', {board, begin: clock, end: Math.floor(clock + 4 * HERTZ)});
      if (keys === this.keys)
        this.known = answer.samples === undefined ? null : {...answer, data: samples_of(answer)};
    } catch { /* the run ends, too */ }
    this.asking = false;
  },
  chunk(clock) {
    if (!this.isOn) return false;
    if (!this.known) { this.foresee(this.at); return false; }
    if (this.known.end < clock + HERTZ) this.foresee(clock);
    const to = Math.min(clock, this.known.end), place = at => Math.round((at - this.known.begin) * RATE / HERTZ);
    if (to <= this.at) return false;
    const data = this.known.data.subarray(Math.max(place(this.at), 0), place(to));
    if (data.some(it => it !== data[0])) this.moved = to;
    const isHeard = to - this.moved < HERTZ && data.length > 0;
    if (isHeard) {
      const now = this.ready().currentTime;
      if (this.when < now + .02) this.when = now + .12;
      this.when += play(data, this.when);
    }
    this.at = to;
    return isHeard;
  },
};
/* Its mean level over each sample. */
function samples_of({samples}) { return Float32Array.from(atob(samples), it => it.charCodeAt(0) / 255 * .2); }
function play(data, when) {
  const context = speaker.ready(), buffer = context.createBuffer(1, data.length, RATE),
    source = context.createBufferSource();
  buffer.copyToChannel(data, 0);
  source.buffer = buffer;
  source.connect(context.destination);
  source.start(when);
  return data.length / RATE;
}
export function draw_sound() {
  const all = marks ? marks['all changes'] : 0;
  $('sound-told').textContent = all
    ? `${counted(all, 'change')} up to clock ${number(marks.until)}, which is ${time_of(marks.until)} of a real board.`
    : 'The speaker is silent up to here.';
  const shown = marks ? marks.changes.slice(0,
    500).map(([clock, level]) => `${String(clock).padStart(12)} ${level ? 'high' : 'low'}`) : [];
  $('sound-list').textContent = shown.join('\n') + (all > shown.length ? `\n.. and ${number(all - shown.length)} more`
    : '');
}
$('play').onclick = () => act(async () => {
  if (!marks || !marks['all changes']) { say('The speaker is silent.'); return; }
  const from = view.clock < marks.until ? view.clock : 0;
  const answer = await ask('heard', {board, begin: from, end: marks.until, slow: Number($('slow').value)});
  if (!answer.samples) {
    say(answer.sorry || (answer.end > from ? 'The speaker is silent from here on.'
      : 'the run is too long to be played'));
    return;
  }
  const seconds = play(samples_of(answer), speaker.ready().currentTime + .05);
  say(`played from clock ${number(from)} on, ${seconds.toFixed(3)} s${answer['is cut'] ? ', and no longer' : ''}`,
    true);
});
