// Whether a run goes round in a loop of a few instructions, of which one jumps by a condition, and what leads out.
import {ANSWERING} from './meant.mjs';
import {registersOf} from './machine.mjs';
import {A_SECOND, IF, SERVICES, TF, textOf} from './run.mjs';
import {LAST_CLOCK, far, hex, physical} from './session.mjs';

const TRAIL = 32, LENGTHS = [1, 2, 3, 4, 5, 6, 7, 8], SPACE = 0x39, NEAR = 2000, MOST_WAYS = 15;

// How many instructions come in turn in a whole trail, or 0.
function periodOf(trail) {
  if (trail.length < TRAIL || trail.some(({entry}) => entry !== null)) return 0;
  const keys = trail.map(event => textOf({...event, clock: 0}));
  return LENGTHS.find(n => keys.slice(n).every((key, at) => key === keys[at])) ?? 0;
}

// Whether the run leaves a loop within a second, with one more key typed: to where one of its conditional jumps leads
// out, or into an interrupt. One that reads ports alone isn't ended by a handler of the services, which changes none of
// them.
function isLeft(run, turn, isOfPorts) {
  const {clock, registers} = run, end = clock + A_SECOND;
  if (end > LAST_CLOCK) return false;
  const inside = turn.map(({segment, offset}) => far(segment, offset));
  const on = ({segment, offset, octets}) => [segment, (offset + octets.length) & 0xffff];
  const branches = turn.filter(event => run.doneBy(event) === 'branch');
  const ways = new Set(branches.flatMap(event => [on(event), run.targetOf(event)]).map(place => far(...place)));
  const leading = [...ways].filter(place => !inside.includes(place)).sort().slice(0, MOST_WAYS);
  const stops = [...leading.map(place => `break ${place}`), ...(registers.FL & IF ? ['when entries'] : [])];
  return run.within(clock, session => {
    session.one(`key ${hex(SPACE)} ${clock + 1000}`);
    session.one(`key ${hex(SPACE + 0x80)} ${clock + 20_000}`);
    for (const stop of stops) session.one(stop);
    while (session.go(end - session.clock).startsWith('stop')) {
      const {CS, IP} = registersOf(session.many('regs'));
      if (!(isOfPorts && run.mark && physical(CS, IP) >= SERVICES)) return true;
    }
    return false;
  });
}

// The first line of registers at the run's end, if a round later all are what they are then.
const roundOf = (run, period) => run.within(run.clock, session => {
  session.one('step');
  const first = session.many('regs');
  for (let n = 0; n < period; n++) session.one('step');
  return session.many('regs').join() === first.join() ? first[0] : '';
});

export function ofLoop(run) {
  const {trail, registers, clock} = run, period = run.state === 'running' ? periodOf(trail) : 0;
  const turn = period ? trail.slice(-period).sort((a, b) => a.segment - b.segment || a.offset - b.offset) : [];
  if (!turn.some(event => run.doneBy(event) === 'branch')) return [];
  const first = trail.at(-period - 1).clock, last = trail.at(-1).clock;
  const done = run.at(first).lines(last - first, 'writes ports').map(line => line.split(' '));
  const isStill = done.every(([, what]) => what === 'in');
  const ports = [...new Set(done.filter(([, what]) => what === 'in').map(([, , port]) => parseInt(port, 16)))];
  if (isLeft(run, turn, isStill && ports.length > 0)) return [];
  const values = {count: period, rows: turn.map(event => `  ${run.place(event)}`).join('\n')};
  const round = !done.length && !(registers.FL & (IF | TF)) ? roundOf(run, period) : '';
  if (round) {
    const steps = Array(period + 1).fill('step').join('\n'), row = textOf(trail.at(-1)), rest = clock - last;
    return run.tell('no way out', {...values, row, steps, registers: round, first, span: last - first, rest});
  }
  const on = registers.FL & IF ? ', or an interrupt' : '', [port] = ports;
  const rest = isStill && ports.length === 1 ? `\nnothing leads out but what port ${hex(port, 2)}h reads${on}` : '';
  const silent = ports.find(each => !ANSWERING.includes(each)), begin = Math.max(0, clock - NEAR);
  const none = silent === undefined ? [] : run.tell('no port', {port: silent, first: begin, span: clock - begin});
  return [...run.tell('waits', {...values, rest}), ...none];
}
