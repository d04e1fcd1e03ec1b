// The speaker of a run, of any number of changes: as stretches joined to what can be told apart on a line, and as
// samples to be heard.
const HERTZ = 14318180 / 3, RATE = 48_000, LOUDEST = 255;
export const MOST_SAMPLES = 60 * RATE;

export class Speaker {
  // The changes of a run, each a clock and the level from there on, up to a clock.
  constructor(changes, until) {
    Object.assign(this, {changes, until});
    this.high = [0]; // how many clocks it was high before each change
    let [before, level] = [0, 0];
    for (const [clock, now] of changes) {
      this.high.push(this.high.at(-1) + (clock - before) * level);
      [before, level] = [clock, now];
    }
  }

  // How many changes lie at or before a clock.
  count(clock) {
    let [low, high] = [0, this.changes.length];
    while (low < high) {
      const middle = (low + high) >> 1;
      if (this.changes[middle][0] <= clock) low = middle + 1;
      else high = middle;
    }
    return low;
  }

  // How many clocks it was high before this one.
  highBefore(clock) {
    const at = this.count(clock);
    if (!at) return 0;
    return this.high[at] + (clock - this.changes[at - 1][0]) * this.changes[at - 1][1];
  }

  // The stretches of clocks from low to high in which it was high. What lies closer than one of so many parts is
  // joined.
  stretches(low, high, parts) {
    const found = [], {changes, until} = this, edge = n => low + Math.floor(((high - low) * n) / parts);
    for (let n = 0; n < parts; n++) {
      const [begin, end] = [edge(n), edge(n + 1)], at = this.count(begin), isHigh = at > 0 && changes[at - 1][1] === 1;
      if (begin >= end || begin >= until) continue;
      if (!isHigh && !(at < changes.length && changes[at][0] < Math.min(end, until))) continue;
      const first = isHigh ? begin : changes[at][0], isOver = isHigh && at < changes.length
        && this.count(end) === at + 1;
      const last = isOver ? changes[at][0] : end;
      const joined = found.length && (first - found.at(-1)[1]) * parts < high - low;
      if (joined) found.at(-1)[1] = Math.min(last, until);
      else found.push([first, Math.min(last, until)]);
    }
    return found;
  }

  isStill(begin, end) { return this.count(begin) === this.count(end); }

  // Its mean level over each sample from one clock to another, `slow` times as long as on a real board: a byte each.
  samples(begin, end, slow = 1) {
    const clocks = HERTZ / RATE / slow, count = Math.max(1, Math.min(Math.floor((end - begin) / clocks), MOST_SAMPLES));
    const found = new Uint8Array(count);
    let before = this.highBefore(Math.min(begin, this.until));
    for (let n = 0; n < count; n++) {
      const after = this.highBefore(Math.min(begin + (n + 1) * clocks, this.until));
      found[n] = Math.min(LOUDEST, Math.floor((LOUDEST * (after - before)) / clocks + 0.5));
      before = after;
    }
    return found;
  }
}
