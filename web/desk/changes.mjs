// What was set in a session, so that one that is begun anew is changed at the same clocks, and `undo` takes it back.
const MOST_KEPT = 16, SHOWN = 8; // changes that pcprobe itself undoes; commands of one that are shown

export class Changes {
  constructor() {
    this.deeds = []; // commands `set`, and `key` since the first of them, each with the clock at which it is given anew
    this.kept = []; // of each change that the session undoes, how many deeds were before it
  }

  // The clock of the last change, beyond which no way back leads; of an unchanged board 0.
  get first() { return this.deeds.length ? this.deeds[this.deeds.length - 1][0] : 0; }

  // The session was changed, or a key typed; whether that was a change of its own.
  take(clock, command) {
    const isNew = command.startsWith('set') && !(this.kept.length && this.first === clock);
    if (isNew) this.kept = [...this.kept, this.deeds.length].slice(-MOST_KEPT);
    this.deeds.push([clock, command]);
    return isNew;
  }

  // How many deeds were before the last change.
  begin() {
    if (this.kept.length) return this.kept[this.kept.length - 1];
    return this.deeds.findIndex(([clock]) => clock === this.first);
  }

  // What the last change set, in words.
  last() {
    const deeds = this.deeds.slice(this.begin()).filter(([, command]) => command.startsWith('set'));
    const words = deeds.map(([, command]) => command.slice(4));
    return words.slice(0, SHOWN).join(', ') + (words.length > SHOWN ? ` and ${words.length - SHOWN} more` : '');
  }

  // The last change is undone, with the keys that were typed since.
  undo() { this.deeds.length = this.begin(); this.kept.pop(); }

  // The keys that were typed since the first change: stamps and codes.
  keys() {
    const words = this.deeds.filter(([, command]) => command.startsWith('key')).map(([, it]) => it.split(' '));
    return words.map(([, code, stamp]) => [Number(stamp), parseInt(code, 16)]);
  }
}
