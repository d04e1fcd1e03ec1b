// The library zebludor.wasm, whose calls are proved: programs over texts in memory, and their sessions.
// Nothing here is node's, so pages can use it. c/zebludor.h says what each call does.

const OUT = 1 << 20, ERR = 1 << 16, REPLY = 1 << 16; // the room for an answer at first
const ENDED = 24, TOLD = 16;
const bytesOf = text => (typeof text === 'string' ? new TextEncoder().encode(text) : text);

export class Zebludor {
  #calls;

  constructor(module) { this.#calls = new WebAssembly.Instance(module).exports; }

  // From now on the library has so many bytes at most, with the texts that are handed to it; 0 lifts the limit.
  limit(bytes) { this.#calls.zebludor_limit(BigInt(bytes)); }

  // Runs pcboard or pcprobe on its words, a list or the lines of a text, with the files FILE and RUN and standard
  // input: its exit status and what it prints.
  program(name, words, file, run, input) {
    const lines = Array.isArray(words) ? words.map(word => `${word}\n`).join('') : words;
    const texts = [lines, file, run, input].map(bytesOf);
    return this.#answer(`zebludor_${name}`, texts, texts.map(text => text.length));
  }

  // Translates a source of MASM, as pcmasm does: the first of some texts, each with a name and its bytes.
  masm(texts, hasMap, isMasm) {
    const bytes = texts.map(text => bytesOf(text.bytes));
    const whole = new Uint8Array(bytes.reduce((sum, each) => sum + each.length, 0));
    bytes.reduce((at, each) => (whole.set(each, at), at + each.length), 0);
    const lengths = new Uint8Array(new BigUint64Array(bytes.map(each => BigInt(each.length))).buffer);
    const names = bytesOf(texts.map(text => `${text.name}\n`).join(''));
    const counts = [names.length, texts.length, whole.length];
    return this.#answer('zebludor_masm', [names, lengths, whole], counts, Number(hasMap), Number(isMasm));
  }

  // A call's exit status and both of its texts.
  #answer(call, texts, counts, ...flags) {
    for (let rooms = [OUT, ERR]; ; ) {
      const answer = this.#answerOnce(call, texts, counts, flags, rooms);
      if (answer.out && answer.err) return answer;
      rooms = answer.lengths;
    }
  }

  #answerOnce(call, texts, counts, flags, rooms) {
    return this.#holding([ENDED, ...texts.map(text => text.length), ...rooms], (ended, ...places) => {
      texts.forEach((text, n) => this.#at(places[n], text.length).set(text));
      const given = [...counts, ...rooms].map((count, n) => [places[n], BigInt(count)]);
      this.#calls[call](...given.slice(0, texts.length).flat(), ...flags, ...given.slice(texts.length).flat(), ended);
      const numbers = this.#numbers(ended, ENDED);
      const lengths = [numbers.getBigUint64(0, true), numbers.getBigUint64(8, true)].map(Number);
      const textOf = n => (lengths[n] <= rooms[n] ? this.#at(places[texts.length + n], lengths[n]).slice() : null);
      return {status: numbers.getUint8(16), out: textOf(0), err: textOf(1), lengths};
    });
  }

  // Begins a session of pcboard or pcprobe about a source or Intel HEX; a refused one has a fault, and maybe a line.
  session(name, source, run, isHex) {
    const place = this.#take(TOLD), kind = name === 'pcprobe' ? 'session' : 'debug';
    const call = `zebludor_${kind}_new${isHex ? '_hex' : ''}`;
    this.#at(place, TOLD).fill(0);
    const texts = [source, run].map(bytesOf);
    return this.#holding([TOLD, ...texts.map(text => text.length)], (begun, ...places) => {
      texts.forEach((text, n) => this.#at(places[n], text.length).set(text));
      this.#calls[call](place, ...places.flatMap((at, n) => [at, BigInt(texts[n].length)]), begun);
      const numbers = this.#numbers(begun, TOLD);
      return {place, line: Number(numbers.getBigUint64(0, true)), fault: numbers.getUint8(8)};
    });
  }

  // Makes a command of a session, and answers what its program prints of it, and the number of its fault, or 0.
  command(session, line) {
    let reply = this.#reply(REPLY, bytesOf(line), 'zebludor_session_command', session);
    if (reply.status === 2) reply = this.#reply(reply.length, null, 'zebludor_session_text', session);
    if (reply.status !== 0) throw new RangeError('there is no session, or no memory for its answer');
    return reply;
  }

  #reply(room, line, call, session) {
    return this.#holding([TOLD, line?.length ?? 0, room], (told, at, out) => {
      if (line) this.#at(at, line.length).set(line);
      this.#calls[call](session.place, ...(line ? [at, BigInt(line.length)] : []), out, BigInt(room), told);
      const numbers = this.#numbers(told, TOLD);
      const length = Number(numbers.getBigUint64(0, true)), status = numbers.getUint8(8);
      return {status, length, fault: numbers.getUint8(9), text: this.#at(out, status === 0 ? length : 0).slice()};
    });
  }

  // Ends a session, and gives its memory back.
  drop(session) { this.#calls.zebludor_session_drop(session.place); this.#calls.zebludor_give(session.place); }

  #at(place, length) { return new Uint8Array(this.#calls.memory.buffer, Number(place), length); }

  #numbers(place, length) { return new DataView(this.#calls.memory.buffer, Number(place), length); }

  #take(length) {
    const place = this.#calls.zebludor_take(BigInt(length));
    if (!place) throw new RangeError('there is no memory for the texts');
    return place;
  }

  // Takes rooms of these lengths for as long as a call lasts.
  #holding(lengths, use) {
    const places = [];
    try { for (const length of lengths) places.push(this.#take(length)); return use(...places); }
    finally { places.forEach(place => this.#calls.zebludor_give(place)); }
  }
}
