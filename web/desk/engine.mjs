// What the page may ask, and what it is answered: by sessions of the library, a board for a page.
import {Board} from './desk_board.mjs';
import {noteFaults} from './faults.mjs';
import {Remarks, Wanted, isMasm, refusedOfMasm, rowsOfLine} from './guest.mjs';
import {noteHints} from './hints.mjs';
import {noteKeys} from './keys.mjs';
import {Language, block} from './language.mjs';
import {messagesOf, refusalsOf} from './refusals.mjs';
import {noteSentences} from './sentences.mjs';
import {Gone, LAST_CLOCK, Sorry, far, patience} from './session.mjs';

const PATIENCE = 250, LONGEST_SOURCE = 1 << 20, MOST_REMARKS = 20;
const MOST_MEMORY = 512 << 20; // bytes that the library has at most: what asks for more is refused it
// Of a source that is taken by its look.
const SAID = {
  masm: 'the source is a source of MASM, TASM or emu8086, and runs with the services (docs/masm.md)',
  served: 'the source runs with the services (docs/services.md)',
};

// A question that no page asks.
export class Unfit extends Error {}

function want(fields, name, kind, usual) {
  const value = fields[name] ?? usual;
  const isFit = kind === 'list' ? Array.isArray(value) : kind === 'number' ? Number.isInteger(value)
    : typeof value === kind;
  if (!isFit || (kind === 'object' && (value === null || Array.isArray(value))))
    throw new Unfit(`${name} is missing, or of another type`);
  return value;
}
function numbers(given, least, most) {
  const isFit = it => Number.isInteger(it) && least <= it && it <= most;
  if (given.length > 10_000 || !given.every(isFit))
    throw new Unfit(`a list of numbers from ${least} to ${most} is wanted`);
  return given;
}
const clockIn = (fields, name, usual) => numbers([want(fields, name, 'number', usual)], 0, 2 * LAST_CLOCK)[0];

export class Engine {
  // `make` makes an instance of the library, another one after a trap; `data` is what the page has of the repository;
  // `include` finds a text that stands beside the source, {name, bytes} or null.
  constructor(make, data, include = async () => null) {
    Object.assign(this, {make, data, include, board: null, count: 0});
    noteFaults(data.faults);
    noteHints(data.hints);
    noteKeys(data.keys);
    noteSentences(data.sentences, data.clauses);
    patience.seconds = data.seconds ?? patience.seconds;
    this.begin();
  }

  begin() {
    this.library = this.make();
    this.library.limit(MOST_MEMORY);
    this.words = new Language(this.library, this.data);
  }

  // Answers a question. What is refused to the user, and not to the page, is a sentence.
  async answer(fields) {
    const word = want(fields, 'do', 'string');
    try {
      if (Object.hasOwn(WITHOUT, word)) return await WITHOUT[word](this, fields);
      if (!Object.hasOwn(OF_BOARD, word)) throw new Unfit('no such question');
      return await OF_BOARD[word](this.boardOf(fields), fields);
    } catch (error) {
      return this.told(error, fields.board);
    }
  }

  told(error, name) {
    if (error instanceof Gone) { if (this.board?.name === name) this.drop(); return {gone: error.message}; }
    if (error instanceof Sorry) return {sorry: error.message};
    if (error instanceof WebAssembly.RuntimeError || error instanceof RangeError) {
      this.board = null;
      this.begin();
      return {gone: 'the engine had no more memory, or no more stack'};
    }
    throw error;
  }

  boardOf(fields) {
    if (!this.board || this.board.name !== want(fields, 'board', 'string')) throw new Gone('it was left for another');
    return this.board;
  }

  drop() { this.board?.close(); this.board = null; }

  // A board of a source and a run file, at clock 0; or why it is refused.
  async open(fields) {
    const source = want(fields, 'source', 'string'), run = want(fields, 'run', 'object');
    const isHex = want(fields, 'hex', 'boolean', false), how = want(fields, 'how', 'object', {});
    if (source.length > 2 * LONGEST_SOURCE) throw new Sorry('the source has more than 1,048,576 bytes');
    await this.leaveOff();
    try {
      this.board = await this.including(includes =>
        new Board(this.library, this.data, {source, run, isHex, how, includes}));
    } catch (error) {
      if (error instanceof Remarks) return {refused: error.them.slice(0, MOST_REMARKS).map(it => ({...it, of: ''}))};
      if (!(error instanceof Sorry)) throw error;
      return {refused: refusalsOf(this.library, error, {source, isHex})};
    }
    const {board} = this;
    board.name = String(++this.count);
    const placed = board.listing.lines.filter(line => line.address && !isHex);
    const lines = Object.fromEntries(placed.map(line => [line.number, far(...line.address)]));
    const view = await board.view('there', 0);
    const isSeen = board.kind && !(board.kind === 'masm' ? how.language : how.services);
    const services = isSeen ? `${SAID[board.kind]}${how.otherwise?.[board.kind] ?? ''}` : '';
    return {board: board.name, lines, budget: board.budget, services, ...view};
  }

  // Does what may want texts that a source includes: once one is wanted it is looked for beside the source, and all is
  // done again.
  async including(work) {
    const beside = new Map();
    for (;;) {
      try {
        return work({ours: this.data.includes, beside});
      } catch (error) {
        if (!(error instanceof Wanted)) throw error;
        beside.set(error.file.toLowerCase(), await this.include(error.file));
      }
    }
  }

  // What is under way ends before another board begins.
  async leaveOff() {
    const {board} = this;
    if (!board) return;
    board.pause();
    await board.job?.catch(() => {});
    this.drop();
  }

  // What the editor asks of its text.
  async language(fields) {
    const source = want(fields, 'source', 'string'), what = want(fields, 'what', 'string');
    const place = numbers([want(fields, 'line', 'number', 0), want(fields, 'column', 'number', 0)], 0, LONGEST_SOURCE);
    if (source.length > LONGEST_SOURCE || !['hover', 'completion', 'refused'].includes(what))
      throw new Unfit('hover, completion or refused is wanted, of a source');
    if (what === 'completion') return this.words.answer(what, source, ...place);
    const isOther = isMasm(this.library, source);
    if (!isOther && what === 'hover') return this.words.answer(what, source, ...place);
    if (!isOther) return {refused: messagesOf(this.library, source, true)};
    return this.including(includes => {
      if (what === 'hover') return {html: block(rowsOfLine(this.library, source, includes, place[0] + 1))};
      return {refused: refusedOfMasm(this.library, source, includes).map(it => ({...it, line: it.line ?? 1}))};
    });
  }
}

const WITHOUT = {
  hello({data: {examples, defaults, grammar}}) {
    const them = examples.map(({name, shows, page, anchor}) => ({name, shows, page, anchor}));
    return {examples: them, defaults, grammar, given: null, drafts: [], amiss: null};
  },
  example({data}, fields) {
    const name = want(fields, 'name', 'string'), found = data.examples.find(it => it.name === name);
    if (!found) throw new Sorry(`there is no example ${name}`);
    return {name: `${name.split('/').at(-1)}.asm`, source: found.source, run: structuredClone(found.run), hex: false};
  },
  page({data}, fields) {
    const name = want(fields, 'name', 'string');
    if (!Object.hasOwn(data.pages, name)) throw new Sorry(`there is no page ${name}`);
    return {html: data.pages[name]};
  },
  open: (engine, fields) => engine.open(fields),
  language: (engine, fields) => engine.language(fields),
  close(engine, fields) { if (engine.board?.name === fields.board) engine.drop(); return {}; },
};

// Begins a job and waits for its end, but not for long.
async function doing(board, work, seconds) { board.begin(work, seconds); return outcome(board); }
// What the job came to; if it goes on, how far it is.
async function outcome(board) {
  if (!board.last) throw new Sorry('nothing is under way');
  const late = Symbol('late'), found =
    await Promise.race([board.last, new Promise(go => setTimeout(go, PATIENCE, late))]);
  return found === late ? {working: true, clock: board.clock} : found;
}
const seenIn = fields => want(fields, 'seen', 'number', 0);

const OF_BOARD = {
  run(board, fields) {
    const to = clockIn(fields, 'to', LAST_CLOCK), seen = seenIn(fields),
      isPast = want(fields, 'past', 'boolean', false);
    const isLight = want(fields, 'light', 'boolean', false),
      seconds = Math.min(Math.max(want(fields, 'ms', 'number', 100), 1), 200) / 1000;
    return doing(board, () => board.run(to, isPast, seen, isLight), seconds);
  },
  who(board, fields) {
    const address = want(fields, 'address', 'number'), count = want(fields, 'count', 'number', 1);
    if (address < 0) throw new Sorry('an address is 0 or more');
    return doing(board, () => board.who(address, count, seenIn(fields)));
  },
  set: (board, fields) => doing(board, () => board.set(want(fields, 'text', 'string'), seenIn(fields))),
  'go to'(board, fields) {
    const clock = want(fields, 'clock', 'number');
    if (clock < 0 || clock > LAST_CLOCK)
      throw new Sorry(`a clock lies from 0 to ${LAST_CLOCK.toLocaleString('en-US')}`);
    return doing(board, () => board.goTo(clock, seenIn(fields)));
  },
  wait: board => outcome(board),
  pause(board) { board.pause(); return {}; },
  look: (board, fields) => doing(board, () => board.view('there', seenIn(fields))),
  memory(board, fields) {
    const place = want(fields, 'place', 'string'), count = want(fields, 'count', 'number', 256);
    return doing(board, async () => board.memory(place, count));
  },
  code: (board, fields) => doing(board, async () => board.code(want(fields, 'place', 'string', ''))),
  stops(board, fields) {
    const stops = want(fields, 'stops', 'list');
    if (stops.length > 1000 || !stops.every(stop => typeof stop === 'string'))
      throw new Unfit('texts of stops are wanted');
    return board.setStops(stops.map(stop => stop.trim()));
  },
  type(board, fields) {
    const later = board.laterKeys(), isPlain = want(fields, 'plain', 'boolean', false);
    if (later && !want(fields, 'drop', 'boolean', false)) return {later};
    const given = 'text' in fields ? board.typed(want(fields, 'text', 'string'), isPlain) : null;
    const codes = given ? given[0] : numbers(want(fields, 'codes', 'list'), 1, 211);
    const pauses = given ? given[1] : codes.map((_, n) => (n ? 1000 : 0));
    if (!codes.length || codes.some(code => code % 128 < 1 || code % 128 > 83))
      throw new Unfit('scan codes are wanted');
    return doing(board, () => board.type(codes, pauses, seenIn(fields)));
  },
  'drop keys'(board, fields) {
    const gone = new Set(numbers(want(fields, 'keys', 'list'), 0, 1 << 20));
    return doing(board, () => board.withKeys(board.keys.filter((_, at) => !gone.has(at)), seenIn(fields)));
  },
  speaker(board, fields) {
    const low = clockIn(fields, 'low'), high = clockIn(fields, 'high');
    return board.speaker(low, Math.max(high, low + 1));
  },
  heard(board, fields) {
    const begin = clockIn(fields, 'begin'), end = clockIn(fields, 'end'),
      [slow] = numbers([want(fields, 'slow', 'number', 1)], 1, 1000);
    return board.heard(begin, Math.max(begin, end), slow);
  },
  async marks(board) {
    if (board.isMarking) return {busy: true};
    board.isMarking = true;
    try { return await board.marks(); } finally { board.isMarking = false; }
  },
};
for (const word of ['step', 'over', 'out', 'back', 'undo', 'lastStop'])
  OF_BOARD[word] = (board, fields) => doing(board, () => board[word](seenIn(fields)));
for (const word of ['chips', 'data', 'why']) OF_BOARD[word] = board => doing(board, async () => board[word]());
OF_BOARD.last = OF_BOARD.lastStop;
