// What the editor asks of its text: what a word means, and what completes one. The tables of instructions, ports and
// words are those that the editors have.
import {formOf} from './forms.mjs';
import {codeOf, labelIn, listingOf, ownLines} from './listing.mjs';
import {written} from './places.mjs';
import {Straight, writtenTo} from './ports.mjs';
import {Sorry, far, hex, hexOf} from './session.mjs';

const CONSTANT = /^\s*([A-Za-z_]\w*)\s+EQU\b\s*(.*)/i, SEGMENT = /^\s*SEGMENT\s+([A-Za-z_]\w*)\s+AT\s+(\S+)/i;
const MOST_USES = 20, ADDRESSING = ['BX', 'BP', 'SI', 'DI'], SHORT_PORT = 0xff;
const NUMBER = /^(?:[0-9][0-9A-F]*h|[01]+b|\d+)$/i;
const COUNTS = {cl: ['CL', 255], n: ['elements', 65_535]}; // by what data decide, and how many there are at most

const plain = text => text.replace(/[&<>"']/g, sign => `&#${sign.charCodeAt(0)};`);
const paragraph = text => `<p>${text}</p>`, coded = text => `<code>${plain(text)}</code>`;
export const block = rows => (rows.length ? `<pre>${plain(rows.join('\n'))}</pre>` : '');

// The names that a source defines, by their small letters: each with its line, what it is, and that line's text.
function namesIn(lines) {
  const found = new Map();
  for (const [n, line] of lines.entries()) {
    const code = codeOf(line), label = labelIn(line), constant = CONSTANT.exec(code), segment = SEGMENT.exec(code);
    const name = label ?? constant?.[1] ?? segment?.[1], kind = label ? 'label' : constant ? 'constant' : 'segment';
    if (name && !found.has(name.toLowerCase()))
      found.set(name.toLowerCase(), {name, kind, line: n, code: line.trim(), value: (constant ?? segment)?.[2].trim()});
  }
  return found;
}

function numberIn(word) {
  if (!NUMBER.test(word)) return null;
  return /h$/i.test(word) ? parseInt(word, 16) : /b$/i.test(word) ? parseInt(word, 2) : parseInt(word, 10);
}

// A number in hexadecimal, decimal and binary, and as text if it is one.
function asNumber(value) {
  if (value > Number.MAX_SAFE_INTEGER) return 'needs more than 53 bits';
  const digits = hex(value);
  const octets = digits.padStart(digits.length + (digits.length % 2), '0').match(/../g).map(it => parseInt(it, 16));
  const isText = octets.every(octet => octet >= 0x20 && octet <= 0x7e), text = String.fromCharCode(...octets);
  return `is ${written(value)}, ${value}, ${value.toString(2)}b${isText ? plain(`, '${text}'`) : ''}`;
}

// The comment lines just above a line, else its own comment.
function commentOf(lines, at) {
  const found = [];
  let above = at - 1;
  while (above >= 0 && /^\s*;/.test(lines[above])) found.unshift(lines[above--].replace(/^[\s;]+/, ''));
  const own = lines[at].slice(codeOf(lines[at]).length).replace(/^[\s;]+/, '');
  return found.length ? found.join(' ') : own;
}

// All that is known of an instruction's clocks, by the first or the second table, in words.
function clocksTold({does, type, clocks}, table) {
  const [, fixed, each, by] = /^(\d+)\+(\d+)(cl|n)$/.exec(clocks[table]) ?? [];
  if (by) {
    const [what, most] = COUNTS[by], longest = Number(fixed) + Number(each) * most;
    return `${fixed} + ${each} × ${what}, ${fixed} to ${longest.toLocaleString('en-US')}`;
  }
  const [most, least] = clocks[table].split('/');
  if (least === undefined) return most;
  if (type === 0) return `${least}; ${most - least} more if it fails`;
  return `${most} if it ${does === 'branch' ? 'jumps' : 'enters'}, else ${least}`;
}

export class Language {
  constructor(library, data) {
    Object.assign(this, {library, data, source: null, listing: null});
    this.words = Object.fromEntries(Object.entries(data.words).map(([kind, them]) => [kind, new Set(them)]));
  }

  // The listing of a text, or null of one that is refused.
  listingOf(source) {
    if (this.source === source) return this.listing;
    this.source = source;
    try { this.listing = listingOf(this.library, source); }
    catch (error) { if (!(error instanceof Sorry)) throw error; this.listing = null; }
    return this.listing;
  }

  answer(what, source, line, column) {
    const lines = ownLines(source.replace(/^\ufeff/, ' ')), names = namesIn(lines);
    if (what === 'completion') return {items: this.completion(names, (lines[line] ?? '').slice(0, column))};
    const text = lines[line] ?? '', code = codeOf(text), start = column - /\w*$/.exec(text.slice(0, column))[0].length;
    const word = /^\w*/.exec(text.slice(start))[0];
    const isInText = (text.slice(0, start).split("'").length - 1) % 2 === 1, isCode = word && start < code.length;
    const sign = isInText ? /^'.'/.exec(text.slice(start - 1)) : null;
    if (sign) return {html: paragraph(`${coded(sign[0])} ${asNumber(sign[0].charCodeAt(1))}`)};
    return {html: isCode && !isInText ? this.hover(source, lines, names, line, word, start) : ''};
  }

  formsOf(word) {
    return this.data.rows.filter(row => row.names.some(name => name.split(' ')[0] === word.toUpperCase()));
  }

  hover(source, lines, names, line, word, start) {
    const listing = this.listingOf(source), row = listing?.lines[line], own = names.get(word.toLowerCase());
    const isLabelHere = own?.kind === 'label' && (own.line !== line || /^\s*$/.test(lines[line].slice(0, start)));
    const isStatement = this.words.mnemonic.has(word.toUpperCase()) && !isLabelHere;
    if (isStatement) return this.ofMnemonic(word, row) + this.ofPort(lines, line) + this.formsTold(word);
    if (own?.kind === 'label') return this.ofLabel(listing, lines, own);
    const value = numberIn(own ? own.value : word), told = value === null ? ''
      : paragraph(`${coded(word)} ${asNumber(value)}`);
    return told + (own || value !== null || this.words.register.has(word.toUpperCase()) ? this.ofPort(lines, line)
      : '');
  }

  // What it does, the line's bytes and clocks, and the flags.
  ofMnemonic(word, row) {
    const [form] = this.formsOf(word), does = form
      ? paragraph(`<b>${plain(word.toUpperCase())}</b> ${plain(form.does)}`) : '';
    const found = row?.address && form ? formOf(this.library, row.shown) : null;
    if (!found?.octets.length) return does;
    const clocks = [0, 1].map(table => paragraph(`Clocks by C${table + 1}: ${plain(clocksTold(found, table))}`));
    const flags = paragraph(`Flags that change: ${plain(form.flags || 'none')}`);
    return does + paragraph(coded(`${far(...row.address)} ${hexOf(row.shown)}`)) + clocks.join('') + flags;
  }

  // The mnemonic's forms, as a table.
  formsTold(word) {
    const rows = this.formsOf(word).map(({names, operands, octets, clocks}) => {
      const name = names.includes(word.toUpperCase()) ? word.toUpperCase() : names[0];
      const cells = [`${name} ${operands}`, octets, clocks].map(cell => `<td>${plain(cell.trim())}</td>`);
      return `<tr>${cells.join('')}</tr>`;
    });
    const head = '<tr><th>Form</th><th>Bytes</th><th>Clocks</th></tr>';
    return rows.length ? `<div class="wide"><table>${head}${rows.join('')}</table></div>` : '';
  }

  // The chip and register that IN or OUT reaches, and what the byte says that is written there.
  ofPort(lines, line) {
    const straight = new Straight(lines, this.words), port = straight.portOf(line), before = straight.bytesBefore(line);
    if (port === null) return '';
    const found = [`port ${hex(port)}h: ${this.data.ports[port] ?? 'nothing answers'}`];
    for (const [at, octet] of straight.bytesOut(line)) {
      const says = writtenTo(at, octet, before, this.data), where = at === port ? 'there' : `at port ${hex(at)}h`;
      if (says) found.push(`${hex(octet, 2)}h ${where}: ${says}`);
      before.push([at, octet]);
    }
    return found.map(it => paragraph(plain(it))).join('');
  }

  // A label's address, its comment or first bytes, and its uses.
  ofLabel(listing, lines, {name, line}) {
    const place = listing?.labelOf(name), first = listing?.lines.slice(line).find(it => it.address);
    const comment = commentOf(lines, line), used = new RegExp(`(?<![\\w.])${name}(?!\\w)`, 'i');
    const uses = [];
    lines.forEach((text, n) => {
      const code = codeOf(text).replace(/'[^']*'/g, ''), rest = n === line ? code.slice(code.indexOf(':') + 1) : code;
      if (used.test(rest)) uses.push(n + 1);
    });
    const shown = uses.slice(0, MOST_USES).join(', ') + (uses.length > MOST_USES ? ' ..' : '');
    const isFirst = place && first && far(...first.address) === far(...place);
    const bytes = isFirst ? paragraph(`begins with ${coded(hexOf(first.shown).replace(/..(?=.)/g, '$& '))}`) : '';
    return [
      paragraph(`<b>${plain(name)}</b> label${place ? `, ${coded(far(...place))}` : ''}`),
      comment ? paragraph(plain(comment)) : bytes,
      paragraph(uses.length ? `used in line${uses.length > 1 ? 's' : ''} ${shown}` : 'used nowhere'),
    ].join('');
  }

  // All that may stand there; the page picks by what is typed.
  completion(names, before) {
    const code = codeOf(before), isInText = (code.split("'").length - 1) % 2 === 1;
    if (isInText || code.length < before.trimEnd().length) return [];
    const statement = /^\s*(?:\w+\s*:)?\s*(\w*)$/.exec(before), own = [...names.values()];
    const mine = own.map(({name, kind, code: detail, value}) => {
      const number = kind === 'label' || value === undefined ? null : numberIn(value);
      const shown = number === null ? detail.slice(0, 80) : `${number.toString(16).toUpperCase()}h, ${number}`;
      return {label: name, detail: shown};
    });
    const words = (kind, detail) => this.data.words[kind].map(label => ({label, detail}));
    if (!statement) return this.operands(before, mine, words);
    const mnemonics = this.data.words.mnemonic.map(label => ({label, detail: this.formsOf(label)[0]?.does ?? ''}));
    const directives = words('directive', 'directive').filter(({label}) => label !== 'AT' && label !== 'DUP');
    const all = [...mnemonics, ...directives, ...words('prefix', 'prefix')];
    return /^[a-z]/.test(statement[1]) ? all.map(it => ({...it, label: it.label.toLowerCase()})) : all;
  }

  // What an operand may be.
  operands(before, mine, words) {
    if (before.lastIndexOf('[') > before.lastIndexOf(']'))
      return [...words('register', '').filter(({label}) => ADDRESSING.includes(label)), ...mine];
    const isShort = /\bOUT\s+\w*$|\bIN\s+\w+\s*,\s*\w*$/i.test(before), isLong = /\bMOV\s+DX\s*,\s*\w*$/i.test(before);
    const ports = Object.entries(this.data.ports).map(([port, detail]) =>
      [Number(port), detail]).filter(([port]) => (port > SHORT_PORT ? isLong : isShort));
    const shown = ports.map(([port, detail]) => ({label: written(port), detail}));
    return [...shown, ...mine, ...words('register', ''), ...words('operator', 'operator')];
  }
}
