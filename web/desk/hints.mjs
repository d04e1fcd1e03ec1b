// What a refused line looks like that was written for another assembler, or for a later processor. A hint is a guess
// from the line's look: that the line is refused, the program says, and nothing here. The tables are hints.json's,
// which Python reads too.
import {codeOf, labelIn} from './listing.mjs';
import {hex} from './session.mjs';

const LONGEST_LINE = 1000; // a longer one is given no hint: the looks' time grows faster than a line
const BEFORE = '^\\s*(?:\\w+\\s*:)?\\s*';
const SEGMENTED = 'code, data and labels stand in a segment: SEGMENT MAIN AT 50h before them, and ENDS behind';
let table = {};
export function noteHints(given) {
  const compiled = them => them.map(([look, hint]) => [new RegExp(look), hint]);
  table = {...given, looks: compiled(given.looks), habits: compiled(given.habits)};
}
export const isStatement = word => table.statements.includes(word);
export const isWord = word => table.words.includes(word);

// A line's code in upper case, with the texts in single quotes made empty.
const bare = line => codeOf(line).replace(/'[^']*'/g, "''").toUpperCase();

function ofWordAsLabel(code) {
  const found = /^\s*(\w+)\s*:/.exec(code), name = found?.[1];
  if (!isStatement(name)) return null;
  return `${name} is an instruction, and no instruction is a name: write ${lower(name)}_1: for ${lower(name)}:`;
}
const lower = text => text.toLowerCase();

function ofWordAsOperand(code) {
  const found = /\w\s+(?:(?:SHORT|FAR)\s+)?\[?(\w+)\]?\s*$|,\s*\[?(\w+)\]?\s*(?:,|$)/.exec(code);
  const word = found && (found[1] ?? found[2]), first = /^\s*(?:\w+\s*:)?\s*(\w+)/.exec(code);
  if (!isStatement(word) || !isStatement(first?.[1])) return null;
  return `${word} is an instruction, and no instruction is a name: write ${lower(word)}_1 for ${lower(word)}`;
}

function ofNameBeforeBrackets(code) {
  const found = /(\w+)\s*\[([^\]]*)\]/.exec(code), name = found?.[1];
  if (!name || isStatement(name) || isWord(name) || ['PTR', 'OFFSET', 'DWORD'].includes(name)) return null;
  return `a name stands in the brackets: [${lower(name)}+${found[2]}] for ${lower(name)}[${found[2]}]`;
}

function ofLongText(line) {
  const code = codeOf(line), found = /'([^']{2,})'/.exec(code);
  if (!found || /(^|[\s:])DB\s/i.test(code)) return null;
  const [first, second] = found[1], number = `0${hex(second.charCodeAt(0))}${hex(first.charCodeAt(0), 2)}h`;
  const word = found[1].length === 2 ? `; the word that has ${first} first is ${number}` : '';
  return `a text of several characters stands in DB alone${word}`;
}

function ofMissingColon(code) {
  const found = /^\s*(\w+)\s+(D[BWD]|\w+)\b/.exec(code);
  if (!found || isStatement(found[1])) return null;
  if (!/^D[BWD]$/.test(found[2]) && !isStatement(found[2])) return null;
  return `labels take a colon, those of data too: ${lower(found[1])}: ${found[2]} ..`;
}

function ofBareHexadecimal(code) {
  const found = /(?<![\w.])([A-F][0-9A-F]*H)\b(?!\s*:)/.exec(code);
  if (!found || ['AH', 'BH', 'CH', 'DH'].includes(found[1])) return null;
  return `a hexadecimal number begins with a digit: 0${found[1].slice(0, -1)}h for ${found[1].slice(0, -1)}h`;
}

function ofCharacters(line) {
  const marked = 'the file begins with a byte order mark: save it as UTF-8 without it';
  if (line.startsWith('\ufeff')) return `${marked}, or tail -c +4 FILE > NEW leaves it out`;
  const signs = [...line], column = signs.findIndex(sign => !((sign >= ' ' && sign <= '~') || '\t\r'.includes(sign)));
  if (column < 0) return null;
  const sign = signs[column], code = sign.codePointAt(0), shown = code < 32 || code === 127
    ? `\\x${lower(hex(code, 2))}` : sign;
  const said = `column ${column + 1} has '${shown}'; a source has printable ASCII, tabulators and line ends alone`;
  const there = ', in comments too: iconv -c -f UTF-8 -t ASCII FILE > NEW leaves the rest out';
  return column < [...codeOf(line)].length ? said : said + there;
}

// How alike two words are, as difflib tells it: twice the length of what they share, by the longest blocks, over both
// lengths.
export function likeness(a, b) {
  const shared = (aLow, aHigh, bLow, bHigh) => {
    let [best, at, there] = [0, 0, 0];
    for (let i = aLow; i < aHigh; i++)
      for (let j = bLow; j < bHigh; j++) {
        let n = 0;
        while (i + n < aHigh && j + n < bHigh && a[i + n] === b[j + n]) n++;
        if (n > best) [best, at, there] = [n, i, j];
      }
    return best ? best + shared(aLow, at, bLow, there) + shared(at + best, aHigh, there + best, bHigh) : 0;
  };
  return a.length + b.length ? (2 * shared(0, a.length, 0, b.length)) / (a.length + b.length) : 1;
}
// The known words that a word was most likely meant for, the likeliest first.
function nearest(word, known, most) {
  const scored = known.map(it => [likeness(lower(it), lower(word)), lower(it), it]).filter(([score]) => score >= 0.6);
  return scored.sort((a, b) => b[0] - a[0] || (a[1] < b[1] ? 1 : -1)).slice(0, most).map(([, , it]) => it);
}

function ofStatement(code) {
  const found = /^\s*(?:\w+\s*:)?\s*(\w+)/.exec(code);
  if (!found || isStatement(found[1]) || isWord(found[1])) return null;
  const [meant] = nearest(found[1], [...table.statements].sort(), 1);
  return meant ? `is ${meant} meant?` : null;
}

function ofName(code, source) {
  const names = source.map(labelIn).filter(Boolean);
  for (const line of source) {
    const found = /^\s*(?:segment\s+)?([a-z_]\w*)\s+(?:equ|at)\b/i.exec(codeOf(line));
    if (found) names.push(found[1]);
  }
  const known = new Set(names.map(name => name.toUpperCase()));
  const isName = it => !known.has(it) && !isStatement(it) && !isWord(it)
    && !new RegExp(`^(?:${table.own})$`).test(it);
  const unknown = (code.replace(/^\s*\w+\s*:/, '').match(/(?<![\w.'])[A-Z_]\w*/g) ?? []).filter(isName);
  for (const word of unknown) {
    const meant = nearest(word, [...new Map(names.map(name => [lower(name), name])).values()], 3);
    if (meant.length) return `no line defines ${lower(word)}; is ${meant.join(' or ')} meant?`;
  }
  if (!unknown.length) return null;
  const [first] = unknown, none = `no line defines ${lower(first)}`;
  if (/^[A-F][0-9A-F]*\d[0-9A-F]*$/.test(first))
    return `${none}; a hexadecimal number begins with a digit and ends with h: 0${first}h`;
  return source.length ? `${none}: a label begins its line and takes a colon, ${lower(first)}:` : null;
}

// A hint for a line by its habit; `code` is it without comment, in upper case, its texts empty.
function habitOf(line, code) {
  const plain = line.includes("'") ? line : line.split(';')[0];
  if (/'[^']*''[^']*'/.test(plain) && !plain.includes('""') && !/(^|[\s,(])''/.test(plain))
    return "a text holds no quote: DB 'It',39,'s'";
  if ((code.split("'").length - 1) % 2) return "a text ends with a quote, as it begins: 'a'";
  if (code.split('[').length !== code.split(']').length) return 'a bracket is missing: each [ has its ]';
  return table.habits.find(([look]) => look.test(code))?.[1] ?? ofOperands(code);
}

// A hint if an instruction has too many operands, or too few.
function ofOperands(code) {
  const found = new RegExp(`${BEFORE}(?:(?:LOCK|REPN?[EZ]?)\\s+)*(\\w+)\\s*(.*?)\\s*$`).exec(code);
  if (!found) return null;
  const [, name, rest] = found, [next] = rest.split(/\s+/);
  const kinds = [['none', 0, 'no operand'], ['one', 1, 'one operand'], ['two', 2, 'two operands']];
  const isNext = /^[A-Z]{2,}\b/.test(rest) && kinds.some(([names]) => table[names].includes(next));
  if (table.none.includes(name) && isNext) return 'one instruction a line';
  const count = rest ? rest.split(',').length : 0;
  for (const [names, wanted, said] of kinds) {
    if (!table[names].includes(name) || count === wanted) continue;
    const usual = 'JL'.includes(name[0]) ? 'label' : ['AX', 'AX,5'][wanted - 1];
    return `${name} takes ${said}${wanted ? `: ${name} ${table.examples[name] ?? usual}` : ''}`;
  }
  return null;
}

// A hint for a refused line of a source, by its look, its fault's number and the source's other lines; or null.
export function hintOf(line, number, source = []) {
  if (number === 2) return ofCharacters(line);
  if (line.length > LONGEST_LINE) return null;
  const code = bare(line), habit = [3, 4, 5, 7, 11].includes(number) ? habitOf(line, code) : null;
  if (habit && !([4, 7].includes(number) && ofBareHexadecimal(code))) return habit;
  let special = number === 3 ? ofWordAsLabel(code) : [3, 4, 11].includes(number) ? ofMissingColon(code) : null;
  if (number === 3) special = special ?? ofWordAsOperand(code) ?? ofNameBeforeBrackets(code) ?? ofLongText(line);
  if ([4, 7].includes(number)) special = special ?? ofBareHexadecimal(code);
  if (number === 7) special = special ?? ofName(code, source);
  if (special) return special;
  if ([6, 9, 10, 12].includes(number)) return null;
  if (number === 11) return SEGMENTED;
  const {looks} = table, some = number === 8 ? looks.filter(([, hint]) => /target|port/.test(hint)) : looks;
  const found = some.find(([look]) => look.test(code))?.[1];
  return found ?? (number === 4 ? ofStatement(code) : number === 8 ? table.ranges : null);
}
