// Which assembler a source is written for. The library tells it of one that it doesn't translate; so a line of NASM's
// is put after the text: where that is what is told, nothing before it shows whose the text is.
const AFTER = new TextEncoder().encode('\n%\n');
const SHOWN = /^[^\n]*:(\d+): this is a line of (NASM|the dialect)/;
const decoder = new TextDecoder();

// What shows that a text isn't one of MASM, [name, line]; null of one that is.
export function otherIn(library, bytes) {
  const whole = new Uint8Array(bytes.length + AFTER.length);
  whole.set(bytes);
  whole.set(AFTER, bytes.length);
  const {status, err} = library.masm([{name: 'SOURCE', bytes: whole}], false, false);
  if (status === 3) throw new RangeError('there is no memory for the translation');
  const found = status === 1 ? SHOWN.exec(decoder.decode(err)) : null;
  return found && [found[2] === 'NASM' ? 'nasm' : 'dialect', Number(found[1])];
}
