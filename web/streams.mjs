// Files and streams of the system, by node's calls.
import fs from 'node:fs';
import {constants} from 'node:os';

// What a C library says of an error.
const TEXTS = {
  ENOENT: 'No such file or directory',
  EACCES: 'Permission denied',
  EISDIR: 'Is a directory',
  ENOTDIR: 'Not a directory',
  ENAMETOOLONG: 'File name too long',
  ELOOP: 'Too many levels of symbolic links',
  EPIPE: 'Broken pipe',
};

// Waits while a stream that doesn't block has nothing, or takes nothing.
function patiently(call) {
  for (;;)
    try {
      return call();
    } catch (error) {
      if (error.code !== 'EAGAIN') throw error;
      Atomics.wait(new Int32Array(new SharedArrayBuffer(4)), 0, 0, 5);
    }
}

function read(file, bytes) {
  try {
    return patiently(() => fs.readSync(file, bytes));
  } catch (error) {
    if (error.code === 'EOF') return 0; // as Windows tells the end of a pipe
    throw error;
  }
}

// The next bytes of a stream, none at its end. It throws an error of node's that has a code, as all here does.
export function readSome(file, most = 1 << 16) {
  const piece = new Uint8Array(most);
  return piece.subarray(0, read(file, piece));
}

// The first bytes that a stream gives, as many as are wanted.
export function readAll(file, most = Infinity) {
  const pieces = [];
  for (let length = 0; length < most; ) {
    const piece = readSome(file, Math.min(1 << 16, most - length));
    if (!piece.length) break;
    pieces.push(piece);
    length += piece.length;
  }
  return Buffer.concat(pieces);
}

// The first bytes of a file.
export function readFile(path, most) {
  const file = fs.openSync(path, 'r');
  try {
    return readAll(file, most);
  } finally {
    fs.closeSync(file);
  }
}

export function print(stream, bytes) {
  for (let done = 0; done < bytes.length; ) done += patiently(() => fs.writeSync(stream, bytes, done));
}

// An error in the words of the program.
export function textOf(error) {
  const number = constants.errno[error.code] ?? constants.errno.EIO;
  return `${TEXTS[error.code] ?? `Error ${number}`} (os error ${number})`;
}
