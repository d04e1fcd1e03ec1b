"""The translation of a source of MASM by the library zebludor_program, which ZEBLUDOR_SESSION names: `masm.py ANSWER FILE [INCLUDED ..]`
wants this one, with its map; and refusals for lengths that don't go with the bytes, and for want of memory."""
import ctypes
import os
import sys

sys.path.insert(0, f'{os.path.dirname(os.path.realpath(__file__))}/../../python')
import zebludor

ROOM = 1 << 20


def bytes_of(path):
    with open(path, 'rb') as file:
        return file.read()


def translated(library, names, texts, lengths):
    """The status of a translation with its map, and both of its texts."""
    numbers, whole, names = (ctypes.c_uint64 * len(lengths))(*lengths), b''.join(texts), b''.join(name + b'\n' for name in names)
    out, err, ended = (ctypes.c_uint8 * ROOM)(), (ctypes.c_uint8 * ROOM)(), library.structs['zebludor_ended']()
    given = names, len(names), numbers, len(lengths), whole, len(whole), True, False
    library.calls['zebludor_masm'](*given, out, ROOM, err, ROOM, library.at(ended))
    return ended.status, bytes(out[: ended.out]), bytes(err[: ended.err])


def main():
    answer, *paths = sys.argv[1:]
    library = zebludor.library()
    names, texts = [os.path.basename(path).encode() for path in paths], list(map(bytes_of, paths))
    lengths = list(map(len, texts))
    status, out, err = translated(library, names, texts, lengths)
    assert (status, out) == (0, bytes_of(answer)), f'{status}: {err}'
    assert translated(library, names, texts, [lengths[0] - 1, *lengths[1:]])[0] == 2, 'a byte is left over'
    assert translated(library, names, texts, [*lengths, 0])[0] == 2, 'a length is left over'
    assert translated(library, [b'a.asm'], [b'no such line\n'], [13]) == (1, b'', b'a.asm:1: neither an instruction nor a directive nor a macro\n')
    library.calls['zebludor_limit'](100)
    assert translated(library, names, texts, lengths)[0] == 3, 'there is memory'
    library.calls['zebludor_limit'](0)
    assert translated(library, names, texts, lengths) == (status, out, err), 'the limit stays'


main()
