"""tools/place: bytes of a ROM, a .COM program and a first sector, made Intel HEX and run, and what it refuses."""
from __future__ import annotations

import unittest

from tests.support import ToolCase

# Writes a letter, with video on: MOV AX,0B000h; MOV ES,AX; MOV DX,3B8h; MOV AL,8; OUT DX,AL; MOV AX,0700h + it; XOR DI,DI; STOSW
BEGIN, LETTER = bytes.fromhex('B800B08EC0BAB803B008EE'), 'B8{:02X}0731FFAB'
RET, HLT = b'\xC3', b'\xF4'


def shows(letter: str) -> bytes:
    """Instructions that show a letter."""
    return BEGIN + bytes.fromhex(LETTER.format(ord(letter)))


def rom_of(size: int, code: bytes, reset: bytes) -> bytes:
    """A ROM with code at its beginning, and bytes where the processor begins."""
    return code.ljust(size - 16, b'\xFF') + reset.ljust(16, b'\xFF')


class Archive(ToolCase):
    """Over the built program."""

    def place(self, kind: str, octets: bytes, status: int = 0) -> tuple[str, str]:
        """What it prints and tells of these bytes."""
        with open(f'{self.room}/it.bin', 'wb') as file:
            file.write(octets)
        return self.called('place', kind, 'it.bin', status=status)

    def run_it(self, kind: str, octets: bytes) -> dict[str, str]:
        """What the report of these bytes tells."""
        text, err = self.place(kind, octets)
        self.assertEqual(err, '')
        run = self.file('it.json', '{"version":1,"ram":128,"sw1":0,"sw2":0,"budget":5000,"keys":[]}')
        report = self.pcboard('run', '--hex', self.file('it.hex', text), run).stdout
        lines = report.splitlines()
        return {'line 1': lines[7].rstrip(), 'state': lines[3]} | dict(pair.split('=') for pair in ' '.join(lines[1:3]).split())

    def test_each_kind_runs(self) -> None:
        com = self.run_it('com', shows('C') + RET)
        self.assertEqual((com['line 1'], com['state'], com['CS'], com['DS'], com['SS'], com['SI']), ('C', 'state halted', 'F600', '0100', '0100', '0100'))
        sector = self.run_it('sector', (shows('S') + HLT).ljust(510, b'\0') + b'\x55\xAA')
        self.assertEqual((sector['line 1'], sector['CS'], sector['BX'], sector['CX'], sector['SP']), ('S', '0000', '7C00', '0001', '0100'))
        for size in (8, 16, 32, 64):
            offset = 0x10000 - size * 1024
            found = self.run_it('rom', rom_of(size * 1024, shows('R') + HLT, b'\xEA' + offset.to_bytes(2, 'little') + b'\x00\xF0'))
            self.assertEqual((found['line 1'], found['IP']), ('R', f'{offset + 18:04X}'))

    def test_what_is_refused(self) -> None:
        for kind, octets, why in (
            ('rom', bytes(38_400), 'it.bin has 38,400 bytes, and a ROM has 8,192, 16,384, 32,768 or 65,536\n'),
            ('rom', b'', 'it.bin has 0 bytes, and a ROM has 8,192, 16,384, 32,768 or 65,536\n'),
            ('rom', bytes(131_072), '65,536; tail -c 65536 it.bin > last.bin gives the last 64 KB\n'),
            ('rom', bytes(8192), 'it.bin has nothing 16 bytes before its end, where the processor begins'),
            ('rom', b'\x90' * 8176 + b'\xFF' * 16, 'it.bin has nothing 16 bytes before its end'),
            ('com', b'', 'it.bin is empty\n'),
            ('com', b'\x90' * 65_281, 'it.bin has 65,281 bytes, and a .COM program has at most 65,280\n'),
            ('com', b'MZ' + bytes(600), 'it.bin begins with MZ, so it is an .EXE program: tools/try runs it\n'),
            ('sector', bytes(511), 'it.bin has 511 bytes, and a first sector has 512\n'),
            ('sector', bytes(1024), 'it.bin has 1,024 bytes, and a first sector has 512: head -c 512 it.bin > first.bin\n'),
        ):
            printed, err = self.place(kind, octets, status=2)
            self.assertEqual(printed, '')
            self.assertIn(why, err)

    def test_what_is_told(self) -> None:
        for kind, octets, why in (
            ('rom', rom_of(8192, b'', b'\xEB\xFE'), 'place: it.bin has EB 16 bytes before its end, where the processor begins; a ROM of a PC has EA there'),
            ('rom', rom_of(8192, b'', b'\xEA\x00\x00\x00\xF0'), 'place: the far jump at the end of it.bin leads to F000:0000, where it has no byte\n'),
            ('sector', bytes(512), 'place: it.bin ends in 00 00; a BIOS starts no sector'),
        ):
            printed, err = self.place(kind, octets)
            self.assertTrue(printed.endswith(':00000001FF\n'))
            self.assertTrue(err.startswith(why), err)

    def test_a_word_that_is_none(self) -> None:
        self.assertIn("invalid choice: 'tape'", self.called('place', 'tape', 'x', status=2)[1])


if __name__ == '__main__':
    unittest.main()
