"""Symbols of Intel HEX, over stored listings; and the commands of tools/dbg that step over, run to a place and disassemble."""
from __future__ import annotations

import contextlib
import random
import subprocess
import unittest

from tests.support import EXAMPLES, ToolCase, example, is_there

from toolbox.command import Sorry
from toolbox.dap.values import LONGEST
from toolbox.intel_hex import image_of
from toolbox.places import event_of, far_of
from toolbox.program import Files as Built, ProbeSession
from toolbox.runfile import DEFAULTS, text_of
from toolbox.session_board import NONE, SessionBoard
from toolbox.symbols import symbols_of

ROM = 'B800B0 8EC0 EBFE 68656C6C6F2C2062696720776F726C64 00 90 90 F4'
NASM = """     1                                          bits 16
     2                                  ; a ROM
     3 00000000 B800B0                  start:  mov ax,0B000h
     4 00000003 8EC0                            mov es,ax
     5                                  .loop:
     6 00000005 EBFE                            jmp short .loop
     7 00000007 68656C6C6F2C206269-     msg:    db 'hello, big world',0
     7 00000010 6720776F726C6400   
     8                                  %macro  two 0
     9                                          nop
    10                                          nop
    11                                  %endmacro
    12                                          two
     9 00000018 90                  <1>  nop
    10 00000019 90                  <1>  nop
    13 0000001A F4                      end_it: hlt
"""
NASM_MAP = """
- NASM Map file ---------------------------------------------------------------

Source file:  rom.asm

-- Symbols --------------------------------------------------------------------

---- Section .text ------------------------------------------------------------

Real              Virtual           Name
               0                 0  start
               5                 5  start.loop
              1A                1A  end_it

"""


def hex_of(octets: bytes, paragraph: int = 0xF000) -> str:
    """A HEX text of some bytes."""
    records = [b'\0\0\2' + paragraph.to_bytes(2, 'big'), *(at.to_bytes(2, 'big') + b'\0' + octets[at : at + 16] for at in range(0, len(octets), 16)), b'\0\0\1']
    rows = [bytes([len(record) - 3]) + record for record in records]
    return ''.join(f':{row.hex()}{-sum(row) & 0xFF:02X}\n' for row in rows)


# Sections without bytes, a structure, whose names are no places, and a label at a section's end.
RAM = """     1                                          org 0
     2                                  struc point
     3 00000000 ????                    .x:     resw 1
     4                                  endstruc
     5                                          absolute 0
     6 00000000 ????                    ticks:  resw 1
     7                                  keys:
     8 00000002 ????????                        resb 4
     9                                  top:
    10                                          section .text
    11 00000000 B800B0                  start:  mov ax,0B000h
    12                                          section .bss
    13 00000006 <res 10h>               buf:    resb 16
"""
RAM_MAP = """- NASM Map file ---------------------------------------------------------------

Vstart            Start             Stop              Length    Class     Name
               0                 0                 3  00000003  progbits  .text
               C                 C                1C  00000010  nobits    .bss

---- Section .text ------------------------------------------------------------

Real              Virtual           Name
               0                 0  start

---- Section .bss -------------------------------------------------------------

Real              Virtual           Name
               E                 E  buf
"""
LD86 = """       main _main               0  00000000 R
       main _ticks              3  00000012 R
"""


class Files(ToolCase):
    """Over texts."""

    def of(self, text: str, place: str = '') -> dict[str, str]:
        """The labels of a file of symbols."""
        found = symbols_of(self.file('symbols', text) + place, image_of(hex_of(bytes.fromhex(ROM))))
        self.lines = {line.number: line for line in found.lines}
        self.at = {where: line.number for where, line in found.at.items()}
        return {name: f'{s:04X}:{o:04X}' for name, (s, o) in found.labels.items()}

    def test_nasm(self) -> None:
        labels = self.of(NASM)
        self.assertEqual(labels, {'start': 'F000:0000', 'start.loop': 'F000:0005', 'msg': 'F000:0007', 'end_it': 'F000:001A'})
        self.assertEqual(list(self.lines), list(range(1, 14)))
        self.assertEqual([self.at[0xF0000 + offset] for offset in (0, 3, 5, 7, 0x18, 0x19, 0x1A)], [3, 4, 6, 7, 12, 12, 13])
        self.assertEqual(self.of(NASM, '@F000:0'), labels)
        self.assertEqual(self.of(NASM_MAP), {name: labels[name] for name in ('start', 'start.loop', 'end_it')})

    def test_labels_alone(self) -> None:
        self.assertEqual(self.of('F000:0000 start\n0050:4 count\n'), {'start': 'F000:0000', 'count': '0050:0004'})
        self.assertEqual(self.of('000f0007 T msg\n00000500 B count\n'), {'msg': 'F000:0007', 'count': '0000:0500'})
        symbols = '                rom                  _main  0  {}  R\n                rom                 _count  3  00000002  R C\nTotal memory used: 29c\n'
        self.assertEqual(self.of(symbols.format('000f0003')), {'_main': 'F000:0003', '_count': '0000:0002'})
        self.assertEqual(self.of(symbols.format('00000003'), '@F000'), {'_main': 'F000:0003'})

    def test_another_place_or_program(self) -> None:
        for text, place in ((NASM, '@F001'), (NASM, '@F000:1'), (NASM_MAP, '@1000'), (NASM.replace('8EC0', '8EC1'), '')):
            with self.assertRaisesRegex(Sorry, 'FILE@SEGMENT'):
                self.of(text, place)
        with self.assertRaisesRegex(Sorry, 'is no NASM listing or map file'):
            self.of('start equ 5\n')
        with self.assertRaisesRegex(Sorry, "can't be read"):
            symbols_of(f'{self.room}/none', {})

    def test_what_has_no_bytes(self) -> None:
        """It stands in the paragraph of RAM that is told, else nowhere: no tool takes it for what is at F000h."""
        image = image_of(hex_of(bytes.fromhex(ROM)))
        for text, places in (
            (RAM, {'ticks': (0x50, 0), 'keys': (0x50, 2), 'top': (0x50, 6), 'buf': (0x50, 6)}),
            (RAM_MAP, {'buf': (0x50, 2)}),
            (LD86, {'_ticks': (0x50, 0x12)}),
        ):
            path, code = self.file('symbols', text), {'_main' if text == LD86 else 'start': (0xF000, 0)}
            found = symbols_of(f'{path}@F000,ram=50', image)
            self.assertEqual((found.labels, found.absent), (places | code, set()))
            found = symbols_of(f'{path}@F000', image)
            self.assertEqual((found.labels, found.absent), (code, set(places)))
            for name in places:
                with self.assertRaisesRegex(Sorry, f'{name.upper()} is not in the image: --symbols FILE,ram=PARAGRAPH'):
                    far_of(found, name.upper())
        lines = {line.number: line.address for line in symbols_of(f'{self.file("symbols", RAM)},ram=50', image).lines}
        self.assertEqual({number for number, address in lines.items() if address}, {11})

    def test_names_of_files(self) -> None:
        """One with the signs of a place in it is taken as it is named."""
        image = image_of(hex_of(bytes.fromhex(ROM)))
        for name in ('a@F0', 'a,ram=7', 'b@1:2,ram=3'):
            path = self.file(name, RAM)
            self.assertEqual([symbols_of(f'{path}{place}', image).labels['start'] for place in ('', '@F000', ',ram=50')], [(0xF000, 0)] * 3)

    def test_nasm_itself(self) -> None:
        """Its listing and its map, of the example whose ticks and keys are in RAM."""
        if not is_there('nasm', "symbols of NASM's own", 'nasm'):
            return
        with open(f'{EXAMPLES}/nasm/rom.asm', encoding='utf-8') as file:
            self.file('rom.asm', file.read())
        subprocess.run(['nasm', '-f', 'bin', '-l', 'rom.lst', '-o', 'rom.bin', 'rom.asm'], cwd=self.room, check=True)
        with open(f'{self.room}/rom.bin', 'rb') as octets:
            image = image_of(hex_of(octets.read(), 0xF600))
        labels = symbols_of(f'{self.room}/rom.lst@F600,ram=50', image).labels
        self.assertEqual([labels[name] for name in ('ticks', 'keys', 'start')], [(0x50, 0), (0x50, 2), (0xF600, 0)])
        self.assertEqual(symbols_of(f'{self.room}/rom.lst@F600', image).absent, {'ticks', 'keys'})


class Board(ToolCase):
    """Over the built program."""

    def monitor(self) -> tuple[str, str, list[str]]:
        """The monitor in ROM as HEX, its run file, and words with its listing."""
        source, run = example('monitor')
        listing = self.file('monitor.lst', self.pcboard('asm', '--list', source).stdout)
        return source.replace('.asm', '.hex'), run, ['--hex', '--symbols', listing]

    def dbg(self, *words: str, typed: str) -> list[str]:
        """What the debugger answers."""
        return self.called('dbg', *words, given=typed.replace('; ', '\n') + '\n')[0].splitlines()

    def test_symbols_in_each_tool(self) -> None:
        file, run, words = self.monitor()
        source = file.replace('.hex', '.asm')
        self.assertEqual(self.called('trace', *words, '--to', '2000', file, run)[0], self.called('trace', '--to', '2000', source, run)[0])
        for kind in ('--profile', '--coverage', '--listing'):
            self.assertEqual(self.called('trace', kind, *words, file, run)[0], self.called('trace', kind, source, run)[0], kind)
        label = next(line.split()[1] for line in self.dbg(source, run, typed='labels'))
        self.assertEqual(self.dbg(*words, file, run, typed=f'break {label}; go; list'), self.dbg(source, run, typed=f'break {label}; go; list'))
        page = self.file('page', f'runs = {label}\n')
        self.assertEqual(self.called('judge', *words, page, file, run)[0].splitlines()[-1], '1 met, 0 not')
        self.assertIn('goes with --hex', self.called('judge', '--symbols', 'x', page, source, run, status=2)[1])
        self.assertIn('goes with --hex', self.called('trace', '--symbols', 'x', source, run, status=2)[1])

    def test_over_calls_repeats_and_interrupts(self) -> None:
        files = self.program(
            '        MOV SP,400h\n        CALL away\nback:   MOV CX,9\n        CLD\n        REP LODSB\nthen:   INT3\nlast:   HLT\n'
            'away:   PUSH AX\n        CALL more\nmid:    POP AX\n        RET\nmore:   RET\nthree:  IRET\nENDS\nSEGMENT VECTORS AT 0\n        ORG 12\n        DW three,SEG three'
        )
        lines = self.dbg(*files, typed='until away; finish; next; next; next; next; where; step; next')
        places = [line.split()[2] if 'clock' in line else line for line in lines]
        self.assertEqual([line.split('F000:')[-1].split()[1] for line in lines[:6]], ['away', 'back', 'back+3', 'back+4', 'then', 'last'], places)
        lines = self.dbg(*files, typed='until away; break mid; next; next; until more; finish; stops; until nowhere')
        self.assertEqual(lines[0].split()[3], 'away')
        self.assertIn('stop 1 (break F000:0012 mid)', lines[3])
        self.assertIn('no label', lines[-1])

    def test_stops_are_met_on_the_way(self) -> None:
        files = self.program('        MOV SP,400h\n        CALL away\nback:   HLT\naway:   NOP\nmid:    NOP\n        RET')
        lines = self.dbg(*files, typed='break mid; step; step; next; stops; next; until start')
        self.assertIn('stop 1', lines[3])
        self.assertEqual(lines[4], lines[0])
        self.assertIn('never there up to the end of the run', lines[-1])

    def placed(self, offset: int, octets: bytes) -> Built:
        """A board with bytes at an offset, where it begins; offsets wrap."""
        parts = [(at, part) for at, part in ((offset, octets[: 0x10000 - offset]), (0, octets[0x10000 - offset :])) if part]
        placed = '\n'.join(f' ORG {at}\n DB {",".join(map(str, part))}' for at, part in parts)
        source = self.file('it.asm', f'SEGMENT IT AT 1000h\n{placed}\nENDS\nSEGMENT RESET AT 0FFFFh\n JMP FAR 1000h:{offset}\nENDS\n')
        return Built(source, self.file('it.json', text_of(DEFAULTS | {'ram': 128})))

    def begun(self, offset: int, octets: bytes) -> tuple[bytes, str]:
        """The instruction with which bytes at an offset begin, as a run of it tells."""
        with ProbeSession(self.placed(offset, octets)) as session:
            session.one('step')
            session.one('step')
            last = event_of(session.many('trail')[-1])
        return (last.octets, last.text) if (last.segment, last.offset) == (0x1000, offset) else (octets[:1], NONE)

    def test_disassembly_both_ways(self) -> None:
        """What pcprobe lists is what runs: bytes and text of random places, also over a segment's end."""
        octets = random.Random(8088).randbytes(300)
        for offset in (0x100, 0xFF00, 0xFFE8):
            with contextlib.closing(SessionBoard(self.placed(offset, octets), 0)) as board:
                rows = list(board.listed((0x1000, offset), 16))
            for at, code, text in rows:
                first = (at - offset) % 0x10000
                self.assertEqual((code, text), self.begun(at, octets[first : first + LONGEST]), (offset, at))
            self.assertEqual([at for at, _, _ in rows[1:]], [(at + len(code)) % 0x10000 for at, code, _ in rows[:-1]])

    def test_disassembly(self) -> None:
        files = self.program('        JMP SHORT over\n        REP MOVSB\n        DB 0Fh\nover:   LOOP over\n        DB 0FFh,0FFh\n        HLT')
        lines = self.dbg(*files, typed='u start 6; to 20; u CS:IP 1; dump CS:IP 2; u nowhere')
        self.assertEqual(
            [' '.join(line.split()) for line in lines[:6]],
            [
                'F000:0000 start EB03 JMP SHORT 00005h',
                'F000:0002 start+2 F3A4 REP MOVSB',
                'F000:0004 start+4 0F no instruction of the 8086',
                'F000:0005 over E2FE LOOP 00005h',
                'F000:0007 over+2 FF no instruction of the 8086',
                'F000:0008 over+3 FFF4 PUSH SP',
            ],
        )
        self.assertIn('over', lines[7])
        self.assertIn('E2 FE', lines[8])


if __name__ == '__main__':
    unittest.main()
