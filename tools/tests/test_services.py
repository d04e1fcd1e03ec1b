"""services/: each call's registers, flags and refusals, as the IBM PC Technical Reference ("ROM BIOS") and the DOS Technical Reference
have them, over programs in the board's dialect."""
from __future__ import annotations

import re
import struct
import unittest
from typing import Any

from tests.support import TOP, ToolCase

from toolbox.guests import Guest, prepared
from toolbox.program import Files, Session
from toolbox.report import Report, registers_of, report_of
from toolbox.scancodes import stamped, strokes_of
from toolbox.services import KEPT, TYPING, bytes_of, served_of

BUDGET = 10_000_000
CARRY, ZERO, INTERRUPTS = 1, 0x40, 0x200
TEXT = 0xB0000
# What a 5150's BIOS writes to the adapter: high resolution, the sixteen registers for 25 rows of 80, the video on.
SIXTEEN = bytes.fromhex('6150520F19061919020D0B0C00000000')
ADAPTER = [(0x3B8, 1), *(write for number, octet in enumerate(SIXTEEN) for write in ((0x3B4, number), (0x3B5, octet))), (0x3B8, 0x29)]
SERVED = {
    '10h': '00 01 02 03 05 06 07 08 09 0A 0E 0F 13',
    '16h': '00 01 02',
    '1Ah': '00 01',
    '21h': '00 01 02 06 07 08 09 0A 0B 0C 19 1A 25 2A 2C 2F 30 31 35 3C 3D 3E 3F 40 41 42 43 44 48 49 4A 4C 4E 4F 56',
}
# Values in all registers but those that a call takes, to see that they stay.
BEFORE = 'MOV BX,1234h\n MOV CX,2345h\n MOV DX,3456h\n MOV SI,4567h\n MOV DI,5678h\n MOV BP,6789h\n'
STAY = {'BX': 0x1234, 'CX': 0x2345, 'DX': 0x3456, 'SI': 0x4567, 'DI': 0x5678, 'BP': 0x6789}


class Seen:
    """A program's state where it comes to `seen:`, or to its end."""

    def __init__(self, session: Session, base: int) -> None:
        self.clock, self.registers = session.clock, registers_of(session.many('regs'))
        self.screen = [line.rstrip() for line in session.many('screen')]
        self.text, self.data = session.dump(TEXT, 4096), session.dump(0x400, 0x100)
        self.own = session.dump(base, 4096)

    @property
    def flags(self) -> int:
        """The flags word."""
        return self.registers['FL']

    def half(self, name: str) -> int:
        """A byte register."""
        word = self.registers[name[0] + 'X']
        return word >> 8 if name[1] == 'H' else word & 0xFF

    def cell(self, row: int, column: int) -> bytes:
        """A character with its attribute."""
        at = 2 * (80 * row + column)
        return self.text[at : at + 2]

    @property
    def cursor(self) -> tuple[int, int]:
        """Row and column of the data area's cursor."""
        return self.data[0x51], self.data[0x50]

    def word(self, offset: int) -> int:
        """A word of the program's segment."""
        return int.from_bytes(self.own[offset : offset + 2], 'little')


def adapter_writes(files: Files, end: int) -> list[tuple[int, int]]:
    """The ports and the bytes that OUT DX,AL wrote there, up to a clock."""
    found: list[tuple[int, int]] = []
    with Session(files) as session:
        while session.clock < end:
            session.one('step')
            if session.many('trail')[-1].endswith('OUT DX,AL'):
                registers = registers_of(session.many('regs'))
                found.append((registers['DX'], registers['AX'] & 0xFF))
    return found


class ServiceCase(ToolCase):
    """Small programs with services."""

    def prepare(self, lines: str, keys: str = '', budget: int = BUDGET, args: str = '', **more: Any) -> Any:
        """A program of these lines, made ready as the tools do it."""
        path = self.file('it.asm', f'SEGMENT MAIN AT 100h\n ORG 100h\nstart:\n{lines}\nseen: INT 20h\nENDS\n')
        typed = stamped(strokes_of(keys), *TYPING)
        return prepared(Guest(path, args, True), Files(path, ''), {'keys': typed, 'budget': budget} | more)

    def after(self, lines: str, keys: str = '', place: str = 'seen', **more: Any) -> Seen:
        """The state where it first comes to a label."""
        with self.prepare(lines, keys, **more) as files, Session(files) as session:
            assert files.symbols
            with open(files.symbols, encoding='utf-8') as file:
                found = re.search(rf'^(\w{{4}}:\w{{4}}) \w+\+? +{place}:', file.read(), re.M)
            assert found
            session.stop(f'break {found[1]}')
            self.assertTrue(session.go(BUDGET).startswith('stop'), session.many('screen'))
            return Seen(session, 0x1000)

    def whole(self, lines: str, keys: str = '', **more: Any) -> tuple[Report, Any]:
        """The report at the budget's end, and what the services left."""
        with self.prepare(lines, keys, **more) as files:
            report = report_of(self.pcboard(*files.words('run')).stdout)
            return report, served_of(files, report.clock)


class Start(ServiceCase):
    """What a program finds."""

    def test_it_stands_from_f600_on(self) -> None:
        self.assertEqual(min(bytes_of('bios')), 0xFE000)
        self.assertEqual(min(bytes_of('dos')), 0xF6000)
        self.assertLess(max(bytes_of('dos')), 0xFE000)
        self.assertFalse(set(range(0xFFFE0, 0xFFFF0)) & bytes_of('bios').keys(), 'the block by which a program begins')

    def test_registers_as_dos_leaves_them(self) -> None:
        seen = self.after('')
        wanted = {'CS': 0x100, 'DS': 0x100, 'ES': 0x100, 'SS': 0x100, 'SP': 0xFFFE, 'AX': 0, 'BX': 0, 'CX': 0xFF, 'DX': 0x100, 'SI': 0x100, 'DI': 0xFFFE}
        self.assertEqual({name: seen.registers[name] for name in wanted}, wanted)
        self.assertTrue(seen.flags & INTERRUPTS)

    def test_the_prefix(self) -> None:
        seen = self.after('', args='one two')
        self.assertEqual(seen.own[0:4], bytes.fromhex('CD20') + struct.pack('<H', 640 * 64 - 0x1000))
        self.assertEqual(seen.own[0x80:0x8A], b'\x08 one two\r')
        self.assertEqual(seen.own[0x50:0x53], bytes.fromhex('CD21CB'))
        environment = seen.word(0x2C)
        found = self.after(' MOV ES,[2Ch]\n MOV AL,ES:[0]')
        self.assertEqual((environment, found.half('AL')), (0xE0, ord('C')))

    def test_a_return_ends_it(self) -> None:
        report, left = self.whole(' RET')
        self.assertEqual((left.how, left.code, left.phase, report.state), (0x20, 0, 2, 'halted'))

    def test_the_adapter_is_set_up(self) -> None:
        """The sixteen registers that the Technical Reference gives for 25 rows of 80, in their order, and then the video on."""
        with self.prepare('') as files:
            self.assertEqual(adapter_writes(files, 60_000), ADAPTER)

    def test_the_data_area(self) -> None:
        data = self.after('').data
        words = {0x10: 0x3C, 0x13: 576, 0x1A: 0x1E, 0x1C: 0x1E, 0x4A: 80, 0x4E: 0, 0x60: 0x0B0C, 0x63: 0x3B4, 0x80: 0x1E, 0x82: 0x3E}
        self.assertEqual({offset: int.from_bytes(data[offset : offset + 2], 'little') for offset in words}, words)
        self.assertEqual((data[0x49], data[0x62], data[0x65]), (7, 0, 0x29))

    def test_vectors_of_the_image_stay(self) -> None:
        path = self.file(
            'own.asm',
            'SEGMENT MAIN AT 100h\n ORG 100h\n INT 60h\nseen: INT 20h\nown: MOV BX,77h\n IRET\nENDS\nSEGMENT V AT 0\n ORG 180h\n DW own,SEG own\nENDS\n',
        )
        with prepared(Guest(path, None, True), Files(path, ''), {}) as files, Session(files) as session:
            session.stop('break 100:102')
            session.go(BUDGET)
            self.assertEqual(registers_of(session.many('regs'))['BX'], 0x77)

    def test_less_memory(self) -> None:
        seen = self.after(' INT 12h', ram=144)
        self.assertEqual((seen.registers['AX'], seen.word(2)), (80, 80 * 64))


class Screen(ServiceCase):
    """INT 10h."""

    def test_00_set_mode(self) -> None:
        """Whatever the mode, it is 7 on this adapter: a blank screen of normal attributes, the cursor at its beginning."""
        for mode in (0, 3, 7):
            seen = self.after(f' MOV AX,0E41h\n INT 10h\n {BEFORE} MOV AX,{mode}\n INT 10h')
            self.assertEqual((seen.text, seen.cursor, seen.data[0x49]), (b'\x20\x07' * 2048, (0, 0), 7))
            self.assertEqual({name: seen.registers[name] for name in STAY}, STAY)
            self.assertEqual(seen.registers['AX'], mode)

    def test_01_shape(self) -> None:
        seen = self.after(' MOV CX,0607h\n MOV AH,1\n INT 10h\n MOV CX,0\n MOV AH,3\n MOV BH,0\n INT 10h')
        self.assertEqual(seen.registers['CX'], 0x607)

    def test_02_03_cursor(self) -> None:
        seen = self.after(' MOV DX,0C22h\n MOV BH,0\n MOV AH,2\n INT 10h\n MOV DX,0\n MOV CX,0\n MOV AH,3\n INT 10h')
        self.assertEqual((seen.registers['DX'], seen.registers['CX'], seen.cursor), (0xC22, 0x0B0C, (12, 34)))
        port = self.after(
            ' MOV DX,0C22h\n MOV AH,2\n INT 10h\n MOV DX,3B4h\n MOV AL,14\n OUT DX,AL\n INC DX\n IN AL,DX\n MOV BH,AL\n DEC DX\n MOV AL,15\n OUT DX,AL\n INC DX\n IN AL,DX\n MOV BL,AL'
        )
        self.assertEqual(port.registers['BX'], 12 * 80 + 34)

    def test_05_page(self) -> None:
        seen = self.after(f' MOV AX,0E41h\n INT 10h\n{BEFORE} MOV AX,0501h\n INT 10h')
        self.assertEqual((seen.screen[0], seen.data[0x62], seen.registers['BX']), ('A', 0, 0x1234))

    def fill(self) -> str:
        """Lines that write A to Y in the first column of 25 rows, and in the eightieth."""
        return ' MOV CX,25\n MOV DX,0\nrow: PUSH CX\n MOV AH,2\n INT 10h\n MOV AL,DH\n ADD AL,\'A\'\n MOV AH,0Ah\n MOV CX,1\n INT 10h\n MOV DL,79\n MOV AH,2\n INT 10h\n MOV AH,0Ah\n INT 10h\n MOV DL,0\n INC DH\n POP CX\n LOOP row\n'

    def test_06_scroll_up(self) -> None:
        seen = self.after(self.fill() + ' MOV AX,0603h\n MOV BH,70h\n MOV CX,0100h\n MOV DX,0A27h\n INT 10h')
        column = ''.join(line[:1] or ' ' for line in seen.screen)
        self.assertEqual(column, 'AEFGHIJK   LMNOPQRSTUVWXY')
        self.assertEqual(''.join(chr(seen.cell(row, 79)[0]) for row in range(25)), 'ABCDEFGHIJKLMNOPQRSTUVWXY')
        self.assertEqual([seen.cell(*place) for place in ((7, 0), (8, 0), (10, 39), (10, 40))], [b'K\x07', b' p', b' p', b' \x07'])

    def test_06_blanks_a_window(self) -> None:
        for lines in (0, 11, 200):
            seen = self.after(self.fill() + f' MOV AX,{0x600 + lines}\n MOV BH,7\n MOV CX,0100h\n MOV DX,0A27h\n INT 10h')
            self.assertEqual(''.join(line[:1] or ' ' for line in seen.screen), 'A' + ' ' * 10 + 'LMNOPQRSTUVWXY')
        seen = self.after(self.fill() + ' MOV AX,0600h\n MOV BH,7\n MOV CX,0\n MOV DX,0FFFFh\n INT 10h')
        self.assertEqual(seen.text[:4000], b'\x20\x07' * 2000)

    def test_06_of_no_window(self) -> None:
        seen = self.after(self.fill() + ' MOV AX,0601h\n MOV BH,7\n MOV CX,0505h\n MOV DX,0404h\n INT 10h')
        self.assertEqual(''.join(line[:1] for line in seen.screen), 'ABCDEFGHIJKLMNOPQRSTUVWXY')

    def test_07_scroll_down(self) -> None:
        seen = self.after(self.fill() + ' MOV AX,0703h\n MOV BH,1\n MOV CX,0100h\n MOV DX,0A27h\n INT 10h')
        self.assertEqual(''.join(line[:1] or ' ' for line in seen.screen), 'A   BCDEFGHLMNOPQRSTUVWXY')
        self.assertEqual(seen.cell(1, 39), b' \x01')
        down = self.after(self.fill() + ' MOV AX,0701h\n MOV BH,7\n MOV CX,0505h\n MOV DX,0404h\n INT 10h')
        self.assertEqual(''.join(line[:1] for line in down.screen), 'ABCDEFGHIJKLMNOPQRSTUVWXY')

    def test_08_read(self) -> None:
        seen = self.after(' MOV AX,0941h\n MOV BX,70h\n MOV CX,3\n INT 10h\n MOV DX,2\n MOV AH,2\n INT 10h\n MOV AH,8\n INT 10h')
        self.assertEqual(seen.registers['AX'], 0x7041)

    def test_09_0a_write(self) -> None:
        seen = self.after(' MOV AX,0941h\n MOV BX,70h\n MOV CX,90\n INT 10h\n MOV AX,0A42h\n MOV BX,1\n MOV CX,2\n INT 10h')
        self.assertEqual((seen.screen[0], seen.screen[1], seen.cursor), ('BB' + 78 * 'A', 10 * 'A', (0, 0)))
        self.assertEqual([seen.cell(0, 0), seen.cell(0, 2)], [b'Bp', b'Ap'])
        last = self.after(' MOV DX,184Eh\n MOV AH,2\n INT 10h\n MOV AX,0A42h\n MOV CX,0FFFFh\n INT 10h\n MOV AX,0A43h\n MOV CX,0\n INT 10h')
        self.assertEqual((last.screen[24], last.screen[0]), (78 * ' ' + 'BB', ''))

    def test_0e_teletype(self) -> None:
        seen = self.after("".join(f' MOV AX,{0xE00 + sign}\n INT 10h\n' for sign in (65, 66, 13, 10, 67, 68, 8, 69)))
        self.assertEqual((seen.screen[:2], seen.cursor), (['AB', 'CE'], (1, 2)))
        scrolled = self.after(
            ' MOV CX,24\nmore: MOV AX,0E0Ah\n INT 10h\n LOOP more\n MOV AX,0E41h\n INT 10h\n MOV AX,0E0Dh\n INT 10h\n MOV AX,0E0Ah\n INT 10h\n MOV AX,0E42h\n INT 10h'
        )
        self.assertEqual((scrolled.screen[23], scrolled.screen[24], scrolled.cursor), ('A', 'B', (24, 1)))
        wrapped = self.after(' MOV DX,184Fh\n MOV AH,2\n INT 10h\n MOV AX,0E41h\n INT 10h\n MOV AX,0E42h\n INT 10h')
        self.assertEqual((wrapped.screen[23], wrapped.screen[24], wrapped.cursor), (79 * ' ' + 'A', 'B', (24, 1)))
        at_left = self.after(' MOV AX,0E08h\n INT 10h')
        self.assertEqual(at_left.cursor, (0, 0))

    def test_0e_bell(self) -> None:
        """1,193,182 / 1,331 Hz, half a second of it."""
        changes = self.whole(' MOV AX,0E07h\n INT 10h')[0].changes
        self.assertEqual(changes[4][0] - changes[2][0], 4 * 0x533)
        self.assertAlmostEqual((changes[-1][0] - changes[0][0]) / 4772727, 0.47, delta=0.01)
        self.assertEqual((changes[-1][1], self.after(' MOV AX,0E07h\n INT 10h').cursor), (0, (0, 0)))

    def test_0f_mode(self) -> None:
        seen = self.after(' MOV BX,1234h\n MOV AH,0Fh\n INT 10h')
        self.assertEqual((seen.registers['AX'], seen.registers['BX']), (0x5007, 0x34))

    def test_13_string(self) -> None:
        lines = " MOV AX,13{:02X}h\n MOV BX,70h\n MOV CX,{}\n MOV DX,0203h\n MOV BP,text\n INT 10h\n JMP SHORT seen\ntext: DB {}\n"
        seen = self.after(lines.format(0, 4, "'A',13,10,'B'"))
        self.assertEqual((seen.screen[2:4], seen.cell(2, 3), seen.cursor), (['   A', 'B'], b'Ap', (0, 0)))
        self.assertEqual(self.after(lines.format(1, 4, "'A',13,10,'B'")).cursor, (3, 1))
        pairs = self.after(lines.format(3, 2, "'A',1,'B',0Fh"))
        self.assertEqual((pairs.cell(2, 3), pairs.cell(2, 4), pairs.cursor), (b'A\x01', b'B\x0F', (2, 5)))
        self.assertEqual(self.after(lines.format(2, 2, "'A',1,'B',0Fh")).cursor, (0, 0))
        self.assertEqual(self.after(lines.format(1, 0, "'A'")).cursor, (2, 3))

    def test_others_are_noted(self) -> None:
        for function in (4, 0x0B, 0x0C, 0x10, 0x12, 0x14, 0x4F, 0xFF):
            _, left = self.whole(f' {BEFORE} MOV AX,{256 * function}\n INT 10h')
            self.assertEqual((left.notes, left.calls[0][:4]), (1, (0x10, 256 * function, 0x117, 0x100)))

    def test_registers_stay(self) -> None:
        for function in (1, 2, 5, 6, 9, 0x0A, 0x0E, 0x12):
            seen = self.after(f'{BEFORE} MOV AX,{256 * function + 65}\n INT 10h')
            self.assertEqual({name: seen.registers[name] for name in STAY}, STAY, function)
            self.assertEqual((seen.registers['DS'], seen.registers['ES'], seen.registers['AX']), (0x100, 0x100, 256 * function + 65))


class Board(ServiceCase):
    """What the board has, and what isn't there."""

    def test_11_12(self) -> None:
        self.assertEqual(self.after(' INT 11h').registers['AX'], 0x3C)
        self.assertEqual(self.after(' INT 12h').registers['AX'], 576)
        self.assertEqual(self.after(' INT 12h', ram=256).registers['AX'], 192)

    def test_13_no_diskette(self) -> None:
        for function in (0, 1, 2, 3, 8, 0x15):
            seen = self.after(f'{BEFORE} CLC\n MOV AX,{256 * function + 1}\n INT 13h')
            self.assertEqual((seen.half('AH'), seen.flags & CARRY, seen.data[0x41]), (0x80, CARRY, 0x80))
            self.assertEqual({name: seen.registers[name] for name in STAY}, STAY)

    def test_14_17_15(self) -> None:
        for interrupt, status in ((0x14, 0x80), (0x17, 0x01)):
            for function in (0, 1, 2, 3):
                seen = self.after(f'{BEFORE} MOV AX,{256 * function + 65}\n INT 0{interrupt:02X}h')
                self.assertEqual((seen.half('AH'), seen.half('AL')), (status, 65))
                self.assertEqual({name: seen.registers[name] for name in STAY}, STAY)
        seen = self.after(' CLC\n MOV AX,8800h\n INT 15h')
        self.assertEqual((seen.half('AH'), seen.flags & CARRY), (0x86, CARRY))

    def test_18_19_end(self) -> None:
        for interrupt in (0x18, 0x19):
            report, left = self.whole(f' INT 0{interrupt:02X}h')
            self.assertEqual((left.phase, left.how, report.state), (2, interrupt, 'halted'))

    def test_stubs(self) -> None:
        for interrupt in (5, 0x1B, 0x1C):
            report, left = self.whole(f' INT 0{interrupt:02X}h')
            self.assertEqual((left.how, left.notes), (0x20, 0))

    def test_an_interrupt_that_is_not_there(self) -> None:
        for interrupt in (0x2F, 0x33, 0x40, 0x67, 0xFF):
            seen = self.after(f'{BEFORE} MOV AX,1234h\n INT 0{interrupt:02X}h')
            self.assertEqual({name: seen.registers[name] for name in STAY}, STAY)
            _, left = self.whole(f' MOV AX,1234h\n INT 0{interrupt:02X}h')
            self.assertEqual((left.notes, left.calls[0][:4]), (1, (interrupt, 0x1234, 0x105, 0x100)))

    def test_one_that_is_raised_without_int_is_not_noted(self) -> None:
        _, left = self.whole(' MOV AX,7FFFh\n ADD AX,1\n INTO')
        self.assertEqual((left.notes, left.how), (0, 0x20))

    def test_int_3_ends(self) -> None:
        for lines in (' INT3', ' INT 3'):
            report, left = self.whole(lines)
            self.assertEqual((left.how, left.phase, report.state, left.calls[0].segment), (3, 2, 'halted', 0x100))
        own = ' MOV AX,2503h\n MOV DX,own\n INT 21h\n INT3\n INT 3\n JMP SHORT seen\nown: INC BYTE CS:[times]\n IRET\ntimes: DB 0\n'
        self.assertEqual(self.whole(own)[1].how, 0x20)
        steps = ' MOV AX,302h\n PUSH AX\n POPF\n MOV AL,0CCh\n NOP\n MOV AX,202h\n PUSH AX\n POPF'
        self.assertEqual((self.whole(steps)[1].how, self.whole(steps)[1].notes), (0x20, 0))

    def test_each_place_is_listed(self) -> None:
        """24 of them, with how often; the count goes no further than a word."""
        one = ' MOV AX,3900h\n INT 21h\n'
        left = self.whole(one * 2 + ' MOV CX,3\nmore: MOV AX,0F55h\n INT 21h\n LOOP more\n INT 33h')[1]
        wanted = [(0x21, 0x39, 0x103, 1), (0x21, 0x39, 0x108, 1), (0x21, 0x0F, 0x110, 3), (0x33, 0x0F, 0x114, 1)]
        self.assertEqual([(call.number, call.ax >> 8, call.offset - 2, call.times) for call in left.calls], wanted)
        left = self.whole(one * 30)[1]
        self.assertEqual((len(left.calls), left.notes), (24, 30))
        self.assertIn('6 more calls', left.remarks('at {0[0]:04X}:{0[1]:04X}'.format)[-1])
        unlisted = self.whole(one + ' MOV AX,9000h\n MOV DS,AX\n MOV WORD [0FE08h],0')[1]
        self.assertEqual([(call.number, call.ax >> 8, call.offset - 2, call.times) for call in unlisted.calls], [(0x21, 0x39, 0x103, 1)])
        left = self.whole(' MOV BX,2\nagain: MOV CX,40000\nmore: INT 33h\n LOOP more\n DEC BX\n JNZ again', budget=150_000_000)[1]
        self.assertEqual((left.calls[0].times, left.how), (0xFFFF, 0x20))

    def test_two_are_counted_and_the_first_kept(self) -> None:
        _, left = self.whole(' MOV AH,39h\n INT 21h\n MOV AH,3Ah\n INT 21h\n INT 33h')
        self.assertEqual((left.notes, left.calls[0][:4]), (3, (0x21, 0x3900, 0x104, 0x100)))


class Keys(ServiceCase):
    """INT 16h and 09h."""

    def key(self, keys: str) -> int:
        """AX of the first key of a text."""
        return self.after(' MOV AH,0\n INT 16h', keys).registers['AX']

    def test_signs_of_a_us_keyboard(self) -> None:
        rows = ('`1234567890-=', 'qwertyuiop[]\\', "asdfghjkl;'", 'zxcvbnm,./ ')
        codes = ([0x29, *range(2, 0x0E)], [*range(0x10, 0x1C), 0x2B], range(0x1E, 0x29), [*range(0x2C, 0x36), 0x39])
        shifted = ('~!@#$%^&*()_+', 'QWERTYUIOP{}|', 'ASDFGHJKL:"', 'ZXCVBNM<>? ')
        lines = ' MOV DI,200h\nnext: MOV AH,0\n INT 16h\n STOSW\n CMP AL,13\n JNE next'
        for plain, upper, them in zip(rows, shifted, codes):
            for text in (plain, upper):
                seen = self.after(lines, text.replace('{', '{{').replace('}', '}}') + '{enter}', budget=20_000_000)
                found = [seen.word(0x200 + 2 * at) for at in range(len(text) + 1)]
                self.assertEqual(found, [256 * code + ord(sign) for code, sign in zip([*them, 0x1C], text + '\r')])

    def test_special_keys(self) -> None:
        wanted = {
            '{esc}': 0x011B,
            '{backspace}': 0x0E08,
            '{tab}': 0x0F09,
            '{shift+tab}': 0x0F00,
            '{enter}': 0x1C0D,
            '{ctrl+enter}': 0x1C0A,
            '{f1}': 0x3B00,
            '{f10}': 0x4400,
            '{shift+f1}': 0x5400,
            '{ctrl+f1}': 0x5E00,
            '{alt+f1}': 0x6800,
            '{alt+f10}': 0x7100,
            '{up}': 0x4800,
            '{left}': 0x4B00,
            '{del}': 0x5300,
            '{ins}': 0x5200,
            '{shift+left}': 0x4B34,
            '{ctrl+left}': 0x7300,
            '{ctrl+home}': 0x7700,
            '{ctrl+c}': 0x2E03,
            '{ctrl+a}': 0x1E01,
            '{ctrl+[}': 0x1A1B,
            '{ctrl+2}': 0x0300,
            '{ctrl+6}': 0x071E,
            '{ctrl+-}': 0x0C1F,
            '{ctrl+backspace}': 0x0E7F,
            '{alt+a}': 0x1E00,
            '{alt+1}': 0x7800,
            '{alt+=}': 0x8300,
            '{prtsc}': 0x372A,
            '{ctrl+prtsc}': 0x7200,
            '{ctrl+1}x': 0x2D78,
            '{alt+;}x': 0x2D78,
            '{shift+prtsc}x': 0x2D78,
            '{ctrl+up}x': 0x2D78,
        }
        self.assertEqual({keys: f'{self.key(keys):04X}' for keys in wanted}, {keys: f'{code:04X}' for keys, code in wanted.items()})

    def test_locks(self) -> None:
        wanted = {
            '{capslock}a': 0x1E41,
            '{capslock}A': 0x1E61,
            '{capslock}1': 0x0231,
            '{capslock}{capslock}a': 0x1E61,
            '{numlock}{left}': 0x4B34,
            '{numlock}{shift+left}': 0x4B00,
            '{numlock}{numlock}{left}': 0x4B00,
            '{numlock}{ins}': 0x5230,
        }
        self.assertEqual({keys: f'{self.key(keys):04X}' for keys in wanted}, {keys: f'{code:04X}' for keys, code in wanted.items()})

    def test_00_waits(self) -> None:
        seen = self.after(f'{BEFORE} MOV AH,0\n INT 16h', '{wait 1000000}a')
        self.assertGreater(seen.clock, 1_200_000)
        self.assertEqual({name: seen.registers[name] for name in STAY}, STAY)

    def test_01_looks(self) -> None:
        nothing = self.after(f'{BEFORE} MOV AX,0155h\n INT 16h')
        self.assertEqual((nothing.flags & ZERO, nothing.registers['AX']), (ZERO, 0x155))
        there = self.after('again: MOV AH,1\n INT 16h\n JZ again\n MOV AH,1\n INT 16h\n PUSHF\n POP BX', 'a')
        self.assertEqual((there.registers['AX'], there.registers['BX'] & ZERO), (0x1E61, 0))
        twice = self.after('again: MOV AH,1\n INT 16h\n JZ again\n MOV AH,0\n INT 16h\n MOV AH,1\n INT 16h', 'a')
        self.assertEqual(twice.flags & ZERO, ZERO)

    def test_02_shifts(self) -> None:
        lines = ' MOV AH,0\n INT 16h\n MOV AH,2\n INT 16h'
        wanted = {
            'a': 0,
            '{shift+a}': 2,
            '{rshift+a}': 1,
            '{ctrl+a}': 4,
            '{alt+a}': 8,
            '{capslock}a': 0x40,
            '{numlock}a': 0x20,
            '{scrolllock}a': 0x10,
            '{ins}': 0x80,
        }
        self.assertEqual({keys: self.after(lines, keys).half('AL') for keys in wanted}, wanted)
        self.assertEqual(self.after(' MOV AH,0\n INT 16h\n MOV AH,0\n INT 16h\n MOV AH,2\n INT 16h', 'Ab').half('AL'), 0)

    def test_the_buffer_holds_fifteen(self) -> None:
        keys = 'abcdefghijklmnopqrst'
        lines = 'tick: HLT\n PUSH DS\n MOV AX,40h\n MOV DS,AX\n CMP WORD [6Ch],15\n POP DS\n JB tick\n MOV DI,200h\n MOV CX,15\nnext: MOV AH,0\n INT 16h\n STOSB\n LOOP next\n MOV AH,1\n INT 16h'
        seen = self.after(lines, keys)
        self.assertEqual((seen.own[0x200:0x20F], seen.flags & ZERO), (keys[:15].encode(), ZERO))
        _, left = self.whole(lines, keys)
        self.assertEqual(left.lost, 5)

    def test_other_functions_are_noted(self) -> None:
        _, left = self.whole(' MOV AX,1000h\n INT 16h')
        self.assertEqual((left.notes, left.calls[0][:2]), (1, (0x16, 0x1000)))

    def test_break(self) -> None:
        seen = self.after(' MOV AH,0\n INT 16h', '{ctrl+scrolllock}')
        self.assertEqual((seen.registers['AX'], seen.data[0x71]), (0, 0x80))
        lines = ' MOV AX,251Bh\n MOV DX,own\n INT 21h\n MOV AH,0\n INT 16h\n JMP SHORT seen\nown: MOV DI,99h\n IRET\n'
        self.assertEqual(self.after(lines, '{ctrl+scrolllock}', place='own').registers['DS'], 0x40)


class Time(ServiceCase):
    """INT 08h, 1Ah and 1Ch."""

    def test_ticks(self) -> None:
        """One in 65,536 counts of four clocks each."""
        seen = self.after(f'{BEFORE} MOV AX,0\nagain: INT 1Ah\n CMP DX,3\n JB again')
        self.assertEqual((seen.registers['CX'], seen.registers['DX'], seen.half('AL')), (0, 3, 0))
        later = self.after(' MOV AX,0\nagain: INT 1Ah\n CMP DX,13\n JB again')
        self.assertAlmostEqual(later.clock - seen.clock, 10 * 65536 * 4, delta=300)
        self.assertEqual(int.from_bytes(later.data[0x6C:0x70], 'little'), 13)

    def test_setting_and_midnight(self) -> None:
        lines = ' MOV CX,18h\n MOV DX,0AEh\n MOV AH,1\n INT 1Ah\nagain: MOV AH,0\n INT 1Ah\n CMP CX,0\n JNE again'
        seen = self.after(lines)
        self.assertEqual((seen.registers['DX'], seen.half('AL')), (0, 1))
        self.assertEqual(self.after(lines + '\n MOV AH,0\n INT 1Ah').half('AL'), 0)

    def test_others(self) -> None:
        _, left = self.whole(' MOV AX,0200h\n INT 1Ah')
        self.assertEqual((left.notes, left.calls[0][:2]), (1, (0x1A, 0x200)))
        self.assertEqual(self.after(' CLC\n MOV AH,2\n INT 1Ah').flags & CARRY, CARRY)

    def test_1c(self) -> None:
        lines = ' MOV AX,251Ch\n MOV DX,own\n INT 21h\nwaits: CMP BYTE [times],5\n JNE waits\n JMP SHORT seen\nown: INC BYTE CS:[times]\n IRET\ntimes: DB 0\n'
        self.assertAlmostEqual(self.after(lines).clock, 5 * 262144, delta=70_000)


class Dos(ServiceCase):
    """INT 20h to 2Fh."""

    def test_ends(self) -> None:
        wanted = {' INT 20h': (0x20, 0), ' MOV AX,4C05h\n INT 21h': (0x4C, 5), ' MOV AX,0\n INT 21h': (0x20, 0), ' MOV DX,200h\n INT 27h': (0x27, 0)}
        wanted[' MOV AX,3107h\n MOV DX,20h\n INT 21h'] = (0x31, 7)
        wanted |= {' MOV AX,1\n MOV BL,0\n DIV BL': (0, 0xFF), ' INT 23h': (0x23, 0), ' MOV AX,4CFFh\n INT 21h': (0x4C, 0xFF)}
        for lines, (how, code) in wanted.items():
            report, left = self.whole(lines)
            self.assertEqual((left.how, left.code, left.phase, report.state, report.flag('IF')), (how, code, 2, 'halted', 0), lines)
        self.assertIn('Divide overflow', self.whole(' MOV BL,0\n DIV BL')[0].text)

    def test_01_07_08_read(self) -> None:
        for function, shown in ((1, 'a'), (7, ''), (8, '')):
            seen = self.after(f'{BEFORE} MOV AX,{256 * function}\n INT 21h', 'a')
            self.assertEqual((seen.registers['AX'], seen.screen[0]), (256 * function + 97, shown))
            self.assertEqual({name: seen.registers[name] for name in STAY}, STAY)
            two = self.after(f' MOV AH,{function}\n INT 21h\n MOV BL,AL\n MOV AH,{function}\n INT 21h', '{f1}')
            self.assertEqual((two.half('BL'), two.half('AL')), (0, 0x3B))

    def test_ctrl_c(self) -> None:
        for function, is_end in ((1, True), (7, False), (8, True)):
            report, left = self.whole(f' MOV AH,{function}\n INT 21h', 'a{ctrl+c}'[1:])
            self.assertEqual(left.how, 0x23 if is_end else 0x20)
            self.assertEqual(report.text, '^C' if is_end else '')
        own = ' MOV AX,2523h\n MOV DX,own\n INT 21h\n MOV AH,8\n INT 21h\n JMP SHORT seen\nown: INC BYTE CS:[times]\n IRET\ntimes: DB 0\n'
        seen = self.after(own, '{ctrl+c}b')
        self.assertEqual(seen.half('AL'), ord('b'))
        self.assertEqual(self.whole(' MOV AH,8\n INT 21h', '{ctrl+scrolllock}')[1].how, 0x23)

    def test_02_writes(self) -> None:
        seen = self.after(f'{BEFORE} MOV DL,65\n MOV AH,2\n INT 21h\n MOV DL,9\n MOV AH,2\n INT 21h\n MOV BL,AL\n MOV DL,66\n INT 21h')
        self.assertEqual((seen.screen[0], seen.half('BL'), seen.half('AL')), ('A       B', 0x20, 66))

    def test_06_direct(self) -> None:
        seen = self.after(' MOV DL,65\n MOV AH,6\n INT 21h')
        self.assertEqual((seen.screen[0], seen.half('AL')), ('A', 65))
        nothing = self.after(' MOV DL,0FFh\n MOV AX,0612h\n INT 21h')
        self.assertEqual((nothing.flags & ZERO, nothing.half('AL'), nothing.screen[0]), (ZERO, 0, ''))
        typed = self.after('again: MOV DL,0FFh\n MOV AH,6\n INT 21h\n JZ again', 'q')
        self.assertEqual((typed.half('AL'), typed.screen[0]), (ord('q'), ''))

    def test_09_text(self) -> None:
        seen = self.after(f"{BEFORE} MOV DX,text\n MOV AX,0900h\n INT 21h\n JMP SHORT seen\ntext: DB 'One',13,10,9,'two$no'\n")
        self.assertEqual((seen.screen[:2], seen.registers['AX']), (['One', '        two'], 0x924))
        _, left = self.whole(" MOV DX,text\n MOV AH,9\n INT 21h\n INT 20h\ntext: DB 'One',13,10,9,'two$no'\n")
        self.assertEqual(left.output, b'One\r\n\ttwo')

    def test_0a_line(self) -> None:
        lines = ' MOV DX,300h\n MOV BYTE [300h],6\n MOV AH,0Ah\n INT 21h'
        wanted = {
            'abc{enter}': (3, b'abc\r', 'abc'),
            '{enter}': (0, b'\r', ''),
            'abx{backspace}c{enter}': (3, b'abc\r', 'abc'),
            '{backspace}a{enter}': (1, b'a\r', 'a'),
            'abcdefg{enter}': (5, b'abcde\r', 'abcde'),
            '{f1}{left}a{enter}': (1, b'a\r', 'a'),
        }
        for keys, (length, octets, shown) in wanted.items():
            seen = self.after(lines, keys)
            self.assertEqual((seen.own[0x301], seen.own[0x302 : 0x302 + len(octets)], seen.screen[0]), (length, octets, shown), keys)
            self.assertEqual(seen.cursor, (0, 0), 'the return is shown, and no line feed')
        again = self.after(lines, 'ab{esc}cd{enter}')
        self.assertEqual((again.own[0x301:0x305], again.screen[:2]), (b'\x02cd\r', ['ab\\', 'cd']))
        none = self.after(' MOV DX,300h\n MOV BYTE [300h],0\n MOV BYTE [301h],77h\n MOV AH,0Ah\n INT 21h')
        self.assertEqual(none.own[0x301], 0x77)
        control = self.after(lines, '{ctrl+a}b{backspace}{backspace}z{enter}')
        self.assertEqual((control.own[0x301:0x304], control.screen[0]), (b'\x01z\r', 'z'))

    def test_0b_0c(self) -> None:
        self.assertEqual(self.after(' MOV AX,0B55h\n INT 21h').half('AL'), 0)
        self.assertEqual(self.after('again: MOV AH,0Bh\n INT 21h\n CMP AL,0\n JE again', 'x').half('AL'), 0xFF)
        lines = ' MOV CX,20\ntick: HLT\n LOOP tick\n MOV AX,0C{}h\n INT 21h'
        seen = self.after(lines.format('08'), 'abc{wait 5000000}d')
        self.assertEqual(seen.half('AL'), ord('d'))
        for function in ('00', '02', '09', '4C'):
            seen = self.after(lines.format(function), 'abc')
            self.assertEqual(seen.half('AL'), 0)
        left = self.after(lines.format('00') + '\n MOV AH,1\n INT 16h', 'abc')
        self.assertEqual(left.flags & ZERO, ZERO)

    def test_19_30(self) -> None:
        self.assertEqual(self.after(' MOV AX,19FFh\n INT 21h').half('AL'), 0)
        seen = self.after(f'{BEFORE} MOV AX,3000h\n INT 21h')
        self.assertEqual([seen.registers[name] for name in ('AX', 'BX', 'CX', 'DX')], [0x1E03, 0, 0, 0x3456])

    def test_25_35_vectors(self) -> None:
        seen = self.after(' MOV AX,2560h\n MOV DX,1234h\n INT 21h\n MOV AX,3560h\n INT 21h')
        self.assertEqual((seen.registers['ES'], seen.registers['BX'], seen.registers['AX']), (0x100, 0x1234, 0x3560))
        end = self.after(' MOV AX,3520h\n INT 21h')
        self.assertEqual(end.registers['ES'], 0xF600)

    def test_2a_2c(self) -> None:
        seen = self.after(' MOV AH,2Ah\n INT 21h')
        self.assertEqual((seen.registers['CX'], seen.registers['DX'], seen.half('AL')), (1981, 0x101, 4))
        # So many ticks of 65,536 / 1,193,181.67 s.
        for ticks, wanted in ((0, (0, 0, 0, 0)), (1092, (0, 0, 59, 97)), (65543, (0, 59, 59, 97)), (786514, (11, 59, 59, 61)), (1573039, (23, 59, 59, 82))):
            lines = f' MOV CX,{ticks >> 16}\n MOV DX,{ticks & 0xFFFF}\n MOV AH,1\n INT 1Ah\n MOV AH,2Ch\n INT 21h'
            seen = self.after(lines)
            came = seen.half('CH'), seen.half('CL'), seen.half('DH'), seen.half('DL')
            exact = round(ticks * 65536 * 100 * 11 / 13125000)
            self.assertEqual((exact // 360000, exact // 6000 % 60, exact // 100 % 60), wanted[:3])
            self.assertAlmostEqual(((came[0] * 60 + came[1]) * 60 + came[2]) * 100 + came[3], exact, delta=1)

    def test_3f_read(self) -> None:
        lines = ' MOV BX,0\n MOV CX,{}\n MOV DX,300h\n MOV AH,3Fh\n STC\n INT 21h'
        seen = self.after(lines.format(80), 'ab{enter}')
        self.assertEqual((seen.registers['AX'], seen.own[0x300:0x304], seen.flags & CARRY, seen.cursor), (4, b'ab\r\n', 0, (1, 0)))
        parts = self.after(lines.format(3) + '\n' + lines.format(80), 'abcd{enter}')
        self.assertEqual((parts.registers['AX'], parts.own[0x300:0x303]), (3, b'd\r\n'))
        self.assertEqual(self.after(lines.format(80), '{ctrl+z}{enter}').registers['AX'], 0)
        self.assertEqual(self.after(lines.format(0)).registers['AX'], 0)
        for handle in (3, 4, 5, 99, 0xFFFF):
            seen = self.after(f' MOV BX,{handle}\n MOV CX,5\n MOV AH,3Fh\n CLC\n INT 21h')
            self.assertEqual((seen.registers['AX'], seen.flags & CARRY), (6, CARRY))

    def test_40_write(self) -> None:
        lines = " MOV BX,{}\n MOV CX,{}\n MOV DX,text\n MOV AH,40h\n STC\n INT 21h\n JMP SHORT seen\ntext: DB 'One$',13,10,'two'\n"
        for handle in (0, 1, 2):
            seen = self.after(lines.format(handle, 9))
            self.assertEqual((seen.registers['AX'], seen.flags & CARRY, seen.screen[:2]), (9, 0, ['One$', 'two']))
        self.assertEqual(self.after(lines.format(1, 0)).registers['AX'], 0)
        seen = self.after(lines.format(3, 9))
        self.assertEqual((seen.registers['AX'], seen.flags & CARRY, seen.screen[0]), (6, CARRY, ''))

    def test_44_device(self) -> None:
        for handle in (0, 1, 2):
            seen = self.after(f' STC\n MOV BX,{handle}\n MOV AX,4400h\n INT 21h')
            self.assertEqual((seen.registers['DX'], seen.flags & CARRY), (0x80D3, 0))
        seen = self.after(' MOV BX,3\n MOV AX,4400h\n INT 21h')
        self.assertEqual((seen.registers['AX'], seen.flags & CARRY), (6, CARRY))
        _, left = self.whole(' MOV BX,1\n MOV AX,4401h\n INT 21h')
        self.assertEqual(left.calls[0][:2], (0x21, 0x4401))

    def test_48_49_4a_memory(self) -> None:
        """The program owns all from its PSP at 100h to 9000h. A header of a paragraph stands before each block."""
        seen = self.after(' MOV BX,1\n MOV AH,48h\n INT 21h')
        self.assertEqual((seen.registers['AX'], seen.registers['BX'], seen.flags & CARRY), (8, 0, CARRY))
        shrink = ' MOV BX,1000h\n MOV AH,4Ah\n INT 21h\n'
        seen = self.after(shrink + ' MOV BX,10h\n MOV AH,48h\n INT 21h\n MOV SI,AX\n MOV BX,20h\n MOV AH,48h\n INT 21h')
        self.assertEqual((seen.registers['SI'], seen.registers['AX'], seen.flags & CARRY), (0x1101, 0x1112, 0))
        most = self.after(shrink + ' MOV BX,0FFFFh\n MOV AH,48h\n INT 21h')
        self.assertEqual((most.registers['AX'], most.registers['BX'], most.flags & CARRY), (8, 0x9000 - 0x1101, CARRY))
        take = ' MOV BX,10h\n MOV AH,48h\n INT 21h\n MOV ES,AX\n'
        joined = self.after(
            f'{shrink}{take}{take} MOV AH,49h\n INT 21h\n MOV AX,1101h\n MOV ES,AX\n MOV AH,49h\n INT 21h\n MOV BX,7EFFh\n MOV AH,48h\n INT 21h'
        )
        self.assertEqual((joined.registers['AX'], joined.flags & CARRY), (0x1101, 0))
        grown = self.after(shrink + ' MOV AX,100h\n MOV ES,AX\n MOV BX,0FFFFh\n MOV AH,4Ah\n INT 21h')
        self.assertEqual((grown.registers['AX'], grown.registers['BX'], grown.flags & CARRY), (8, 0x8F00, CARRY))
        blocked = self.after(f'{shrink}{take} MOV AX,100h\n MOV ES,AX\n MOV BX,1001h\n MOV AH,4Ah\n INT 21h')
        self.assertEqual((blocked.registers['AX'], blocked.registers['BX'], blocked.flags & CARRY), (8, 0x1000, CARRY))
        for function in ('49', '4A'):
            wrong = self.after(f' MOV AX,4321h\n MOV ES,AX\n MOV BX,1\n MOV AH,{function}h\n INT 21h')
            self.assertEqual((wrong.registers['AX'], wrong.flags & CARRY), (9, CARRY))

    def test_others_set_carry(self) -> None:
        for function in (3, 4, 5, 0x0D, 0x0E, 0x1F, 0x2B, 0x2D, 0x33, 0x39, 0x3B, 0x45, 0x47, 0x4B, 0x4D, 0x57, 0x62, 0xFF):
            seen = self.after(f'{BEFORE} MOV AX,{256 * function}\n CLC\n INT 21h')
            self.assertEqual((seen.registers['AX'], seen.flags & CARRY), (1, CARRY), function)
            self.assertEqual({name: seen.registers[name] for name in STAY}, STAY)
            self.assertEqual(seen.screen, [''] * 25)
        _, left = self.whole(' MOV AX,4B02h\n INT 21h')
        self.assertEqual(
            left.remarks('at {0[0]:04X}:{0[1]:04X}'.format), ["INT 21h function 4Bh, called at 0100:0103, isn't among the services (docs/services.md)"]
        )

    def test_interrupts_beside(self) -> None:
        """24h fails, 25h and 26h leave the flags on the stack, 28h returns, 29h shows AL."""
        self.assertEqual(self.after(' MOV AL,0\n INT 24h').half('AL'), 3)
        for interrupt in (0x25, 0x26):
            seen = self.after(f' CLC\n INT 0{interrupt:02X}h')
            self.assertEqual((seen.flags & CARRY, seen.registers['SP']), (CARRY, 0xFFFC))
        self.assertEqual(self.after(f'{BEFORE} INT 28h\n MOV AL,65\n INT 29h').screen[0], 'A')

    def test_what_is_kept_of_the_output(self) -> None:
        """64,512 bytes; more are counted, and told."""
        lines = ' MOV CX,{}\n MOV DL,65\n MOV AH,2\nmore: INT 21h\n LOOP more'
        report, left = self.whole(lines.format(3000), budget=30_000_000)
        self.assertEqual((left.written, left.whole()), (3000, b'A' * 3000))
        with self.prepare(
            ' MOV BX,1\n MOV CX,60000\n MOV AH,40h\n INT 21h\n MOV CX,4512\n MOV AH,40h\n INT 21h\n MOV AH,2\n INT 21h', budget=400_000_000
        ) as files:
            left = served_of(files, 400_000_000)
        assert left
        self.assertEqual((left.how, left.written, len(left.output)), (0x20, KEPT + 1, KEPT))
        with self.assertRaisesRegex(Exception, '64,513 bytes, and the services keep the first 64,512'):
            left.whole()


class Pages(ServiceCase):
    """What stands on its page."""

    # Of each row of the table of what is told a program, and what is typed.
    TOLD = {
        "calls what isn't among the services": (' MOV AH,4Bh\n INT 21h', ''),
        'calls functions on file control blocks': (' MOV AH,0Fh\n INT 21h', ''),
        'writes a text of more than 2,000 signs by 09h, mostly for want of `$`': (" MOV DX,text\n MOV AH,9\n INT 21h\n JMP SHORT seen\ntext: DB 'One'\n", ''),
        'has a sign in AL for 02h, which writes DL': (" MOV AL,'A'\n MOV AH,2\n INT 21h", ''),
        "opens a file that isn't on its disk, nor at the end": (" MOV DX,text\n MOV AX,3D00h\n INT 21h\n JMP SHORT seen\ntext: DB 'c:\\one.txt',0\n", ''),
        'sets a mode of graphics': (' MOV AX,13h\n INT 10h', ''),
        'writes to B8000h, by DS or ES': (' MOV AX,0B800h\n MOV DS,AX\n MOV WORD [0],741h', ''),
        'divides, and there is no quotient': (' MOV BL,0\n DIV BL', ''),
        "waits for a key that doesn't come": (' MOV AH,1\n INT 21h', ''),
        'runs into INT 3, to which no handler is set': (' INT3', ''),
        'ends by 31h or INT 27h, to stay in memory': (' MOV AX,3100h\n INT 21h', ''),
        'reads keys more slowly than they are typed': ('more: JMP more', 'x' * 20),
    }

    def test_what_is_told(self) -> None:
        """With the line of the call, where one is told."""
        with open(f'{TOP}/docs/services.md', encoding='utf-8') as file:
            table = file.read().split('|What the program does|What is told|\n|-|-|\n')[1].split('\n\n')[0]
        notes = {row.split('|')[1]: row.split('|')[2].strip('`') for row in table.splitlines()}
        self.assertEqual(notes.keys(), self.TOLD.keys())
        for name, (lines, keys) in self.TOLD.items():
            path = self.file('it.asm', f'SEGMENT MAIN AT 100h\n ORG 100h\nstart:\n{lines}\nseen: INT 20h\nENDS\n')
            out, err = self.tool('try', path, '--services', *(['--keys', keys] if keys else []))
            self.assertIn(notes[name], out + err, name)
            if 'called' in err:
                self.assertIn('called by line', err)

    def test_a_file_may_be_made_later(self) -> None:
        lines = " MOV DX,text\n MOV AX,3D00h\n INT 21h\n MOV CX,0\n MOV AH,3Ch\n INT 21h\n JMP SHORT seen\ntext: DB 'c:\\one.txt',0\n"
        path = self.file('it.asm', f'SEGMENT MAIN AT 100h\n ORG 100h\nstart:\n{lines}\nseen: INT 20h\nENDS\n')
        self.assertEqual(self.tool('try', path, '--services')[1], '')

    def test_nothing_is_told_of_right_calls(self) -> None:
        text = "text: DB 1990 DUP('x'),'$'\n"
        right = " MOV DX,text\n MOV AH,9\n INT 21h\n MOV DL,'A'\n MOV AL,'B'\n MOV AH,2\n INT 21h\n MOV AX,3\n INT 10h\n MOV AX,7\n INT 10h\n JMP ready\n"
        path = self.file('it.asm', f'SEGMENT MAIN AT 100h\n ORG 100h\nstart:\n{right}{text}ready: INT 20h\nENDS\n')
        self.assertEqual(self.tool('try', path, '--services')[1], '')

    def test_every_call_is_in_the_table(self) -> None:
        with open(f'{TOP}/docs/services.md', encoding='utf-8') as file:
            page = file.read()
        listed = {(row[1], call) for row in (line.split('|') for line in page.splitlines() if line.startswith('|')) for call in row[2].split(', ')}
        for interrupt, functions in SERVED.items():
            self.assertEqual([call for call in functions.split() if (interrupt, f'{call}h') not in listed], [])


if __name__ == '__main__':
    unittest.main()
