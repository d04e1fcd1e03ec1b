"""Numbers and places have one grammar (docs/debugger.md#numbers-and-places): what each tool reads, and what is refused with both readings."""
from __future__ import annotations

import unittest

from tests.support import ToolCase, example

from toolbox import edits
from toolbox.command import Sorry
from toolbox.dap.values import Expression
from toolbox.expectations import page_of
from toolbox.listing import listing_of
from toolbox.places import address_of, check_bracketed, count_of, number_of, pointed_out, value_number
from toolbox.program import Files
from toolbox.session_board import SessionBoard
from toolbox.watches import command_of


class Numbers(unittest.TestCase):
    """By their place in what is said."""

    def test_a_base_is_said(self) -> None:
        """28h and 0x28 are one number wherever one stands, and without a base the place tells it."""
        for word in ('28h', '0x28', '28H', '0X28'):
            self.assertEqual([read(word) for read in (number_of, value_number, count_of)], [0x28] * 3, word)
        self.assertEqual((number_of('28'), value_number('28'), count_of('28')), (0x28, 28, 28))
        self.assertEqual((value_number('101b'), number_of('101b'), value_number('0'), value_number('007'), count_of('1,000_000')), (5, 0x101B, 0, 7, 1_000_000))

    def test_what_is_refused(self) -> None:
        for read, word, *readings in (
            (value_number, '0010', '10', '10h'),
            (count_of, '0100', '100', '100h'),
            (value_number, '1C', '1Ch'),
            (value_number, '0041C', '41Ch'),
            (value_number, '1x', 'no number'),
            (count_of, '', 'decimal number from 0 on'),
            (count_of, '-5', 'decimal number from 0 on'),
            (count_of, 'ten', 'decimal number from 0 on'),
            (count_of, '1_099_511_627_777', 'to 1,099,511,627,776'),
            (number_of, '1,000', 'no hexadecimal number'),
        ):
            with self.subTest(word), self.assertRaises(Sorry) as sorry:
                read(word)
            for reading in readings:
                self.assertIn(reading, str(sorry.exception))

    def test_brackets(self) -> None:
        for text, has_segment, readings in (
            ('40', True, ('28h', '40h')),
            ('tick+10', False, ('0Ah', '10h')),
            ('10', False, ('DS:[0Ah]', '0:[10h]')),
            ('41Ch', False, ('DS:[41Ch]', '0:[41Ch]')),
            ('00400', False, ('DS:[190h]', '0:[400h]')),
            ('12345', False, ('DS:[3039h]', '1000h:[2345h]')),
            ('2', False, ('DS:[2h]', '0:[2h]')),
        ):
            with self.subTest(text), self.assertRaises(Sorry) as sorry:
                check_bracketed(text, has_segment)
            for reading in readings:
                self.assertIn(reading, str(sorry.exception))
        for text, has_segment in (('2', True), ('1Ch', True), ('tick', False), ('tick+10h', False), ('tick+9', False), ('BX+10', False), ('bp-40', True)):
            check_bracketed(text, has_segment)

    def test_decimal_numbers_are_pointed_out(self) -> None:
        self.assertEqual(pointed_out("CX = 40 AND AL = 9 OR BX > 28h AND AX = 100 OR AL = '7'"), '40 is 28h, 100 is 64h')


class Said(ToolCase):
    """To a board."""

    def setUp(self) -> None:
        super().setUp()
        source, run = self.program('        HLT\ncount:  DW 5\nENDS\nSEGMENT BIOS AT 40h\n        DB 1,2,3')
        self.files = Files(source, run)
        self.board, self.listing = SessionBoard(self.files, 100_000), listing_of(self.files)
        self.addCleanup(self.board.close)
        self.board.set_bytes(0x41C, b'\x20\x21')
        self.board.set_register('DS', 0x40)

    def value(self, text: str) -> tuple[int, int | None]:
        found = Expression(self.board, self.listing, text).value()
        return found.number, found.address

    def test_one_byte_in_many_words(self) -> None:
        """A condition reads at a place what commands show there."""
        for text in ('BYTE 40h:[1Ch]', 'BYTE 0x40:[0x1C]', 'BYTE [40:1C]', '[0041C]', 'BYTE [DS:1C]', 'DS:[1Ch]', 'BYTE 0:[41Ch]', '[BX+29]'):
            if 'BX' in text:
                self.board.set_register('BX', 0xFFFF)
            self.assertEqual(self.value(text), (0x20, 0x41C), text)
        self.assertEqual(self.value('WORD [0041C]'), (0x2120, 0x41C))
        self.assertEqual(self.value('BYTE [0B8000h]')[1], 0xB8000)
        self.assertEqual(self.value('BYTE [B8000]')[1], address_of(self.listing, 'B8000'))

    def test_both_readings_are_told(self) -> None:
        for text, readings in (
            ('BYTE 40:[1Ch]', ('28h', '40h')),
            ('BYTE [41Ch]', ('DS:[41Ch]', '0:[41Ch]')),
            ('WORD ES:[40]', ('28h', '40h')),
            ('[count+10]', ('0Ah', '10h')),
            ('AX = 0010', ('10h',)),
            ('BYTE [1C]', ('1Ch',)),
        ):
            with self.subTest(text), self.assertRaises(Sorry) as sorry:
                self.value(text)
            for reading in readings:
                self.assertIn(reading, str(sorry.exception))
        for text in ('[41Ch] = 1', '[400] = 1', '[count+10] = 1', 'BYTE 40:[1Ch] = 1', 'AX = 0010'):
            with self.subTest(text):
                self.assertRaises(Sorry, edits.assign, self.board, self.listing, text)
        for text in ('[40:1C] = 7', '40h:[1Ch] = 7', '[0041C] = 7', '[ds:1c] = 7', '0:[41Ch] = 7'):
            self.assertEqual(edits.assign(self.board, self.listing, text), '0041C: 07')

    def test_commands_of_the_debugger(self) -> None:
        """As gdb's `monitor` and an editor's console take them."""
        for text, wanted in (
            ('dump 40:1C 2', 'dump 41C 2'),
            ('dump 41C', 'dump 41C'),
            ('dump count', 'dump F0001'),
            ('dump DS:1C 1', 'dump 41C 1'),
            ('byte 0040:001C 20', 'byte 41C 20'),
            ('break count', 'break F000:1'),
            ('break F000:0001', 'break F000:1'),
            ('when writes=count-count+1 ports=60', 'when writes=F0001-F0002 ports=60-60'),
            ('halted', 'halted'),
        ):
            self.assertEqual(command_of(self.board, self.listing, text), wanted)
        self.assertRaises(Sorry, command_of, self.board, self.listing, 'dump nope')

    def test_in_dbg(self) -> None:
        """The stop that was missed in silence is refused, and set as it is written then."""
        answers = self.called('dbg', *example('ticks'), given='break tick if BYTE 40:[1Ch] = 20h\nbreak tick if CX = 40\nstops\ngo 0x64\n')[0].splitlines()
        self.assertEqual(answers[0], '40 is read two ways: in decimal it is 28h, in hexadecimal 40h; write one of these')
        self.assertEqual(answers[1:4], ['stop 1: break F600:0058 tick if CX = 40', '40 is 28h', 'stop 1: break F600:0058 tick if CX = 40'])
        self.assertIn('clock 100:', answers[4])

    def test_pages_and_options(self) -> None:
        planned = page_of(self.file('page', 'ram = 64\nsw1 = 2Ch\nsw2 = 0x1C\nbudget = 1,000\nAX = 10\nmemory 40:1C = 20 21\n'))[0]
        self.assertEqual(planned.fields, {'ram': 64, 'sw1': 0x2C, 'sw2': 0x1C, 'budget': 1000})
        self.assertEqual(self.tool('runfile', '--sw1', '2Ch', '--budget', '3E8h')[0], self.tool('runfile', '--sw1', '0x2C', '--budget', '1,000')[0])
        self.assertIn('is read two ways', self.tool('runfile', '--ram', '064', status=2)[1])
        self.assertIn('is read two ways', self.tool('trace', *example('ticks'), '--from', '0100', status=2)[1])
        self.assertEqual(self.tool('trace', *example('ticks'), '--to', '40h')[0], self.tool('trace', *example('ticks'), '--to', '64')[0])


if __name__ == '__main__':
    unittest.main()
