"""tools/picture and tools/sound, over stored reports and the built program."""
import os
import resource
import subprocess
import sys
import unittest
import wave
from unittest import mock
from xml.etree import ElementTree

from tests.support import STORED, TOOLS, TOP, ToolCase, example

from toolbox.text_memory import Cell, cell_of, shown

ATTRIBUTES = f'{TOOLS}/tests/attributes.asm'


def stored(name: str) -> str:
    """A stored report's text."""
    with open(f'{STORED}/{name}.report', encoding='utf-8') as file:
        return file.read()


class Cells(unittest.TestCase):
    """What a cell shows."""

    def test_attributes(self) -> None:
        wanted = {0x07: (0, 0, 0), 0x0F: (1, 0, 0), 0x01: (0, 1, 0), 0x09: (1, 1, 0), 0x70: (0, 0, 1), 0x78: (1, 0, 1), 0x81: (0, 1, 0), 0x77: (0, 0, 0)}
        for attribute, look in wanted.items():
            self.assertEqual(cell_of('x', attribute), Cell('x', *map(bool, look)), hex(attribute))

    def test_words(self) -> None:
        self.assertEqual([shown(cell, 0) for cell in (b'A\7', b'A\0', b'A\x88', b'\0\7', b'\1\7')], ['A', ' ', ' ', ' ', '.'])


class Pictures(ToolCase):
    """The tools themselves."""

    def svg(self, *words: str, given: str = '') -> str:
        """The picture that a call draws, which is XML."""
        self.tool('picture', *words, 'it.svg', given=given)
        with open(f'{self.room}/it.svg', encoding='utf-8') as file:
            text = file.read()
        ElementTree.fromstring(text)
        return text

    def test_a_report(self) -> None:
        self.assertIn('>HI</text>', self.svg(given=stored('hello')))
        self.tool('picture', 'a.svg', 'a.vcd', given=stored('tone'))
        with open(f'{self.room}/a.vcd', encoding='utf-8') as file:
            self.assertIn(f'#{74 * 210}\n1!\n#{96 * 210}\n0!\n', file.read())

    def test_the_picture_of_the_readme(self) -> None:
        report = self.pcboard('run', *example('fibonacci')).stdout
        with open(f'{TOP}/docs/pictures/fibonacci.svg', encoding='utf-8') as file:
            self.assertEqual(self.svg(given=report), file.read())

    def test_attributes(self) -> None:
        run = self.file('r.json', '{"version":1,"ram":64,"sw1":0,"sw2":0,"budget":1000,"keys":[]}')
        text = self.svg('--of', ATTRIBUTES, run)
        self.assertEqual(
            [
                text.count(markup)
                for markup in (
                    '>A</text>',
                    'fill="#d6ffdf" xml:space="preserve" textLength="9">B<',
                    'height="1.5"',
                    'height="18" fill="#5dff7f"',
                    'fill="#2c7a3e"',
                )
            ],
            [1, 1, 2, 2, 1],
        )
        out, _ = self.tool('picture', '--of', ATTRIBUTES, run, '--ansi')
        self.assertTrue(out.startswith('\033[32mA\033[0m\033[32;1mB\033[0m\033[32;4mC\033[0m\033[32;1;4mD\033[0m\033[32;7mE\033[0m'))
        with mock.patch.dict(os.environ, NO_COLOR='1'):
            out, _ = self.tool('picture', '--of', ATTRIBUTES, run, '--ansi')
        self.assertTrue(out.startswith('A\033[1mB\033[0m\033[4mC\033[0m\033[1;4mD\033[0m\033[7mE\033[0m'))
        self.assertEqual(self.tool('picture', '--of', ATTRIBUTES, run, '--ansi', '--at', '10')[0], '\n')

    def test_scrolled(self) -> None:
        self.assertIn('>' + '*' * 80 + '</text>', self.svg('--of', *example('scroll')))

    def test_where_the_adapter_starts(self) -> None:
        """Of a blank screen only the adapter tells which words it shows: here a reverse one first."""
        fill = ' MOV AX,0B000h\n MOV ES,AX\n MOV DI,0\n MOV AX,0720h\n MOV CX,2048\n REP STOSW\n MOV WORD ES:[160],7020h'
        start = ' MOV DX,3B4h\n MOV AL,13\n OUT DX,AL\n INC DX\n MOV AL,80\n OUT DX,AL\n MOV DX,3B8h\n MOV AL,8\n OUT DX,AL\n HLT'
        self.assertIn('<rect x="36" y="36" width="9" height="18" fill="#5dff7f"/>', self.svg('--of', *self.program(f'{fill}\n{start}', 30000)))

    def test_every_screen_is_drawn_within_seconds(self) -> None:
        fill = ' MOV AX,0B000h\n MOV ES,AX\n MOV DI,0\n MOV AX,{}\n MOV CX,2048\n REP STOSW\n MOV DX,3B8h\n MOV AL,8\n OUT DX,AL\n HLT'
        for word in ('0', '0720h', '0758h'):
            files = self.program(fill.format(word), 30000)
            before = resource.getrusage(resource.RUSAGE_CHILDREN)
            subprocess.run(
                [sys.executable, '-S', f'{TOOLS}/picture', '--of', *files, 'it.svg'],
                cwd=self.room,
                check=True,
                preexec_fn=lambda: resource.setrlimit(resource.RLIMIT_DATA, (50 << 20, 50 << 20)),
            )
            after = resource.getrusage(resource.RUSAGE_CHILDREN)
            self.assert_within(after.ru_utime - before.ru_utime, 2)

    def test_names(self) -> None:
        self.assertTrue(self.tool('picture', '-', given=stored('hello'))[0].startswith('<svg '))
        self.assertIn("it.png: the picture's name ends in .svg", self.tool('picture', 'it.png', given=stored('hello'), status=2)[1])
        self.assertIn("it.svg: the waveform's name", self.tool('picture', 'a.svg', 'it.svg', given=stored('tone'), status=2)[1])
        self.assertFalse(os.path.exists(f'{self.room}/a.svg'))

    def test_refusals(self) -> None:
        self.assertIn('is no report', self.tool('picture', 'a.svg', given='x', status=2)[1])
        self.assertIn('name the picture', self.tool('picture', status=2)[1])
        self.assertIn('fault 3', self.tool('picture', '--of', *reversed(example('hello')), 'a.svg', status=2)[1])
        self.assertIn("can't be written", self.tool('picture', 'no/a.svg', given=stored('hello'), status=3)[1])
        self.assertIn('--ansi', self.tool('picture', '--help')[0])


class Sounds(ToolCase):
    """The WAV file."""

    def test_length_and_pitch(self) -> None:
        out, _ = self.tool('sound', '--slow', '1000', 'it.wav', given=stored('tone'))
        self.assertIn('12 changes of the speaker', out)
        with wave.open(f'{self.room}/it.wav') as file:
            self.assertEqual((file.getframerate(), file.getnchannels(), file.getsampwidth()), (48000, 1, 2))
            self.assertEqual(file.getnframes(), int(500 * 1000 * 48000 / (14318180 / 3)) + 1)
            frames = file.readframes(file.getnframes())
        levels = [int.from_bytes(frames[at : at + 2], 'little', signed=True) for at in range(0, len(frames), 2)]
        rises = [n for n in range(1, len(levels)) if levels[n] - levels[n - 1] > 12000]
        # A rise each 40 clocks: at a thousandth of the speed each 402 samples.
        self.assertEqual({b - a for a, b in zip(rises[1:], rises[2:])} - {402, 403}, set())

    def test_refusals(self) -> None:
        self.assertIn('the speaker is silent', self.tool('sound', 'it.wav', given=stored('hello'))[0])
        self.assertIn('is no report', self.tool('sound', 'it.wav', given='x', status=2)[1])
        self.assertIn('600 are the most', self.tool('sound', '--slow', '1e6', 'w.wav', given=stored('tone').replace('clock 500', 'clock 90000'), status=2)[1])
        self.assertIn('--slow takes', self.tool('sound', '--slow', '0', 'it.wav', given=stored('tone'), status=2)[1])
        self.assertIn('--slow', self.tool('sound', '--help')[0])
        self.assertFalse(os.path.exists(f'{self.room}/w.wav'))


if __name__ == '__main__':
    unittest.main()
