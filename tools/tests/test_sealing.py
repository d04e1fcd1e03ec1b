"""tools/judge --seal and --sealed: a report that is edited is found, also where its sums are made anew."""
from __future__ import annotations

import hashlib
import json
import os
import unittest
from typing import Any

from tests.support import ToolCase, example
from toolbox import program, sealing
import zebludor

NOT_ASCII = 'SEGMENT M AT 0F000h\ngo: HLT ; \xe9\nENDS\nSEGMENT R AT 0FFFFh\n JMP FAR go\nENDS\n'
# A loop that leads nowhere; and before it what lets the speaker take another level each four clocks.
IDLE = 'SEGMENT M AT 0F000h\ngo: NOP\non: INC BX\n JMP SHORT on\nENDS\nSEGMENT R AT 0FFFFh\n JMP FAR go\nENDS\n'
FLOOD = ' MOV AL,99h\n OUT 63h,AL\n MOV AL,96h\n OUT 43h,AL\n MOV AL,2\n OUT 42h,AL\n MOV AL,3\n OUT 61h,AL\n'
BUZZ = IDLE.replace('on:', f'{FLOOD}on:')


class Sealing(ToolCase):
    """Over the built program."""

    def seal(self, *words: str) -> dict[str, Any]:
        """A seal that is written."""
        printed = self.called('judge', '--seal', 'it.seal', *words)[0]
        with open(f'{self.room}/it.seal', encoding='utf-8') as file:
            found: dict[str, Any] = json.load(file)
        sums = [f'{hashlib.sha256(found["texts"][each].encode()).hexdigest()}  {each}' for each in ('program', 'run file', 'report')]
        self.assertEqual(printed.splitlines(), sums)
        return found

    def checked(self, sealed: dict[str, Any], status: int = 0) -> list[str]:
        """What a check of these words prints."""
        self.file('it.seal', json.dumps(sealed))
        return self.called('judge', '--sealed', 'it.seal', status=status)[0].splitlines()

    def renewed(self, sealed: dict[str, Any], name: str, old: str, new: str) -> dict[str, Any]:
        """A seal in which a text is edited, and its sum made anew."""
        self.assertIn(old, sealed['texts'][name])
        text = sealed['texts'][name].replace(old, new)
        return sealed | {'texts': sealed['texts'] | {name: text}, 'sums': sealed['sums'] | {name: hashlib.sha256(text.encode()).hexdigest()}}

    def test_one_that_is_whole(self) -> None:
        source, run = example('hello')
        sealed = self.seal(source, run)
        with open(source, encoding='utf-8') as file, open(run, encoding='utf-8') as other:
            self.assertEqual((sealed['texts']['program'], sealed['texts']['run file']), (file.read(), other.read()))
        self.assertEqual(sealed['texts']['report'], self.pcboard('run', source, run).stdout)
        library = zebludor.library()
        with open(library.path if library else program.path(), 'rb') as answering:
            self.assertEqual(sealed['board']['sum'], hashlib.sha256(answering.read()).hexdigest())
        self.assertEqual((sealed['name'], sealed['hex']), ('hello.asm', False))
        lines = self.checked(sealed)
        self.assertEqual(lines[-2:], ['ok  the program here is the sealed one', '5 met, 0 not'])
        self.assertIn('is there already', self.called('judge', '--seal', 'it.seal', source, run, status=2)[1])

    def test_what_seals_prints_no_json(self) -> None:
        said = self.called('judge', '--json', '--seal', 'it.seal', *example('hello'), status=2)
        self.assertEqual(said, ('', 'judge: --seal writes a file, and --json goes with what judges\n'))
        self.assertFalse(os.path.exists(f'{self.room}/it.seal'))

    def test_one_that_is_edited(self) -> None:
        sealed = self.seal(*example('hello'))
        for name, old, new in (('report', 'HI', 'HO'), ('report', 'lost 0', 'lost 1'), ('program', '0748h', '0749h'), ('run file', '100', '60')):
            lines = self.checked(self.renewed(sealed, name, old, new), status=1)
            self.assertEqual([each[:2] for each in lines[:-1]], ['ok', 'ok', 'ok', 'no', 'ok'], lines)
        lines = self.checked(self.renewed(sealed, 'report', 'HI', 'HO'), status=1)
        self.assertEqual(lines[3], "no  the report is what this board answers, to the byte: line 8: sealed 'HO', here 'HI'")
        lines = self.checked(sealed | {'texts': sealed['texts'] | {'report': sealed['texts']['report'] + ' '}}, status=1)
        self.assertEqual([each[:2] for each in lines[:-1]], ['ok', 'ok', 'no', 'no', 'ok'])
        lines = self.checked(self.renewed(sealed, 'program', 'SEGMENT', 'SEGMINT'), status=1)
        self.assertIn('here \'the program refuses: fault', lines[3])

    def test_the_board_that_answers(self) -> None:
        sealed = self.seal(*example('hello'))
        lines = self.checked(sealed | {'board': sealed['board'] | {'sum': 64 * '0'}})
        note = f'note  another program answers here: {sealed["board"]["sum"]}, and sealed it was {64 * "0"}'
        self.assertEqual(lines[3:], ['ok  the report is what this board answers, to the byte', note, '4 met, 0 not'])
        lines = self.checked(sealed | {'board': sealed['board'] | {'kit': 'rattle-kit-0', 'verdicts': {'isa': 'logic=proved'}}}, status=1)
        self.assertEqual(lines[4], 'no  the program here is the sealed one: but the kit and the verdicts that PROVED tells of it')

    def test_what_is_proved_stands_in_it(self) -> None:
        """Of a program of which PROVED tells nothing, nothing is sealed but its sum."""
        another = f'{self.room}/another'
        with open(program.path(), 'rb') as file, open(another, 'wb') as to:
            to.write(file.read() + b'\n')
        os.chmod(another, 0o755)
        held = os.environ.get('PCBOARD')
        os.environ['PCBOARD'] = another
        try:
            self.assertEqual(set(sealing.board(program.path())), {'version', 'sum'})
        finally:
            os.environ.pop('PCBOARD')
            os.environ.update({} if held is None else {'PCBOARD': held})

    def test_each_kind_of_program(self) -> None:
        self.seal(*example('monitor'))
        self.assertEqual(self.called('judge', '--sealed', 'it.seal')[0].splitlines()[-1], '5 met, 0 not')
        os.remove(f'{self.room}/it.seal')
        refused = self.called('judge', '--seal', 'it.seal', self.file('it.asm', NOT_ASCII), status=2)[1]
        self.assertIn('the program refuses: fault 2 BadCharacter line 2', refused)
        self.assertFalse(os.path.exists(f'{self.room}/it.seal'))
        with open(f'{self.room}/it.com', 'wb') as file:
            file.write(bytes.fromhex('B409BA0901CD21C3') + b'\x90Hello$')
        sealed = self.seal('it.com')
        self.assertEqual((sealed['name'], sealed['hex']), ('it.com', True))
        self.assertIn('Hello', sealed['texts']['report'])
        self.assertEqual(self.checked(sealed)[-1], '5 met, 0 not')

    def test_one_that_a_stranger_made(self) -> None:
        """Its sums are sums, so no line of the check is its own; its run ends at the limits, and then nothing is said of its report."""
        sealed = self.seal(*example('hello'))
        for wrong in ('x\nok  the program here is the sealed one\n\x1b[2J', 'f' * 63, 'F' * 64, 'f' * 64 + '\n', ''):
            for bad in (sealed | {'board': {'sum': wrong}}, sealed | {'sums': sealed['sums'] | {'report': wrong}}):
                self.file('x', json.dumps(bad))
                self.assertEqual(self.called('judge', '--sealed', 'x', status=2), ('', 'judge: x is no sealed report\n'))
        for name, new in (('program', BUZZ), ('run file', '"budget":1099511627776')):
            old = sealed['texts']['program'] if name == 'program' else '"budget":100'
            sealed = self.renewed(sealed, name, old, new)
        self.file('x', json.dumps(sealed))
        said = self.called('judge', '--sealed', 'x', '--memory', '64', status=2)
        wanted = 'the program refuses: fault 41 Memory (tools/why tells more)\nhint: here a run may take 64 MB; --memory 256 gives it more\n'
        self.assertEqual(said, ('', f'judge: {wanted}'))
        self.file('x', json.dumps(self.renewed(sealed, 'program', BUZZ, IDLE)))
        said = self.called('judge', '--sealed', 'x', '--seconds', '1', status=2)
        self.assertEqual(said, ('', 'judge: the run was cut after 1 s; --seconds 10 gives it more\n'))

    def test_what_is_shown_of_it_is_visible_and_short(self) -> None:
        sealed = self.seal(*example('hello'))
        lines = self.checked(self.renewed(sealed, 'report', 'HI', '\x1b[2J' + 5000 * 'x'), status=1)
        shown = 'no  the report is what this board answers, to the byte: line 8: sealed '
        self.assertEqual(lines[3], f"{shown}'\\x1b[2J{996 * 'x'} .. and 4,004 characters more', here 'HI'")

    def test_what_is_none(self) -> None:
        for text in ('', '{}', '[]', '{"kind":"zebludor sealed report 1"}', '[' * 100_000, 'clock 100\n'):
            self.file('x', text)
            self.assertEqual(self.called('judge', '--sealed', 'x', status=2)[1], 'judge: x is no sealed report\n')
        for words in (('--seal', 'x'), ('--sealed', 'x', 'y'), ('--seal', 'x', '--sealed', 'x', 'y'), ('--seal', 'x', 'a', 'b', 'c')):
            self.assertIn('stand FILE and perhaps RUN', self.called('judge', *words, status=2)[1])
        self.assertIn('required: PATH', self.called('judge', status=2)[1])


if __name__ == '__main__':
    unittest.main()
