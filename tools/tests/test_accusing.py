"""No right program is accused, and mistakes are told: random programs that meet their page, beginners' mistakes, and for each row of
sentences.json a program of which it is told. What is told and no guess, pcprobe answers when it is asked by hand."""
from __future__ import annotations

import re
import subprocess
import unittest
from functools import cached_property
from typing import Any

from tests import right_programs
from tests.mistaken import MISLEADING, QUIET, TOLD, Mistake
from tests.right_programs import FIRST_SEED, FORMS, unmarked
from tests.support import TOOLS, TOP, ToolCase

from toolbox.asking import Told, rows
from toolbox.guests import Guest, prepared
from toolbox.nowhere import told_of_run
from toolbox.program import Files, answer_of, path
from toolbox.report import report_of
from toolbox.runfile import DEFAULTS, text_of
from toolbox.scancodes import BARE, stamped, strokes_of

COUNT, MOST_QUIET, LEAST_SURE = 60, 46, 20
SERVED = ('sort', 'melody', 'factorial')
WITHOUT_KEYS = (('echo', 'ORG 24h', 'ORG 9'), ('echo', 'STI', 'STI'))
WRONG_CAUSES = re.compile('SP begins|stack runs into code|each PUSH|far jump is missing|a tick is awaited')
IN_RAM = 'JMP FAR there\nENDS\nSEGMENT CODE AT 50h\nthere: MOV AX,CS\n MOV DS,AX\n MOV SS,AX\n MOV SP,top\n'
STACK = ' DW 32 DUP(0)\ntop:\n'
READY = ' MOV AL,13h\n OUT 20h,AL\n MOV AL,8\n OUT 21h,AL\n MOV AL,1\n OUT 21h,AL\n MOV AL,{}\n OUT 21h,AL\n{} STI\nidle: HLT\n JMP SHORT idle\nown: IRET\n'
TIMER = ' MOV AL,34h\n OUT 43h,AL\n MOV AL,100\n OUT 40h,AL\n MOV AL,0\n OUT 40h,AL\n'
# Ticks, and keys whose handler lets ticks in; `end` is the tick's end of interrupt, `own` the key's.
TICKS_AND_KEYS = (
    f'{IN_RAM} MOV AL,99h\n OUT 63h,AL\n{TIMER} MOV AL,13h\n OUT 20h,AL\n MOV AL,8\n OUT 21h,AL\n MOV AL,1\n OUT 21h,AL\n MOV AL,{{mask}}\n'
    ' OUT 21h,AL\n MOV AL,0CCh\n OUT 61h,AL\n MOV AL,4Ch\n OUT 61h,AL\n STI\nidle: HLT\n JMP SHORT idle\n'
    'tick: PUSH AX\n MOV AL,{end}\n OUT 20h,AL\n POP AX\n IRET\n'
    'key: STI\n PUSH AX\n IN AL,60h\n MOV AL,0CCh\n OUT 61h,AL\n MOV AL,4Ch\n OUT 61h,AL\n{own} POP AX\n IRET\n'
    f'{STACK}ENDS\nSEGMENT VECTORS AT 0\n ORG 20h\n DW tick,SEG tick,key,SEG key\n'
)
COUNTED = ' MOV AL,14h\n OUT 43h,AL\n MOV AL,100\n OUT 40h,AL\n'
VECTOR = 'ENDS\nSEGMENT VECTORS AT 0\n ORG {:X}h\n DW own,SEG own\n'
STRING = ' MOV AX,0F000h\n MOV ES,AX\n{} MOV CX,0\nover: STOSB\n LOOP over\n HLT'
# Rows that no mistake draws, each with a program behind `start:` of which it is told.
ROWS = {
    'bare call': 'ENDS\nSEGMENT OTHER AT 60h\n INT 21h\nENDS\nSEGMENT LAST AT 0FFFFh\n DB 0Fh\nENDS\nSEGMENT REST AT 70h\n NOP',
    'no reset': '',
    'later processor': ' DB 0Fh,0B6h',
    'changed': IN_RAM + ' MOV BYTE [next],60h\nnext: NOP\n HLT\n' + STACK,
    'past the end': ' JMP FAR 0E000h:0',
    'dark': " MOV AX,0B000h\n MOV ES,AX\n MOV BYTE ES:[4],'A'\n HLT",
    'zeros': IN_RAM + ' MOV BX,1\n' + STACK,
    'downward': STRING.format(' STD\n'),
    'count of 0': STRING.format(''),
    'no way out': 'over: TEST AL,1\n JZ over',
    'waits': 'over: IN AL,60h\n CMP AL,1\n JNZ over',
    'no port': 'over: IN AL,43h\n TEST AL,80h\n JNZ over',
    'colour memory': ' MOV AX,0B800h\n MOV ES,AX\n HLT',
    'masked, others not': READY.format(1, COUNTED) + VECTOR.format(0x20),
    'no count': READY.format(0, '') + VECTOR.format(0x20),
    'scan code': " MOV AL,99h\n OUT 63h,AL\n MOV AL,40h\n OUT 61h,AL\npoll: IN AL,60h\n TEST AL,AL\n JZ poll\n SUB AL,'0'\n HLT",
    'words from bytes': IN_RAM + ' MOV SI,list\n MOV CX,4\nmore: LODSW\n LOOP more\n HLT\nlist: DB 3,1,4,1\n' + STACK,
}
# So too, for programs with services.
SERVED_ROWS = {
    'asked for': ' MOV AX,13h\n INT 10h\n INT 20h',
    'services': ' INT 33h\n INT 20h',
    'prefix': ' INT 20h\nENDS\nSEGMENT OTHER AT 200h\n DB 5',
}


def made_of(mistake: Mistake) -> tuple[str, dict[str, Any]]:
    """A program with a mistake, and fields of its run file."""
    name, was, written = mistake
    with open(f'{TOOLS}/tests/mistakes/{name}.asm', encoding='ascii') as file:
        text = file.read()
    assert was in text
    text = text.replace(was, written, 1)
    if 'bye' in written:
        text = text.replace('ENDS', "bye:    DB ' bye'" + ('' if 'DX,bye\n        MOV AH' in written else ",'$'") + '\nENDS')
    if 'tdone' in written:
        text = text.replace('        POP AX\n        IRET', 'tdone:  POP AX\n        IRET')
    keys = stamped(strokes_of('abc', True), *BARE) if name == 'echo' and mistake not in WITHOUT_KEYS else []
    keys = [[200_000, 6], [220_000, 134]] if 'INT 21h\n        MOV AH,0' in written else keys
    return text, {'keys': keys, 'budget': 30_000_000 if name == 'clock' else 10_000_000}


class Accusing(ToolCase):
    """Over the built program."""

    def of_mistake(self, mistake: Mistake) -> list[Told]:
        """What is told of a mistake."""
        text, fields = made_of(mistake)
        source = self.file('it.asm', text)
        if mistake[0] not in SERVED:
            return self.of_files(Files(source, self.file('it.json', text_of(DEFAULTS | fields))))
        with prepared(Guest(source, None, True), Files(source, ''), fields) as files:
            return self.of_files(files)

    def of_files(self, files: Files) -> list[Told]:
        """What is told of a run. The rows that were told are kept."""
        found = told_of_run(report_of(answer_of(files.words('run'))), files)
        self.drawn |= {one.name for one in found}
        for one in found:
            self.assertEqual(bool(one.commands), not one.text.startswith('perhaps'), one)
        return found

    @cached_property
    def drawn(self) -> set[str]:
        """The rows that were told."""
        return set()

    def test_right_programs_draw_nothing(self) -> None:
        forms, wrong, _ = right_programs.tried(range(FIRST_SEED, FIRST_SEED + COUNT))
        self.assertEqual(wrong, {})
        self.assertGreaterEqual(min(forms[form] for form in FORMS) * 10, COUNT, forms)

    def test_mistakes_are_told(self) -> None:
        """So is each row: what mistakes don't draw, programs of its own do."""
        sure = 0
        for mistake, wanted in TOLD:
            lines = [line for line in '\n'.join(one.text for one in self.of_mistake(mistake)).split('\n') if re.search(wanted, line)]
            self.assertTrue(lines, mistake)
            sure += any(unmarked([line]) for line in lines)
        self.assertGreaterEqual(sure, LEAST_SURE)
        quiet = list[Mistake]()
        for mistake in MISLEADING:
            lines = '\n'.join(one.text for one in self.of_mistake(mistake)).split('\n')
            self.assertEqual([line for line in unmarked(lines) if WRONG_CAUSES.search(line)], [], mistake)
            quiet += [] if any(lines) else [mistake]
        quiet += [mistake for mistake in QUIET if not self.of_mistake(mistake)]
        self.assertLessEqual(len(quiet), MOST_QUIET, quiet)
        for name, lines in ROWS.items():
            source, run = self.program(lines, 3_000_000)
            if name == 'no reset':
                source = self.file('bare.asm', 'SEGMENT A AT 0\n NOP\n')
            if name == 'bare call':
                source = self.file('bare.asm', 'SEGMENT A AT 0\n INT 21h\n')
            if name == 'scan code':
                run = self.file('keys.json', text_of(DEFAULTS | {'budget': 20_000, 'keys': [[2000, 5], [2500, 133]]}))
            is_hex = name == 'past the end'
            source = self.file('it.hex', answer_of(['asm', source])) if is_hex else source
            self.assertIn(name, [one.name for one in self.of_files(Files(source, run, is_hex))])
        for name, lines in SERVED_ROWS.items():
            source = self.file('served.asm', f'SEGMENT MAIN AT 100h\n ORG 100h\nstart:\n{lines}\nENDS\n')
            with prepared(Guest(source, None, True), Files(source, '')) as files:
                self.assertIn(name, [one.name for one in self.of_files(files)])
        self.assertEqual(set(rows()) - self.drawn, set())

    def test_ends_of_interrupt_that_came(self) -> None:
        """Ticks that end in a key's handler end nothing of it, and are counted; one that names another level ends nothing. A program that
        waits for keys, and takes them, isn't told of a tick that is let in, too."""
        keys = self.file('keys.json', text_of(DEFAULTS | {'budget': 60_000, 'keys': [[3000, 30], [20_000, 158]]}))
        source = self.program(TICKS_AND_KEYS.format(mask='0FCh', end='20h', own=''))[0]
        asked = subprocess.run([path('pcprobe'), source, keys], input='events 60000 entries ports=20-20\n', stdout=subprocess.PIPE, text=True, check=True)
        _, taken, since = asked.stdout.rpartition(' entry 09\n')
        clock, ends = asked.stdout[: -len(taken + since)].split()[-1], since.count(' out 0020 20\n')
        self.assertGreater(ends, 100)
        wanted = f'IR1 asks again, and is still in service: {ends} ends of interrupt have come since it was taken at clock {clock}, and none was for it'
        self.assertEqual([one.text for one in self.of_files(Files(source, keys))], [wanted])
        source = self.program(TICKS_AND_KEYS.format(mask='0FCh', end='61h', own=''))[0]
        wanted = r"IR0 asks again, and is still in service: an end of interrupt has come since it was taken at clock \d+, and it wasn't for it"
        self.assertRegex(self.of_files(Files(source, keys))[0].text, f'^{wanted}$')
        source = self.program(TICKS_AND_KEYS.replace(TIMER, '').format(mask='0', end='20h', own=' MOV AL,20h\n OUT 20h,AL\n'))[0]
        self.assertEqual(self.of_files(Files(source, keys)), [])

    def test_ports_that_always_read_as_FFh(self) -> None:
        """Those of chips, too, that answer no read."""
        for port in ('43h', '44h', '63h'):
            source, run = self.program(f'over: IN AL,{port}\n TEST AL,80h\n JNZ over', 100_000)
            told = [one.text for one in self.of_files(Files(source, run))]
            self.assertIn(f'nothing answers at port {port}: it always reads FFh', told)

    def test_a_user_can_ask_again(self) -> None:
        """Each command of --how, given to a shell, answers what stands below it."""
        for lines in (READY.format('0FFh', COUNTED) + VECTOR.format(0x20), IN_RAM + ' MOV BYTE [next],60h\nnext: NOP\n HLT\n' + STACK):
            source, run = self.program(lines, 200_000)
            told = [line.removeprefix('why: ') for line in self.tool('why', 'run', source, run, '--how')[1].splitlines()]
            commands = [at for at, line in enumerate(told) if line.startswith('  $ ')]
            self.assertTrue(commands)
            for at in commands:
                ran = subprocess.run(['sh', '-c', told[at].removeprefix('  $ ')], cwd=TOP, stdout=subprocess.PIPE, text=True, check=True)
                shown = [line.removeprefix('  ') for line in told[at + 1 : next((end for end in range(at + 1, len(told)) if told[end][:2] != '  '), len(told))]]
                self.assertEqual([line for line in shown if line != '..'], [line for line in ran.stdout.splitlines() if line in shown])

    def test_the_page_is_the_table_s(self) -> None:
        self.assertEqual(subprocess.run([f'{TOP}/dev/sentences', '--check'], check=False).returncode, 0)
        with open(f'{TOP}/docs/why.md', encoding='utf-8') as file:
            self.assertLessEqual(len(file.read().split()), 1500)

    def test_how_wants_files_that_stay(self) -> None:
        source, _ = self.program(' HLT')
        self.assertIn('run.json writes a run file', self.tool('why', 'run', source, '--how', status=2)[1])
        self.assertIn('--write RUN keeps them', self.tool('try', source, '--how', status=2)[1])

    def test_a_run_that_is_too_long(self) -> None:
        """It isn't made again, and this is told. One that jams, or waits, is made again whatever its clocks."""
        source, run = self.program(' JMP start', 10_000_000_000)
        self.assertIn('why: nothing was asked of this run: of 10,000,000,000 clocks', self.tool('why', 'run', source, run)[1])
        source, run = self.program(' DB 0Fh', 10_000_000_000)
        self.assertIn('why: the processor has jammed: F000:0000 has 0F', self.tool('why', 'run', source, run)[1])
        source, run = self.program(READY.format(0, '') + VECTOR.format(0x20), 10_000_000_000)
        self.assertIn('perhaps a tick is awaited', self.tool('why', 'run', source, run)[1])


if __name__ == '__main__':
    unittest.main()
