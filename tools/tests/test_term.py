"""tools/term, in a terminal that the tests read; its keys, its signs, and its pace."""
from __future__ import annotations

import curses
import glob
import json
import os
import signal
import sys
import unittest
from unittest import mock

from tests.support import RESET, TOOLS, ToolCase, children, example, is_running, processor_seconds, until
from tests.terminal import BLINK, BOLD, REVERSE, UNDERLINE, Grid, Terminal

from toolbox.listing import listing_of
from toolbox.program import Files, copied
from toolbox.report import report_of
from toolbox.runfile import DEFAULTS, text_of
from toolbox.scancodes import BARE, stroke_of
from toolbox.term_board import HERTZ, MOST_BEHIND, MOST_HALTED, Live
from toolbox.term_keys import strokes_of_keys
from toolbox.term_screen import Look, look_at, pieces, plain

# Text with each look of a monochrome adapter and signs that aren't ASCII: code and attribute.
CELLS = ((0x41, 0x07), (0x42, 0x0F), (0x43, 0x01), (0x44, 0x70), (0x45, 0x87), (0x46, 0x00), (0xC9, 0x07), (0x01, 0x07), (0x84, 0x89), (0xDB, 0x07))
SIGNS = 'ABCDE \u2554\u263a\u00e4\u2588'
STYLES = (set(), {BOLD}, {UNDERLINE}, {REVERSE}, {BLINK}, set(), set(), set(), {BOLD, UNDERLINE, BLINK}, set())
# It shows CELLS in row 1, puts the cursor behind them, and goes round for ever.
SHOW = """SEGMENT MAIN AT 0F000h
start:  MOV AX,0B000h
        MOV ES,AX
        PUSH CS
        POP DS
        CLD
        MOV SI,cells
        MOV DI,160
        MOV CX,{count}
        REP MOVSW
        MOV DX,3B4h
        MOV AL,15
        OUT DX,AL
        INC DX
        MOV AL,{cursor}
        OUT DX,AL
        MOV DX,3B8h
        MOV AL,8
        OUT DX,AL
stay:   JMP SHORT stay
cells:  DB {cells}
ENDS
"""
SHOWN = SHOW.format(count=len(CELLS), cursor=80 + len(CELLS), cells=','.join(str(each) for cell in CELLS for each in cell)) + RESET.removeprefix('ENDS\n')
# It writes all cells again and again.
BUSY = f"""SEGMENT MAIN AT 0F000h
start:  MOV AX,0B000h
        MOV ES,AX
        MOV DX,3B8h
        MOV AL,8
        OUT DX,AL
        MOV AX,0700h
again:  MOV DI,0
        MOV CX,2000
        CLD
        REP STOSW
        INC AL
        MOV CX,0
pause:  LOOP pause
        JMP again
{RESET}"""
ENTER, PROMPT = '\r', '\x1d'


class Keys(unittest.TestCase):
    """What a terminal's keys type."""

    def test_signs_and_names(self) -> None:
        for key, codes in (
            ('a', (0x1E,)),
            ('A', (0x2A, 0x1E)),
            ('?', (0x2A, 0x35)),
            ('\r', (0x1C,)),
            ('\n', (0x1C,)),
            ('\t', (0x0F,)),
            ('\x7f', (0x0E,)),
            ('\x1b', (0x01,)),
            ('\x03', (0x1D, 0x2E)),
            ('\x1a', (0x1D, 0x2C)),
            (curses.KEY_UP, (0x48,)),
            (curses.KEY_NPAGE, (0x51,)),
            (curses.KEY_F0 + 1, (0x3B,)),
            (curses.KEY_F0 + 10, (0x44,)),
            (curses.KEY_F0 + 13, (0x2A, 0x3B)),
            (curses.KEY_BTAB, (0x2A, 0x0F)),
        ):
            self.assertEqual([each.codes for each in strokes_of_keys([key])[0]], [codes], key)

    def test_alt(self) -> None:
        """Escape with a sign at once behind it is Alt; one alone, and one before another, is itself."""
        strokes, odd = strokes_of_keys(['\x1b', 'x', '\x1b', '\x1b', curses.KEY_F0 + 1, '\x1b'])
        self.assertEqual([each.codes for each in strokes], [(0x38, 0x2D), (0x01,), (0x38, 0x3B), (0x01,)])
        self.assertEqual(odd, [])

    def test_what_no_key_types(self) -> None:
        strokes, odd = strokes_of_keys(['\u00fc', 'a', curses.KEY_F0 + 40, curses.KEY_MOUSE])
        self.assertEqual([each.codes for each in strokes], [(0x1E,)])
        self.assertEqual(odd, ['\u00fc', 'that', 'that'])


class Screen(ToolCase):
    """What is drawn of text memory."""

    def test_from_the_start_address_on(self) -> None:
        """Rows and cursor are counted from there; with the video off nothing is shown."""
        with open(f'{TOOLS}/tests/attributes.asm', encoding='utf-8') as file:
            source = self.file('it.asm', file.read())
        files = Files(source, self.file('run.json', text_of(DEFAULTS)))
        board = Live(files, listing_of(files), BARE, lambda: None)
        self.addCleanup(board.close)
        self.assertEqual(look_at(board), Look(bytes(4000), (0, 0)))
        board.go_on(1000)
        look = look_at(board)
        self.assertEqual(look.octets[:14].hex(), '4107420f43014409' + '70'.join(('45', '')) + '4678' + '0000')
        self.assertEqual(look.cursor, (24, 2048 - 80 - 24 * 80))  # word 0 stands there
        self.assertEqual(pieces(look.octets[:10]), [('A', 7), ('B', 15), ('C', 1), ('D', 9), ('E', 0x70)])

    def test_signs_of_other_character_sets(self) -> None:
        self.assertEqual(''.join(plain(each, 'ascii') for each in 'A\u2554\u2550\u2502\u2588\u2592\u00e4\u263a\u00bd'), 'A+-|##a..')
        self.assertEqual(''.join(plain(each, 'iso8859-1') for each in '\u00e4\u2554\u00bd'), '\u00e4+\u00bd')


class Pace(ToolCase):
    """How far the board goes."""

    def board(self, source: str) -> Live:
        """A board of a source."""
        files = copied(Files(source, self.file('none.json', text_of(DEFAULTS))), self.room)
        board = Live(files, listing_of(files), BARE, lambda: None)
        self.addCleanup(board.close)
        return board

    def test_real(self) -> None:
        """A tick goes to the clock at which a real board would be, and a machine that is slower falls behind."""
        with mock.patch('toolbox.term_board.time.monotonic') as now:
            now.return_value = 50.0
            board = self.board(example('keys')[0])
            for seconds, clock in ((0.01, HERTZ // 100), (0.01, HERTZ // 50), (9.0, HERTZ // 50 + int(MOST_BEHIND * HERTZ)), (0.1, None)):
                now.return_value += seconds
                before = board.clock
                self.assertIsNone(board.tick())
                self.assertAlmostEqual(board.clock, before + HERTZ // 10 if clock is None else clock, delta=1)

    def test_fast(self) -> None:
        """A busy board is asked for more and more; one that is halted for a key goes at its own pace."""
        board = self.board(self.file('busy.asm', BUSY))
        board.is_fast = True
        for _ in range(30):
            board.tick()
        self.assertGreater(board.clock, 30 * 150_000)
        halted = self.board(example('keys')[0])
        halted.is_fast = True
        for _ in range(30):
            halted.tick()
        self.assertLess(halted.clock, 2 * MOST_HALTED)

    def test_strokes(self) -> None:
        """They lie behind one another, and from the present clock on after a way back."""
        board = self.board(example('keys')[0])
        board.go_on(10_000)
        for sign in 'hI':
            board.press(stroke_of(sign, False))
        stamps = [[10_001, 0x23], [10_501, 0xA3], [12_001, 0x2A], [12_002, 0x17], [12_502, 0x97], [12_503, 0xAA]]
        with open(board.files.run_file, encoding='utf-8') as file:
            self.assertEqual((json.load(file)['keys'], board.typed), (stamps, 6))
        board.go_to(10_600)
        board.start()
        board.press(stroke_of('e', False))
        self.assertEqual(board.drop_later(), 6)
        with open(board.files.run_file, encoding='utf-8') as file:
            self.assertEqual((json.load(file)['keys'], board.clock), (stamps[:2], 10_600))


class Terminals(ToolCase):
    """The tool in a terminal."""

    def setUp(self) -> None:
        super().setUp()
        os.mkdir(f'{self.room}/tmp')
        self.out = f'{self.room}/out.json'

    def begin(self, *words: str, rows: int = 30, columns: int = 90, charset: str = 'utf-8', **more: str) -> Terminal:
        """Starts it, and waits for its line."""
        more = {'HOME': self.room, 'XDG_STATE_HOME': '', 'TMPDIR': f'{self.room}/tmp'} | more
        terminal = Terminal([sys.executable, '-S', f'{TOOLS}/term', *words], rows, columns, charset, **more)
        self.addCleanup(terminal.close)
        if rows > 25:
            self.assertTrue(terminal.until(lambda each: 'Ctrl+]: prompt' in each.lines()[-1]), terminal.grid.lines())
        return terminal

    def ask(self, terminal: Terminal, command: str, said: str) -> str:
        """Types a command at the prompt, and returns the line that answers it, which has a text in it."""
        if not terminal.grid.lines()[-1].startswith('term>'):
            terminal.type(PROMPT)
            self.assertTrue(terminal.until(lambda each: each.lines()[-1] == 'term>'), terminal.grid.lines())
        terminal.type(command + ENTER)
        self.assertTrue(terminal.until(lambda each: said in each.lines()[-2] and each.lines()[-1] == 'term>'), (command, terminal.grid.lines()))
        return terminal.grid.lines()[-2]

    def leave(self, terminal: Terminal) -> str:
        """Quits, and returns what stands there then."""
        terminal.type((PROMPT if not terminal.grid.lines()[-1].startswith('term>') else '') + 'quit' + ENTER)
        self.assertEqual(terminal.ended(), 0, terminal.grid.lines())
        self.assertEqual(os.listdir(f'{self.room}/tmp'), [])
        return '\n'.join(terminal.grid.lines())

    def test_the_run_repeats_to_the_byte(self) -> None:
        """What is written gives the screen and the registers that were seen, by the program itself."""
        source = example('keys')[0]
        run = self.file('run.json', text_of(DEFAULTS | {'keys': [[9000, 0x14], [9500, 0x94]], 'ram': 128}))
        terminal = self.begin(source, run, '--save', self.out)
        self.assertTrue(terminal.until(lambda each: each.lines()[0] == 'T'))
        terminal.type('hi there')
        self.assertTrue(terminal.until(lambda each: each.lines()[0] == 'THI THERE'), terminal.grid.lines())
        terminal.type(PROMPT)
        self.assertTrue(terminal.until(lambda each: each.lines()[-1] == 'term>'))
        terminal.type('regs' + ENTER)
        self.assertTrue(terminal.until(lambda each: 'a key goes on' in '\n'.join(each.lines())))
        registers = terminal.grid.lines()[:2]
        terminal.type(ENTER)
        self.assertTrue(terminal.until(lambda each: each.lines()[0] == 'THI THERE' and each.lines()[-1] == 'term>'), terminal.grid.lines())
        screen = terminal.grid.lines()[:25]
        said = self.leave(terminal)
        self.assertIn(''.join(f'./pcboard run {source} {self.out}'.split()), ''.join(said.split()), 'a row may end with a blank')
        with open(self.out, encoding='utf-8') as file:
            fields = json.load(file)
        self.assertEqual((fields['ram'], len(fields['keys'])), (128, 2 + 2 * len('hi there')))
        ran = self.pcboard('run', source, self.out).stdout
        self.assertEqual([each.rstrip() for each in report_of(ran).screen], screen)
        self.assertEqual(ran.splitlines()[1:3], registers)
        self.assertIn(f'clock {fields["budget"]:,}, {2 * len("hi there")} key codes typed', said)

    def test_looks_and_signs(self) -> None:
        source = self.file('it.asm', SHOWN)
        terminal = self.begin(source)
        self.assertTrue(terminal.until(lambda each: each.lines()[1] == SIGNS), terminal.grid.lines())
        for column, wanted in enumerate(STYLES):
            self.assertEqual(terminal.grid.style_at(1, column), wanted, SIGNS[column])
        self.assertTrue(terminal.until(lambda each: (each.row, each.column, each.is_cursor_shown) == (1, len(CELLS), True)))
        self.assertIn('no run file was written', self.leave(terminal))
        terminal = self.begin(source, charset='ascii', LC_ALL='C')
        self.assertTrue(terminal.until(lambda each: each.lines()[1] == 'ABCDE +.a#'), terminal.grid.lines())
        self.leave(terminal)

    def test_the_prompt(self) -> None:
        terminal = self.begin(*example('ticks'))
        at = self.ask(terminal, 'to 0', 'clock 0: ')
        self.assertEqual(at, 'clock 0: FFFF:0000 | 51: JMP FAR start')
        self.assertEqual(self.ask(terminal, 'break tick', 'stop 1'), 'stop 1: break F600:58 tick')
        terminal.type('go' + ENTER)
        self.assertTrue(terminal.until(lambda each: each.lines()[-2] == 'stop: break F600:58' and each.lines()[-1] == 'term>'), terminal.grid.lines())
        for command, said in (
            ('step', 'clock 1,032: F600:005D tick+5'),
            ('back', 'clock 1,009: F600:0058 tick'),
            ('to 1,500', 'clock 1,500: '),
            ('last', 'break F600:58 tick, clock 1,397: F600:0058 tick'),
            ('step 2', 'clock 1,4'),
            ('back 2', 'clock 1,397: '),
            ('halted', 'stop 2: halted'),
            ('byte b0000 31', 'stop 3: byte B0000 31'),
            ('clear 4', 'there is no stop 4'),
            ('clear 2', ''),
            ('speed', 'the pace is fast'),
            ('speed real', 'the pace is real'),
            ('speed 5', 'the pace is real, 4.77 million'),
            ('key f1 2000', 'key 3B at clock 2000, BB at clock 2500'),
            ('key 54', 'no key sends 54'),
            ('drop', '2 key codes dropped'),
            ('frob', 'frob is no command'),
            ('step 0', '0 is no count: a decimal number from 1 on'),
            ('to', 'use: to CLOCK'),
            (f'keys {self.out}', f'the run up to clock 1,397 is in {self.out}'[:80]),
        ):
            if command == 'clear 2':
                terminal.type(command + ENTER)
                self.assertTrue(terminal.until(lambda each: each.lines()[:2] == ['stop 1: break F600:58 tick', 'stop 2: byte B0000 31']))
                terminal.type(ENTER)
                self.assertTrue(terminal.until(lambda each: each.lines()[-1] == 'term>'))
                continue
            self.ask(terminal, command, said)
        terminal.type('help' + ENTER)
        self.assertTrue(terminal.until(lambda each: any(line.startswith('speed real') for line in each.lines())), terminal.grid.lines())
        terminal.type(ENTER)
        self.assertTrue(terminal.until(lambda each: each.lines()[-1] == 'term>'))
        self.ask(terminal, '\x1bOA\x1bOA', 'is in')  # the arrow calls back the last but one
        self.leave(terminal)

    def test_a_long_way_is_ended(self) -> None:
        """Ctrl+C at the prompt ends it where it is; on the screen it is the board's."""
        terminal = self.begin(self.file('busy.asm', BUSY), '--save', self.out)
        terminal.type('\x03' + PROMPT)
        self.assertTrue(terminal.until(lambda each: each.lines()[-1] == 'term>'))
        terminal.type('to 900000000000' + ENTER)
        self.assertTrue(terminal.until(lambda each: each.lines()[-2] == 'Ctrl+C ends it'))
        terminal.type('\x03')
        self.assertTrue(terminal.until(lambda each: each.lines()[-2].startswith('ended: clock ') and each.lines()[-1] == 'term>'), terminal.grid.lines())
        self.leave(terminal)
        with open(self.out, encoding='utf-8') as file:
            self.assertEqual([code for _, code in json.load(file)['keys']], [0x1D, 0x2E, 0xAE, 0x9D])

    def test_nothing_is_lost(self) -> None:
        """By a signal, a terminal that is closed, or a board that dies: the keys are written, and nothing is left."""
        folder = f'{self.room}/.local/state/zebludor/term'
        for how in ('TERM', 'INT', 'HUP', 'closed', 'board', 'KILL'):
            with self.subTest(how):
                terminal = self.begin(example('keys')[0])
                terminal.type('ok')
                self.assertTrue(terminal.until(lambda each: each.lines()[0] == 'OK'), terminal.grid.lines())
                theirs = children(terminal.pid)
                if how == 'closed':
                    terminal.hang_up()
                    terminal.status = os.waitstatus_to_exitcode(os.waitpid(terminal.pid, 0)[1])
                elif how == 'board':
                    os.kill(theirs[0], signal.SIGKILL)
                elif how == 'KILL':
                    self.assertTrue(until(lambda: [len(self.keys(each)) for each in glob.glob(f'{folder}/*.json')] == [4]))
                    os.kill(terminal.pid, signal.SIGKILL)
                else:
                    os.kill(terminal.pid, getattr(signal, f'SIG{how}'))
                status = {'TERM': 143, 'INT': 130, 'HUP': 129, 'closed': 129, 'board': 2, 'KILL': -9}[how]
                self.assertEqual(terminal.ended() if how != 'closed' else terminal.status, status, terminal.grid.lines())
                (name,) = os.listdir(folder)
                ran = self.pcboard('run', example('keys')[0], f'{folder}/{name}').stdout
                self.assertEqual([code for _, code in self.keys(f'{folder}/{name}')], [0x18, 0x98, 0x25, 0xA5])
                if how != 'KILL':
                    self.assertEqual(report_of(ran).text, 'OK')
                    self.assertEqual(os.listdir(f'{self.room}/tmp'), [])
                os.remove(f'{folder}/{name}')
                self.assertTrue(until(lambda: not any(map(is_running, theirs))))

    @staticmethod
    def keys(path: str) -> list[list[int]]:
        """A run file's keys."""
        with open(path, encoding='utf-8') as file:
            return json.load(file)['keys']  # type: ignore[no-any-return]

    def test_small_terminals(self) -> None:
        """They show the part at the cursor, in any size, and a new size is followed."""
        source = self.file('it.asm', SHOWN)
        terminal = self.begin(source, rows=6, columns=40)
        self.assertTrue(terminal.until(lambda each: each.lines()[1] == SIGNS and each.lines()[5].startswith('smaller than 80x25')), terminal.grid.lines())
        terminal.type('x')
        self.assertTrue(terminal.until(lambda each: not each.lines()[5]), terminal.grid.lines())
        for rows, columns in ((1, 1), (2, 3), (25, 80), (24, 200), (3, 8)):
            terminal.resize(rows, columns)
            if rows > 2 and columns > 10:
                self.assertTrue(terminal.until(lambda each: each.lines()[1] == SIGNS), (rows, columns, terminal.grid.lines()))
            terminal.type(PROMPT + 'step' + ENTER + ENTER)
        self.assertTrue(terminal.until(lambda each: any(SIGNS[-2] in line for line in each.lines())), terminal.grid.read[-3000:])
        terminal.resize(30, 90)
        self.assertTrue(terminal.until(lambda each: each.lines()[1] == SIGNS and 'Ctrl+]: prompt' in each.lines()[-1]), terminal.grid.lines())
        self.leave(terminal)

    def test_what_it_costs(self) -> None:
        """Of the board's own time, both processes: a twentieth where the screen stands, a fifth where all of it changes always."""
        for source, most in ((example('keys')[0], 0.05), (self.file('busy.asm', BUSY), 0.2)):
            terminal = self.begin(source)
            first, before = self.far(terminal.grid), self.spent(terminal)
            self.assertTrue(terminal.until(lambda each, first=first: self.far(each) > first + 3 * HERTZ))
            used = self.spent(terminal) - before
            self.assert_within(used, most * (self.far(terminal.grid) - first) / HERTZ, source)
            self.leave(terminal)

    @staticmethod
    def far(grid: Grid) -> int:
        """The clock that is shown."""
        words = grid.lines()[-1].split()
        return int(words[1].replace(',', '')) if words[:1] == ['clock'] else 0

    @staticmethod
    def spent(terminal: Terminal) -> float:
        """The processor time of the tool and its board."""
        return sum(map(processor_seconds, (terminal.pid, *children(terminal.pid))))

    def test_programs_with_services(self) -> None:
        """The command that is told repeats what was seen."""
        source = self.file(
            'echo.asm', 'SEGMENT MAIN AT 0050h\nstart:  MOV AH,0\n        INT 16h\n        MOV AH,0Eh\n        INT 10h\n        JMP start\nENDS\n'
        )
        terminal = self.begin(source, '--services', '--save', self.out)
        terminal.type('Yes')
        self.assertTrue(terminal.until(lambda each: each.lines()[0] == 'Yes'), terminal.grid.lines())
        self.assertIn('tools/try', self.leave(terminal))
        self.assertIn('Yes', self.tool('try', source, '--run', self.out, '--services')[0])

    def test_an_end_is_told(self) -> None:
        """In the last line, at the prompt and behind the session; steps go over what the services do."""
        lines = ' MOV AH,9', ' MOV DX,text', ' INT 21h', ' MOV AX,4C03h', ' INT 21h', "text: DB 'Hello$'", 'ENDS'
        source = self.file('it.asm', '\n'.join(('SEGMENT MAIN AT 100h', ' ORG 100h', 'start: NOP', *lines, '')))
        terminal = self.begin(source, rows=27)
        self.assertTrue(terminal.until(lambda each: each.lines()[0] == 'Hello' and 'ended with exit code 3  clock' in each.lines()[-1]), terminal.grid.lines())
        terminal.type(PROMPT + 'to 0' + ENTER + 'step' + ENTER)
        self.assertTrue(terminal.until(lambda each: any('| 3: start: NOP' in line for line in each.lines())), terminal.grid.lines())
        terminal.type('step 4' + ENTER)
        self.assertTrue(terminal.until(lambda each: any('| 7:' in line for line in each.lines())), terminal.grid.lines())
        terminal.type('step 2' + ENTER)
        self.assertTrue(terminal.until(lambda each: any(': ended with exit code 3, FE00:' in line for line in each.lines())), terminal.grid.lines())
        terminal.type('back' + ENTER)
        self.assertTrue(terminal.until(lambda each: any('| 8:' in line for line in each.lines())), terminal.grid.lines())
        terminal.type('to 100000' + ENTER)
        self.assertTrue(terminal.until(lambda each: 'clock 100,000: ended' in each.lines()[-2] and each.lines()[-1] == 'term>'), terminal.grid.lines())
        self.assertIn('ended with exit code 3, clock 1', self.leave(terminal))
        jammed = self.begin(self.file('jam.asm', 'SEGMENT R AT 0FFFFh\n DB 0Fh,0FFh\nENDS\n'), rows=27)
        self.assertTrue(jammed.until(lambda each: 'the processor has jammed  clock' in each.lines()[-1]), jammed.grid.lines())
        self.leave(jammed)

    def test_refusals(self) -> None:
        """Without a terminal, or with one that isn't known; and a place where nothing can be written, before anything is typed."""
        source = example('keys')[0]
        self.assertIn('a terminal is wanted', self.tool('term', source, status=2)[1])
        self.assertIn('no such', self.tool('term', f'{self.room}/none.asm', status=3)[1].lower())
        for words, said in (
            (('--save', f'{self.room}/none/it'), 'is a folder, or in none'),
            (('--save', self.room), 'is a folder'),
            (('--hold', '0'), '--hold'),
        ):
            self.assertIn(said, self.tool('term', source, *words, status=2)[1])
        terminal = Terminal([sys.executable, '-S', f'{TOOLS}/term', source], TERM='nonsense')
        self.addCleanup(terminal.close)
        self.assertEqual(terminal.ended(), 2)
        self.assertIn("'nonsense'", '\n'.join(terminal.grid.lines()))
        folder = f'{self.room}/gone'
        os.mkdir(folder)
        terminal = self.begin(source, '--save', f'{folder}/it.json')
        terminal.type('ok')
        self.assertTrue(terminal.until(lambda each: each.lines()[0] == 'OK'))
        for name in os.listdir(folder):
            os.remove(f'{folder}/{name}')
        self.assertTrue(until(lambda: not self._removed(folder)))
        said = self.leave(terminal)
        self.assertIn("can't be written", said)
        (name,) = os.listdir(f'{self.room}/.local/state/zebludor/term')
        self.assertEqual(len(self.keys(f'{self.room}/.local/state/zebludor/term/{name}')), 4)

    @staticmethod
    def _removed(folder: str) -> bool:
        """Whether a folder is there still, once it was tried to remove it with its files."""
        for name in os.listdir(folder) if os.path.isdir(folder) else ():
            os.remove(f'{folder}/{name}')
        if os.path.isdir(folder):
            os.rmdir(folder)
        return os.path.isdir(folder)


if __name__ == '__main__':
    unittest.main()
