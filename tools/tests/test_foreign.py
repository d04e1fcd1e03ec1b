"""Sources of MASM, TASM and emu8086 by the tools: taken by what stands in them, run as they stand, refused by their own lines, and known by
their own lines and names."""
from __future__ import annotations

import os
import pathlib
import resource
import shlex
import shutil
import subprocess
import sys
import unittest

from tests.desk_engine import Engine, has_node
from tests.support import TOOLS, TOP, ToolCase, example, is_there, not_run, only_if
from tests.test_dap import Client
from toolbox import foreign, program
from toolbox.command import Sorry
from toolbox.guests import Guest, origin_of, prepared
from toolbox.listing import listing_of, own_name
from toolbox.lsp.diagnosing import diagnostics
from toolbox.lsp.documents import Document, Settings
from toolbox.lsp.hovering import hover
from toolbox.program import Files
from toolbox.runfile import DEFAULTS
import zebludor

# What is typed after FILE, what its screen shows, and how it ends, by hand.
FORMS = {
    'segments': (
        """        TITLE   sums (EXE)
        PAGE    60,132
stack   SEGMENT PARA STACK 'Stack'
        DW      32 DUP(0)
stack   ENDS
data    SEGMENT PARA 'Data'
first   DW      300
second  DW      45
sum     DW      ?
data    ENDS
code    SEGMENT PARA 'Code'
begin   PROC    FAR
        ASSUME  CS:code,DS:data,SS:stack
        MOV     AX,data
        MOV     DS,AX
        MOV     AX,first
        ADD     AX,second
        MOV     sum,AX
        CMP     sum,345
        MOV     AX,4C00h
        JE      right
        INC     AL
right:  INT     21h
begin   ENDP
code    ENDS
        END     begin
""",
        (),
        [],
        'ended with exit code 0',
    ),
    'tiny': (
        '.MODEL TINY\n.CODE\n.STARTUP\n  MOV CX,4\n  MOV DL,"W"\nagain: MOV AH,2\n  INT 21h\n  INC DL\n  LOOP again\n.EXIT 0\nEND\n',
        (),
        ['WXYZ'],
        'ended with exit code 0',
    ),
    'a model': (
        '.model small\n.386\n.stack 100h\nmany = 3\n.data\ntext BYTE "of ",many DUP("x"),"$"\n.code\nmain PROC\nmov ax,@data\nmov ds,ax\n'
        'mov dx,OFFSET text\nmov ah,9\nint 21h\nmov ax,4C00h+LENGTHOF text\nint 21h\nmain ENDP\nEND main\n',
        (),
        ['of xxx'],
        'ended with exit code 7',
    ),
    'emu8086': (
        'name "it"\norg 100h\nmov dx, offset msg\nmov ah, 9\nint 21h\nmov ah, 0\nint 16h ; a key\nret\nmsg db "one; two", 0Dh,0Ah, "$"\n',
        ('--keys', 'x'),
        ['one; two'],
        'ended by INT 20h',
    ),
    'macros': (
        'show MACRO letter\n  LOCAL skip\n  MOV DL,letter\n  CMP DL,"b"\n  JE skip\n  MOV AH,2\n  INT 21h\nskip:\n ENDM\n'
        '.MODEL SMALL\n.CODE\nbegin:\n  show "a"\n  show "b"\n  IRP each,<"c","d">\n  show each\n  ENDM\n  MOV AX,4C00h\n  INT 21h\nEND begin\n',
        (),
        ['acd'],
        'ended with exit code 0',
    ),
    'of Irvine': (
        'INCLUDE Irvine16.inc\n.data\nmany WORD 2\n.code\nmain PROC\n Startup\n call ReadHex\n add ax,many\n call WriteDec\n exit\nmain ENDP\nEND main\n',
        ('--keys', '1aF{enter}'),
        ['1aF', '433'],
        'ended with exit code 0',
    ),
    'procedures': (
        'point STRUC\nx DW 0\ny DW 0\npoint ENDS\n.MODEL SMALL\n.STACK\n.DATA\np point <3,4>\n.CODE\nPUBLIC digit\nmain PROC\n MOV AX,@DATA\n MOV DS,AX\n'
        ' MOV DX,p.y\n CALL digit\n MOV DX,p.x\n CALL digit\n MOV AH,4Ch\n INT 21h\nmain ENDP\ndigit PROC NEAR\n ADD DL,30h\n MOV AH,2\n INT 21h\n'
        ' MOV AL,0\n RET\ndigit ENDP\nEND main\n',
        (),
        ['43'],
        'ended with exit code 0',
    ),
}
LOOP = """.MODEL SMALL
.DATA
count DW 3
mask? DB 1
.CODE
main PROC
    MOV AX,@DATA
    MOV DS,AX
again:
    DEC count
    JNZ again
    MOV AX,4C00h
    INT 21h
main ENDP
END main
"""
WRONG = '.MODEL SMALL\n.CODE\nmain: MOV AX,none\n  PUSHA\n  MOV AX,4C00h\n  INT 21h\nEND main\n'
TEXTBOOKS = f'{TOP}/tools/tests/textbooks'
NONE, LATER = 'a name that nothing defines', 'no 8086 has this instruction or register'
WIDE = '.MODEL SMALL\n.CODE\nmain: MOV AX,1\n  MOV AL,1234h\n  JMP SHORT there\n  DB 200 DUP(0)\nthere: MOV AX,4C00h\n  INT 21h\nEND main\n'


def has_pcmasm() -> bool:
    """Whether the program is there; else it is told that the test isn't run."""
    try:
        program.path('pcmasm')
    except Sorry:
        not_run('sources of MASM; dev/build pcmasm')
        return False
    return True


# Programs typed after textbooks, in textbooks/: the words, the screen's rows that aren't blank, and the end, all as the
# books tell them.
BOOKS: dict[str, tuple[list[str], list[str], str]] = {
    'abel_divide': ([], ['5'], 'ended by INT 20h'),
    'abel_exe': ([], [], 'ended with exit code 0'),
    'abel_macro': ([], ['Customer name?', 'Customer address?'], 'ended with exit code 0'),
    'abel_strings': ([], ['SRESUREBYC', '=6'], 'ended with exit code 0'),
    'brey_echo': (['--keys', 'hi@'], ['hi'], 'ended with exit code 0'),
    'brey_tiny': ([], ['0123456789'], 'ended with exit code 0'),
    'course_compare': ([], ['strings are equalHELLO'], 'ended with exit code 36'),
    'course_copy': (['--file', 'in.txt'], ['copied'], 'ended with exit code 0'),
    'course_fact': ([], ['Factorial: 120'], 'ended with exit code 48'),
    'course_frame': ([], ['one', 'two', 'three', '9+'], 'ended by INT 20h'),
    'course_macros': ([], ['Squares: 49', 'min: 51'], 'ended with exit code 0'),
    'course_resident': ([], [], 'ended by INT 27h, and nothing goes on beside it'),
    'duntemann_eat': ([], ["Eat at Joe's!", "Ten million flies can't ALL be wrong!"], 'ended with exit code 0'),
    'emu_addsub': (['--keys', 'x'], ['00001110b'], 'ended by INT 20h'),
    'emu_bubble': (['--keys', 'x'], ['vector: 1359'], 'ended by INT 20h'),
    'emu_fact': (['--keys', '5{enter}x'], ['enter the number: 5', 'factorial: 120'], 'ended by INT 20h'),
    'emu_calculator': (
        ['--keys', '12{enter}*-3{enter}'],
        [
            'note: calculator works with integer values only.',
            'enter first number: 12',
            'enter the operator: +  -  *  /     :  *',
            '-3',
            '-36 thank you00010000b',
        ],
        'ended by INT 20h',
    ),
    'emu_hello': (['--keys', 'x'], ['Hello, World!'], 'ended by INT 20h'),
    'emu_hiworld': (['--keys', 'x'], [], 'ended by INT 20h'),
    'emu_pali': (['--keys', 'x'], ['able was ere ere saw elba', '  this is palindrome!'], 'ended by INT 20h'),
    'emu_template': (['--keys', 'k'], ['42press any key...k'], 'ended with exit code 0'),
    'irvine_fib': ([], ['Fibonacci: 1 1 2 3 5 8 13 21 34 55 89 144'], 'ended with exit code 0'),
    'irvine_hello': ([], ['Hello, world!'], 'ended with exit code 0'),
    'irvine_rectangle': ([], ['83'], 'ended with exit code 0'),
    'irvine_sum': ([], ['Sum: +100', '****'], 'ended with exit code 0'),
    'irvine_type': (['--file', 'my_text.txt'], ['Call me Ishmael.', 'Some years ago'], 'ended with exit code 0'),
    'lab_sort': ([], ['12 36 45 56 99'], 'ended with exit code 32'),
    'lab_sum': ([], [], 'ended by INT 3, to which no handler is set'),
    'lafore_area': ([], ['780=', 'HI'], 'ended by INT 20h'),
    'lafore_binihex': ([], ['1A2F'], 'ended by INT 20h'),
    'masm6_forms': ([], ['done'], 'ended with exit code 6'),
    'mazidi_bcd': ([], [], 'ended with exit code 0'),
    'mazidi_line': (['--keys', 'hello{enter}'], ['     Type a line', 'hello', '     You typed: hello'], 'ended with exit code 34'),
    'mazidi_screen': ([], [' ' * 28 + 'This is a test of the display routine'], 'ended with exit code 36'),
    'norton_dispsec': ([], ['3F'], 'ended with exit code 0'),
    'norton_ticks': ([], ['three ticks'], 'ended by INT 20h'),
    'tasm_daytime': (['--keys', 'y'], ['Is it after 12 noon (Y/N)?y', 'Good afternoon, world!'], 'ended with exit code 3'),
    'tasm_list': ([], ['The sum of five primes:', '28'], 'ended with exit code 120'),
    'tasm_locals': ([], ['45'], 'ended with exit code 53'),
    'tasm_reverse': (['--keys', 'abc{enter}'], ['abc', 'cba'], 'ended with exit code 5'),
}

# The only ones of them of which something is told.
TOLD = {'emu_hiworld': 'where a colour adapter has its text, and none is here', 'lab_sum': 'has no handler, and ended the program'}

# Lines of programs for a later PC or another adapter, and what is told of each.
LACKING = {
    'a 386': ('MOV EAX,5\n', 'line 5: no 8086 has this instruction or register'),
    'graphics': ('MOV AX,13h\nINT 10h\n', 'sets mode 13h, and this adapter has no graphics'),
    'a mouse': ('MOV AX,0\nINT 33h\n', "INT 33h function 00h, called by line 6 (INT 33h), isn't among the services"),
    "an AT's port": ('wait1: IN AL,61h\nAND AL,10h\nCMP AL,AH\nJE wait1\n', 'nothing leads out but what port 61h reads'),
}


@unittest.skipUnless(has_pcmasm(), 'no pcmasm')
class Foreign(ToolCase):
    """By the tools, as a user runs them."""

    def test_each_form_runs_as_it_stands(self) -> None:
        for name, (text, words, screen, end) in FORMS.items():
            out, err = self.called('try', self.file('it.asm', text), *words)
            *lines, last = out.splitlines()
            self.assertEqual((lines, f'({end}, at clock' in last), (screen, True), f'{name}: {out}{err}')

    def test_textbooks_programs_run_as_they_stand(self) -> None:
        self.file('my_text.txt', 'Call me Ishmael.\r\nSome years ago\r\n')
        self.file('in.txt', 'copy me, please\r\n')
        self.assertEqual(sorted(BOOKS), sorted(name[:-4] for name in os.listdir(TEXTBOOKS)))
        for name, (words, rows, end) in BOOKS.items():
            out, err = self.called('try', f'{TEXTBOOKS}/{name}.asm', *words)
            *lines, last = out.splitlines()
            self.assertEqual([line for line in lines if line], rows, f'{name}: {err}')
            self.assertIn(f'({end}, at clock', last, name)
            self.assertIn(TOLD.get(name, ''), err, name)
            self.assertEqual('why: ' in err, name in TOLD, f'{name}: {err}')
        # what stands in memory at the end: 340; the sum of five words, and its carry; that of two quadwords
        for name, label, octets in (('abel_exe', 'FLDF', '54 01'), ('lab_sum', 'RESULT', '7F 34 01'), ('mazidi_bcd', 'DATA3', '74 78 38 09 5D 94')):
            out, _ = self.called('dbg', f'{TEXTBOOKS}/{name}.asm', given=f'go\ndump {label} {len(octets.split())}\nquit\n')
            self.assertRegex(out, rf': {octets}\b', name)

    def test_what_no_pc_of_these_years_has_is_told(self) -> None:
        for name, (body, told) in LACKING.items():
            source = self.file('it.asm', f'.MODEL SMALL\n.STACK\n.CODE\nmain:\n{body}MOV AH,4Ch\nINT 21h\nEND main\n')
            err = self.called('try', source, status=int(name == 'a 386'))[1]
            self.assertIn(told, err, name)

    def test_what_is_noted_is_told_once(self) -> None:
        _, err = self.tool('try', self.file('it.asm', FORMS['a model'][0]))
        self.assertEqual(err.count("it.asm, line 2: an 8086's instructions are taken, and no others"), 1)

    def test_other_words_say_what_a_file_is(self) -> None:
        plain = self.file('plain.asm', '  MOV AX,4C09h\n  INT 21h\n')  # of which no line tells
        err = self.called('try', plain, status=1)[1]
        self.assertIn('no segment is open', err)
        self.assertIn(f"no line of {plain} shows whose source it is, so it is taken as one of the board's own dialect; --masm or --nasm says", err)
        self.assertIn('(ended with exit code 9', self.called('try', plain, '--masm')[0])
        loop = self.file('loop.asm', LOOP)
        self.assertIn("loop.asm, line 1: the line isn't in the grammar", self.called('try', loop, '--dialect', status=1)[1])
        self.assertIn('argument --masm: not allowed with argument --nasm', self.called('try', loop, '--nasm', '--masm', status=2)[1])
        nasm = self.file('nasm.asm', 'BITS 16\nsection .text\nMOV AH,4Ch\nINT 21h\n')
        said = "nasm.asm, line 1, is NASM's, and the file is taken as one of the board's own dialect; --nasm or --masm says what it is"
        self.assertIn(said, self.called('try', nasm, status=1)[1])
        self.assertIn('neither an instruction nor a directive nor a macro', self.called('try', nasm, '--masm', status=1)[1])

    def test_a_source_of_the_dialect_stays_one(self) -> None:
        self.assertEqual(origin_of(b'; END\nSEGMENT A AT 50h\nx: DB 1\nENDS\n'), ('dialect', 2))
        self.assertEqual(origin_of(b'x EQU 5\n'), ('dialect', None))
        self.assertEqual(origin_of(b'x DB 5\n')[0], 'masm')
        self.assertEqual(origin_of(b'\n[BITS 16]\n'), ('nasm', 2))

    def test_refusals_name_its_own_lines(self) -> None:
        wrong = self.file('it.asm', WRONG)
        wanted = [f'why: {wrong}, line 3: a name that nothing defines', 'why:       3 | main: MOV AX,none']
        wanted += [f'why: {wrong}, line 4: no 8086 has this instruction or register', 'why:       4 |   PUSHA']
        self.assertEqual(self.called('try', wrong, status=1), ('', ''.join(f'{line}\n' for line in wanted)))
        self.assertEqual(self.called('why', '--all', wrong, status=1)[0].splitlines(), [*wanted, f'{wrong}: 2 lines refused'])
        lines = [f'{wrong}:3: error: a name that nothing defines', f'{wrong}:4: error: no 8086 has this instruction or register']
        self.assertEqual(self.called('why', '--lines', wrong, status=1)[0].splitlines(), lines)
        self.assertIn('it.asm, line 3: a name that nothing defines\n', self.called('dbg', wrong, status=2)[1])

    def test_what_pcboard_refuses_of_the_translation_too(self) -> None:
        wide = self.file('it.asm', WIDE)
        err = self.called('try', wide, status=1)[1]
        self.assertIn(f'why: {wide}, line 4: a byte holds -128 to 255', err)
        self.assertIn('why:       4 |   MOV AL,1234h\n', err)
        out = self.called('why', '--lines', wide, status=1)[0]
        self.assertEqual([line.split(' ')[0] for line in out.splitlines()], [f'{wide}:4:', f'{wide}:5:'])
        self.assertIn(': no lines refused', self.called('why', '--all', self.file('loop.asm', LOOP))[0])

    def test_the_debugger_knows_lines_and_names(self) -> None:
        loop = self.file('loop.asm', LOOP)
        given = 'break again\ngo\ngo\nlist 8 4\nclear 1\nbreak :12\ngo\ndump count 2\ndump mask? 1\nlabels\nquit\n'
        out = self.called('dbg', loop, given=given)[0].splitlines()
        self.assertEqual(sum(line.startswith('stop 1 (') and line.endswith('again | 10: DEC count') for line in out), 2)
        self.assertIn('     9           again:', out)
        self.assertEqual([line[2:6] for line in out if line.endswith('    DEC count')], ['  10'])
        self.assertTrue(any(line.endswith('| 12: MOV AX,4C00h') for line in out))
        self.assertTrue(any(': 00 00' in line for line in out), 'count is 0 then')
        names = {line.split()[-1] for line in out if line[4:5] == ':' and len(line.split()) == 2}
        self.assertLessEqual({'main', 'again', 'count', 'mask?'}, names)

    def test_the_translation_can_be_printed_and_kept(self) -> None:
        loop = self.file('loop.asm', LOOP)
        out = self.called('try', loop, '--translation', '-')[0]
        self.assertIn('count: DW 3\n', out)
        self.called('try', loop, '--translation', f'{self.room}/kept.asm')
        self.assertEqual(out.partition('(ended')[0], pathlib.Path(f'{self.room}/kept.asm').read_text(encoding='ascii'))
        self.assertIn('(ended with exit code 0', self.called('try', f'{self.room}/kept.asm', '--services')[0])
        fibonacci = example('fibonacci')[0]
        self.assertIn('--masm says that it is', self.called('try', fibonacci, '--translation', '-', status=2)[1])

    def test_it_costs_little_more_than_its_translation(self) -> None:
        loop = self.file('loop.asm', LOOP)
        self.called('try', loop, '--translation', f'{self.room}/kept.asm')

        def seconds(*words: str) -> float:
            before = resource.getrusage(resource.RUSAGE_CHILDREN)
            subprocess.run([sys.executable, f'{TOOLS}/try', *words], capture_output=True, check=True)
            after = resource.getrusage(resource.RUSAGE_CHILDREN)
            return after.ru_utime + after.ru_stime - before.ru_utime - before.ru_stime

        rounds = [(seconds(f'{self.room}/kept.asm', '--services'), seconds(loop)) for _ in range(5)]
        least, own = map(min, zip(*rounds))
        self.assertLess(own / least, 1.5)


@unittest.skipUnless(has_pcmasm(), 'no pcmasm')
class Included(ToolCase):
    """What a source includes."""

    def source(self, name: str) -> str:
        return self.file('it.asm', f"include '{name}'\norg 100h\nMOV AX,4C00h+answer\nINT 21h\nEND\n")

    def refused(self, name: str, status: int = 2) -> str:
        """Why a file isn't included, which is one sentence."""
        out, err = self.called('try', self.source(name), status=status)
        self.assertEqual((out, err.count('\n')), ('', 1))
        return err

    def test_a_file_of_its_own_folder(self) -> None:
        self.file('Mine.inc', 'answer EQU 5\n')
        for name in ('Mine.inc', 'MINE.INC'):
            self.assertIn('(ended with exit code 5', self.called('try', self.source(name))[0])

    def test_what_is_included_is_read_anew(self) -> None:
        for answer in (5, 60):
            self.file('mine.inc', f'answer EQU {answer}\n')
            made = foreign.translation_of(f'{self.room}/it.asm', b"include 'mine.inc'\norg 100h\nMOV AL,answer\nEND\n")
            self.assertIn(f'MOV AL,{answer}', made.lines)

    def test_lines_of_it_are_named(self) -> None:
        mine = self.file('mine.inc', 'answer EQU 5\n  PUSHA\n')
        self.assertIn(f'why: {mine}, line 2: no 8086 has this', self.called('try', self.source('mine.inc'), status=1)[1])

    def test_ours(self) -> None:
        text = "include 'emu8086.inc'\norg 100h\nPRINT 'Hello'\nRET\nEND\n"
        self.assertEqual(self.called('try', self.file('it.asm', text))[0].splitlines()[0], 'Hello')

    def test_nothing_from_elsewhere(self) -> None:
        outside = self.file('outside.inc', 'answer EQU 5\n')
        os.mkdir(f'{self.room}/below')
        shutil.copy(outside, f'{self.room}/below/inner.inc')
        for name in ('below/inner.inc', outside, '..\\outside.inc', '..'):
            self.assertIn(f'it.asm includes {name}; what it includes is named without folders, and stands beside it', self.refused(name))
        os.symlink(outside, f'{self.room}/link.inc')
        self.assertIn("it is a link, which isn't followed", self.refused('link.inc', 3))
        os.mkfifo(f'{self.room}/pipe.inc')
        self.assertIn('it is a FIFO, and no file', self.refused('pipe.inc', 3))
        self.assertIn("includes none.inc, which isn't beside it", self.refused('none.inc'))
        self.assertIn('it.asm includes itself', self.refused('it.asm'))

    def test_files_that_include_each_other(self) -> None:
        self.file('one.inc', "include 'two.inc'\n")
        self.file('two.inc', "include 'one.inc'\n")
        self.assertIn('may stand 64 deep', self.called('try', self.source('one.inc'), status=1)[1])


@unittest.skipUnless(has_pcmasm(), 'no pcmasm')
class Page(ToolCase):
    """Each row of its page's tables."""

    def rows(self, heading: str) -> list[list[str]]:
        """The rows of a table, without the quotes of code."""
        page = pathlib.Path(TOP, 'docs/masm.md').read_text(encoding='utf-8')
        table = page.partition(f'{heading}\n|-|-|\n')[2].partition('\n\n')[0]
        found = [[cell.strip('`') for cell in row.strip('|').split('|')] for row in table.splitlines()]
        self.assertGreater(len(found), 5)
        return found

    def made(self, line: str) -> foreign.Translation:
        """What becomes of a program with a line."""
        text = f'.MODEL SMALL\n.DATA\nn DB ?\nw DW 3 DUP(?)\n.CODE\nmain:\n{line}\nEND main\n'
        return foreign.translation_of(f'{self.room}/it.asm', text.encode('ascii'))

    def test_what_a_line_becomes(self) -> None:
        for line, becomes in self.rows('|You write|It becomes|'):
            made = self.made(line)
            self.assertEqual([text for text, place in zip(made.lines, made.places) if place[1] == 7], [becomes], line)

    def test_why_a_line_is_refused(self) -> None:
        for line, why in self.rows('|You write|Why it is refused|'):
            with self.assertRaises(foreign.Refused) as raised:
                self.made(line)
            self.assertEqual([(one.number, one.words) for one in raised.exception.remarks], [(7, why)], line)


@unittest.skipUnless(has_pcmasm(), 'no pcmasm')
class Lines(ToolCase):
    """What the tools know of its lines."""

    def test_data_have_names_lines_and_lengths(self) -> None:
        text = '.MODEL SMALL\n.DATA\nmsg DB "Hi"\n  DB "$"\nsmall? DW 2 DUP(?)\nlast DWORD ?\n.CODE\nmain: MOV AX,4C00h\n INT 21h\nEND main\n'
        path = self.file('it.asm', text)
        with prepared(Guest(path, language='masm'), Files(path, '')) as files:
            found = listing_of(files).data
        self.assertEqual([(one.name, one.line, one.kind, one.length) for one in found], [('msg', 3, 'DB', 3), ('small?', 5, 'DW', 4), ('last', 6, 'DD', 4)])

    def test_lines_of_macros_and_of_what_is_included(self) -> None:
        """A macro counts as the line that calls it, an included procedure as its own file's lines."""
        self.file('mine.inc', 'twice PROC NEAR\n ADD AX,AX\n RET\ntwice ENDP\n')
        text = 'wait2 MACRO\n NOP\n NOP\n ENDM\n.MODEL SMALL\n.CODE\nmain: MOV AX,3\n wait2\n CALL twice\n MOV AH,4Ch\n INT 21h\ninclude mine.inc\nEND main\n'
        path = self.file('it.asm', text)
        out = self.called('dbg', path, given='break main\ngo\nstep\nstep 2\nstep\nquit\n')[0]
        self.assertIn('main | it.asm:7: main: MOV AX,3', out)
        self.assertIn('| it.asm:8: wait2', out)
        self.assertIn('| it.asm:9: CALL twice', out)
        self.assertIn('twice | mine.inc:2: ADD AX,AX', out)

    def test_from_python(self) -> None:
        path = pathlib.Path(self.file('it.asm', LOOP))
        self.assertEqual(zebludor.run(path).state, 'halted')
        with zebludor.Session(path) as session:
            self.assertEqual(session.source.line(10), session.source.labels['again'])

    def test_a_class_is_compared_by_bytes(self) -> None:
        """What is included beside a submission stays the submission's own."""
        page = self.file('page', 'exit = 0\n')
        self.file('mine.inc', 'answer EQU 0\n')
        names = [self.file('one.asm', LOOP), self.file('two.asm', LOOP.replace('again', 'there')), self.file('three.asm', f'include mine.inc\n{LOOP}')]
        out, err = self.called('judge', '--class', page, *names, status=1)
        self.assertEqual([line.split('\t')[1] for line in out.splitlines()[1:]], ['1', '1', '0'])
        self.assertIn("three.asm includes mine.inc, which isn't beside it", out)
        self.assertIn(f'judge: the same bytes: {names[0]}, {names[1]}', err)

    def test_a_class_includes_what_is_named(self) -> None:
        """By the name alone; the commands of each text find it too."""
        for folder in ('teacher', 'other'):
            os.mkdir(f'{self.room}/{folder}')
        named = [self.file('teacher/mine.inc', 'answer EQU 1\n'), self.file('teacher/other.inc', 'HALT\n')]
        page, again = self.file('page', 'exit = 1\n'), self.file('other/MINE.INC', 'answer EQU 2\n')
        path = self.file('it.asm', 'INCLUDE MINE.INC\norg 100h\nMOV AX,4C00h+answer+1\nINT 21h\nEND\n')
        words = [f'--include={each}' for each in named]
        out, _ = self.called('judge', '--class', page, path, *words, '--feedback', 'told', status=1)
        self.assertIn('came ended with exit code 2', out)
        self.assertEqual(sorted(os.listdir(f'{self.room}/told/it')), ['1.json', '1.page', 'feedback.txt', 'it.asm', 'mine.inc', 'other.inc'])
        with open(f'{self.room}/told/it/feedback.txt', encoding='utf-8') as file:
            words = next(shlex.split(line) for line in file if line.startswith('  tools/judge'))
        self.assertIn('came ended with exit code 2', self.called('judge', *(f'told/{word}' for word in words[1:]), status=1)[0])
        self.assertIn('have the same one', self.called('judge', '--class', page, path, f'--include={again}', f'--include={named[0]}', status=2)[1])
        self.assertIn('goes with --class', self.called('judge', page, path, f'--include={named[0]}', status=2)[1])

    def test_nasms_lines(self) -> None:
        if not is_there('nasm', "NASM's lines", 'nasm'):
            return
        path = self.file('it.asm', 'org 100h\nstart: mov cx,2\n.next: dec cx\n jnz .next\n mov ax,4C02h\n int 21h\n')
        out = self.called('dbg', path, '--nasm', given='break start.next\ngo\nquit\n')[0]
        self.assertIn('start.next | 3: .next: dec cx', out)


@unittest.skipUnless(has_pcmasm(), 'no pcmasm')
class Editors(ToolCase):
    """What the desk and the language server know of a source of MASM."""

    @only_if(has_node)
    def test_the_desk_runs_it(self) -> None:
        engine = Engine()
        self.addCleanup(engine.close)
        found = engine.ask({'do': 'open', 'source': LOOP, 'run': DEFAULTS})
        self.assertIn('is a source of MASM', found['services'])
        line = next(number for number, text in enumerate(LOOP.split('\n'), 1) if text.strip() == 'DEC count')
        self.assertIn(str(line), found['lines'])

    def test_an_editors_debugger_stops_at_its_lines(self) -> None:
        client = Client(self.room)
        self.addCleanup(client.watch.cancel)
        (point,) = client.launch(self.file('it.asm', LOOP), 10)
        self.assertTrue(point['verified'])
        client.event('stopped')
        self.assertEqual(client.line(), 10)
        client.move('next')
        self.assertEqual(client.line(), 11)
        client.leave()

    @only_if(has_node)
    def test_the_desk_underlines_its_lines(self) -> None:
        engine = Engine()
        self.addCleanup(engine.close)
        asked = {'do': 'language', 'what': 'refused', 'source': WRONG}
        self.assertEqual(engine.ask(asked), {'refused': [{'line': 3, 'text': NONE}, {'line': 4, 'text': LATER}]})
        self.assertEqual(engine.ask(asked | {'source': LOOP}), {'refused': []})

    def test_the_language_server_underlines_its_lines(self) -> None:
        document = Document('file:///it.asm', WRONG, 1, Settings(), lambda: None)
        found = [(one['range']['start']['line'], one['severity'], one['message']) for one in diagnostics(document)]
        self.assertEqual(found, [(2, 1, NONE), (3, 1, LATER)])
        self.assertEqual(diagnostics(Document('file:///it.asm', LOOP, 1, Settings(), lambda: None)), [])
        place = {'position': {'line': 9, 'character': 6}}  # after MOV AX,1000h and MOV DS,AX, which have 3 bytes and 2
        shown = hover(Document('file:///it.asm', LOOP, 1, Settings(), lambda: None), place)
        assert shown
        self.assertRegex(shown['contents']['value'], r'\n2000:0005 FF0E0000 +DEC WORD \[count\]\n')
        taken = Document('file:///it.asm', WRONG, 1, Settings(dialect='zebludor'), lambda: None)
        self.assertIsNone(taken.note)


class Names(unittest.TestCase):
    """Names that the dialect can't have."""

    def test_the_users_name_comes_back(self) -> None:
        """The letters of a code's halves: ? is 3Fh, DP; @ is 40h, EA; _ is 5Fh, FP."""
        for written, own in (('count', 'count'), ('M_mov', 'mov'), ('M_a_DPb', 'a?b'), ('M__EAx', '@x'), ('M_M_FPx', 'M_x')):
            self.assertEqual(own_name(written), own)


if __name__ == '__main__':
    unittest.main()
