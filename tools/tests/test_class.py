"""tools/judge --class with strangers' files: marks, tables, what each student is told, and limits."""
from __future__ import annotations

import csv
import io
import os
import re
import shlex
import shutil
import signal
import subprocess
import sys
import unittest
from unittest import mock
from xml.etree import ElementTree

from tests.support import MEASURED, SECONDS, TOOLS, ToolCase, example, is_running, until

from toolbox.command import Sorry
from toolbox.expectations import Outcome, page_of
from toolbox.feedback import close, folders_of, plain_name
from toolbox.marks import Row, as_csv, as_junit, line_of, tell_copies, visible

# A secret run behind a plain one, over the example that echoes keys.
PAGE = """[2] shows = HELLO
lost = 0
run = another word
plain keys = zebra
hidden = yes
[3] shows = ZEBRA
"""
ECHO = f'plain keys = hello\n{PAGE}'
# A change of the speaker each four clocks, without end.
FLOOD = (
    'SEGMENT MAIN AT 50h\nstart: MOV AL,99h\n OUT 63h,AL\n MOV AL,96h\n OUT 43h,AL\n MOV AL,2\n OUT 42h,AL\n MOV AL,3\n OUT 61h,AL\n HLT\nENDS\n'
    'SEGMENT RESET AT 0FFFFh\n JMP FAR start\nENDS\n'
)
# Submissions that are to echo two words, each typed in a run of its own: their texts, and whether they are right.
KINDS_PAGE = 'plain keys = hello\n[2] line 1 = HELLO\nlost = 0\nrun = another word\nplain keys = zebra\n[2] line 1 = ZEBRA\nstate = halted\n'
with open(example('keys')[0], encoding='ascii') as _file:
    RIGHT = _file.read()
SHOWS = """        MOV SI,text
        MOV CX,11
        MOV AH,7
more:   LODSB
        STOSW
        LOOP more
        CLI
        HLT
text:   DB '{}'
"""


def cheat(text: str) -> bytes:
    """A program that shows a text and takes no key."""
    return RIGHT.replace('        STI\n', SHOWS.format(text)).encode()


KINDS = {
    'right': (RIGHT.encode(), True),
    'small': (RIGHT.replace('MOV', 'mov').replace(' AX', ' ax').encode(), True),
    'crlf': (RIGHT.replace('\n', '\r\n').encode(), True),
    'tabs': (RIGHT.replace('        ', '\t').encode(), True),
    'other': (RIGHT.replace('MOV DI,0', 'XOR DI,DI').encode(), True),
    'umlaut': (RIGHT.replace('; the code', '; größer').encode(), False),
    'latin': (RIGHT.replace('; the code', '; größer').encode('latin-1'), False),
    'mark': ('\ufeff'.encode() + RIGHT.encode(), False),
    'wrong': (RIGHT.replace('QWERTY', 'QWARTY').encode(), False),
    'latch': (RIGHT.replace('MOV AL,0C0h', 'MOV AL,40h').encode(), False),
    'end': (RIGHT.replace('done:   MOV AL,20h', 'done:   MOV AL,0').encode(), False),
    'endless': (RIGHT.replace('idle:   HLT', 'idle:   JMP start').encode(), False),
    'leaves': (RIGHT.replace('idle:   HLT', 'idle:   MOV AX,4C00h\n        INT 21h').encode(), False),
    'knows_one': (cheat('HELLO      '), False),
    'knows_both': (cheat('HELLO ZEBRA'), False),
    'refused': (RIGHT.replace('0B000h', '0xB000').encode(), False),
    'empty': (b'', False),
    'letter': (b'I could not do it.\n', False),
    'utf16': (RIGHT.encode('utf-16'), False),
    'nul': (RIGHT.replace('IRET', 'IRET\0').encode(), False),
    'huge': (b'; x\n' * 300000, False),
}
# Names and texts that break what isn't written with care.
ODD = ['=1+1', '+x', '-x', '@x', 'a,b', 'a"b', "a'b", 'a\nb', 'a\r\tb', '\x00\x1b[2J', 'b\udce9d', '<&>]]>', '\u2028', '\ufffe', 'Größe', '']
SEEN = ["'=1+1", "'+x", "'-x", "'@x", 'a,b', 'a"b', "a'b", r'a\nb', r'a\r\tb', r'\x00\x1b[2J', r'b\xe9d', '<&>]]>', r'\u2028', r'\ufffe', 'Größe', '']


class Texts(ToolCase):
    """Rows alone, and pages."""

    def rows(self) -> list[Row]:
        """A row with each odd text in every place."""
        return [Row(text, [Outcome(text, None, 2), Outcome(text, text or 'x')], '', text, []) for text in ODD]

    def test_csv_is_read_back(self) -> None:
        rows = self.rows()
        tell_copies(rows + [Row('other', [], '', 'a,b')])
        head, *found = csv.reader(io.StringIO(as_csv(ODD[:2], rows), newline=''))
        self.assertEqual(head, ['file', 'mark', 'of', 'met', *SEEN[:2], 'why not', 'same bytes as'])
        self.assertEqual([row[0] for row in found], SEEN)
        self.assertEqual([row[1:5] for row in found], [['2', '3', '1', 'ok']] * len(ODD))
        self.assertEqual([row[5] for row in found], [f'no: {text.lstrip(chr(39)) if text[:1] == chr(39) else text}' for text in SEEN[:-1]] + ['no: x'])
        self.assertEqual([row[7] for row in found], ['other' if text == 'a,b' else '' for text in ODD])

    def test_junit_is_read_back(self) -> None:
        rows = [*self.rows(), Row('late', [Outcome('x', '', 1, False)], 'over 60 s, and was ended')]
        root = ElementTree.fromstring(as_junit('p\x01', rows).encode())
        self.assertEqual(root.get('name'), r'p\x01')
        names = [visible(text) for text in ODD]
        self.assertEqual([element.get('name') for element in root][:-1], names)
        for suite, name in zip(root, names):
            self.assertEqual([suite.get(key) for key in ('tests', 'failures', 'errors')], ['2', '1', '0'])
            self.assertEqual([case.get('name') for case in suite.iter('testcase')], [name, name])
            self.assertEqual([failure.get('message') for failure in suite.iter('failure')], [name or 'x'])
            self.assertEqual({element.get('name'): element.get('value') for element in suite.iter('property')}, {'mark': '2', 'of': '3'})
        self.assertEqual([root[-1].get(key) for key in ('tests', 'failures', 'errors')], ['1', '0', '1'])
        self.assertEqual([error.get('message') for error in root[-1].iter('error')], ['over 60 s, and was ended'])

    def test_a_line_of_the_table_is_one(self) -> None:
        self.assertEqual(line_of(['a\nb\tc', '=x', 'b\udce9']), "a b c\t'=x\tb\\xe9")

    def test_marks(self) -> None:
        row = Row('x', [Outcome('a', None, 5), Outcome('b', 'came 1', 3), Outcome('c', None, 2, False)])
        self.assertEqual((row.met, row.mark, row.of), (2, 5, 10))

    def test_pages(self) -> None:
        first, second = page_of(self.file('page', ECHO))
        self.assertEqual([expectation.weight for expectation in (*first.expectations, *second.expectations)], [2, 1, 3])
        self.assertEqual((first.is_hidden, second.is_hidden), (False, True))
        for line, why in (
            ('[0] lost = 0', r'page, line 2: \[0\] is no weight'),
            ('[x] lost = 0', 'is no weight'),
            ('[-1] lost = 0', 'is no weight'),
            ('[1.5] lost = 0', 'is no weight'),
            ('[] lost = 0', 'is no weight'),
            ('[1000] lost = 0', 'is no weight'),
            ('[²] lost = 0', 'is no weight'),
            ('[2 lost = 0', 'is no expectation'),
            ('[2] run = x', 'a weight stands before an expectation, and run is none'),
            ('[2] keys = x', 'and keys is none'),
            ('hidden = no', 'hidden = yes'),
            ('lost = 0\nhidden = yes', 'hidden stands before what is expected'),
            ('hidden = yes\nrun = x\nlost = 0', 'has no expectations'),
        ):
            with self.assertRaisesRegex(Sorry, why, msg=line):
                page_of(self.file('page', f'# a page\n{line}\n'))

    def test_folders_of_one_name_stay_apart(self) -> None:
        names = ['a/sum.asm', 'b/sum.asm', 'b/SUM.com', 'b/sum.hex', 'sum-2.asm', 'x/b-sum.asm', '..', "c/o'k $(x).asm", 'd/.asm', '-x.asm']
        found = [os.path.basename(folder) for folder in folders_of([f'/{name}' for name in names], f'{self.room}/new')]
        self.assertEqual(len({folder.lower() for folder in found}), len(names))
        self.assertEqual(found[:2], ['sum', 'b-sum'])
        self.assertTrue(all(re.fullmatch(r'[\w.][\w.-]*', folder) and not folder.startswith('.') for folder in found), found)
        self.assertEqual(plain_name('x/it b.asm'), 'it_b.asm')
        self.file('new/theirs', '')
        with self.assertRaisesRegex(Sorry, 'has files already'):
            folders_of(['x'], f'{self.room}/new')
        with self.assertRaisesRegex(Sorry, "can't be a folder"):
            folders_of(['x'], f'{self.room}/new/theirs')

    def test_what_was_ended_is_told(self) -> None:
        """With the run at which that was, whose files are there."""
        folder = f'{self.room}/it'
        os.mkdir(folder)
        for name in ('1.json', '12.json', 'x.json', '12.page'):
            self.file(f'it/{name}', '')
        close(
            folder, Row(f'{self.room}/odd name.asm', [Outcome('x', '', 4, False)], f'over 60 s, {self.room}/odd name.asm'), ['--args=a b'], f'{self.room}/gone'
        )
        with open(f'{folder}/feedback.txt', encoding='utf-8') as file:
            lines = file.read().splitlines()
        self.assertEqual(lines[0], 'Not judged: over 60 s, odd_name.asm')
        self.assertEqual(shlex.split(lines[1]), ['tools/judge', 'it/12.page', 'it/odd_name.asm', 'it/12.json', '--args=a b'])
        self.assertEqual(lines[-1], 'Mark: 0 of 4')


class Strangers(ToolCase):
    """Over the built program, each of these files in a process of its own."""

    def class_of(self) -> dict[str, str]:
        """A class's files by their names: right, right with another text, wrong, refused, empty, a link, another right one."""
        for folder in ('a', 'b'):
            os.mkdir(f'{self.room}/{folder}')
        with open(example('keys')[0], encoding='utf-8') as file:
            right = file.read()
        self.assertIn("QWERTYUIOP", right)
        self.file('a/it.asm', right)
        self.file('b/it.asm', right.replace('MOV', 'mov') + '; size\n')
        self.file("=w,r\n'.asm", right.replace('QWERTY', 'QWARTY'))
        self.file('refused.asm', ' MOV AX,0x10\n')
        self.file('empty.asm', '')
        os.symlink('/etc/passwd', f'{self.room}/link.asm')
        return {'right': 'a/it.asm', 'same': 'b/it.asm', 'wrong': "=w,r\n'.asm", 'refused': 'refused.asm', 'empty': 'empty.asm', 'link': 'link.asm'}

    def feedback(self, name: str) -> str:
        """A text for a student."""
        with open(f'{self.room}/told/{name}/feedback.txt', encoding='utf-8') as file:
            return file.read()

    def test_a_class(self) -> None:
        """Rows, marks and texts by one command; each text's commands repeat what it tells."""
        files, page = self.class_of(), self.file('page', ECHO)
        words = ['--csv', 'it.csv', '--junit', 'it.xml', '--feedback', 'told']
        out, err = self.called('judge', '--class', page, *files.values(), *words, status=1)
        self.assertEqual(err, 'judge: the same bytes: a/it.asm, b/it.asm\n')
        rows = [line.split('\t') for line in out.splitlines()]
        self.assertEqual([row[-2:] for row in rows], [['mark', 'of'], ['6', '6'], ['6', '6'], ['1', '6'], ['0', '6'], ['0', '6'], ['0', '6']])
        self.assertEqual((rows[3][0], rows[5][1]), ("'=w,r '.asm", '1'))  # nothing ran, so that no key was lost counts nothing
        with open(f'{self.room}/it.csv', encoding='utf-8', newline='') as file:
            table = list(csv.DictReader(file))
        self.assertEqual([(record['mark'], record['of']) for record in table], [tuple(row[-2:]) for row in rows[1:]])
        self.assertEqual(len(ElementTree.parse(f'{self.room}/it.xml').getroot()), 6)
        self.assertEqual(sorted(os.listdir(f'{self.room}/told')), ['_w_r_n_', 'b-it', 'empty', 'it', 'link', 'refused'])
        self.assertIn('Mark: 6 of 6', self.feedback('b-it'))
        self.assertEqual(sorted(os.listdir(f'{self.room}/told/it')), ['feedback.txt', 'it.asm'])
        wrong, refused = self.feedback('_w_r_n_'), self.feedback('refused')
        self.assertRegex(wrong, "no  shows = HELLO: came 'HALLO'\n(?s:.*)A hidden run: not met\n(?s:.*)Mark: 1 of 6")
        self.assertIn('hexadecimal numbers end with h', refused)
        self.assertIn('perhaps the far jump is missing at which the processor begins', self.feedback('empty'))
        self.assertNotIn('root', self.feedback('link'))
        self.assertEqual(os.listdir(f'{self.room}/told/link'), ['feedback.txt'])
        for text in map(self.feedback, os.listdir(f'{self.room}/told')):
            self.assertNotRegex(text, f'(?i)zebra|{self.room}|{TOOLS}|/tmp')
        self.repeats(wrong, r"no  shows = HELLO: came 'HALLO'\n(?s:.*)1 met, 1 not")
        self.assertIn('(fault 3, BadLine)', self.called('why', '--all', 'told/refused/refused.asm', status=1)[0])
        self.assertIn('has files already', self.called('judge', '--class', page, 'empty.asm', '--feedback', 'told', status=2)[1])

    def test_no_link_is_followed(self) -> None:
        """Neither of a submission nor of its folder, and what is no file isn't waited for; each has its row and its text."""
        page, source = self.file('page', 'shows = HI\n'), example('hello')[0]
        for folder in ('class/anna', 'class/bert', 'teacher'):
            os.makedirs(f'{self.room}/{folder}')
        shutil.copy(source, f'{self.room}/teacher/it.asm')
        shutil.copy(source, f'{self.room}/class/bert/it.asm')
        os.symlink('../../teacher/it.asm', f'{self.room}/class/anna/it.asm')
        os.symlink('../teacher', f'{self.room}/class/carl')
        os.mkfifo(f'{self.room}/class/bert/pipe.asm')
        os.symlink('class', f'{self.room}/mine')
        files = [f'mine/{each}' for each in ('anna/it.asm', 'bert/it.asm', 'carl/it.asm', 'bert/pipe.asm')]
        out, err = self.called('judge', '--class', page, *files, '--feedback', 'told', status=1)
        rows = [row.split('\t') for row in out.splitlines()[1:]]
        why = ["it is a link, which isn't followed", '', "its folder carl is a link, which isn't followed", 'it is a FIFO, and no file']
        self.assertEqual([row[3] for row in rows], [text and f"{file} can't be read: {text}" for file, text in zip(files, why)])
        self.assertEqual(([row[1] for row in rows], err), (['0', '1', '0', '0'], ''))
        kept = {folder: sorted(os.listdir(f'{self.room}/told/{folder}')) for folder in os.listdir(f'{self.room}/told')}
        self.assertEqual(kept, {'it': ['feedback.txt'], 'bert-it': ['feedback.txt', 'it.asm'], 'carl-it': ['feedback.txt'], 'pipe': ['feedback.txt']})
        self.assertIn("Not judged: it.asm can't be read: its folder carl is a link", self.feedback('carl-it'))
        out, _ = self.called('judge', '--class', page, 'class/carl/it.asm', status=1)
        self.assertIn('its folder carl is a link', out)

    def test_what_is_judged_is_what_is_handed_back(self) -> None:
        """Though the file changes while it is judged."""
        page, source = self.file('page', 'shows = HI\n'), self.file('it.asm', 'x')
        with open(example('hello')[0], encoding='ascii') as file:
            right = file.read()
        self.file('it.asm', right)
        self.file('report', self.pcboard('run', *example('hello')).stdout)
        changing = self.file('changing', f'#!/bin/sh\necho changed > {source}\ncat {self.room}/report\n')
        os.chmod(changing, 0o755)
        with mock.patch.dict(os.environ, {'PCBOARD': changing}):
            out, _ = self.called('judge', '--class', page, source, '--feedback', 'told')
        self.assertEqual(out.splitlines()[1].split('\t')[1:3], ['1', 'ok'])
        with open(f'{self.room}/told/it/it.asm', encoding='ascii') as file, open(source, encoding='ascii') as now:
            self.assertEqual((file.read(), now.read()), (right, 'changed\n'))

    def repeats(self, text: str, wanted: str) -> None:
        """Types the commands of a text in a folder where the student's has been copied."""
        there = f'{self.room}/home'
        shutil.copytree(f'{self.room}/told', there)
        judge, show = (command.split() for command in re.findall(r'^  tools/(judge .*|try .*)$', text, re.M))
        room, self.room = self.room, there
        self.assertRegex(self.called(*judge, status=1)[0], wanted)
        self.assertEqual(self.called(*show)[0].splitlines()[0], 'HALLO')
        self.room = room

    def test_a_class_of_all_kinds(self) -> None:
        """By one command each has its row, mark and text: right ones in any style full marks, no cheat full ones, and the commands of each
        text repeat its failure."""
        page = self.file('page', KINDS_PAGE)
        for name, (text, _) in KINDS.items():
            with open(f'{self.room}/{name}.asm', 'wb') as file:
                file.write(text)
        out, _ = self.called('judge', '--class', page, *(f'./{each}.asm' for each in KINDS), '--feedback', 'told', status=1)
        marks = {row[0]: row[-2:] for row in (each.split('\t') for each in out.splitlines()[1:])}
        self.assertEqual({name: marks[f'./{name}.asm'] == ['6', '6'] for name in KINDS}, {name: is_right for name, (_, is_right) in KINDS.items()})
        self.assertEqual({each[1] for each in marks.values()}, {'6'})
        for name, (_, is_right) in KINDS.items():
            self.assertRegex(self.feedback(name), r'Mark: \d of 6')
            if not is_right:
                self.fails_again(name)

    def fails_again(self, name: str) -> None:
        """The commands of a text, typed where the folder is."""
        text, room = self.feedback(name), self.room
        self.room = f'{room}/told'
        commands = re.findall(r'^ *tools/(judge .*|why --all \S+|try \S+$)', text, re.M)
        self.assertTrue(commands, name)
        for command in commands:
            out, err = self.called(*shlex.split(command), status=1)
            if command.startswith('judge'):
                failed = [each for each in out.splitlines() if each.startswith('no')]
                self.assertTrue(failed and all(f'  {each}\n' in text for each in failed), (name, failed))
            else:
                self.assertRegex(out + err, r'fault \d+')
        self.room = room

    def test_what_only_a_page_shows_to_its_teacher(self) -> None:
        page = self.file('page', ECHO.replace('plain keys = hello\n', 'hidden = yes\nplain keys = hello\n'))
        self.called('judge', '--class', page, self.program(' HLT')[0], '--feedback', 'told', status=1)
        self.assertEqual(sorted(os.listdir(f'{self.room}/told/it')), ['feedback.txt', 'it.asm'])
        self.assertEqual(self.feedback('it').count('A hidden run: not met'), 2)
        self.assertNotRegex(self.feedback('it'), '(?i)hello|zebra|another word|why|tools')

    def test_keeps_a_page_s_keys(self) -> None:
        page, source = self.file('page', ECHO), example('keys')[0]
        self.called('judge', page, source, '--keep', 'it')
        for number, wanted in ((1, 'HELLO'), (2, 'ZEBRA')):
            self.assertEqual(self.called('try', source, '--run', f'it-{number}.json')[0].splitlines()[0], wanted)
        self.assertIn("it-1.json can't be written: File exists", self.called('judge', page, source, '--keep', 'it', status=3)[1])

    def test_a_flood_ends_within_its_limits(self) -> None:
        """In 256 MB, with a row that says so, and the command of its text too."""
        page = self.file('page', 'budget = 100,000,000\nstate = halted\n')
        flood = self.file('flood.asm', FLOOD)
        ran = subprocess.run(
            [sys.executable, '-c', MEASURED, sys.executable, '-S', f'{TOOLS}/judge', '--class', page, flood, '--feedback', f'{self.room}/told'],
            capture_output=True,
            text=True,
            check=True,
        )
        self.assertIn('\t0\tno: refused: fault 41 Memory\t', ran.stdout)
        seconds, kilobytes = map(float, ran.stderr.split())
        self.assert_within(seconds, 10)
        self.assertLess(kilobytes, 256 * 1024)
        self.assertRegex(self.feedback('flood'), r'judge flood/1\.page flood/flood\.asm flood/1\.json --memory=256\n')
        for words, why in (('--memory=1', '--memory takes 16 to'), ('--seconds=0', '--seconds takes 1 to'), ('--keep=x', 'goes with one FILE')):
            self.assertIn(why, self.called('judge', '--class', page, flood, words, status=2)[1])

    def test_an_answer_that_is_too_long_is_no_report(self) -> None:
        flood = self.file('flood.asm', FLOOD)
        with mock.patch('toolbox.program.MOST_READ', 1 << 20):
            self.assertIn('more than 1,048,576 bytes', self.called('try', flood, '--budget', '1000000', status=2)[1])

    def test_runs_that_a_signal_ends(self) -> None:
        page, flood = self.file('page', 'lost = 0\n'), self.file('it.asm', FLOOD)
        killed = self.file('killed', '#!/bin/sh\nkill -9 $$\n')
        os.chmod(killed, 0o755)
        with mock.patch.dict(os.environ, {'PCBOARD': killed}):
            out, _ = self.called('judge', '--class', page, flood, '--csv', '-', status=1)
        (row,) = csv.DictReader(io.StringIO(out, newline=''))
        self.assertEqual((row['mark'], row['lost = 0'], row['why not']), ('0', 'no', 'the program was ended by signal 9 (Killed)'))
        self.assertIn('are two files', self.called('judge', '--class', page, flood, '--csv', '-', '--junit', '-', status=2)[1])

    def test_control_c_keeps_the_rows_done(self) -> None:
        """Also those behind one that isn't done; and no process is left."""
        slow = self.file('slow', '#!/bin/sh\necho $$ >>"$0.begun"\ncase "$*" in *slow.asm*) exec sleep 6000;; esac\nexec cat "$0.report"\n')
        os.chmod(slow, 0o755)
        self.file('slow.report', self.pcboard('run', *example('hello')).stdout)
        page = self.file('page', 'shows = HI\n')
        files = [self.file(f'{stem}.asm', 'x') for stem in ('one', 'slow', 'three')]
        with subprocess.Popen(
            [sys.executable, '-S', f'{TOOLS}/judge', '--class', page, *files, '--csv', f'{self.room}/it.csv', '--feedback', f'{self.room}/told'],
            env=os.environ | {'PCBOARD': slow},
            stdout=subprocess.PIPE,
            stderr=subprocess.DEVNULL,
            text=True,
            start_new_session=True,
        ) as process:
            for name in ('one', 'three'):
                self.assertTrue(until(lambda of=name: os.path.exists(f'{self.room}/told/{of}/feedback.txt') and 'Mark' in self.feedback(of)))
            self.assertTrue(until(lambda: os.path.exists(f'{self.room}/told/slow/1.json')))
            os.killpg(process.pid, signal.SIGINT)  # as a terminal does
            out, _ = process.communicate(timeout=SECONDS)
        self.assertEqual(process.returncode, 130)
        self.assertEqual([os.path.basename(line.split('\t')[0]) for line in out.splitlines()], ['file', 'one.asm', 'three.asm'])
        with open(f'{self.room}/it.csv', encoding='utf-8', newline='') as file:
            self.assertEqual([record['met'] for record in csv.DictReader(file)], ['1', '1'])
        with open(f'{slow}.begun', encoding='ascii') as file:
            self.assertTrue(until(lambda begun=file.read().split(): not any(is_running(int(number)) for number in begun)))

    def test_no_other_assembler_is_called(self) -> None:
        page = self.file('page', 'exit = 0\n')
        for word in ('--nasm', '--bcc'):
            _, err = self.called('judge', '--class', word, page, 'it.asm', status=2)
            self.assertIn('another assembler may read any file', err)


if __name__ == '__main__':
    unittest.main()
