"""The stored library: the tools that ask it in place of processes print the same, end alike, and are interrupted as soon."""
from __future__ import annotations

import contextlib
import glob
import json
import os
import pathlib
import re
import signal
import subprocess
import sys
import time
import unittest
from typing import Any, Callable, Iterator
from unittest import mock

from tests.support import EXAMPLES, TOOLS, TOP, ToolCase, but_progress, children, not_run, processor_seconds, until
from tests.test_class import FLOOD
from toolbox import present, program
import zebludor

# What a tool is asked of each example.
ASKED = (
    ('try', '{}.asm', '--run', '{}.json'),
    ('try', '{}.asm', '--bare', '--json'),
    ('why', 'run', '{}.asm', '{}.json'),
    ('why', '--lines', '{}.asm'),
    ('picture', '-', '--of', '{}.asm', '{}.json'),
    ('trace', '{}.asm', '{}.json', '--calls', '--to', '20000'),
    ('trace', '{}.asm', '{}.json', '--profile'),
)
# Once each: refusals, other files, other tools, and want of memory.
ONCE = (
    ('try', f'{EXAMPLES}/books/squares.asm'),
    ('try', f'{EXAMPLES}/books/adds.asm', '--json'),
    ('try', f'{EXAMPLES}/monitor.hex', '--keys', '?'),
    ('try', 'bad.asm'),
    ('try', 'none.asm'),
    ('try', f'{EXAMPLES}/keys.asm', '--run', 'bad.json'),
    ('why', 'run', 'bad.asm'),
    ('why', 'run', f'{EXAMPLES}/hello.asm', 'bad.json'),
    ('why', 'run', f'{EXAMPLES}/hello.asm', 'small.json'),
    ('why', 'run', f'{EXAMPLES}/hello.asm', 'escaped.json'),
    ('why', '--all', 'bad.asm'),
    ('why', 'asm', f'{EXAMPLES}/hello.asm', '--list'),
    ('judge', f'{EXAMPLES}/class/echo.page', f'{EXAMPLES}/keys.asm'),
    ('judge', '--class', f'{EXAMPLES}/class/echo.page', f'{EXAMPLES}/keys.asm', 'bad.asm'),
    ('runfile', '--from', f'{EXAMPLES}/keys.json'),
    ('keys', 'hello{enter}', '--run', f'{EXAMPLES}/keys.json'),
    ('place', 'rom', 'bytes.bin'),
    ('table', 'report'),
    ('moments', f'{EXAMPLES}/class/echo.page', f'{EXAMPLES}/keys.asm', '--key', '1E', '--at', '5000..5003', '--jobs', '1'),
)
# A new session with 640 KB of RAM, and each copy of it, may hold so many bytes; they are told to the next STEP.
MOST, STEP = 1_500_000, 4096
# What is run in parts, of which each may want tables, and what it is asked then.
PARTS, INQUIRIES = (1, 99, 900, 5000, 20_000, 20_000), (b'regs', b'trail', b'screen', b'dump 0 2048')
# Never ends.
BUSY, SECONDS = '        MOV CX,1\nagain:  INC AX\n        JMP again', 0.5


# Starts a tool, and interrupts it while it runs its program; tells how long it takes then.
INTERRUPTED = """import atexit, os, runpy, signal, sys, threading, time
tools, name, *words = sys.argv[1:]
sys.path.insert(0, tools)
sys.argv = [f'{tools}/{name}', *words]
import toolbox, zebludor
asked = zebludor.ran_within
def interrupt(begun):
    os.kill(os.getpid(), signal.SIGINT)
    atexit.register(lambda: os.write(2, b'\\n%f' % (time.monotonic() - begun)))
def ran_within(*given):
    threading.Timer(0.01, lambda: interrupt(time.monotonic())).start()
    return asked(*given)
zebludor.ran_within = ran_within
runpy.run_path(sys.argv[0], run_name='__main__')
"""

# Asks the library of one program again and again, and tells this process's memory after a hundred times and at the end.
AGAIN = r"""import re, sys
sys.path.insert(0, sys.argv[1])
import zebludor
def memory():
    with open('/proc/self/status') as file:
        return re.search(r'VmRSS:\s+(\d+)', file.read())[1]
with open(f'{sys.argv[2]}.asm') as file:
    source = file.read()
for number in range(1, 1101):
    zebludor.run(source, budget=9000, keys=[(1000 + number, 30)])
    if number in (100, 1100):
        print(memory())
"""


def is_there() -> bool:
    """Whether the library is taken; if it isn't, that is told as not run."""
    found = present.LIBRARY in present.present().names
    if not found:
        not_run('the tools over the stored library, which is of other sources; dev/build --store renews it')
    return found


def by_processes() -> Any:
    """Names the programs, so that processes answer."""
    return mock.patch.dict(os.environ, {name.upper(): program.path(name) for name in ('pcboard', 'pcprobe')})


def by_the_library() -> Any:
    """Names none, so that the library answers."""
    named = {name: value for name, value in os.environ.items() if name not in ('PCBOARD', 'PCPROBE')}
    return mock.patch.dict(os.environ, named, clear=True)


class TheLibrary(ToolCase):
    """Tools over the library, and over processes."""

    def setUp(self) -> None:
        super().setUp()
        self.file('bad.asm', 'SEGMENT MAIN AT 0F000h\n MOV AX\n NOP\n XYZ 1\nENDS\n')
        self.file('bad.json', '{"version":1}')
        self.file('small.json', '{"version":1,"ram":17,"sw1":0,"sw2":0,"budget":100,"keys":[]}')
        self.file('escaped.json', '{"version":1,"ram":64,"sw1":0,"sw2":0,"\\u0062udget":100,"keys":[]}')
        self.file('bytes.bin', 'HI')
        self.file('report', zebludor.ran(['run', '--', f'{EXAMPLES}/hello.asm', f'{EXAMPLES}/hello.json']).out)

    def asked(self) -> Iterator[tuple[str, ...]]:
        """All that is asked."""
        stems = sorted(path.removesuffix('.asm') for path in glob.glob(f'{EXAMPLES}/*.asm') if os.path.exists(f'{path[:-4]}.json'))
        self.assertGreater(len(stems), 12)
        yield from (tuple(word.format(stem) for word in words) for stem in stems for words in ASKED)
        yield from ONCE

    def test_the_same_bytes_and_statuses(self) -> None:
        if not is_there():
            return
        for words in self.asked():
            with self.subTest(words=words):
                with by_processes():
                    wanted = self.answer(*words)
                with by_the_library():
                    self.assertEqual(self.answer(*words), wanted)

    def answer(self, *words: str) -> tuple[str, str, int]:
        """What a tool prints, and its status."""
        if words[0] == 'moments' or 'asm' in words:  # which has processes of its own
            ran = subprocess.run([sys.executable, '-S', f'{TOOLS}/{words[0]}', *words[1:]], capture_output=True, text=True, cwd=self.room, check=False)
            return ran.stdout, but_progress(ran.stderr), ran.returncode
        out, err = self.called(*words, status=None)
        return out, err, self.came

    def test_a_batch(self) -> None:
        """The same lines by workers as by processes, also of what is refused, late, or wants too much memory."""
        if not is_there():
            return
        source, run = f'{EXAMPLES}/nested.asm', {'version': 1, 'ram': 64, 'sw1': 0, 'sw2': 0, 'budget': 9000, 'keys': []}
        lines = [json.dumps(run | {'keys': [[at, 30]], 'name': f'key {at}'}) for at in range(1000, 1040)]
        lines += ['x', json.dumps(run | {'ram': 17}), json.dumps(run | {'budget': 1 << 40})]
        flood, long = self.file('flood.asm', FLOOD), [json.dumps(run | {'budget': budget}) for budget in (1000, 30_000_000)]
        for words, given in (((source, '--seconds', '1', '--jobs', '3'), lines), ((flood, '--memory', '16', '--jobs', '1'), long)):
            answers = []
            for way in (by_processes, by_the_library):
                with way():
                    answers.append(self.tool('batch', *words, given='\n'.join(given), status=1))
            self.assertEqual(answers[0], answers[1])

    def test_a_worker_that_is_killed(self) -> None:
        """Its run tells so, and the others have their reports."""
        if not is_there():
            return
        run = {'version': 1, 'ram': 64, 'sw1': 0, 'sw2': 0, 'budget': 1 << 40, 'keys': []}
        lines = ''.join(json.dumps(one) + '\n' for one in (run, run | {'budget': 9000}))
        words = [sys.executable, '-S', f'{TOOLS}/batch', f'{EXAMPLES}/nested.asm', '--jobs', '1']
        with by_the_library(), subprocess.Popen(words, stdin=subprocess.PIPE, stdout=subprocess.PIPE, text=True) as process:
            assert process.stdin
            process.stdin.write(lines)
            process.stdin.flush()
            self.assertTrue(until(lambda: sum(map(processor_seconds, children(process.pid))) > 0.1))
            os.kill(children(process.pid)[0], signal.SIGKILL)
            killed, whole = map(json.loads, process.communicate()[0].splitlines())
        self.assertEqual((killed['why'], whole['clock']), ('the program was ended by signal 9 (Killed)', 9000))

    def test_one_of_two_workers_that_is_killed_thrice(self) -> None:
        """Each run has one answer, in order, and at most those three have no report."""
        if not is_there():
            return
        run = {'version': 1, 'ram': 64, 'sw1': 0, 'sw2': 0, 'budget': 9000}
        names = [f'key {at}' for at in range(1000, 1600)]
        lines = self.file('runs', ''.join(json.dumps(run | {'keys': [[int(name[4:]), 30]], 'name': name}) + '\n' for name in names))
        words, answered = [sys.executable, '-S', f'{TOOLS}/batch', f'{EXAMPLES}/nested.asm', '--jobs', '2'], list[dict[str, Any]]()
        with by_the_library(), open(lines, 'rb') as given, subprocess.Popen(words, stdin=given, stdout=subprocess.PIPE, text=True) as process:
            assert process.stdout
            for line in process.stdout:
                answered.append(json.loads(line))
                if len(answered) in (50, 150, 250):
                    os.kill(children(process.pid)[0], signal.SIGKILL)
        self.assertEqual(([one['name'] for one in answered], len({one['id'] for one in answered})), (names, len(names)))
        self.assertLessEqual({one['why'] for one in answered if 'why' in one}, {'the program was ended by signal 9 (Killed)'})
        self.assertLessEqual(sum('clock' not in one for one in answered), 3)

    def test_no_memory_is_left_over(self) -> None:
        """By runs and translations in one process, of which a thousand more take no more than the first hundred."""
        if not is_there():
            return
        with by_the_library():
            ran = subprocess.run([sys.executable, '-S', '-c', AGAIN, f'{TOP}/python', f'{EXAMPLES}/nested'], capture_output=True, text=True, check=True)
        before, after = map(int, ran.stdout.split())
        self.assertLess(after - before, 512, 'KB')

    def test_it_is_the_library_that_answers(self) -> None:
        """No process of pcboard or pcprobe is begun for any of it."""
        if not is_there():
            return
        refuse = mock.Mock(side_effect=AssertionError('a process is asked for'))
        with by_the_library(), mock.patch.object(zebludor, 'program', refuse):
            for words in (*((word.format(f'{EXAMPLES}/nested') for word in words) for words in ASKED), *ONCE[:2], ONCE[3], *ONCE[12:13]):
                with self.subTest(words=words):
                    self.called(*words, status=None)
            self.assertEqual(zebludor.run(pathlib.Path(f'{EXAMPLES}/hello.asm')).text, 'HI')

    def test_what_stays_a_process(self) -> None:
        """A long run, one of which nothing tells how long it is, what isn't read, and whatever a program is named for."""
        if not is_there():
            return
        source, run = self.program(BUSY)
        with open(run, encoding='utf-8') as file:
            text = file.read()
        long, escaped = self.file('long.json', text.replace('1000', str(zebludor.LONG + 1))), f'{self.room}/escaped.json'
        with by_the_library():
            self.assertIsNotNone(zebludor.ran_within(['run', '--', source, run], b'', 1 << 20, 'pcboard'))
            for words in (['run', '--', source, long], ['run', '--', source, escaped], ['run', '--', 'none', run], ['debug', '--', source, run], ['run']):
                self.assertIsNone(zebludor.ran_within(words, b'', 1 << 20, 'pcboard'), words)
            with zebludor.apart():
                self.assertIsNone(zebludor.library())
        with by_processes():
            self.assertIsNone(zebludor.library())

    def test_control_c(self) -> None:
        """A run of any length ends soon, within a call of the library or not."""
        source, run = self.program(BUSY)
        with open(run, encoding='utf-8') as file:
            text = file.read()
        for budget in (zebludor.LONG, zebludor.LAST_CLOCK):
            path = self.file(f'{budget}.json', text.replace('1000', str(budget)))
            for words in (('try', source, '--budget', str(budget)), ('why', 'run', source, path), ('picture', '-', '--of', source, path)):
                with self.subTest(words=words):
                    script = [sys.executable, '-S', '-c', INTERRUPTED, TOOLS, *words]
                    ran = subprocess.run(script, stdout=subprocess.PIPE, stderr=subprocess.PIPE, text=True, check=False)
                    self.assertEqual(ran.returncode, 130, ran.stderr)
                    self.assert_within(float(ran.stderr.split()[-1]), SECONDS)

    def test_control_c_within_pieces_forks_and_processes(self) -> None:
        """The terminal's, which all that a tool has begun gets."""
        source, path = self.program(BUSY, 1 << 40)
        page, seal = self.file('page', 'AX = 0000\nruns = again\n'), f'{self.room}/it.seal'
        for words in (
            ('trace', source, path),
            ('trace', '--calls', source, path),
            ('judge', page, source, path),
            ('judge', '--class', page, source, '--run', path, '--seconds', '100'),
            ('judge', '--seal', seal, source, path),
            ('moments', page, source, path, '--key', '1E', '--at', '1..1000'),
        ):
            with self.subTest(words=words), by_the_library():
                begun = ['env', '--default-signal=INT', sys.executable, '-S', f'{TOOLS}/{words[0]}', *words[1:]]
                with subprocess.Popen(begun, stdout=subprocess.DEVNULL, stderr=subprocess.PIPE, text=True, start_new_session=True) as process:
                    self.assertTrue(until(lambda: sum(map(processor_seconds, (process.pid, *children(process.pid)))) > 0.9))  # the run has begun
                    interrupted = time.monotonic()
                    os.killpg(process.pid, signal.SIGINT)
                    _, err = process.communicate()
                    self.assert_within(time.monotonic() - interrupted, SECONDS)
                self.assertEqual((process.returncode, 'Traceback' in err), (130, False), err)

    def test_control_c_while_a_process_begins(self) -> None:
        """It is ended all the same."""
        source, run = self.program(BUSY, 1 << 40)
        begun, begin = list[subprocess.Popen[bytes]](), subprocess.Popen

        def interrupted(*words: Any, **how: Any) -> subprocess.Popen[bytes]:
            begun.append(begin(*words, **how))
            os.kill(os.getpid(), signal.SIGINT)
            return begun[0]

        with by_processes(), mock.patch.object(subprocess, 'Popen', interrupted), self.assertRaises(KeyboardInterrupt):
            zebludor.ran(['run', '--', source, run])
        self.addCleanup(begun[0].communicate)
        self.addCleanup(begun[0].kill)
        self.assertEqual(begun[0].returncode, -signal.SIGKILL)

    def test_the_longest_call(self) -> None:
        """Of a program that modifies its own code, of whose steps no more are made in a second than of others."""
        loop = f'{TOP}/bench/loops/d'
        with open(f'{loop}.json', encoding='utf-8') as file:
            path = self.file('long.json', re.sub('"budget": *[0-9]+', f'"budget":{zebludor.LONG}', file.read()))
        with by_the_library():
            begun = time.process_time()
            zebludor.ran(['run', '--', f'{loop}.asm', path])
            self.assert_within(time.process_time() - begun, SECONDS)


class Memory(ToolCase):
    """What a session of the library holds, and what it answers if it may hold no more, both by the library's own limit."""

    def setUp(self) -> None:
        super().setUp()
        self.most = 0
        limit = mock.patch.object(zebludor.Library, 'limit', lambda library: library.calls['zebludor_limit'](self.most))
        limit.start()
        self.addCleanup(limit.stop)

    @contextlib.contextmanager
    def session(self, source: str, run: str) -> Iterator[zebludor.Called]:
        """A session of pcprobe, at clock 0. Once it is ended, its thread has no limit."""
        with by_the_library():
            called = zebludor.called_of([source, run], True)
        assert called and called.is_there
        try:
            yield called
        finally:
            self.asked(called, b'regs')
            called.close()

    def asked(self, session: zebludor.Called, line: bytes, most: int = 0) -> bytes:
        """The answer to a line, while no more than so many bytes may be held; 0 is no limit."""
        self.most = most
        return session.answer(line)

    def held(self, session: zebludor.Called) -> int:
        """How many bytes are held: if no more may be, no command is answered."""
        for most in range(STEP, 1 << 24, STEP):
            with contextlib.suppress(MemoryError):
                if not self.asked(session, b'regs', most).startswith(b'fault'):
                    return most
        raise AssertionError('16 MB are held')

    def test_a_new_session_and_its_copies(self) -> None:
        """Each `set` at another clock keeps a copy of the session that was there."""
        if not is_there():
            return
        source, run = self.program(BUSY)
        with open(run, encoding='utf-8') as file:
            run = self.file('ram.json', file.read().replace('"ram":64', '"ram":640'))
        with self.session(source, run) as session:
            taken = [self.held(session)]
            for clock in range(1, 4):
                self.assertEqual(self.asked(session, b'go 1'), b'clock %d\n' % clock)
                before = self.held(session)
                self.assertEqual(self.asked(session, b'set AX 1'), b'clock %d\n' % clock)
                taken.append(self.held(session) - before)
        self.assertLess(max(taken), MOST, taken)

    def test_tables_that_are_refused(self) -> None:
        """A run answers the same without them, all or some, throughout or at first."""
        if not is_there():
            return
        for name in (f'{EXAMPLES}/nested', f'{EXAMPLES}/strings', f'{EXAMPLES}/monitor', f'{TOP}/bench/loops/d'):
            files = f'{name}.asm', f'{name}.json'
            wanted = self.answers(files, [0] * 6)
            with self.session(*files) as session:
                held = self.held(session)
            for most in range(held + STEP, held + 400_000, 3 * STEP):
                for limits in ([most] * 6, [most] * 3 + [0] * 3):
                    with self.subTest(name=name, limits=limits):
                        self.assertEqual(self.answers(files, limits), wanted)

    def answers(self, files: tuple[str, str], limits: list[int]) -> list[bytes]:
        """What is answered to the parts of a run, each of which has a limit, and to inquiries after it, which have none."""
        with self.session(*files) as session:
            ran = [self.asked(session, b'go %d' % clocks, most) for clocks, most in zip(PARTS, limits)]
            return ran + [self.asked(session, line) for line in INQUIRIES]


class Notes(ToolCase):
    """What is stored is compared with its sources once, as long as nothing is touched."""

    def setUp(self) -> None:
        super().setUp()
        self.compared, self.cache = 0, f'{self.room}/cache'
        for path in ('crates.txt', 'stored/PROVED', 'crates/pcboard/src/a.rt', 'crates/pcboard/src/inner/b.rt', 'crates/pcboard/specs/c.antt'):
            os.makedirs(os.path.dirname(f'{self.room}/top/{path}'), exist_ok=True)
            self.file(f'top/{path}', 'x')
        top = f'{self.room}/top'
        for name, value in (('TOP', top), ('STORED', f'{top}/stored'), ('crates_below', lambda: {'pcboard': {'pcboard'}}), ('of_the_stored', self.compare)):
            self.enterContext(mock.patch.object(present, name, value))
        self.enterContext(mock.patch.dict(os.environ, {'XDG_CACHE_HOME': self.cache}))
        time.sleep(0.05)  # what is noted has to be older than the note

    def compare(self, below: dict[str, set[str]]) -> present.Present:
        """What is found by comparing, which is counted."""
        self.assertEqual(set(below), {'pcboard'})
        self.compared += 1
        return present.Present(('pcboard',), 'mark')

    def asked(self, times: int, what: str) -> None:
        """What is present is asked once more, and has been compared so often by then."""
        self.assertEqual(present.present(), present.Present(('pcboard',), 'mark'))
        self.assertEqual(self.compared, times, what)

    def note(self) -> str:
        """Where the note is, which has no other beside it."""
        (name,) = os.listdir(f'{self.cache}/zebludor')
        return f'{self.cache}/zebludor/{name}'

    def test_compared_once(self) -> None:
        self.asked(1, 'nothing is noted')
        self.asked(1, 'nothing was touched')
        self.file('top/crates/pcboard/src/a.txt', '')
        time.sleep(0.05)
        self.asked(2, "a folder was touched, if by what is no source's")
        self.asked(2, 'and noted')

    def test_what_is_touched(self) -> None:
        a, b = (f'{self.room}/top/crates/pcboard/src/{name}' for name in ('a.rt', 'inner/b.rt'))
        times = os.stat(b).st_mtime_ns
        touches: dict[str, Callable[[], object]] = {
            'a source of as many bytes, with its time set back': lambda: (self.file('top/crates/pcboard/src/inner/b.rt', 'y'), os.utime(b, ns=(times, times))),
            'a new source': lambda: self.file('top/crates/pcboard/src/inner/new.rt', ''),
            'one that is gone': lambda: os.remove(a),
            'a new folder of sources': lambda: os.mkdir(f'{self.room}/top/crates/pcboard/proofs'),
            'the list of crates': lambda: self.file('top/crates.txt', 'y'),
            "a crate's folder that wasn't there": lambda: os.mkdir(f'{self.room}/top/crates/low'),
            'PROVED': lambda: self.file('top/stored/PROVED', 'y'),
            'a program that wasn\'t there': lambda: self.file('top/stored/pcboard', ''),
        }
        self.asked(1, 'nothing is noted')
        for times, (what, touch) in enumerate(touches.items(), 2):
            touch()
            time.sleep(0.05)
            self.asked(times, what)
            self.asked(times, f'{what}, again')

    def test_a_note_that_is_none(self) -> None:
        self.asked(1, 'nothing is noted')
        with open(self.note(), 'rb') as file:
            octets = file.read()
        others = octets.replace(b'pcboard', b'pcprobe', 1), octets[:-1], octets[:20], b'', b'\n\n', b'\xff' * 100, octets + b'x'
        for times, other in enumerate(others, 2):
            with open(self.note(), 'wb') as file:
                file.write(other)
            self.asked(times, repr(other[:30]))
        with mock.patch.object(present, 'machine', lambda: 'another'):
            self.asked(len(others) + 2, 'it is of another machine')

    def test_a_note_of_another_user(self) -> None:
        self.asked(1, 'nothing is noted')
        with mock.patch.object(os, 'geteuid', lambda: os.getuid() + 1):
            self.asked(2, "it isn't the user's")

    def test_what_is_too_new_is_not_noted(self) -> None:
        path = f'{self.room}/top/crates/pcboard/src/a.rt'
        os.utime(path, (time.time() + 1000, time.time() + 1000))
        self.asked(1, 'nothing is noted')
        self.asked(2, 'a file is newer than a note')
        self.assertEqual(os.listdir(f'{self.cache}/zebludor'), [])

    def test_no_place_for_a_note(self) -> None:
        with mock.patch.dict(os.environ):
            del os.environ['XDG_CACHE_HOME']
            os.environ.pop('HOME', None)
            self.asked(1, 'there is no place')
            os.environ['XDG_CACHE_HOME'] = self.file('no folder', '')
            self.asked(2, 'there is none')


if __name__ == '__main__':
    unittest.main()
