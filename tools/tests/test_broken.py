"""What breaks a tool ends it: a refusal of the program, once for each inquiry that a tool makes, and a mistake of the
tool itself."""
from __future__ import annotations

import contextlib
import errno
import glob
import io
import json
import mmap
import os
import re
import resource
import signal
import subprocess
import sys
import unittest
import warnings
from typing import Any, Callable
from unittest import mock

from tests import test_gdb
from tests.desk_engine import begun, has_node, named_library
from tests.support import RESET, SECONDS, TOOLS, TOP, ToolCase, children, example, main_of, only_if
from tests.terminal import Terminal
from tests.test_dap import Client as Editor

sys.path.insert(0, f'{TOP}/dev')
from parts import trials
from toolbox import framing, starting
from toolbox.command import MISTAKE, start
from toolbox.moments import Worker
from toolbox.program import Files, ProbeSession, apart, path
from toolbox.runfile import DEFAULTS
from toolbox.threads import STACK, begin
import zebludor

# In place of a program: it refuses the first command of a name, and hands on all else, as what the tools ask to know where an answer
# ends. Each answer is known to be whole by what is asked behind it.
PROXY = """#!{python}
import os, subprocess, sys
real, refused, once, seen = {real!r}, os.environ['REFUSED'], {once!r}, {seen!r}
if sys.argv[1:2] in (['run'], ['asm'], ['--version'], ['--help']):
    os.execv(real, [real, *sys.argv[1:]])
board = subprocess.Popen([real, *sys.argv[1:]], stdin=subprocess.PIPE, stdout=subprocess.PIPE)
for line in sys.stdin.buffer:
    word = b' '.join(line.split()[:1]).decode()
    with open(seen, 'a') as names:
        names.write(word + '\\n')
    if word == refused and line.strip() not in (b'go 0', b'back 1099511627777') and not os.path.exists(once):
        open(once, 'w').close()
        sys.stdout.buffer.write(b'fault 53 Memory\\n')
        sys.stdout.buffer.flush()
        continue
    board.stdin.write(line.rstrip(b'\\n') + b'\\n?\\nback 1099511627777\\n')
    board.stdin.flush()
    held = []
    while held[-2:] != [b'fault 51 BadCommand\\n', b'fault 54 BeforeStart\\n']:
        held.append(board.stdout.readline())
        if not held[-1]:
            sys.exit(board.wait())
    sys.stdout.buffer.write(b''.join(held[:-2]))
    sys.stdout.buffer.flush()
"""
PAGE = 'runs = tick\nnever runs = start+FF\nhalted before = 2000\nmemory 400 = 00\nchip controller ISR = 00\nspeaker at 74 = 1\n'
COMMANDS = (
    'break tick\ngo\nnext\nfinish\nstate\nwatch B0000\nlast\nlast B0000\nlast write B0000\nclear all\nwhen writes\ngo\nlog starts 50\nkey a\nkeys\n'
    'moments a 1900 1910 50\nu\nlist\nscreen\ndump 400\nback\nto 100\nuntil tick\ntrail 3\nregs\nchips\nstep 2\n'
)
# What an editor asks, with the words of each request; gdb, the desk's page and a terminal. The first of these lets the board run.
EDITORS = (
    ('setInstructionBreakpoints', {'breakpoints': [{'instructionReference': '0xF6058', 'condition': 'AX >= 0'}]}),
    ('continue', {}),
    ('stackTrace', {}),
    ('variables', {'variablesReference': 1}),
    ('variables', {'variablesReference': 4}),
    ('variables', {'variablesReference': 6}),
    ('next', {}),
    ('stepIn', {}),
    ('stepOut', {}),
    ('disassemble', {'memoryReference': '0xF6000', 'instructionCount': 4}),
    ('readMemory', {'memoryReference': '0xB0000', 'count': 4}),
    ('evaluate', {'expression': 'chips', 'context': 'repl'}),
    ('evaluate', {'expression': 'key a', 'context': 'repl'}),
    ('setDataBreakpoints', {'breakpoints': [{'dataId': 'B0000 1'}]}),
    ('setExceptionBreakpoints', {'filters': ['key lost']}),
    ('continue', {}),
    ('stepBack', {}),
    ('reverseContinue', {}),
)
MOVES = ('continue', 'next', 'stepIn', 'stepOut', 'stepBack', 'reverseContinue')
DEBUGGERS = ('g', 'Z0,f6058,1', 'c', 'mf0000010,40', 's', 'mb0000,4', 'Z2,b0000,1', 'c', 'bs', 'bc', 'z2,b0000,1', 'z0,f6058,1', 's')
MONITORS = ('regs', 'chips', 'screen', 'trail', 'dump B0000 4', 'key a', 'keys', 'break F600:58', 'go 3000', 'to 400', 'back stop')
PAGES: tuple[tuple[str, dict[str, Any]], ...] = (
    ('stops', {'stops': ['tick', 'changes B0000']}),
    *(('run', {'to': 5000}), ('over', {}), ('out', {}), ('step', {}), ('back', {}), ('last', {}), ('look', {})),
    *(('memory', {'place': 'SS:SP'}), ('code', {}), ('chips', {}), ('data', {}), ('why', {}), ('marks', {}), ('who', {'address': 0xB0000})),
    *(('type', {'codes': [30, 158]}), ('run', {'to': 9000, 'past': True}), ('drop keys', {'keys': [0]}), ('go to', {'clock': 300})),
)
PROMPTS = 'regs,chips,trail,step,back,to 3000,break tick,byte B0000 41,last,stops,clear all,key a,keys,drop,speed fast,quit'
# It jams at what it has written.
JAM = f"""SEGMENT MAIN AT 0F000h
start:  MOV AX,50h
        MOV DS,AX
        MOV SS,AX
        MOV SP,40h
        MOV BYTE [0],0Fh
        PUSH CS
        PUSH AX
        JMP FAR 50h:0
{RESET}"""


# With services: it waits for a key, prints, and ends.
SERVED = (
    "SEGMENT MAIN AT 100h\n        ORG 100h\nstart:  MOV AH,0\n        INT 16h\n        MOV DL,'A'\n        MOV AH,2\n        INT 21h\n        INT 20h\nENDS\n"
)
CHANGES = 'go 300\nAX = 5\n[B0000] = 41h\nundo\nregs\nundo\nback\nif AX > 2\n'
# What Python asks of a session.
ASKED: tuple[Callable[[zebludor.Session], Any], ...] = (
    lambda it: (it.stop_at(0xF600, 0x58), it.stop_at_byte(0xB0000, 0x41), it.stop_at_sound(), it.stop_at_halt(), it.watch(0x400), it.stop_when('entries')),
    lambda it: (it.go(2000), it.step(), it.back_step(), it.back(100), it.back_to_stop(), it.clock),
    lambda it: (it.registers, it.screen(), it.dump(0x400, 4), it.trail()),
    lambda it: (it.key(0x1E), it.events(200, 'starts', 'keys')),
    lambda it: (it.set('AX', 5), it.set(0x600, b'\x90\xC3'), it.registers, it.undo()),
    lambda it: it.call((0, 0x600), memory={0x600: b'\x40\xC3'}, ax=4),
    lambda it: (it.registers, it.dump(0x600, 2)),
)


class Broken(ToolCase):
    """Tools over programs that refuse something once."""

    def environment(self, refused: str) -> dict[str, str]:
        """With such programs."""
        found = os.environ | {'REFUSED': refused}
        for name in ('pcboard', 'pcprobe'):
            text = PROXY.format(python=sys.executable + ' -S', real=path(name), once=f'{self.room}/once', seen=f'{self.room}/seen')
            found[name.upper()] = self.file(f'proxy-{name}', text)
            os.chmod(found[name.upper()], 0o755)
        if os.path.exists(f'{self.room}/once'):
            os.remove(f'{self.room}/once')
        return found

    def came(self, words: list[str], given: str, refused: str) -> subprocess.CompletedProcess[str]:
        """What a tool comes to."""
        words = [sys.executable, '-S', f'{TOOLS}/{words[0]}', *words[1:]]
        return subprocess.run(words, input=given, env=self.environment(refused), capture_output=True, text=True, timeout=SECONDS, check=False, cwd=self.room)

    def seen(self) -> list[str]:
        """The names of the commands that were handed on, by what has worked since."""
        with open(f'{self.room}/seen', encoding='ascii') as file:
            return sorted(set(file.read().split()) - {'?'})

    def each_of(self, work: Callable[[], str]) -> None:
        """Each inquiry that something makes, refused once: what it says has a sentence of that, or is what it says else."""
        self.file('seen', '')
        with mock.patch.dict(os.environ, self.environment('nothing')):
            first = work()
        self.assertNotRegex(first, f'Traceback|{MISTAKE}|refuse')
        for name in self.seen():
            with mock.patch.dict(os.environ, self.environment(name)):
                said = work()
            self.assertNotRegex(said, f'Traceback|{MISTAKE}', name)
            self.assertTrue(said == first or re.search('refuse|no memory|fault 53 Memory', said), (name, first, said))
        self.assertEqual(children(os.getpid()), [])

    def test_each_inquiry(self) -> None:
        """Refused once, it is told in a sentence or told to be so, and all ends, soon and without a traceback."""
        source, run = example('ticks')
        page = self.file('it.page', PAGE)
        tools: tuple[tuple[list[str], str], ...] = (
            (['dbg', source, run], COMMANDS),
            (['trace', '--to', '2000', source, run], ''),
            (['trace', '--calls', source, run], ''),
            (['trace', '--profile', source, run], ''),
            (['trace', '--vcd', 'it.vcd', '--watch', 'B0000', source, run], ''),
            (['judge', page, source, run], ''),
            (['moments', '--measure', 'tick', source, run, '--key', '1E', '--at', '100..102', '--jobs', '1'], ''),
        )
        for words, given in tools:
            self.file('seen', '')
            first = self.came(words, given, 'nothing')
            self.assertIn(first.returncode, (0, 1), first.stderr)
            for name in self.seen():
                came = self.came(words, given, name)
                self.assertNotRegex(came.stderr, f'Traceback|{MISTAKE}', (words, name))
                is_told = re.search('refuse|no memory', came.stdout + came.stderr) or came.stdout == first.stdout
                self.assertTrue(came.returncode == 2 or is_told, (words, name, came))
        self.assertEqual(children(os.getpid()), [])

    def test_why(self) -> None:
        """Sentences of a program without an end of interrupt, and of one that jams."""
        with open(example('ticks')[0], encoding='ascii') as file:
            mute = self.file('mute.asm', file.read().replace('MOV AL,20h', 'MOV AL,0'))
        jam = self.file('jam.asm', JAM)
        for words in (['why', 'run', mute, example('ticks')[1]], ['try', jam]):
            self.each_of(lambda those=words: self.said_by(those))  # type: ignore[misc]

    def test_what_else_asks(self) -> None:
        """Tools that ask at a run's end, of programs with services, over moments, and by zebludor.py; and what changes the board."""
        source, run = example('ticks')
        page, served = self.file('it.page', PAGE), self.file('served.asm', SERVED)
        key = ['--key', '1E', '--at', '100..102']
        for words, given in (
            (['picture', '--of', source, run, '--ansi'], ''),
            (['moments', '--stop', 'tick', source, run, *key, '--pair', '9E', '50'], ''),
            (['moments', page, source, run, *key, '--jobs', '1'], ''),
            (['try', served, '--keys', 'a'], ''),
            (['why', 'run', served], ''),
            (['trace', '--calls', served], ''),
            (['trace', '--lcov', 'it.lcov', source, run], ''),
            (['dbg', source, run], CHANGES),
        ):
            with warnings.catch_warnings():
                warnings.simplefilter('ignore', ResourceWarning)  # of processes that try moments, which are ended as they are
                self.each_of(lambda: ''.join(self.called(words[0], *words[1:], given=given, status=None)))  # pylint: disable=cell-var-from-loop

    def test_zebludor(self) -> None:
        """A session of Python: each call is refused in a sentence, or answered."""

        def work() -> str:
            said = list[Any]()
            with open(example('ticks')[0], encoding='ascii') as file, zebludor.Session(file.read(), probe=True, budget=9000) as session:
                for ask in ASKED:
                    try:
                        said.append(ask(session))
                    except zebludor.Fault as fault:
                        said.append(str(fault))
            return repr(said)

        self.each_of(work)

    def test_a_routine(self) -> None:
        """Registers that are refused behind a call are told of, and the next call is answered."""
        with open(example('ticks')[0], encoding='ascii') as file, mock.patch.dict(os.environ, self.environment('regs')):
            session = zebludor.Session(file.read(), probe=True)
        self.addCleanup(session.close)
        session.set(0x600, b'\x40\xC3')  # INC AX, RET
        with session.routine((0, 0x600)) as routine:
            os.remove(f'{self.room}/once')
            self.assertRaisesRegex(zebludor.Fault, '53 Memory', routine, ax=4)
            self.assertEqual(routine(ax=4).registers['AX'], 5)

    @staticmethod
    def said_by(words: list[str]) -> str:
        """All that a tool says."""
        words = [sys.executable, '-S', f'{TOOLS}/{words[0]}', *words[1:]]
        came = subprocess.run(words, stdin=subprocess.DEVNULL, capture_output=True, text=True, timeout=SECONDS, check=False)
        return re.sub(r'(?m)^\w+: .*, \d+ s\n', '', came.stdout + came.stderr)  # without how long it has been at work

    def test_editors(self) -> None:
        def work() -> str:
            source, run = example('ticks')
            client, said = Editor(self.room), list[Any]()

            def ask(command: str, **arguments: Any) -> None:
                said.append(client.response(client.send(command, **arguments)))
                while said[-1]['success'] and command in (*MOVES, 'configurationDone'):
                    if any(event['event'] in ('stopped', 'terminated') for event in client.events):
                        break
                    client.events.append(client.read())
                said.extend(client.events)
                client.events.clear()

            ask('initialize', adapterID='zebludor')
            ask('launch', program=source, run=run, stopOnEntry=True)
            ask('configurationDone')
            for command, arguments in EDITORS:
                ask(command, **{'threadId': 1} if command in MOVES else {}, **arguments)
            ask('disconnect')
            status = client.end()
            return f'{json.dumps(said)} {status} {client.complaints}'

        self.each_of(work)

    def test_gdb(self) -> None:
        def work() -> str:
            words, said = [sys.executable, '-S', f'{TOOLS}/gdb', '--serve', *example('ticks')], list[str]()
            tool = subprocess.Popen(words, stdout=subprocess.PIPE, stderr=subprocess.PIPE, text=True, env=os.environ | {'XDG_RUNTIME_DIR': self.room})
            assert tool.stdout
            if script := tool.stdout.readline():
                with open(script.split()[-1], encoding='utf-8') as text:
                    client = test_gdb.Client(int(text.read().strip().rpartition(':')[2]))
                with contextlib.suppress(EOFError, OSError):
                    said += map(client.ask, DEBUGGERS)
                    said.append(client.shown)
                    said += (client.ask('qRcmd,' + command.encode().hex()) for command in MONITORS)
                    said.append(client.ask('D;1'))
                said.append(client.shown)
                client.close()
            return '\n'.join([*said, tool.communicate(timeout=SECONDS)[1]])

        self.each_of(work)

    @only_if(has_node)
    def test_desk(self) -> None:
        """The engine of its page, over its library."""
        with open(example('ticks')[0], encoding='ascii') as file:
            first: dict[str, Any] = {'do': 'open', 'source': file.read(), 'run': DEFAULTS | {'budget': 9000}}
        asked = json.dumps([first, *({'do': word, **fields} for word, fields in PAGES)])

        def answers(refused: str) -> dict[str, Any]:
            found: dict[str, Any] = json.loads(begun(self.room, 'refusing.mjs', refused).communicate(asked)[0])
            return found

        wanted = answers('nothing')
        self.assertNotRegex(json.dumps(wanted['said']), '"error"|refuse')
        for word in wanted['seen']:
            said = json.dumps(answers(word)['said'])
            self.assertNotIn('"error"', said, word)
            self.assertRegex(said, 'refuse|no memory', word)

    def test_term(self) -> None:
        def work() -> str:
            words = [sys.executable, '-S', f'{TOOLS}/term', *example('ticks')]
            terminal = Terminal(words, rows=200, HOME=self.room, XDG_STATE_HOME='', TMPDIR=self.room)
            terminal.until(lambda each: 'Ctrl+]: prompt' in each.lines()[-1] or each.lines()[-1] == 'term>')
            with contextlib.suppress(OSError):
                terminal.type('\x1d')
                terminal.until(lambda each: each.lines()[-1] == 'term>')
                terminal.type(PROMPTS.replace(',', '\r') + '\r')
            status = terminal.ended()
            terminal.close()
            words = f'Traceback|{MISTAKE}|refuse|no memory'
            return '\n'.join([*(line for line in terminal.grid.lines() if re.search(words, line)), str(status)])

        self.each_of(work)

    def test_a_mistake(self) -> None:
        """One of the tool itself is told in a sentence, with its place; what it has started ends."""
        code = (
            "import sys; sys.path[:0] = ['.', '../python']\nfrom toolbox.command import start\nfrom toolbox.program import Files, ProbeSession, apart\n"
            f"@apart()\ndef main(words):\n    session = ProbeSession(Files(*{example('ticks')!r}))\n    session.begin('go 1099511627776')\n    return [][1]\nstart(main)\n"
        )
        came = subprocess.run([sys.executable, '-c', code], cwd=TOOLS, capture_output=True, text=True, timeout=SECONDS, check=False)
        self.assertEqual((came.returncode, came.stdout), (2, ''))
        self.assertRegex(came.stderr, r'^-c: a mistake of this tool has ended it: IndexError: list index out of range \(<string>, line 8\)\n$')


class NoThread(ToolCase):
    """A thread that can't be started, and one that fails, end a tool with a sentence; nothing waits for them."""

    SENTENCE = "a thread can't be started: Cannot allocate memory\n"

    def test_only_one_way_begins_threads(self) -> None:
        found = list[str]()
        for module in (*glob.glob(f'{TOOLS}/toolbox/**/*.py', recursive=True), *filter(os.path.isfile, glob.glob(f'{TOOLS}/*'))):
            with open(module, encoding='utf-8') as file:
                text = file.read()
            if re.search(r'\bThread\(|start_new_thread|ThreadPool', text):
                found.append(os.path.relpath(module, TOOLS))
                self.assertIn('want()', text, module)
        self.assertEqual(sorted(found), ['toolbox/batches.py', 'toolbox/threads.py'])

    def test_without_memory(self) -> None:
        """The stacks of threads that have ended are there for the next one, which then lacks the memory to begin."""

        def work(_: list[str]) -> int:
            for _ in range(3):
                begin(lambda: None).join()
            most = trials.sizes()[0] + STACK
            resource.setrlimit(resource.RLIMIT_AS, (most, most))
            begin(lambda: None)
            return 0

        ended = trials.tried(lambda: start(work), self.room)
        self.assertEqual((ended.status, ended.err), (2, f'{os.path.basename(sys.argv[0])}: {self.SENTENCE}'))

    def test_tools(self) -> None:
        source, run = example('ticks')
        os.mkdir(f'{self.room}/state')
        self.file('page', 'shows = HI\n')
        self.enterContext(mock.patch.dict(os.environ, named_library(self.room)))
        for name, words in (
            ('dap', []),
            ('lsp', []),
            ('desk', [source, run, '--no-open']),
            ('moments', [f'{self.room}/page', source, run, '--key', '1E', '--at', '1..9']),
            ('judge', ['--class', f'{self.room}/page', source]),
        ):
            with self.subTest(name), mock.patch.object(mmap, 'mmap', side_effect=OSError(errno.ENOMEM, os.strerror(errno.ENOMEM))):
                ended = trials.tried(trials.started(name, words), self.room)
                self.assertEqual((ended.status, ended.err), (2, f'{name}: {self.SENTENCE}'), ended)

    def test_sessions_of_threads(self) -> None:
        """A session that needs the thread which starts processes says so, and another one is begun later."""
        files = Files(*example('ticks'))
        with apart(), mock.patch.object(starting, '_STARTERS', []), mock.patch('toolbox.program.is_alone', return_value=False):
            with mock.patch.object(mmap, 'mmap', side_effect=OSError(errno.ENOMEM, os.strerror(errno.ENOMEM))):
                self.assertRaisesRegex(OSError, self.SENTENCE.strip(), ProbeSession, files)
            with ProbeSession(files) as session:
                self.assertEqual(session.go(5), 'clock 5')

    def test_a_message_for_which_there_is_no_memory(self) -> None:
        with mock.patch.object(framing.Reader, 'next', side_effect=MemoryError):
            messages = framing.reading(0)
            broken, end = messages.get(timeout=SECONDS), messages.get(timeout=SECONDS)
        assert isinstance(broken, framing.Broken)
        self.assertEqual((broken.why, end), ("a message can't be read: there is no memory for it", None))

    def test_moments_whose_thread_fails(self) -> None:
        page, err = self.file('page', 'shows = HI\n'), io.StringIO()
        for sign in (signal.SIGINT, signal.SIGTERM, signal.SIGHUP):  # moments hears them to its end, which is this process's
            self.addCleanup(signal.signal, sign, signal.getsignal(sign))
        with mock.patch.object(Worker, 'ask', side_effect=MemoryError), contextlib.redirect_stderr(err):
            with self.assertRaises(MemoryError):
                main_of('moments')([page, *example('ticks'), '--key', '1E', '--at', '1..9'])


if __name__ == '__main__':
    unittest.main()
