"""Every tool: help at once, words that aren't its own refused, and no traceback whatever is in its way. A tool that is added
under tools/, dev/ or bench/ is among them by itself."""
from __future__ import annotations

import concurrent.futures as futures
import contextlib
import json
import os
import pathlib
import re
import signal
import subprocess
import sys
import unittest
from collections.abc import Callable, Iterator

from tests.lsp_client import Here
from tests.support import EXAMPLES, SECONDS, TOP, ToolCase

sys.path.insert(0, f'{TOP}/dev')
from parts import trials
from toolbox import program
from toolbox.command import MISTAKE
from toolbox.proved import PROGRAMS
import zebludor

FOLDERS = ('tools', 'dev', 'bench')
# Words with a path, `{}`, beyond those that are tried of each tool: one path, two and three.
WORDS = (
    'tools/judge --same all {} {}',
    'tools/judge --class {} {}',
    'tools/judge {} - --run {}',
    'tools/judge --seal it.seal {} {}',
    'tools/judge --seal it.seal hello.asm {}',
    'tools/judge --sealed {}',
    'tools/judge page hello.asm {} --keep it',
    'tools/keys a --run {}',
    'tools/moments {} hello.asm hello.json --key 1E --at 1..9',
    'tools/moments {} {} {} --key 1E --at 1..9',
    'tools/keys --read {}',
    'tools/picture it.svg --of {} {}',
    'tools/runfile --from {}',
    'tools/sound {}',
    'tools/trace --vcd {} hello.asm hello.json',
    'tools/trace --hex {} hello.json',
    'tools/trace hello.asm {}',
    'tools/try hello.asm --run {}',
    'tools/try --com {}',
    'tools/try --nasm {}',
    'tools/try hello.asm --write {}',
    'tools/why run {} hello.json',
    'tools/why run hello.asm {}',
    'tools/why run --hex {} hello.json',
    'tools/why asm {}',
    'tools/why debug hello.asm {}',
    'tools/why --all {}',
    'tools/why --lines {}',
    'tools/why fault {}',
    'dev/build --seen {} {}',
    'dev/release --into {}',
    'tools/dbg hello.asm {}',
    'tools/dbg --hex {} hello.json',
    'tools/dbg --hex hello.hex hello.json --symbols {}',
    'tools/gdb hello.asm {}',
    'tools/gdb hello.hex hello.json --symbols {}',
    'tools/place rom {}',
    'tools/place com {}',
    'tools/place sector {}',
    'tools/desk hello.asm {}',
    'tools/desk hello.hex hello.json --symbols {}',
    'tools/term hello.asm {}',
    'tools/try --bcc {}',
    'tools/trace --hex hello.hex hello.json --coverage --symbols {}',
    'tools/judge places hello.hex hello.json --symbols {}',
    'tools/judge --class page hello.asm --run {}',
    'tools/moments places hello.hex hello.json --key 1E --at 1..9 --symbols {}',
    'bench/count {} --steps',
    'bench/race {}',
    'dev/fuzz --again {}',
    'tools/judge --class page hello.asm --include {}',
    'tools/judge page served.asm hello.json --file {}',
    'tools/try served.asm --file {}',
    'tools/why run served.asm --file {}',
    'tools/zebludor try {}',
    'tools/dbg {} hello.json',
    'tools/gdb --serve -- {} hello.json',
    'tools/judge page {}',
    'tools/judge page {} hello.json',
    'tools/judge --hex page {} hello.json',
    'tools/judge --class page {}',
    'tools/judge --same all hello.report {}',
    'tools/judge --include {} --class page hello.asm',
    'tools/moments page {} hello.json --key 1E --at 1..9',
    'tools/moments page hello.asm {} --key 1E --at 1..9',
    'tools/moments --measure start {} hello.json',
    'tools/moments --measure start hello.asm {}',
    'tools/picture it.svg --of hello.asm {}',
    'tools/picture it.svg --hex --of {} hello.json',
    'tools/table hello.report {}',
    'tools/term {} hello.json',
    'tools/term hello.hex hello.json --symbols {}',
    'tools/term served.asm hello.json --file {}',
    'tools/dbg served.asm hello.json --file {}',
    'tools/trace served.asm hello.json --file {}',
    'tools/trace {} hello.json --vcd it.vcd',
    'tools/try {}',
    'tools/try --hex {}',
    'tools/try --masm {}',
    'tools/try --services {}',
    'tools/why run {}',
    'tools/why asm hello.asm --hex {}',
    # Names by which it is a program for DOS, a sector or Intel HEX.
    'tools/try {}.com',
    'tools/try {}.exe',
    'tools/judge page {}.bin',
    'tools/dbg {}.hex',
    'tools/place rom {}.bin',
    # Sources that include it.
    'tools/dbg includes_{}',
    'tools/judge page includes_{} hello.json',
    'tools/try includes_{}',
    'tools/why --lines includes_{}',
    'tools/why run includes_{}',
)
IN_A_ROW = 'tools/judge --class page /'  # a submission that can't be read is told of in its row
MAY_SUCCEED = {'tools/why fault', 'tools/trace --vcd', 'tools/try hello.asm --write'}
# Lines that lack a word, a terminal, a report or a folder, so that no file is read.
REFUSED_BEFORE = (
    'tools/sound',
    'tools/desk hello.asm',
    'tools/moments --measure',
    'tools/term',
    'tools/why asm hello.asm',
)
WRITTEN = ('tools/trace --vcd', 'tools/try hello.asm --write', 'tools/sound')  # there the path is what is written
SERVED = 'SEGMENT M AT 100h\nstart: MOV AX,4C00h\n INT 21h\nENDS\n'
MORE_THAN_A_PIPE = 1 << 17
MOST_SECONDS, MOST_MEGABYTES = 5, 300  # of the processor, and of the largest process
ENDED = 4 * MOST_SECONDS  # also on a slow machine
MOST_PRINTED = 20_000  # bytes


def tools() -> list[str]:
    """All files there that can be started."""
    paths = [f'{folder}/{name}' for folder in FOLDERS for name in sorted(os.listdir(f'{TOP}/{folder}'))]
    return [path for path in paths if os.path.isfile(f'{TOP}/{path}') and os.access(f'{TOP}/{path}', os.X_OK)]


class EveryTool(ToolCase):
    """Each one, in a folder of its own, where no `rt` is and nothing is kept."""

    def setUp(self) -> None:
        super().setUp()
        for name in ('hello.asm', 'hello.json'):
            os.symlink(f'{EXAMPLES}/{name}', f'{self.room}/{name}')
        self.file('page', 'shows = HI\n')
        self.file('places', 'runs = start\n')
        self.file('hello.hex', self.pcboard('asm', f'{EXAMPLES}/hello.asm').stdout)
        self.file('hello.report', self.pcboard('run', f'{EXAMPLES}/hello.asm', f'{EXAMPLES}/hello.json').stdout)
        self.file('served.asm', SERVED)
        self.environment = {'PATH': '/usr/bin:/bin', 'HOME': self.room} | {name.upper(): program.path(name) for name in PROGRAMS}

    def begin(self, tool: str, *words: str, out: int = subprocess.PIPE, given: int = subprocess.DEVNULL) -> subprocess.Popen[str]:
        """Starts a tool, whose standard input is empty where nothing is said."""
        return subprocess.Popen(
            ['env', '--default-signal=INT', f'{TOP}/{tool}', *words],
            stdin=given,
            stdout=out,
            stderr=subprocess.PIPE,
            text=True,
            cwd=self.room,
            env=self.environment,
            start_new_session=True,
        )

    def run_tool(self, line: str, out: int = subprocess.PIPE) -> tuple[int, str, str]:
        """Its status and what it prints. It neither ends in a traceback nor begins to prove."""
        with self.begin(*line.split(), out=out) as process:
            try:
                printed, err = process.communicate(timeout=SECONDS)
            except subprocess.TimeoutExpired:
                os.killpg(process.pid, signal.SIGKILL)
                self.fail(f'{line}: it goes on for {SECONDS} seconds')
        for sign in ('Traceback', MISTAKE, 'Exception ignored'):
            self.assertNotIn(sign, err, line)
        self.assertNotRegex(err, r'(?<!:)//', line)  # a path below nothing
        self.assertFalse(os.path.exists(f'{self.room}/.cache'), line)
        return process.returncode, printed, err

    def each(self, check: Callable[[str], None], lines: list[str]) -> None:
        """Checks all of them, some side by side."""
        with futures.ThreadPoolExecutor(4) as pool:
            for line, one in [(line, pool.submit(check, line)) for line in lines]:
                with self.subTest(line=line):
                    one.result()

    def test_there_are_tools_in_each_folder(self) -> None:
        self.assertEqual({path.partition('/')[0] for path in tools()}, set(FOLDERS))
        for tool in tools():
            with open(f'{TOP}/{tool}', encoding='utf-8') as file:
                self.assertTrue(file.read(2) == '#!', tool)

    def test_help_is_given_at_once(self) -> None:
        def check(tool: str) -> None:
            status, printed, err = self.run_tool(f'{tool} --help')
            self.assertEqual((status, err), (0, ''), tool)
            self.assertIn(os.path.basename(tool), printed, tool)
            self.assertGreater(len(printed), 200, tool)

        self.each(check, tools())

    def test_unknown_words_are_refused(self) -> None:
        def check(tool: str) -> None:
            status, printed, err = self.run_tool(f'{tool} --nonsense')
            self.assertEqual((status, printed), (2, ''), tool)
            self.assertIn(os.path.basename(tool), err, tool)

        self.each(check, tools())

    def test_without_rattle(self) -> None:
        """What proves says so in a sentence, and begins nothing."""
        from toolbox.crates import NO_RATTLE

        def check(line: str) -> None:
            status, printed, err = self.run_tool(line)
            self.assertEqual((status, printed, err), (2, '', f'{line.split()[0].rpartition("/")[2]}: {NO_RATTLE}\n'), line)

        self.each(check, ['dev/build pcboard', 'dev/build zebludor_chips', 'dev/build --verdicts', 'dev/refused isa'])

    def test_a_closed_pipe(self) -> None:
        def check(tool: str) -> None:
            reading, writing = os.pipe()
            os.close(reading)
            try:
                status, _, err = self.run_tool(f'{tool} --help', out=writing)
            finally:
                os.close(writing)
            self.assertEqual((status, err), (0, ''), tool)

        self.each(check, tools())

    def test_a_missing_file_and_a_folder_for_a_file(self) -> None:
        def check(line: str) -> None:
            status, out, err = self.run_tool(line)
            if any(line.startswith(start) for start in MAY_SUCCEED):
                return
            self.assertGreater(status, 0, line)
            self.assertNotEqual(out if line.startswith(IN_A_ROW) else err, '', line)
            path = next((word for word in line.split() if word.startswith(self.room)), '')
            if (
                line.startswith('tools/')
                and line.replace(path, '{}') in WORDS
                and not re.search('includes_|served', line)
                and not line.startswith((IN_A_ROW, *REFUSED_BEFORE))
            ):
                self.assertEqual((status, path in err), (3, True), f'{line}: {err}')

        lines = [*WORDS, *(f'{tool} {{}} {{}}' for tool in tools())]
        self.each(check, [line.replace('{}', path) for line in lines for path in (f'{self.room}/none/none', self.room)])

    def test_control_c(self) -> None:
        """As the terminal sends it, where a tool waits for the rest of what is typed: it has read a part, as there is more than a pipe holds."""
        for line in (
            'tools/judge page -',
            'tools/keys -',
            'tools/table -',
            'tools/sound it.wav',
            'tools/picture it.svg',
            'tools/why fault',
            'tools/dbg hello.asm hello.json',
        ):
            with self.subTest(line=line), self.begin(*line.split(), given=subprocess.PIPE) as process:
                assert process.stdin
                process.stdin.write('\n' * MORE_THAN_A_PIPE)
                process.stdin.flush()
                err = self.interrupted(process)
                self.assertNotIn('Traceback', err, line)
                self.assertNotEqual(process.returncode, 0, line)

    def interrupted(self, process: subprocess.Popen[str]) -> str:
        """What a tool tells at control-C, which is pressed again where it goes on."""
        for _ in range(SECONDS // 10):
            os.killpg(process.pid, signal.SIGINT)
            with contextlib.suppress(subprocess.TimeoutExpired):
                return process.communicate(timeout=10)[1]
        os.killpg(process.pid, signal.SIGKILL)
        return self.fail(f'control-C ends it not: {process.args!r}')


class NoFile(ToolCase):
    """A FIFO, a link to a device, a file of 2 GB and brackets a million deep end at once and cost little in every tool that takes a
    file, in Python's module, and where a source includes them or stands beside them. So does a source of as many lines as there may be."""

    PATHS = ('fifo', 'endless', 'long', 'deep')
    GIVEN = b'fault 3 BadLine line 1\n'  # which why explains, of a file

    def setUp(self) -> None:
        super().setUp()
        for name in ('hello.asm', 'hello.json'):
            os.symlink(f'{EXAMPLES}/{name}', f'{self.room}/{name}')
        self.file('page', 'shows = HI\n')
        self.file('places', 'runs = start\n')
        self.file('hello.hex', self.pcboard('asm', f'{EXAMPLES}/hello.asm').stdout)
        self.file('hello.report', self.pcboard('run', f'{EXAMPLES}/hello.asm', f'{EXAMPLES}/hello.json').stdout)
        self.file('served.asm', SERVED)
        os.mkfifo(f'{self.room}/fifo')
        os.symlink('/dev/zero', f'{self.room}/endless')
        with open(f'{self.room}/long', 'wb') as file:
            file.truncate(1 << 31)
        self.file('deep', '{"version":1,"ram":64,"sw1":0,"sw2":0,"budget":1000,"keys":' + '[' * 1_000_000)
        os.mkdir(f'{self.room}/sources')
        for path in self.PATHS:
            os.symlink(f'{self.room}/{path}', f'{self.room}/sources/{path}.asm')
            for ending in ('com', 'exe', 'bin', 'hex'):
                os.symlink(path, f'{self.room}/{path}.{ending}')
            self.file(f'includes_{path}', f'.model small\n.code\ninclude {path}\nmain proc\n mov ax,4C00h\n int 21h\nmain endp\nend main\n')
        self.environment = {'PATH': '/usr/bin:/bin', 'HOME': self.room} | {name.upper(): program.path(name) for name in PROGRAMS}

    def ended(self, what: str, work: Callable[[], None], given: bytes = GIVEN) -> trials.Ended:
        """How something ended, which is told by its name if it has cost or printed too much, waited, or ended in a traceback."""

        def at_home() -> None:
            os.environ.clear()
            os.environ.update(self.environment)
            work()

        ended = trials.tried(at_home, self.room, given, ENDED)
        self.assert_within(ended.seconds, MOST_SECONDS, what)
        self.assertLess(ended.megabytes, MOST_MEGABYTES, what)
        self.assertGreaterEqual(ended.status, 0, what)
        self.assertLess(len(ended.out) + len(ended.err), MOST_PRINTED, what)
        self.assertNotRegex(ended.err, f'Traceback|{MISTAKE}', what)
        return ended

    def test_every_tool(self) -> None:
        """It refuses in a sentence, with status 3 if it reads it, unless it has read a file whose brackets are its own affair, or has no need of it."""
        lines = [*(line for line in WORDS if not line.startswith(WRITTEN)), *(f'{tool} {{}} {{}}' for tool in tools())]
        for line, path in ((line, path) for line in lines for path in self.PATHS):
            name, *words = line.replace('{}', path).split()
            with self.subTest(line=line, path=path):
                ended = self.ended(line, trials.started(name.removeprefix('tools/'), words))
                self.assertIn(ended.status, allowed(line, path), ended.err)
                self.assertNotEqual(ended.err + ended.out.decode(), '')

    def test_a_source_of_a_million_lines(self) -> None:
        """A source is read within as much, of however many lines its bytes are; also one that isn't UTF-8."""
        for words, first, answer in ((['why', 'run'], b'', 'FFFF:0000'), (['try'], b';\xE9', 'fault 2 BadCharacter line 1')):
            with open(f'{self.room}/lines.asm', 'wb') as file:
                file.write(first + b'\n' * 1_000_000)
            with self.subTest(words=words):
                ended = self.ended('lines.asm', trials.started(words[0], [*words[1:], '--seconds', str(SECONDS), 'lines.asm']))
                self.assertIn(answer, ended.err)

    def test_python(self) -> None:
        """It is Unfit, or what the program refuses."""

        def refused(call: Callable[[pathlib.Path], object], path: pathlib.Path) -> None:
            try:
                print(call(path))
            except (zebludor.Unfit, zebludor.Fault) as error:
                print(error)
                sys.exit(2)

        hello = pathlib.Path('hello.hex')
        calls = (
            zebludor.run,
            lambda path: zebludor.run(path, services=True),
            lambda path: zebludor.run(path, is_hex=True),
            zebludor.assemble,
            zebludor.listing,
            zebludor.Session,
            lambda path: zebludor.Places(path).place('start'),
            lambda path: zebludor.Places(hello, symbols=path).place('start'),
        )
        for at, path in ((at, path) for at in range(len(calls)) for path in self.PATHS):
            with self.subTest(call=at, path=path):
                ended = self.ended(path, lambda at=at, path=path: refused(calls[at], pathlib.Path(path)))
                self.assertEqual(ended.status, 2, ended.out)
                self.assertNotEqual(path != 'deep', b"can't be read" not in ended.out, ended.out)

    def test_an_editor(self) -> None:
        """A session of the debugger's adapter comes to its end."""
        for fields in ({'program': '{}'}, {'program': 'hello.asm', 'run': '{}'}, {'program': 'hello.hex', 'symbols': '{}'}, {'program': 'includes_{}'}):
            for path in self.PATHS:
                asked = {name: text.replace('{}', path) for name, text in fields.items()}
                with self.subTest(**asked):
                    requests = (('initialize', {}), ('launch', asked), ('configurationDone', {}), ('disconnect', {}))
                    frames = ({'seq': at, 'type': 'request', 'command': name, 'arguments': more} for at, (name, more) in enumerate(requests))
                    self.assertEqual(self.ended(path, trials.started('dap', []), framed(frames)).status, 0)

    def test_a_language_server(self) -> None:
        """Documents that include them are opened, and in a folder with them a name is looked for."""

        def work() -> None:
            editor = Here()
            editor.server.folders.append(f'{self.room}/sources')
            for path in self.PATHS:
                with open(f'includes_{path}', encoding='ascii') as file:
                    editor.open(file.read(), f'file://{self.room}/includes_{path}')
            print(editor.ask('workspace/symbol', query='start'), *(each[0]['message'] for each in editor.found.values()), sep='\n')

        lines = self.ended('the language server', work).out.decode().splitlines()
        self.assertEqual((lines[0], len(lines)), ('[]', 1 + len(self.PATHS)), lines)
        self.assertEqual([path in line and ("can't be read: " in line or path == 'deep') for path, line in zip(self.PATHS, lines[1:])], [True] * 4, lines)


def allowed(line: str, path: str) -> tuple[int, ...]:
    """With which statuses a tool may end that meets one of these: a submission among others fails, and other brackets may be a page's.
    Of the lines above it is the one for what can't be read, unless other words are refused before."""
    if line.startswith('tools/why fault'):
        return 0, 1, 2
    if line == 'tools/judge --class page {}':
        return 1, *([2] if path == 'deep' else [])
    if path == 'deep' or not line.startswith('tools/'):
        return 1, 2, 3
    is_sure = line in WORDS and not re.search(r'includes_|}\.|served.asm hello', line) and not line.startswith(REFUSED_BEFORE)
    return (3,) if is_sure else (2, 3)


def framed(messages: Iterator[dict[str, object]]) -> bytes:
    """Messages as editors send them."""
    bodies = (json.dumps({'jsonrpc': '2.0'} | message).encode() for message in messages)
    return b''.join(b'Content-Length: %d\r\n\r\n' % len(body) + body for body in bodies)


if __name__ == '__main__':
    unittest.main()
