"""Programs for other targets, by what runs them here: qemu for aarch64, wine for Windows, and for WebAssembly node, in which those of
web/ answer by the library. They answer what cases state, and as the programs of x86-64 Linux do. What dev/build hasn't made of the
present sources isn't run."""
from __future__ import annotations

import functools
import os
import random
import shutil
import subprocess
import tempfile
import unittest
from pathlib import Path
from typing import Iterator
from unittest import mock

from parts import building, targets
from parts.cases import cases_of
from tests.answering import Answerer
from tests.cases import answer, cases
from tests.stored_cases import amiss_in_a_line, amiss_in_a_run, asked_in, is_a_run, is_of_the_assembler
from tests.support import EXAMPLES, TOP, ToolCase, is_there, not_run

from toolbox import proved
from toolbox.crates import Crates
from toolbox.program import path
from toolbox.sources import stamp, sum_of, sum_of_sources

# How a program of each target is started, and what Debian package brings that; a process of node takes long.
RUNNERS = {'musl': ('', ''), 'aarch64': ('qemu-aarch64', 'qemu-user'), 'windows': ('wine', 'wine'), 'wasm': ('node', 'nodejs')}
ENDINGS = {'windows': '.exe'}
EACH = {'musl': 50, 'aarch64': 100, 'windows': 100, 'wasm': 100}  # of how many cases one is run
# What sessions are asked: each kind of command and of inquiry, and lines that are refused.
LINES = (
    'go 1000',
    'break F000:0010',
    'step',
    'regs',
    'chips',
    'go 5000',
    'back 300',
    'trail',
    'screen',
    'dump B0000 64',
    'key 1E',
    'go 9000',
    'counts',
    'events 500 starts ports writes',
    'back step',
    'back stop',
    'nonsense',
    ' quit',
    'screen',
)
# What random sessions are asked besides, with a number in the place of N.
ASKED = ('go N', 'back N', 'break F000:N', 'events N reads ins', 'dump F0000 N', 'key 1E', 'signals N', 'clear', 'undo', 'set AX N', 'when N writes')
NAMES = sorted(name.removesuffix('.json') for name in os.listdir(EXAMPLES) if name.endswith('.json'))


def setUpModule() -> None:
    """Wine gets a folder and a server for these tests: else each program would begin one, which takes seconds and holds the streams of who
    began it until it ends."""
    if not shutil.which('wine'):
        return
    folder = tempfile.TemporaryDirectory(ignore_cleanup_errors=True)
    unittest.addModuleCleanup(folder.cleanup)
    changed = mock.patch.dict(os.environ, {'WINEPREFIX': folder.name, 'WINEDEBUG': '-all'})
    changed.start()
    unittest.addModuleCleanup(changed.stop)
    for words in (['wineserver', '-p600'], ['wine', 'wineboot', '-i']):
        if subprocess.run(words, stdin=subprocess.DEVNULL, stdout=subprocess.DEVNULL, stderr=subprocess.DEVNULL, check=False).returncode:
            RUNNERS['windows'] = 'wine, which wants a /tmp that this user may write to', 'wine'
            return
    unittest.addModuleCleanup(subprocess.run, ['wineserver', '-k'], check=False)


@functools.cache
def made(target: str, name: str) -> str | None:
    """A program for a target, where dev/build has put it, or for WebAssembly the library, which may be the stored one; None if it isn't
    there, or is of other sources than the present ones."""
    return proved.library_file('zebludor.wasm') if target == 'wasm' else built(target, name, f'{name}{ENDINGS.get(target, "")}')


def built(target: str, crate: str, file: str) -> str | None:
    """What dev/build made of a crate for a target, if it is of the present sources."""
    path = f'{TOP}/crates/{crate}/out/{target}/{file}'
    known = proved.read(os.path.dirname(path))
    of = known and known.of(path)
    return path if of and of.sources == sum_of_sources(Crates().below(crate)) else None


def octets_in(name: str) -> bytes:
    """The bytes of an example's file."""
    return Path(EXAMPLES, name).read_bytes()


def archive(target: str) -> str | None:
    """The library for a target, as `made` tells of programs; that for x86-64 Linux with glibc is the shared one."""
    return proved.library_file('libzebludor.so') if target == 'shared' else built(target, proved.LIBRARY, f'lib{proved.LIBRARY}.a')


# A library and a program in C, whose modules stand for those that Rattle hands its compiler: the first takes memory and gives it back,
# the second asks the system for its words and a file. PRINTED is what the program prints for the word `given`, or the library for 1.
SMALL = {
    'library': """typedef struct { unsigned char is_there; void *block; } tried;
tried rattle_alloc(unsigned long size, unsigned long alignment);
void rattle_dealloc(void *block);
int zebludor_small(int n) {
    tried got = rattle_alloc(64, 8);
    if (!got.is_there) return -1;
    ((volatile char *)got.block)[63] = 41;
    n += ((volatile char *)got.block)[63];
    rattle_dealloc(got.block);
    return n;
}
""",
    'program': """typedef __INTPTR_TYPE__ word;
word rattle_arg(unsigned long n, char *into, unsigned long room);
int open(const char *path, int flags, ...);
word read(int file, void *into, unsigned long room);
word write(int file, const void *text, unsigned long length);
int main(void) {
    char path[200] = "", text[20];
    if (rattle_arg(1, path, 199) < 0) return 2;
    int file = open(path, 0);
    word length = file < 0 ? -1 : read(file, text, 20);
    return length < 0 ? 3 : (int)(write(1, text, length) - length);
}
""",
}
CALLER = '#include <stdio.h>\nint zebludor_small(int);\nint main(void) { printf("%d", zebludor_small(1)); return 0; }\n'
PRINTED = '42'
OF_MACOS = b'\xcf\xfa\xed\xfe'  # how a file begins there


class Small(ToolCase):
    """A small library and a small program for each target whose tools are here, run by what runs them here."""

    def setUp(self) -> None:
        super().setUp()
        os.chmod(self.room, 0o755)
        self.given = self.file('given', PRINTED)

    def done(self, *words: str) -> str:
        ran = subprocess.run(words, cwd=self.room, capture_output=True, text=True, check=False)
        self.assertEqual(ran.returncode, 0, (words, ran.stderr))
        return ran.stdout

    def linked(self, kind: str, target: str, file: str, folder: str = '') -> str:
        """A file for a target, made of a module that the kit's clang makes of the text in C."""
        folder = folder or f'{kind}-{target}'
        room = f'{self.room}/{folder}'
        os.makedirs(room, exist_ok=True)
        source, words = self.file(f'{kind}.c', SMALL[kind]), ['--target=x86_64-unknown-linux-gnu', '-O1', '-fPIC']
        self.done(targets.CLANG, *words, '-emit-llvm', '-c', source, '-o', f'{room}/module.bc')
        self.done(targets.CLANG, *words, '-c', source, '-o', f'{room}/own')
        self.file(f'{folder}/words', '-O2\n-c\n')
        made = targets.linked(room, kind == 'program', target, file, self.done)
        first = sum_of(made)
        self.assertEqual(sum_of(targets.linked(room, kind == 'program', target, file, self.done)), first, 'made again')
        return made

    def test_each_target(self) -> None:
        if not (shutil.which('rt') and is_there('gcc', 'small programs for other targets', 'gcc libc6-dev')):
            not_run("small programs for other targets; Rattle's clang compiles them")
            return
        for target, of in targets.TARGETS.items():
            tools = [is_there(tool, f'a small program for {target}', package) for tool, package in of.tools.items()]
            if all(tools) and target not in ('wasm', 'shared'):
                self.is_run(target, self.linked('program', target, f'small{of.ending}'), f'{self.room}/given')
                self.is_loaded(target, self.linked('library', target, of.shared.format('small'))) if of.shared else None

    def test_static_libraries(self) -> None:
        """Made one after another in one folder, as dev/build makes them, each has an object of its own target alone."""
        if not (shutil.which('rt') and is_there('gcc', 'small libraries for other targets', 'gcc libc6-dev')):
            not_run("small libraries for other targets; Rattle's clang compiles them")
            return
        for target in ('musl', 'aarch64', 'windows'):
            compiler, package = next(iter(targets.TARGETS[target].tools.items()))
            if is_there(compiler, f'a small library for {target}', package):
                library, to = self.linked('library', target, 'libsmall.a', 'one'), f'{self.room}/caller{ENDINGS.get(target, "")}'
                self.done(compiler, '-static', '-o', to, self.file('caller.c', CALLER), library, f'{TOP}/c/memory.c')
                self.is_run(target, to)

    def is_run(self, target: str, program: str, *words: str) -> None:
        """A program prints what it has to, if it can be run here."""
        if targets.is_macos(target):
            self.assertEqual(Path(program).read_bytes()[:4], OF_MACOS)
            return
        runner, package = RUNNERS[target]
        if not runner or is_there(runner, f'a small program for {target}', package):
            sysroot = ['-L', '/usr/aarch64-linux-gnu'] if target == 'aarch64' else []
            self.assertEqual(self.done(*([runner, *sysroot] if runner else []), program, *words), PRINTED, target)

    def is_loaded(self, target: str, library: str) -> None:
        """A shared library answers a program that is linked with it."""
        if targets.is_macos(target):
            self.assertEqual(Path(library).read_bytes()[:4], OF_MACOS)
            self.assertIn(b'_zebludor_small\0', Path(library).read_bytes())
            return
        compiler, to = next(iter(targets.TARGETS[target].tools)), f'{os.path.dirname(library)}/caller{ENDINGS.get(target, "")}'
        self.done(compiler, '-o', to, self.file('caller.c', CALLER), library, f'-Wl,-rpath,{os.path.dirname(library)}')
        self.is_run(target, to)


class InOneProcess(ToolCase):
    """The library of each target, in one process for all that it is asked."""

    def answerer(self, target: str) -> Answerer | None:
        """Such a process, if it can be made and run here."""
        file = made(target, '') if target == 'wasm' else archive(target)
        if not file:
            if target in proved.LIBRARY_FILES.values():  # of the others the programs' tests tell that they aren't there
                not_run(f'the library for {target}; dev/build {proved.LIBRARY} --target {target} makes it')
            return None
        runner, package = RUNNERS.get(target, ('', ''))
        if runner and not is_there(runner, f'the library for {target}', package):
            return None
        if target == 'wasm':
            return Answerer([runner, f'{TOP}/tools/tests/answers.mjs', file])
        compiler, package = next(iter(targets.TARGETS[target].tools.items()), ('gcc', 'gcc libc6-dev'))
        if not is_there(compiler, f'the library for {target}', package):
            return None
        to, found = f'{self.room}/answers{ENDINGS.get(target, "")}', f'-Wl,-rpath,{os.path.dirname(file)}'
        linked = [found] if target == 'shared' else ['-static', f'{TOP}/c/memory.c']
        subprocess.run([compiler, '-O2', f'-I{TOP}/c', '-o', to, f'{TOP}/c/benches/answers.c', *linked, file], check=True)
        return Answerer([*([runner] if runner else []), to])

    def answerers(self) -> Iterator[tuple[str, Answerer]]:
        for target in ('shared', *RUNNERS):
            one = self.answerer(target)
            if one:
                yield target, one
                self.assertEqual(one.close(), 0, target)

    def test_all_cases(self) -> None:
        """Whole runs, whose words can be handed over as lines, and lines of source."""
        runs = [each for each in cases_of('program_cases') if is_a_run(each)]
        asked = [each for each in runs if not any(b'\n' in word or word.endswith(b'\r') for word in asked_in(each)[0])]
        lines = [each for each in cases_of('source_cases') if is_of_the_assembler(each)]
        self.assertGreater(len(asked), len(runs) * 0.99)
        for target, one in self.answerers():
            for case in asked:
                self.assertIsNone(amiss_in_a_run(case, one.run), f'{target}: {case[:200]}')
            for case in lines:
                self.assertIsNone(amiss_in_a_line(case, one.run), f'{target}: {case[:200]}')

    def test_random_sessions(self) -> None:
        """Sessions of the probe and of the debugger about the examples reply as the programs of x86-64 Linux do."""
        chance = random.Random(104)
        sessions = list[tuple[int, str, tuple[bytes, bytes, bytes, bytes], bytes]]()
        for number in range(500):
            program = chance.choice(('pcprobe', 'pcboard'))
            asked = [chance.choice(LINES[:-2] + ASKED).replace('N', f'{int(10 ** chance.uniform(0, 4.3)):04}') for _ in range(12)]
            name, given = chance.choice(NAMES), '\n'.join(asked).encode()
            words = ['debug'] * (program == 'pcboard') + [f'{name}.asm', f'{name}.json']
            ran = subprocess.run([path(program), *words], input=given, capture_output=True, cwd=EXAMPLES, check=False)
            texts = octets_in(f'{name}.asm'), octets_in(f'{name}.json'), given, b''
            sessions.append((number, 'session' if program == 'pcprobe' else 'debug', texts, ran.stdout))
        for target, one in self.answerers():
            for number, kind, texts, printed in sessions:
                self.assertEqual(one.ask(kind, *texts)[1], printed, f'{target}: {number}')

    def test_little_memory(self) -> None:
        """A call that may hold little ends as for want of memory, and then answers as before once it may hold more."""
        files = {b'FILE': octets_in('keys.asm'), b'RUN': octets_in('keys.json')}
        for target, one in self.answerers():
            whole, ends = one.run([b'run', *files], files, b''), set[str]()
            for step in range(40):
                one.ask('limit', str(int(100 * 1.4**step)).encode(), b'', b'', b'')
                status, out, err = one.run([b'run', *files], files, b'')
                is_told = status == 1 and not out and err.endswith(b' Memory\n')
                ends.add('whole' if (status, out, err) == whole else 'told' if is_told else 'lost' if status == 3 else 'wrong')
                one.ask('limit', b'0', b'', b'', b'')
                self.assertEqual(one.run([b'run', *files], files, b''), whole, target)
            self.assertLessEqual({'whole', 'told'}, ends, target)
            self.assertNotIn('wrong', ends, target)


class Targets(ToolCase):
    """A program for each target in the place of that which the tools start."""

    def starter(self, target: str, name: str) -> str | None:
        """A script that starts the program of this name for a target, if that can be run here."""
        file, (runner, package) = made(target, name), RUNNERS[target]
        if not file:
            not_run(f'programs for {target}; dev/build {proved.LIBRARY if target == "wasm" else name} --target {target} makes one')
            return None
        if runner and not is_there(runner, f'programs for {target}', package):
            return None
        what = f'{TOP}/web/{name}.mjs' if target == 'wasm' else file
        script = self.file(f'{target}-{name}', f'#!/bin/sh\nexec {runner} {what} "$@"\n')
        os.chmod(script, 0o755)
        return script

    def ask(self, program: str, *words: str, given: bytes = b'') -> tuple[int, bytes, bytes]:
        ran = subprocess.run([program, *words], input=given, capture_output=True, cwd=EXAMPLES, check=False)
        return ran.returncode, ran.stdout, ran.stderr

    def test_whole_runs_are_as_stated(self) -> None:
        runs = [each for each in cases_of('program_cases') if is_a_run(each)]
        for target, each in EACH.items():
            program = self.starter(target, 'pcboard')
            with mock.patch.dict(os.environ, {'PCBOARD': program or ''}):
                for case in runs[::each] if program else []:
                    self.assertIsNone(amiss_in_a_run(case), f'{target}: {case[:200]}')

    def test_the_probe_answers_as_stated(self) -> None:
        for target, each in EACH.items():
            program = self.starter(target, 'pcprobe')
            for case in cases('probe_events.cases')[:: each // 5] if program else []:
                wanted = case.status, case.texts.get('stdout', b''), case.texts.get('stderr', b'')
                self.assertEqual(answer(case, program or '', self.room), wanted, f'{target}: {case.name}')

    def test_examples(self) -> None:
        """Their reports and listings, and a session, are those of the program of x86-64 Linux."""
        for target in RUNNERS:
            program = self.starter(target, 'pcboard')
            for name in NAMES[:: 1 if EACH[target] <= 100 else 6] if program else []:
                for words in (('run', f'{name}.asm', f'{name}.json'), ('asm', '--list', f'{name}.asm')):
                    self.assertEqual(self.ask(program or '', *words), self.ask(path(), *words), f'{target}: {words}')
            if program:
                words, given = ('debug', 'keys.asm', 'keys.json'), b'go 3000\nregs\nback step\nno\nscreen\nquit\n'
                self.assertEqual(self.ask(program, *words, given=given), self.ask(path(), *words, given=given), target)

    def test_sessions(self) -> None:
        """Each line is answered as on x86-64 Linux, by the probe and by the debugger, whose words lack those of the probe; what stands
        after `quit` isn't."""
        for target in RUNNERS:
            for program, words in (('pcprobe', ()), ('pcboard', ('debug',))):
                starter = self.starter(target, program)
                for name in ('clock', 'keys', 'ticks', 'nested', 'melody', 'scroll') if starter else ():
                    given, files = '\n'.join(LINES).encode(), (*words, f'{name}.asm', f'{name}.json')
                    self.assertEqual(self.ask(starter or '', *files, given=given), self.ask(path(program), *files, given=given), f'{target}: {files}')

    def test_what_is_refused(self) -> None:
        """Files that aren't there or are refused, and words that name no task, in the same words and with the same status."""
        wrong = self.file('wrong.asm', 'SEGMENT M AT 0\n MOV\nENDS\n')
        cases = ('run', 'nofile', 'keys.json'), ('run', wrong, 'keys.json'), ('run', 'keys.asm'), ('asm', wrong), ('asm', 'keys.asm', 'no'), ('no',)
        for target in RUNNERS:
            program = self.starter(target, 'pcboard')
            for words in (*cases, ('run', 'keys.asm', '.'), ('debug', wrong, 'keys.json'), ('asm', '--', wrong)) if program else ():
                self.assertEqual(self.ask(program or '', *words), self.ask(path(), *words), f'{target}: {words}')

    def test_the_librarys_files_have_the_same_bytes_anywhere(self) -> None:
        """What dev/build keeps of the library, made into its files once more, in another folder."""
        crates, others = Crates(), f'{self.room}/others'
        kept = f'{building.STAGE}/modules/{proved.LIBRARY}'
        if not (shutil.which('rt') and os.path.isfile(f'{kept}/{stamp(crates, proved.LIBRARY, {})}')):
            not_run(f'the bytes of zebludor.wasm; dev/build {proved.LIBRARY} --target wasm keeps what they are made of')
            return
        os.mkdir(others)
        for name in ('module.bc', 'words', 'own'):
            shutil.copy(f'{kept}/{name}', others)
        for file, target in proved.LIBRARY_FILES.items():
            path = f'{TOP}/crates/{proved.LIBRARY}/out/{target}/{file}'
            if os.path.exists(path):
                again = targets.linked(others, False, target, file, lambda *words: subprocess.run(words, cwd=others, check=True, capture_output=True))
                self.assertEqual(sum_of(again), sum_of(path), file)

    def test_a_source_of_masm(self) -> None:
        source = self.file('a b.asm', 'MOV AL, 5\nSTART: MOV AH, 2 ; a comment\nINT 21h\nno such line\n')
        texts = '.code\n', 'a:\n\nmain proc\nmain endp', '; no\nb:\n%define x', 'SEGMENT a AT 5\n.code\n', 'NOP\n', 'NOP', '', '\n.model small\n%\n'
        asked = [('--origin', self.file(f'{n}.asm', text)) for n, text in enumerate(texts)]
        for target in RUNNERS:
            program = self.starter(target, 'pcmasm')
            for words in (('--map', source), (source,), (f'{source} not',), (), ('--origin',), (source, '--origin'), *asked) if program else ():
                self.assertEqual(self.ask(program or '', *words), self.ask(path('pcmasm'), *words), f'{target}: {words}')


if __name__ == '__main__':
    unittest.main()
