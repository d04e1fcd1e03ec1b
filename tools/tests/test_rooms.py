"""Where tools write while they run: in rooms that nobody else can enter, and never by a name in a folder that others share."""
from __future__ import annotations

import fcntl
import os
import re
import shutil
import signal
import subprocess
import sys
import tempfile
from unittest import mock

from tests.support import SECONDS, TOOLS, TOP, ToolCase, example, is_there, rooms_in, until
from toolbox.rooms import MARK, NEW, room, sweep, text_of_mark

# Runs a tool, and tells each path that it opens, makes or lists as it goes, with the flags of what is opened.
WATCHED = """import os, runpy, sys
log = open(os.environ['WATCHED'], 'a')
def watch(event, given):
    if event in ('open', 'os.mkdir', 'os.listdir', 'os.scandir') and isinstance(given[0], str):
        print(event, given[2] if event == 'open' else 0, os.path.abspath(given[0]), file=log, flush=True)
sys.addaudithook(watch)
sys.argv = sys.argv[1:]
sys.path.insert(0, os.path.dirname(sys.argv[0]))
runpy.run_path(sys.argv[0], run_name='__main__')
"""


# Where that folder or a new file is named after all: a note in the user's own cache, paths that aren't told, and runs in rooms of tests.
NAMED = {'dev/faults: TMPDIR', 'dev/fuzz: TMPDIR', 'dev/parts/noting.py: mktemp', 'pcboard: mktemp', 'tools/toolbox/feedback.py: gettempdir'}


def programs() -> list[str]:
    """The programs and modules of tools, dev, bench and python, and the launcher."""
    found = ['pcboard', 'python/zebludor.py']
    for top in ('tools', 'dev', 'bench'):
        for folder, inner, names in os.walk(f'{TOP}/{top}'):
            inner[:] = [each for each in inner if each not in ('tests', 'corpus', 'books', 'loops', 'mixes', 'programs', 'page', '__pycache__')]
            found += [os.path.relpath(f'{folder}/{name}', TOP) for name in names if name.endswith('.py') or os.access(f'{folder}/{name}', os.X_OK)]
    return found


class Places(ToolCase):
    """Where a room stands."""

    def setUp(self) -> None:
        super().setUp()
        self.login, self.state, self.shared = (f'{self.room}/{name}' for name in ('login', 'state', 'shared'))
        os.mkdir(self.login, 0o700)
        os.mkdir(self.shared)
        os.chmod(self.shared, 0o1777)
        words = {'XDG_RUNTIME_DIR': self.login, 'XDG_STATE_HOME': self.state}
        for patch in (mock.patch.dict(os.environ, words), mock.patch.object(tempfile, 'tempdir', self.shared)):
            patch.start()
            self.addCleanup(patch.stop)

    def stands_in(self, folder: str) -> None:
        """That a room is made in this folder, which only the user can enter, and is the place of temporary files until its end."""
        with room('it') as made:
            self.assertEqual(os.path.dirname(made), folder)
            self.assertEqual({os.stat(each).st_mode & 0o777 for each in (made, *((folder,) if folder != self.shared else ()))}, {0o700})
            self.assertEqual(os.path.dirname(tempfile.mkdtemp()), made)
        self.assertFalse(os.path.exists(made))
        self.assertEqual(tempfile.gettempdir(), self.shared)

    def test_with_what_lasts_as_long_as_the_login(self) -> None:
        self.stands_in(f'{self.login}/zebludor')
        self.assertFalse(os.path.exists(self.state))

    def test_below_the_state_folder(self) -> None:
        """If there is no such folder, it isn't the user's alone, or what stands in it isn't."""
        wanted = f'{self.state}/zebludor/rooms'
        for login in ('', 'login', f'{self.room}/none', self.shared):
            with mock.patch.dict(os.environ, {'XDG_RUNTIME_DIR': login}):
                self.stands_in(wanted)
        for mode in (0o755, 0o770, 0o701):
            os.chmod(self.login, mode)
            self.stands_in(wanted)
        os.chmod(self.login, 0o700)
        os.symlink(self.login, f'{self.room}/link')
        with mock.patch.dict(os.environ, {'XDG_RUNTIME_DIR': f'{self.room}/link'}):
            self.stands_in(wanted)
        os.mkdir(f'{self.login}/zebludor', 0o755)
        self.stands_in(wanted)
        os.rmdir(f'{self.login}/zebludor')
        os.mkfifo(f'{self.login}/zebludor')
        self.stands_in(wanted)

    def test_as_a_new_folder_elsewhere(self) -> None:
        """If there is no place of the user's alone: its folders can be replaced by others, or it can't be made."""
        os.chmod(self.login, 0o755)
        os.mkdir(self.state)
        for mode in (0o777, 0o775):
            os.chmod(self.state, mode)
            self.stands_in(self.shared)
        shutil.rmtree(self.state)
        self.file('state', '')
        self.stands_in(self.shared)

    def test_a_link_on_the_way_is_followed_once(self) -> None:
        os.chmod(self.login, 0o755)
        os.mkdir(f'{self.room}/disk')
        os.symlink(f'{self.room}/disk', self.state)
        self.stands_in(f'{self.room}/disk/zebludor/rooms')


class Swept(ToolCase):
    """Which rooms go."""

    def left(self, name: str, text: bytes | None = None) -> str:
        """What a tool has left that was killed, with the mark that it has written, or another."""
        path = f'{self.room}/{name}'
        os.mkdir(path, 0o700)
        with open(f'{path}/{MARK}', 'wb') as mark:
            mark.write(text_of_mark(path) if text is None else text)
        self.file(f'{name}/essay.asm', 'my work\n')
        return path

    def test_one_that_was_left(self) -> None:
        path = self.left('desk-abcdefgh')
        sweep(self.room)
        self.assertFalse(os.path.exists(path))

    def test_one_that_was_hardly_begun(self) -> None:
        """By a tool that was killed before it had a mark. What isn't named as a room, or holds anything else, stays."""
        for name, inside in (('desk-abcdefgh', None), ('dap-abcdefg_', NEW), ('homework', None), ('gdb-abcdefgh', 'essay.asm')):
            os.mkdir(f'{self.room}/{name}', 0o700)
            if inside:
                self.file(f'{name}/{inside}', '')
        sweep(self.room)
        self.assertEqual(sorted(os.listdir(self.room)), ['gdb-abcdefgh', 'homework'])

    def test_one_that_is_held(self) -> None:
        path = self.left('desk-abcdefgh')
        with open(f'{path}/{MARK}', 'rb') as mark:
            fcntl.flock(mark, fcntl.LOCK_EX)
            sweep(self.room)
        self.assertTrue(os.path.exists(f'{path}/essay.asm'))

    def test_what_is_none(self) -> None:
        """By its mark, its mode, or its kind. Nothing that is opened is waited for, and no link is followed."""
        theirs = self.left('desk-abcdefgh')
        for name, text in (
            ('desktop-homework', b''),
            ('desk-a', b'desk'),
            ('desk-copy', text_of_mark(theirs)),
            ('desk-long', text_of_mark(f'{self.room}/desk-long') + b'x'),
        ):
            self.left(name, text)
        os.chmod(self.left('desk-open'), 0o755)
        for name, make in (('desk-fifo', os.mkfifo), ('desk-folder', os.mkdir), ('desk-link', lambda path: os.symlink(f'{self.room}/true', path))):
            path = self.left(name)
            os.rename(f'{path}/{MARK}', f'{self.room}/true')
            make(f'{path}/{MARK}')
        os.symlink(theirs, f'{self.room}/desk-other')
        self.file('desk-file', '')
        os.mkfifo(f'{self.room}/desk-pipe')
        before = set(os.listdir(self.room))
        with open(f'{theirs}/{MARK}', 'rb') as mark:
            fcntl.flock(mark, fcntl.LOCK_EX)
            sweep(self.room)
        self.assertEqual(set(os.listdir(self.room)), before)
        self.assertEqual({os.path.exists(f'{self.room}/{name}/essay.asm') for name in before if os.path.isdir(f'{self.room}/{name}')}, {True})

    def test_the_next_tool_sweeps(self) -> None:
        """Whichever of them it is. One that is killed leaves its room, of mode 700."""
        environment = os.environ | {'XDG_RUNTIME_DIR': self.room}
        words = {'dap': ['dap'], 'gdb': ['gdb', '--serve', *example('hello')], 'desk': ['desk', '--no-open'], 'dbg': ['dbg', *example('hello')]}
        for name, more in words.items():
            process = subprocess.Popen(
                [sys.executable, '-S', f'{TOOLS}/{more[0]}', *more[1:]],
                stdin=subprocess.PIPE,
                stdout=subprocess.DEVNULL,
                stderr=subprocess.DEVNULL,
                env=environment,
            )
            self.assertTrue(until(lambda: any(each.startswith(name) and os.path.exists(f'{self.room}/zebludor/{each}/{MARK}') for each in rooms_in(self.room))))
            process.send_signal(signal.SIGKILL)
            process.communicate(timeout=SECONDS)
            self.assertEqual([each.partition('-')[0] for each in rooms_in(self.room)], [name])
            self.assertEqual(os.stat(f'{self.room}/zebludor/{rooms_in(self.room)[0]}').st_mode & 0o777, 0o700)
        subprocess.run([sys.executable, '-S', f'{TOOLS}/dap'], stdin=subprocess.DEVNULL, stdout=subprocess.DEVNULL, check=True, env=environment)
        self.assertEqual(rooms_in(self.room), [])


class Shared(ToolCase):
    """The folder for temporary files, which users share: no tool lists it, or opens there what it hasn't made itself."""

    def watched(self, *words: str, environment: dict[str, str]) -> list[list[str]]:
        """What a tool opens, makes and lists, in a folder that is shared."""
        log = f'{self.room}/log'
        ran = subprocess.run(
            [sys.executable, '-S', '-c', WATCHED, f'{TOOLS}/{words[0]}', *words[1:]],
            stdin=subprocess.DEVNULL,
            capture_output=True,
            text=True,
            env=os.environ | environment | {'WATCHED': log},
            cwd=self.room,
            check=False,
            timeout=SECONDS,
        )
        self.assertNotIn('Traceback', ran.stderr)
        with open(log, encoding='utf-8') as file:
            found = [line.rstrip('\n').split(' ', 2) for line in file]
        os.remove(log)
        return found

    def test_no_program_names_it(self) -> None:
        """What makes a new folder or file there, whose name nobody else can know, has no folder or name of its own to say."""
        named, found = re.compile(r'(?<!})/tmp\b|/var/tmp|/dev/shm|TMPDIR|gettempdir|\bmktemp\b|mkstemp|delete=False'), set[str]()
        for path in programs():
            with open(f'{TOP}/{path}', encoding='utf-8') as file:
                found |= {f'{path}: {word}' for word in named.findall(file.read())}
        self.assertEqual(found, NAMED)

    def test_nothing_is_opened_by_name(self) -> None:
        shared = f'{self.room}/shared'
        os.mkdir(shared)
        os.chmod(shared, 0o1777)
        hello, run = example('hello')
        plain = self.file('plain.asm', '; e\nSEGMENT MAIN AT 0F000h\nstart: HLT\nENDS\nSEGMENT RESET AT 0FFFFh\n JMP FAR start\nENDS\n')
        page = self.file('page', 'state = halted\n')
        lines = [
            ('dap',),
            ('try', plain),
            ('why', 'run', plain),
            ('trace', hello, run),
            ('judge', page, plain),
            ('judge', '--class', page, hello, plain),
        ]
        lines += [('gdb', hello, run, '-batch')] if is_there('gdb', 'gdb in a shared folder', 'gdb') else []
        seen = 0
        for words in lines:
            opened = self.watched(*words, environment={'TMPDIR': shared, 'XDG_RUNTIME_DIR': '', 'XDG_STATE_HOME': '/proc/none'})
            there = [row for row in opened if os.path.dirname(row[2]).startswith(shared) or row[2] == shared]
            made = [path for event, _, path in there if event == 'os.mkdir']
            for event, flags, path in there:
                # A folder itself is opened for writing only for a file without a name.
                is_new = event == 'os.mkdir' or event == 'open' and int(flags) & (os.O_EXCL if path != shared else os.O_WRONLY | os.O_RDWR)
                self.assertTrue(is_new or any(path == each or path.startswith(f'{each}/') for each in made), (words, event, path))
            self.assertEqual(os.listdir(shared), [], words)
            seen += len(there)
        self.assertGreater(seen, 20)
