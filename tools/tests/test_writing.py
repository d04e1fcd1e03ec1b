"""Files are written whole, or left as they were."""
from __future__ import annotations

import contextlib
import errno
import fcntl
import os
import stat
import struct
import subprocess
import unittest
from typing import Any, Callable, Iterator
from unittest import mock

from tests.support import ToolCase, example, not_run

from toolbox import writing
from toolbox.command import Sorry, write_text
from toolbox.writing import write_whole

# The access list of a file of mode 644 that user 65534 may read, in the kernel's form.
ACCESS = struct.pack('<I', 2) + b''.join(
    struct.pack('<HHI', *entry) for entry in ((1, 6, 0xFFFFFFFF), (2, 4, 65534), (4, 4, 0xFFFFFFFF), (0x10, 4, 0xFFFFFFFF), (0x20, 4, 0xFFFFFFFF))
)


@contextlib.contextmanager
def full_disk(room: str, size: int) -> Iterator[tuple[str, Callable[[], None]]]:
    """A folder on a disk of so many bytes, and what fills all that is free; where none can be mounted, a folder, and a stand-in that
    makes each write fail."""
    folder = os.path.join(room, 'disk')
    os.mkdir(folder)
    mounted = subprocess.run(['mount', '-t', 'tmpfs', '-o', f'size={size}', 'none', folder], capture_output=True, check=False).returncode == 0
    if not mounted:
        not_run('writing to a disk that is really full; no tmpfs can be mounted')
    with contextlib.ExitStack() as stack:

        def fill() -> None:
            if not mounted:
                error = OSError(errno.ENOSPC, os.strerror(errno.ENOSPC))
                stack.enter_context(mock.patch.object(writing.os, 'fsync', side_effect=error))
                return
            with contextlib.suppress(OSError), open(f'{folder}/other', 'wb', buffering=0) as file:
                while True:
                    file.write(b'x' * 4096)

        try:
            yield folder, fill
        finally:
            if mounted:
                subprocess.run(['umount', folder], check=True)


def as_nobody(work: Callable[[], None]) -> str:
    """What a user without rights is told, in a process of its own: the sentence of what is refused, or nothing."""
    read, written = os.pipe()
    child = os.fork()
    if child == 0:
        sentence = ''
        try:
            if os.geteuid() == 0:
                os.setgroups([])
                os.setgid(65534)
                os.setuid(65534)
            work()
        except Sorry as sorry:
            sentence = str(sorry)
        finally:
            os.write(written, sentence.encode())
            os._exit(0)
    os.close(written)
    with open(read, 'rb') as answer:
        found = answer.read().decode()
    os.waitpid(child, 0)
    return found


def raised(error: Exception) -> None:
    """Raises it."""
    raise error


def ended_within(work: Callable[[], None], name: str, stand_in: Callable[..., None]) -> int:
    """The status with which a process of its own ends that does something, with another function in a place of the module."""
    child = os.fork()
    if child == 0:
        try:
            with mock.patch(f'toolbox.writing.{name}', stand_in):
                work()
        finally:
            os._exit(1)
    return os.waitstatus_to_exitcode(os.waitpid(child, 0)[1])


class Whole(ToolCase):
    """What is left of the old file, and of its name."""

    def content(self, path: str) -> bytes:
        """A file's bytes."""
        with open(path, 'rb') as file:
            return file.read()

    def test_mode_and_link_stay(self) -> None:
        path, link = self.file('it.asm', 'old'), f'{self.room}/link.asm'
        os.chmod(path, 0o640)
        os.symlink('it.asm', link)
        write_text(link, 'new')
        self.assertEqual((self.content(path), os.readlink(link)), (b'new', 'it.asm'))
        self.assertEqual(stat.S_IMODE(os.stat(path).st_mode), 0o640)
        self.assertEqual(sorted(os.listdir(self.room)), ['it.asm', 'link.asm'])

    def test_a_new_file_and_a_link_to_none(self) -> None:
        os.symlink('there.asm', f'{self.room}/link.asm')
        umask = os.umask(0o027)
        try:
            write_text(f'{self.room}/link.asm', 'new')
        finally:
            os.umask(umask)
        self.assertEqual(self.content(f'{self.room}/there.asm'), b'new')
        self.assertEqual(stat.S_IMODE(os.stat(f'{self.room}/there.asm').st_mode), 0o640)
        self.assertTrue(os.path.islink(f'{self.room}/link.asm'))

    def test_streams_are_written_as_they_are(self) -> None:
        """A FIFO that nobody reads is told at once."""
        path = f'{self.room}/fifo'
        os.mkfifo(path)
        with self.assertRaisesRegex(Sorry, "fifo can't be written: nobody reads it"):
            write_text(path, 'into the void')
        reader = os.open(path, os.O_RDONLY | os.O_NONBLOCK)
        write_text(path, 'through')
        self.assertEqual(os.read(reader, 100), b'through')
        os.close(reader)
        self.assertTrue(stat.S_ISFIFO(os.stat(path).st_mode))
        write_text('/dev/null', 'gone')
        self.assertTrue(stat.S_ISCHR(os.stat('/dev/null').st_mode))

    def test_a_disk_that_fills(self) -> None:
        """The old bytes stay, although another writer takes all that becomes free, and nothing lies beside them."""
        with full_disk(self.room, 64 << 10) as (folder, fill):
            path, old = f'{folder}/it.asm', b'; old\n' * 3744
            write_whole(path, old)
            fill()
            before = set(os.listdir(folder))
            with self.assertRaisesRegex(Sorry, "it.asm can't be written: No space left on device"):
                write_text(path, '; new\n' * 5000)
            fill()
            self.assertEqual(self.content(path), old)
            self.assertEqual(set(os.listdir(folder)), before)

    def test_what_may_not_be_written(self) -> None:
        """A file that is read-only, one in a folder without rights, and a folder: each is told, and left as it is."""
        path = self.file('it.asm', 'old')
        os.chmod(path, 0o444)
        with self.assertRaisesRegex(Sorry, 'it is read-only'):
            write_text(path, 'new')
        folder = f'{self.room}/folder'
        os.mkdir(folder)
        with self.assertRaisesRegex(Sorry, 'Is a directory'):
            write_text(folder, 'new')
        with open(f'{folder}/it.asm', 'w', encoding='ascii') as file:
            file.write('old')
        os.chmod(f'{folder}/it.asm', 0o666)
        os.chmod(folder, 0o555)
        os.chmod(self.room, 0o755)
        self.assertIn("its folder can't be written", as_nobody(lambda: write_text(f'{folder}/it.asm', 'new')))
        self.assertEqual([self.content(name) for name in (path, f'{folder}/it.asm')], [b'old', b'old'])
        self.assertEqual(os.listdir(folder), ['it.asm'])
        os.chmod(folder, 0o755)

    def test_an_interrupt_leaves_nothing(self) -> None:
        path = self.file('it.asm', 'old')
        with mock.patch.object(writing.os, 'fsync', side_effect=KeyboardInterrupt), self.assertRaises(KeyboardInterrupt):
            write_whole(path, b'new')
        self.assertEqual((self.content(path), os.listdir(self.room)), (b'old', ['it.asm']))

    def test_other_names_and_attributes_stay(self) -> None:
        """A hard link has the new text too, also where the old one was longer; attributes and the access list are those of before."""
        path, other = self.file('it.asm', 'old' * 1000), f'{self.room}/other.asm'
        os.link(path, other)
        with mock.patch.dict(os.environ, XDG_STATE_HOME=f'{self.room}/state'):
            for octets in (b'new', b'newer' * 1000):
                write_whole(path, octets)
                self.assertEqual((self.content(other), os.path.samefile(path, other)), (octets, True))
            self.assertEqual(os.listdir(f'{self.room}/state/zebludor/unfinished'), [])
        os.remove(other)
        self.assertEqual(sorted(os.listdir(self.room)), ['it.asm', 'state'])
        attributes = {'user.mine': b'1', 'system.posix_acl_access': ACCESS}
        try:
            for name, octets in attributes.items():
                os.setxattr(path, name, octets)
        except OSError as error:
            not_run(f'attributes of a file that is written; {error.strerror}')
            return
        mode = os.stat(path).st_mode
        write_whole(path, b'last')
        self.assertEqual((self.content(path), os.stat(path).st_mode), (b'last', mode))
        self.assertEqual({name: os.getxattr(path, name) for name in os.listxattr(path)}, attributes)

    def test_a_file_that_is_mounted_by_itself(self) -> None:
        """As into a container: nothing can be renamed over it."""
        path, outside = self.file('it.asm', 'old'), self.file('outside.asm', 'old')
        if subprocess.run(['mount', '--bind', outside, path], capture_output=True, check=False).returncode:
            not_run('writing to a file that is mounted by itself; nothing can be mounted')
            return
        self.addCleanup(subprocess.run, ['umount', path], check=True)
        with mock.patch.dict(os.environ, XDG_STATE_HOME=f'{self.room}/state'):
            write_whole(path, b'new')
        self.assertEqual(self.content(outside), b'new')
        self.assertEqual(sorted(os.listdir(self.room)), ['it.asm', 'outside.asm', 'state'])

    def test_a_long_file_is_not_written_in_place(self) -> None:
        """A copy of all its bytes would be kept."""
        path = self.file('it.asm', 'old')
        os.link(path, f'{self.room}/other.asm')
        os.truncate(path, 1 << 31)
        with self.assertRaisesRegex(Sorry, "it.asm can't be written: it has to be written in place, and has more than 67,108,864 bytes"):
            write_text(path, 'new')
        self.assertEqual(os.path.getsize(path), 1 << 31)

    def test_in_place_is_finished_or_undone(self) -> None:
        """A writer that is killed within it: the next one to look finishes it, but writes over nothing that came since. One that fails
        brings the old text back."""
        path, old, new = self.file('it.asm', 'old' * 1000), b'old' * 1000, b'newer' * 1000
        os.link(path, f'{self.room}/other.asm')

        def half(target: str, octets: bytes) -> None:
            writing.write_all(os.open(target, os.O_WRONLY), octets[: len(octets) // 3])
            os._exit(9)

        with mock.patch.dict(os.environ, XDG_STATE_HOME=f'{self.room}/state'):
            for since, found in ((None, new), (b'by another hand', b'by another hand'), (old, old)):
                self.file('it.asm', 'old' * 1000)
                self.assertEqual(ended_within(lambda: write_whole(path, new), '_put', half), 9)
                self.assertEqual(self.content(path), new[:1666] + old[1666:])
                if since is not None:
                    self.file('it.asm', since.decode())
                writing.finish(path)
                self.assertEqual(self.content(path), found)
            self.file('it.asm', 'old' * 1000)
            real, broken = os.ftruncate, [OSError(errno.EIO, 'broken')]
            with mock.patch.object(writing.os, 'ftruncate', lambda *words: real(*words) if not broken else raised(broken.pop())):
                with self.assertRaisesRegex(OSError, 'broken'):
                    write_whole(path, new)
            self.assertEqual((self.content(path), os.listdir(f'{self.room}/state/zebludor/unfinished')), (old, []))

    def test_nothing_is_left_by_a_killed_writer(self) -> None:
        """Also where it was killed between naming the new file and renaming it, once the next one writes; a file that is somebody's own
        under such a name stays, and so does one that a writer holds."""
        path = self.file('it.asm', 'old')

        def killed(*_: Any, **__: Any) -> None:
            os._exit(9)

        for name, left in (('link', 0), ('replace', 1)):
            self.assertEqual(ended_within(lambda: write_whole(path, b'new'), f'os.{name}', killed), 9)
            self.assertEqual((self.content(path), len(os.listdir(self.room))), (b'old', 1 + left))
        new = next(name for name in os.listdir(self.room) if name != 'it.asm')
        write_whole(path, b'new')
        self.assertEqual((self.content(path), os.listdir(self.room)), (b'new', ['it.asm']))
        with open(f'{self.room}/{new}', 'wb') as held:
            fcntl.flock(held, fcntl.LOCK_EX)
            write_whole(path, b'newer')
            self.assertEqual(sorted(os.listdir(self.room)), sorted(['it.asm', new]))
        os.remove(f'{self.room}/{new}')
        os.symlink('it.asm', f'{self.room}/{new}')
        write_whole(path, b'newest')
        self.assertEqual((self.content(path), os.readlink(f'{self.room}/{new}')), (b'newest', 'it.asm'))

    def test_a_file_system_without_files_without_names(self) -> None:
        path, real = self.file('it.asm', 'old'), os.open

        def opened(name: str, how: int, *more: Any) -> int:
            if how & os.O_TMPFILE == os.O_TMPFILE:
                raise OSError(errno.EOPNOTSUPP, 'none')
            return real(name, how, *more)

        with mock.patch.object(writing.os, 'open', opened):
            write_whole(path, b'new')
            self.assertEqual((self.content(path), os.listdir(self.room)), (b'new', ['it.asm']))
            with mock.patch.object(writing.os, 'fsync', side_effect=OSError(errno.EIO, 'broken')), self.assertRaisesRegex(OSError, 'broken'):
                write_whole(path, b'newer')
        self.assertEqual((self.content(path), os.listdir(self.room)), (b'new', ['it.asm']))

    def test_the_last_look(self) -> None:
        """It comes when nothing but the rename is left, and what it raises leaves the file alone; so in place, too."""
        path = self.file('it.asm', 'old')

        def look() -> None:
            raise Sorry('changed')

        with mock.patch.dict(os.environ, XDG_STATE_HOME=f'{self.room}/state'):
            with self.assertRaisesRegex(Sorry, 'changed'):
                write_whole(path, b'new', look)
            self.assertEqual((self.content(path), os.listdir(self.room)), (b'old', ['it.asm']))
            with mock.patch.object(writing.os, 'replace', side_effect=os.replace) as renamed:
                write_whole(path, b'new', lambda: self.assertEqual((renamed.call_count, len(os.listdir(self.room))), (0, 2)))
                self.assertEqual(renamed.call_count, 1)
            os.link(path, f'{self.room}/other.asm')
            with self.assertRaisesRegex(Sorry, 'changed'):
                write_whole(path, b'newer', look)
            self.assertEqual(self.content(path), b'new')

    def test_what_is_taken(self) -> None:
        """It is told where that lies whose place the new file has; what it raises puts that back, and nothing is left beside. Where names
        can't be exchanged, nothing is told."""
        path, seen = self.file('it.asm', 'old'), list[bytes]()
        write_whole(path, b'new', taken=lambda beside: seen.append(self.content(beside)))
        self.assertEqual((seen, self.content(path), os.listdir(self.room)), ([b'old'], b'new', ['it.asm']))
        with self.assertRaisesRegex(Sorry, 'changed'):
            write_whole(path, b'newer', taken=lambda _: raised(Sorry('changed')))
        self.assertEqual((self.content(path), os.listdir(self.room)), (b'new', ['it.asm']))
        with mock.patch.object(writing, 'exchange', return_value=False):
            write_whole(path, b'newest', taken=lambda beside: seen.append(self.content(beside)))
        self.assertEqual((seen, self.content(path), os.listdir(self.room)), ([b'old'], b'newest', ['it.asm']))

    def test_the_tools_write_so(self) -> None:
        """A picture and a sound that a full disk can't take leave the old ones."""
        report = self.pcboard('run', *example('first')).stdout
        with full_disk(self.room, 64 << 10) as (folder, fill):
            if not os.path.ismount(folder):
                return
            for name in ('it.svg', 'it.wav'):
                write_whole(f'{folder}/{name}', b'old')
            fill()
            for words in (('picture', f'{folder}/it.svg'), ('sound', '--slow', '100', f'{folder}/it.wav')):
                self.assertIn('No space left on device', self.tool(*words, given=report, status=3)[1], words)
            self.assertEqual([self.content(f'{folder}/{it}') for it in ('it.svg', 'it.wav')], [b'old'] * 2)


if __name__ == '__main__':
    unittest.main()
