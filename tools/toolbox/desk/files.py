"""The files that the words of tools/desk name, as a page has read them: they are written whole, as they were spelled, and never
over what another hand has written meanwhile."""
from __future__ import annotations

import contextlib
import difflib
import hashlib
import os
import re
import threading
import time
from dataclasses import dataclass
from typing import IO, Any, Callable, Iterator

from toolbox import runfile
from toolbox.command import Sorry, Unreadable
from toolbox.guests import Guest
from toolbox.locks import HAS_LOCKS, lock_free
from toolbox.reading import read_whole
from toolbox.runfile import DEFAULTS, text_of
from toolbox.writing import finish, is_unfinished, own_folder, write_whole

Fields = dict[str, Any]
LONGEST_DIFFERENCE = 2000  # lines
SECONDS_OF_A_TURN, LOCK = 10, 'lock'


class Changed(Exception):
    """Another hand has written to a file since it was read."""


@dataclass(frozen=True)
class Given:
    """The files that the command's words name, and how they say that sources are taken."""

    file: str | None = None
    run_file: str | None = None
    is_hex: bool = False
    symbols: str | None = None
    guest: Guest = Guest('')


def octets_of(path: str) -> bytes | None:
    """A file's bytes, or None where there is none."""
    try:
        return read_whole(path)
    except FileNotFoundError:
        return None
    except OSError as error:
        raise Unreadable(f"{path} can't be read: {error.strerror}") from None


def still(path: str, octets: bytes | None) -> Callable[[], None]:
    """What raises Changed once a file hasn't these bytes any more; its last look takes no time."""

    def stamp() -> tuple[int, ...]:
        with contextlib.suppress(FileNotFoundError):
            found = os.stat(path)
            return found.st_dev, found.st_ino, found.st_size, found.st_mtime_ns
        return ()

    def look() -> None:
        before = stamp()
        if octets_of(path) != octets or stamp() != before:
            raise Changed

    return look


def put_over(path: str, octets: bytes, old: bytes | None) -> None:
    """Writes a file that has the old bytes. What another hand writes there at that moment takes its place again, and raises Changed."""
    with contextlib.ExitStack() as stack:
        held = list[IO[bytes]]()

        def hold(taken: str) -> None:
            held.append(stack.enter_context(open(taken, 'rb', opener=lambda name, how: os.open(name, how | os.O_NONBLOCK))))

        if old is not None and HAS_LOCKS:  # else nobody can take an open one's place
            hold(path)
        write_whole(path, octets, still(path, old), taken=hold)
        if held and not os.path.samestat(os.fstat(held[-1].fileno()), os.stat(path)) and (theirs := held[-1].read()) != old:
            write_whole(path, theirs, still(path, octets))
            raise Changed


@contextlib.contextmanager
def turn(folder: str | None) -> Iterator[None]:
    """Waits until no other desk of this user writes, as far as such a folder can be had."""
    with contextlib.ExitStack() as stack:
        if folder:
            with contextlib.suppress(OSError):
                own_folder(folder)
                handle = os.open(os.path.join(folder, LOCK), os.O_RDWR | os.O_CREAT | os.O_NOFOLLOW | os.O_CLOEXEC, 0o600)
                stack.callback(os.close, handle)
                wait_for(handle)
        yield


def wait_for(handle: int) -> None:
    """Waits for a lock, but not for ever."""
    end = time.monotonic() + SECONDS_OF_A_TURN
    while HAS_LOCKS:
        try:
            lock_free(handle)
            return
        except BlockingIOError:
            if time.monotonic() > end:
                raise Sorry(f'another desk has been writing for {SECONDS_OF_A_TURN} seconds; nothing was written, try again') from None
            time.sleep(0.01)


def sum_of(octets: bytes | None) -> str | None:
    """What tells one content of a file from another; of no file None."""
    return hashlib.sha256(octets).hexdigest() if octets is not None else None


def text_in(path: str, octets: bytes) -> str:
    """A source's text. What a page would change in silence is refused: bytes that aren't UTF-8, and a carriage return alone."""
    try:
        text = octets.decode('utf-8')
    except UnicodeDecodeError as error:
        line = octets.count(b'\n', 0, error.start) + 1
        raise Sorry(f"{path}, line {line}: byte {octets[error.start]:02X}h isn't UTF-8, as pcboard wants it; iconv converts a file") from None
    if alone := re.search('\r(?!\n)', text):
        line = text.count('\n', 0, alone.start()) + 1
        raise Sorry(f'{path}, line {line}: a carriage return stands alone there, which pcboard refuses')
    return text


def with_ends(text: str, old: str) -> str:
    """A page's text, whose lines end with a line feed, with the ends of lines of the old one: of its own where a line was there, else
    as most of them end."""
    pairs, all_ends = old.count('\r\n'), old.count('\n')
    if pairs == 0 or pairs == all_ends:
        return text.replace('\n', '\r\n') if pairs else text
    usual = '\r\n' if 2 * pairs >= all_ends else '\n'
    before, now = old.splitlines(keepends=True), text.split('\n')
    ends = [usual] * len(now)
    plain = [old_line.rstrip('\r\n') for old_line in before]
    for first, at, count in difflib.SequenceMatcher(None, plain, now, autojunk=False).get_matching_blocks():
        for line in range(count):
            ends[at + line] = before[first + line][len(plain[first + line]) :] or usual
    return ''.join(line + end for line, end in zip(now, ends[:-1])) + now[-1]


def difference(before: str, after: str, names: tuple[str, str]) -> list[str]:
    """What differs between two texts, as `diff -u` tells it; ends of lines don't count."""
    pair = [text.replace('\r\n', '\n').split('\n') for text in (before, after)]
    found = list(difflib.unified_diff(*pair, *names, lineterm=''))
    return found if len(found) <= LONGEST_DIFFERENCE else [*found[:LONGEST_DIFFERENCE], f'.. and {len(found) - LONGEST_DIFFERENCE} lines more']


def fields_in(path: str, octets: bytes | None) -> Fields:
    """A run file's fields; of no file the usual ones."""
    return dict(DEFAULTS) if octets is None else runfile.fields_in(path, octets)


def wrong_field(fields: Fields) -> str | None:
    """Why a run file with these fields isn't written: a number's place holds none."""
    for name in ('budget', 'ram', 'sw1', 'sw2'):
        if not isinstance(fields.get(name, 0), int):
            return f'{name} is {fields[name]!r}, and no number'
    return None


class Kept:
    """The command's files, and how they are written. In the folder desks take turns."""

    def __init__(self, given: Given, folder: str | None = None) -> None:
        self.given, self._folder, self._lock = given, folder, threading.Lock()

    def read(self) -> Fields:
        """What a page begins with: texts, fields, and the sums by which it names what it has read. Of files that can't be read,
        or aren't text, it says so, and begins empty: nothing of theirs is overwritten unasked."""
        given, source, fields, note = self.given, '', dict(DEFAULTS), None
        sums: list[str | None] = [None, None]
        assert given.file
        try:
            self._finish()
            octets = octets_of(given.file)
            if octets is None:
                raise Unreadable(f"{given.file} can't be read: it isn't there")
            source, sums[0] = text_in(given.file, octets), sum_of(octets)
            if given.run_file:
                run = octets_of(given.run_file)
                fields, sums[1] = fields_in(given.run_file, run), sum_of(run)
        except Sorry as sorry:
            note = str(sorry)
        return {
            'name': os.path.basename(given.file),
            'source': source,
            'run': fields,
            'hex': given.is_hex,
            'file': given.file,
            'run file': given.run_file,
            'sums': sums,
            'note': note,
        }

    def _finish(self) -> None:
        """Finishes what a desk that was killed has begun to write."""
        for path in filter(is_unfinished, self._paths()):
            try:
                with self._lock, turn(self._folder):
                    finish(path)
            except OSError as error:
                raise Sorry(f"{path} was written by half, which can't be finished: {error.strerror}") from None

    def write(self, source: str, fields: Fields, sums: list[Any], is_over: bool) -> Fields:
        """Writes a page's text to FILE, and its fields to RUN, if neither has changed since they had these sums, or it is to be
        overwritten. It answers what has changed; else what was written, with the sums of now, and what wasn't and why."""
        if not self.given.file:
            raise Sorry('desk was started without FILE: save the files from the page')
        with self._lock, turn(self._folder):
            paths, there = self._there()
            changed = self._changed(source, sums, paths, there)
            if changed and not is_over:
                return changed
            spelled = with_ends(source, there[0].decode('utf-8', 'replace')) if there[0] else source  # with the file's own ends of lines
            texts = [spelled, *([text_of(fields)] if len(paths) > 1 else [])]
            found: Fields = {'kept': [], 'sums': [sum_of(there[0]), sum_of(there[1]) if len(there) > 1 else None]}
            for at, (path, text, octets) in enumerate(zip(paths, texts, there)):
                wrong = wrong_field(fields) if at else None
                if wrong:
                    return found | {'sorry': f'{path} isn\'t written: {wrong}'}
                try:
                    found['sums'][at] = self._put(path, text, octets, fields if at else None)
                except OSError as error:
                    return found | {'sorry': f"{path} can't be written: {error.strerror}"}
                except Changed:
                    changed = {} if found['kept'] else self._changed(source, sums, *self._there())
                    return changed or found | {'sorry': f"{path} isn't written: another hand wrote to it at that moment; save again"}
                found['kept'].append(path)
            return found

    def _put(self, path: str, text: str, old: bytes | None, fields: Fields | None) -> str | None:
        """Writes one file, unless it says that already, and gives its sum."""
        octets = text.encode('utf-8', 'surrogatepass')
        if octets != old and not (fields is not None and old is not None and is_same(old, fields)):
            put_over(path, octets, old)
            return sum_of(octets)
        return sum_of(old)

    def _paths(self) -> list[str]:
        """The files."""
        return [path for path in (self.given.file, self.given.run_file) if path]

    def _there(self) -> tuple[list[str], list[bytes | None]]:
        """The files, and what they hold now."""
        return self._paths(), [octets_of(path) for path in self._paths()]

    def changed(self, source: str, sums: list[Any]) -> Fields:
        """What another hand has changed since the files had these sums, as `write` tells it; nothing where none has."""
        return self._changed(source, sums, *self._there())

    def _changed(self, source: str, sums: list[Any], paths: list[str], there: list[bytes | None]) -> Fields:
        """Which files have no longer these sums, the sums of now, and how the page's text differs from FILE's."""
        now = [sum_of(octets) for octets in there]
        changed = [path for path, is_now, was in zip(paths, now, sums) if is_now != was]
        if not changed:
            return {}
        text = there[0].decode('utf-8', 'replace') if there[0] is not None else ''
        return {'changed': changed, 'now': now, 'difference': difference(text, source, ('the file', 'this page')), 'gone': there[0] is None}


def is_same(octets: bytes, fields: Fields) -> bool:
    """Whether a run file says the same, however it is laid out."""
    try:
        return runfile.fields_in('', octets) == fields
    except Sorry:
        return False
