"""A class's files, each held against a page in a fork of this process, side by side, so that none is in another's way."""
from __future__ import annotations

import argparse
import contextlib
import importlib
import json
import os
import select
import signal
import sys
import tempfile
import time
from collections import deque
from dataclasses import astuple, dataclass, field, replace
from itertools import zip_longest
from typing import IO, Any, Iterator, NoReturn

from toolbox import feedback, guests, limits, submissions
from toolbox.as_json import print_answer, row_fields
from toolbox.command import Sorry, read_bytes, start, waiting, want_call, write_bytes, write_text
from toolbox.expectations import Outcome, Planned
from toolbox.judging import judge_file, sum_of
from toolbox.marks import Row, as_csv, as_junit, cell, line_of, tell_copies
from toolbox.program import is_hex_name, limit_memory, uninterrupted, want
from toolbox.starting import bind

# What is imported only when it is used, once for all forks.
USED = ('foreign', 'loading', 'scancodes', 'walk', 'following')


@dataclass
class Work:
    """A file's judge: a fork of this process, which prints what it finds into a pipe; and the file's row, once it has ended."""

    file: str
    folder: str | None
    room: tempfile.TemporaryDirectory[str]
    process: int = 0
    out: int = -1
    err: IO[bytes] | None = None
    until: float = 0
    heard: bytes = b''
    row: Row | None = None

    @property
    def copy(self) -> str:
        """What is judged, summed and handed back."""
        return os.path.join(self.room.name, os.path.basename(self.file))


@dataclass
class Class:
    """What all rows have in common, and the forks that are at work, by the pipes that are heard."""

    planned: list[Planned]
    given: argparse.Namespace
    folder: str  # below which all files stand
    included: dict[str, bytes]  # what each of them may include besides, by its name
    at_work: dict[int, Work] = field(default_factory=dict)
    served: list[str] = field(default_factory=list)  # the files that have services by their look

    @property
    def outcomes(self) -> list[Outcome]:
        """What is expected, as of a file that never ran."""
        return [Outcome(one.said(planned.title), '', one.weight, False) for planned in self.planned for one in planned.expectations]

    def begin(self, file: str, folder: str | None) -> Work:
        """Begins to judge a copy of a file. One that can't be read has its row at once."""
        work = Work(file, folder, tempfile.TemporaryDirectory(prefix='zebludor-', ignore_cleanup_errors=True))
        try:
            octets = submissions.octets_of(file, self.folder)
        except OSError as error:
            self.finish(work, {'why': f"{file} can't be read: {error.strerror}"})
            return work
        self.hand_out(work.room.name)
        write_bytes(work.copy, octets)
        work.out, theirs = os.pipe()
        work.err, work.until, parent = tempfile.TemporaryFile(), time.monotonic() + self.given.seconds, os.getpid()
        work.process = os.fork()
        if not work.process:
            self.judge(work, theirs, parent)
        os.close(theirs)
        self.at_work[work.out] = work
        return work

    def judge(self, work: Work, out: int, parent: int) -> NoReturn:
        """In the fork: judges, prints what is found, and ends. It leads a session of its own, which no Control-C reaches, and is ended
        with the process that it is a fork of."""
        try:
            os.setsid()
            bind(parent)
            assert work.err
            for ours, handle in ((os.open(os.devnull, os.O_RDONLY), 0), (out, 1), (work.err.fileno(), 2)):
                os.dup2(ours, handle)
            sys.stdout, sys.stderr = (open(handle, 'w', encoding='utf-8', errors='surrogateescape', closefd=False) for handle in (1, 2))
            signal.signal(signal.SIGINT, signal.SIG_IGN)
            signal.signal(signal.SIGTERM, lambda *_: sys.exit(143))
            start(lambda _: self.print_row(work))
        except SystemExit as ended:
            sys.stdout.flush()
            sys.stderr.flush()
            os._exit(ended.code if isinstance(ended.code, int) else 1)
        finally:
            os._exit(1)

    def print_row(self, work: Work) -> int:
        """Prints the outcomes and a sum of the file's bytes as JSON; or why there are none."""
        given, is_hex = self.given, self.given.hex or is_hex_name(work.copy)
        limit_memory(given.memory or limits.MEMORY)
        try:
            guest = guests.guest_of(given, work.copy)
            handed = feedback.Feedback(work.folder, guest, words_of(given), is_hex) if work.folder else None
            outcomes = judge_file(self.planned, guest, given.run, is_hex, feedback=handed)
            print(json.dumps({'outcomes': [astuple(outcome) for outcome in outcomes], 'image': sum_of(guest, is_hex), 'services': guest.is_seen}))
        except Sorry as sorry:
            print(json.dumps({'why': str(sorry)}))
        return 0

    def hear(self) -> None:
        """Hears what judges at work print, until the first of them has ended or its time is over."""
        late = min(work.until for work in self.at_work.values())
        ready = select.select(list(self.at_work), [], [], max(0, late - time.monotonic()))[0]
        with uninterrupted():
            for work in [self.at_work[out] for out in ready]:
                piece = os.read(work.out, 1 << 16)
                work.heard += piece
                if not piece:
                    why = self.ended(work)
                    self.finish(work, {'why': why} if why else json.loads(work.heard))
            for work in [work for work in self.at_work.values() if work.until <= time.monotonic()]:
                end(work.process)
                self.ended(work)
                self.finish(work, {'why': f'over {self.given.seconds} s, and was ended'})

    def ended(self, work: Work) -> str:
        """Why a judge that has ended gave no row; nothing if it did."""
        del self.at_work[work.out]
        os.close(work.out)
        status = os.waitstatus_to_exitcode(os.waitpid(work.process, 0)[1])
        assert work.err
        with work.err as err:
            err.seek(0)
            lines = err.read().decode('utf-8', 'replace').strip().splitlines()
        if status < 0:
            return f'ended by signal {-status} ({signal.strsignal(-status)})'
        return (lines or [f'status {status}'])[-1] if status else ''

    def finish(self, work: Work, answer: dict[str, Any]) -> None:
        """Makes a file's row of what was answered, and hands back what the file's student is told."""
        work.row = self.row_of(work.file, work.copy, answer)
        if work.folder:
            feedback.close(work.folder, work.row, words_of(self.given), work.copy)
            self.hand_out(work.folder)
        work.room.cleanup()

    def hand_out(self, folder: str) -> None:
        """What a submission may include goes into the folder in which it is judged, and into its student's, so that its commands find it."""
        for name, text in self.included.items():
            if not os.path.lexists(os.path.join(folder, name)):
                write_bytes(os.path.join(folder, name), text)

    def row_of(self, file: str, copy: str, answer: dict[str, Any]) -> Row:
        """The row of what was answered of a copy, in which the file has its own name."""

        def own(text: str) -> str:
            return text.replace(copy, file)

        self.served += [file] if answer.get('services') else []
        them = [Outcome(*fields) for fields in answer['outcomes']] if 'outcomes' in answer else self.outcomes
        outcomes = [replace(each, but=own(each.but)) if each.but else each for each in them]
        return Row(file, outcomes, own(answer.get('why', '')), answer.get('image', ''))

    def stop(self) -> None:
        """Ends what is at work."""
        for work in list(self.at_work.values()):
            end(work.process)
            self.ended(work)
            work.room.cleanup()


def end(process: int) -> None:
    """Ends a file's judge, which leads a group, and then what it may have left there."""
    with contextlib.suppress(ProcessLookupError, ChildProcessError):
        os.killpg(process, signal.SIGTERM)
        os.waitid(os.P_PID, process, os.WEXITED | os.WNOWAIT)  # its number stays its own
        os.killpg(process, signal.SIGKILL)


def words_of(given: argparse.Namespace) -> list[str]:
    """The words that each file's judge is given too."""
    return [*guests.words_of(given), f'--memory={given.memory or limits.MEMORY}']


def included_of(paths: list[str]) -> dict[str, bytes]:
    """The bytes of what submissions may include, by the names by which they do."""
    found = {os.path.basename(path): read_bytes(path) for path in paths}
    if len({name.lower() for name in found}) < len(paths):
        raise Sorry('--include: a submission includes by the name alone, and two of these files have the same one')
    return found


def rows_of(them: Class, files: list[str], folders: list[str]) -> Iterator[Row]:
    """Each file's row as it is ready, in the order of the files. Once that is broken off, the others that are done come, and what is
    at work is ended."""
    todo, waited = deque(zip_longest(files, folders)), deque[Work]()
    try:
        while todo or waited:
            with uninterrupted():
                while todo and len(them.at_work) < (os.cpu_count() or 1):
                    waited.append(them.begin(*todo.popleft()))
            while waited and waited[0].row:
                yield waited.popleft().row  # type: ignore[misc]
            if them.at_work:
                them.hear()
    except KeyboardInterrupt:
        them.stop()
        yield from [work.row for work in waited if work.row]
        raise
    finally:
        them.stop()


def table(page: str, planned: list[Planned], files: list[str], given: argparse.Namespace) -> int:
    """Prints a row for each file, writes what else is asked for, and returns the exit status."""
    want_call(os, 'fork', 'each file is judged apart, within its limits')
    want()
    for name in USED:
        importlib.import_module(f'toolbox.{name}')
    them = Class(planned, given, submissions.folder_of(files), included_of(given.include or []))
    folders = feedback.folders_of(files, given.feedback) if given.feedback else []
    said, rows = [outcome.said for outcome in them.outcomes], list[Row]()
    has_marks = any(outcome.weight > 1 for outcome in them.outcomes)
    is_shown = not given.json and '-' not in (given.csv, given.junit)
    show(['file', 'met', *said, 'why not', *(['mark', 'of'] if has_marks else [])], is_shown)
    try:
        with waiting(f'judge: {len(files)} files') as say:
            for row in rows_of(them, files, folders):
                rows.append(row)
                show([row.file, str(row.met), *row.cells, row.why, *([str(row.mark), str(row.of)] if has_marks else [])], is_shown)
                say(f'{len(rows)} done')
    finally:
        for group in tell_copies(rows):
            print(f'judge: the same bytes: {", ".join(map(cell, group))}', file=sys.stderr)
        if them.served:
            print(f'judge: {len(them.served)} of {len(files)} files ran with the services (docs/services.md); --bare runs all without', file=sys.stderr)
        for path, text in ((given.csv, as_csv(said, rows)), (given.junit, as_junit(page, rows))):
            if path:
                write_text(path, text)
    status = 0 if all(each.met == len(said) for each in rows) else 1
    return print_answer('judge', status, files=row_fields(rows)) if given.json else status


def show(cells: list[str], is_shown: bool) -> None:
    """Prints a line of the table, unless standard output has another one."""
    if is_shown:
        print(line_of(cells), flush=True)
