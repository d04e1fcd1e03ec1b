"""Every moment tried: a program run once for each clock at which a key may come, or for each first count of the timer, by processes side
by side."""
from __future__ import annotations

import contextlib
import functools
import hashlib
import json
import math
import os
import queue
import random
import signal
import subprocess
import sys
import tempfile
import threading
import time
from bisect import bisect_right
from dataclasses import dataclass, field
from typing import Any, Iterator, Sequence

from toolbox.command import PYTHON, Sorry, read_text, tool, write_text
from toolbox.events import first_start
from toolbox.expectations import Planned, page_of
from toolbox.guests import Guest
from toolbox.judging import fields_of, outcomes_of, subject_of
from toolbox.listing import Listing, code_of, label_in, listing_of
from toolbox.places import event_of, far_of, line_at
from toolbox.poking import Count
from toolbox.program import LAST_CLOCK, Files, ProbeSession, path as program_path
from toolbox.runfile import DEFAULTS, text_of
from toolbox.symbols import path_of
from toolbox.threads import begin

AT_ONCE = 8  # moments that a process is handed
LONGEST_KEPT = 1 << 28  # bytes of the file that keeps what was tried

# Each of the many runs is short, where nothing says how long it is.
SHORT = DEFAULTS | {'budget': 100_000}
SERVED = {'budget': 1_000_000}  # of a program that the services begin, at about 60,000


@dataclass(frozen=True)
class Key:
    """A scan code, and the clocks at which it is tried."""

    code: int
    values: range


@dataclass(frozen=True)
class Pair:
    """A second key, so many clocks after the last that is tried; if none, at its clock, after it."""

    code: int
    after: int


@dataclass(frozen=True)
class Asked:
    """What is wanted of each run: a page's expectations, or the clocks up to a place."""

    page: str | None
    place: str | None = None
    pair: Pair | None = None


class Plan:
    """What is to be tried: moments, of which each is a count, if there is one to try, and a clock for each key."""

    def __init__(
        self, asked: Asked, guest: Guest, how: list[str], given: Files, files: Files, keys: list[Key], sample: int, seed: int, count: Count | None = None
    ) -> None:
        self.asked, self.guest, self.how, self.given, self.files, self.count = asked, guest, how, given, files, count
        self.keys, self.sample, self.seed = keys, sample, seed
        self.axes: list[Count | Key] = [*([count] if count else []), *keys]
        self.runs = page_of(asked.page) if asked.page else [Planned()]
        self.text = read_text(files.file)
        self.symbols = [files.symbols, read_text(path_of(files.symbols))] if files.symbols else []
        self.listing: Listing | None = None  # where labels stand, once it was asked
        self._poked: tuple[int, Files] | None = None
        total = math.prod(len(each.values) for each in self.axes)
        if not 0 <= sample <= total:
            raise Sorry(f'--sample {sample}: there are {total} moments')
        self.moments: Sequence[int] = sorted(random.Random(seed).sample(range(total), sample)) if sample else range(total)
        # Each run's run file: RUN's, or what is short, and before it the page's.
        usual = SERVED if guest.is_one else SHORT
        self._run = {id(planned): fields_of(planned, guest, given.run_file or None, usual) for planned in self.runs}

    def values(self, moment: int) -> tuple[int, ...]:
        """The count, if there is one to try, and the clocks of the moment of this number."""
        number, found = self.moments[moment], list[int]()
        for axis in reversed(self.axes):
            number, place = divmod(number, len(axis.values))
            found.append(axis.values[place])
        return tuple(reversed(found))

    def stamps(self, moment: int) -> tuple[int, ...]:
        """The keys' clocks of a moment."""
        return self.values(moment)[len(self.axes) - len(self.keys) :]

    def files_of(self, moment: int | None, room: str) -> Files:
        """The program's files of a moment: a copy in this folder, if there is a count to try. None: the files as they are."""
        if self.count is None or moment is None:
            return self.files
        value = self.values(moment)[0]
        if self._poked is None or self._poked[0] != value:
            name = f'{room}/{os.getpid()}{".hex" if self.files.is_hex else ".asm"}'
            self._poked = value, self.count.poked(self.files, self.text, value, name)
            if not self.files.is_hex:
                self.listing = None  # another constant may move labels
            elif self.listing is None:
                self.listing = listing_of(self.files)  # whose bytes are those of its symbols
        return self._poked[1]

    def fields(self, planned: Planned) -> dict[str, Any]:
        """A run's run file, without the keys that are tried."""
        return self._run[id(planned)]

    def with_keys(self, fields: dict[str, Any], moment: int) -> dict[str, Any]:
        """A run file with the keys of a moment, each behind those that are stamped with its clock already."""
        keys, stamps, pair = [list(entry) for entry in fields['keys']], self.stamps(moment), self.asked.pair
        coming = [(clock, key.code) for key, clock in zip(self.keys, stamps)] + ([(stamps[-1] + pair.after, pair.code)] if pair else [])
        for clock, code in coming:
            keys.insert(bisect_right([entry[0] for entry in keys], clock), [clock, code])
        return fields | {'keys': keys}

    def words(self, room: str) -> list[str]:
        """The command line of a process that tries moments, with run files in this folder."""
        tool = os.path.join(os.path.dirname(os.path.dirname(os.path.realpath(__file__))), 'moments')
        keys = [word for each in self.keys for word in ('--key', f'{each.code:02X}', '--at', f'{each.values.start}..{each.values.stop}')]
        if self.count:
            keys += ['--first-count', f'{self.count.values.start}..{self.count.values.stop}', '--poke', self.count.named]
        sample = ['--sample', str(self.sample), '--seed', str(self.seed)] if self.sample else []
        what = ['--measure', self.asked.place] if self.asked.place else []
        what += ['--pair', f'{self.asked.pair.code:02X}', str(self.asked.pair.after)] if self.asked.pair else []
        names = [each for each in (self.asked.page, self.given.file, self.given.run_file) if each]
        return [PYTHON, '-S', tool, '--worker', room, *what, *keys, *sample, *self.how, '--', *names]

    def sum(self) -> str:
        """What tells this plan from others: all that an outcome hangs on."""
        program = os.stat(program_path())
        known = [
            self.text,
            read_text(self.asked.page) if self.asked.page else self.asked.place,
            [self.fields(planned) for planned in self.runs],
            self.files.is_hex,
            self.symbols,
            self.sample,
            self.seed,
            [(each.code, each.values.start, each.values.stop) for each in self.keys],
            [self.asked.pair.code, self.asked.pair.after] if self.asked.pair else [],
            [self.count.named, self.count.values.start, self.count.values.stop] if self.count else [],
            program.st_size,
            program.st_mtime_ns,
        ]
        return hashlib.sha256(json.dumps(known).encode()).hexdigest()


@dataclass(frozen=True)
class Failure:
    """An expectation that a run of the page didn't meet, and what came in its place."""

    run: int
    said: str
    but: str


NEVER = -1
# What a moment comes to: what it fails by, or the clocks up to the place, NEVER if it doesn't come.
Outcome = Failure | int | None


@dataclass
class Found:
    """What came out: which moments were tried, by number, which failed, and what was measured."""

    is_tried: bytearray
    failed: dict[int, Failure] = field(default_factory=dict)
    tried: int = 0
    measured: dict[int, int] = field(default_factory=dict)

    def add(self, moment: int, outcome: Outcome) -> None:
        """A moment that was tried."""
        self.is_tried[moment] = 1
        self.tried += 1
        if isinstance(outcome, int):
            self.measured[moment] = outcome
        elif outcome:
            self.failed[moment] = outcome


class Kept:
    """The file that keeps what was tried before an interrupt."""

    def __init__(self, path: str, plan: Plan) -> None:
        self.path, self._total, self._sum = path, len(plan.moments), plan.sum()

    def read(self) -> Found:
        """What was tried before of the same plan, or nothing."""
        found = Found(bytearray(self._total))
        if not os.path.exists(self.path):
            return found
        try:
            kept = json.loads(read_text(self.path, LONGEST_KEPT))
            if kept['of'] != self._sum:
                print(f'moments: {self.path} is of other files, clocks or another program; it begins anew', file=sys.stderr)
                return found
            found.failed = {int(moment): Failure(*rest) for moment, *rest in kept['failed']}
            found.measured = dict(map(tuple, kept['measured']))
            for first, last in kept['tried']:
                found.is_tried[first:last] = b'\1' * (last - first)
            found.tried = sum(found.is_tried)
        except (ValueError, KeyError, TypeError, RecursionError):
            raise Sorry(f'{self.path} keeps no moments that were tried: remove it, or begin in another folder') from None
        return found

    def write(self, found: Found) -> None:
        """Keeps it."""
        tried, at = [], found.is_tried.find(1)
        while at >= 0:
            end = found.is_tried.find(0, at)
            tried.append((at, end if end >= 0 else self._total))
            at = found.is_tried.find(1, end) if end >= 0 else -1
        failed = [(moment, why.run, why.said, why.but) for moment, why in found.failed.items()]
        kept = {'of': self._sum, 'tried': tried, 'failed': failed, 'measured': list(found.measured.items())}
        write_text(self.path, json.dumps(kept) + '\n')

    def remove(self) -> None:
        """Nothing is left to try."""
        with contextlib.suppress(FileNotFoundError):
            os.remove(self.path)


def write_run(plan: Plan, planned: Planned, path: str, moment: int | None) -> None:
    """Writes the run file of a moment. None: without the keys that are tried."""
    fields = plan.fields(planned)
    with open(path, 'w', encoding='utf-8') as to:
        to.write(text_of(fields if moment is None else plan.with_keys(fields, moment)))


def failure_of(plan: Plan, files: Files, moment: int | None) -> Failure | None:
    """What a moment fails by: the first expectation of the first run that isn't met. The run file is overwritten."""
    for number, planned in enumerate(plan.runs):
        write_run(plan, planned, files.run_file, moment)
        subject = subject_of(files)
        if isinstance(subject, str):
            raise Sorry(f'{files.file} is {subject} ({tool("why")} tells more)')
        subject.listing = plan.listing
        unmet = next((outcome for outcome in outcomes_of(planned, subject) if outcome.but is not None), None)
        plan.listing = subject.listing
        if unmet:
            return Failure(number, unmet.said, unmet.but or '')
    return None


def clocks_of(plan: Plan, files: Files, moment: int, place: str) -> int:
    """The clocks of a moment from its last key's stamp, or from the run's beginning, until the place begins next."""
    write_run(plan, plan.runs[0], files.run_file, moment)
    plan.listing = plan.listing or listing_of(files)
    stamp = (0, *plan.stamps(moment))[-1]
    with ProbeSession(files) as session:
        session.go_to(stamp + 1)
        end = plan.fields(plan.runs[0])['budget'] + 1  # what begins at the last clock counts
        clock = first_start(session, far_of(plan.listing, place), min(end, LAST_CLOCK))
    return NEVER if clock is None else clock - stamp


def lines_at(plan: Plan, moments: list[int], failed: dict[int, Failure]) -> dict[int, str]:
    """What ran when the last key of each moment came: its line, or its place and instruction; nothing if it can't be told."""
    found, groups = dict[int, str](), dict[tuple[int, ...], list[int]]()
    for moment in moments if plan.keys else []:
        groups.setdefault((failed[moment].run, *plan.values(moment)[:-1]), []).append(moment)
    with tempfile.TemporaryDirectory() as room:
        for (number, *_), group in groups.items():
            files = plan.files_of(group[0], room)._replace(run_file=f'{room}/run.json')
            write_run(plan, plan.runs[number], files.run_file, group[-1])
            with ProbeSession(files) as session:
                for moment, last in zip(group, session.latest_at([plan.stamps(each)[-1] for each in group])):
                    found[moment] = ''
                    if last:
                        plan.listing = plan.listing or listing_of(files)
                        found[moment] = last_line(plan.listing, last)
    return found


def last_line(listing: Listing, last: bytes) -> str:
    """What began last, by its line of the trail behind the clock."""
    event = event_of(b'0 ' + last)
    line, label = line_at(listing, event), listing.label_before(event.segment, event.offset)
    if event.entry is not None:
        return f'the entry of interrupt {event.entry:02X}'
    if line:
        return f'line {line.number} ({code_of(line.text.partition(":")[2] if label_in(line.text) else line.text).strip()})'
    return f'{label or "%04X:%04X" % (event.segment, event.offset)} ({event.text})'


def work(plan: Plan, room: str) -> int:
    """A process that tries moments: their numbers come in lines, and each is answered by a line, until the input ends."""
    place = plan.asked.place
    for line in sys.stdin:
        for moment in json.loads(line):
            try:
                files = plan.files_of(moment, room)._replace(run_file=f'{room}/{os.getpid()}.json')
                found = clocks_of(plan, files, moment, place) if place else failure_of(plan, files, moment)
                answer: Any = [found.run, found.said, found.but] if isinstance(found, Failure) else found
            except Sorry as sorry:
                answer = str(sorry)
            print(json.dumps(answer), flush=True)
    return 0


class Worker:
    """Such a process. It and what it runs are a session of their own, which no interrupt from the terminal reaches."""

    def __init__(self, words: list[str]) -> None:
        self._process = subprocess.Popen(words, stdin=subprocess.PIPE, stdout=subprocess.PIPE, stderr=subprocess.PIPE, text=True, start_new_session=True)

    def ask(self, moments: list[int]) -> Iterator[Outcome]:
        """What each of these comes to."""
        assert self._process.stdin and self._process.stdout and self._process.stderr
        with contextlib.suppress(BrokenPipeError):
            self._process.stdin.write(json.dumps(moments) + '\n')
            self._process.stdin.flush()
        for _ in moments:
            line = self._process.stdout.readline()
            if not line.endswith('\n'):
                reason = self._process.stderr.read().strip() or f'status {self._process.wait()}'
                raise Sorry(f'a process that tries moments has ended: {reason}')
            answer = json.loads(line)
            if isinstance(answer, str):
                raise Sorry(answer)
            yield Failure(*answer) if isinstance(answer, list) else answer

    def end(self) -> None:
        """Ends it, also in the midst of a run: it has nothing to keep. What it has printed isn't waited for."""
        with contextlib.suppress(ProcessLookupError):
            os.killpg(self._process.pid, signal.SIGKILL)
        self._process.wait()


def chunks(found: Found) -> Iterator[list[int]]:
    """The moments that aren't tried yet, AT_ONCE at most."""
    at = found.is_tried.find(0)
    while at >= 0:
        chunk = [at]
        while len(chunk) < AT_ONCE and (at := found.is_tried.find(0, at + 1)) >= 0:
            chunk.append(at)
        yield chunk
        at = found.is_tried.find(0, chunk[-1] + 1)


class Feeder:
    """Hands the moments to processes, each by a thread of its own."""

    def __init__(self, plan: Plan, found: Found, jobs: int, room: str) -> None:
        # A simple one, which an interrupt that is raised within `get` leaves whole.
        self.answers: queue.SimpleQueue[tuple[int, Outcome] | Exception | None] = queue.SimpleQueue()
        self._todo, self._lock = chunks(found), threading.Lock()
        self.workers = [Worker(plan.words(room)) for _ in range(min(jobs, math.ceil(found.is_tried.count(0) / AT_ONCE)))]
        for worker in self.workers:
            begin(functools.partial(self._feed, worker))

    def _feed(self, worker: Worker) -> None:
        """Hands it moments to their end, which None tells."""
        try:
            while True:
                with self._lock:
                    chunk = next(self._todo, None)
                if chunk is None:
                    return
                for moment, outcome in zip(chunk, worker.ask(chunk)):
                    self.answers.put((moment, outcome))
        except Exception as error:  # pylint: disable=broad-exception-caught
            self.answers.put(error)
        finally:
            self.answers.put(None)

    def close(self) -> None:
        """Ends all processes."""
        for worker in self.workers:
            worker.end()


def tried(plan: Plan, found: Found, jobs: int) -> Iterator[float]:
    """Tries all that isn't tried yet, and tells after each moment the seconds that went by."""
    began = time.monotonic()
    with tempfile.TemporaryDirectory() as room, contextlib.closing(Feeder(plan, found, jobs, room)) as feeder:
        at_work = len(feeder.workers)
        while at_work:
            answer = feeder.answers.get()
            if isinstance(answer, Exception):
                raise answer
            if answer is None:
                at_work -= 1
                continue
            found.add(*answer)
            yield time.monotonic() - began
