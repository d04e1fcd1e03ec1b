"""Many runs of one program: of each line, a run file, the answer as a line, in the order of the runs (docs/sweeps.md)."""
from __future__ import annotations

import contextlib
import hashlib
import json
import os
import select
import signal
import struct
import subprocess
import threading
from collections import deque
from concurrent.futures import Future, ThreadPoolExecutor
from dataclasses import dataclass, field
from typing import IO, Any, Container, Iterable, Iterator

import zebludor
from zebludor import Ran, fault_in

try:
    import resource
except ImportError:  # as on Windows
    resource = None  # type: ignore[assignment]

from toolbox.as_json import report_fields
from toolbox.command import Sorry, read_bytes, want_call
from toolbox.program import answer_of, path, refusal
from toolbox.report import report_of
from toolbox.starting import bind
from toolbox.threads import want

Fields = dict[str, Any]
LONGEST_ANSWER = 1 << 26  # bytes
HEAD = struct.Struct('<BII')  # of an answer of a worker: its status, and how many bytes of both texts follow; so too of a run
TOO_LONG = 255
FORKING = threading.Lock()
IS_LIMITED = hasattr(resource, 'prlimit')  # by Linux, in processor seconds
PATIENCE = 10 if IS_LIMITED else 1  # so many times as long may a run last on a busy machine
AHEAD = 8  # runs for each worker that are begun before the first of them is told


class Worker:
    """A fork of this process that makes runs by the library, one after the other, each within the limits."""

    def __init__(self, library: zebludor.Library, image: bytes, seconds: int, megabytes: int) -> None:
        parent = os.getpid()
        with FORKING:  # else another worker would have this one's end of the answers, and no end of them would come
            runs, self._runs = os.pipe()
            answers, theirs = os.pipe()
            self.pid = os.fork()
            if not self.pid:
                try:
                    bind(parent)
                    signal.signal(signal.SIGINT, signal.SIG_IGN)  # it ends with this process
                    zebludor.limit_memory(megabytes)
                    serve(library, image, seconds, open(runs, 'rb'), theirs)
                finally:
                    os._exit(1)
            os.close(runs)
            os.close(theirs)
        self._answers = open(answers, 'rb')

    def ran(self, run: bytes, patience: float) -> Ran | None:
        """What a run comes to, with the status of a signal if that ended the worker; None if it takes longer."""
        with contextlib.suppress(BrokenPipeError):
            write(self._runs, HEAD.pack(0, len(run), 0) + run)
        if not select.select([self._answers], [], [], patience)[0]:
            return None
        head = self._answers.read(HEAD.size)
        if len(head) < HEAD.size:
            return Ran(os.waitstatus_to_exitcode(os.waitpid(self.pid, 0)[1]), '', '')  # of a signal
        status, out, err = HEAD.unpack(head)
        return Ran(status, self._answers.read(out).decode('utf-8', 'replace'), self._answers.read(err).decode('utf-8', 'replace'))

    def kill(self) -> None:
        """Ends it."""
        with contextlib.suppress(ProcessLookupError):
            os.kill(self.pid, signal.SIGKILL)

    def close(self) -> None:
        """Ends it, and leaves nothing of it."""
        self.kill()
        with contextlib.suppress(ChildProcessError):
            os.waitpid(self.pid, 0)
        os.close(self._runs)
        self._answers.close()


def serve(library: zebludor.Library, image: bytes, seconds: int, runs: IO[bytes], answers: int) -> None:
    """In a worker: makes the runs that come, until no more do. The kernel ends it in the midst of one that takes too much time."""
    while head := runs.read(HEAD.size):
        run = runs.read(HEAD.unpack(head)[1])
        signal.setitimer(signal.ITIMER_PROF, seconds)
        try:
            status, out, err, _ = zebludor.ran_of(library, image, run, LONGEST_ANSWER)
        except zebludor.TooLong:
            status, out, err = TOO_LONG, '', ''
        signal.setitimer(signal.ITIMER_PROF, 0)
        octets = out.encode(), err.encode()
        write(answers, HEAD.pack(status, *map(len, octets)) + b''.join(octets))


def write(handle: int, octets: bytes) -> None:
    """Writes all of them."""
    while octets:
        octets = octets[os.write(handle, octets) :]


@dataclass
class Batch:
    """A program for many runs: its image as a file of Intel HEX, a sum of that and of the program that runs it, and how much a run may
    take; and the processes that are at work, and workers that wait for more."""

    image: str
    octets: bytes
    sum: bytes
    seconds: int
    megabytes: int
    at_work: set[subprocess.Popen[bytes] | Worker] = field(default_factory=set)
    idle: list[Worker] = field(default_factory=list)
    is_over: threading.Event = field(default_factory=threading.Event)

    def id_of(self, run: bytes) -> str:
        """What names a run: the same program under the same run file has the same everywhere."""
        return hashlib.sha256(self.sum + hashlib.sha256(run).digest()).hexdigest()

    def ran(self, run: bytes) -> Ran | str:
        """What the program answers under a run file, or why it was ended. All runs go by here."""
        library = zebludor.library()
        return self.by_a_worker(library, run) if library else self.by_a_process(run)

    def by_a_worker(self, library: zebludor.Library, run: bytes) -> Ran | str:
        """By one that waits, or else a new one."""
        try:
            worker = self.idle.pop()
        except IndexError:
            worker = Worker(library, self.octets, self.seconds, self.megabytes)
        self.at_work.add(worker)
        if self.is_over.is_set():
            worker.kill()
        ran = worker.ran(run, PATIENCE * self.seconds)
        self.at_work.discard(worker)
        if ran and ran.status >= 0 and not self.is_over.is_set():
            self.idle.append(worker)
        else:
            worker.close()
        if ran is None or ran.status == -signal.SIGPROF:
            return f'over {self.seconds} s, and was ended'
        return f'its answer has more than {LONGEST_ANSWER:,} bytes, and it was ended' if ran.status == TOO_LONG else ran

    def by_a_process(self, run: bytes) -> Ran | str:
        """By one of the program."""
        words = [path(), 'run', '--hex', '--', self.image, '/dev/stdin']
        with subprocess.Popen(words, stdin=subprocess.PIPE, stdout=subprocess.PIPE, stderr=subprocess.PIPE) as process:
            self.at_work.add(process)
            timer = threading.Timer(PATIENCE * self.seconds, process.kill)
            timer.daemon = True
            try:
                if self.is_over.is_set():
                    process.kill()
                limit(process, self.seconds, self.megabytes)  # before it has its run file
                want()
                timer.start()
                return self._answer(process, run, timer)
            finally:
                timer.cancel()
                process.kill()
                self.at_work.discard(process)

    def _answer(self, process: subprocess.Popen[bytes], run: bytes, timer: threading.Timer) -> Ran | str:
        """What a process answers. It prints nothing until it has read all, and tells a line at most beside its answer."""
        assert process.stdin and process.stdout and process.stderr
        with contextlib.suppress(BrokenPipeError):
            process.stdin.write(run)
            process.stdin.close()
        out = process.stdout.read(LONGEST_ANSWER + 1)
        if len(out) > LONGEST_ANSWER:
            return f'its answer has more than {LONGEST_ANSWER:,} bytes, and it was ended'
        err, status = process.stderr.read().decode('utf-8', 'replace'), process.wait()
        is_late = timer.finished.is_set() or status == -signal.SIGXCPU
        return f'over {self.seconds} s, and was ended' if status < 0 and is_late else Ran(status, out.decode('utf-8', 'replace'), err)

    def end(self) -> None:
        """Ends what is at work, and what begins from now on."""
        self.is_over.set()
        for process in list(self.at_work):
            process.kill()
        while self.idle:
            self.idle.pop().close()


def limit(process: subprocess.Popen[bytes], seconds: int, megabytes: int) -> None:
    """Limits what a process may take, also if this one is killed meanwhile."""
    if IS_LIMITED:
        with contextlib.suppress(ProcessLookupError):
            resource.prlimit(process.pid, resource.RLIMIT_AS, (megabytes << 20, megabytes << 20))
            resource.prlimit(process.pid, resource.RLIMIT_CPU, (seconds, seconds + 1))


def batch_of(file: str, is_hex: bool, room: str, seconds: int, megabytes: int) -> Batch:
    """A batch of a source or Intel HEX, whose image stands in a folder."""
    want_call(os, 'fork', 'runs are made apart, each within its limits')
    octets = read_bytes(file) if is_hex else answer_of(['asm', '--', file]).encode('ascii')
    image = f'{room}/image.hex'
    with open(image, 'wb') as to:
        to.write(octets)
    sums = hashlib.sha256(octets).digest() + hashlib.sha256(read_bytes(path())).digest()
    return Batch(image, octets, sums, seconds, megabytes)


def run_of(line: bytes) -> tuple[Fields, bytes]:
    """A line's name, if it has one, and its run file in one form. What is no JSON object goes to the program, which says so."""
    try:
        fields = json.loads(line)
    except (ValueError, RecursionError):
        return {}, line.strip()
    if not isinstance(fields, dict):
        return {}, line.strip()
    named = {'name': fields.pop('name')} if isinstance(fields.get('name'), str) else {}
    return named, json.dumps(fields, sort_keys=True, separators=(',', ':')).encode('ascii')


def answer_fields(ran: Ran | str) -> Fields:
    """An answer: a report, a fault, or why there is neither."""
    if isinstance(ran, str):
        return {'why': ran}
    if ran.status == 0:
        return report_fields(report_of(ran.out, 'the answer'))
    fault = fault_in(ran.err) if ran.status == 1 else None
    return {'fault': {'number': fault.number, 'name': fault.name}} if fault else {'why': refusal(ran.status, ran.err)}


def answers(batch: Batch, lines: Iterable[bytes | None], jobs: int, known: Container[str] = ()) -> Iterator[Fields]:
    """The answer to each line that isn't blank, and whose id isn't known, in their order; None is no line, but says that none has come."""

    def work(named: Fields, run: bytes, name: str) -> Fields:
        return {'id': name} | named | answer_fields(batch.ran(run))

    waited, pool = deque[Future[Fields]](), ThreadPoolExecutor(jobs)
    try:
        for line in lines:
            if line and line.strip():
                named, run = run_of(line)
                name = batch.id_of(run)
                if name not in known:
                    want()
                    waited.append(pool.submit(work, named, run, name))
            while waited and (line is None or len(waited) >= AHEAD * jobs or waited[0].done()):
                yield waited.popleft().result()
        while waited:
            yield waited.popleft().result()
    finally:
        batch.end()
        pool.shutdown(wait=False, cancel_futures=True)


def ids_in(file: str) -> tuple[set[str], int]:
    """The ids of a file of answers, and how many bytes its whole lines have: a half one at its end counts nothing."""
    known, whole = set[str](), 0
    try:
        with open(file, 'rb') as answered:
            for number, line in enumerate(answered, 1):
                if not line.endswith(b'\n'):
                    break
                whole += len(line)
                known.add(id_in(line, f'{file}, line {number}'))
    except FileNotFoundError:
        pass
    return known, whole


def id_in(line: bytes, where: str) -> str:
    """A line's id."""
    try:
        found = json.loads(line)['id']
    except (ValueError, KeyError, TypeError, RecursionError):
        found = None
    if not isinstance(found, str):
        raise Sorry(f'{where} is no answer of a batch, which has an id')
    return found
