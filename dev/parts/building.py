"""Proving and building crates side by side, on copies of them that are kept from time to time.

Libraries are kept as `rt ci` keeps them, without their proofs, which each crate above would have to load: that takes half the
time of `rt lib`. What prints here goes to standard error."""
import concurrent.futures as futures
import fcntl
import filecmp
import hashlib
import os
import shutil
import signal
import subprocess
import sys
import threading
import time

from toolbox import proved
from toolbox.crates import CACHE, TOP, Crates
from toolbox.sources import size, stamp

STAGE = f'{CACHE}/zebludor/{hashlib.sha256(TOP.encode()).hexdigest()[:12]}'
LOG = f'{STAGE}/build.log'
MEMORY_OF_A_PROOF = 3 << 30
SHOWN_LINES = 25
TIMES = f'{STAGE}/times'  # the seconds of the last build from nothing, and its lanes
QUIET_SECONDS = 8
# Of a build from nothing on four processors: what a lane proves in a second, and what the compilation takes behind it.
BYTES_A_SECOND, COMPILATION_SECONDS = 1100, 100
# About how many seconds the proof of each crate of pcboard takes, with one job: sizes tell that badly, and only the order
# hangs on it.
SECONDS = {
    'board_types': 20,
    'bus': 5,
    'pic8259': 34,
    'pit8253': 47,
    'ppi8255': 12,
    'keyboard': 12,
    'mda_text': 28,
    'memory': 18,
    'scheduler': 9,
    'wiring': 51,
    'isa': 40,
    'dialect': 38,
    'assembler_lexeme': 23,
    'assembler_syntax': 90,
    'assembler_form': 35,
    'assembler_meaning': 50,
    'assembler': 70,
    'disassembler': 34,
    'digest': 25,
    'decode': 21,
    'decode_cache': 66,
    'execute_machine': 38,
    'execute_arith': 41,
    'execute_control': 25,
    'execute_transfer': 29,
    'execute_strings': 31,
    'execute_meaning': 14,
    'execute_slots': 6,
    'execute': 104,
    'cached_chips': 40,
    'board_plain': 25,
    'events': 30,
    'execute_noted': 17,
    'board_lines': 17,
    'debugger_meaning': 38,
    'board': 180,
    'streams': 18,
    'loader': 62,
    'pcboard_words': 50,
    'pcboard_texts': 45,
    'board_report': 12,
    'debugger': 50,
    'pcboard_program': 50,
    'pcboard': 62,
}


def copy_new(source, target):
    """Makes a folder's copy the same as the folder, but for what was built there."""
    os.makedirs(target, exist_ok=True)
    names = [each for each in os.listdir(source) if each != 'out']
    for name in set(os.listdir(target)) - {*names, 'out', 'BUILD.bazel'}:
        path = f'{target}/{name}'
        shutil.rmtree(path) if os.path.isdir(path) else os.remove(path)
    for name in names:
        old, new = f'{source}/{name}', f'{target}/{name}'
        if os.path.isdir(old):
            copy_new(old, new)
        elif not os.path.exists(new) or not filecmp.cmp(old, new, shallow=False):
            shutil.copyfile(old, new)


def stage(names):
    """Copies the crates, and answers the copies."""
    for name in names:
        copy_new(f'{TOP}/crates/{name}', f'{STAGE}/crates/{name}')
    shutil.copyfile(f'{TOP}/crates.txt', f'{STAGE}/crates.txt')
    return Crates(STAGE)


def lanes():
    """How many proofs fit side by side."""
    fixed = os.environ.get('RT_JOBS', '')
    if fixed.isdigit() and int(fixed):
        return int(fixed)
    with open('/proc/meminfo', encoding='ascii') as lines:
        free = next(int(line.split()[1]) << 10 for line in lines if line.startswith('MemAvailable:'))
    return max(1, min(len(os.sched_getaffinity(0)), free // MEMORY_OF_A_PROOF))


def estimate(names):
    """About how many seconds a build takes, from nothing."""
    count = lanes()
    try:
        with open(TIMES, encoding='ascii') as text:
            seconds, before = map(int, text.read().split())
        return seconds * before // count
    except (OSError, ValueError):
        return size(names) // (BYTES_A_SECOND * count) + COMPILATION_SECONDS


class Progress:
    """What standard error tells."""

    def __init__(self, program, count):
        self.program, self.count, self.done, self.began = program, count, 0, time.time()
        self.renews = sys.stderr.isatty()
        self.last_told = self.began

    def tell(self, text, stays=True):
        begin, end = ('\r\033[K', '\n' if stays else '') if self.renews else ('', '\n')
        print(f'{begin}{self.program}: {text}', end=end, file=sys.stderr, flush=True)
        self.last_told = time.time()

    def proved(self, name):
        self.done += 1
        self.tell(f'crate {self.done} of {self.count}: {name}, {self.seconds()} s so far', stays=False)

    def stay_in_touch(self, names):
        """Tells what is at work, where nothing was told for some seconds."""
        if time.time() - self.last_told >= QUIET_SECONDS:
            what = f'proving {", ".join(sorted(names))}'
            self.tell(f'{what}; {self.done} of {self.count} crates, {self.seconds()} s so far', stays=False)

    def seconds(self):
        return int(time.time() - self.began)


class Work:
    """Commands side by side, each in a session of its own, so that it can be stopped with all that it started."""

    def __init__(self, log):
        self.log, self.lock, self.running = log, threading.Lock(), set()

    def run(self, words, folder):
        """Runs a command to its end. What it prints goes to the log. Returns its status and what it printed."""
        process = subprocess.Popen(
            words, cwd=folder, stdin=subprocess.DEVNULL, stdout=subprocess.PIPE, stderr=subprocess.STDOUT, text=True, errors='replace', start_new_session=True
        )
        self.running.add(process)
        printed = process.communicate()[0]
        self.running.discard(process)
        with self.lock:
            self.log.write(f'== {os.path.basename(folder)}: {" ".join(words)}\n{printed}')
            self.log.flush()
        return process.returncode, printed

    def fail(self, folder, why):
        """Tells the log why a command that ended well failed, and returns the status."""
        with self.lock:
            self.log.write(f'{os.path.basename(folder)}: {why}\n')
        return 1

    def stop(self):
        for process in list(self.running):
            os.killpg(process.pid, signal.SIGTERM)


def seconds(name):
    """About how many seconds a lane proves a crate."""
    return SECONDS.get(name) or size([name]) / BYTES_A_SECOND


def ways(below):
    """How long all is proved from each crate on up to the program, on the longest way."""
    above = {name: [other for other in below if name in below[other]] for name in below}

    def way(name):
        if name not in found:
            found[name] = seconds(name) + max(map(way, above[name]), default=0)
        return found[name]

    found = {}
    return {name: way(name) for name in below}


def is_kept(path, made_of):
    """Whether a crate was proved of just this, and its verdict is known."""
    try:
        with open(path, encoding='ascii') as text:
            return text.read() == made_of and proved.recall(made_of) is not None
    except OSError:
        return False


def prove(crates, name, jobs, made_of, work):
    """Proves a crate and builds it, where that isn't kept. Returns the status."""
    folder = crates.folder(name)
    kept = f'{folder}/out/made_of'
    if is_kept(kept, made_of):
        return 0
    shutil.rmtree(f'{folder}/out', ignore_errors=True)
    os.makedirs(f'{folder}/out/rlib')
    status, printed = work.run(crates.command(name, jobs), folder)
    if status == -signal.SIGKILL and jobs > 1:  # most likely for memory
        status, printed = work.run(crates.command(name, 1), folder)
    verdict = proved.verdict_in(printed)
    if status == 0 and verdict is None:
        status = work.fail(folder, 'it ended well and told no verdict')
    if status == 0 and crates.is_program(name):
        status, _ = work.run(crates.link(name), folder)
    if status == 0:
        proved.remember(made_of, verdict)
        with open(kept, 'w', encoding='ascii') as to:
            to.write(made_of)
    return status


def jobs_of(name, meanwhile, count):
    """Two jobs for a proof beside which the other lanes would be idle, else one. By a second job it takes two thirds of the time
    and nearly half as much again of the processors', which other proofs use better."""
    return 2 if sum(map(seconds, meanwhile)) < (count - 1) * seconds(name) else 1


def build_all(crates, names, work, progress):
    """Proves and builds these crates, and so all that they stand on has to be among them: each once those that it names
    stand, and those on the longest way first. Whether all could be built."""
    count, done, running, known = lanes(), set(), {}, {}
    below = {name: set(crates.named[name]) & names for name in names}
    to_do, way = set(names), ways(below)
    with futures.ThreadPoolExecutor(count) as pool:
        try:
            while to_do or running:
                ready = sorted((name for name in to_do if below[name] <= done), key=way.get, reverse=True)
                for name in ready[: count - len(running)]:
                    to_do.discard(name)
                    meanwhile = [other for other in [*to_do, *running.values()] if name not in crates.below(other)]
                    jobs = jobs_of(name, meanwhile, count)
                    running[pool.submit(prove, crates, name, jobs, stamp(crates, name, known), work)] = name
                for future in futures.wait(running, 1, futures.FIRST_COMPLETED)[0]:
                    name = running.pop(future)
                    if future.result():
                        return False
                    done.add(name)
                    progress.proved(name)
                progress.stay_in_touch(running.values())
        finally:
            work.stop()
    return True


def hand_out(crates, target):
    """Puts what was built into the repository, and beside it the text PROVED."""
    made = os.path.basename(crates.made(target)).removesuffix('.o')
    to = f'{TOP}/crates/{target}/out/{made}'
    os.makedirs(os.path.dirname(to), exist_ok=True)
    shutil.copy(f'{crates.folder(target)}/out/{made}', f'{to}.new')
    os.replace(f'{to}.new', to)
    proved.note(to, crates, crates.below(target))


def lock(log, progress):
    """Waits until no other build is at work here."""
    try:
        fcntl.flock(log, fcntl.LOCK_EX | fcntl.LOCK_NB)
    except BlockingIOError:
        progress.tell('waiting for another build of it')
        fcntl.flock(log, fcntl.LOCK_EX)
