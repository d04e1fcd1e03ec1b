"""The program itself: where it stands, runs of it, and sessions. zebludor.py chooses whether a process answers or the library."""
from __future__ import annotations

import re
import signal
from typing import TYPE_CHECKING, Any, NamedTuple, NoReturn

import zebludor
from zebludor import LAST_CLOCK, TOP, Ran, Unfit, apart, is_hex_name, limit_memory, limited, uninterrupted

from toolbox.command import UNREADABLE_STATUS, Sorry, Unreadable, handed_on, read_bytes, tool, write_bytes
from toolbox.threads import is_alone

if TYPE_CHECKING:
    import subprocess

__all__ = ['TOP', 'apart', 'is_hex_name', 'limit_memory']  # what is handed on of zebludor.py
MOST_READ = 1 << 26  # bytes of an answer
ASKED = 200  # questions that are asked at once: their answers fit in the pipe
BEFORE_START = 'fault 54 BeforeStart'
ENDING, ENDED = f'back {LAST_CLOCK + 1}', f'{BEFORE_START}\n'.encode()  # ends an answer of any length, as nothing else is answered


def path(name: str = 'pcboard') -> str:
    """The program of this name: the one that $PCBOARD, $PCPROBE or $PCMASM names, else the one that the launcher takes, or one that
    was built of other sources."""
    try:
        return zebludor.program(name)
    except Unfit as unfit:
        raise Sorry(str(unfit)) from None


def want() -> None:
    """Refuses if there is neither a program nor the library."""
    if not zebludor.library():
        path()


def run(words: list[str], given: bytes = b'', name: str = 'pcboard') -> Ran:
    """Runs a program to its end."""
    try:
        return zebludor.ran(words, given, MOST_READ, name)
    except zebludor.TooLong as unfit:
        raise Sorry(f'{unfit}; the speaker changes often there, so a smaller budget has less') from None
    except Unfit as unfit:
        raise Sorry(str(unfit)) from None


def given_text(words: list[str], text: str) -> Ran:
    """Runs the program on a source that is no file."""
    return run([*words, '--', '/dev/stdin'], text.encode('utf-8', 'surrogateescape'))


class Files(NamedTuple):
    """What a board is built from: a source or Intel HEX, and a run file; and of Intel HEX the file that tells its symbols, and the source
    that it was made of, if its lines are told."""

    file: str
    run_file: str
    is_hex: bool = False
    symbols: str | None = None
    source: str | None = None

    def words(self, task: str) -> list[str]:
        """The command line of a task on these files. `--` lets a name begin with a hyphen."""
        file, run_file = handed_on(self.file), self.run_file and handed_on(self.run_file)
        return [task, *(['--hex'] if self.is_hex else []), '--', file, run_file]


def copied(files: Files, room: str) -> Files:
    """Copies of the files in a folder: a session that is begun anew is of the same program, whatever is edited meanwhile."""
    made = files._replace(file=f'{room}/file', run_file=f'{room}/run')
    for path, to in ((files.file, made.file), (files.run_file, made.run_file)):
        write_bytes(to, read_bytes(path))
    return made


class Refusal(Sorry):
    """What the program refuses, as a sentence."""


def answer_of(words: list[str]) -> str:
    """What the program prints, or its refusal."""
    ran = run(words)
    if ran.status:
        raise refused(words, ran)
    return ran.out


def refused(words: list[str], ran: Ran) -> Sorry:
    """Why the program printed no answer; if it couldn't open a file, which one."""
    if ran.status != UNREADABLE_STATUS:
        return Refusal(refusal(ran.status, ran.err))
    for path in words[words.index('--') + 1 :]:
        read_bytes(path)  # which refuses that one
    return Unreadable(refusal(ran.status, ran.err))


def refusal(status: int, err: str) -> str:
    """A sentence for a run that printed no answer."""
    if status < 0:
        return f'the program was ended by signal {-status} ({signal.strsignal(-status)})'
    reason = err.strip() or ("a file couldn't be opened, read or written" if status == 3 else f'status {status}')
    return f'the program refuses: {reason} ({tool("why")} tells more)'


class Session(zebludor.Dialogue):
    """A session of `pcboard debug` on files."""

    name, task = 'pcboard', ['debug']

    def __init__(self, files: Files) -> None:
        try:
            super().__init__([*self.task, *files.words('')[1:]], self.name)
        except Unfit as unfit:
            raise Sorry(str(unfit)) from None

    def started(self, words: list[str], **how: Any) -> subprocess.Popen[bytes]:
        """Its process. One that a thread starts, as the desk's do, ends with this one, however that ends."""
        if is_alone():
            return super().started(words, **how)
        from toolbox.starting import started  # which a copy of the launcher's own modules doesn't have

        return started(limited(words), **how)

    def __enter__(self) -> Session:
        return self

    def __exit__(self, *_: object) -> None:
        self.close()

    def refused(self, status: int, err: str) -> NoReturn:
        """A sentence for what the program refuses."""
        raise Sorry(refusal(status, err))

    def is_answered(self, seconds: float | None) -> bool:
        """Whether the answer, or the end, of what was begun comes within so many seconds, or without a limit."""
        return self.way.is_answered(seconds)

    def stop(self, condition: str) -> str:
        """Adds a stop, and returns its answer; a refusal as a sentence."""
        return self.unrefused(self.one(condition))

    @staticmethod
    def unrefused(answer: str) -> str:
        """An answer that isn't a refusal."""
        if answer.startswith('fault'):
            raise Refusal(f'the debugger refuses: {answer}')
        return answer

    def meets(self, condition: str, clocks: int) -> bool:
        """Whether a run of so many clocks at most ends at a stop that is added."""
        self.stop(condition)
        return self.go(clocks).startswith('stop')

    def go(self, clocks: int) -> str:
        """Goes on by so many clocks at most."""
        return self.unrefused(self.one(f'go {clocks}'))

    def back_to_stop(self) -> bool:
        """Goes back to the last earlier clock at which a stop held, or stays where none did, and tells which."""
        answer = self.one('back stop')
        return answer != BEFORE_START and self.unrefused(answer).startswith('stop')

    def dump(self, address: int, count: int) -> bytes:
        """Bytes from a physical address on."""
        try:
            return super().dump(address, count)
        except zebludor.Fault as fault:
            self.unrefused(str(fault))
            raise

    def go_to(self, clock: int) -> None:
        """Goes to this clock, back or on, past every stop."""
        while self.clock != clock:
            self.unrefused(self.one(f'back {self.clock - clock}' if clock < self.clock else f'go {clock - self.clock}'))


class ProbeSession(Session):
    """A session of pcprobe, which also takes typed keys, tells what the chips hold, and what happens."""

    name, task = 'pcprobe', []

    def __init__(self, files: Files) -> None:
        super().__init__(files)
        self._owed, self._heard = 0, bytearray()

    def answers(self, commands: list[str]) -> list[str]:
        """The lines that commands are answered."""
        return self.answered(commands).decode('ascii').splitlines()

    def answered(self, commands: list[str]) -> bytes:
        """What commands are answered; a refusal as a sentence. An interrupt comes before or after the question, or while the answer is
        waited for; then that one is passed when another is asked for."""
        if self.way.is_within:
            self._send('\n'.join(commands))
            self.is_idle = True
            return self._unfaulty(self.way.out.read())
        with uninterrupted():
            self._owed += 1
            self._send('\n'.join([*commands, ENDING, '']))
        while not (self._heard.endswith(ENDED) and self._heard.count(ENDED) == self._owed):
            self.is_answered(None)
            with uninterrupted():
                piece = self.way.out.read1(1 << 16)  # type: ignore[attr-defined]
                self._heard += piece
            if not piece:
                self._ended()
        octets = bytes(self._heard).split(ENDED)[self._owed - 1]
        self._owed, self._heard, self.is_idle = 0, bytearray(), True
        return self._unfaulty(octets)

    @staticmethod
    def _unfaulty(octets: bytes) -> bytes:
        """Answers without a refusal."""
        if octets.startswith(b'fault') or b'\nfault' in octets:
            raise Sorry(f'pcprobe refuses: {octets[octets.index(b"fault") :].splitlines()[0].decode("ascii")}')
        return octets

    def lines(self, clocks: int, kinds: str) -> list[bytes]:
        """What happens in so many clocks, past all stops, of these kinds: lines as `events` prints them."""
        found = self.answered([f'events {clocks} {kinds}'])
        self.clock += clocks
        return found.split(b'\n')[:-2]

    def registers_at(self, clocks: list[int], end: int | None = None) -> bytes:
        """The answers to `regs` at these clocks, which rise: of a session without stops; with an end past all stops, and on to there."""
        return self._answers_at(clocks, 'regs', end)

    def latest_at(self, clocks: list[int], end: int | None = None) -> list[bytes]:
        """What began last before each of these clocks, which rise, as `registers_at`: the trail's lines without their clocks."""
        trails = re.split(rb'^clock \d+\n', self._answers_at(clocks, 'trail\ngo 0', end), flags=re.M)[1::2]
        return [trail[trail.rfind(b'\n', 0, -1) + 1 : -1].partition(b' ')[2] for trail in trails]

    def _answers_at(self, clocks: list[int], question: str, end: int | None) -> bytes:
        """What is answered at these clocks, some of them at once."""
        found, way = b'', 'go {}' if end is None else 'events {} keys'
        for at in range(0, len(clocks), ASKED):
            here, some = self.clock, clocks[at : at + ASKED]
            found += self.answered([f'{way.format(b - a)}\n{question}' for a, b in zip([here, *some], some)])
            self.clock = some[-1]
        if end is not None:
            self.lines(end - self.clock, 'keys')
        return found
