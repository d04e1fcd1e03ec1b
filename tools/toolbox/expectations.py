"""Pages of expectations: what a page may say, and how a run is held against it."""
from __future__ import annotations

import re
from dataclasses import dataclass, field
from typing import Any, Callable

from zebludor import FLAGS

from toolbox.chips import Chips
from toolbox.command import Sorry, read_text, tool
from toolbox.events import first_start
from toolbox.listing import Listing, listing_of
from toolbox.places import address_of, count_of, far_of, hexadecimal, number_of
from toolbox.program import LAST_CLOCK, Files, ProbeSession, Session
from toolbox.report import HALVES, REGISTERS, ROWS, Report, value_in
from toolbox.scancodes import strokes_of
from toolbox.services import Served, served_of
from toolbox.shown import clipped

# What a chip's line tells, by its words (docs/probe.md).
CHIPS = (
    'controller (IR|IRR|ISR|IMR|lowest|INT|vector|awaits|LTIM|uPM|AEOI|rotates|SMM|P|RIS|risen|SNGL|IC4)',
    'counter [0-2] (mode|RW|BCD|count|newest|load|OUT|GATE|first|latch|high|loaded|due|strobe|decimal|status|latched|keeps)',
    'ports [ABC]',
    'keyboard (latch|lost|waiting)',
    'speaker level',
    'adapter (index|start|cursor|video|raster)',
    'processor (state|busy|IF|inhibits|step|repeat)',
)


class NotThere(Exception):
    """The source hasn't what an expectation speaks of, so it isn't met; its text says what."""


@dataclass
class Subject:
    """What is judged: a report, and where it was run here, its files, whose memory a session can tell."""

    report: Report
    files: Files | None = None
    session: ProbeSession | None = None
    listing: Listing | None = None
    chips: Chips | None = None
    left: Served | None = None

    def served(self) -> Served:
        """What the services left."""
        self.left = self.left or served_of(self.ran(), self.report.clock)
        if self.left is None:
            raise NotThere('no services: --services puts them into ROM, and a .COM or .EXE program has them')
        return self.left

    def held(self, line: str, word: str) -> str:
        """What a chip holds at the report's clock."""
        if self.chips is None:
            self.chips = Chips(self.board().answers(['chips']))
        return next((value for name, value in self.chips.lines[line].items() if name.lower() == word), '')

    def memory(self, place: str, count: int) -> bytes:
        """Bytes of memory at the report's clock."""
        return self.board().dump(self.place(address_of, place), count)

    def board(self) -> ProbeSession:
        """The board at the report's clock."""
        if self.session is None:
            self.session = ProbeSession(self.ran())
            self.session.go_to(self.report.clock)
        return self.session

    def ran(self) -> Files:
        """The files that were run here."""
        if self.files is None:
            raise Sorry('a report has no memory and no chips, and its run is over: give FILE and RUN in its place')
        return self.files

    def place(self, of: Callable[[Listing, str], Any], text: str) -> Any:
        """What a place of the source is."""
        if self.listing is None:
            self.listing = listing_of(self.ran())
        try:
            return of(self.listing, text)
        except Sorry:
            raise NotThere(f'no {text} in {self.ran().file}') from None

    def first_halt(self) -> int | None:
        """The first clock at which the processor is halted, or None."""
        with Session(self.ran()) as session:
            return session.clock if session.meets('halted', self.report.clock) else None


@dataclass(frozen=True)
class Outcome:
    """An expectation, and what came in its place, if it wasn't met; what it counts, and whether anything ran."""

    said: str
    but: str | None
    weight: int = 1
    has_run: bool = True


def plain(text: str) -> str:
    """A text as it was meant: without the quotes around it, else without the blanks at its ends."""
    text = text.strip()
    return text[1:-1].rstrip() if len(text) > 1 and text[0] == text[-1] == "'" else text


def shown_number(report: Report, name: str) -> str:
    """It as text, in as many digits as it has."""
    return f'{value_in(report.registers, name):0{1 if name in FLAGS else 2 if name in HALVES else 4}X}'


def judge_number(subject: Subject, name: str, wanted: str) -> str | None:
    """A register or flag."""
    return None if value_in(subject.report.registers, name) == number_of(wanted, 0xFFFF) else shown_number(subject.report, name)


def judge_line(subject: Subject, name: str, wanted: str) -> str | None:
    """A line of the screen."""
    at = int(name.split()[1])
    if not 1 <= at <= ROWS:
        raise Sorry(f'the screen has the lines 1 to {ROWS}')
    came = subject.report.screen[at - 1].rstrip()
    return None if came == plain(wanted) or came.strip() == wanted.strip() else repr(came)


def judge_shows(subject: Subject, _: str, wanted: str) -> str | None:
    """A text anywhere on the screen."""
    if any(plain(wanted) in line for line in subject.report.screen):
        return None
    filled = [line.rstrip() for line in subject.report.screen if line.strip()]
    if not filled:
        return 'a blank screen'
    return repr(filled[0]) if len(filled) == 1 else f'a screen with {len(filled)} lines, the first {filled[0]!r}'


def judge_word(subject: Subject, name: str, wanted: str) -> str | None:
    """The state, or a decimal count."""
    report = subject.report
    came = {'state': report.state, 'lost': report.lost, 'clock': report.clock, 'sound': len(report.changes)}[name]
    if name == 'state' and wanted not in ('running', 'halted', 'jammed'):
        raise Sorry(f'{wanted} is none of running, halted and jammed')
    if name != 'state' and not wanted.replace(',', '').isdecimal():
        raise Sorry(f'{wanted} is no decimal number')
    return None if str(came) == wanted.replace(',', '') else str(came)


def judge_speaker(subject: Subject, name: str, wanted: str) -> str | None:
    """The speaker's level at a clock: that of the last change up to there."""
    clock = int(name.split()[-1])
    if wanted not in ('0', '1') or clock > subject.report.clock:
        raise Sorry(f'{name} = {wanted}: levels are 0 and 1, and clocks go to {subject.report.clock} here')
    level = next((level for at, level in reversed(subject.report.changes) if at <= clock), 0)
    return None if str(level) == wanted else str(level)


def judge_memory(subject: Subject, name: str, wanted: str) -> str | None:
    """Bytes of memory, as numbers or as a text."""
    if wanted.startswith("'") and wanted.endswith("'") and len(wanted) > 2:
        octets = wanted[1:-1].encode()
        came = subject.memory(name.split()[1], len(octets))
        return None if came == octets else repr(came.decode('ascii', 'backslashreplace'))
    octets = bytes(number_of(word, 0xFF) for word in wanted.split())
    came = subject.memory(name.split()[1], len(octets))
    return None if came == octets else came.hex(' ').upper()


def judge_chip(subject: Subject, name: str, wanted: str) -> str | None:
    """What a chip holds, by a word of its line; an 8253 has no status."""
    *line, word = name.split()[1:]
    came = subject.held(' '.join(line), word)
    return None if is_same(came.split(), wanted.split()) else came or 'none'


def is_same(came: list[str], wanted: list[str]) -> bool:
    """Whether values are those that are wanted: by their digits, however a page writes them, else by their text."""
    if wanted == ['none'] and not came:
        return True
    return len(came) == len(wanted) and all(a.lower() == b.lower() or hexadecimal(a) == hexadecimal(b) is not None for a, b in zip(came, wanted))


def judge_not_shown(subject: Subject, _: str, wanted: str) -> str | None:
    """A text nowhere on the screen."""
    found = next((n for n, line in enumerate(subject.report.screen, 1) if plain(wanted) in line), None)
    return f'line {found}, {subject.report.screen[found - 1].rstrip()!r}' if found else None


def judge_exit(subject: Subject, _: str, wanted: str) -> str | None:
    """The exit code."""
    if not wanted.isdecimal() or int(wanted) > 255:
        raise Sorry(f'{wanted} is no exit code, 0 to 255')
    left = subject.served()
    is_so = left.how in (0x20, 0x4C) and left.phase == 2 and left.code == int(wanted)
    return None if is_so else left.ending or f'no end up to clock {subject.report.clock}'


def judge_output(subject: Subject, _: str, wanted: str) -> str | None:
    """All that the program wrote by DOS, but for line ends behind it."""
    left = subject.served()
    try:
        left.whole()
    except Sorry as sorry:
        return str(sorry)
    came = left.text.rstrip('\n')
    return None if came == plain(wanted).replace('\\n', '\n').replace('\\t', '\t').rstrip('\n') else repr(came)


def judge_halt(subject: Subject, name: str, wanted: str) -> str | None:
    """The clock of the first halt: before one, or from one to another."""
    least, most = span(wanted) if name == 'clocks used' else (0, span(wanted)[0] - 1)
    came = subject.first_halt()
    if came is None:
        return f'no halt up to clock {subject.report.clock}'
    return None if least <= came <= most else str(came)


def judge_runs(subject: Subject, name: str, wanted: str) -> str | None:
    """Whether the instruction at a place ever began."""
    place = subject.place(far_of, wanted)
    with ProbeSession(subject.ran()) as session:
        clock = first_start(session, place, subject.report.clock)
    if name == 'runs':
        return None if clock is not None else 'never'
    return None if clock is None else f'clock {clock}'


def span(text: str) -> tuple[int, int]:
    """A count of clocks, or one from a least to a most."""
    found = re.fullmatch(r'([\d,]+)(?:\s+to\s+([\d,]+))?', text)
    if not found:
        raise Sorry(f'{text} is no decimal number, and no two as in 1000 to 2000')
    least = int(found[1].replace(',', ''))
    return least, int((found[2] or found[1]).replace(',', ''))


JUDGES: tuple[tuple[str, Callable[[Subject, str, str], 'str | None']], ...] = (
    (r'line \d+', judge_line),
    (r'shows|shown', judge_shows),
    (r'not shown', judge_not_shown),
    (r'halted before|clocks used', judge_halt),
    (r'runs|never runs', judge_runs),
    (r'exit', judge_exit),
    (r'output', judge_output),
    (r'state|lost|clock|sound', judge_word),
    (r'speaker at \d+', judge_speaker),
    (r'memory \S+', judge_memory),
    (f'chip ({"|".join(CHIPS)})', judge_chip),
    ('|'.join((*REGISTERS, *HALVES, *FLAGS)), judge_number),
)
FIELDS = {'keys': 'keys', 'plain keys': 'keys', 'ram': 'ram', 'sw1': 'sw1', 'sw2': 'sw2', 'budget': 'budget'}
# A place that may be a label, or is a number: what else is told of a place is the page's mistake.
PLACE = r'[A-Za-z_.?@][\w.$#@~?]*(\+[0-9A-Fa-f]+)?|:\d+|[0-9A-Fa-f]{1,4}:[0-9A-Fa-f]{1,4}|[0-9A-Fa-f]{1,5}h?'
NOTHING = Served(1, 0, 0, None, 0, b'', 0, 0)
ANY = Report(LAST_CLOCK, dict.fromkeys(REGISTERS, 0), '', 0, [], [' ' * 80] * ROWS)


@dataclass(frozen=True)
class Expectation:
    """A line of a page."""

    name: str
    wanted: str
    judge: Callable[[Subject, str, str], 'str | None']
    where: str
    weight: int = 1

    def said(self, title: str = '') -> str:
        """What is expected, of the run with this name."""
        return f'{title}{title and ": "}{self.name} = {self.wanted}'

    def outcome(self, subject: Subject | str, title: str = '') -> Outcome:
        """What a run came to, or a refusal in its place."""
        if isinstance(subject, str):
            return Outcome(self.said(title), subject, self.weight, False)
        as_said = self.name.upper() if self.judge is judge_number else self.name.lower() if self.judge is not judge_memory else self.name
        try:
            came = self.judge(subject, as_said, self.wanted)
        except NotThere as sorry:
            came = str(sorry)
        except Sorry as sorry:
            raise type(sorry)(f'{self.where}: {sorry}') from None
        return Outcome(self.said(title), None if came is None else f'came {clipped(came)}', self.weight, has_run(subject.report))


def has_run(report: Report) -> bool:
    """Whether any instruction ran: the processor hasn't jammed at the first one."""
    return report.state != 'jammed' or (report.registers['CS'], report.registers['IP']) != (0xFFFF, 0)


@dataclass
class Planned:
    """A run that a page asks for: its name, its run file's fields, of `keys` the strokes, what is expected of it, and whether it is a secret."""

    title: str = ''
    fields: dict[str, Any] = field(default_factory=dict)
    is_hidden: bool = False
    expectations: list[Expectation] = field(default_factory=list)


def expectation_of(name: str, wanted: str, where: str, line: str, weight: int = 1) -> Expectation:
    """A line of a page that is an expectation, whose words any run could be held against."""
    judge = next((judging for form, judging in JUDGES if re.fullmatch(form, name, re.I)), None)
    if not wanted or judge is None:
        raise Sorry(f'{where} is no expectation: {line.strip()} ({tool("judge")} --help)')
    found = Expectation(name, wanted, judge, where, weight)
    place = name.split()[1] if judge is judge_memory else wanted if judge is judge_runs else None
    if place and not re.fullmatch(PLACE, place):
        raise Sorry(f'{where}: {place} is no label, no hexadecimal address, no SEGMENT:OFFSET and no :LINE')
    if judge is judge_memory and not wanted.startswith("'"):
        if bad := [word for word in wanted.split() if hexadecimal(word, 0xFF) is None]:
            raise Sorry(f'{where}: {bad[0]} is no hexadecimal byte')
    elif judge is judge_halt:
        try:
            span(wanted)
        except Sorry as sorry:
            raise Sorry(f'{where}: {sorry}') from None
    elif judge is judge_exit:
        found.outcome(Subject(ANY, left=NOTHING))
    elif judge not in (judge_memory, judge_runs, judge_chip, judge_output):
        found.outcome(Subject(ANY))
    return found


def field_of(name: str, text: str, where: str) -> Any:
    """A run file's field as a page says it; of keys, the strokes."""
    try:
        if FIELDS[name] == 'keys':
            return strokes_of(text, name == 'plain keys')
        return count_of(text, most=1 << 64)
    except Sorry as sorry:
        raise Sorry(f'{where}: {sorry}') from None


WEIGHT, MOST_WEIGHT = re.compile(r'\s*\[([^\]]*)\](.*)'), 999


def weight_of(text: str, where: str) -> int:
    """What an expectation counts, as a page says it in brackets before it."""
    if not re.fullmatch('[0-9]{1,3}', text.strip()) or not int(text):
        raise Sorry(f'{where}: [{text}] is no weight: a whole number from 1 to {MOST_WEIGHT}, as in [2]')
    return int(text)


def page_of(path: str) -> list[Planned]:
    """A page's runs; one without a line `run` has one."""
    runs = [Planned()]
    for number, line in enumerate(read_text(path).splitlines(), 1):
        if line.strip() and not line.lstrip().startswith('#'):
            read_line(runs, line, f'{path}, line {number}')
    runs = runs if runs[0].fields or runs[0].is_hidden or runs[0].expectations or len(runs) == 1 else runs[1:]
    empty = next((planned for planned in runs if not planned.expectations), None)
    if empty:
        raise Sorry(f'{path} has no expectations' + (f' of the run {empty.title}' if empty.title else ''))
    return runs


def read_line(runs: list[Planned], line: str, where: str) -> None:
    """Adds to the runs what a line says."""
    weighed = WEIGHT.match(line)
    weight = weight_of(weighed[1], where) if weighed else 1
    name, _, wanted = (part.strip() for part in (weighed[2] if weighed else line).partition('='))
    name, word = ' '.join(name.split()), ' '.join(name.split()).lower()
    is_head = word in (*FIELDS, 'hidden', 'run') and wanted != ''
    if is_head and weighed:
        raise Sorry(f'{where}: a weight stands before an expectation, and {name} is none')
    if word == 'run' and wanted:
        runs.append(Planned(wanted))
    elif is_head and runs[-1].expectations:
        raise Sorry(f'{where}: {name} stands before what is expected; another run begins with run = ITS NAME')
    elif word == 'hidden' and wanted:
        if wanted.lower() != 'yes':
            raise Sorry(f'{where}: hidden = yes keeps a run a secret, and without the line it is none')
        runs[-1].is_hidden = True
    elif is_head:
        runs[-1].fields[FIELDS[word]] = field_of(word, wanted, where)
    else:
        runs[-1].expectations.append(expectation_of(name, wanted, where, line, weight))
