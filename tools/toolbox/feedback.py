"""What a student is told of a submission: a folder with a text, the file itself, and run file and page of each run that failed, so that
one command repeats it. Of a run that the page hides it is told alone whether all was met."""
from __future__ import annotations

import contextlib
import os
import re
import shlex
import tempfile
from typing import Iterator

from toolbox.command import Sorry, read_bytes, tool
from toolbox.expectations import Outcome, Planned, Subject
from toolbox.explaining import explained, of_a_report
from toolbox.faults import Fault, fault_in
from toolbox.guests import Guest
from toolbox.marks import Row, visible
from toolbox.program import TOP, Files
from toolbox.writing import write_all, write_whole

TEXT = 'feedback.txt'
HEAD = "Type the commands below in Zebludor's folder, with this folder copied into it."


def folders_of(files: list[str], into: str) -> list[str]:
    """A folder for each file, in one that is new or empty: files of one name are told apart by the folder they stand in."""
    try:
        os.makedirs(into, exist_ok=True)
        if os.listdir(into):
            raise Sorry(f'{into} has files already, and none is written over: --feedback takes a folder that is empty or not there')
    except OSError as error:
        raise Sorry(f"{into} can't be a folder: {error.strerror}") from None
    taken, found = set[str](), list[str]()
    for file in files:
        stem = os.path.splitext(plain_name(file))[0]
        above = plain_name(os.path.dirname(os.path.abspath(file)))
        name = next(candidate for candidate in names_from(stem, above) if candidate.lower() not in taken)
        taken.add(name.lower())
        found.append(os.path.join(into, name))
    return found


def names_from(stem: str, above: str) -> Iterator[str]:
    """Names for a folder, as short as they can be."""
    yield stem
    yield f'{above}-{stem}'
    number = 2
    while True:
        yield f'{above}-{stem}-{number}'
        number += 1


def plain_name(path: str) -> str:
    """A file's own name in letters and digits, which no shell takes for more than a name."""
    found = re.sub(r'[^\w.]', '_', visible(os.path.basename(path)))
    return re.sub(r'^[.]+', '_', found) or '_'


class Feedback:
    """A submission's folder, which is filled while the submission is judged: what ends its judge leaves what was told up to there."""

    def __init__(self, folder: str, guest: Guest, words: list[str], is_hex: bool) -> None:
        self.folder, self.guest, self.words, self.is_hex = folder, guest, words, is_hex
        self.name, self._known = plain_name(guest.file), set[tuple[str, ...]]()
        tell(folder, [self.name, '', HEAD, ''])

    def tell(self, lines: list[str]) -> None:
        """Adds lines to the text."""
        tell(self.folder, [scrubbed(line, self.guest.file) for line in lines])

    def path(self, name: str) -> str:
        """A file of the folder."""
        return os.path.join(self.folder, name)

    def begins(self, number: int, planned: Planned, files: Files) -> None:
        """Before a run: its files."""
        if number == 1:
            copy_whole(self.guest.file, self.path(self.name))
        if planned.is_hidden:
            return
        copy_whole(files.run_file, self.path(f'{number}.json'))
        page = ''.join(f'{expectation.said()}\n' for expectation in planned.expectations)
        write_whole(self.path(f'{number}.page'), page.encode('utf-8', 'surrogateescape'))

    def ends(self, number: int, planned: Planned, files: Files, subject: Subject | str, outcomes: list[Outcome]) -> None:
        """Behind a run: what was expected and what came; and of one that failed how it is repeated, and why it went wrong."""
        is_met, fault = all(outcome.but is None for outcome in outcomes), fault_in(subject.removeprefix('refused: ')) if isinstance(subject, str) else None
        is_refused = fault is not None and fault.kind.of == 'source'
        if planned.is_hidden:
            self.tell([f'A hidden run: {"met" if is_met else "not met"}'])
        else:
            self.tell([f'{planned.title or "The run"}:'])
            self.tell(
                [
                    f'  ok  {expectation.said()}' if came.but is None else f'  no  {expectation.said()}: {came.but}'
                    for expectation, came in zip(planned.expectations, outcomes)
                ]
            )
            words = [word for word in self.words if not word.startswith('--memory') or fault and fault.kind.name == 'Memory']
            self.tell([] if is_met or is_refused else commands(self.folder, self.name, words, number))
        if is_met or is_refused:
            drop(self.folder, number)
        if not is_met and (is_refused or not planned.is_hidden):
            self.explain(files, subject, fault)
        self.tell([''])

    def explain(self, files: Files, subject: Subject | str, fault: Fault | None) -> None:
        """What tools/why tells, once."""
        lines = of_a_report(subject.report, files, 'judge') if isinstance(subject, Subject) else []
        if fault:
            lines = explained(fault, self.guest.file, files.run_file, self.is_hex)
            lines += [f'{tool("why")} --all {os.path.basename(self.folder)}/{self.name} tells every refused line'] if fault.kind.of == 'source' else []
        if lines and tuple(lines) not in self._known:
            self._known.add(tuple(lines))
            self.tell([f'  {line}' for line in lines])


def commands(folder: str, name: str, words: list[str], number: int) -> list[str]:
    """The commands that repeat a run, and show it, if its files are there."""
    if not os.path.exists(os.path.join(folder, f'{number}.json')):
        return []
    under = os.path.basename(folder)
    file, more = f'{under}/{name}', ''.join(f' {shlex.quote(word)}' for word in words)
    return [f'  {tool("judge")} {under}/{number}.page {file} {under}/{number}.json{more}', f'  {tool("try")} {file} --run {under}/{number}.json{quoted(words)}']


def quoted(words: list[str]) -> str:
    """The words that tools/try takes as tools/judge does."""
    return ''.join(f' {shlex.quote(word)}' for word in words if not word.startswith('--memory'))


def drop(folder: str, number: int) -> None:
    """Removes a run's files."""
    for ending in ('json', 'page'):
        with contextlib.suppress(FileNotFoundError):
            os.remove(os.path.join(folder, f'{number}.{ending}'))


def scrubbed(line: str, file: str) -> str:
    """A line without paths of this machine, and with all signs visible."""
    for path in (file, os.path.realpath(file)):
        line = line.replace(path, plain_name(file))
    them = {TOP, os.getcwd(), os.path.expanduser('~'), tempfile.gettempdir()}
    for place in sorted((folder for folder in them if len(folder) > 1), key=len, reverse=True):
        line = line.replace(f'{place}/', '').replace(place, '')
    return visible(line)


def copy_whole(path: str, to: str) -> None:
    """Copies a file: all of it, or none."""
    write_whole(to, read_bytes(path))


def tell(folder: str, lines: list[str]) -> None:
    """Adds lines to a folder's text, which is there then: all of them, or none."""
    os.makedirs(folder, exist_ok=True)
    handle = os.open(os.path.join(folder, TEXT), os.O_WRONLY | os.O_CREAT | os.O_APPEND | os.O_CLOEXEC, 0o666)
    before = os.fstat(handle).st_size
    try:
        write_all(handle, ''.join(f'{line}\n' for line in lines).encode())
    except OSError:
        os.ftruncate(handle, before)
        raise
    finally:
        os.close(handle)


def close(folder: str, row: Row, words: list[str], copy: str) -> None:
    """The text's end: why the file's judge was ended, with the run at which that was, and the mark. Of a file that couldn't be read there
    is no copy, and its text begins here."""
    if not os.path.isdir(folder):
        tell(folder, [plain_name(row.file), ''])
    if row.why:
        at = max((int(name[:-5]) for name in os.listdir(folder) if re.fullmatch('[0-9]+[.]json', name)), default=0) if os.path.isdir(folder) else 0
        again = commands(folder, plain_name(row.file), words, at) or not_begun(folder, copy, words)
        tell(folder, [f'Not judged: {scrubbed(row.why, row.file)}', *again, ''])
    tell(folder, [f'Mark: {row.mark} of {row.of}'])


def not_begun(folder: str, copy: str, words: list[str]) -> list[str]:
    """The command that repeats the refusal of a file of which no run began, with the file itself, if it could be read."""
    name = plain_name(copy)
    if not os.path.isfile(copy) or os.path.exists(os.path.join(folder, name)):
        return []
    with contextlib.suppress(OSError):
        copy_whole(copy, os.path.join(folder, name))
        return [f'  {tool("try")} {os.path.basename(folder)}/{name}{quoted(words)}']
    return []
