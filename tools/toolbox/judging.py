"""Holding runs of a file against a page of expectations."""
from __future__ import annotations

import hashlib
from typing import ContextManager, Iterator

from toolbox import guests
from toolbox.command import Unreadable, read_bytes
from toolbox.expectations import Outcome, Planned, Subject
from toolbox.faults import fault_in
from toolbox.feedback import Feedback
from toolbox.guests import LONGEST, Fields, Guest, prepared
from toolbox.intel_hex import image_of, parts_of
from toolbox.program import Files, given_text, refused, run
from toolbox.report import report_of


def fields_of(planned: Planned, guest: Guest, run_file: str | None, usual: Fields | None = None) -> Fields:
    """The run file's fields of a planned run: RUN's, or the usual ones, and before these the page's."""
    more = dict(planned.fields)
    return guests.fields_for(guest, run_file, more | guests.typed(guest, more.get('keys')), usual)


def files_of(planned: Planned, guest: Guest, run_file: str | None, is_hex: bool, symbols: str | None = None) -> ContextManager[Files]:
    """The files of a planned run: RUN itself, or a copy with the page's fields; or a program with services."""
    given = Files(guest.file, run_file or '', is_hex and not guest.is_one, symbols)
    is_own = run_file and not planned.fields and not guest.is_one
    return prepared(guest, given, None if is_own else fields_of(planned, guest, run_file))


def subject_of(files: Files) -> Subject | str:
    """A run, or the program's refusal of its file."""
    words = files.words('run')
    ran = run(words)
    fault = fault_in(ran.err)
    if ran.status == 1 and fault and fault.kind.of in ('source', 'hex', 'board'):
        return f'refused: {ran.err.strip()}'
    if ran.status:
        raise refused(words, ran)
    return Subject(report_of(ran.out, 'the answer'), files)


def outcomes_of(planned: Planned, subject: Subject | str) -> Iterator[Outcome]:
    """What a run came to, expectation by expectation."""
    try:
        for expectation in planned.expectations:
            yield expectation.outcome(subject, planned.title)
    finally:
        if isinstance(subject, Subject) and subject.session:
            subject.session.close()


def judge_file(
    page: list[Planned], guest: Guest, run_file: str | None, is_hex: bool, symbols: str | None = None, feedback: Feedback | None = None
) -> list[Outcome]:
    """All that a page expects of a file; a student is told of it, if `feedback` is given."""
    read_bytes(guest.file, LONGEST)
    found: list[Outcome] = []
    for number, planned in enumerate(page, 1):
        with files_of(planned, guest, run_file, is_hex, symbols) as files:
            if feedback:
                feedback.begins(number, planned, files)
            subject = subject_of(files)
            outcomes = list(outcomes_of(planned, subject))
            if feedback:
                feedback.ends(number, planned, files, subject, outcomes)
            found += outcomes
    return found


def sum_of(guest: Guest, is_hex: bool) -> str:
    """A sum of a program's bytes at their addresses, whatever its text is like: empty if it has none, or is refused."""
    octets = read_bytes(guest.file, LONGEST)
    text = octets.decode('ascii', 'replace') if is_hex else image_text(guest)
    if text is not None:
        octets = repr(parts_of(image_of(text))).encode()
        octets = b'' if octets == b'{}' else octets
    return hashlib.sha256(octets).hexdigest() if octets else ''


def image_text(guest: Guest) -> str | None:
    """The Intel HEX of a source, empty if it is refused; None of what is no source, or another compiler's."""
    if guest.language == 'masm':
        from toolbox import foreign

        try:
            return given_text(['asm'], foreign.translation_of(guest.file).text).out
        except foreign.Refused:
            return ''
    return run(['asm', '--', guest.file]).out if guest.is_source else None


def keep(page: list[Planned], guest: Guest, run_file: str | None, is_hex: bool, name: str) -> None:
    """Keeps the run file of each run, and of a program with services its image. None is written over."""
    for number, planned in enumerate(page, 1):
        with files_of(planned, guest, run_file, is_hex) as files:
            stem = name if len(page) == 1 else f'{name}-{number}'
            for path, end in ((files.run_file, 'json'), *([(files.file, 'hex')] if guest.is_one else [])):
                keep_one(path, f'{stem}.{end}')


def keep_one(path: str, to: str) -> None:
    """Copies a file to where none is."""
    octets = read_bytes(path)
    try:
        with open(to, 'xb') as new:
            new.write(octets)
    except OSError as error:
        raise Unreadable(f"{to} can't be written: {error.strerror}") from None
