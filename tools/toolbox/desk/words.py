"""What the page may ask of tools/desk: what is of files. All else is answered by the page's own engine."""
from __future__ import annotations

import base64
import os
from dataclasses import asdict
from typing import Any

from toolbox import foreign
from toolbox.command import Sorry
from toolbox.desk.drafts import Change, Drafts
from toolbox.desk.files import Given, Kept, difference
from toolbox.desk.http import Refused
from toolbox.desk.pages import examples, files_of, grammar, page_of
from toolbox.intel_hex import image_of
from toolbox.runfile import DEFAULTS
from toolbox.symbols import symbols_of

Fields = dict[str, Any]
LAST_NUMBER = 1 << 53
# Of a source that is taken by its look: what takes it otherwise.
OTHERWISE = {'masm': '; tools/desk --dialect takes it otherwise', 'served': '; tools/desk --bare runs it without'}


def want(fields: Fields, name: str, kind: type, default: Any = None) -> Any:
    """A field of a question, of this type."""
    value = fields.get(name, default)
    if type(value) is not kind:
        raise Refused(400, f'{name} is missing, or of another type')
    return value


def numbers(given: list[Any], least: int, most: int) -> list[int]:
    """A list of numbers within bounds."""
    if not all(type(number) is int and least <= number <= most for number in given):
        raise Refused(400, f'a list of numbers from {least} to {most} is wanted')
    return given


def sums_in(fields: Fields) -> list[Any]:
    """The sums by which a page names what it has read of the command's files."""
    sums = want(fields, 'sums', list)
    if len(sums) != 2 or not all(checksum is None or isinstance(checksum, str) for checksum in sums):
        raise Refused(400, 'the sums of two files are wanted')
    return sums


class Desk:
    """The files and drafts, and what is asked of them, by methods `on_` a word."""

    def __init__(self, given: Given, drafts: Drafts) -> None:
        self.given, self.drafts = given, drafts
        self.files = Kept(given, drafts.folder)

    def answer(self, fields: Fields) -> Fields:
        """Answers a question. What is refused to the user, and not to the page, is a sentence."""
        answers = getattr(self, f'on_{want(fields, "do", str).replace(" ", "_")}', None)
        if answers is None:
            raise Refused(404, 'no such question')
        try:
            return dict(answers(fields))
        except Sorry as sorry:
            return {'sorry': str(sorry)}
        except RecursionError:
            raise Refused(400, 'a question nests no lists so deep') from None

    def on_hello(self, _: Fields) -> Fields:
        """What the page begins with. It is offered the drafts of FILE, and those of no file that were written since this desk began;
        without FILE all of no file."""
        found = {'examples': [asdict(example) for example in examples()], 'defaults': DEFAULTS, 'grammar': grammar(), 'given': None}
        self.drafts.amiss = None
        free = self.drafts.of_file(None)
        if not self.given.file:
            return found | {'how': self._how(None), 'drafts': free, 'amiss': self.drafts.amiss}
        given, symbols = self.files.read(), None
        try:
            symbols = symbols_of_file(self.given, given['source'])
        except Sorry as sorry:
            self.drafts.amiss = str(sorry)
        settled = self.drafts.settled(self.given.file, given['source'], DEFAULTS | given['run'])
        drafts = [draft for draft in self.drafts.of_file(self.given.file) if not settled or draft['id'] != settled['id']]
        drafts += [draft for draft in free if draft['time'] >= self.drafts.begun]
        return found | {'how': self._how(symbols), 'given': given | {'settled': settled}, 'drafts': drafts, 'amiss': self.drafts.amiss}

    def _how(self, symbols: Fields | None) -> Fields:
        """How the command's words say that sources are taken, and what a file of symbols tells of FILE."""
        guest = self.given.guest
        language = guest.language if guest.language in ('masm', 'dialect') else None
        words = {'bare': guest.is_bare, 'services': guest.is_served, 'language': language, 'args': guest.args}
        return words | {'otherwise': OTHERWISE, 'symbols': symbols}

    def on_example(self, fields: Fields) -> Fields:
        """An example's files."""
        name = want(fields, 'name', str)
        source, run = files_of(name)
        return {'name': f'{os.path.basename(name)}.asm', 'source': source, 'run': run, 'hex': False}

    def on_page(self, fields: Fields) -> Fields:
        """A page of docs/."""
        return {'html': page_of(want(fields, 'name', str))}

    def on_include(self, fields: Fields) -> Fields:
        """A text that a source of MASM includes: one beside FILE, or ours."""
        file = self.given.file
        home = os.path.dirname(os.path.abspath(file)) if file else foreign.OWN
        there, octets = foreign.included(file or 'the source', want(fields, 'name', str), home)
        return {'name': os.path.basename(there), 'bytes': base64.b64encode(octets).decode()}

    def on_keep(self, fields: Fields) -> Fields:
        """Writes a page's text and fields to the files that the command's words name. What was written is no draft any more."""
        source, run = want(fields, 'source', str), want(fields, 'run', dict)
        return self.files.write(source, run, sums_in(fields), want(fields, 'over', bool, False))

    def on_changed(self, fields: Fields) -> Fields:
        """What another hand has changed in those files since the page has read them."""
        return self.files.changed(want(fields, 'source', str), sums_in(fields))

    def _of(self, fields: Fields) -> str | None:
        """The file that a draft is of: FILE, or none."""
        return self.given.file if want(fields, 'given', bool) else None

    def on_keep_draft(self, fields: Fields) -> Fields:
        """Keeps what a page holds until it is saved. `again`: the page has to send all of it, with a later number than this."""
        kinds = {'name': str, 'source': str, 'hex': bool, 'run': dict, 'stops': list}
        counts = [want(fields, name, int, 0) for name in ('number', 'base', 'at', 'drop')]
        draft = {name: want(fields, name, kind) for name, kind in kinds.items()}
        last = self.drafts.keep(self._of(fields), want(fields, 'id', str), draft, Change(*numbers(counts, 0, LAST_NUMBER)))
        return {} if last is None else {'again': last}

    def on_drop_draft(self, fields: Fields) -> Fields:
        """Forgets a draft."""
        self.drafts.drop(self._of(fields), want(fields, 'id', str), want(fields, 'number', int, 0))
        return {}

    def on_draft(self, fields: Fields) -> Fields:
        """A draft, and how it differs from what the page holds."""
        draft, source = self.drafts.one(self._of(fields), want(fields, 'id', str)), want(fields, 'source', str)
        return draft | {'difference': difference(source, draft['source'], ('this page', 'the draft'))}


def symbols_of_file(given: Given, source: str) -> Fields | None:
    """What a file of symbols tells of Intel HEX with this text, if one is given: labels, labels of sections without bytes, the source's
    text beside places, and data, without lines, which the editor hasn't."""
    if not given.symbols or not source:
        return None
    found = symbols_of(given.symbols, image_of(source))
    lines = {**found.modules, **found.at}
    return {
        'of': source,
        'labels': list(found.labels.items()),
        'absent': sorted(map(str.lower, found.absent)),
        'texts': [(line.address, found.source_text(line)) for line in lines.values() if line.address],
        'data': [{'name': one.name, 'line': 0, 'kind': one.kind, 'place': one.place, 'length': one.length} for one in found.data],
    }
