"""A class's rows: what each file came to, its mark, and the rows as a table, as CSV and as JUnit's XML, whatever stands in names and
screens."""
from __future__ import annotations

import csv
import io
import os
from dataclasses import dataclass, field
from xml.etree import ElementTree

from toolbox.expectations import Outcome

FORMULA = ('=', '+', '-', '@')  # what a spreadsheet takes for the beginning of one


@dataclass
class Row:
    """A file's outcomes, why there are none, and a sum of its bytes; of a file without any it is empty."""

    file: str
    outcomes: list[Outcome]
    why: str = ''
    image: str = ''
    same: list[str] = field(default_factory=list)

    @property
    def met(self) -> int:
        """How many expectations are met."""
        return sum(outcome.but is None for outcome in self.outcomes)

    @property
    def mark(self) -> int:
        """The weights of those that are met by a run in which something ran."""
        return sum(outcome.weight for outcome in self.outcomes if outcome.but is None and outcome.has_run)

    @property
    def of(self) -> int:
        """All weights."""
        return sum(outcome.weight for outcome in self.outcomes)

    @property
    def cells(self) -> list[str]:
        """A word for each outcome, with what came."""
        return ['ok' if outcome.but is None else f'no: {outcome.but}' if outcome.but else 'no' for outcome in self.outcomes]


def visible(text: str) -> str:
    """A text of which all is seen: control signs, and bytes that aren't UTF-8, as escapes."""
    return ''.join(sign if sign.isprintable() else escaped(sign) for sign in text)


def escaped(sign: str) -> str:
    """A sign as an escape; a byte that isn't UTF-8, which Python keeps as a surrogate, by its own number."""
    return f'\\x{ord(sign) - 0xDC00:02x}' if 0xDC80 <= ord(sign) <= 0xDCFF else sign.encode('unicode_escape').decode('ascii')


def cell(text: str) -> str:
    """A text as a cell, which no spreadsheet takes for a formula."""
    seen = visible(text)
    return f"'{seen}" if seen.startswith(FORMULA) else seen


def line_of(cells: list[str]) -> str:
    """Cells as a line of the table, with tabs between."""
    return '\t'.join(cell(' '.join(part.split())) for part in cells)


def tell_copies(rows: list[Row]) -> list[list[str]]:
    """Notes in each row which other files have its bytes, and returns these groups."""
    groups = dict[str, list[Row]]()
    for row in rows:
        if row.image:
            groups.setdefault(row.image, []).append(row)
    for them in groups.values():
        for row in them:
            row.same = [other.file for other in them if other is not row]
    return [[copy.file for copy in them] for them in groups.values() if len(them) > 1]


def as_csv(said: list[str], rows: list[Row]) -> str:
    """The rows as comma-separated values, with a head."""
    out = io.StringIO()
    writer = csv.writer(out)
    writer.writerow(map(cell, ['file', 'mark', 'of', 'met', *said, 'why not', 'same bytes as']))
    for row in rows:
        writer.writerow([cell(row.file), row.mark, row.of, row.met, *map(cell, row.cells), cell(row.why), cell(', '.join(row.same))])
    return out.getvalue()


def as_junit(page: str, rows: list[Row]) -> str:
    """The rows as JUnit's XML: a suite for each file, a case for each expectation."""
    root = ElementTree.Element('testsuites', name=visible(page))
    for row in rows:
        is_told = not row.why
        failed = 0 if row.why else len(row.outcomes) - row.met
        counts = {'tests': len(row.outcomes), 'failures': failed, 'errors': 0 if is_told else len(row.outcomes)}
        suite = ElementTree.SubElement(root, 'testsuite', name=visible(row.file), **{name: str(count) for name, count in counts.items()})
        properties = ElementTree.SubElement(suite, 'properties')
        for name, value in (('mark', str(row.mark)), ('of', str(row.of)), *(('same bytes as', file) for file in row.same)):
            ElementTree.SubElement(properties, 'property', name=name, value=visible(value))
        for outcome in row.outcomes:
            case = ElementTree.SubElement(suite, 'testcase', classname=visible(os.path.basename(row.file)), name=visible(outcome.said))
            if not is_told:
                ElementTree.SubElement(case, 'error', message=visible(row.why))
            elif outcome.but is not None:
                ElementTree.SubElement(case, 'failure', message=visible(outcome.but))
    return ElementTree.tostring(root, encoding='unicode', xml_declaration=True) + '\n'
