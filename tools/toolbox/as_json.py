"""Answers as JSON: one object in a line, whose form docs/formats.md#json and schema.json tell."""
from __future__ import annotations

import json
import os
from typing import TYPE_CHECKING, Any, Iterable

if TYPE_CHECKING:
    from toolbox.expectations import Outcome
    from toolbox.faults import Fault
    from toolbox.report import Report

FORMAT = 1  # another number if a field goes, or means something else
SCHEMA = os.path.join(os.path.dirname(__file__), 'schema.json')
Fields = dict[str, Any]


def option(reader: Any) -> None:
    """The option by which a tool prints so."""
    reader.add_argument('--json', action='store_true', help='print one JSON object instead (docs/formats.md#json)')


def print_answer(tool: str, status: int, **fields: Any) -> int:
    """Prints a tool's answer, and returns its exit status."""
    print(json.dumps({'tool': tool, 'format': FORMAT, 'status': status} | fields, separators=(',', ':')), flush=True)
    return status


def at(far: tuple[int, int] | None) -> str | None:
    """A place as reports and trails write it."""
    return '%04X:%04X' % far if far else None


def report_fields(report: Report) -> Fields:
    """A report. Blanks at the ends of lines, and blank lines at the screen's end, are left out."""
    screen = report.text.split('\n') if report.text else []
    sound = [[clock, level] for clock, level in report.changes]
    return {'clock': report.clock, 'state': report.state, 'registers': dict(report.registers), 'lost': report.lost, 'sound': sound, 'screen': screen}


def fault_fields(fault: Fault | None) -> Fields | None:
    """A refusal by the program."""
    return {'number': fault.number, 'name': fault.kind.name, 'of': fault.kind.of, 'line': fault.line} if fault else None


def outcome_fields(outcome: Outcome) -> Fields:
    """What came of an expectation."""
    return {'said': outcome.said, 'met': outcome.but is None, 'came': outcome.but, 'weight': outcome.weight}


def row_fields(rows: Iterable[Any]) -> list[Fields]:
    """The rows of a class."""
    found = []
    for row in rows:
        from dataclasses import asdict  # and here alone, since it takes long to load

        fields = asdict(row) | {'mark': row.mark, 'of': row.of, 'met': row.met, 'outcomes': [] if row.why else list(map(outcome_fields, row.outcomes))}
        found.append({name: fields[name] for name in ('file', 'met', 'mark', 'of', 'outcomes', 'why', 'same')})
    return found
