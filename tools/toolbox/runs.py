"""Files of a run with another run file, and what a run of them comes to."""
from __future__ import annotations

import contextlib
import os
import tempfile
from typing import Any, Iterator

from toolbox.command import Sorry, tool
from toolbox.program import Files, answer_of
from toolbox.report import Report, report_of
from toolbox.runfile import read_run_file, text_of


@contextlib.contextmanager
def with_fields(files: Files, fields: dict[str, Any]) -> Iterator[Files]:
    """The same files, with a run file of these fields."""
    with tempfile.TemporaryDirectory(prefix='zebludor-') as room:
        path = os.path.join(room, 'run.json')
        with open(path, 'w', encoding='utf-8') as file:
            file.write(text_of(fields))
        yield files._replace(run_file=path)


def report_at(files: Files, clock: int) -> Report:
    """The report of the same files with this clock as their budget."""
    with with_fields(files, read_run_file(files.run_file) | {'budget': clock}) as them:
        return report_of(answer_of(them.words('run')), 'the answer')


def budget_of(files: Files) -> int:
    """The run file's budget."""
    budget = read_run_file(files.run_file).get('budget')
    if isinstance(budget, bool) or not isinstance(budget, int):
        raise Sorry(f'{files.run_file} has no budget ({tool("why")} tells more)')
    return budget
