"""The report, as python/zebludor.py reads it, and what isn't one told as the tools tell it."""
from __future__ import annotations

from zebludor import COLUMNS, FLAGS, HALVES, REGISTERS, ROWS, Fault, Report, Unfit, read_report, registers_of

from toolbox.command import Sorry, tool

__all__ = ['A_SECOND', 'COLUMNS', 'FLAGS', 'HALVES', 'HERTZ', 'NANOSECONDS', 'REGISTERS', 'ROWS', 'Report', 'registers_of', 'report_of', 'value_in']
# The real board's clock is a third of 14.318180 MHz.
HERTZ = 14318180 / 3
NANOSECONDS, A_SECOND = 210, 4_772_727  # of a clock, and in clocks


def report_of(text: str, name: str = 'standard input') -> Report:
    """A report's text as a report, or a sentence that says where it isn't one."""
    try:
        return read_report(text)
    except Fault as fault:
        raise Sorry(f'{name} is a refusal and no report: {fault} ({tool("why")} tells more)') from None
    except Unfit:
        raise Sorry(f'{name} is no report of pcboard run (docs/formats.md, "Report")') from None


def value_in(registers: dict[str, int], name: str) -> int:
    """A register, a half of one, or a flag."""
    if name in FLAGS:
        return registers['FL'] >> FLAGS[name] & 1
    if name in HALVES:
        whole, shift = HALVES[name]
        return registers[whole] >> shift & 0xFF
    return registers[name]
