"""Waveforms (VCD, IEEE 1364), which GTKWave and the like open. A processor clock counts 210 nanoseconds (4.77 MHz)."""
from __future__ import annotations

import io
from typing import IO, Container

from toolbox.report import NANOSECONDS


Changes = tuple[tuple[int, int], ...]
Values = tuple[int | None, ...]
MOST_KNOWN = 1 << 14


class Wave:
    """A waveform that is written as its changes come, in the order of their clocks. Each signal begins as 0, or as x, if its number is
    among the unknown ones."""

    def __init__(self, file: IO[str], signals: list[tuple[str, int]], unknown: Container[int] = ()) -> None:
        self._file, self._clock = file, -1
        self._values: Values = tuple(None if place in unknown else 0 for place in range(len(signals)))
        self._known: dict[tuple[Values, Changes], tuple[str, Values]] = {}
        signs = [chr(ord('!') + place) for place in range(len(signals))]
        self._forms = [('', f'{sign}\n') if width == 1 else ('b', f' {sign}\n') for sign, (_, width) in zip(signs, signals)]
        lines = ['$timescale 1 ns $end', '$scope module board $end']
        lines += [f'$var wire {width} {sign} {name} $end' for sign, (name, width) in zip(signs, signals)]
        lines += ['$upscope $end', '$enddefinitions $end', '#0', '$dumpvars']
        shown = (str('x' if value is None else value).join(form) for form, value in zip(self._forms, self._values))
        file.write('\n'.join(lines) + '\n' + ''.join(shown) + '$end\n')

    def write(self, clock: int, changes: Changes) -> None:
        """Writes a clock's changes, signals with their values; what stays as it was is none."""
        known = self._known.get((self._values, changes)) or self._text(changes)
        text, self._values = known
        if text:
            self._file.write(text if clock == self._clock else f'#{clock * NANOSECONDS}\n{text}')
            self._clock = clock

    def _text(self, changes: Changes) -> tuple[str, Values]:
        """The text of changes, and the values behind them, kept for the next time: loops have the same ones again and again."""
        text, values = '', list(self._values)
        for signal, value in changes:
            if value != values[signal]:
                text += f'{value:b}'.join(self._forms[signal])
                values[signal] = value
        if len(self._known) >= MOST_KNOWN:
            self._known.clear()
        found = self._known[self._values, changes] = text, tuple(values)
        return found

    def end(self, clock: int) -> None:
        """Writes the end of the run."""
        self._file.write(f'#{clock * NANOSECONDS}\n')


def waveform(end: int, name: str, changes: list[tuple[int, int]]) -> str:
    """The waveform of one signal of a bit."""
    text = io.StringIO()
    to = Wave(text, [(name, 1)])
    for clock, level in changes:
        to.write(clock, ((0, level),))
    to.end(end)
    return text.getvalue()
