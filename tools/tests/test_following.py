"""What lines of the probe tell of calls, beginnings, writes and requests: the cases in tests/following, and that
mistakes fail them."""
from __future__ import annotations

import json
import os
import types
import unittest
from typing import Any
from unittest import mock

from tests.support import TOP

from toolbox import following

CASES = f'{TOP}/tools/tests/following'
MODULE = f'{TOP}/tools/toolbox/following.py'
ENDED = 'if frame and follower.ended is frame'
ABOVE = 'is_own and level >= self.intact and (frame is None or level > frame.level)'
# Each is a mistake: texts of the module, and what stands there in their place.
PLANTED = {
    'a return by SP': [
        (f'        {ENDED}:\n            return True\n', ''),
        (ABOVE, 'follower.stack.level > self.begun'),
        ('        self.intact = follower', '        self.begun = self.intact = follower'),
    ],
    'an entry as a beginning': [('if wanted in line), None)', "if wanted in line or b' entry ' in line), None)")],
    'a halt as a beginning': [('if wanted in line), None)', "if wanted in line or line.endswith(b' halted')), None)")],
    'the first writer for the last': [('return trail[-1] if trail', 'return trail[0] if trail')],
    'a wait that outlives a fall': [
        ('        line.waits = clock if wire.is_high else None\n', '        line.waits = line.waits or (clock if wire.is_high else None)\n')
    ],
    'a key of clock 0 left out': [('return [0] * lost_before + [', 'return [')],
    'a dropped address': [(ABOVE, 'is_own and frame is None and level >= self.intact')],
    "a tick's IRET for the routine's": [(ENDED, 'if follower.ended and (follower.ended.is_entry or follower.ended is frame)')],
}


def state_of(words: dict[str, str]) -> tuple[int, int, int, tuple[int, int]]:
    """Registers as a case has them."""
    segment, pointer, flags, code, offset = (int(words[name], 16) for name in ('SS', 'SP', 'FL', 'CS', 'IP'))
    return segment, pointer, flags, (code, offset)


class Case:
    """A case: lines, and the answer, which an implementation of the module is asked for."""

    def __init__(self, module: Any, given: dict[str, Any]) -> None:
        self.module, self.given = module, given
        self.lines = [line.encode('ascii') for line in given['lines']]

    def answer(self) -> Any:
        """What the module answers."""
        return getattr(self, self.given['ask'])()

    def marks(self) -> Any:
        """The marks of the lines, with the registers that the case has."""
        reader = self.module.Marks()
        found = reader.of(self.lines) + reader.rest()
        for mark in found:
            if mark.asks_for_stack():
                mark.state = self.module.State(*state_of(self.given['states'][str(mark.clock + 1)]))
        return found

    def follower(self) -> Any:
        """A follower from the first line on."""
        return self.module.Follower(self.module.State(*state_of(self.given['state'])))

    def out(self) -> int | None:
        """The return that ends the routine that runs at a clock."""
        follower, marks = self.follower(), self.marks()
        for mark in marks:
            if mark.clock < self.given['begin']:
                follower.follow(mark)
        way = self.module.Out(follower, follower.nest[-1] if follower.nest else None)
        return next((mark.clock for mark in marks if mark.clock >= self.given['begin'] and way.ends(mark)), None)

    def over(self) -> int | None:
        """The return that ends what the first line calls."""
        follower, (first, *marks) = self.follower(), self.marks()
        follower.follow(first)
        way = self.module.Out(follower, follower.nest[-1])
        return next((mark.clock for mark in marks if way.ends(mark)), None)

    def callers(self) -> list[int]:
        """When the calls under way began, the innermost first."""
        follower = self.follower()
        for mark in self.marks():
            follower.follow(mark)
        return [frame.clock for frame in reversed(follower.nest)]

    def begins(self) -> int | None:
        """When the instruction at a place begins."""
        segment, _, offset = self.given['place'].partition(':')
        answer: int | None = self.module.begin_in(self.lines, (int(segment, 16), int(offset, 16)))
        return answer

    def wrote(self) -> list[str] | None:
        """What wrote a byte last: when, and where it stands."""
        last = self.module.writer_in(self.lines)
        return last and last.decode('ascii').split()[:2]

    def lost(self) -> list[int]:
        """When keys were lost."""
        found: list[int] = self.module.lost_in(self.lines, self.given['lost_before'])
        return found

    def requests(self) -> dict[str, object]:
        """What became of the requests of IR0: those of an entry are taken at the next start, of which one comes after
        each here."""
        requests, rise, entered = self.module.Requests(self.given['controller']), None, None
        for mark in self.marks_of_all():
            what = mark.what
            if isinstance(what, self.module.Wire):
                requests.wire(mark.clock, what)
            elif isinstance(what, self.module.Port):
                requests.port(what)
            elif isinstance(what, self.module.Entry):
                entered = requests.line_of(what.type)
                rise, entered.waits = entered.waits, None
                entered.is_taken(mark.next[0], rise)
        line = requests.lines[0]
        taken, fell = line.taken, line.fell
        stood = [fell.least, fell.most]
        return {
            'taken': taken.times,
            'least': taken.least,
            'most': taken.most,
            'fell': fell.times,
            'first': fell.first,
            'stood': stood,
            'forgotten': line.forgotten,
        }

    def marks_of_all(self) -> Any:
        """The marks of the lines, without registers."""
        reader = self.module.Marks()
        return reader.of(self.lines) + reader.rest()


def cases() -> dict[str, dict[str, Any]]:
    """The cases by their names."""
    found = {}
    for name in sorted(os.listdir(CASES)):
        with open(f'{CASES}/{name}', encoding='ascii') as file:
            found[name] = json.load(file)
    return found


def planted(mistake: list[tuple[str, str]]) -> Any:
    """The module with a mistake."""
    with open(MODULE, encoding='utf-8') as file:
        text = file.read()
    for old, new in mistake:
        assert text.count(old) == 1, old
        text = text.replace(old, new)
    module = types.ModuleType('planted')
    with mock.patch.dict('sys.modules', {'planted': module}):
        exec(compile(text, 'planted', 'exec'), module.__dict__)
    return module


class Cases(unittest.TestCase):
    """The module, and modules with mistakes."""

    def test_cases(self) -> None:
        """Each case's answer, which was read off its lines by hand."""
        for name, given in cases().items():
            self.assertEqual(Case(following, given).answer(), given['answer'], name)

    def test_mistakes(self) -> None:
        """Each of the mistakes fails a case."""
        for name, mistake in PLANTED.items():
            module = planted(mistake)
            failed = [case for case, given in cases().items() if Case(module, given).answer() != given['answer']]
            self.assertTrue(failed, name)


if __name__ == '__main__':
    unittest.main()
