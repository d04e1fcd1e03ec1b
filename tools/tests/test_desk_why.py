"""What the desk's page says of a run that goes nowhere is what tools/why says: the engine under node tells of each case of Python's what
that tells, in its own words for keys and services."""
from __future__ import annotations

import unittest
from typing import Any, Iterator, NamedTuple

from tests import test_accusing, test_missteps, test_nowhere
from tests.desk_engine import Engine, with_node
from tests.mistaken import MISLEADING, QUIET, TOLD
from tests.support import ToolCase

from toolbox import nowhere
from toolbox.asking import Told, rows
from toolbox.command import read_text, tool
from toolbox.guests import Guest, prepared
from toolbox.nowhere import told_of_run
from toolbox.program import Files, answer_of
from toolbox.report import report_of
from toolbox.runfile import DEFAULTS, read_run_file, text_of
from toolbox.services import MOST_RAM

Fields = dict[str, Any]
REACH = 20_000_000  # so many busy clocks a page makes again
BARE = {'no reset': 'SEGMENT A AT 0\n NOP\n', 'bare call': 'SEGMENT A AT 0\n INT 21h\n'}
LONG = (
    (test_missteps.IN_RAM + ' MOV CX,60000\nover: LOOP over\n PUSH SS\n RET\n' + test_missteps.STACK, 1_300_000),
    (' JMP start', 10_000_000_000),
    (' DB 0Fh', 10_000_000_000),
    (test_accusing.READY.format(0, '') + test_accusing.VECTOR.format(0x20), 10_000_000_000),
    (test_nowhere.CODE_IN_RAM + 'MOV CX,100\nover: LOOP over\n MOV BX,CX', 9000),
    (test_nowhere.CODE_IN_RAM + 'MOV CX,100\nover: LOOP over\n MOV BX,CX', 1850),
    (test_nowhere.CODE_IN_RAM + 'MOV AX,200h\n PUSH AX\n RET 2', 900),
    (' MOV AX,5\n DIV BL\n HLT', 2_000_000),
    ('over: CALL sub1\n JC over\n JMP over\nsub1: RET', 3000),
    (' MOV BX,50\nouter: MOV CX,5000\nover: LOOP over\n DEC BX\n JNZ outer\n HLT', 2000),
    ('over: IN AL,63h\n TEST AL,80h\n JNZ over', 100_000),
)
# Programs with services: calls of what isn't there, and of what is; how they end.
SERVED = (
    " MOV AH,9\n MOV DX,msg\n INT 21h\n INT 20h\nmsg: DB 'no end'",
    " MOV AL,'x'\n MOV AH,2\n INT 21h\n INT 20h",
    " MOV AX,3D00h\n MOV DX,name\n INT 21h\n INT 20h\nname: DB 'none.txt',0",
    ' MOV AH,0Fh\n INT 21h\n MOV AH,0Fh\n INT 21h\n MOV CX,3\nmore: MOV AX,5\n INT 13h\n LOOP more\n INT 3',
    ' MOV BL,0\n DIV BL\n INT 20h',
    " CALL show\n INT 20h\nshow: MOV DL,'a'\n MOV AH,2\n INT 21h\n POP AX\n RET",
    ' JMP start',
)
# How a page gives keys and services, for how Python's tools do.
OTHERWISE = (
    (nowhere.WITH_SERVICES, 'with nothing at FFFF:0000 a source has services that answer (docs/services.md)'),
    (f"{tool('try')} --keys 'text' types", 'click the screen and type'),
    (f"{tool('try')} --services puts them into ROM", 'a desk without --bare puts them into ROM'),
)


class Case(NamedTuple):
    """A program, its run file, whether it is Intel HEX, and whether it has services."""

    source: str
    run: Fields
    is_hex: bool = False
    is_served: bool = False


@with_node
class Why(ToolCase):
    """An engine, and Python beside it."""

    def setUp(self) -> None:
        super().setUp()
        self.engine = Engine()
        self.addCleanup(self.engine.close)
        self.drawn = set[str]()

    def told_by_python(self, case: Case) -> tuple[int, list[Told]]:
        """The clock at which a run ends, and what is told of it."""
        source, run = self.file('it.hex' if case.is_hex else 'it.asm', case.source), self.file('it.json', text_of(case.run))
        if not case.is_served:
            files = Files(source, run, case.is_hex)
            report = report_of(answer_of(files.words('run')))
            return report.clock, told_of_run(report, files, reach=REACH)
        with prepared(Guest(source, None, True), Files(source, ''), case.run | {'ram': MOST_RAM}) as files:
            report = report_of(answer_of(files.words('run')))
            return report.clock, told_of_run(report, files, reach=REACH)

    def check(self, case: Case) -> None:
        """The same is told of a case."""
        clock, sentences = self.told_by_python(case)
        wanted = '\n'.join(one.text for one in sentences)
        for was, written in OTHERWISE:
            wanted = wanted.replace(was, written)
        how = {'services': True} if case.is_served else {'bare': True}
        opened = self.engine.ask({'do': 'open', 'source': case.source, 'run': case.run, 'hex': case.is_hex, 'how': how})
        self.assertIn('board', opened, opened)
        self.engine.ask({'do': 'go to', 'board': opened['board'], 'clock': clock})
        found = self.engine.ask({'do': 'why', 'board': opened['board']})
        self.assertEqual('\n'.join(found.get('told', [str(found)])), wanted, case)
        self.drawn |= {one.name for one in sentences}

    def check_all(self, cases: Iterator[Case]) -> None:
        """So of each."""
        for case in cases:
            self.check(case)

    def of(self, lines: str, budget: int, **more: Any) -> Case:
        """A program with these lines."""
        source, run = self.program(lines, budget)
        return Case(read_text(source), read_run_file(run) | more)

    def test_mistakes(self) -> None:
        """Those of which Python's tests know what is told, with their near misses."""
        self.check_all(self.of(text, 20_000) for _, lines, _, other in test_nowhere.CASES for text in (lines, other))

    def test_missteps(self) -> None:
        """So too of missteps."""
        self.check_all(self.of(text, 3_000_000) for _, lines, _, others in test_missteps.CASES for text in (lines, *others))
        keys = {'keys': [[2000, 5], [2500, 133]]}
        self.check_all(self.of(test_missteps.POLLING + lines, 20_000, **keys) for lines, _ in test_missteps.OF_CODES)

    def test_each_row(self) -> None:
        """Beginners' mistakes, and programs of which each of the table's rows is told."""
        self.check_all(self.of_mistake(mistake) for mistake in (*(mistake for mistake, _ in TOLD), *MISLEADING, *QUIET))
        for name, lines in test_accusing.ROWS.items():
            case = self.of(lines, 3_000_000)
            if name in BARE:
                case = case._replace(source=BARE[name])
            if name == 'scan code':
                case = case._replace(run=DEFAULTS | {'budget': 20_000, 'keys': [[2000, 5], [2500, 133]]})
            if name == 'past the end':
                case = case._replace(source=answer_of(['asm', self.file('it.asm', case.source)]), is_hex=True)
            self.check(case)
        for lines in test_accusing.SERVED_ROWS.values():
            self.check(Case(f'SEGMENT MAIN AT 100h\n ORG 100h\nstart:\n{lines}\nENDS\n', DEFAULTS, is_served=True))
        self.assertEqual(set(rows()) - self.drawn, set())

    def test_services(self) -> None:
        """Calls that ask for what isn't there, or that aren't among the services', and ends of programs."""
        sources = (f'SEGMENT MAIN AT 100h\n ORG 100h\nstart:\n{lines}\nENDS\n' for lines in SERVED)
        self.check_all(Case(source, DEFAULTS | {'budget': 3_000_000}, is_served=True) for source in sources)
        self.assertLessEqual({'asked for', 'services', 'division'}, self.drawn)

    def of_mistake(self, mistake: test_accusing.Mistake) -> Case:
        """A program with a mistake."""
        text, fields = test_accusing.made_of(mistake)
        return Case(text, DEFAULTS | fields, is_served=mistake[0] in test_accusing.SERVED)

    def test_others(self) -> None:
        """Ends of interrupt that came for others; ports that are none; what a long run's halves tell; runs that are long."""
        keys = {'keys': [[3000, 30], [20_000, 158]]}
        for mask, end, own in (('0FCh', '20h', ''), ('0FCh', '61h', ''), ('0', '20h', ' MOV AL,20h\n OUT 20h,AL\n')):
            self.check(self.of(test_accusing.TICKS_AND_KEYS.format(mask=mask, end=end, own=own), 60_000, **keys))
        for lines, budget in LONG:
            self.check(self.of(lines, budget))
        self.check(self.of(' PUSH AX\n HLT', 100, ram=16))


if __name__ == '__main__':
    unittest.main()
