"""The clocks that hover tells, and those of the page, against those that a run takes: of every row of its table, with each shape of operand,
with prefixes and repeats, under both clock tables."""
from __future__ import annotations

import json
import re
import unittest
from dataclasses import dataclass

from tests.lsp_client import IT, Here
from tests.page_clocks import cost_of, instruction_of
from tests.support import ToolCase

from toolbox.lsp.instructions import Row, rows
from toolbox.program import Files, Session

# Shapes of memory, and where they are by the registers that are set before each line.
SHAPES = {'[1000h]': 0x1000, '[BX]': 0x1101, '[DI]': 0x1300, '[BX+SI]': 0x1141, '[BP+DI]': 0x2500, '[BP]': 0x1200, '[SI+4]': 0x44}
SHAPES |= {'[BX+DI+300h]': 0x2701, 'ES:[BP-2]': 0x11FE}
BEFORE = ('MOV AX,0', 'MOV DS,AX', 'MOV ES,AX', 'MOV BX,1101h', 'MOV BP,1200h', 'MOV SI,40h', 'MOV DI,1300h', 'MOV DX,0', 'MOV CX,3', 'RET')
OPERANDS = {
    'r8': 'DL',
    'rm8': 'BL',
    'r16': 'DX',
    'rm16': 'BX',
    'sr': 'ES',
    'sr (not CS)': 'ES',
    's8': '-3',
    'i8': '70h',
    'i16': '1234h',
    'n': '9',
    '[n]': '[1000h]',
}
ALL_SIX, STRINGS = 0x8D5, ('MOVS', 'CMPS', 'STOS', 'LODS', 'SCAS')
# What leaves all registers as they are for the next of its kind.
PLAIN = re.compile(r'(ADD|ADC|SUB|SBB|AND|OR|XOR|CMP|TEST|MOV|INC|DEC|NEG|NOT|XCHG|RO.|RC.|SH.|SA.) (BYTE |WORD )?(\[|ES:|DX,|DL,)')
TARGETS = ('rel8', 'rel16', 'SHORT rel8', 's:o')


@dataclass
class Case:
    """A line, what goes before it, and how many elements or shifts it makes. `to` stands for a label two instructions on."""

    text: str
    before: tuple[str, ...] = ()
    count: int = 0
    number: int = 0


def operand_cases(row: Row, name: str) -> list[Case]:
    """With a register, and with memory in each shape."""
    place = next((at for at, kind in enumerate(row.kinds) if kind in ('rm8', 'rm16', 'm')), None)
    words, count = [OPERANDS.get(kind, kind) for kind in row.kinds], 3 if 'CL' in row.kinds else 0
    if place is None:
        return [Case(f'{name} {",".join(words)}', count=count)]
    goes = name in ('CALL', 'JMP')
    found = [Case(f'{name} {",".join(words)}', ('MOV BX,to',) if goes else (), count)] if row.kinds[place] != 'm' else []
    size = {'m': 'FAR ' if goes else '', 'rm8': 'BYTE ', 'rm16': 'WORD '}[row.kinds[place]]
    name = name.removesuffix(' FAR')
    for shape, where in SHAPES.items():
        words[place] = f'{size}{shape}'
        value = ('to', 'SEG to') if goes else ('1',) if name in ('DIV', 'IDIV') else ()
        before = tuple(f'MOV WORD DS:[0{where + 2 * at:X}h],{written}' for at, written in enumerate(value))
        found.append(Case(f'{name} {",".join(words)}', before, count))
    return found


def cases_of(row: Row) -> list[Case]:
    """The cases of a row."""
    name = row.names[0]
    flags = [(f'MOV AX,{bits}', 'PUSH AX', 'POPF') for bits in (0, ALL_SIX)]
    if row.kinds and row.kinds[0] in TARGETS:
        word = 'SHORT to' if row.kinds[0] == 'SHORT rel8' else 'to'
        return [Case(f'{name} {word}', (*before, f'MOV CX,{cx}')) for before in flags for cx in (0, 1, 3)]
    if name in ('RET', 'RETF', 'IRET'):
        pushed = {'RET': (), 'RETF': ('PUSH CS',), 'IRET': ('PUSHF', 'PUSH CS')}[name]
        return [Case(f'{name} {"".join(OPERANDS[kind] for kind in row.kinds[:1] if kind)}'.strip().replace('1234h', '2'), (*pushed, 'MOV AX,to', 'PUSH AX'))]
    if name == 'INTO':
        return [Case(name, before) for before in flags]
    if name[:4] in STRINGS:
        found = [Case(name)]
        for word, repeats in (('REP', 3), ('REPNE', 1 if name[:4] in ('CMPS', 'SCAS') else 3), ('ES: REP', 3)):
            found += [Case(f'{word} {name}', ('MOV SI,6000h', 'MOV DI,6000h'), repeats), Case(f'{word} {name}', ('MOV CX,0',), 0)]
        return found
    if name in ('HLT',):
        return []
    found = operand_cases(row, 'JMP' if name == 'JMP FAR' else 'CALL' if name == 'CALL FAR' else name)
    return found + [
        Case(f'{word} {case.text}', case.before, case.count) for word in ('LOCK', 'CS: LOCK REP') for case in found[:1] if name in ('ADD', 'NOP', 'PUSH', 'SHL')
    ]


class Clocks(ToolCase):
    """Both tables, each in one run of all cases."""

    def setUp(self) -> None:
        super().setUp()
        self.cases = [made for row in rows() for made in cases_of(row)]
        self.cases += [Case('SHL BX,CL', ('MOV CL,0',), 0), Case('ROR BYTE [BX],CL', ('MOV CL,200',), 200)]
        lines = [
            'SEGMENT VECTORS AT 0',
            *(f'ORG {4 * vector}\nDW back,SEG back' for vector in (0, 3, 4, 0x70)),
            'ENDS',
            'SEGMENT MAIN AT 2000h',
            'start: MOV AX,0',
            'MOV SS,AX',
        ]
        lines = '\n'.join(lines).split('\n')
        for at, case in enumerate(self.cases):
            is_ready = at and PLAIN.match(case.text) and PLAIN.match(self.cases[at - 1].text)
            lines += [re.sub(r'\bto\b', f'to{at}', line) for line in (*(() if is_ready else ('MOV SP,8000h', 'CALL ready')), *case.before)]
            lines += [re.sub(r'\bto\b', f'to{at}', case.text), 'NOP', f'to{at}: NOP']
            case.number = len(lines) - 2
        lines += ['HLT', 'back: IRET', 'ready:', *BEFORE, 'ENDS', 'SEGMENT RESET AT 0FFFFh', 'JMP FAR start', 'ENDS']
        self.text = '\n'.join(lines)

    def run_by(self, table: str) -> dict[str, tuple[int, str]]:
        """By each instruction's address its clocks, those of all iterations of a repeat, and the address of the next one that ran."""
        source = self.file('it.asm', self.text)
        fields = {'version': 2, 'ram': 640, 'sw1': 0, 'sw2': 0, 'budget': 1_000_000, 'keys': [], 'timer': '8253', 'clocks': table}
        them = [['-1', '', '']]
        with Session(Files(source, self.file('it.json', json.dumps(fields)))) as session:
            while 'HLT' not in them[-1][2]:
                session.go(60)  # in which the trail has all that begin
                rows = [line.split(None, 2) for line in session.many('trail')]
                new = next((at for at, row in enumerate(rows) if int(row[0]) > int(them[-1][0])), len(rows))
                them += rows[new:]
        starts = [(int(clock), far) for at, (clock, far, _) in enumerate(them) if far != them[at - 1][1]]
        return {far: (then - clock, following) for (clock, far), (then, following) in zip(starts, starts[1:])}

    def test_of_each_row(self) -> None:
        server, covered = Here(), set[str]()
        server.open(self.text)
        self.assertEqual(server.found[IT], [])
        runs = {table: self.run_by(table) for table in ('C1', 'C2')}
        for case in self.cases:
            line = self.text.split('\n')[case.number - 1]
            shown = server.at('hover', case.number - 1, len(line) - len(line.lstrip()) + self.mnemonic(line))['contents']['value']
            found = instruction_of(server.server.documents[IT].answers.octets(case.number - 1))
            assert found
            covered.add(f'{found.row}')
            for table, run in runs.items():
                row, after = (server.server.documents[IT].answers.rows[case.number + shift] for shift in (-1, 0))
                clocks, following = run[f'{row}'.split()[0]]
                falls = following == f'{after}'.split()[0]
                text = re.search(rf'Clocks by {table}: (.*)', shown)
                assert text, shown
                cost = f'{cost_of(found, table == "C2")}'
                self.assertEqual(self.expected(cost, case.count, falls), clocks, (line, table, cost))
                self.assertEqual(text[1].strip(), re.sub(r' \([^)]*\)', '', cost), (line, table))
        self.assertEqual([known for known in rows() if f'{known}' not in covered and known.names != ('HLT',)], [])

    def mnemonic(self, line: str) -> int:
        """Where the mnemonic stands, after the prefixes."""
        found = re.match(r'(?:(?:[CDES]S:|LOCK|REP\w*) +)*', line)
        return len(found[0]) if found else 0

    def expected(self, text: str, count: int, falls: bool) -> int:
        """The sum that the page makes, with its bounds and parts held against it."""
        if taken := re.fullmatch(r'(\d+) if it (?:jumps|enters), else (\d+)', text):
            return int(taken[1 + falls])
        found = re.fullmatch(r'(\d+)(?: \+ (\d+) × (CL|elements), (\d+) to ([\d,]+))?(?: \((.*)\))?(?:; (\d+) more if it fails)?', text)
        assert found, text
        if found[6]:
            self.assertEqual(sum(map(int, re.findall(r' (\d+)(?:,|$)', found[6]))), int(found[1]), text)
        if found[2]:
            most = int(found[1]) + int(found[2]) * (255 if found[3] == 'CL' else 65535)
            self.assertEqual((int(found[4]), int(found[5].replace(',', ''))), (int(found[1]), most))
        return int(found[1]) + int(found[2] or 0) * count

    def test_halt_and_failed_division(self) -> None:
        lines = ' MOV SP,400h\n DIV CL\n NOP\nback: HLT\nENDS\nSEGMENT V AT 0\n DW back,SEG back'
        source, _ = self.program(lines)
        server = Here()
        with open(source, encoding='utf-8') as file:
            server.open(file.read())
        for table in ('C1', 'C2'):
            fields = {'version': 2, 'ram': 64, 'sw1': 0, 'sw2': 0, 'budget': 1000, 'keys': [], 'timer': '8253', 'clocks': table}
            with Session(Files(source, self.file('it.json', json.dumps(fields)))) as session:
                clocks = [int(session.one('step').split()[-1]) for _ in range(4)]
            matches = [re.search(rf'{table}: (\d+)(?:; (\d+) more if it fails)?', server.at('hover', *at)['contents']['value']) for at in ((3, 1), (5, 6))]
            assert matches[0] and matches[1]
            self.assertEqual(int(matches[0][1]) + int(matches[0][2]), clocks[2] - clocks[1])
            self.assertEqual(int(matches[1][1]), clocks[3] - clocks[2])


if __name__ == '__main__':
    unittest.main()
