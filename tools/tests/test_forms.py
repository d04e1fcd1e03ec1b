"""What `forms` of pcprobe tells of instructions: by rows that were made by hand after the 8086's manual and docs/machine.md, and by the
steps of crates/step_cases, whose values come from outside."""
from __future__ import annotations

import re
import unittest
from dataclasses import dataclass
from typing import Iterator

from parts.cases import cases_of
from tests.support import ToolCase, example

from toolbox import forms
from toolbox.program import run

# Bytes, and what they do at 0100:0000: where they lead and how they move SP; what they change; what they reach; their clocks by both
# tables, of which the second has 4 more for each word of data.
ROWS = '''
90 | next 0100:0001 0 | AX - | 0 0 none | 3 3
B0 08 | next 0100:0002 0 | AX - | 0 0 none | 4 4
B4 08 | next 0100:0002 0 | AX - | 0 0 none | 4 4
BF 34 12 | next 0100:0003 0 | DI - | 0 0 none | 4 4
BC 34 12 | next 0100:0003 loads | SP - | 0 0 none | 4 4
8B E5 | next 0100:0002 loads | SP - | 0 0 none | 2 2
8A 17 | next 0100:0002 0 | DX - | 1 0 none | 13 13
8B 47 02 | next 0100:0003 0 | AX - | 2 0 none | 17 21
89 16 34 12 | next 0100:0004 0 | none - | 0 2 none | 15 19
A2 34 12 | next 0100:0003 0 | none - | 0 1 none | 10 10
A1 34 12 | next 0100:0003 0 | AX - | 2 0 none | 10 14
26 A1 34 12 | next 0100:0004 0 | AX - | 2 0 none | 12 16
8E D8 | next 0100:0002 0 | DS - | 0 0 none | 2 2
8E D0 | next 0100:0002 0 | SS - | 0 0 none | 2 2
8C 1F | next 0100:0002 0 | none - | 0 2 none | 14 18
8E 07 | next 0100:0002 0 | ES - | 2 0 none | 13 17
C6 07 05 | next 0100:0003 0 | none - | 0 1 none | 15 15
8D 76 FE | next 0100:0003 0 | SI - | 0 0 none | 11 11
C4 3F | next 0100:0002 0 | DI,ES - | 4 0 none | 21 29
C5 37 | next 0100:0002 0 | SI,DS - | 4 0 none | 21 29
93 | next 0100:0001 0 | AX,BX - | 0 0 none | 3 3
94 | next 0100:0001 loads | AX,SP - | 0 0 none | 3 3
87 0F | next 0100:0002 0 | CX - | 2 2 none | 22 30
86 E0 | next 0100:0002 0 | AX - | 0 0 none | 4 4
D7 | next 0100:0001 0 | AX - | 1 0 none | 11 11
9F | next 0100:0001 0 | AX - | 0 0 none | 4 4
9E | next 0100:0001 0 | none SZAPC | 0 0 none | 4 4
98 | next 0100:0001 0 | AX - | 0 0 none | 2 2
99 | next 0100:0001 0 | DX - | 0 0 none | 5 5
50 | next 0100:0001 -2 | SP - | 0 2 none | 11 15
06 | next 0100:0001 -2 | SP - | 0 2 none | 10 14
FF 37 | next 0100:0002 -2 | SP - | 2 2 none | 21 29
5B | next 0100:0001 2 | BX,SP - | 2 0 none | 8 12
5C | next 0100:0001 loads | SP - | 2 0 none | 8 12
17 | next 0100:0001 2 | SP,SS - | 2 0 none | 8 12
8F 07 | next 0100:0002 2 | SP - | 2 2 none | 22 30
9C | next 0100:0001 -2 | SP - | 0 2 none | 10 14
9D | next 0100:0001 2 | SP ODITSZAPC | 2 0 none | 8 12
03 C3 | next 0100:0002 0 | AX OSZAPC | 0 0 none | 3 3
83 C4 06 | next 0100:0003 6 | SP OSZAPC | 0 0 none | 4 4
83 EC 06 | next 0100:0003 -6 | SP OSZAPC | 0 0 none | 4 4
83 E4 FE | next 0100:0003 loads | SP OSZAPC | 0 0 none | 4 4
83 FC 06 | next 0100:0003 0 | none OSZAPC | 0 0 none | 4 4
44 | next 0100:0001 1 | SP OSZAP | 0 0 none | 2 2
4C | next 0100:0001 -1 | SP OSZAP | 0 0 none | 2 2
47 | next 0100:0001 0 | DI OSZAP | 0 0 none | 2 2
FE 07 | next 0100:0002 0 | none OSZAP | 1 1 none | 20 20
FF 0F | next 0100:0002 0 | none OSZAP | 2 2 none | 20 28
F7 D8 | next 0100:0002 0 | AX OSZAPC | 0 0 none | 3 3
F6 D3 | next 0100:0002 0 | BX - | 0 0 none | 3 3
A8 01 | next 0100:0002 0 | none OSZAPC | 0 0 none | 4 4
F6 E3 | next 0100:0002 0 | AX OC | 0 0 none | 70 70
F7 EB | next 0100:0002 0 | AX,DX OC | 0 0 none | 128 128
F6 F3 | may-enter vector 00 -6/0 | AX,SP IT | 4/0 6/0 none | 131/80 151/80
F7 3F | may-enter vector 00 -6/0 | AX,DX,SP IT | 6/2 6/0 none | 227/176 251/180
D0 E0 | next 0100:0002 0 | AX OSZPC | 0 0 none | 2 2
D3 E3 | next 0100:0002 0 | BX OSZPC | 0 0 none | 8+4cl 8+4cl
D1 C0 | next 0100:0002 0 | AX OC | 0 0 none | 2 2
27 | next 0100:0001 0 | AX SZAPC | 0 0 none | 4 4
37 | next 0100:0001 0 | AX AC | 0 0 none | 4 4
D4 0A | next 0100:0002 0 | AX SZP | 0 0 none | 83 83
D5 0A | next 0100:0002 0 | AX SZP | 0 0 none | 60 60
E4 21 | next 0100:0002 0 | AX - | 0 0 in,21,1 | 10 10
ED | next 0100:0001 0 | AX - | 0 0 in,DX,2 | 8 8
E6 40 | next 0100:0002 0 | none - | 0 0 out,40,1 | 10 10
E7 40 | next 0100:0002 0 | none - | 0 0 out,40,2 | 10 10
EE | next 0100:0001 0 | none - | 0 0 out,DX,1 | 8 8
A4 | next 0100:0001 0 | SI,DI - | 1 1 none | 18 18
A5 | next 0100:0001 0 | SI,DI - | 2 2 none | 18 26
F3 A5 | repeat 0100:0002 0 | CX,SI,DI - | 2 2 none | 11+17n 11+25n
F3 AA | repeat 0100:0002 0 | CX,DI - | 0 1 none | 11+10n 11+10n
AC | next 0100:0001 0 | AX,SI - | 1 0 none | 12 12
F2 AE | repeat 0100:0002 0 | CX,DI OSZAPC | 1 0 none | 11+15n 11+15n
A7 | next 0100:0001 0 | SI,DI OSZAPC | 4 0 none | 22 30
EB FE | jump 0100:0000 0 | none - | 0 0 none | 15 15
E9 00 01 | jump 0100:0103 0 | none - | 0 0 none | 15 15
EA 34 12 78 56 | jump 5678:1234 0 | none - | 0 0 none | 15 15
FF E3 | jump register 0 | none - | 0 0 none | 11 11
FF 27 | jump memory 0 | none - | 2 0 none | 23 27
FF 2F | jump memory 0 | none - | 4 0 none | 29 37
74 FE | branch 0100:0000 0 | none - | 0 0 none | 16/4 16/4
E2 FE | branch 0100:0000 0 | CX - | 0 0 none | 17/5 17/5
E3 10 | branch 0100:0012 0 | none - | 0 0 none | 18/6 18/6
E8 FD FF | call 0100:0000 -2 | SP - | 0 2 none | 19 23
9A 34 12 78 56 | call 5678:1234 -4 | SP - | 0 4 none | 28 36
FF D3 | call register -2 | SP - | 0 2 none | 16 20
FF 17 | call memory -2 | SP - | 2 2 none | 26 34
FF 1F | call memory -4 | SP - | 4 4 none | 42 58
C3 | return stack 2 | SP - | 2 0 none | 8 12
C2 04 00 | return stack 6 | SP - | 2 0 none | 12 16
CB | return stack 4 | SP - | 4 0 none | 18 26
CA 04 00 | return stack 8 | SP - | 4 0 none | 17 25
CF | return stack 6 | SP ODITSZAPC | 6 0 none | 32 44
CC | enter vector 03 -6 | SP IT | 4 6 none | 52 72
CD 21 | enter vector 21 -6 | SP IT | 4 6 none | 51 71
CE | may-enter vector 04 -6/0 | SP IT | 4/0 6/0 none | 53/4 73/4
F4 | halt 0100:0001 0 | none - | 0 0 none | 2 2
F8 | next 0100:0001 0 | none C | 0 0 none | 2 2
FA | next 0100:0001 0 | none I | 0 0 none | 2 2
FD | next 0100:0001 0 | none D | 0 0 none | 2 2
9B | next 0100:0001 0 | none - | 0 0 none | 3 3
0F | nothing none 0 | none - | 0 0 none | 0 0
'''


def row_of(text: str) -> tuple[str, str]:
    """A row's bytes, and the line that tells of them."""
    octets, leads, changes, reaches, clocks = text.split(' | ')
    does, *to, moves = leads.split()
    sets, alters = changes.split()
    read, written, ports = reaches.split()
    line = f'does {does} to {" ".join(to)} sp {moves} sets {sets} alters {alters} mem {read} {written} ports {ports} clocks {clocks}'
    return octets, f'0100:0000 {octets.replace(" ", "")} {line}'


NAMES = ('AX', 'CX', 'DX', 'BX', 'SP', 'BP', 'SI', 'DI', 'ES', 'CS', 'SS', 'DS', 'IP', 'FL')
BITS = {'C': 0, 'P': 2, 'A': 4, 'Z': 6, 'S': 7, 'T': 8, 'I': 9, 'D': 10, 'O': 11}
LINE = re.compile(
    r'0100:0000 (?P<octets>\w+) does (?P<does>\S+) to (?P<to>.+) sp (?P<sp>\S+) sets (?P<sets>\S+) alters (?P<alters>\S+) '
    r'mem (?P<read>\S+) (?P<written>\S+) ports (?P<ports>\S+) clocks (?P<C1>\S+) (?P<C2>\S+)'
)


@dataclass(frozen=True)
class Step:
    """A step of an instruction: registers before it and after it, the bytes that it reads and writes, its accesses of ports, its clocks
    by a table."""

    octets: str
    before: dict[str, int]
    after: dict[str, int]
    read: int
    written: int
    ports: list[str]
    clocks: int
    table: str

    def differs(self, form: dict[str, str]) -> Iterator[str]:
        """What isn't as a line tells of the instruction."""
        before, after = self.before, self.after
        sets = form['sets'].split(',')
        yield from (name for name in NAMES if name not in ('CS', 'IP', 'FL', *sets) and before[name] != after[name])
        yield from (flag for flag, bit in BITS.items() if flag not in form['alters'] and (before['FL'] ^ after['FL']) >> bit & 1)
        if form['sp'] != 'loads' and (after['SP'] - before['SP']) % 65536 not in [int(move) % 65536 for move in form['sp'].split('/')]:
            yield 'sp'
        few = 1 if form['does'] in ('repeat', 'enter') else 0  # no element is left, or what it pushes stands over the vector
        for count, places in ((self.read, form['read']), (self.written, form['written'])):
            if count not in [*map(int, places.split('/'))] and not (few and count < int(places)):
                yield 'mem'
        if self.ports != ports_of(form['ports'], before['DX']):
            yield 'ports'
        if not any(self.takes(clocks) for clocks in form[self.table].split('/')):
            yield 'clocks'
        if form['does'] in ('next', 'halt', 'branch', 'jump', 'call') and (after['CS'], after['IP']) not in self.places(form):
            yield 'to'

    def takes(self, clocks: str) -> bool:
        """Whether it takes so many clocks, which may be for some elements or places."""
        each = re.fullmatch(r'(\d+)\+(\d+)(?:n|cl)', clocks)
        return self.clocks == int(clocks) if not each else self.clocks == int(each[2]) or (self.clocks - int(each[1])) % int(each[2]) == 0

    def places(self, form: dict[str, str]) -> list[tuple[int, int]]:
        """Where the line has it lead, told of 0100:0000, from where it stands."""
        segment, offset = self.before['CS'], self.before['IP']
        following = [(segment, (offset + len(form['octets']) // 2) % 65536)] if form['does'] == 'branch' else []
        is_named = re.fullmatch(r'([0-9A-F]{4}):([0-9A-F]{4})', form['to'])
        if not is_named:
            return [(self.after['CS'], self.after['IP'])]
        to = int(is_named[1], 16), int(is_named[2], 16)
        return [*following, (segment, (offset + to[1]) % 65536) if to[0] == 0x100 else to]


def ports_of(said: str, dx: int) -> list[str]:
    """The accesses that a line tells, in the form of the cases."""
    if said == 'none':
        return []
    way, port, count = said.split(',')
    first = dx if port == 'DX' else int(port, 16)
    return [f'{way[0].upper()}{(first + each) % 65536:04X}' for each in range(int(count))]


def steps() -> Iterator[Step]:
    """The cases of single steps of instructions, with the table of clocks that holds there."""
    table = 'C1'
    for case in cases_of('step_cases'):
        if case.startswith('table '):
            table = case.split()[1]
        if not case.startswith('step '):
            continue
        registers, octets, read, after, written, ports, clocks, *_ = case.split(' | ')
        before, after = (dict(zip(NAMES, (int(word, 16) for word in words.split()[-14:]))) for words in (registers, after))
        lists = [[] if words.strip() == '-' else words.split() for words in (read, written, ports)]
        yield Step(octets, before, after, len(lists[0]), len(lists[1]), [port.split('=')[0] for port in lists[2]], int(clocks), table)


class Forms(ToolCase):
    """Over the built program."""

    def answers(self, lines: list[str]) -> list[str]:
        """What a session on an example answers."""
        ran = run(['--', *example('ticks')], ('\n'.join(lines) + '\n').encode(), 'pcprobe')
        self.assertEqual(ran.status, 0, ran.err)
        return ran.out.splitlines()

    def test_rows(self) -> None:
        """Each kind of instruction does what is told, and no more is told."""
        rows = [row_of(text) for text in ROWS.strip().splitlines()]
        found = self.answers([line for octets, _ in rows for line in (f'set 1000 {octets}', 'forms 100:0 1')])
        self.assertEqual(found[1::2], [wanted for _, wanted in rows])

    def test_steps(self) -> None:
        """Each step of an instruction leads where it is told, changes nothing that isn't told, and reaches what is told in clocks that are told."""
        found = [step for step in steps() if len(step.octets) <= 32]
        asked = sorted({step.octets for step in found})
        forms = dict[str, re.Match[str] | None]()
        for some in (asked[first : first + 200] for first in range(0, len(asked), 200)):
            commands = [line for octets in some for line in (f'set 1000 {" ".join(re.findall("..", octets))}', 'forms 100:0 1')]
            forms |= zip(some, map(LINE.fullmatch, self.answers(commands)[1::2]))
        self.assertGreater(len(asked), 3000)
        for step in found:
            form = forms[step.octets]
            assert form
            if form['does'] != 'nothing':
                self.assertEqual([*step.differs(form.groupdict())], [], (step, form[0]))

    def test_offsets_wrap(self) -> None:
        """A place is that of `list`, and so are the lines' places and bytes."""
        commands = [f'{word} {place}' for place in ('FFFF0 1', 'F600:54 12', '0:FFFE 3') for word in ('list', 'forms')]
        found = self.answers(['set FFFE 90 EB', 'set 0 FD', *commands])
        lists, forms = found[2:3] + found[4:16] + found[28:31], found[3:4] + found[16:28] + found[31:34]
        self.assertEqual([line.split()[:2] for line in forms], [line.split()[:2] for line in lists])
        self.assertIn('0000:FFFF EBFD does jump to 0000:FFFE ', forms[-2])

    def test_what_is_refused(self) -> None:
        lines = ['forms', 'forms F600:54', 'forms F600:54 0', 'forms F600:54 4097', 'forms F600:54 1 1', 'forms G 1', 'forms 100000 1', 'Forms F600:54 1']
        self.assertEqual(self.answers([*lines, 'forms 0:0 4096'])[: len(lines) + 1][:-1], ['fault 51 BadCommand'] * len(lines))


class OfBytes(unittest.TestCase):
    """What the tools know of bytes, wherever they stand."""

    def test_places(self) -> None:
        """As the 8086's manual has displacements: from behind the instruction on, in the same segment."""
        for octets, wanted in (
            ('EBFE', (0x10, 0xFFFF)),
            ('7501', (0x10, 2)),
            ('E8FDFF', (0x10, 0xFFFF)),
            ('2EE90100', (0x10, 4)),
            ('EA34127856', (0x5678, 0x1234)),
            ('EA341200F0', (0xF000, 0x1234)),
            ('EA00F0FFEF', (0xEFFF, 0xF000)),
            ('E800F0', (0x10, 0xF002)),
            ('FFE0', None),
            ('90', None),
            ('', None),
        ):
            self.assertEqual(forms.form_of(bytes.fromhex(octets)).target((0x10, 0xFFFF)), wanted, octets)
        codes = ('C3', 'CF', 'FF2F', 'FFE0', 'FFD0', 'E80000', 'F4', '7400')
        self.assertEqual([forms.form_of(bytes.fromhex(code)).goes_on for code in codes], [False] * 4 + [True] * 4)

    def test_calls(self) -> None:
        """Before a return address: near and far, with each displacement, and INT; nothing else."""
        calls = '90E80000', '9090FFD0', '90FF5604', '90FF5702', 'FF970002', 'FF160002', 'FF160010', '9090FF17', '9A001000F0', '9090FF1F'
        calls += 'FF1E0010', '9090CD21', 'E80000', '9A000000F0', 'FFD0', 'FF5E02', 'CD10', '2EFF1E0001'
        others = ('FFFFFFFF', '90909090', '90FF1702', '00000000', '9090FF16', '9090FFDB', '909090E8', '909090CC', 'E800', 'FFE0', '90', '')
        self.assertEqual([octets for octets in calls + others if forms.ends_with_call(bytes.fromhex(octets))], list(calls))

    def test_many_at_once(self) -> None:
        """Several instructions, a part of one, and bytes that are none, among others that are asked for with them; each alone; and more than
        fit into ROM."""
        wanted = {'B80500': 'next', '90C3': 'next', 'E8': 'nothing', '0F': 'nothing', '26F0': 'nothing', 'CD21': 'enter', 'F3A4': 'repeat'}
        wanted |= {'5858585858585858': 'next', '2E' * 20: 'nothing'} | {f'B8{number:04X}': 'next' for number in range(4100)}
        for at_once in (list(wanted), *([one] for one in list(wanted)[:9])):
            found = forms.ask(map(bytes.fromhex, at_once))
            self.assertEqual({octets.hex().upper(): form.does for octets, form in found.items()}, {octets: wanted[octets] for octets in at_once})

    def test_what_is_told(self) -> None:
        """Of PUSH, POP, MOV of SP and SS, ADD to SP, POPF, CLI, IRET, INT, INTO, DIV, RET with a number."""
        for octets, words in (
            ('50', (-2, True, False, False, False, None)),
            ('59', (2, False, True, False, False, None)),
            ('07', (2, False, False, False, False, None)),
            ('BC0001', (None, False, False, True, False, None)),
            ('8ED0', (0, False, False, True, False, None)),
            ('83C404', (4, False, False, False, False, None)),
            ('9D', (2, False, False, False, True, None)),
            ('FA', (0, False, False, False, True, None)),
            ('CF', (6, False, False, False, True, None)),
            ('CD21', (-6, True, False, False, False, 0x21)),
            ('CE', (-6, True, False, False, False, 4)),
            ('F6F1', (-6, True, False, False, False, 0)),
            ('C20400', (6, False, False, False, False, None)),
        ):
            form = forms.form_of(bytes.fromhex(octets))
            self.assertEqual((form.sp, form.pushes, form.pops_register, form.loads_stack, form.turns_interrupts, form.type), words, octets)


if __name__ == '__main__':
    unittest.main()
