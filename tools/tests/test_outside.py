"""dev/outside: its models of chips beside this board, what MAME 0.251, Unicorn 2.0.1 and ndisasm 2.16.01 answered (stored), and the
lists of what they do otherwise; each of them itself where it is installed."""
from __future__ import annotations

import json
import os
import unittest
from unittest import mock

from tests.support import STORED, ToolCase, not_run

from parts.outside import both, comparison, controller, instruction_flaws, instructions, mame, nasm, port, screens, sequences, timer, unicorn, unicorn_flaws
from parts.outside.counter import ALL, CAUSES, Counter
from parts.outside.instruction_flaws import FLAWS, witness
from toolbox.command import Sorry

KINDS = (controller.KIND, port.KIND)
# Instructions beside those in which Unicorn does otherwise; in these it does as this board.
ALIKE = (
    witness('ADD', '00 C8', AX=0x12, CX=0x34),
    witness('DIV', 'F6 F1', AX=100),
    witness('IDIV', 'F6 F9', AX=0x10000 - 127, CX=1),
    witness('INT', 'CD 21'),
    witness('string A4', 'A4', '', 'F3', SI=0x100, DI=0x120, CX=3),
    witness('AAA', '37', AX=0xF9, BX=3),
    witness('SHL by CL', 'D3 E0', 'A', AX=0x8001, CX=0),
    witness('DAS', '2F', 'A', AX=6),
    witness('PUSH 50', '50', AX=0x1234),
)


class Models(unittest.TestCase):
    """By the rules of docs/chips.md, and with MAME's flaws."""

    def test_this_board_answers_by_the_rules(self) -> None:
        for kind in KINDS:
            made = sequences.sequences(kind, 8086, 250)
            at = 0
            for image, count in sequences.images(kind, made):
                ram = both.run_here(image, sw1=0x6D, sw2=0x12).ram
                for number, operations in enumerate(made[at : at + count]):
                    place = sequences.RESULTS + sequences.SLOT * number
                    self.assertEqual(
                        ram[place : place + sequences.SLOT], kind.answers(operations, frozenset()).ljust(sequences.SLOT, b'\0'), '; '.join(operations)
                    )
                at += count
            self.assertEqual(at, len(made))

    def test_mame_answered_by_the_rules_and_its_flaws(self) -> None:
        with open(f'{STORED}/mame.json', encoding='ascii') as file:
            stored = json.load(file)
        for kind in KINDS:
            self.assertGreater(len(stored[kind.name]), 40)
            for text, answer in stored[kind.name]:
                operations, flaws = tuple(text.split('; ')), frozenset(flaw.name for flaw in kind.flaws)
                self.assertEqual(kind.answers(operations, flaws).rstrip(b'\0').hex(), answer, text)

    def test_each_flaw_shows_by_its_witness(self) -> None:
        for kind in KINDS:
            for flaw in kind.flaws:
                self.assertTrue(comparison.changes(kind, (*kind.begin, *flaw.witness, *kind.end), flaw.name), flaw.name)

    def test_by_hand(self) -> None:
        """High, in service, masked: in service reads 1 here and 0 there; the vector is 40h."""
        operations = (*controller.BEGIN, 'high', 'STI', 'mask FF', 'IRR ISR IMR')
        self.assertEqual(controller.answers(operations, frozenset()), bytes.fromhex('40 EE 00 01 FF'))
        self.assertEqual(controller.answers(operations, frozenset(['masked service'])), bytes.fromhex('40 EE 00 00 FF'))
        operations = ('mode 99', 'out 61 04', 'read', 'out 61 80', 'read', 'timer B4', 'read')
        self.assertEqual(port.answers(operations, frozenset()), bytes.fromhex('00 04 02 6D 80 01 6D 80 21'))

    def test_seeds_repeat(self) -> None:
        for kind in KINDS:
            self.assertEqual(sequences.sequences(kind, 1, 20), sequences.sequences(kind, 1, 20))
            self.assertNotEqual(sequences.sequences(kind, 1, 20), sequences.sequences(kind, 2, 20))
        self.assertEqual(instructions.cases(1, 20), instructions.cases(1, 20))


class Timer(unittest.TestCase):
    """A counter, by the rules and as MAME has it."""

    def test_the_rules_give_what_the_cases_say(self) -> None:
        made = [case for case in timer.cases(0, 10000) if timer.length_of(case) <= 3000]
        self.assertGreater(len(made), 2000)
        self.assertEqual(timer.rule_differences(made), [])

    def test_mame_answered_by_its_causes(self) -> None:
        with open(f'{STORED}/mame.json', encoding='ascii') as file:
            stored = {text: states for text, states in json.load(file)['timer']}
        made = [case for case in timer.cases(0, 10000) if case.text in stored]
        self.assertEqual((len(made), len(stored) > 60), (len(stored), True))
        came = [[(tuple(reads), bool(out), tuple(octets)) for _, reads, out, octets in stored[case.text]] for case in made]
        self.assertEqual(timer.mame_differences(made, came), [])
        for cause in CAUSES:
            self.assertTrue(timer.shows(cause), cause.name)
            self.assertIn(cause.witness, stored)

    def test_a_tone_of_five_by_hand(self) -> None:
        """High for three ticks and low for two by the rules; MAME has three once, and then two and two."""
        for causes, wanted in ((frozenset[str](), 'HHHLLHHHLLHHH'), (ALL, 'HHHLLHHLLHHLL')):
            counter = Counter(causes)
            counter.control(0x16)
            counter.write(5)
            for _ in range(1 + len(causes & {'load tick'})):
                counter.tick()
            levels = ''
            for _ in wanted:
                levels += 'H' if counter.is_out else 'L'
                counter.tick()
            self.assertEqual(levels, wanted)

    def test_scripts(self) -> None:
        case = timer.case_of('counter: C34 W02 W00 T5 C00 R02 G0 | 1 0002 2 | 3 1 0001 1 | 90000 1 0001 none')
        self.assertEqual(case.states, ((0, '1', '0002'), (3, '1', '0001')))
        one = ['N', 'C 0 B4', 'W 0 2', 'W 0 0', 'C 5 80', 'R 5 2', 'G 5 0']
        self.assertEqual(timer.script_of(case), [*one, 'O 5 0', 'C 5 80', 'R 5 0', 'R 5 0', *one, 'O 8 0', 'C 8 80', 'R 8 0', 'R 8 0'])
        self.assertFalse(timer.is_fit(timer.case_of('counter: C34 W02 W00 T70001 | 1 0002 2')))
        self.assertFalse(timer.is_fit(timer.case_of('counter: P | 0 0000 none')))


class Instructions(unittest.TestCase):
    """Cases, and which flaws hold for them."""

    def test_the_board_runs_all_blocks(self) -> None:
        """A multiplication by hand, and a jump that is made; the run comes to the HLT behind the last block."""
        made = [witness('MUL', 'F6 E1', AX=200, CX=25), FLAWS[6].witness, *instructions.cases(3, 200)]
        answer = both.run_here(instructions.image_of(made))
        self.assertEqual(answer.place, ((instructions.FIRST + instructions.BLOCK * len(made)) >> 4, 1))
        blocks = [answer.ram[instructions.FIRST + 512 * i : instructions.FIRST + 512 * (i + 1)] for i in range(2)]
        self.assertEqual(instructions.registers_in(blocks[0])['AX'], 5000)
        self.assertEqual((blocks[0][instructions.MARK], blocks[1][instructions.MARK]), (0, 1))

    def test_each_flaw_holds_for_its_witness_and_not_nearby(self) -> None:
        for flaw in FLAWS:
            self.assertTrue(flaw.holds(flaw.witness), flaw.name)
        by_name = {it.name: it for it in FLAWS}
        for name, case in (
            ('AF of ADC and SBB', witness('ADC', '14 0F')),
            ('OF of ADC and SBB', witness('ADC', '14 7E', 'C')),
            ('IDIV', witness('IDIV', 'F6 F9', AX=127, CX=1)),
            ('IDIV', witness('IDIV', 'F6 F9', AX=0x10000 - 127, CX=1)),
            ('CF and OF of IMUL', witness('IMUL', 'F6 E9', AX=1, CX=1)),
            ('CF and OF of IMUL', witness('IMUL', 'F6 E9', AX=100, CX=100)),
            ('ZF of AAM', witness('AAM', 'D4 0A', AX=21)),
            ('AH of AAA and AAS', witness('AAA', '37', AX=0xF5)),
            ('DAS', witness('DAS', '2F', 'C', AX=0x9A)),
            ('lost override', witness('MOV', '8A 07', prefixes='F3 26')),
        ):
            self.assertFalse(by_name[name].holds(case), name)
        self.assertTrue(by_name['IDIV'].holds(witness('IDIV', 'F6 F9', AX=0x10000 - 128, CX=1)))

    def test_what_is_unexplained(self) -> None:
        def difference(case: instructions.Case, *places: str) -> instructions.Difference:
            return instructions.Difference(case, places, b'', b'')

        self.assertEqual(instruction_flaws.unexplained(difference(witness('MUL', 'F6 E1'), 'FL:Z'), FLAWS), frozenset())
        self.assertEqual(instruction_flaws.unexplained(difference(witness('MUL', 'F6 E1'), 'FL:Z', 'AX'), FLAWS), frozenset(['AX']))
        self.assertEqual(instruction_flaws.unexplained(difference(witness('ADD', '00 C0'), 'FL:A'), FLAWS), frozenset(['FL:A']))

    def test_where_blocks_differ(self) -> None:
        here = bytearray(instructions.BLOCK)
        there = bytearray(here)
        there[instructions.KEPT + 22] = 0x41  # ZF and CF
        there[instructions.KEPT] = there[0x1F6] = there[0x1F0] = there[instructions.WINDOW] = 1
        self.assertEqual(instructions.places(bytes(here), bytes(there)), ('AX', 'FL:C', 'FL:Z', 'data', 'stack'))


class StandIn:
    """A processor that comes to interrupts at places, one after the other, and then halts."""

    def __init__(self, *met: tuple[int, int, int]) -> None:
        self.met, self.registers, self.memory = list(met), dict[str, int](), bytearray(unicorn.SIZE)

    def get(self, name: str) -> int:
        return self.registers.get(name, 0)

    def put(self, name: str, value: int) -> None:
        self.registers[name] = value

    def read(self, at: int, count: int) -> bytes:
        return bytes(self.memory[at : at + count])

    def write(self, at: int, octets: bytes) -> None:
        self.memory[at : at + len(octets)] = octets

    def go(self) -> int:
        if not self.met:
            return unicorn.NO_INTERRUPT
        kind, segment, offset = self.met.pop(0)
        self.registers |= {'CS': segment, 'IP': offset, 'SS': 0x5000, 'SP': 2, 'FL': 0x0346}
        return kind


class Unicorn(unittest.TestCase):
    """What it answered, and how an interrupt is entered for it."""

    def test_it_answered_by_the_list(self) -> None:
        with open(f'{STORED}/unicorn.json', encoding='ascii') as file:
            stored = json.load(file)
        made = [*(flaw.witness for flaw in unicorn_flaws.FLAWS), *ALIKE]
        self.assertEqual([row[0] for row in stored], [bytes(it.prefixes + list(it.code)).hex() for it in made])
        ram = both.run_here(instructions.image_of(made)).ram
        for at, (case, (_, kept, window)) in enumerate(zip(made, stored)):
            here = ram[instructions.FIRST + instructions.BLOCK * at :][: instructions.BLOCK]
            there = bytearray(here)
            there[instructions.KEPT : instructions.MARK + 1] = bytes.fromhex(kept)
            there[instructions.WINDOW : instructions.STACK_END - 2] = bytes.fromhex(window)
            where = instructions.places(here, bytes(there))
            wanted = unicorn_flaws.FLAWS[at].where if at < len(unicorn_flaws.FLAWS) else frozenset[str]()
            self.assertTrue(bool(wanted & set(where)) if wanted else not where, (case.name, where))
            difference = instructions.Difference(case, where, here, bytes(there))
            self.assertEqual(instruction_flaws.unexplained(difference, unicorn_flaws.FLAWS), frozenset(), case.name)

    def test_each_flaw_holds_for_its_witness_and_not_nearby(self) -> None:
        for flaw in unicorn_flaws.FLAWS:
            self.assertTrue(flaw.holds(flaw.witness), flaw.name)
        for case in ALIKE:
            held = [it.name for it in unicorn_flaws.FLAWS if it.holds(case) and not it.why.startswith(unicorn_flaws.UNDEFINED)]
            self.assertEqual(held, [], case.name)

    def test_an_interrupt_is_entered_as_on_an_8086(self) -> None:
        """Behind the instruction that makes a fault; the stack wraps, and the flags word is pushed with bits 12 to 15 set."""
        made = [witness('DIV', 'F6 F1')]
        place, behind = instructions.place_of(0, made[0])
        image = {0: 0x34, 1: 0x12, 2: 0x00, 3: 0xF7}
        for offset, wanted in ((place - 0x1000, behind), (7, 7)):
            machine = StandIn((0, 0x100, offset))
            unicorn.run(machine, image, made)
            self.assertEqual((machine.get('CS'), machine.get('IP'), machine.get('SP'), machine.get('FL')), (0xF700, 0x1234, 0xFFFC, 0x0046))
            self.assertEqual((machine.read(0x50000, 2), machine.read(0x5FFFC, 4)), (b'\x46\xf3', bytes([wanted, 0, 0x00, 0x01])))

    def test_versions(self) -> None:
        self.assertEqual((unicorn.version_of(0x020001FF), unicorn.version_of(0x020100FF)), ('2.0.1', '2.1.0'))
        with mock.patch.dict(os.environ), mock.patch('ctypes.util.find_library', return_value=None):
            os.environ.pop('UNICORN', None)
            self.assertIsNone(unicorn.loaded())


class Nasm(unittest.TestCase):
    """Texts, and what ndisasm answered."""

    def test_it_answered_by_the_list(self) -> None:
        with open(f'{STORED}/ndisasm.json', encoding='ascii') as file:
            stored = json.load(file)
        self.assertEqual([row[0] for row in stored[: len(nasm.FLAWS)]], [flaw.witness.hex() for flaw in nasm.FLAWS])
        self.assertGreater(len(stored), 60)
        for at, (octets, text, length) in enumerate(stored):
            made = bytes.fromhex(octets)
            is_alike = nasm.said(*nasm.ours(nasm.SLOT * at, made)) == nasm.said(text, length)
            self.assertTrue(not is_alike if at < len(nasm.FLAWS) else is_alike or nasm.known(made), (octets, text))

    def test_what_texts_say(self) -> None:
        for here, there in (
            ('DS: REP SBB WORD [BP+DI+0FFF0h],00011h', 'rep sbb word [ds:bp+di-0x10],byte +0x11'),
            ('ADD AX,0FFFEh', 'add ax,byte -0x2'),
            ('LOCK REPNE ES: JMP WORD [DI]', 'bnd lock jmp [es:di]'),
            ('CALL FAR 06361h:0E690h', 'call 0x6361:0xe690'),
            ('XCHG [BX],DL', 'xchg dl,[bx]'),
            ('JNB 00060h', 'jnc 0x60'),
        ):
            self.assertEqual(nasm.said(here, 2), nasm.said(there, 2))
        for here, there in (
            ('CALL FAR [BX]', 'call [bx]'),
            ('MOV AX,BX', 'mov bx,ax'),
            ('ES: MOV AL,[BX]', 'mov al,[bx]'),
            ('INC BYTE [BX]', 'inc word [bx]'),
            ('MOV AX,00010h', 'mov ax,10'),
        ):
            self.assertNotEqual(nasm.said(here, 2), nasm.said(there, 2))
        self.assertNotEqual(nasm.said('NOP', 1), nasm.said('nop', 2))


class Outside(ToolCase):
    """The command, and what it knows of the others."""

    def test_refusals(self) -> None:
        with mock.patch.dict(os.environ, {'MAME': f'{self.room}/none'}):
            self.assertIn("can't be started", self.tool('dev/outside', 'mame', status=2)[1])
        for words, wanted in (
            (['bochs'], 'bochs is none of them'),
            (['mame', '--only', 'x'], 'x is no part'),
            (['unicorn', '--only', 'port'], '--only goes with mame'),
            (['mame', '--seed', '-1'], '-1 is no seed'),
            (['mame', '--seed', 'x'], 'x is no seed'),
            (['mame', '--count', '0'], '0 is no number of cases'),
        ):
            self.assertIn(wanted, self.tool('dev/outside', *words, status=2)[1])
        with mock.patch.dict(os.environ, {'PATH': self.room}), mock.patch('shutil.which', return_value=None):
            os.environ.pop('MAME', None)
            self.assertIsNone(mame.path())

    def test_what_isnt_there(self) -> None:
        with mock.patch.dict(os.environ, {'UNICORN': f'{self.room}/none', 'NDISASM': f'{self.room}/none'}):
            self.assertIn("can't be loaded as Unicorn", self.tool('dev/outside', 'unicorn', status=2)[1])
            self.assertIn("can't be started", self.tool('dev/outside', 'nasm', status=2)[1])
        with mock.patch.dict(os.environ, {'PATH': self.room}):
            os.environ.pop('NDISASM', None)
            self.assertIn(nasm.PACKAGE, self.tool('dev/outside', 'nasm', status=2)[1])

    def test_another_version_is_told(self) -> None:
        """A program that leaves no answer, too."""
        other = self.file('ndisasm', '#!/bin/sh\n[ "$1" = -v ] && echo "NDISASM version 3.00 compiled on a day"\n')
        os.chmod(other, 0o755)
        with mock.patch.dict(os.environ, {'NDISASM': other}):
            out, err = self.tool('dev/outside', 'nasm', '--seed', '7', status=2)
        self.assertEqual(out.splitlines(), ['ndisasm 3.00, seed 7', 'what is listed is of 2.16.01'])
        self.assertIn('tells nothing', err)
        other = self.file('mame', '#!/bin/sh\n[ "$1" = -version ] && echo "0.299 (unknown)"\n')
        os.chmod(other, 0o755)
        with mock.patch.dict(os.environ, {'MAME': other}):
            out, err = self.tool('dev/outside', 'mame', '--only', 'port', '--seed', '7', status=2)
        self.assertEqual(out.splitlines()[:2], ['MAME 0.299, seed 7', 'what is listed is of 0.251'])
        self.assertIn('MAME left no answer', err)

    def test_hex_and_roms(self) -> None:
        image = {0xF6000: 1, 0xF6001: 2, 0xFFFF0: 0xEA, 0x500: 7}
        self.assertEqual(mame.image_of(mame.hex_of(image)), image)
        mame.write_roms(self.room, image)
        with open(f'{self.room}/roms/ibm5150/5000019.u29', 'rb') as first, open(f'{self.room}/roms/ibm5150/1501476.u33', 'rb') as last:
            self.assertEqual((first.read()[:3], last.read()[-16:-14]), (b'\1\2\xff', b'\xea\xff'))
        with self.assertRaisesRegex(Sorry, 'has ROM from F6000h on'):
            mame.write_roms(self.room, {0xF0000: 1})

    def test_a_screen_is_read_by_its_points(self) -> None:
        rows = [['.' * 720] * 350, ['#' * 720] * 350]
        cell = '.#..#...'  # 48h, H
        rows.append([cell + '.' * 712] * 14 + ['.' * 720] * 336)
        for number, (points, wanted) in enumerate(zip(rows, (' ', '.', 'H'))):
            screen = mame.read_screen(self.file(f'points{number}', '\n'.join(points)))
            self.assertEqual((len(screen), screen[0][0]), (25, wanted))
        self.assertEqual(mame.read_screen(self.file('small', '..\n..\n')), ())

    def test_every_example_is_compared_or_named(self) -> None:
        self.assertLess(set(screens.EXCEPTIONS), set(screens.names()))
        self.assertIn('moments/turns', screens.names())

    def test_with_unicorn(self) -> None:
        library = unicorn.loaded()
        if library is None or unicorn.version(library) != unicorn.VERSION:
            not_run(f'dev/outside unicorn {unicorn.VERSION}; {unicorn.PACKAGE}')
            return
        out, _ = self.tool('dev/outside', 'unicorn', '--count', '400', '--seed', '1')
        self.assertEqual((out.splitlines()[0], out.count('0 of them by nothing')), (f'Unicorn {unicorn.VERSION}, seed 1', 1), out)

    def test_with_nasm(self) -> None:
        program = nasm.path()
        if program is None or nasm.version(program) != nasm.VERSION:
            not_run(f'dev/outside nasm {nasm.VERSION}; {nasm.PACKAGE}')
            return
        out, _ = self.tool('dev/outside', 'nasm', '--count', '60', '--seed', '1')
        self.assertEqual((out.splitlines()[0], out.count('0 of them by nothing')), (f'ndisasm {nasm.VERSION}, seed 1', 1), out)

    def test_with_mame(self) -> None:
        program = mame.path()
        if program is None or mame.version(program) != mame.VERSION:
            not_run(f'dev/outside mame {mame.VERSION}; {mame.PACKAGE}')
            return
        out, _ = self.tool('dev/outside', 'mame', '--only', 'instructions,controller,port,timer', '--count', '100', '--seed', '1')
        self.assertEqual(out.count('0 of them by nothing'), 1, out)
        self.assertEqual(out.count(', 0 differ from'), 3, out)
        self.assertEqual(screens.compared(program, 'divide'), (True, 'divide: alike'))


if __name__ == '__main__':
    unittest.main()
