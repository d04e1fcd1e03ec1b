"""bench/count, bench/race and bench/tools: what they parse, compute and refuse, and the code that the peers run. Neither valgrind nor
another emulator is needed: a script stands for valgrind, and Zebludor's own board runs what the peers would."""
from __future__ import annotations

import binascii
import ctypes.util
import filecmp
import hashlib
import io
import os
import re
import shutil
import subprocess
import sys
import unittest
from contextlib import redirect_stdout
from importlib.machinery import SourceFileLoader
from importlib.util import module_from_spec, spec_from_loader
from types import ModuleType
from typing import Any
from unittest.mock import patch

from tests.support import TOP, ToolCase, is_there, not_run
from toolbox import program

BENCH = f'{TOP}/bench'
CALLGRIND = '''==4711== Callgrind, a call-graph generating cache profiler
==4711== Command: pcboard run a.asm a_100000.json
==4711==
==4711== Events    : Ir
==4711== Collected : 8206035
==4711==
==4711== I   refs:      8,206,035
'''
# Runs the program, and tells 1,000 host instructions and 60 a clock of the budget.
VALGRIND = '''#!/bin/sh
shift 2
for run; do :; done
budget=${run%.json}
"$@" && echo "==1== Collected : $((1000 + 60 * ${budget##*_}))" >&2
'''
# Tells the core that its first command sets.
DOSBOX = '''#!/bin/sh
core=${4##*=}
printf %s "${core%\\"}" > DONE
'''


def module(name: str) -> ModuleType:
    """One of the two, which have no suffix, as a module."""
    if BENCH not in sys.path:
        sys.path.insert(0, BENCH)
    loader = SourceFileLoader(f'bench_{name}', f'{BENCH}/{name}')
    spec = spec_from_loader(loader.name, loader)
    assert spec
    found = sys.modules[loader.name] = module_from_spec(spec)
    loader.exec_module(found)
    return found


class Count(ToolCase):
    """Host instructions for each step."""

    def count(self, *words: str, status: int = 0) -> tuple[str, str]:
        """What bench/count prints, where the only commands are those of the case's folder and the shell's."""
        with patch.dict(os.environ, {'PCBOARD': program.path(), 'PATH': self.room}):
            return self.tool('bench/count', *words, status=status)

    def with_valgrind(self) -> None:
        """Puts the script in valgrind's place."""
        os.chmod(self.file('valgrind', VALGRIND), 0o755)

    def test_what_callgrind_tells(self) -> None:
        self.assertEqual(module('count').collected(CALLGRIND), 8206035)
        self.assertIsNone(module('count').collected('==1== valgrind: failed to start\n'))

    def test_a_line(self) -> None:
        line_of = module('count').line_of
        figures = '        64,303,962     130,434'
        self.assertEqual(line_of('a', figures, 493.0, 'a step'), ('a                  64,303,962     130,434           493.0  a step', True))
        self.assertFalse(line_of('a', figures, 120.1, 'a step', 120.0)[1])
        self.assertTrue(line_of('a', figures, 120.0, 'a step', 120.0)[1])

    def test_a_cell(self) -> None:
        cells = [module('count').cell_of(each) for each in (-0.02, 34.216, 999.94, 15885.0, 1862844.0)]
        self.assertEqual(cells, ['0.0', '34.2', '999.9', '15,880', '1,863,000'])

    def test_the_difference_of_two_budgets(self) -> None:
        self.with_valgrind()
        out, _ = self.count('--only', 'a,f,sieve,go')
        self.assertEqual(
            [line.split() for line in out.splitlines()[1:]],
            [
                ['a', '60,000,000', '130,434', '460.0', 'a', 'step'],
                ['f', '59,982,000,000', '3,813', '15,730,920.5', 'a', 'wake'],
                ['go', '60,000,000', '130,434', '460.0', 'a', 'step'],
                ['sieve', '120,000,000', '154,572', '776.3', 'a', 'step'],
            ],
        )

    def test_the_mean_of_the_programs(self) -> None:
        """120,000,000 by the steps of each, 154,572, 153,344, 152,931, 180,825, 113,666 and 169,967, are 4,768.93 in all."""
        self.with_valgrind()
        lines = self.count('--only', 'a,programs,crc')[0].splitlines()
        self.assertEqual([line.split()[0] for line in lines[1:]], ['a', 'sieve', 'sort', 'digits', 'crc', 'matrix', 'life', 'programs'])
        self.assertEqual(lines[-1].split(), ['programs', '794.8', 'a', 'step,', 'the', 'mean', 'of', 'the', 'six'])
        self.assertNotIn('programs', self.count('--only', 'sieve,sort,digits,crc,matrix')[0])

    def test_the_means_of_mixes_and_books(self) -> None:
        """Of mixes the mean of 24,000,000 by the steps of each; of books 60 for each of 12,687,111 clocks, by 1,105,192 steps."""
        self.with_valgrind()
        lines = self.count('--only', 'mixes')[0].splitlines()
        steps = (32488, 42824, 34303, 59459, 59459, 52234, 51735, 36964, 74287, 14367, 23990, 26200, 32434, 38597, 27809, 27807)
        self.assertEqual([int(line.split()[2].replace(',', '')) for line in lines[1:-1]], list(steps))
        self.assertEqual(lines[-1].split(), ['mixes', f'{sum(24e6 / count for count in steps) / 16:,.1f}', *'a step, the mean of the sixteen'.split()])
        lines = self.count('--limit', 'books=688.8,book_life=643.5', status=1)[0].splitlines()
        self.assertEqual(lines[6].split(), ['book_life', '90,000,000', '139,842', '643.6', *'a step, at most 643.5: above it'.split()])
        self.assertEqual(lines[-1].split(), ['books', '688.8', *'a step, all steps of the sixteen, at most 688.8: kept'.split()])

    def test_limits(self) -> None:
        self.with_valgrind()
        self.assertIn('at most 461.0: kept', self.count('--limit', 'a=461')[0])
        out, _ = self.count('--limit', 'start=1000,a=459.9', status=1)
        self.assertIn('at most 1,000.0: kept', out)
        self.assertIn('at most 459.9: above it', out)

    def test_limits_of_the_programs(self) -> None:
        self.with_valgrind()
        lines = self.count('--limit', 'programs=794.9')[0].splitlines()
        self.assertEqual(len(lines), 8)
        self.assertRegex(lines[-1], 'of the six, at most 794.9: kept$')
        lines = self.count('--limit', 'programs=794.7,life=706.1', status=1)[0].splitlines()
        self.assertRegex(lines[-2], 'a step, at most 706.1: kept$')
        self.assertRegex(lines[-1], 'of the six, at most 794.7: above it$')

    def test_a_wrong_answer(self) -> None:
        os.chmod(self.file('valgrind', VALGRIND.replace('"$@"', '"$@" | /bin/sed s/AX=3D82/AX=3D83/')), 0o755)
        out, _ = self.count('--only', 'a,start', status=1)
        self.assertRegex(out, 'wrong: budget 100000: .*AX=3D83')
        self.assertIn('a run of budget 0', out)

    def test_a_wrong_report_of_a_program(self) -> None:
        """One sign of the screen, at the second budget; the others are counted, and no mean is told."""
        os.chmod(self.file('valgrind', VALGRIND.replace('"$@"', '"$@" | /bin/sed "s/ 1027 /.1027 /"')), 0o755)
        lines = self.count('--only', 'programs', status=1)[0].splitlines()
        self.assertRegex(lines[1], r"^sieve +wrong: budget 3000000: ' {4}\.1027 .*, and not ' {5}1027 ")
        self.assertEqual([line.split()[0] for line in lines[2:]], ['sort', 'digits', 'crc', 'matrix', 'life'])

    def test_a_wrong_report_of_a_book(self) -> None:
        os.chmod(self.file('valgrind', VALGRIND.replace('"$@"', '"$@" | /bin/sed "s/^clock 83782/clock 83783/"')), 0o755)
        lines = self.count('--only', 'searches,delay', status=1)[0].splitlines()
        self.assertEqual([line.split()[0] for line in lines[1:]], ['delay', 'searches'])
        self.assertRegex(lines[2], "^searches +wrong: budget 83782: 'SHA-256 [0-9a-f]{64}', and not 'SHA-256 743ec188[0-9a-f]{56}'$")

    def test_steps(self) -> None:
        out, _ = self.count('--steps', '--only', 'a,sieve,searches')
        lines = ('a  [13046, 143480]', 'sieve  [75713, 230285]', 'searches  [0, 8429]')
        self.assertEqual(out.splitlines(), [f'{line}  as in steps.json' for line in lines])

    def test_the_steps_of_some_loops_by_their_clocks(self) -> None:
        """By the table of clocks: a far jump takes 15, MOV of a number 4, ADD and XOR 3, LOOP 17; IN 10, TEST 3, JZ 16; DEC and INC 2;
        MOV of registers 2, to memory 15, CALL 19, RET 8, JMP 15."""
        loops, to_far_away = module('count').known(), [2, 3, 2, 19, 3, 3, 15, 2, 8, 2, 15]
        for name, begun, lengths in (
            ('a', [15, 4, 4, 4, 4], [3, 3, 17]),
            ('e', [15], [10, 3, 16]),
            ('w5', [15, 4, 4], [2, 16]),
            ('conf1000', [15, 4], to_far_away),
            ('conf1800', [15, 4], to_far_away),
        ):
            for budget, count in zip(loops[name].budgets, loops[name].count, strict=True):
                budget = min(budget, 1500000)
                clock, steps = 0, 0
                while clock < budget:
                    clock += begun[steps] if steps < len(begun) else lengths[(steps - len(begun)) % len(lengths)]
                    steps += 1
                self.assertEqual(steps, count, f'{name} at {budget}')

    def test_each_answers_as_is_known(self) -> None:
        """With registers, a report or its sum, which other implementations of the board gave."""
        count = module('count')
        self.assertEqual(set(count.known()), set(count.NAMES) - {'start', 'go'})
        for name, run in count.known().items():
            for budget, answer in zip(run.budgets, run.answers, strict=True):
                _, *words = count.command_line('', 'run', count.source(name), count.run_file(self.room, name, budget))
                lines = self.pcboard(*words).stdout.splitlines()
                self.assertEqual(count.answer_of(name, lines), answer, f'{name} at {budget}')

    def test_the_books_begin_at_reset(self) -> None:
        """All registers are 0 but CS, FFFFh, and bit 1 of the flags, and so are 25 lines of the screen; the end is another clock of each."""
        lines = ['clock 0', ' '.join(f'{name}=0000' for name in 'AX BX CX DX SP BP SI DI'.split()), 'CS=FFFF DS=0000 ES=0000 SS=0000 IP=0000 FL=F002']
        lines += ['state running', 'lost 0', 'sound 0', 'screen', *[' ' * 80] * 25]
        at_reset = hashlib.sha256('\n'.join([*lines, '']).encode()).hexdigest()
        known, books = module('count').known(), module('count').GROUPS['books']
        for name in books:
            self.assertEqual((known[name].budgets[0], known[name].count[0], known[name].answers[0]), (0, 0, [f'SHA-256 {at_reset}']), name)
        self.assertEqual(len({answer for name in books for answer in known[name].answers[1]}), 16)

    def test_no_name_is_of_two_groups(self) -> None:
        count = module('count')
        self.assertEqual([name for names in count.GROUPS.values() for name in names], list(count.FOLDERS))
        self.assertEqual([len(names) for names in count.GROUPS.values()], [6, 16, 16])

    def test_the_tables_of_the_page(self) -> None:
        """Each name has one row, whose last cell is its figure; the means are those of the rows."""
        count = module('count')
        with open(f'{TOP}/docs/speed.md', encoding='utf-8') as file:
            page = file.read()
        figures = dict[str, float]()
        for name in (*count.NAMES, *count.GROUPS):
            (found,) = re.findall(rf'^\|{name}\|.*\|([\d,.]+)\|$', page, re.M)
            figures[name] = float(found.replace(',', ''))
        known = count.known()
        steps = {name: known[name].count[1] - known[name].count[0] if group == 'books' else 1 for name, group in count.FOLDERS.items()}
        for group, names in count.GROUPS.items():
            weights = steps if group == 'books' else dict.fromkeys(names, 1)
            mean = sum(figures[name] * weights[name] for name in names) / sum(weights[name] for name in names)
            self.assertAlmostEqual(figures[group], mean, delta=0.11, msg=group)

    def test_cells_of_a_page(self) -> None:
        """The last cells of a row that begins with a name, and of no other row."""
        page = self.file('page.md', '|a|b|c|\n|-|-|-|\n|a|x, a|1|\n|aa||2|\n|b|3|\nand |a|b|c|\n')
        module('count').fill(page, {'a': ['9'], 'aa': ['7', '8'], 'b': [], 'c': ['5']})
        with open(page, encoding='utf-8') as file:
            self.assertEqual(file.read(), '|a|b|9|\n|-|-|-|\n|a|x, a|9|\n|aa|7|8|\n|b|3|\nand |a|b|c|\n')

    def test_what_the_programs_show(self) -> None:
        """The odd primes below 8,192; no two numbers out of order; the sum of 256 bytes, twice; the trace of a product."""
        known = module('count').known()
        primes = sum(all(number % by for by in range(3, 91, 2) if by < number) for number in range(3, 8192, 2))
        sums = [binascii.crc_hqx(bytes((i * 7 + turn) % 256 for i in range(256)), 0xFFFF) for turn in range(4)]
        trace = sum((row * 3 + at) * (at - row * 5) for row in range(16) for at in range(16))
        shown = {'sieve': [primes, 1], 'sort': [0, 2], 'crc': [sums[3], sums[3], 4], 'matrix': [trace % 65536, 1]}
        for name, numbers in shown.items():
            self.assertEqual([int(word) for word in known[name].answers[1][7].split()], numbers, name)

    def test_the_programs_are_made_of_their_sources(self) -> None:
        wanted = {'make': 'make', 'bcc': 'bcc', 'as86': 'bin86', 'objcopy': 'binutils'}
        if not all(is_there(command, 'bench/programs', package) for command, package in wanted.items()):
            return
        room = shutil.copytree(f'{BENCH}/programs', f'{self.room}/programs')
        names = [f'{program}.hex' for program in module('count').GROUPS['programs']]
        for name in names:
            os.remove(f'{room}/{name}')
        done = subprocess.run(['make', '-s'], cwd=room, capture_output=True, text=True, check=False)
        self.assertEqual(done.returncode, 0, done.stderr)
        self.assertEqual(filecmp.cmpfiles(room, f'{BENCH}/programs', names, shallow=False), (names, [], []))

    def test_the_trail_of_a_delay_that_is_leapt_over(self) -> None:
        """By the table of clocks: the first LOOP of w1 begins at clock 23, and each next one 17 clocks later."""
        for clock in (1000, 99999, 1000000):
            begun = -(-(clock - 23) // 17)  # so many before it
            done = self.pcboard('debug', f'{BENCH}/loops/w1.asm', f'{BENCH}/loops/w1.json', given=f'go {clock}\nregs\ntrail\n')
            lines = done.stdout.splitlines()
            self.assertIn(f' CX={0xFFFF - begun:04X} ', lines[1])
            self.assertEqual(lines[3:], [f'{23 + 17 * turn} F000:0006 E2FE LOOP 00006h' for turn in range(begun - 32, begun)])

    def test_refusals(self) -> None:
        self.assertIn("valgrind, which counts, isn't there", self.count('--only', 'a', status=2)[1])
        for words, why in (
            (['--only', 'x'], 'x is nothing to count: there are start, a, '),
            (['--only', ''], 'nothing is nothing to count'),
            (['--limit', 'a'], 'a is no limit'),
            (['--limit', 'a=-1'], 'a=-1 is no limit'),
            (['--limit', 'x=1'], 'x is nothing to count'),
            (['--limit', 'a=1,a=2'], 'two limits'),
            (['--only', 'b', '--limit', 'a=1'], "a has a limit and isn't counted"),
            (['--only', 'sieve,sort', '--limit', 'programs=1'], "programs has a limit and isn't counted"),
            (['--limit', 'programs=1,programs=2'], 'programs has two limits'),
            (['--steps', '--only', 'f'], '--steps counts'),
            (['--steps', '--limit', 'a=1'], '--limit and --write go'),
            (['--steps', '--write'], '--limit and --write go'),
            ([f'{TOP}/pcboard'], 'is no built program'),
            (['nowhere'], "can't be read"),
            (['--nonsense'], 'unrecognized'),
        ):
            self.assertIn(why, self.count(*words, status=3 if why == "can't be read" else 2)[1])
        self.assertIn('--limit', self.count('--help')[0])


class Race(ToolCase):
    """Processor time for each instruction, against other emulators."""

    def racer(self, *names: str) -> Any:
        """Zebludor's own racer, with the code of these C programs and mixes."""
        race, codes = module('race'), dict[str, bytes]()
        for name in names:
            path = race.source(name)
            with open(path, encoding='ascii') as file:
                codes[name] = race.code_of(file.read() if path.endswith('.hex') else self.pcboard('asm', path).stdout)
        return race.Zebludor(program.path(), codes, self.room)

    def run_code(self, body: bytes, end: bytes) -> dict[str, str]:
        """The registers and the state of Zebludor's board after a boot sector, which a far jump at reset starts."""
        sector = module('race').boot_sector(body, end)[:512]
        self.assertEqual(sector[510:], b'\x55\xaa')
        records = [(0x7C00 + at, sector[at : at + 16]) for at in range(0, 512, 16)]
        lines = [hex_record(0, at, content) for at, content in records]
        lines += [hex_record(2, 0, b'\xff\xff'), hex_record(0, 0, b'\xea\x00\x7c\x00\x00'), hex_record(1, 0, b'')]
        code = self.file('it.hex', ''.join(lines))
        run = self.file('it.json', '{"version":1,"ram":64,"sw1":0,"sw2":0,"budget":100000000,"keys":[]}')
        ran = self.pcboard('run', '--hex', code, run)
        self.assertEqual(ran.returncode, 0, ran.stderr)
        lines = ran.stdout.splitlines()
        return {**dict(pair.split('=') for pair in f'{lines[1]} {lines[2]}'.split()), 'state': lines[3]}

    def code(self, loop: str) -> bytes:
        """A loop's bytes."""
        return bytes(module('race').code_of(self.pcboard('asm', f'{BENCH}/loops/{loop}.asm').stdout))

    def test_loop_a_with_an_end(self) -> None:
        race = module('race')
        ax, bx = 0, 1
        for _ in range(3 * 65535):
            ax = (ax + bx) % 65536
            bx ^= ax
        found = self.run_code(race.with_an_end(self.code('a'), 3, 2), race.TO_SHUT_BOCHS)
        self.assertEqual(
            (found['AX'][:2], found['BX'], found['CX'], found['BP'], found['state']), (f'{ax:04X}'[:2], f'{bx:04X}', '0000', '0000', 'state halted')
        )
        self.assertEqual(found['DX'], '8900')

    def test_loop_b_with_an_end(self) -> None:
        race = module('race')
        found = self.run_code(race.with_an_end(self.code('b'), 5, 3), race.TO_SHUT_BOCHS)
        # a round moves 64 words and then 32 bytes from and to the next places
        self.assertEqual((found['SI'], found['DI'], found['SP'], found['BP'], found['state']), ('10A0', '20A0', '8F00', '0000', 'state halted'))

    def test_the_rounds(self) -> None:
        race = module('race')
        code = self.code('a')
        self.assertEqual(race.with_an_end(code, 65536, 4)[:3], b'\xbd\x04\x00')
        self.assertIn(b'\xba\x00\x00', race.with_an_end(code, 65536, 4))
        self.assertIn(b'\xba\xf4\x01', race.with_an_end(code, 500, 1))
        self.assertEqual(len(race.boot_sector(code, race.TO_END_8086TINY)), 1474560)

    def test_instructions_of_a_round(self) -> None:
        """Of a and b as many a clock as steps.json has between its budgets, by their rounds' clocks in the table of clocks."""
        known, rounds = module('count').known(), module('race').ROUND
        for name, clocks in (('a', 4 + 65535 * 23 - 12 + 18), ('b', 12 + 28 + 63 * 17 + 4 + 32 * 96 - 12 + 18)):
            self.assertAlmostEqual(rounds[name] / clocks * 1000000, known[name].count[1] - known[name].count[0], delta=50)

    def test_instructions_between_two_ticks(self) -> None:
        """Of c, whose entries, one in 300 clocks, are steps and no instructions."""
        known = module('count').known()['c']
        between = known.budgets[1] - known.budgets[0]
        self.assertAlmostEqual((module('race').OF_C + 1 / 300) * between, known.count[1] - known.count[0], delta=50)

    def test_instructions_of_a_mix(self) -> None:
        """Its rounds between two budgets are those that DX counts; the steps between them are steps.json's. Five more end 65,536 of them."""
        count, rounds = module('count'), module('race').ROUND
        for name in ('conf1000', 'search'):
            turns = []
            for budget in count.known()[name].budgets:
                report = self.pcboard('run', count.source(name), count.run_file(self.room, name, budget)).stdout
                turns.append(int(report.split(' DX=')[1][:4], 16))
            steps = count.known()[name].count[1] - count.known()[name].count[0]
            self.assertAlmostEqual((rounds[name] - 5) / 65536 * (turns[1] - turns[0]), steps, delta=(rounds[name] - 5) / 65536)

    def test_c_programs_as_com_files(self) -> None:
        """They end after so many rounds, which four of them show; another round takes as many instructions as are told. The lines of
        digits grow with their numbers."""
        race = module('race')
        racer = self.racer(*race.GROUPS['programs'])
        probe = [program.path('pcprobe'), '--hex', f'{self.room}/it.hex', f'{self.room}/it.json']
        for name, code in racer.codes.items():
            steps = []
            for times in (3, 4):
                racer.once(race.com_file(code, times))
                counted = subprocess.run(probe, input='counts 20000000\ndump 43800 2\nscreen\n', capture_output=True, text=True, check=True).stdout
                steps.append(sum(int(found) for found in re.findall(r'^[\dA-F]{4}:[\dA-F]{4} (\d+) \d+$', counted, re.M)))
                self.assertIn(f'\n43800: {times:02X} 00\n', counted, name)
                if name in ('sieve', 'sort', 'crc', 'matrix'):
                    self.assertEqual(counted.splitlines()[-25].split()[-1], str(times), name)
            self.assertAlmostEqual(steps[1] - steps[0], race.ROUND[name], delta=race.ROUND[name] * (0.3 if name == 'digits' else 0.02), msg=name)

    def test_a_mix_as_a_com_file(self) -> None:
        """conf1000 ends after 65,536 rounds, each so many times: 11 instructions of 74 clocks, with JNZ's 16 for JMP's 15."""
        race, clocks = module('race'), []
        racer = self.racer('conf1000')
        for times in (1, 3):
            racer.once(race.com_file(racer.codes['conf1000'], times))
            done = self.pcboard('debug', '--hex', f'{self.room}/it.hex', f'{self.room}/it.json', given='halted\ngo 1000000000\nregs\n')
            self.assertIn(' DX=0000 ', done.stdout)
            clocks.append(int(re.findall(r'(?m)^(?:stop \d+ )?clock (\d+)', done.stdout)[-1]))
        ends = 4 + 15 + 23 + 18 + 4 + 15  # JNZ that isn't taken; JMP; INC and CMP of a word by SS; JE that isn't taken; JMP
        self.assertAlmostEqual(clocks[1] - clocks[0], 2 * (65536 * 75 - 16 + ends), delta=20)

    def test_loops_moved_for_mame(self) -> None:
        """Their ROM begins where MAME has one, and they do what they did: c counts its ticks in DX, the mode word's and those at 420, 720 and so on."""
        moved = module('race').Mame.moved
        for loop in ('a', 'b', 'c'):
            with open(f'{BENCH}/loops/{loop}.asm', encoding='utf-8') as file:
                text = moved(file.read())
            source = self.file('it.asm', text)
            hex_text = self.pcboard('asm', source).stdout
            self.assertIn(':02000002F0000C\n:10600000', hex_text)
            run = self.file('it.json', '{"version":1,"ram":64,"sw1":0,"sw2":0,"budget":100000,"keys":[]}')
            report = self.pcboard('run', source, run).stdout
            self.assertTrue(loop != 'c' or ' DX=014D ' in report, report)

    def test_dosbox_by_its_two_cores(self) -> None:
        """A script stands for it, and tells the core that it was asked for; or another, as if it hadn't this one."""
        race = module('race')
        os.chmod(self.file('dosbox', DOSBOX), 0o755)
        with patch.dict(os.environ, {'PATH': f'{self.room}:/usr/bin:/bin'}):
            _, normal = race.Dosbox('', {'a': self.code('a')}, self.room).run('a')
            _, dynamic = race.DosboxDynamic('', {'a': self.code('a')}, self.room).run('a')
            with open(f'{self.room}/LOOP.COM', 'rb') as file:
                times = int.from_bytes(file.read(3)[1:], 'little')
            self.assertEqual((times, dynamic, normal), (8, 8 * 500 * (1 + 65535 * 3 + 2), 500 * (1 + 65535 * 3 + 2)))
            self.file('dosbox', DOSBOX.replace('"${core%\\"}"', 'normal'))
            race.Dosbox('', {}, self.room).run('')
            self.assertRaisesRegex(race.Failed, 'by this core', race.DosboxDynamic('', {}, self.room).run, '')

    def test_bochs_without_its_display_library(self) -> None:
        """A script stands for Debian's Bochs without the package of its display library, and says what that says."""
        race = module('race')
        panic = "00000000000p[      ] >>PANIC<< bochsrc:4: display library 'term' not available"
        os.chmod(self.file('script', f'#!/bin/sh\necho "{panic}"\n'), 0o755)
        with patch.dict(os.environ, {'PATH': f'{self.room}:/usr/bin:/bin'}), redirect_stdout(io.StringIO()) as printed:
            self.assertEqual(race.raced([race.Bochs('', {}, self.room)], 1), ({}, False))
        self.assertEqual(
            printed.getvalue(),
            "Bochs: bochsrc:4: display library 'term' not available. Is all of it there? apt-get install bochs bochs-term bochsbios vgabios bsdutils\n",
        )

    def test_unicorn(self) -> None:
        """It goes to the end of the code, and tells another halt."""
        race = module('race')
        if not race.Unicorn.is_there():
            not_run(f'bench/race with Unicorn; {race.Unicorn.wants}')
            return
        codes = self.racer('sieve').codes | {'a': self.code('a')}
        racer = race.Unicorn('', codes, self.room)
        racer.once(race.com_file(codes['sieve'], 2))
        racer.once(race.with_an_end(codes['a'], 2, 2))
        self.assertRaisesRegex(race.Failed, "didn't come to the end", racer.once, b'\xf4')

    def test_a_race(self) -> None:
        race = module('race')
        turns: list[str] = []
        mine, its = Runner('Zebludor', turns, 2.0), Runner('Bochs', turns, 3.0)
        with redirect_stdout(io.StringIO()) as printed:
            each, are_all_done = race.raced([mine, its, Runner('DOSBox', turns, None)], 2)
        self.assertEqual(printed.getvalue(), 'DOSBox: it stands still. Is all of it there? a package\n')
        self.assertEqual(turns, ['Zebludor', 'Bochs', 'DOSBox', 'Zebludor', 'Bochs'])
        self.assertFalse(are_all_done)
        self.assertEqual(
            [row.split() for row in race.table(each)][:2],
            [['a', 'Zebludor', '2.00', 'ns'], ['a', 'Bochs', '3.00', 'ns', 'Zebludor', 'is', '1.50', 'times', 'as', 'fast']],
        )

    def test_the_pages(self) -> None:
        """A race's ratios are put into the row of each emulator, and their ranges into README's; nothing of a peer that wasn't there."""
        race = module('race')
        each = {('Zebludor', 'a'): 2.0, ('Zebludor', 'sieve'): 4.0, ('Zebludor', 'c'): 8.0, ('MAME', 'a'): 9.0, ('MAME', 'c'): 20.0}
        each |= {('DOSBox normal', 'a'): 8.0, ('DOSBox dynamic', 'a'): 1.5, ('DOSBox normal', 'sieve'): 10.0, ('DOSBox dynamic', 'sieve'): 3.0}
        os.mkdir(f'{self.room}/docs')
        for page in ('README.md', 'docs/speed.md'):
            shutil.copy(f'{TOP}/{page}', f'{self.room}/{page}')
        with patch.object(race, 'TOP', self.room):
            race.write(each)
        with open(f'{self.room}/docs/speed.md', encoding='utf-8') as file:
            rows = [line for line in file.read().splitlines() if line.count('|') == 13]
        row = '|{}|{}||{}|{}|' + '|' * 7
        self.assertEqual(rows[0], f"|Emulator|{'|'.join(race.NAMES)}|")
        self.assertEqual(
            rows[2:],
            [
                row.format('Zebludor', '2.00', '8.00', '4.00'),
                row.format('Bochs', '', '', ''),
                row.format('DOSBox normal', '4.00', '', '2.50'),
                row.format('DOSBox dynamic', '0.75', '', '0.75'),
                row.format('8086tiny', '', '', ''),
                row.format('Unicorn', '', '', ''),
                row.format('MAME', '4.50', '2.50', ''),
            ],
        )
        with open(f'{self.room}/README.md', encoding='utf-8') as file:
            self.assertIn('\n|Zebludor is so many [times as fast](docs/speed.md)|1|0.8 to 4.0||2.5 to 4.5|||\n', file.read())

    def test_who_is_not_there(self) -> None:
        race = module('race')
        with patch.dict(os.environ), patch.object(shutil, 'which', return_value=None), patch.object(ctypes.util, 'find_library', return_value=None):
            for name in ('MAME', 'UNICORN'):
                os.environ.pop(name, None)
            with redirect_stdout(io.StringIO()) as printed:
                self.assertEqual([runner.name for runner in race.runners_of(program.path(), self.room)], ['Zebludor'])
        lines = printed.getvalue().splitlines()
        self.assertEqual(len(lines), 6)
        self.assertIn("DOSBox dynamic isn't there, or not whole: apt-get install dosbox", lines)

    def test_refusals(self) -> None:
        for words, why in (
            (['--rounds', '0'], '0 is no number of rounds'),
            (['--rounds', 'x'], 'x is no number'),
            ([f'{TOP}/pcboard'], 'is no built program'),
            (['--nonsense'], 'unrecognized'),
        ):
            self.assertIn(why, self.tool('bench/race', *words, status=2)[1])
        self.assertIn('--rounds', self.tool('bench/race', '--help')[0])


class Tools(ToolCase):
    """What the tools cost, in runs of the program."""

    def test_units(self) -> None:
        tools = module('tools')
        best = {tools.EMPTY: 0.01, tools.HELLO: 0.002, tools.NESTED: 0.004, 'try': 0.05, 'class': 0.41, 'launcher': 0.03, 'batch': 8.01}
        measured = tools.commands('board', self.room)
        for name, wanted in (('try', 20), ('class', 10), ('launcher', 15), ('batch', 1)):
            self.assertAlmostEqual(tools.units(measured[name], name, best), wanted, msg=name)

    def test_a_limit(self) -> None:
        out = self.tool('bench/tools', '--rounds', '1', '--only', 'launcher', '--limit', 'launcher=0.1', status=1)[0]
        self.assertRegex(out, r'(?m)^launcher .* ms +\d+\.\d\d, above 0\.1$')
        self.tool('bench/tools', '--rounds', '1', '--only', 'launcher', '--limit', 'launcher=1000')

    def test_refusals(self) -> None:
        for words, why in ((['--rounds', '0'], 'rounds are 1 or more'), (['--only', 'x'], 'the rows'), (['--limit', 'try'], 'NAME=NUMBER')):
            self.assertIn(why, self.tool('bench/tools', *words, status=2)[1])


class Runner:
    """Takes a second to start, and so many seconds more for 10^9 instructions, one more in its second turn; or fails."""

    names, wants = ('a', 'b'), 'a package'

    def __init__(self, name: str, turns: list[str], seconds: float | None) -> None:
        self.name, self.turns, self.seconds, self.more = name, turns, seconds, 0.0

    def run(self, name: str) -> tuple[float, float]:
        """Its time and the instructions."""
        if not name:
            self.turns.append(self.name)
            return 1.0, 0
        if self.seconds is None:
            raise sys.modules['bench_race'].Failed('it stands still')
        time, self.more = 1.0 + self.seconds + self.more, 1.0
        return time, 1e9


def hex_record(kind: int, at: int, content: bytes) -> str:
    """A line of Intel HEX."""
    record = bytes([len(content), *at.to_bytes(2, 'big'), kind]) + content
    return f':{(record + bytes([-sum(record) % 256])).hex().upper()}\n'


if __name__ == '__main__':
    unittest.main()
