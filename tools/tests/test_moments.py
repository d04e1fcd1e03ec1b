"""tools/moments: over a program that stands in for the board, and the worked example over the built program."""
import json
import os
import re
import signal
import subprocess
import sys
import unittest
from pathlib import Path
from unittest import mock

from tests.support import EXAMPLES, SECONDS, TOOLS, ToolCase, but_progress, until

from toolbox.program import run, zebludor

# It shows T, but where a key comes in the first three clocks of ten, and keeps a list of the keys that it was run with. Once there
# are nine of them it waits while a file `waits` is there.
STAND_IN = """#!/bin/sh
[ "$1" = run ] || exit 1
run=$(cat "$4")
keys=${run##*keys\\":}
case $keys in *[0-9][0-2],*) line=a;; *) line=T;; esac
while [ -e ROOM/waits ] && [ $(wc -l < ROOM/list) -ge 9 ]; do sleep 0.02; done
printf 'clock 900\\nAX=0708 BX=0000 CX=0000 DX=03B8 SP=0000 BP=0000 SI=0000 DI=0004\\nCS=F000 DS=0000 ES=B000 SS=0000 IP=0017 FL=F002\\n'
printf 'state halted\\nlost 0\\nsound 0\\nscreen\\n%-80s\\n' $line
for _ in 2 3 4 5 6 7 8 9 10 11 12 13 14 15 16 17 18 19 20 21 22 23 24 25; do printf '%-80s\\n' ''; done
printf '%s\\n' "$keys" >> ROOM/list
"""
TURNS = f'{EXAMPLES}/moments/turns'


class StandIn(ToolCase):
    """Over a program that stands in."""

    def begin(self, keys: str = '[]') -> list[str]:
        """Puts it in the board's place, and returns the files' names."""
        program = self.file('program', STAND_IN.replace('ROOM', self.room))
        os.chmod(program, 0o755)
        self.enterContext(mock.patch.dict(os.environ, {'PCBOARD': program}))
        run = f'{{"version":1,"ram":64,"sw1":0,"sw2":0,"budget":900,"keys":{keys}}}'
        return [self.file('page', 'line 1 = T\n'), self.file('it.asm', 'SEGMENT MAIN AT 0\nENDS\n'), self.file('it.json', run)]

    def enterContext(self, context: 'mock._patch_dict') -> None:  # of Python 3.11
        context.start()
        self.addCleanup(context.stop)

    def listed(self) -> list[list[list[int]]]:
        """The keys of all runs, in their order."""
        with open(f'{self.room}/list', encoding='ascii') as lines:
            return sorted(json.loads(line.rstrip('}\n')) for line in lines)

    def test_ranges_and_the_first_run_file(self) -> None:
        out, _ = self.tool('moments', *self.begin('[[105,2],[115,3]]'), '--key', '1e', '--at', '105..125', status=1)
        self.assertEqual(
            out.splitlines(),
            [
                '20 of 20 moments tried, 6 failed',
                "first 110: line 1 = T: came 'a'",
                "last 122: line 1 = T: came 'a'",
                'failing 110 to 112',
                'failing 120 to 122',
                'it.failing.json is the run file of the first: pcboard run, debug and tools/dbg show it',
            ],
        )
        with open(f'{self.room}/it.failing.json', encoding='utf-8') as file:
            self.assertEqual(json.load(file)['keys'], [[105, 2], [110, 30], [115, 3]])
        self.assertIn([[105, 2], [105, 30], [115, 3]], self.listed())

    def test_pairs_and_samples(self) -> None:
        files, pairs = self.begin(), ('--jobs', '1', '--key', '1E', '--at', '103..106', '--key', '9E', '--at', '207..211')
        out, _ = self.tool('moments', *files, *pairs, status=1)
        self.assertEqual(
            [line for line in out.splitlines() if line.startswith(('12 of', 'failing'))],
            ['12 of 12 moments tried, 3 failed', 'failing 103 210', 'failing 104 210', 'failing 105 210'],
        )
        runs = self.listed()
        self.assertEqual(len(runs), 13)  # one of them without the keys
        self.assertEqual(runs[1], [[103, 0x1E], [207, 0x9E]])
        samples = [self.tool('moments', *files, *pairs, '--sample', '5', '--seed', seed, status=None)[0] for seed in ('7', '7', '8')]
        self.assertIn('5 of 5 moments tried, picked by seed 7, ', samples[0])
        self.assertEqual(samples[0], samples[1])
        self.assertNotEqual(self.listed()[-6:], self.listed()[:6])

    def test_a_page_with_its_own_runs(self) -> None:
        page, source, _ = self.begin()
        self.file('page', 'run = one\nbudget = 900\nline 1 = T\nrun = two\nbudget = 900\nlost = 1\n')
        out, _ = self.tool('moments', page, source, '--key', '1E', '--at', '113', status=1)
        self.assertEqual(
            out.splitlines()[:3], ['without the key too: two: lost = 1: came 0', '1 of 1 moments tried, 1 failed', 'first 113: two: lost = 1: came 0']
        )

    def test_a_second_key(self) -> None:
        """It comes so many clocks after the last one, and at the same clock after it."""
        files = self.begin('[[210,2]]')
        for after, clocks in (('105', (208, 209, 210)), ('0', (103, 104, 105))):
            self.file('list', '')
            self.tool('moments', *files, '--jobs', '1', '--key', '1E', '--at', '103..106', '--pair', '9E', after, status=None)
            wanted = [sorted([[210, 2], [stamp, 0x1E]]) + [[clock, 0x9E]] for stamp, clock in zip((103, 104, 105), clocks)]
            self.assertEqual(self.listed()[:3], [sorted(keys, key=lambda key: key[0]) for keys in wanted])

    def test_what_cant_be_tried(self) -> None:
        files = self.begin()
        for words, wanted in (
            ([], 'has its --at'),
            (['--key', 'EE', '--at', '1..9'], 'no scan code'),
            (['--key', '1E', '--at', '9..9'], 'no clock'),
            (['--key', '1E', '--at', 'soon'], '1000..9000'),
            (['--key', '1E', '--at', '890..902'], 'never comes'),
            (['--key', '1E', '--at', '1..9', '--sample', '9'], 'there are 8 moments'),
            (['--key', '1E', '--at', '1..9', '--symbols', 'x'], 'goes with --hex'),
            (['--key', '1E', '--at', '1..9', '--pair', '54', '1'], '--pair 54 is no scan code'),
            (['--key', '1E', '--at', '1..9', '--pair', '9E', '-1'], '--pair goes with --key'),
            (['--key', 'any', '--at', '1..9'], 'no scan code'),
            (['--stop', 'MAIN', '--key', '1E', '--at', '1..9', '--sample', '2'], '--stop goes with one --key'),
        ):
            self.assertIn(wanted, self.called('moments', *files, *words, status=2)[1])
        self.assertIn('give its name', self.called('moments', '-', *files[1:], '--key', '1E', '--at', '1..9', status=2)[1])
        self.file('it.moments', '{}')
        self.assertIn('remove it', self.called('moments', *files, '--key', '1E', '--at', '1..9', status=2)[1])

    def test_goes_on_behind_an_interrupt(self) -> None:
        words = [*self.begin(), '--key', '1E', '--at', '103..163', '--jobs', '2']
        waits = self.file('waits', '')
        self.file('list', '')
        with subprocess.Popen(
            [sys.executable, '-S', f'{TOOLS}/moments', *words], stdout=subprocess.PIPE, stderr=subprocess.PIPE, text=True, cwd=self.room, start_new_session=True
        ) as process:
            try:
                self.assertTrue(until(lambda: len(self.listed()) > 8))
                os.killpg(process.pid, signal.SIGINT)
                out, err = process.communicate(timeout=SECONDS)
            finally:
                process.kill()
        os.remove(waits)
        self.assertEqual(process.returncode, 130, err)
        self.assertRegex(out, r'^\d+ of 60 moments tried')
        self.assertEqual(but_progress(err), 'moments: it.moments keeps what was tried; the same command goes on from there\n')
        tried, before = int(out.split()[0]), len(self.listed())
        out, _ = self.tool('moments', *words, status=1)
        self.assertEqual(out.splitlines()[0], '60 of 60 moments tried, 18 failed')
        runs = self.listed()
        self.assertEqual(len(runs), before + 60 - tried + 1)
        self.assertEqual({keys[0][0] for keys in runs if keys}, set(range(103, 163)))
        self.assertFalse(os.path.exists(f'{self.room}/it.moments'))

    def test_what_was_kept_of_others_isnt_taken(self) -> None:
        files = self.begin()
        self.file('it.moments', '{"of":"others","tried":[[0,8]],"failed":[]}')
        out, err = self.tool('moments', *files, '--key', '1E', '--at', '103..107')
        self.assertEqual((out.splitlines()[0], err.count('begins anew')), ('4 of 4 moments tried, 0 failed', 1))

    def test_a_sample_joins_neighbours_alone(self) -> None:
        """Failing stamps between which others weren't tried are no range."""
        out, _ = self.tool('moments', *self.begin(), '--jobs', '1', '--key', '1E', '--at', '101..201', '--sample', '20', '--seed', '3', '--all', status=1)
        tried = {keys[0][0] for keys in self.listed() if keys}
        self.assertEqual(len(tried), 20)
        failing = set[int]()
        for line in out.splitlines():
            if line.startswith('failing '):
                first, _, last = line.removeprefix('failing ').partition(' to ')
                failing |= set(range(int(first), int(last or first) + 1))
        self.assertEqual(failing, {clock for clock in tried if clock % 10 < 3})

    def test_a_key_at_the_end(self) -> None:
        """At the budget's own clock a key comes, and behind it none does."""
        files = self.begin()
        self.assertIn('1 of 1 moments tried', self.tool('moments', *files, '--key', '1E', '--at', '900', status=1)[0])
        self.assertIn('a key at clock 901 never comes: the run ends at 900', self.called('moments', *files, '--key', '1E', '--at', '900..902', status=2)[1])


# It takes the key that waits into a byte of memory twice, and throws one away between.
TWICE = '''SEGMENT M AT 0F000h
go:     MOV AX,0
        MOV DS,AX
        MOV AL,99h
        OUT 63h,AL
        MOV AL,40h
        OUT 61h,AL
        MOV CX,10
a:      LOOP a
        IN AL,60h
        OR [402h],AL
        MOV CX,11
b:      LOOP b
        MOV AL,0C0h
        OUT 61h,AL
        MOV AL,40h
        OUT 61h,AL
        MOV CX,8
c:      LOOP c
        IN AL,60h
        OR [402h],AL
        HLT
ENDS
SEGMENT R AT 0FFFFh
        JMP FAR go
ENDS
'''


class Board(ToolCase):
    """The worked example of docs/for-firmware.md, at some of its moments."""

    def test_the_worked_example(self) -> None:
        words = (f'{TURNS}.json', '--key', '1E', '--at')
        out, _ = self.tool('moments', f'{TURNS}.page', f'{TURNS}.asm', *words, '1980..2020', status=1)
        lines = out.splitlines()
        self.assertEqual((lines[0], lines[3]), ('40 of 40 moments tried, 12 failed', 'failing 1996 to 2007: from line 36 (MOV AX,[turns]) to line 37 (INC AX)'))
        trail = self.pcboard('debug', f'{TURNS}.asm', f'{TURNS}.json', given='go 1996\ntrail\ngo 11\ntrail\n').stdout.splitlines()
        self.assertTrue(' MOV AX,[' in trail[32] and trail[-1].endswith(' INC AX'), (trail[32], trail[-1]))
        self.tool('judge', f'{TURNS}.page', f'{TURNS}.asm', f'{TURNS}.json')
        self.tool('judge', f'{TURNS}.page', f'{TURNS}.asm', f'{self.room}/turns.failing.json', status=1)
        out, _ = self.tool('moments', f'{TURNS}.page', f'{EXAMPLES}/moments/mended.asm', *words, '1980..2020')
        self.assertEqual(out, '40 of 40 moments tried, 0 failed\n')

    def test_what_passes_between_two_ranges(self) -> None:
        """All of four fail, of which the last is of another range: what lies between passes, as a session's dump tells."""
        source = self.file('it.asm', TWICE)
        words = (self.file('page', 'budget = 1000\nmemory 402 = 0\n'), source, '--jobs', '1', '--key', '1E', '--at', '100..900')
        out, _ = self.tool('moments', *words, '--sample', '4', '--seed', '2', status=1)
        failing = [each.partition(':')[0] for each in out.splitlines() if each.startswith('failing')]
        self.assertEqual(failing, ['failing 157', 'failing 186', 'failing 193', 'failing 469'])
        for clock, octet in ((157, '1E'), (193, '1E'), (211, '1E'), (212, '00'), (300, '00'), (426, '00'), (427, '1E'), (469, '1E')):
            run = self.file('it.json', f'{{"version":1,"ram":64,"sw1":0,"sw2":0,"budget":1000,"keys":[[{clock},30]]}}')
            self.assertEqual(self.pcboard('debug', source, run, given='go 1000\ndump 402 1\n').stdout.splitlines()[-1], f'00402: {octet}', clock)

    def test_a_second_key(self) -> None:
        """What `moments` answers of two keys, by runs of `pcboard debug` that have them in their run files."""
        source, stops = self.file('it.asm', TWICE), ['byte 402 1E', 'byte 402 9E', 'halted']
        plain, trials = self.with_keys([]), [(150, 0), (150, 9), (184, 40), (420, 60), (465, 700)]
        lines = [*stops, *(f'moments 1E {first} {first + 11} 600 9E {after}' for first, after in trials)]
        ran = run(['--', source, plain], ('\n'.join(lines) + '\n').encode(), 'pcprobe')
        self.assertEqual(ran.out.splitlines()[3:], [line for trial in trials for line in self.ranges(source, stops, *trial)])

    def with_keys(self, keys: list[list[int]]) -> str:
        """A run file with these keys."""
        return self.file('it.json', f'{{"version":1,"ram":64,"sw1":0,"sw2":0,"budget":1000,"keys":{keys}}}')

    def ranges(self, source: str, stops: list[str], first: int, after: int) -> list[str]:
        """The ranges of twelve clocks of a key, each by a run of its own."""
        found: list[list[int]] = []  # the first and the last clock, the stop, and the least and the greatest clock of the end
        for stamp in range(first, first + 12):
            files = source, self.with_keys([[stamp, 0x1E], [stamp + after, 0x9E]])
            _, *stop, _, clock = ('go ' + self.pcboard('debug', *files, given='\n'.join([*stops, 'go 600', ''])).stdout.splitlines()[-1]).split()
            number, at = int(stop[1]) if len(stop) > 1 else 0, int(clock)
            if found and found[-1][2] == number:
                found[-1] = [found[-1][0], stamp, number, min(found[-1][3], at), max(found[-1][4], at)]
            else:
                found.append([stamp, stamp, number, at, at])
        return [f'{row[0]} {row[1]} ' + (f'stop {row[2]} {row[3]} {row[4]}' if row[2] else 'none') for row in found]

    def test_a_key_at_the_budget_comes(self) -> None:
        """The seventeenth, at the clock at which the run ends, is lost."""
        keys = str([[0, 30]] * 16)
        files = self.program('        HLT', 100)
        run = self.file('it.json', f'{{"version":1,"ram":64,"sw1":0,"sw2":0,"budget":100,"keys":{keys}}}')
        out, _ = self.tool('moments', self.file('page', 'lost = 0\n'), files[0], run, '--jobs', '1', '--key', '1E', '--at', '100', status=1)
        self.assertIn('first 100: lost = 0: came 1', out)

    def test_labels_of_hex(self) -> None:
        """The label whose word is spoilt in the same moments is told by a listing."""
        text = self.file('turns.hex', self.pcboard('asm', f'{TURNS}.asm').stdout)
        listing = self.file('turns.lst', self.pcboard('asm', '--list', f'{TURNS}.asm').stdout)
        words = (self.file('page', 'runs = idle\nmemory turns = 14 00\n'), text, f'{TURNS}.json', '--hex', '--key', '1E', '--at', '1994..1998')
        out, _ = self.tool('moments', *words, '--symbols', listing, status=1)
        self.assertEqual(out.splitlines()[0], '4 of 4 moments tried, 2 failed')
        self.assertRegex(out, r'failing 1996 to 1997: at turn\+5 \(MOV AX,\[\w+\]\)\n|failing 1996 to 1997: at line 36 \(')
        self.assertIn('no idle in', self.tool('moments', *words, status=1)[0])
        self.file('turns.lst', '0500:0000 turns\n')
        self.assertIn('no byte at any of its labels', self.tool('moments', *words, '--symbols', listing, status=2)[1])


# The timer's interrupt and the main loop both count up; INITIAL is what the timer is loaded with.
RACE = '''SEGMENT MAIN AT 0F000h
initial EQU 400                 ; the first count
start:  MOV AX,50h
        MOV SS,AX
        MOV DS,AX
        MOV SP,200h
        MOV AL,30h
        OUT 43h,AL
load:   MOV AX,INITIAL
        OUT 40h,AL
        MOV AL,AH
        OUT 40h,AL
        MOV AL,13h
        OUT 20h,AL
        MOV AL,8
        OUT 21h,AL
        MOV AL,1
        OUT 21h,AL
        STI
        MOV CX,20
turn:   LOOP turn
        MOV AX,[0]
        INC AX
        MOV [0],AX
        MOV CX,60
rest:   LOOP rest
        CLI
        HLT
tick:   PUSH AX
        INC WORD [0]
        MOV AL,20h
        OUT 20h,AL
        POP AX
        IRET
ENDS
SEGMENT VECTORS AT 0
        ORG 20h
        DW tick,SEG tick
ENDS
SEGMENT RESET AT 0FFFFh
        JMP FAR start
ENDS
'''
COUNTS = range(88, 108)
TERMINAL = f'{EXAMPLES}/terminal/terminal'


class Measured(ToolCase):
    """Clocks up to a place, and the timer's phase."""

    def test_from_key_to_handler(self) -> None:
        """The finding's numbers, 61 to 330 clocks, about the tick that makes the longest; each by a session of its own too."""
        words = ('--measure', 'key', f'{TERMINAL}.asm', f'{TERMINAL}.json', '--jobs', '1', '--key', '1E', '--at')
        self.assertEqual(
            self.tool('moments', *words, '52640..52656')[0].splitlines()[:3:2], ['16 of 16 moments tried, 16 came to key', 'most 330 clocks, after 52648']
        )
        clocks = [self.clocks_to_key(each) for each in range(52640, 52656)]
        out, _ = self.tool('moments', *words, '52640..52656')
        self.assertIn(f'least {min(clocks)} clocks, after {52640 + clocks.index(min(clocks))}\n', out)
        self.assertIn(f'most {max(clocks)} clocks, after {52640 + clocks.index(max(clocks))}\n', out)
        self.assertIn(f'mean {sum(clocks) / 16:.1f} clocks\n', out)
        self.assertIn('least 61 clocks, after 50000\n', self.tool('moments', *words, '50000')[0])

    def clocks_to_key(self, stamp: int) -> int:
        """The clocks from one key's stamp to its handler."""
        with zebludor.Session(Path(f'{TERMINAL}.asm'), keys=[(20000, 30), (20480, 158), (stamp, 30)], budget=100_000) as session:
            session.go(stamp)
            session.stop_at('key')
            session.go(1000)
            return session.clock - stamp

    def test_never(self) -> None:
        words = (f'{TERMINAL}.asm', f'{TERMINAL}.json', '--jobs', '1', '--key', '1E', '--at')
        out, _ = self.tool('moments', '--measure', 'full', *words, '30000..30003')
        self.assertEqual(out, '3 of 3 moments tried, 0 came to full\nnever after 30000 to 30002\n')
        out, _ = self.tool('moments', '--measure', 'key', *words, '99936..99941')
        self.assertEqual(out.splitlines()[0] + out.splitlines()[-1], '5 of 5 moments tried, 4 came to keynever after 99940')

    def run_to(self, place: str, keys: list[tuple[int, int]], budget: int) -> str:
        """How a run with these keys comes to a place, by a session of its own."""
        with zebludor.Session(Path(f'{TERMINAL}.asm'), keys=keys, budget=budget) as session:
            session.stop_at(place)
            session.go(budget)
            return f'{place} at clock {session.clock}' if session.clock < budget else 'never'

    def test_which_clocks_lead_to_a_place(self) -> None:
        """Of one key, and of one with its release at once: each range by runs of its own."""
        words = ('--stop', 'key', f'{TERMINAL}.asm', self.file('it.json', '{"version":1,"ram":64,"sw1":0,"sw2":0,"budget":2500,"keys":[]}'))
        for more, second in (((), []), (('--pair', '9E', '3'), [(3, 0x9E)])):
            out, _ = self.tool('moments', *words, '--key', '1E', '--at', '2300..2304', *more)
            for stamp in range(2300, 2304):
                wanted = self.run_to('key', [(stamp, 0x1E), *((stamp + after, code) for after, code in second)], 2500)
                self.assertTrue(any(self.tells(line, stamp, wanted) for line in out.splitlines()), (out, stamp, wanted))

    def tells(self, line: str, stamp: int, wanted: str) -> bool:
        """Whether a range's line says of a stamp what is wanted."""
        found = re.fullmatch(r'(\d+)(?: to (\d+))?: (never|key at clock (\d+)(?: to (\d+))?)', line)
        assert found, line
        if not int(found[1]) <= stamp <= int(found[2] or found[1]):
            return False
        clock = int(wanted.rpartition(' ')[2]) if wanted != 'never' else 0
        return found[3] == 'never' if not clock else found[3] != 'never' and int(found[4]) <= clock <= int(found[5] or found[4])

    def test_any_key(self) -> None:
        """Codes with one answer are told at once."""
        words = ('--stop', 'key', f'{TERMINAL}.asm', self.file('it.json', '{"version":1,"ram":64,"sw1":0,"sw2":0,"budget":100,"keys":[]}'))
        out, _ = self.tool('moments', *words, '--key', 'any', '--at', '10..12')
        self.assertEqual(out, '01-53 81-D3:\n10 to 11: never\n')

    def counts(self) -> tuple[list[int], str]:
        """The counts with which the race is lost, each by a run, and the source."""
        source, lost = self.file('race.asm', RACE), list[int]()
        run = self.file('race.json', '{"version":1,"ram":64,"sw1":0,"sw2":0,"budget":3000,"keys":[]}')
        for count in COUNTS:
            poked = self.file('it.asm', RACE.replace('EQU 400', f'EQU {count}'))
            if not self.pcboard('debug', poked, run, given='go 3000\ndump 500 1\n').stdout.endswith(' 02\n'):
                lost.append(count)
        self.assertTrue(0 < len(lost) < len(COUNTS))
        return lost, source

    def failing(self, out: str) -> list[int]:
        """The counts of the failing ranges."""
        found = re.findall(r'^failing count (\d+)(?: to (\d+))?$', out, re.M)
        return [each for first, last in found for each in range(int(first), int(last or first) + 1)]

    def test_first_counts(self) -> None:
        """Of a source by its constant, and of Intel HEX by its bytes."""
        lost, source = self.counts()
        page, which = self.file('page', 'memory 500 = 02\n'), ('--first-count', f'{COUNTS.start}..{COUNTS.stop}')
        out, _ = self.tool('moments', page, source, 'race.json', *which, '--poke', 'INITIAL', '--all', status=1)
        self.assertEqual(self.failing(out), lost)
        self.tool('judge', page, 'race.failing.asm', 'race.failing.json', status=1)
        listing, text = (self.pcboard('asm', *each, source).stdout for each in (['--list'], []))
        words = (self.file('race.hex', text), 'race.json', '--symbols', self.file('race.lst', listing), *which)
        out, _ = self.tool('moments', page, *words, '--poke', 'load+1,load+2', '--all', status=1)
        self.assertEqual(self.failing(out), lost)
        self.tool('judge', page, 'race.failing.hex', 'race.failing.json', status=1)

    def test_counts_with_keys(self) -> None:
        """Pairs of a count and a key, and what can't be tried."""
        source = self.file('race.asm', RACE)
        words = ('--measure', 'tick', source, '--jobs', '1', '--first-count', '200..202', '--poke', 'INITIAL')
        out, _ = self.tool('moments', *words, '--key', '1E', '--at', '300..303')
        self.assertEqual(out.splitlines()[0], '6 of 6 moments tried, 6 came to tick')
        self.assertRegex(out, r'least \d+ clocks, after count 20\d, 302\nmost \d+ clocks, after count 20\d, 300\n')
        for more, wanted in (
            (['--first-count', '1..2', '--poke', 'nobody'], 'no line "nobody EQU .."'),
            (['--first-count', '1..2'], 'goes with --poke'),
            (['--first-count', '2..2', '--poke', 'INITIAL'], 'has no count'),
            (['--key', '1E', '--at', '1..2', 'a', 'b'], 'name FILE, and RUN'),
        ):
            self.assertIn(wanted, self.tool('moments', '--measure', 'tick', source, *more, status=2)[1])


if __name__ == '__main__':
    unittest.main()
