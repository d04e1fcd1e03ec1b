"""`counts` of pcprobe against trails of few clocks, added up here, with the tables that tools/trace makes of them, and `signals`
against the chips at each clock, over many programs."""
import glob
import subprocess
import sys
import tempfile
import unittest
from collections import Counter

from tests.support import EXAMPLES, RESET, TOP
from toolbox.events import events
from toolbox.listing import listing_of
from toolbox.places import line_at
from toolbox.program import Files, path, run
from toolbox.runfile import read_run_file, text_of
from toolbox.runs import budget_of
from zebludor import read_report

FEW = 30  # clocks whose beginnings a trail holds whole
# Programs by hand: what a count could take for something else. Each begins at `start`, with SS:SP at 0000:8000.
SNIPPETS = {
    'a repeat': 'MOV CX,9\n CLD\n REP STOSB\n',
    'a repeat with CX 0': 'MOV CX,0\n REP MOVSB\n NOP\n',
    'a halt': 'CLI\n HLT\n',
    'a jam': 'DB 0Fh\n',
    'jumps': 'MOV CX,5\nagain: DEC CX\n JNZ again\n',
    'a call': 'CALL below\n JMP SHORT past\nbelow: RET\npast: NOP\n',
    'a single step': 'PUSHF\n POP AX\n OR AX,100h\n PUSH AX\n POPF\n NOP\n MOV BX,2\n INC BX\n AND AX,0FEFFh\n PUSH AX\n POPF\n',
    'a division by 0': 'MOV AX,5\n MOV BL,0\n DIV BL\n',
    'INT 3 and INTO': 'INT 3\n INT 20h\n INTO\n',
    'seven prefixes': 'DB 2Eh,2Eh,2Eh,2Eh,2Eh,2Eh,90h\n NOP\n',
    'stack segment': 'MOV AX,0\n MOV SS,AX\n MOV SP,8000h\n NOP\n',
    'another segment': 'PUSH CS\n MOV AX,past\n PUSH AX\n RETF\npast: NOP\n',
}
TIMER = '''MOV AL,13h
 OUT 20h,AL
 MOV AL,8
 OUT 21h,AL
 MOV AL,1
 OUT 21h,AL
 MOV AL,14h
 OUT 43h,AL
 MOV AL,{}
 OUT 40h,AL
 STI
'''
HANDLER = 'handler: PUSH AX\n MOV AL,20h\n OUT 20h,AL\n POP AX\n IRET\nstepped: IRET\n'


def source_of(snippet: str, period: int) -> str:
    """A program of a snippet that is run again and again, under a timer where it has a period."""
    vectors = (
        'SEGMENT VECTORS AT 0\n'
        + ''.join(f' ORG {4 * vector}\n DW stepped,SEG stepped\n' for vector in (0, 1, 3, 4))
        + ' ORG 32\n DW handler,SEG handler\n ORG 128\n DW stepped,SEG stepped\nENDS\n'
    )
    timer = TIMER.format(period) if period else ''
    return f'{vectors}SEGMENT MAIN AT 0F000h\nstart: MOV SP,8000h\n {timer}round: {snippet} JMP round\n{HANDLER}{RESET}'


def counted(events: list[tuple[int, str]], start: int, end: int) -> list[str]:
    """What `counts` is to print of these beginnings, each a clock and a name."""
    times, clocks = Counter[str](), Counter[str]()
    for (clock, name), (later, _) in zip(events, [*events[1:], (end, '')]):
        times[name] += 1
        clocks[name] += later - clock
    first = events[0][0] if events else end
    names = sorted(times, key=lambda it: (it.startswith('entry'), it))
    return [f'before {first - start}', *(f'{it} {times[it]} {clocks[it]}' for it in names), f'clock {end}']


class ProbeCase(unittest.TestCase):
    """A case that asks pcprobe."""

    def answers(self, files: list[str], lines: list[str]) -> list[str]:
        """What pcprobe prints."""
        done = subprocess.run([path('pcprobe'), *files], input='\n'.join(lines) + '\n', capture_output=True, text=True, check=False)
        self.assertEqual((done.returncode, done.stderr), (0, ''))
        return done.stdout.splitlines()


class Counts(ProbeCase):
    """Each program's counts."""

    def events(self, files: list[str], skipped: int, clocks: int) -> list[tuple[int, str]]:
        """What begins in so many clocks, of trails of few."""
        found = dict[int, str]()
        passed = range(0, clocks, FEW)
        lines = [f'go {skipped}', *(command for at in passed for command in (f'go {min(FEW, clocks - at)}', 'trail'))]
        for line in self.answers(files, lines):
            clock, place, *rest = line.split()
            if clock.isdecimal() and int(clock) >= skipped:
                found[int(clock)] = f'entry {rest[1]}' if rest[0] == 'entry' else place
        return sorted(found.items())

    def judge(self, files: list[str], skipped: int, clocks: int) -> None:
        """Compares the counts of so many clocks, in one and in two parts."""
        events = self.events(files, skipped, clocks)
        whole = self.answers(files, [f'go {skipped}', f'counts {clocks}', 'regs'])
        self.assertEqual(whole[1:-2], counted(events, skipped, skipped + clocks), files)
        self.assertEqual(whole[-2:], self.answers(files, [f'go {skipped + clocks}', 'regs'])[1:], files)
        first, middle = clocks // 3, skipped + clocks // 3
        parts = self.answers(files, [f'go {skipped}', f'counts {first}', f'counts {clocks - first}'])
        earlier = [event for event in events if event[0] < middle]
        later = [event for event in events if event[0] >= middle]
        self.assertEqual(parts[1:], counted(earlier, skipped, middle) + counted(later, middle, skipped + clocks), files)

    def test_examples(self) -> None:
        for source in sorted(glob.glob(f'{EXAMPLES}/*.asm') + glob.glob(f'{TOP}/bench/loops/*.asm')):
            self.judge([source, source[:-3] + 'json'], 1000, 4000)

    def test_by_hand(self) -> None:
        with tempfile.TemporaryDirectory() as room:
            files = [f'{room}/it.asm', f'{room}/it.json']
            with open(files[1], 'w', encoding='utf-8') as file:
                file.write(text_of(read_run_file(f'{EXAMPLES}/first.json')))
            for number, snippet in enumerate(SNIPPETS.values()):
                for period in (0, 37, 211):
                    with open(files[0], 'w', encoding='utf-8') as file:
                        file.write(source_of(snippet, period))
                    self.judge(files, 7 * number + period, 3000)

    def by_trails(self, files: Files) -> Counter[tuple[str, str]]:
        """How often each line of a source ran, and its clocks, each interrupt's too, of all trails of its run."""
        listing, end = listing_of(files), budget_of(files)
        begun = list(events(files, 0, end))
        sums = Counter[tuple[str, str]]()
        for event, later in zip(begun, [*(each.clock for each in begun[1:]), end]):
            line = line_at(listing, event)
            name = f'interrupt {event.entry:02X}' if event.entry is not None else str(line and line.number)
            sums.update({(name, 'times'): 1, (name, 'clocks'): later - event.clock})
        return sums

    def trace(self, files: Files, *words: str) -> str:
        """What tools/trace prints."""
        return subprocess.run(
            [sys.executable, '-S', f'{TOP}/tools/trace', *words, files.file, files.run_file], capture_output=True, text=True, check=True
        ).stdout

    def test_tables(self) -> None:
        for name in ('ticks', 'keys', 'strings', 'nested', 'scroll'):
            files, found = Files(f'{EXAMPLES}/{name}.asm', f'{EXAMPLES}/{name}.json'), Counter[tuple[str, str]]()
            for row in self.trace(files, '--profile').splitlines()[1:]:
                clocks, _, times, *place = row.split(maxsplit=5)
                line = place[1] + ' ' + place[2] if place[0] == '|' else place[0]
                found.update({(line, 'times'): int(times), (line, 'clocks'): int(clocks)})
            self.assertEqual(found, self.by_trails(files), name)

    def waves(self, files: Files) -> dict[str, list[tuple[int, int]]]:
        """The clocks and values of each signal of a run's waveform."""
        head, _, body = self.trace(files, '--vcd', '-').partition('$enddefinitions $end\n')
        names = {line.split()[3]: line.split()[4] for line in head.splitlines() if line.startswith('$var')}
        found, clock = {name: list[tuple[int, int]]() for name in names.values()}, 0
        for line in body.splitlines():
            if line.startswith('#'):
                clock = int(line[1:]) // 210
            elif not line.startswith('$'):
                found[names[line[-1]]].append((clock, int(line[:-1].strip().lstrip('b'), 2)))
        return found

    def test_waveform(self) -> None:
        for name in ('tone', 'keys', 'ticks'):
            files = Files(f'{EXAMPLES}/{name}.asm', f'{EXAMPLES}/{name}.json')
            waves, end = self.waves(files), budget_of(files)
            speaker = [tuple(change) for change in read_report(run(files.words('run')).out).changes]
            self.assertEqual(waves['speaker'], [(0, 0), *speaker], name)
            changes = [line.split() for line in self.answers([files.file, files.run_file], [f'signals {end}'])[:-1]]
            for wire in ('OUT0', 'OUT2', 'IR0', 'IR1', 'INT'):
                self.assertEqual(waves[wire.lower()][1:], [(int(clock), int(level)) for clock, of, level in changes if of == wire], (name, wire))


class Signals(ProbeCase):
    """Each program's changes of wires."""

    def levels(self, chips: list[str]) -> dict[str, int]:
        """The wires' levels, of the lines of `chips`."""
        words = {line.split(' ')[0] if not line.startswith('counter') else line[:9]: line.split() for line in chips}
        controller = words['controller']
        lines = int(controller[2], 16)
        found = {f'OUT{number}': int(words[f'counter {number}'][words[f'counter {number}'].index('OUT') + 1]) for number in (0, 2)}
        return found | {'IR0': lines & 1, 'IR1': lines >> 1 & 1, 'INT': int(controller[controller.index('INT') + 1]), 'speaker': int(words['speaker'][1])}

    def test_examples(self) -> None:
        for name, clocks in (('ticks', 700), ('tone', 1500), ('keys', 2500), ('melody', 900), ('nested', 900), ('poll', 900)):
            files = [f'{EXAMPLES}/{name}.asm', f'{EXAMPLES}/{name}.json']
            lines = self.answers(files, ['chips', *(command for _ in range(clocks) for command in ('go 1', 'chips'))])
            size = lines.index('clock 1')
            before, wanted = self.levels(lines[:size]), list[str]()
            for clock in range(1, clocks + 1):
                at = clock * (size + 1)
                after = self.levels(lines[at : at + size])
                wanted += [f'{clock} {wire} {level}' for wire, level in after.items() if level != before[wire]]
                before = after
            first = clocks // 2
            self.assertEqual(self.answers(files, [f'signals {clocks}']), [*wanted, f'clock {clocks}'], name)
            parts = self.answers(files, [f'signals {first}', f'signals {clocks - first}'])
            self.assertEqual([line for line in parts if not line.startswith('clock')], wanted, name)


if __name__ == '__main__':
    unittest.main()
