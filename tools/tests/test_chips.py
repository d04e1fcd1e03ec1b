"""What is read of the chips' lines, over lines by hand; and what pcprobe tells of sessions whose chips are known by the data
sheets, by hand."""
from __future__ import annotations

import subprocess
import unittest

from tests.support import ToolCase, example

from toolbox.chips import Chips, ends_before, facts
from toolbox.program import Files, path

CONTROLLER = 'controller IR {} IRR {} ISR {} IMR {} lowest {} INT {} vector 0F awaits {} LTIM 0 uPM {} AEOI 0 rotates 0 SMM {} P 0 RIS 0 risen 00 SNGL 1 IC4 1'
COUNTER = 'counter 0 mode 0 RW 3 BCD 0 count 0000 newest {} load 0 OUT 0 GATE 1 first none latch none high 0 loaded 0 due 0 strobe 0 decimal 0'
PORTS = 'ports A in 00 B out {} C in/in 00'
PROCESSOR = 'processor {} busy 0 IF {} inhibits none step 0 repeat 0'
QUIET = CONTROLLER.format('00', '00', '00', '00', 7, 0, 'none', 1, 0)


class Facts(unittest.TestCase):
    """Which facts are told of which chips."""

    def short_facts(
        self, controller: str, port_b: str = '00', latch: str = 'none', waiting: str = '', newest: str = '0064', state: str = 'halted', interrupts: int = 1
    ) -> list[str]:
        """The facts of such chips, each as far as its first colon or comma."""
        lines = [
            controller,
            COUNTER.format(newest),
            PORTS.format(port_b),
            f'keyboard latch {latch} lost 0 waiting{waiting}',
            PROCESSOR.format(state, interrupts),
        ]
        return [it.split(':')[0] for it in facts(lines, lambda kind: {'ends': f'of {kind:02X}'})]

    def test_requests(self) -> None:
        none = 'IR0 asks, and the interrupt controller takes nothing'
        for fields, wanted in (
            (('01', '01', '00', 'FE', 7, 1, 'none', 1, 0), []),
            (('01', '00', '01', '00', 7, 0, 'none', 1, 0), []),
            (('01', '01', '01', 'FE', 7, 0, 'none', 1, 0), ['IR0 asks again, and is still in service']),
            (('02', '02', '00', '02', 7, 0, 'none', 1, 0), ['IR1 asks, and is masked']),
            (('03', '03', '01', '02', 7, 0, 'none', 1, 0), ['IR1 asks, and is masked', 'IR0 asks again, and is still in service']),
            (('01', '01', '00', '00', 7, 0, 'ICW4', 0, 0), [none]),
            (('01', '01', '00', '00', 7, 0, 'none', 0, 0), [none]),
            (('30', '20', '14', '00', 3, 0, 'none', 1, 0), ['IR5 asks, and IR4 is still in service']),
            (('30', '20', '14', '10', 3, 0, 'none', 1, 1), ['IR5 asks, and IR2 is still in service']),
        ):
            self.assertEqual(self.short_facts(CONTROLLER.format(*fields)), wanted)

    def test_requests_that_the_processor_does_not_take(self) -> None:
        served = CONTROLLER.format('01', '01', '01', 'FE', 7, 0, 'none', 1, 0)
        self.assertEqual(self.short_facts(served, interrupts=0), [])
        self.assertEqual(self.short_facts(served, state='running'), ['IR0 asks again, and is still in service'])

    def test_a_tick_that_never_comes(self) -> None:
        self.assertEqual(self.short_facts(QUIET, newest='none'), ['perhaps a tick is awaited'])
        self.assertEqual(self.short_facts(QUIET, newest='none', interrupts=0), [])
        self.assertEqual(self.short_facts(QUIET, newest='none', state='running'), [])
        self.assertEqual(self.short_facts(CONTROLLER.format('00', '00', '00', '01', 7, 0, 'none', 1, 0), newest='none'), [])

    def test_keys(self) -> None:
        self.assertEqual(self.short_facts(QUIET, '40', '1E'), [])
        self.assertEqual(self.short_facts(QUIET, '00', 'none', ' 1E'), ['1 key code waits'])
        self.assertEqual(self.short_facts(QUIET, 'C0', 'none', ' 1E 9E'), ['2 key codes wait'])
        self.assertEqual(self.short_facts(QUIET, '40', '1E', ' 9E'), ["1 key code waits behind 1Eh in the latch, which line 7 of port B hasn't emptied"])

    def test_lines(self) -> None:
        chips = Chips([COUNTER.format('0005'), PORTS.format('4D'), 'speaker 1', PROCESSOR.format('jammed', 0)])
        self.assertEqual((chips.value('counter 0', 'newest'), chips.value('ports', 'C'), chips.port_b), ('0005', 'in/in 00', 0x4D))
        self.assertEqual((chips.value('speaker', 'level'), chips.value('processor', 'state')), ('1', 'jammed'))


# What counter 0 shows after each tick from its count on, the gate high: the rows of docs/chips.md. Counter 2 for modes 1 and 5.
# And whether the next tick loads.
ROWS = (
    ('8253', '10h', 4, '04L 03L 02L 01L 00H FFH FEH', '0000000'),
    ('8253', '14h', 3, '03H 02H 01L 03H 02H 01L 03H', '0010010'),
    ('8253', '14h', 1, '01H 01H 01H', '111'),
    ('8253', '16h', 4, '04H 02H 04L 02L 04H 02H', '010101'),
    ('8253', '16h', 5, '05H 04H 02H 05L 02L 05H 04H 02H 05L 02L', '0010100101'),
    ('8253', '18h', 3, '03H 02H 01H 00L FFH FEH FDH', '0000000'),
    ('8254', '14h', 3, '03H 02H 01L 03H 02H 01L 03H', '0010010'),
    ('8254', '16h', 5, '04H 02H 00H 04L 02L 04H 02H 00H 04L 02L', '0010100101'),
)
TRIGGERED = (('92h', 3, '03L 02L 01L 00H FFH'), ('9Ah', 3, '03H 02H 01H 00L FFH'))
# A controller in 8086 mode, single, edge mode, vectors from 8 on, whose mask lets IR0 through; and a handler's vector.
READY = (('20h', '13h'), ('21h', '8'), ('21h', '1'), ('21h', '0FEh'))
WAITS = ' STI\nidle: HLT\n JMP SHORT idle\ntick: INC BX\n{} IRET\nENDS\nSEGMENT VECTORS AT 0\n ORG 20h\n DW tick,SEG tick\n'
COUNTS = (('43h', '14h'), ('40h', '100'))  # mode 2, low byte


def writes(*pairs: tuple[str, str]) -> str:
    """Port writes: the OUT of the n-th begins in clock 5 + 14 n, n being 1 and more, behind the far jump's 15 clocks."""
    return ''.join(f' MOV AL,{value}\n OUT {port},AL\n' for port, value in pairs)


SET = writes(('63h', '99h'), ('61h', '1'))  # port B drives its lines, and gate 2 is high
LATE = ' NOP\n'  # 3 clocks
# Two moments at which a counter shows the same but for one word, which is 0 at the first and 1 at the second; and the count and
# OUT some ticks later. A moment is a program and a clock.
ALIKE = (
    # mode 3, N = 5 from clock 53 on, in the high half of a 4, of 2 ticks; and from 56 on in the high half of a 5, of 3
    (
        'keeps',
        '8254',
        'counter 0',
        (writes(('43h', '16h'), ('40h', '4')) + 2 * LATE + writes(('40h', '5')), 54, '04L'),
        (writes(('43h', '16h'), ('40h', '5')) + 3 * LATE + writes(('40h', '5')), 57, '00H'),
        2,
    ),
    # mode 3, N = 4: the last tick of a high half; and the gate low from 78 to 92, since OUT is low at 76 and high then
    (
        'due',
        '8253',
        'counter 2',
        (SET + writes(('43h', '96h'), ('42h', '4')), 68, '04L'),
        (SET + writes(('43h', '96h'), ('42h', '4')) + LATE + writes(('61h', '0'), ('61h', '1')), 93, '04H'),
        1,
    ),
    # mode 4, N = 3: behind the strobe the count goes round, and 65,536 ticks after the load it is 3 again
    (
        'strobe',
        '8253',
        'counter 0',
        (writes(('43h', '18h'), ('40h', '3')), 36 + 4 * 65536, '00H'),
        (writes(('43h', '18h'), ('40h', '3')), 36, '00L'),
        3,
    ),
    # mode 5, N = 3, triggered in clock 61: FFFF at 80; a control word in 81 stops it, and no trigger follows on the count of 95
    (
        'loaded',
        '8253',
        'counter 2',
        (
            writes(('63h', '99h'), ('43h', '9Ah'), ('42h', '3'), ('61h', '1')) + 2 * LATE + writes(('43h', '9Ah'), ('42h', '3')),
            100,
            'FFH',
        ),
        (writes(('63h', '99h'), ('43h', '9Ah'), ('42h', '3'), ('61h', '1')), 80, 'FEH'),
        1,
    ),
)


class Probed(ToolCase):
    """What pcprobe answers."""

    def probed(self, lines: str, commands: str, keys: str = '[]', timer: str = '8253') -> list[Chips]:
        """The chips that a session about a program shows, one behind the other."""
        source, _ = self.program(lines)
        fields = f'"version":2,"ram":64,"sw1":109,"sw2":26,"budget":9000,"keys":{keys},"timer":"{timer}","clocks":"C1"'
        answers = self.answers(source, self.file('p.json', f'{{{fields}}}'), commands)
        starts = [at for at, line in enumerate(answers) if line.startswith('controller')]
        return [Chips(answers[at : at + 9]) for at in starts]

    def answers(self, source: str, run: str, commands: str) -> list[str]:
        """The lines that a session answers."""
        done = subprocess.run([path('pcprobe'), source, run], input=commands, capture_output=True, text=True, check=False)
        self.assertEqual((done.returncode, done.stderr), (0, ''))
        return done.stdout.splitlines()

    def words(self, seen: Chips, line: str, words: str) -> str:
        """The values of these words."""
        return ' '.join(seen.value(line, word) for word in words.split())

    def counts(self, seen: list[Chips], counter: str) -> str:
        """The counts, each with the level of OUT."""
        return ' '.join(it.value(counter, 'count')[2:] + 'LH'[int(it.value(counter, 'OUT'))] for it in seen)

    def test_counts_at_each_tick(self) -> None:
        for timer, word, count, wanted, loads in ROWS:
            # the count is written in clock 33, and the tick of clock 36 loads it
            seen = self.probed(writes(('43h', word), ('40h', str(count))) + ' HLT', 'go 36\nchips\n' + 'go 4\nchips\n' * wanted.count(' '), timer=timer)
            self.assertEqual(self.counts(seen, 'counter 0'), wanted, (timer, word))
            self.assertEqual(''.join(it.value('counter 0', 'load') for it in seen), loads, (timer, word))
            self.assertEqual({(it.value('counter 0', 'RW'), it.value('counter 0', 'newest')) for it in seen}, {('1', f'{count:04X}')})

    def test_counts_behind_a_trigger(self) -> None:
        for word, count, wanted in TRIGGERED:
            # gate 2 rises in clock 61, and the tick of clock 64 loads
            seen = self.probed(
                writes(('63h', '99h'), ('43h', word), ('42h', str(count)), ('61h', '1')) + ' HLT',
                'go 60\nchips\ngo 2\nchips\ngo 2\nchips\n' + 'go 4\nchips\n' * wanted.count(' '),
            )
            self.assertEqual([self.words(it, 'counter 2', 'GATE load due loaded') for it in seen[:3]], ['0 0 0 0', '1 1 1 0', '1 0 0 1'])
            self.assertEqual(self.counts(seen[2:], 'counter 2'), wanted, word)

    def test_what_goes_on_otherwise(self) -> None:
        for word, timer, counter, *moments, ticks in ALIKE:
            shown, later = [], []
            for lines, clock, wanted in moments:
                before, after = self.probed(lines + ' HLT', f'go {clock}\nchips\ngo {4 * ticks}\nchips\n', timer=timer)
                shown.append(before.lines[counter])
                later.append((self.counts([after], counter), wanted))
            self.assertEqual([it.pop(word) for it in shown], ['0', '1'], word)
            self.assertEqual(*shown)
            self.assertEqual(*zip(*later))

    def test_a_strobe_that_is_due(self) -> None:
        # the count is written in clock 33 and loaded at 36; the third tick from there reaches 0
        seen = self.probed(writes(('43h', '18h'), ('40h', '3')) + ' HLT', 'go 34\nchips\ngo 2\nchips\n' + 4 * 'go 4\nchips\n')
        self.assertEqual([it.value('counter 0', 'strobe') for it in seen], ['0', '1', '1', '1', '0', '0'])

    def test_a_zero_that_is_kept(self) -> None:
        # the high half of 5 has 3 ticks, the last one at 0, and the low half 2
        seen = self.probed(writes(('43h', '16h'), ('40h', '5')) + ' HLT', 'go 36\nchips\n' + 5 * 'go 4\nchips\n', timer='8254')
        self.assertEqual([it.value('counter 0', 'keeps') for it in seen], ['1', '1', '1', '0', '0', '1'])

    def test_a_gate_that_is_low_at_1(self) -> None:
        # mode 2, N = 2, loaded at 64: 1 at 76; gate 2 is low from 78 to 92, and OUT high
        lines = SET + writes(('43h', '94h'), ('42h', '2')) + LATE + writes(('61h', '0'), ('61h', '1')) + ' HLT'
        seen = self.probed(lines, 'go 76\nchips\ngo 3\nchips\ngo 14\nchips\n')
        self.assertEqual([self.words(it, 'counter 2', 'count OUT GATE load due') for it in seen], ['0001 0 1 1 0', '0001 1 0 0 0', '0001 1 1 1 1'])

    def test_a_decimal_count_under_a_binary_word(self) -> None:
        # 34 is loaded at clock 36; the control word of clock 47 stops it at 32, and the count of 61 is loaded at 64
        lines = writes(('43h', '11h'), ('40h', '34h'), ('43h', '10h'), ('40h', '34h')) + ' HLT'
        seen = self.probed(lines, 'go 44\nchips\ngo 8\nchips\ngo 12\nchips\n')
        self.assertEqual(
            [self.words(it, 'counter 0', 'BCD count newest loaded decimal') for it in seen], ['1 0032 0034 1 1', '0 0032 none 0 1', '0 0034 0034 1 0']
        )

    def test_a_rise_whose_line_is_low_again(self) -> None:
        # IR0 rises as the control word of clock 75 sets OUT high; the count of 89 is loaded at 92: 1 with OUT low at 100
        lines = writes(*READY, ('43h', '14h'), ('40h', '3')) + ' HLT'
        seen = self.probed(lines, 'go 74\nchips\ngo 2\nchips\ngo 24\nchips\ngo 4\nchips\n')
        self.assertEqual([self.words(it, 'controller', 'IR IRR risen') for it in seen], ['00 00 00', '01 01 01', '00 00 01', '01 01 01'])

    def test_bytes_and_latches(self) -> None:
        # decimal, two bytes: 34h in clock 33, 12h in 47, loaded at 48; a latch in clock 61, behind three more ticks
        lines = writes(('43h', '31h'), ('40h', '34h'), ('40h', '12h'), ('43h', '0')) + ' IN AL,40h\n IN AL,40h\n HLT'
        seen = self.probed(lines, 'go 40\nchips\ngo 8\nchips\ngo 16\nchips\ngo 16\nchips\ngo 10\nchips\n')
        shown = [tuple(it.value('counter 0', word) for word in ('BCD', 'count', 'newest', 'first', 'latch', 'high')) for it in seen]
        self.assertEqual(
            shown,
            [
                ('1', '0000', 'none', '34', 'none', '0'),
                ('1', '1234', '1234', 'none', 'none', '0'),
                ('1', '1230', '1234', 'none', '1231', '0'),
                ('1', '1226', '1234', 'none', '1231', '1'),
                ('1', '1224', '1234', 'none', 'none', '0'),
            ],
        )

    def test_a_high_byte_alone(self) -> None:
        (seen,) = self.probed(writes(('43h', '24h'), ('40h', '2')) + ' HLT', 'go 40\nchips\n')
        self.assertEqual([seen.value('counter 0', word) for word in ('RW', 'mode', 'newest', 'count', 'high')], ['2', '2', '0200', '01FF', '1'])

    def test_status(self) -> None:
        (first,) = self.probed(writes(('43h', '0E2h')) + ' HLT', 'go 30\nchips\n', timer='8254')
        self.assertEqual([first.value('counter 0', word) for word in ('status', 'latched')], ['70', '70'])
        self.assertEqual(first.value('counter 1', 'latched'), 'none')
        # the count of 5 is written in clock 61 and loaded at 64; the status is latched in 75, and OUT turns at 76
        lines = writes(('63h', '99h'), ('61h', '1'), ('43h', '96h'), ('42h', '5'), ('43h', '0E8h')) + ' HLT'
        seen = self.probed(lines, 'go 62\nchips\ngo 2\nchips\ngo 12\nchips\n', timer='8254')
        self.assertEqual([(it.value('counter 2', 'status'), it.value('counter 2', 'latched')) for it in seen], [('D6', 'none'), ('96', 'none'), ('16', '96')])

    def test_what_is_kept_off_in_an_entry(self) -> None:
        # STI, with TF set, begins in clock 38 and ends before 40; the entry takes 50 clocks, and then the handler begins
        lines = ' MOV AX,100h\n PUSH AX\n POPF\n STI\n'
        seen = self.probed(lines, 'go 40\nchips\ngo 1\nchips\ngo 49\nchips\ngo 1\nchips\n')
        self.assertEqual(
            [self.words(it, 'processor', 'IF inhibits step') for it in seen],
            ['1 requests 1', '0 requests 0', '0 requests 0', '0 none 0'],
        )

    def test_ports(self) -> None:
        for value, a, c in (('00', '1E', '21'), ('04', '1E', '2A'), ('80', '6D', '21'), ('CC', '6D', '2A')):
            # line 6 lets the key into the latch; the control word of counter 2 sets OUT2
            lines = writes(('63h', '99h'), ('43h', '96h'), ('61h', '40h'), ('61h', f'0{value}h')) + ' HLT'
            (seen,) = self.probed(lines, 'go 100\nchips\n', '[[1,30]]')
            self.assertEqual([seen.value('ports', it) for it in 'ABC'], [f'in {a}', f'out {value}', f'in/in {c}'])

    def test_keys(self) -> None:
        keys = '[' + ','.join(f'[{clock},30]' for clock in range(1, 20)) + ']'
        (seen,) = self.probed(' HLT', 'go 30\nchips\n', keys)
        self.assertEqual((seen.waiting, seen.latched, seen.value('keyboard', 'lost')), ([0x1E] * 16, None, '3'))

    def test_initialisation(self) -> None:
        for pairs, wanted in (
            ((('20h', '13h'),), '07 ICW2 0 1 1'),
            ((('20h', '12h'),), '07 ICW2 0 1 0'),
            ((('20h', '11h'),), '07 ICW2 0 0 1'),
            ((('20h', '10h'),), '07 ICW2 0 0 0'),
            ((('20h', '11h'), ('21h', '40h')), '47 ICW3 0 0 1'),
            ((('20h', '10h'), ('21h', '40h')), '47 ICW3 0 0 0'),
            ((('20h', '11h'), ('21h', '40h'), ('21h', '0')), '47 ICW4 0 0 1'),
            ((('20h', '10h'), ('21h', '40h'), ('21h', '0')), '47 none 0 0 0'),
            ((('20h', '13h'), ('21h', '40h')), '47 ICW4 0 1 1'),
            ((('20h', '12h'), ('21h', '40h')), '47 none 0 1 0'),
            (READY, '0F none 1 1 1'),
        ):
            (seen,) = self.probed(writes(*pairs) + ' HLT', 'go 90\nchips\n')
            self.assertEqual(self.words(seen, 'controller', 'vector awaits uPM SNGL IC4'), wanted)

    def test_modes(self) -> None:
        words = (('20h', '1Bh'), ('21h', '40h'), ('21h', '3'), ('21h', '0F0h'), ('20h', '80h'), ('20h', '6Bh'), ('20h', '0C3h'), ('20h', '0Ch'))
        (seen,) = self.probed(writes(*words) + ' HLT', 'go 200\nchips\n')
        self.assertEqual(
            ' '.join(seen.value('controller', it) for it in ('LTIM', 'uPM', 'AEOI', 'rotates', 'SMM', 'P', 'RIS', 'IMR', 'lowest')), '1 1 1 1 1 1 1 F0 3'
        )

    def test_no_end_of_interrupt(self) -> None:
        files = self.program(writes(*READY, *COUNTS) + WAITS.format(''))
        taken = next(line.split()[0] for line in self.answers(*files, 'events 3000 entries\n') if line.endswith('entry 08'))
        asks = f'IR0 asks again, and is still in service: no end of interrupt (20h to port 20h) has come since it was taken at clock {taken}'
        answers = self.answers(*files, 'go 3000\nchips\n')
        chips = Chips(answers[1:])
        self.assertEqual([chips.value('controller', word) for word in ('IRR', 'ISR', 'IMR', 'INT')], ['01', '01', 'FE', '0'])
        self.assertEqual(facts(answers[1:], lambda kind: ends_before(Files(*files), 3000, kind)), [asks])
        self.assertEqual(self.tool('dbg', *files, given='to 3000\nstate\n')[0].splitlines()[4:], [*answers[1:], asks])
        self.assertEqual(self.tool('dbg', *files, given='to 3000\nchips\n')[0].splitlines()[1:], answers[1:])
        self.assertIn(asks, self.tool('why', 'run', *files)[1])
        page = self.file('page', 'chip controller ISR = 0\nchip counter 0 newest = 64h\nchip keyboard waiting = none\nchip ports B = in 0\n')
        self.assertEqual(self.tool('judge', page, *files, status=1)[0].splitlines()[0], 'no  chip controller ISR = 0: came 01')
        files = self.program(writes(*READY, *COUNTS) + WAITS.format(' MOV AL,20h\n OUT 20h,AL\n'))
        self.assertEqual(self.tool('judge', page, *files)[0].splitlines()[-1], '4 met, 0 not')
        self.assertEqual(facts(self.answers(*files, 'go 3000\nchips\n')[1:], str), [])

    def test_a_masked_timer(self) -> None:
        files = self.program(writes(*READY[:3], ('21h', '1'), *COUNTS) + WAITS.format(''))
        answers = self.answers(*files, 'go 3000\nchips\n')[1:]
        self.assertEqual([Chips(answers).value('controller', word) for word in ('IRR', 'ISR', 'IMR', 'INT')], ['01', '00', '01', '0'])
        self.assertEqual(facts(answers, str), ['IR0 asks, and is masked'])

    def test_a_counter_that_was_never_programmed(self) -> None:
        files = self.program(writes(*READY) + WAITS.format(''))
        answers = self.answers(*files, 'go 3000\nchips\n')[1:]
        self.assertEqual(answers[1], COUNTER.format('none'))
        self.assertIn('perhaps a tick is awaited: the processor waits for an interrupt', facts(answers, str)[0])

    def test_the_last_clock(self) -> None:
        """What would run past it, or type a key past it, is refused; what ends at it isn't."""
        files = self.program(' HLT')
        last = 1 << 40
        refused = ('counts 7', 'signals 7', 'events 7 keys', f'key 1E {last + 1}', f'moments 1E {last} {last} 7', f'moments 1E {last} {last + 1} 6')
        told = self.answers(*files, '\n'.join((f'go {last - 6}', *refused, 'go 0', f'moments 1E {last - 5} {last} 6', 'signals 6', 'key 1E', 'events 1 keys')))
        self.assertEqual(
            told,
            [f'clock {last - 6}', *['fault 42 ClockLimit'] * 6, f'clock {last - 6}', f'{last - 5} {last} none', f'clock {last}', *['fault 42 ClockLimit'] * 2],
        )

    def test_no_clocks(self) -> None:
        """Nothing happens in none, also where a stop holds: a run ends at a later clock."""
        told = self.answers(*self.program(' HLT'), 'halted\ngo 40\ncounts 0\nsignals 0\nevents 0 starts keys\nmoments 1E 50 60 0\nmoments 1E 50 60 1\ngo 0\n')
        self.assertEqual(told[2:], ['before 0', *['clock 16'] * 3, '50 60 none', '50 60 stop 1 17 17', 'clock 16'])

    def test_the_debuggers_commands(self) -> None:
        """Each is answered as `pcboard debug` answers it."""
        commands = (
            'halted\nbreak F000:10\nsound\nbyte 400 1\ngo 150\nregs\nstep\ntrail\nscreen\ndump B0000 90\nback 30\nback step\n'
            'back stop\nregs\nnone\ngo\ndump 0\nback 0\ngo 9999999999999\n\ngo 5\nquit\nregs\n'
        )
        for name in ('ticks', 'tone', 'keys'):
            self.assertEqual(self.answers(*example(name), commands), self.pcboard('debug', *example(name), given=commands).stdout.splitlines())

    def test_list(self) -> None:
        """What is listed where an instruction has begun is that instruction; and no inquiry moves the board."""
        for name in ('ticks', 'strings', 'divide'):
            trail = [it.split(' ', 1)[1] for it in self.answers(*example(name), 'go 400\ntrail\n')[1:] if ' entry ' not in it]
            self.assertGreater(len(trail), 5)
            asked = ''.join(f'list {it.split()[0]} 1\n' for it in trail)
            self.assertEqual(self.answers(*example(name), f'go 400\n{asked}chips\ngo 0\n')[1:-10], trail)
        files = self.program(' MOV AX,1\n DB 0Fh\n REP MOVSB')
        self.assertEqual(
            self.answers(*files, 'list F0000 3\nlist F000:ffff 2\nlist F0000 4097\nlist F0000 0\nlist 100000 1\nlist F0000\n'),
            ['F000:0000 B80100 MOV AX,00001h', 'F000:0003 0F DB 00Fh', 'F000:0004 F3A4 REP MOVSB', 'F000:FFFF FF DB 0FFh', 'F000:0000 B80100 MOV AX,00001h']
            + ['fault 51 BadCommand'] * 4,
        )


if __name__ == '__main__':
    unittest.main()
