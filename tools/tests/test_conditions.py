"""Conditions, counts of hits and logs of breakpoints: held against single steps over random programs, forth and back."""
from __future__ import annotations

import os
import random
import re
import time
import unittest
from collections import Counter
from typing import Any

from tests.support import ToolCase, children, processor_seconds
from tests.test_dap import Client
from tests.test_held import WATCHED, Stepped

from toolbox.command import Sorry
from toolbox.conditions import Asked, count_of
from toolbox.dap.values import Expression
from toolbox.gdb.bytecode import Condition, signed
from toolbox.listing import Listing
from toolbox.program import Files
from toolbox.report import registers_of
from toolbox.session_board import SessionBoard, break_at

HLT = 0xF4
# The 61,440th time that AX is counted up it is F000h.
COUNTING = '        MOV BX,0\nagain:  INC BX\n        JMP SHORT again'


class Held(Stepped):
    """At each hit the condition is asked, and each hit counts once."""

    def places(self, found: list[tuple[int, int]], image: bytes) -> list[tuple[int, int]]:
        """The six places at which instructions begin most often; none after a HLT, at which a halted processor stands."""
        most = [place for place, _ in Counter(found).most_common()]
        return [place for place in most if place[0] == 0xF000 and image[place[1] - 1] != HLT][:6]

    def test_random_programs(self) -> None:
        """A hundred of them: forth to each hit that counts and is met, and back over them; and by a jump into the midst of the run."""
        met = 0
        for seed in range(100):
            dice = random.Random(seed)
            steps = self.steps(seed, *random.Random(seed).choice(WATCHED))
            clocks_of_steps, registers = steps.clocks[1:], steps.registers[1:]
            found = [(int(cs, 16), int(ip, 16)) for cs, ip in re.findall(r'CS=(\w+).* IP=(\w+)', '\n'.join(registers))]
            board = SessionBoard(self.program_files(seed), clocks_of_steps[-1])
            try:
                place = dice.choice(self.places(found, board.dump(0xF0000, 0x1000)))
                here = [(clocks_of_steps[at], registers_of(registers[at].split('\n'))) for at, there in enumerate(found) if there == place]
                number = dice.choice(here)[1]['BX']
                condition, holds = dice.choice(
                    (
                        (f'BX >= {number}', lambda values, n=number: values['BX'] >= n),
                        ('BX & 1 = 1 OR NOT ZF', lambda values: values['BX'] & 1 or not values['FL'] & 0x40),
                        (f'BX != {number} && SP > 0', lambda values, n=number: values['BX'] != n and values['SP'] > 0),
                        ('', lambda values: True),
                    )
                )
                hits = [clock for clock, values in here if holds(values)]
                text, is_so = dice.choice((('% 3', lambda n: n % 3 == 0), ('>= 2', lambda n: n >= 2), ('4', lambda n: n == 4), ('', lambda n: True)))
                wanted = [clock for at, clock in enumerate(hits, 1) if is_so(at)]
                stop = break_at(place)
                asked = Asked(
                    (lambda at, expression=condition: Expression(at, Listing([], {}, {}), expression).holds()) if condition else None,
                    count_of(text) if text else None,
                )
                board.asked = {stop: [asked]}
                clocks = list[int]()
                if dice.randrange(2):  # without having seen what came before
                    board.go_to(dice.choice(clocks_of_steps))
                    clocks = [clock for clock in wanted if clock <= board.clock]
                while board.run([stop], board.budget):
                    clocks.append(board.clock)
                self.assertEqual(clocks, wanted, (seed, place, condition, text))
                back = list[int]()
                while board.back_to([stop]):
                    back.append(board.clock)
                self.assertEqual(back[::-1], [clock for clock in wanted if clock < board.budget], (seed, place, condition, text))
                met += len(wanted)
            finally:
                board.close()
        self.assertGreater(met, 150)

    def test_expressions(self) -> None:
        """Comparisons without signs, as wide as the wider side, and what joins them."""
        source, run = self.program('        MOV AX,0FFFFh\n        MOV BX,2\n        HLT')
        board = SessionBoard(Files(source, run), 1000)
        self.addCleanup(board.close)
        board.go_to(40)
        for text, value in (
            ('AX = -1', 1),
            ('AX > BX', 1),
            ('AL == 0FFh', 1),
            ('BX <> 2', 0),
            ('BX<=2 AND AX>=2', 1),
            ('NOT BX = 2 OR AX = 1', 0),
            ('!(BX = 3) && (1 = 1)', 1),
            ('AX & 0Fh', 15),
            ('BX * 3 - 6 = 0', 1),
        ):
            self.assertEqual(Expression(board, Listing([], {}, {}), text).value().number, value, text)
        for text in ('AX =', 'AX = = 1', 'AND', 'x = 1', '(AX = 1', 'AX = 1 2'):
            with self.assertRaises(Sorry):
                Expression(board, Listing([], {}, {}), text).value()
        for text in ('', 'x', '% 0', '> ', '5 5', '-1'):
            with self.assertRaisesRegex(Sorry, 'no count of hits'):
                count_of(text)

    def test_how_fast_it_is(self) -> None:
        """A sixteenth of 61,440 hits takes less than a sixteenth of 15 seconds of the processors."""

        def spent() -> float:
            return time.process_time() + sum(map(processor_seconds, children(os.getpid())))

        files = Files(*self.program(COUNTING, 100_000))
        board = SessionBoard(files, 100_000)
        self.addCleanup(board.close)
        stop = 'break F000:0003'
        board.asked = {stop: [Asked(lambda at: Expression(at, Listing([], {}, {}), 'BX = 0EFFh').holds())]}
        before = spent()
        self.assertEqual(board.run([stop], board.budget), stop)
        self.assert_within(spent() - before, 15 / 16)
        self.assertEqual(board.registers()['BX'], 61_440 // 16 - 1)


class Bytecode(unittest.TestCase):
    """gdb's bytecode, by its manual."""

    def value(self, text: str) -> bool:
        """Whether bytecode holds, over registers that have their number, and memory that has its address."""
        return Condition(bytes.fromhex(text)).holds(lambda number: number, lambda at, count: bytes((at + i) % 256 for i in range(count)))

    def test_each(self) -> None:
        for text in (
            '26 0003 22 03 13 27',  # reg 3 = 3
            '26 0003 2A 10 23 0003 13 27',  # its 16 bits
            '22 80 17 22 80 13 27',  # the byte at 80h is 80h
            '22 10 18 23 1110 13 27',  # the word at 10h
            '22 10 19 24 13121110 13 27',
            '22 FF 16 08 25 FFFFFFFFFFFFFFFF 13 27',  # FFh with a sign is -1
            '22 FF 16 08 22 01 14 27',  # and less than 1
            '22 01 22 FF 16 08 15 27',  # without a sign 1 is less
            '22 07 22 02 05 22 03 13 27',
            '22 F9 16 08 22 02 05 22 FD 16 08 13 27',  # -7 / 2 is -3
            '22 F9 16 08 22 02 07 22 FF 16 08 13 27',  # and leaves -1
            '22 07 22 04 08 22 03 13 27',
            '22 01 22 03 09 22 08 13 27',
            '22 F8 16 08 22 01 0A 22 FC 16 08 13 27',
            '22 F8 22 03 0B 22 1F 13 27',
            '22 00 0E 27',
            '22 0C 22 0A 0F 22 08 13 27',
            '22 0C 22 0A 10 22 0E 13 27',
            '22 0C 22 0A 11 22 06 13 27',
            '22 00 12 22 FF 16 08 13 27',
            '22 05 28 13 27',  # dup
            '22 05 22 00 29 27',  # pop
            '22 01 22 02 2B 03 22 01 13 27',  # swap: 2 - 1
            '22 00 22 01 20 0008 27 22 07 27',  # if_goto
            '21 0004 27 22 01 27',  # goto
            '22 05 22 06 32 01 22 05 13 27',  # pick
            '22 01 22 02 22 03 33 22 02 13 27',  # rot: 3 1 2
            '22 01 22 00 06 27',  # a division by 0: gdb asks again
            '29 27',
            '21 0000 27',
        ):
            self.assertTrue(self.value(text), text)
        for text in ('22 00 27', '26 0003 22 04 13 27', '22 01 22 01 03 27'):
            self.assertFalse(self.value(text), text)
        self.assertEqual([signed(number) for number in (1, 2**64 - 1, 2**63)], [1, -1, -(2**63)])

    def test_broken(self) -> None:
        for text in ('', '27 22', '22', 'FF 27', '0D 27', '26 00', '22 01'):
            with self.assertRaises(Sorry):
                Condition(bytes.fromhex(text))


class Editors(ToolCase):
    """DAP's breakpoints that ask more than a place."""

    def client(self, source: str, run: str) -> Client:
        """An editor whose board is launched, and stands at its start."""
        client = Client(self.room)
        self.addCleanup(client.watch.cancel)
        client.launch(source, run=run, stopOnEntry=True)
        client.event('stopped')
        return client

    def set(self, client: Client, source: str, *asked: dict[str, Any]) -> list[dict[str, Any]]:
        """Sets breakpoints by line, and returns what is told of them."""
        return client.ask('setBreakpoints', source={'path': source}, breakpoints=list(asked))['breakpoints']

    def test_conditions_counts_and_logs(self) -> None:
        source, run = self.program(COUNTING, 3000)
        client = self.client(source, run)
        capabilities = client.ask('initialize', adapterID='zebludor')
        self.assertTrue(
            all(capabilities[capability] for capability in ('supportsConditionalBreakpoints', 'supportsHitConditionalBreakpoints', 'supportsLogPoints'))
        )
        points = self.set(client, source, {'line': 4, 'condition': 'BX = 7'})
        self.assertTrue(points[0]['verified'])
        self.assertEqual(client.move('continue')['hitBreakpointIds'], [points[0]['id']])
        self.assertEqual(client.variables(1)['BX'], '0007h')
        self.set(client, source, {'line': 4, 'hitCondition': '% 5'})
        client.move('continue')
        self.assertEqual(client.variables(1)['BX'], '0009h')  # BX is one less than the hits
        client.move('reverseContinue')
        self.assertEqual(client.variables(1)['BX'], '0004h')
        self.set(client, source, {'line': 5, 'logMessage': 'BX is {BX}, {BX*2} twice', 'condition': 'BX > 7 AND BX < 10'}, {'line': 4, 'condition': 'BX = 20'})
        client.events.clear()
        client.move('continue')
        shown = [event['body']['output'] for event in client.events if event['event'] == 'output' and event['body']['category'] == 'stdout']
        self.assertEqual(shown, ['BX is 00008h (8), 00010h (16) twice\n', 'BX is 00009h (9), 00012h (18) twice\n'])
        self.assertEqual(client.variables(1)['BX'], '0014h')
        points = client.ask('setFunctionBreakpoints', breakpoints=[{'name': 'again', 'condition': 'BX = 30'}])['breakpoints']
        client.move('continue')
        self.assertEqual((points[0]['verified'], client.variables(1)['BX']), (True, '001Eh'))
        for asked, why in (
            ({'condition': 'FROB = 1'}, 'FROB is no register'),
            ({'condition': 'BX ='}, 'no register'),
            ({'hitCondition': 'often'}, 'no count of hits'),
            ({'logMessage': 'now {frob}'}, 'frob is no register'),
            ({'condition': 5}, 'condition'),
        ):
            client.is_held = 'condition' not in asked or isinstance(asked['condition'], str)
            (point,) = self.set(client, source, {'line': 4, **asked})
            self.assertFalse(point['verified'], asked)
            self.assertIn(why, point['message'])
        self.assertEqual(client.leave(), 0)


if __name__ == '__main__':
    unittest.main()
