"""Programs in which SP, a place or a rise alone would tell something else than what happens: what the tools tell of
them."""
from __future__ import annotations

import json
import re
import unittest

from tests.support import RESET, ToolCase, example

STACK = '        XOR AX,AX\n        MOV SS,AX\n        MOV SP,800h\n'
EPILOGUE = f'{STACK}        CALL f\n        HLT\nf:      PUSH AX\n        NOP\n        POP AX\n        CALL g\n        NOP\n        RET\ng:      RET'
STRING = (
    f"{STACK}        MOV AX,CS\n        MOV DS,AX\n        CALL print\n        DB 'HI',0\n        MOV BX,1\n        HLT\n"
    'print:  POP SI\nagain:  LODSB\n        OR AL,AL\n        JNZ again\n        PUSH SI\n        RET'
)
DROPPED = f'{STACK}        CALL one\n        HLT\none:    CALL two\n        NOP\n        RET\ntwo:    ADD SP,2\n        RET'
LOADED = f'{STACK}again:  CALL one\none:    CALL two\ntwo:    PUSH AX\n        MOV SP,800h\n        JMP again'
CONTROLLER = ''.join(
    f'        MOV AL,{value}\n        OUT {port},AL\n' for port, value in (('63h', '99h'), ('61h', '40h'), ('20h', '13h'), ('21h', '8'), ('21h', '1'))
)
HANDLER = '\nonkey:  PUSH AX\n        IN AL,60h\n        MOV AL,20h\n        OUT 20h,AL\n        POP AX\n        IRET\nENDS\nSEGMENT V AT 0\n        ORG 24h\n        DW onkey,SEG onkey'
BUSY = f'{STACK}{CONTROLLER}        STI\nidle:   JMP idle{HANDLER}'
HALTED = f'{STACK}{CONTROLLER}        STI\nidle:   HLT\nafter:  JMP SHORT idle{HANDLER}'
PATCHED = """SEGMENT MAIN AT 50h
start:  MOV AX,CS
        MOV DS,AX
        MOV SS,AX
        MOV SP,top
right:  MOV BYTE [patch],0Fh
        MOV BYTE [patch],90h
        CALL patch
wrong:  MOV BYTE [patch],0Fh
        CALL patch
        HLT
patch:  NOP
        RET
        DW 64 DUP(0)
top:
"""


class ByEvents(ToolCase):
    """Each is by hand."""

    def dbg(self, lines: str, *commands: str) -> list[str]:
        """The lines of the source at which a session of tools/dbg stands after each command."""
        out, _ = self.called('dbg', *self.program(lines, 2000), given='\n'.join(commands) + '\n')
        return re.findall(r'^clock \d+: \S+ \S+ \| \d+: +(.*?)$', out, re.M)

    def test_out_after_the_pops(self) -> None:
        """Behind the last POP a CALL stands: its return isn't the routine's."""
        self.assertEqual(self.dbg(EPILOGUE, 'until f+1', 'finish')[-1], 'HLT')
        self.assertEqual(self.dbg(EPILOGUE, 'until g', 'finish')[-1], 'NOP')

    def test_a_string_behind_a_call(self) -> None:
        self.assertEqual(self.dbg(STRING, 'until :8', 'next')[-1], 'MOV BX,1')
        self.assertEqual(self.dbg(STRING, 'until again', 'finish')[-1], 'MOV BX,1')

    def test_a_dropped_address(self) -> None:
        """The inner call ends with the outer one."""
        self.assertEqual(self.dbg(DROPPED, 'until one', 'next')[-1], 'HLT')
        self.assertEqual(self.dbg(DROPPED, 'until two', 'finish')[-1], 'HLT')

    def test_a_load_of_sp(self) -> None:
        """Out of the inner call and over it lead to where SP has been loaded with what it was before the outer one: so high the
        stack is known to be only by what came before."""
        for place, way in (('two', 'finish'), ('one', 'next'), ('again', 'next')):
            self.assertEqual(self.dbg(LOADED, f'until {place}', way)[-1], 'JMP again', place)

    def test_beginnings(self) -> None:
        """An interrupt that is taken at a place, or a halt before it, isn't its beginning: that is the first start
        after the IRET."""
        for lines, place in ((BUSY, 'idle'), (HALTED, 'after')):
            files = self.program(lines, 2000)
            out, _ = self.called('moments', '--measure', place, *files, '--key', '1E', '--at', '800..816', '--jobs', '1')
            wanted = [self.clocks(files, stamp, place) for stamp in range(800, 816)]
            self.assertEqual(re.findall(r'^(?:least|most) (\d+)', out, re.M), [str(min(wanted)), str(max(wanted))])
            self.assertGreater(min(wanted), 100)

    def clocks(self, files: tuple[str, str], stamp: int, place: str) -> int:
        """From a key to the next beginning at a place after the return of its handler, by the trail."""
        run = self.file('key.json', json.dumps({'version': 1, 'ram': 64, 'sw1': 0, 'sw2': 0, 'budget': 2000, 'keys': [[stamp, 0x1E]]}))
        lines = self.pcboard('debug', files[0], run, given=f'go {stamp + 300}\ntrail\n').stdout.splitlines()[1:]
        back = next(number for number, line in enumerate(lines) if line.endswith(' IRET'))
        return int(lines[back + 1].split()[0]) - stamp

    def test_who_wrote_last(self) -> None:
        """The byte had its value before, and was put right in between."""
        _, err = self.called('why', 'run', self.file('it.asm', PATCHED + RESET))
        self.assertIn('wrong:', err)
        self.assertNotIn('right:', err)

    def test_keys_of_clock_0(self) -> None:
        """Two of eighteen are lost there, and one at 50."""
        for more, wanted in (
            ([], '2 keys lost, the first by clock 0, the last by clock 0'),
            ([[50, 30]], '3 keys lost, the first by clock 0, the last by clock 50'),
        ):
            fields = {'version': 1, 'ram': 64, 'sw1': 0, 'sw2': 0, 'budget': 100, 'keys': [[0, 30]] * 18 + more}
            out, _ = self.called('dbg', example('hello')[0], self.file('lost.json', json.dumps(fields)), given='go\nstate\n')
            self.assertIn(wanted, out)

    def test_beyond_memory(self) -> None:
        for place in ('FFFFF,word', 'FFFF:000F,word'):
            _, err = self.called('trace', '--vcd', 'it.vcd', '--watch', place, *example('ticks'), status=2)
            self.assertIn('2 bytes from FFFFF on: 1 to 65536 can be watched, up to FFFFF', err)


if __name__ == '__main__':
    unittest.main()
