"""dev/refusals: what it takes for a true refusal, and each allocation of the program refused in turn."""
import importlib.machinery
import importlib.util
import re
import sys
import unittest
import unittest.mock

from tests.support import TOP, ToolCase

from toolbox.program import Ran

LOADER = importlib.machinery.SourceFileLoader('refusals', f'{TOP}/dev/refusals')
SPEC = importlib.util.spec_from_loader('refusals', LOADER)
assert SPEC
REFUSALS = sys.modules['refusals'] = importlib.util.module_from_spec(SPEC)
LOADER.exec_module(REFUSALS)

RUN = REFUSALS.Task('run', ['run', 'a', 'b'])
SESSION = REFUSALS.Task('session', ['debug', 'a', 'b'], REFUSALS.COMMANDS)
REGS = 'AX=0000\nCS=F000\n'
STOPS = 'clock 70\nstop 1\n'
BACK = 'stop 1 clock 67\nclock 62\nclock 61\n'
WHOLE = Ran(0, REGS + STOPS + BACK + 'stop 1 clock 62\n', '')
# The same commands with a run that ends at clock 68 in place of the first, and without the ways back.
CUT = 'regs\ngo 68\nsound\nback stop\nback 5\nback step\ngo 70\n'
CUT_REPLIES = REGS + 'clock 68\nstop 1\n' + BACK + 'stop 1 clock 62\n'
FORTH = 'regs\ngo 70\nsound\ngo 70\n'
FORTH_REPLIES = REGS + STOPS + 'stop 1 clock 72\n'

# The refusals of each task, as the refused allocation comes later.
ORDERS = {
    'asm': '41 13',
    'listing': '41 13',
    'run': '41 13 37 13 37 41',
    'run of HEX': '41 27 37 27 37 41',
    'stored run': '41 13 37 41',
    'session': '41 13 37 13 37 41 53 41',
    'probe': '41 13 37 13 37 41 53 41',
}


def replies_to(_: object, commands: str) -> str:
    """What an undisturbed session replies."""
    return {CUT: CUT_REPLIES, FORTH: FORTH_REPLIES, 'regs\n': REGS, '': ''}.get(commands, WHOLE.out)


class Judging(unittest.TestCase):
    """Answers beside the undisturbed one."""

    def test_answers_of_a_run(self) -> None:
        for ran, is_true in (
            (WHOLE, True),
            (Ran(1, '', 'fault 41 Memory\n'), True),
            (Ran(1, '', 'fault 13 Memory\n'), True),
            (Ran(1, '', ''), False),
            (Ran(1, '', 'fault 3 BadLine line 1\n'), False),
            (Ran(1, REGS, 'fault 41 Memory\n'), False),
            (Ran(0, REGS, ''), False),
            (Ran(3, '', ''), False),
            (Ran(0, WHOLE.out, 'fault 41 Memory\n'), False),
            (Ran(-11, '', ''), False),
        ):
            self.assertEqual(REFUSALS.is_true(RUN, WHOLE, ran), is_true, ran)

    def test_replies_of_a_session(self) -> None:
        want = 'fault 53 Memory\n'
        with unittest.mock.patch.object(REFUSALS, 'replies_to', replies_to):
            for out, is_true in (
                (CUT_REPLIES.replace('clock 68', 'fault 53 Memory clock 68'), True),
                (CUT_REPLIES.replace('clock 68', 'fault 53 Memory clock 69'), False),
                (CUT_REPLIES.replace('clock 68', 'fault 53 Memory'), False),
                (REGS + STOPS + 3 * want + 'stop 1 clock 72\n', True),
                (REGS + STOPS + 3 * want + 'stop 1 clock 62\n', False),
                (REGS + STOPS + 'fault 53 Memory clock 70\n' + 2 * want + 'stop 1 clock 72\n', False),
                (REGS, False),
                (REGS + STOPS + BACK + 'clock 99\n', False),
                (WHOLE.out + want, False),
            ):
                self.assertEqual(REFUSALS.is_true(SESSION, WHOLE, Ran(0, out, '')), is_true, out)
            for out, fault, is_true in (
                (REGS, 'fault 41 Memory\n', True),
                ('', want, True),
                ('AX=0000\n', 'fault 41 Memory\n', False),
                (REGS, 'fault 3 BadLine line 1\n', False),
            ):
                self.assertEqual(REFUSALS.is_true(SESSION, WHOLE, Ran(1, out, fault)), is_true, out)

    def test_refusals_in_their_order(self) -> None:
        def faults(*numbers: int) -> list[Ran]:
            return [Ran(1, '', f'fault {number} Memory\n') for number in numbers]

        for answers, wants in (
            (faults(41, 41, 13, 37, 13, 13, 37, 41), (41, 13, 37, 13, 37, 41)),
            (faults(41, 13, 37), (41, 13, 37)),
            ([*faults(53), WHOLE, Ran(0, 'fault 53 Memory\n', ''), *faults(41)], (53, 41)),
            (faults(41, 37, 13), (41, 37, 13)),
            ([], ()),
        ):
            self.assertEqual(REFUSALS.in_turn(answers), wants, answers)


class Refusing(ToolCase):
    """Over the built program."""

    def test_each_allocation_refused(self) -> None:
        out, _ = self.tool('dev/refusals')
        counts = re.findall(r'(.*): (\d+) allocations refused, (\d+) told as (.*), 0 other answers', out)
        self.assertEqual(len(counts), 17)
        for _, count, reported, _ in counts:
            self.assertGreater(int(count), 10)
            self.assertGreater(int(reported), 10)
        self.assertEqual({name.partition(', ')[2]: wants for name, _, _, wants in counts if 'bytes' not in name}, ORDERS)
        self.assertTrue(out.endswith('\n0 other answers\n'), out)
