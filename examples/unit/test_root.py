"""The routine `root` of root.asm, called with all 65,536 values of AX, against Python's own arithmetic.

    python3 examples/unit/test_root.py
    pytest examples/unit                     the same, if pytest is there
"""
import math
import sys
from pathlib import Path

HERE = Path(__file__).resolve().parent
sys.path.insert(0, str(HERE.parent.parent / 'python'))  # of a clone or a release; an installed module needs no such line

import zebludor  # noqa: E402  pylint: disable=wrong-import-position


def session() -> zebludor.Session:
    """A session that stands where the program has set up its stack, and is halted."""
    found = zebludor.Session(HERE / 'root.asm', probe=True)
    found.stop_at_halt()
    found.go(1000)
    return found


def test_each_number(step: int = 1) -> None:
    with session() as board, board.routine('root') as root:
        for number in range(0, 1 << 16, step):
            assert root(ax=number).registers['AX'] == math.isqrt(number), f'AX = {number}'


def test_what_it_leaves() -> None:
    """All registers but AX, BX, CX and the flags stay, and so does memory; the time has a limit."""
    with session() as board:
        returned = board.call('root', ax=65535, dx=1, si=2, di=3, bp=4)
        kept = {name: returned.registers[name] for name in ('DX', 'SI', 'DI', 'BP', 'DS', 'ES', 'SS')}
        assert kept == {'DX': 1, 'SI': 2, 'DI': 3, 'BP': 4, 'DS': 0, 'ES': 0, 'SS': 0}
        assert returned.registers['SP'] == board.registers['SP']
        assert returned.memory == {}
        assert returned.clocks < 1500


if __name__ == '__main__':
    test_each_number()
    test_what_it_leaves()
    print('root: 65536 numbers, all right')
