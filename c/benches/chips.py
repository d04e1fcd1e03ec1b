"""The chips' calls from Python by python/zebludor.py: chips.py LIBRARY, the archive or a shared object made from it. Expected
values were worked out by hand, as chips.c's."""
import os
import sys
import time

sys.path.insert(0, os.path.join(os.path.dirname(os.path.dirname(os.path.dirname(os.path.realpath(__file__)))), 'python'))
os.environ['ZEBLUDOR_CHIPS'] = sys.argv[1]
from zebludor import Pic, Pit, Ppi


def square_wave():
    """Counter 2 in mode 3 with the count 7: OUT turns behind 4 ticks and behind 3."""
    pit = Pit()
    pit.set_gate(2, 1)
    for port, value in ((3, 0xB6), (2, 7), (2, 0)):
        pit.write(port, value)
    one, turns, level = pit.copy(), [], 1
    for tick in range(1, 23):
        one.advance(1)
        if one.out(2) != level:
            level = 1 - level
            turns.append(tick)
    assert turns == [5, 8, 12, 15, 19, 22], turns
    leaps, tick = [], 0
    while tick < 20:
        leap = pit.until_change(2)
        pit.advance(leap)
        tick += leap
        leaps.append(tick)
    assert leaps == turns and pit == one, leaps
    return pit


def both_kinds():
    """The count 5 in mode 3 as it is read, before the load and behind it the status, which only an 8254 has."""
    for kind, wanted in (('8253', [0, 5, 4, 2, 5, 2, 5]), ('8254', [0xD6, 0x96, 2, 0, 4, 2, 4])):
        pit = Pit(kind)
        pit.set_gate(2, 1)
        pit.write(3, 0x96)  # counter 2, low byte, mode 3
        pit.write(2, 5)
        read = []
        for tick in range(7):
            if tick < 2:
                pit.write(3, 0xE8)
            read.append(pit.read(2))
            pit.advance(1)
        assert read == wanted, (kind, read)
        assert pit.state.counter_2.newest == 5 and pit.state.counter_2.kind == int(kind == '8254')


def interrupts():
    """Two levels, the higher priority first."""
    pic = Pic()
    for a0, value in ((0, 0x13), (1, 8), (1, 1)):  # edges, vectors from 8 on, 8086 mode
        pic.write(a0, value)
    pic.set_line(4, 1)
    pic.set_line(1, 1)
    assert pic.state.high == 0x12 and pic.request() == 1
    assert pic.acknowledge() == 9
    pic.write(0, 0x20)
    assert pic.acknowledge() == 12


def switches():
    """The low nibble of port C under the mode word 99h is an input, as A and C's upper half; B is an output."""
    ppi = Ppi(sw1=0x6D, sw2=0x1A)
    ppi.write(3, 0x99)
    ppi.write(1, 4)
    assert (ppi.port_b(), ppi.read(2), ppi.state.sw1) == (4, 0x0A, 0x6D)


def main():
    pit = square_wave()
    both_kinds()
    interrupts()
    switches()
    if 'seconds' in sys.argv:
        began = time.perf_counter()
        for _ in range(200_000):
            pit.advance(1)
        print(f'advance by a tick {(time.perf_counter() - began) / 200_000 * 1e9:.0f} ns')


main()
