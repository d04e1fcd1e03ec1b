"""A counter of an 8253, tick by tick, by the rules of docs/chips.md, and what MAME 0.251 does otherwise, each as a switch."""
from __future__ import annotations

from typing import NamedTuple


class Cause(NamedTuple):
    """Why MAME answers otherwise: a name, the rule of chips.md, "The interval timer", that it breaks, and a case of chip_cases that
    always shows it."""

    name: str
    why: str
    witness: str


CAUSES = (
    Cause('load tick', 'each full count costs one tick more; "Loading": it is loaded at the next tick', 'C14 W01 T1'),
    Cause(
        'shown at once',
        'a count that is to be loaded is read, and its OUT seen, before the tick that loads it; "Reading": the running count',
        'C35 W00 W01 R00 C00',
    ),
    Cause(
        'free running', 'modes 1, 4 and 5 count from a control word on; "Control word": nothing counts until a count is loaded', 'C22 WC8 G0 G1 T5 T3 G0 C33'
    ),
    Cause('count 1', 'in mode 2 taken as 2, in mode 3 as 0; "A load of 1"', 'C14 W01 T1'),
    Cause(
        'gate holds loads',
        'modes 2 to 4 load nothing, and a strobe stays, while the gate is low; "Loading": whatever the gate',
        'C22 R00 G0 W00 G1 G0 W03 WFF C28 T1 W00',
    ),
    Cause(
        'trigger',
        'a rise starts modes 1, 2 and 5 without a count; "Loading": after a full count',
        'C34 WFE WFF WD0 W07 W00 C32 G0 G1 T5 WFF W7F WFF W7F T5 C00',
    ),
    Cause('loaded 0', 'a 0 ends modes 4 and 5 as it is loaded; "Counts": 0 is the largest', 'C18 W00 T2 W04 WED T4 W1D T2'),
    Cause('square wave', 'an odd count loses its last bit, and has its longer half once; "3, square wave"', 'C3F WFF WFF'),
    Cause('gate of mode 3', 'a rise loads nothing, and the half goes on; "In modes 2 and 3"', 'C16 W00 T3 W01 W61 T1 G0 G1'),
    Cause('short gate', 'a low gate sets OUT of modes 2 and 3 at the next tick or count; "In modes 2 and 3": at once', 'C14 W06 T13 G0 G1'),
    Cause('strobe', 'a load leaves it low in modes 4 and 5; "4, software triggered strobe": the next tick ends it', 'C1A W02 G0 G1 T4 G0 G1'),
    Cause(
        'digits',
        'digits above 9 are shown as they fall, one by one, and OUT follows their weight; "Counts": modulo 10,000',
        'C33 WFF W9F G0 G1 T3 T1 W10 T2 WA7 T2 WF0',
    ),
    Cause('read amid a write', 'gives the inverted low byte between the two bytes of a count; "Reading"', 'C36 W09 W00 W88 R00 C00 C00 WEB T5 R00'),
    Cause('latch', 'is kept over a control word; none is made between the two bytes of a read, or of one byte a second time; "Reading"', 'C35 W00 W01 R00 C00'),
)
ALL = frozenset(cause.name for cause in CAUSES)


def weight(count: int) -> int:
    """A count of four digits by their weights."""
    return sum((count >> 4 * at & 15) * 10**at for at in range(4))


class Counter:
    """Counter 2 with mode 0 written and no count yet. `phase` is 0 before a load is due, 1 while it is, 2 in the first stretch, 3 behind it."""

    def __init__(self, causes: frozenset[str] = frozenset()) -> None:
        self.causes = causes
        self.mode, self.access, self.value, self.newest, self.phase = 0, 3, 0, 0, 0
        self.is_decimal = self.is_out = self.is_half_written = self.is_half_read = self.is_half_latched = False
        self.is_frozen = self.is_fresh = self.is_odd = self.waits = self.is_spent = self.has_count = False
        self.is_first, self.gate, self.low, self.latch, self.latched, self.left = True, True, 0, -1, 3, 0

    def has(self, cause: str) -> bool:
        """Whether a switch is on."""
        return cause in self.causes

    def down(self, by: int) -> None:
        """The count falls."""
        self.left -= by
        for _ in range(by):
            self.value = self.one_less(self.value) if self.is_decimal else (self.value - 1) & 0xFFFF

    @staticmethod
    def one_less(value: int) -> int:
        """A decimal count, a digit at a time."""
        for place in range(4):
            if value >> 4 * place & 15:
                value -= 1 << 4 * place
                return value & 0xFFF | (value >> 12) % 10 << 12 if place == 3 else value
            value |= 9 << 4 * place
        return value

    def control(self, word: int) -> None:
        """A control word; one without access latches."""
        if not word & 0x30:
            is_deaf = self.has('latch') and (self.is_half_read if self.access == 3 else self.is_spent)
            if self.latch < 0 and not is_deaf:
                self.latch, self.latched = self.shown(), self.access
            return
        mode = word >> 1 & 7
        self.access, self.mode, self.is_decimal = word >> 4 & 3, mode - 4 if mode > 5 else mode, bool(word & 1)
        self.is_out, self.phase = self.mode != 0, 0
        self.is_half_written = self.is_half_read = self.waits = self.has_count = self.is_spent = False
        self.is_first = True
        if not self.has('latch'):
            self.latch = -1

    def write(self, octet: int) -> None:
        """A byte of a count."""
        if self.access == 3 and not self.is_half_written:
            self.is_half_written, self.low = True, octet
            if self.mode == 0:
                self.is_out = False
            return
        self.is_half_written = False
        self.count(octet << 8 | self.low if self.access == 3 else octet if self.access == 1 else octet << 8)

    def count(self, number: int) -> None:
        """A full count."""
        if self.mode in (2, 3) and not self.gate and self.has('short gate'):
            self.while_held()
        if self.has('loaded 0') and self.mode in (4, 5) and self.phase == 2 and self.value == 0:
            self.is_out = False
        self.newest, self.has_count = number, True
        self.is_frozen = self.has('load tick')
        if self.has('count 1') and self.mode in (2, 3) and number == 1:
            self.newest = 2 if self.mode == 2 else 0
        if self.mode == 0:
            self.is_out = False
        if self.mode in (0, 4) or (self.mode in (2, 3) and (self.phase == 0 if self.has('shown at once') else self.is_first)):
            self.phase = 1
        self.is_first = False
        if self.has('shown at once') and self.phase == 1 and (self.mode not in (2, 3, 4) or self.gate):
            self.load()

    def set_gate(self, level: int) -> None:
        """The gate takes a level."""
        gate = bool(level)
        if gate and not self.gate:
            is_due = self.mode in (1, 5) and (self.has_count or self.has('trigger'))
            is_due = is_due or (self.mode == 2 and (self.has_count or self.has('trigger')))
            if is_due or (self.mode == 3 and self.has_count and not self.has('gate of mode 3')):
                self.phase = 1
        if not gate and self.mode in (2, 3) and not self.has('short gate'):
            self.is_out = True
        self.gate = gate

    def load(self) -> None:
        """The newest count becomes the running one."""
        self.value = int(str(weight(self.newest) % 10000), 16) if self.is_decimal and not self.has('digits') else self.newest
        self.left = (weight(self.value) or 10000) if self.is_decimal else (self.value or 0x10000)
        self.is_odd = bool(self.value & 1)
        if self.mode == 1:
            self.is_out = False
        elif self.mode in (2, 3) and self.phase == 1 and not self.has('short gate'):
            self.is_out = True
        elif self.mode in (4, 5) and not self.has('strobe'):
            self.is_out = True

    def tick(self) -> None:
        """A tick of the clock."""
        if self.is_frozen:
            self.is_frozen = False
            return
        is_held = self.mode in (2, 3, 4) and not self.gate
        if is_held and (self.phase != 1 or self.has('gate holds loads')):
            self.while_held()
        elif self.phase == 1:
            self.load()
            self.phase, self.is_fresh, self.waits = 2, True, False
            if self.value == 0 and self.mode in (4, 5) and self.has('loaded 0'):
                self.is_out, self.phase = False, 3
        elif self.phase or (self.has('free running') and self.mode in (1, 4, 5)):
            (self.plain, self.plain, self.rate, self.square, self.strobe, self.strobe)[self.mode]()

    def while_held(self) -> None:
        """A tick at which the gate is low."""
        if self.mode in (2, 3) and self.has('short gate'):
            self.is_out = True
        if self.mode == 3 and self.has('gate of mode 3') and self.phase == 3:
            self.is_fresh = True
        if self.mode == 4 and not self.has('gate holds loads'):
            self.is_out = True

    def plain(self) -> None:
        """Modes 0 and 1."""
        if self.mode == 0 and (not self.gate or self.is_half_written):
            return
        self.down(1)
        if self.left == 0 and self.phase == 2:
            self.is_out, self.phase = True, 3

    def rate(self) -> None:
        """Mode 2."""
        if self.left == 1:
            self.load()
            self.is_out, self.phase = True, 2
            return
        self.down(1)
        if self.left == 1:
            self.is_out, self.phase = False, 3

    def square(self) -> None:
        """Mode 3."""
        if not self.has('count 1') and self.value == 1 and self.is_fresh:
            self.load()
            self.is_out = True
            return
        if self.has('square wave'):
            self.square_by_two()
            return
        by = (1 if self.is_out else 3) if self.is_fresh and self.is_odd else 2
        self.is_fresh = False
        self.down(by)
        if self.left == 0:
            self.turn()

    def square_by_two(self) -> None:
        """Mode 3 as MAME has it."""
        if self.waits:
            self.turn()
            return
        self.down(2)
        if self.left in (0, 1):
            self.waits = self.phase == 2 and self.is_odd and self.is_fresh
            if not self.waits:
                self.turn()

    def turn(self) -> None:
        """A half of mode 3 ends."""
        self.waits, self.is_fresh = False, not self.has('square wave') or (self.is_fresh and self.phase == 3)
        self.load()
        if self.has('square wave'):
            self.value &= 0xFFFE
        self.phase = 5 - self.phase if self.has('square wave') else 2
        self.is_out = self.phase == 2 if self.has('square wave') else not self.is_out or self.left == 1

    def strobe(self) -> None:
        """Modes 4 and 5."""
        if self.phase == 3 or not self.has('strobe'):
            self.is_out = True
        self.down(1)
        if self.phase == 2 and self.left == 0:
            self.is_out, self.phase = False, 3

    def shown(self) -> int:
        """The count as it is read."""
        return self.value & 0xFFFE if self.mode == 3 and self.has('square wave') else self.value

    def read(self) -> int:
        """A byte of the count, or of the latch."""
        if self.latch < 0 and self.access == 3 and self.is_half_written and self.has('read amid a write'):
            self.is_half_read = not self.is_half_read
            return ~self.low & 0xFF
        if self.latch >= 0 and self.latched != self.access:
            return self.other_latch()
        count = self.latch if self.latch >= 0 else self.shown()
        if self.access != 3:
            self.is_spent = self.is_spent or self.latch >= 0
            self.latch = -1
            return count & 0xFF if self.access == 1 else count >> 8
        self.is_half_read = not self.is_half_read
        if not self.is_half_read:
            self.latch = -1
        return count & 0xFF if self.is_half_read else count >> 8

    def other_latch(self) -> int:
        """A byte of a latch that was made under another access."""
        count, is_low = self.latch, self.latched == 1 or (self.latched == 3 and not self.is_half_latched)
        if self.access == 3:
            self.is_half_read = not self.is_half_read
        self.is_half_latched = self.latched == 3 and not self.is_half_latched
        if not self.is_half_latched:
            self.latch = -1
        return count & 0xFF if is_low else count >> 8
