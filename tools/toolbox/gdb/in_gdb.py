"""Within gdb: `finish` is refused if no caller is known, and the conditions of watchpoints are handed to the board, for which gdb has no
packet. Beside each of them stands a breakpoint of its own that nobody sees, beyond memory, with the same condition: of those gdb hands the
condition over. Its place says whose it is."""
from __future__ import annotations

import re

try:
    import gdb
except ImportError:  # outside of gdb, where tools/gdb asks for this file's place
    gdb = None

ROW, FIRST, ROWS, MEMORY = 1 << 20, 0x100, 0xD00, 1 << 20
WANTED = 'zebludor-caller'  # the command that is made before each `finish`
# What stands in one place as long as the program runs.
FIXED = re.compile(
    r"-l(ocation)?\s+.*|[\w.'?@]+(\[\d+\])*|\*\s*\([^()]*\*\s*\)\s*\(?\s*(&\s*\w+|0x[0-9a-f]+|\d+)\s*\)?|\{[^{}]*\}\s*(&\s*\w+|0x[0-9a-f]+|\d+)", re.I
)


class Handed:
    """The conditions that are handed over: by the places that say whose they are, each with its breakpoint."""

    def __init__(self):
        self.them, self.is_busy = {}, False
        for event in (gdb.events.breakpoint_created, gdb.events.breakpoint_modified, gdb.events.breakpoint_deleted):
            event.connect(self.look)

    def look(self, changed):
        """A breakpoint is new, another, or no more. What follows makes breakpoints too, of which this isn't told."""
        if self.is_busy or changed.number < 0 or changed.type != gdb.BP_HARDWARE_WATCHPOINT:
            return
        self.is_busy = True
        try:
            wanted = self.wanted([one for one in gdb.breakpoints() if one.is_valid() and one.enabled and one.type == changed.type])
            for place in [one for one, (condition, _) in self.them.items() if wanted.get(one) != condition]:
                _, breakpoint = self.them.pop(place)
                if breakpoint is not None and breakpoint.is_valid():
                    breakpoint.delete()
            for place, condition in wanted.items():
                if place not in self.them:
                    self.them[place] = condition, self.made(place, condition)
        finally:
            self.is_busy = False

    def wanted(self, watchpoints):
        """The conditions by their places: none that another watchpoint of the same bytes hasn't."""
        known = [(one, self.places(one)) for one in watchpoints]
        others = [places for one, places in known if not one.condition or places is None]
        if None in others:
            return {}
        return {
            (FIRST + one.number % ROWS) * ROW + places[0]: one.condition
            for one, places in known
            if one.condition and not any(max(places[0], other[0]) < min(places[1], other[1]) for other in others)
        }

    @staticmethod
    def places(watchpoint):
        """Where the bytes begin and end, or nothing of those that may be others later."""
        if not FIXED.fullmatch(watchpoint.expression or ''):
            return None
        expression = re.sub(r'^-l(ocation)?\s+', '', watchpoint.expression)
        try:
            address = int(gdb.parse_and_eval('&(%s)' % expression))
            size = int(gdb.parse_and_eval('sizeof(%s)' % expression))
        except (gdb.error, ValueError):
            return None
        return (address, address + size) if 0 <= address < MEMORY else None

    @staticmethod
    def made(place, condition):
        """The breakpoint, or nothing if gdb doesn't take the condition there."""
        found = gdb.Breakpoint('*%#x' % place, internal=True)
        try:
            found.condition = condition
        except gdb.error:
            found.delete()
            return None
        return found


if gdb:

    class Wanted(gdb.Command):
        """Refuses if nothing shows to what the selected frame returns."""

        def invoke(self, *_):
            caller = gdb.selected_frame().older()
            if caller is not None and caller.pc() >= MEMORY:
                raise gdb.GdbError("the caller isn't known, so nothing can be run up to it")

    Wanted(WANTED, gdb.COMMAND_RUNNING)
    Handed()
