"""What the chips hold at a clock, as `pcprobe` tells it (docs/probe.md), and what of it keeps an interrupt or a key away."""
from __future__ import annotations

from typing import Any, Callable, Sequence

from toolbox.asking import Raw, said
from toolbox.changes import Changes, Deed
from toolbox.program import Files, ProbeSession

END_OF_INTERRUPT = 'no end of interrupt (20h to port 20h)'
ASKED_BACK = 50_000_000  # clocks


def values_of(name: str, words: list[str]) -> dict[str, str]:
    """A line's values by their words."""
    if name == 'speaker':
        return {'level': words[0]}
    if name == 'ports':
        return {words[at]: ' '.join(words[at + 1 : at + 3]) for at in range(0, len(words), 3)}
    if name == 'keyboard':
        at = words.index('waiting')
        return values_of('', words[:at]) | {'waiting': ' '.join(words[at + 1 :])}
    if name == 'processor':
        words = ['state', *words]
    return dict(zip(words[::2], words[1::2]))


class Controller:
    """The interrupt controller's registers, of the values of its line."""

    def __init__(self, values: dict[str, str]) -> None:
        self.requests, self.served, self.masked = (int(values[name], 16) for name in ('IRR', 'ISR', 'IMR'))
        self.lowest, self.awaited = int(values['lowest']), values['awaits']
        self.is_asking, self.is_8086, self.special_mask = (values[name] == '1' for name in ('INT', 'uPM', 'SMM'))

    @property
    def is_ready(self) -> bool:
        """Whether its initialisation has ended, in 8086 mode."""
        return self.awaited == 'none' and self.is_8086

    @property
    def blocking(self) -> list[int]:
        """The levels in service that keep back themselves and those after them, the highest priority first."""
        held = self.served & ~self.masked if self.special_mask else self.served
        return [it for it in ((self.lowest + n) % 8 for n in range(1, 9)) if held >> it & 1]


class Chips:
    """The chips' lines by their names, and in each line its values by their words."""

    def __init__(self, lines: list[str]) -> None:
        self.lines = dict[str, dict[str, str]]()
        for line in lines:
            name, *words = line.split()
            name = f'{name} {words.pop(0)}' if name == 'counter' else name
            self.lines[name] = values_of(name, words)

    def value(self, line: str, word: str) -> str:
        """The value behind a word of a line."""
        return self.lines[line][word]

    @property
    def state(self) -> str:
        """Running, halted, halted for good, or jammed."""
        state = self.value('processor', 'state')
        return 'halted for good' if state == 'halted' and not self.is_open else state

    @property
    def controller(self) -> Controller:
        """The interrupt controller."""
        return Controller(self.lines['controller'])

    @property
    def waiting(self) -> list[int]:
        """The key codes that wait."""
        return [int(it, 16) for it in self.value('keyboard', 'waiting').split()]

    @property
    def latched(self) -> int | None:
        """The code in the keyboard's latch."""
        latch = self.value('keyboard', 'latch')
        return None if latch == 'none' else int(latch, 16)

    @property
    def port_b(self) -> int:
        """The lines of port B."""
        return int(self.value('ports', 'B').split()[1], 16)

    @property
    def is_open(self) -> bool:
        """Whether the processor takes requests: IF is 1."""
        return self.value('processor', 'IF') == '1'

    @property
    def is_halted(self) -> bool:
        """Whether HLT has halted it."""
        return self.value('processor', 'state') == 'halted'


Fact = tuple[str, dict[str, Any]]  # a row of sentences.json, and its values


def of_requests(chips: Chips, ends: Callable[[int], dict[str, Any]]) -> list[Fact]:
    """Why the controller passes no request on, where levels ask."""
    controller = chips.controller
    asking = [level for level in range(8) if controller.requests >> level & 1]
    if controller.is_asking or not asking:
        return []
    values: dict[str, Any] = {'level': asking[0], 'requests': controller.requests, 'served': controller.served}
    if not controller.is_ready:
        sequence = f'its initialisation waits for {controller.awaited}' if controller.awaited != 'none' else "it isn't in 8086 mode (bit 0 of ICW4)"
        return [('initialisation', values | {'sequence': sequence, 'awaits': controller.awaited, 'is_8086': int(controller.is_8086)})]
    found: list[Fact] = [('masked', values | {'level': level}) for level in asking if controller.masked >> level & 1]
    kept = [level for level in asking if not controller.masked >> level & 1]
    if kept and controller.blocking:
        first, served = kept[0], controller.blocking[0]
        asks = f'IR{first} asks again, and ' if first == served else f'IR{first} asks, and IR{served} '
        kind = int(chips.value('controller', 'vector'), 16) & 0xF8
        found.append(('in service', values | {'level': first, 'asks': asks} | ends(kind + served)))
    return found


def ends_before(files: Files, clock: int, kind: int, deeds: Sequence[Deed] = ()) -> dict[str, Any]:
    """What ends of interrupt have come before a clock, of a board that was changed so, since this type was entered last: `since` when,
    the trail's line of that, `taken`, and in words."""
    first, found = max(0, clock - ASKED_BACK), list[bytes]()
    with ProbeSession(files) as probe:

        def go(to: int) -> None:
            probe.go_to(max(probe.clock, min(first, to)))
            found.extend(probe.lines(to - probe.clock, 'entries ports=20-20'))

        Changes().make(list(deeds), go, lambda command: probe.unrefused(probe.one(command)))
        go(clock)
    lines = [line.decode('ascii').split() for line in found]
    taken = next((at for at in reversed(range(len(lines))) if lines[at][1:] == ['entry', f'{kind:02X}']), None)
    ends = sum(words[1] == 'out' and int(words[3], 16) & 0x38 == 0x20 for words in lines[taken or 0 :])
    since = first if taken is None else int(lines[taken][0])
    when = f'in the last {clock - first:,} clocks' if taken is None else f'since it was taken at clock {since}'
    came = f'{ends} ends of interrupt have' if ends > 1 else 'an end of interrupt has' if ends else f'{END_OF_INTERRUPT} has'
    but = ', and none was for it' if ends > 1 else ", and it wasn't for it" if ends else ''
    return {'since': since, 'taken': '' if taken is None else Raw(rf'^{since} .*entry {kind:02X}$'), 'ends': f'{came} come {when}{but}'}


def of_the_timer(chips: Chips) -> list[Fact]:
    """Whether a halted processor waits for a tick that no count brings, and whether a count is half written."""
    controller, first = chips.controller, chips.value('counter 0', 'first')
    if first != 'none':
        written = {'1': 'one byte', '2': 'one byte'}.get(chips.value('counter 0', 'RW'), 'two bytes, the low one first')
        return [('half a count', {'first': first, 'written': written})]
    waits = chips.is_halted and controller.is_ready and not controller.requests and not controller.masked & 1
    return [('no count', {})] if waits and chips.value('counter 0', 'newest') == 'none' else []


def of_keys(chips: Chips) -> list[Fact]:
    """Why key codes wait."""
    if not chips.waiting:
        return []
    count = f'{len(chips.waiting)} key code{"s wait" if len(chips.waiting) > 1 else " waits"}'
    why = ''
    if chips.port_b & 0x80:
        why = ': line 7 of port B is 1 and empties the latch'
    elif chips.latched is not None:
        why = f" behind {chips.latched:02X}h in the latch, which line 7 of port B hasn't emptied"
    elif not chips.port_b & 0x40:
        why = ': line 6 of port B is 0 and lets the keyboard send nothing'
    return [('keys', {'count': count, 'why': why, 'waiting': chips.value('keyboard', 'waiting')})] if why else []


def of_chips(chips: Chips, ends: Callable[[int], dict[str, Any]]) -> list[Fact]:
    """What keeps an interrupt or a key away: of interrupts where the processor takes them. `ends` tells what ends of interrupt have come
    since a type was entered."""
    return (of_requests(chips, ends) + of_the_timer(chips) if chips.is_open else []) + of_keys(chips)


def facts(lines: list[str], ends: Callable[[int], dict[str, Any]]) -> list[str]:
    """So, as sentences."""
    return [said(name, **values) for name, values in of_chips(Chips(lines), ends)]
