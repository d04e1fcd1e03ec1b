"""Code to which no call leads, as far as jumps and calls with their places in them tell: what runs from FFFF:0000 on, but what is
called. There gdb is told that a frame has no caller."""
from __future__ import annotations

from bisect import bisect_right

from toolbox.forms import form_of, learn
from toolbox.listing import Line, Listing, physical

RESET = 0xFFFF0


def reached(lines: dict[int, Line], order: list[int], begun: set[int]) -> set[int]:
    """The addresses of the lines that are come to from these, over calls."""
    found, waiting = set[int](), [one for one in begun if one in lines]
    while waiting:
        here = waiting.pop()
        if here in found:
            continue
        found.add(here)
        line, later = lines[here], bisect_right(order, here)
        form = form_of(line.shown)
        target = form.target(line.address) if line.address and form.does != 'call' else None
        next_one = order[later : later + 1] if form.goes_on else []
        waiting += [one for one in (*next_one, *([physical(*target)] if target else [])) if one in lines]
    return found


def outermost(listing: Listing) -> list[tuple[int, int]]:
    """The parts of memory, by first address and end, whose code no call leads to."""
    lines = {address: line for address, line in (*listing.modules.items(), *listing.at.items()) if line.shown}
    order = sorted(lines)
    parts = [octets[RESET - first :] for first, octets in listing.parts.items() if first <= RESET < first + len(octets)]
    learn([*(line.shown for line in lines.values()), *parts])
    begin = form_of(parts[0]).target((0xFFFF, 0)) if parts else None
    calls = ((form_of(line.shown), line.address) for line in lines.values() if line.address)
    called = {physical(*one) for form, at in calls if form.does == 'call' and (one := form.target(at))}
    own = reached(lines, order, {RESET, *([physical(*begin)] if begin else [])}) - reached(lines, order, called)
    ends = dict(zip(order, [*order[1:], 1 << 20]))
    found = [(one, min(ends[one], one + max(8, len(lines[one].shown)))) for one in sorted(own)]
    return found if RESET in lines or not parts else [*found, (RESET, RESET + 5)]
