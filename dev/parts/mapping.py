"""The crates as a picture: a box for each heading of crates.txt, above the boxes that it stands on, and a line from each crate down to
those that it stands on; what follows from other lines is left out."""
from __future__ import annotations

from typing import NamedTuple
from xml.sax.saxutils import escape

Named = dict[str, list[str]]
WIDTH, HEIGHT = 124, 22  # of a crate
STEP, GAP, HEAD = 50, 30, 26  # from row to row, between boxes, of a heading
MOST = 4  # crates in a row
STYLE = (
    'text{font:11px monospace;text-anchor:middle}.head{font:bold 13px sans-serif;text-anchor:start}'
    '.box{fill:#f5f5f0;stroke:#ccc}.crate{fill:#fff;stroke:#557}'
    'path{fill:none;stroke:#27a;stroke-opacity:.6}.far{stroke:#a60;stroke-opacity:.5}.top{stroke-opacity:.25}'
)


class Box(NamedTuple):
    """A heading with the rows of its crates, the lowest first, and where its left upper corner is."""

    heading: str
    rows: list[list[str]]
    x: int = 0
    y: int = 0

    def width(self) -> int:
        return max(WIDTH * max(map(len, self.rows)) + 12, 9 * len(self.heading))

    def height(self) -> int:
        return STEP * len(self.rows) + HEAD


def headings(text: str) -> tuple[Named, Named]:
    """Of crates.txt the crates under each heading, and those of the list that each crate names."""
    groups, named, heading = Named(), Named(), ''
    for line in text.splitlines()[1:]:
        before, colon, others = line.partition(':')
        if line.startswith('# '):
            heading = line[2:]
        elif colon:
            name = before.split()[0]
            groups.setdefault(heading, []).append(name)
            named[name] = [other for other in others.split() if other in named]
    return groups, named


def reduced(named: Named) -> Named:
    """Of those that each one names those on which none of the others stands. Each names earlier ones."""
    below = dict[str, set[str]]()
    for name, others in named.items():
        below[name] = set(others).union(*(below[other] for other in others))
    return {name: [one for one in others if not any(one in below[other] for other in others)] for name, others in named.items()}


def levels(named: Named) -> list[list[str]]:
    """Those that name none, those that name some of these, and so on. Each names earlier ones."""
    level, found = dict[str, int](), list[list[str]]()
    for name, others in named.items():
        level[name] = 1 + max((level[other] for other in others), default=-1)
        found += [[] for _ in range(level[name] + 1 - len(found))]
        found[level[name]].append(name)
    return found


def in_rows(names: list[str]) -> list[list[str]]:
    """These in rows, of about one length."""
    count = -(-len(names) // MOST)
    return [names[at * len(names) // count : (at + 1) * len(names) // count] for at in range(count)]


def bands(groups: Named, named: Named) -> list[list[Box]]:
    """The boxes beside each other, the lowest first."""
    heading_of = {name: heading for heading, names in groups.items() for name in names}
    over = {heading: sorted({heading_of[other] for name in names for other in named[name]} - {heading}) for heading, names in groups.items()}
    made = dict[str, Box]()
    for heading, names in groups.items():
        own = levels({name: [other for other in named[name] if other in names] for name in names})
        made[heading] = Box(heading, [part for row in own for part in in_rows(row)])
    return [[made[heading] for heading in band] for band in levels(over)]


def placed(found: list[list[Box]]) -> tuple[list[Box], int, int]:
    """The boxes at their places, and how wide and high the picture is."""
    widths = [sum(box.width() for box in band) + GAP * (len(band) - 1) for band in found]
    width, y, boxes = max(widths) + 2 * GAP, GAP, list[Box]()
    for band, wide in reversed([*zip(found, widths)]):
        x, high = (width - wide) // 2, max(box.height() for box in band)
        for box in band:
            boxes.append(box._replace(x=x, y=y + high - box.height()))
            x += box.width() + GAP
        y += high + GAP
    return boxes, width, y


def spots(boxes: list[Box], below: Named) -> dict[str, tuple[int, int]]:
    """Of each crate the middle of its upper edge; in a row they stand in the order of those below them."""
    found = dict[str, tuple[int, int]]()
    for box in sorted(boxes, key=lambda box: -box.y):
        for up, row in enumerate(box.rows, 1):
            left = box.x + box.width() // 2 - WIDTH * len(row) // 2 + WIDTH // 2

            def middle(name: str) -> float:
                some = [found[other][0] for other in below[name] if other in found]
                return sum(some) / len(some) if some else left

            for at, name in enumerate(sorted(row, key=middle)):
                found[name] = left + WIDTH * at, box.y + box.height() - STEP * up + (STEP - HEIGHT) // 2
    return found


def edges(groups: Named, below: Named) -> list[tuple[str, str, str]]:
    """The lines, each with its kind: near in a box, far between boxes, or far and from a box on which none stands."""
    heading_of = {name: heading for heading, names in groups.items() for name in names}
    held = {heading_of[other] for name, others in below.items() for other in others if heading_of[other] != heading_of[name]}
    found = list[tuple[str, str, str]]()
    for name, others in below.items():
        far = 'far' if heading_of[name] in held else 'far top'
        found += [('near' if heading_of[other] == heading_of[name] else far, name, other) for other in others]
    return found


def svg(text: str) -> str:
    """The picture of a crates.txt."""
    groups, named = headings(text)
    below = reduced(named)
    boxes, width, height = placed(bands(groups, named))
    at = spots(boxes, below)
    lines = [
        f'<svg xmlns="http://www.w3.org/2000/svg" viewBox="0 0 {width} {height}" width="{width}" height="{height}">',
        f'<style>{STYLE}</style><rect width="{width}" height="{height}" fill="#fff"/>',
    ]
    for box in boxes:
        lines.append(f'<rect class="box" x="{box.x}" y="{box.y}" width="{box.width()}" height="{box.height()}" rx="6"/>')
    for kind, name, other in edges(groups, below):
        (x, y), (to_x, to_y), bend = at[name], at[other], STEP // 2
        lines.append(f'<path class="{kind}" d="M{x} {y + HEIGHT}C{x} {y + HEIGHT + bend} {to_x} {to_y - bend} {to_x} {to_y}"/>')
    for box in boxes:
        lines.append(f'<text class="head" x="{box.x + 8}" y="{box.y + 18}">{escape(box.heading)}</text>')
    for name, (x, y) in at.items():
        lines.append(f'<rect class="crate" x="{x - WIDTH // 2 + 3}" y="{y}" width="{WIDTH - 6}" height="{HEIGHT}" rx="3"/>')
        lines.append(f'<text x="{x}" y="{y + 15}">{name}</text>')
    return '\n'.join([*lines, '</svg>\n'])
