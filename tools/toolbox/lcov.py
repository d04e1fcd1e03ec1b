"""Coverage as lcov's tracefiles have it (geninfo(1)), which genhtml, editors and build servers show."""
from __future__ import annotations

from typing import Iterable


def tracefile(source: str, times: Iterable[tuple[int, int]]) -> str:
    """The text for one source: pairs of a line's number and how often it ran. Of a number that comes more than once the sum counts."""
    sums = dict[int, int]()
    for number, count in times:
        sums[number] = sums.get(number, 0) + count
    lines = [f'DA:{number},{count}' for number, count in sorted(sums.items())]
    return '\n'.join(['TN:', f'SF:{source}', *lines, f'LF:{len(lines)}', f'LH:{sum(each > 0 for each in sums.values())}', 'end_of_record', ''])
