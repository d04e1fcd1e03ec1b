"""Cases of a program, stored as text: words, files and input, and what is printed and told. A content line `|TEXT` ends with a line
feed, `~TEXT` doesn't, and `*N TEXT` is N times TEXT; in texts a backslash stands before the two digits of a byte, before `_` and the
two digits of a number of blanks, and before another backslash."""
from __future__ import annotations

import os
import re
import subprocess
from dataclasses import dataclass, field
from typing import Callable

from tests.support import STORED


def plain(text: str) -> bytes:
    """The bytes of a text in which a backslash stands before two hexadecimal digits, a count of blanks or a backslash."""

    def byte(found: re.Match[str]) -> str:
        blanks, number = found[1], found[2]
        return ' ' * int(blanks, 16) if blanks else chr(int(number, 16)) if number else '\\'

    return re.sub(r'\\(?:_(..)|([0-9A-F]{2})|\\)', byte, text).encode('latin-1')


@dataclass
class Case:
    name: str
    words: list[str] = field(default_factory=list)
    status: int = 0
    texts: dict[str, bytes] = field(default_factory=dict)


def cases(name: str) -> list[Case]:
    """The stored cases. The texts of each are its files, by `file NAME`, and its three streams."""
    found: list[Case] = []
    into = ''
    with open(f'{STORED}/{name}', encoding='ascii') as lines:
        for line in lines:
            first, _, rest = line.rstrip('\n').partition(' ')
            if line[0] in '|~':
                found[-1].texts[into] += plain(line.rstrip('\n')[1:]) + (b'\n' if line[0] == '|' else b'')
            elif line[0] == '*':
                found[-1].texts[into] += plain(rest) * int(first[1:])
            elif first == 'case':
                found.append(Case(rest))
            elif first == 'word':
                found[-1].words.append(rest)
            elif first == 'status':
                found[-1].status = int(rest)
            elif first in ('file', 'stdin', 'stdout', 'stderr'):
                into = line.rstrip('\n')
                found[-1].texts[into] = b''
    return found


def answer(case: Case, program: str, room: str, before: Callable[[], None] | None = None) -> tuple[int, bytes, bytes]:
    """The status of a program on a case, and what it prints and tells; the files of the case stand in the folder `room` meanwhile.
    `before` is called in the program's own process."""
    files = {name[5:]: text for name, text in case.texts.items() if name.startswith('file ')}
    for name, text in files.items():
        with open(f'{room}/{name}', 'wb') as file:
            file.write(text)
    given = case.texts.get('stdin', b'')
    ran = subprocess.run([program, *case.words], input=given, capture_output=True, cwd=room, check=False, preexec_fn=before)
    for name in files:
        os.remove(f'{room}/{name}')
    return ran.returncode, ran.stdout, ran.stderr
