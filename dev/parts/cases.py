"""The cases that a crate compares, as its file `stdin` has them."""
from __future__ import annotations

from toolbox.crates import TOP


def cases_in(text: str) -> list[str]:
    """The cases of a text, as the crate `cases` reads them: a line that ends with a backslash goes on in the next one,
    after that one's blanks; a blank line and one that begins with # are none."""
    found, case = list[str](), ''
    for line in text.split('\n'):
        if not case and (not line.strip() or line.startswith('#')):
            continue
        case += line.lstrip() if case else line
        if case.endswith('\\'):
            case = case[:-1]
        else:
            found.append(case)
            case = ''
    return [*found, case] if case else found


def cases_of(crate: str) -> list[str]:
    """The cases of a crate of this repository."""
    with open(f'{TOP}/crates/{crate}/stdin', encoding='utf-8', newline='\n') as file:
        return cases_in(file.read())
