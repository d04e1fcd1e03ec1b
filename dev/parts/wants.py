"""The lines of a session that may be refused for want of memory though none is wanting: what no clause excludes."""
from __future__ import annotations

import re
from collections.abc import Iterator

from parts.definitions import COMMENT, Definition, Definitions, Node, named

LINES = ('Command', 'Inquiry', 'Request', 'Wish')  # the types of a session's lines, whose cases are the commands
CASE = re.compile(r'\S+ \(?(?:\w+\.)?([A-Z]\w*)\b')
REFUSED = re.compile(r'\(?Memory (None|\(Some \w+\))\)?$')
# Cases whose words aren't their names, or that hand on to others: of the stops only that of changes has a copy that may lack
# memory.
WORDS = {'Add': ['changes'], 'Try': ['moments'], 'Listing': ['list', 'forms'], 'Inquire': [], 'Do': []}
ALL_SAID = 'StoppedEarly'  # a run that stops short says by this that the speaker would change, and that no room is left


def wanting() -> list[str]:
    """The commands of the debugger and the probe that may always be refused as Memory."""
    found = Definitions()
    answers = next(root for root in found.roots if root.call == 'Lab::command')
    reached = [found.texts[node] for node in found.reached([answers]) if node in found.texts]
    return sorted({word for each in reached for word in refused_words(found, each)})


def refused_words(found: Definitions, definition: Definition) -> Iterator[str]:
    """The commands that a definition has a case for, and that may be refused so."""
    for left, right in equations(definition):
        case = CASE.match(left)
        if case and stands_for_line(found, definition, case[0]) and lacks(found, definition, left, right):
            yield from WORDS.get(case[1], [re.sub(r'(?<=[a-z])(?=[A-Z])', ' ', case[1]).lower()])


def stands_for_line(found: Definitions, definition: Definition, left: str) -> bool:
    """Whether a case's first word after its name is a variant of a session's lines."""
    return any(found.stands_for(node)[2:] in ((name,) for name in LINES) for node in named(left.partition(' ')[2].replace('(', ' '), definition.scope))


def lacks(found: Definitions, definition: Definition, left: str, right: str) -> bool:
    """Whether what a case leads to admits Memory."""
    leads = {found.stands_for(node) for node in named(right, definition.scope)}
    todo, seen = list(leads), set[Node](leads)
    for node in todo:
        more = {found.stands_for(each) for each in found.edges.get(node, ())} - seen
        seen |= more
        todo += more
    return any(admits(found, found.texts[node]) for node in seen if node in found.texts)


def admits(found: Definitions, definition: Definition) -> bool:
    """Whether a definition itself admits Memory, for no want that it states."""
    for left, right in equations(definition):
        refused = REFUSED.search(left)
        if '≡ Memory None' in right or refused and right != '⊥' and not (refused[1] != 'None' and says_all(found, definition, right)):
            return True
    return False


def says_all(found: Definitions, definition: Definition, right: str) -> bool:
    """Whether what a refusal says includes that memory is wanting."""
    todo = [found.stands_for(node) for node in named(right, definition.scope)]
    return any(ALL_SAID in (each[-1] for each in (node, *found.edges.get(node, ()))) for node in todo)


def equations(definition: Definition) -> list[tuple[str, str]]:
    """A definition's cases, each as what stands on the left and on the right of its sign."""
    text = COMMENT.sub('', '\n'.join(definition.lines))
    parts = [' '.join(part.split()) for part in re.split(r'\n(?! )', text)]
    return [(left, right) for left, sign, right in (part.partition(' = ') for part in parts) if sign]
