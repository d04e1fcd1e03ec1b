"""Functions whose clauses a body meets that never knows anything: by the form of the clauses, the answer may always be false, `None`,
0 or true, nothing need be done, or anything be answered. Most are there to make runs shorter, and no clause says that they do."""
from __future__ import annotations

import re
from collections.abc import Iterator
from typing import NamedTuple

from parts.definitions import CRATES, NOTE, Item, items, read, signature
from toolbox.crates import Crates
from toolbox.proved import PROGRAMS

CLAUSE = re.compile(r'^\s*(requires|ensures)\*?(?: \w+)? \{(.*?)\}[;,]?\s*(?=^\s*(?:requires|ensures)\b|\Z)', re.M | re.S)
ANSWER = re.compile(r'->\s*(.*?)\s*(?:\bwhere\b.*)?;?\s*\Z', re.S)
STAYS = r'\(?([^()]+)\.new(\.\w+)? ≡ \1\.old(?:\2)?\)?'
PREMISES = r'(?:.* → )?'
MADE = r'(?:result|\(clocks_made result\))'
# What each clause that speaks of the answer says, of functions with these answers, if the worst one meets it.
MET: dict[str, tuple[str, tuple[str, ...]]] = {
    'false': ('bool', (rf'{PREMISES}IsTrue result → .*', rf'¬ \(IsTrue result\) → {STAYS}')),
    'None': (
        r'Option<.*|Stepped',
        (rf'{PREMISES}(?:IfSome|OnSome) {MADE} .*', rf'IfNone {MADE} {STAYS}', rf'{PREMISES}stays result ≡ true(?: → .*)?'),
    ),
    '0': (
        r'u8|u16|u32|u64|usize|Waited',
        (
            r'(?:[\w ]+ [+*] )?result ≤ .*',
            rf'{PREMISES}\S+ < (?:\w+ \+ )?result → .*',
            r'\(to : ℕ\) → to ≤ result → IsSteady .*',
            rf'{PREMISES}Are(?:QuietSteps|StepsBetween) \(?[^()]*\)? result(?:\.turns)? .*',
            r'IsBoardQuietAhead result .*',
            r'.* \(\(.*\) \* result\) .*|.* \* result\)|.* \* result ≤ .*',
            r'All .* \(take result .*\)',
        ),
    ),
    'true': ('bool', (rf'{PREMISES}(?:¬ \(IsTrue result\)|result ≡ false) → .*',)),
    'nothing': ('', (STAYS,)),
}


class Function(NamedTuple):
    """A function with clauses: its crate, the file's name without its ending, its own name, its answer's type, what it promises,
    and what its caller owes."""

    crate: str
    file: str
    name: str
    answer: str
    ensures: list[str]
    requires: list[str]


def functions() -> Iterator[Function]:
    """Those of all libraries that the programs are made of, private ones too."""
    crates = Crates()
    made_of = set().union(*map(crates.below, PROGRAMS))
    for crate in (each for each in crates.named if each in made_of):
        for file in sorted((CRATES / crate / 'src').glob('**/*.rt')):
            for item in items(read(file)):
                for each in items(item.text, '    ') if item.kind in ('impl', 'trait') else [item]:
                    if each.kind == 'fn' and not item.trait:  # of a trait's function the trait has the clauses
                        yield function_of(crate, file.stem, each)


def function_of(crate: str, file: str, item: Item) -> Function:
    whole = NOTE.sub('', signature(item.text)[0])
    answer = ANSWER.search(re.split(r'^\s*(?:requires|ensures|ghost)\b', whole, flags=re.M)[0])
    clauses = [(kind, ' '.join(clause.split())) for kind, clause in CLAUSE.findall(whole)]
    ensures, requires = ([clause for kind, clause in clauses if kind == wanted] for wanted in ('ensures', 'requires'))
    return Function(crate, file, item.name, ' '.join(answer[1].split()) if answer else '', ensures, requires)


def worst_of(function: Function) -> str | None:
    """The answer that a body may always give, if its clauses have this form."""
    if function.answer and not function.ensures:
        return 'anything'
    of_answer = [clause for clause in function.ensures if re.search(r'\bresult\b', clause) or not function.answer]
    promised = [clause for clause in of_answer if clause.replace('.new', '.old') not in function.requires]  # the others hold before
    if function.answer and not promised or not function.ensures:
        return None
    for worst, (answer, forms) in MET.items():
        if re.fullmatch(answer, function.answer) and all(any(re.fullmatch(form, clause) for form in forms) for clause in promised):
            return worst
    return None


def one_sided() -> dict[str, list[Function]]:
    """Those functions, by what they may always answer."""
    found: dict[str, list[Function]] = {worst: [] for worst in (*MET, 'anything')}
    for each in functions():
        worst = worst_of(each)
        if worst:
            found[worst].append(each)
    return found
