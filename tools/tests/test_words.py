"""The code's words, one for each idea; comments that stand alone; names of files and lengths of lines."""
from __future__ import annotations

import collections
import functools
import pathlib
import re
import unittest

from tests.support import TOP
from toolbox.crates import Crates

CRATES = pathlib.Path(TOP, 'crates')
GLOSSARY = pathlib.Path(TOP, 'docs/glossary.md')
# Of several words for one idea those that aren't the code's any more.
DROPPED = {
    *('foresee', 'foreseen', 'unasked'),  # nothing comes: quiet, steady, settled
    *('mute', 'mutely', 'muted'),  # the speaker: silent, unseen
    'anyhow',  # only the processor: still, alone, idle
    'leapt',  # time goes on: act, clock, leap, pass, sync, tick, turn
    'fresh',  # what is known of an instruction: deed, slot
    *('behind', 'bring', 'brought', 'present'),  # chips that are late: lag
    'recurring',  # loops: countdown, course, delay, round
    'reach',  # where to stop: watch
    'tight',  # can't go on: held back, room
}
OTHERS = {'anyhow'}  # a library of the kit
# What stayed, as the glossary has it.
KEPT = """act, alone, begun, block, clock, countdown, course, deed, delay, event, head, held back, idle, kept, lag, leap
mark, noted, pass, quiet to c, room, round, row, settled, silent, slot, steady, still, sync, tick, turn, unseen
watched"""
OPENING = re.compile(r'(?:The same|Such|Those)\b')
WIDTHS = {'specs': 120, 'proofs': 160}  # the most characters of a line
NAME = re.compile(r"(?<![\w'])[A-Za-z_][\w']*")
NOT_CODE = {  # comments and strings
    '.rt': re.compile(r"""//[^\n]*|b?"(?:\\.|[^"\\])*"|b?'(?:\\[^\n']+|[^'\\\n])'""", re.S),
    '.antt': re.compile(r'(?:^|(?<=\s))--(?=\s|$).*|"(?:\\.|[^"\\\n])*"', re.M),
}
FOLDERS = {'.rt': ('src',), '.antt': ('specs', 'proofs')}


def sources(end: str) -> list[pathlib.Path]:
    """The crates' files of a kind."""
    return sorted(path for folder in FOLDERS[end] for path in CRATES.glob(f'*/{folder}/**/*{end}'))


def words(name: str) -> list[str]:
    """Of IsOld, old_value and OLD the words, in small letters."""
    return [word.lower() for word in re.findall(r"[A-Z]+(?![a-z])|[A-Z][a-z0-9']*|[a-z0-9']+", name)]


@functools.cache
def names() -> dict[str, str]:
    """Each identifier of the crates, with a file that has it."""
    found: dict[str, str] = {}
    for end, not_code in NOT_CODE.items():
        for path in sources(end):
            text = not_code.sub(' ', path.read_text(encoding='utf-8'))
            found |= dict.fromkeys(NAME.findall(text), str(path.relative_to(TOP)))
    return found


def openings(text: str) -> list[tuple[int, str]]:
    """The first line of each doc comment of a source, with its number."""
    lines = [re.match(r'\s*//[/!] ?(.*)', line) for line in text.splitlines()]
    return [(at + 1, line[1]) for at, line in enumerate(lines) if line and not (at and lines[at - 1])]


def rows() -> dict[str, str]:
    """What the glossary says of each word."""
    found = re.findall(r'^\|([^|]+)\|(.*)\|$', GLOSSARY.read_text(encoding='utf-8'), re.M)
    return {word: said for word, said in found if word not in ('Word', '-')}


class Identifiers(unittest.TestCase):
    """Over the crates' code, definitions and proofs."""

    def test_none_is_made_of_a_word_that_was_dropped(self) -> None:
        made = (name for name in sorted(names()) if name not in OTHERS and DROPPED & set(words(name)))
        found = [f'{name} ({names()[name]})' for name in made]
        self.assertEqual(found[:20], [], len(found))

    def test_the_words_of_a_name(self) -> None:
        self.assertEqual(words('IsMutedNow'), ['is', 'muted', 'now'])
        self.assertEqual(words("still_muted'"), ['still', "muted'"])
        self.assertEqual(words('MUTED_8253'), ['muted', '8253'])
        self.assertEqual(words('commuted'), ['commuted'])

    def test_files_of_definitions_have_names_of_their_own(self) -> None:
        """Among the crates that one stands on."""
        crates = Crates()
        by_name = collections.defaultdict(list)
        for path in sources('.antt'):
            if path.parent.name == 'specs' and path.stem != 'Lib':
                by_name[path.stem].append(path.parts[-3])
        pairs = [
            f'{name}: {one}, {other}' for name, found in sorted(by_name.items()) for one in found for other in sorted(crates.below(one) & set(found) - {one})
        ]
        self.assertEqual(pairs[:20], [], len(pairs))


class Glossary(unittest.TestCase):
    """docs/glossary.md."""

    def test_each_word_that_stayed_stands_there(self) -> None:
        self.assertEqual([word for word in KEPT.replace('\n', ', ').split(', ') if word not in rows()], [])

    def test_no_word_that_was_dropped_stands_there(self) -> None:
        self.assertEqual(DROPPED & set(rows()), set())

    def test_the_words_are_in_order(self) -> None:
        self.assertEqual(list(rows()), sorted(rows()))

    def test_each_name_in_backquotes_is_there(self) -> None:
        """An identifier, or a file of the repository."""
        quoted = {name for said in rows().values() for name in re.findall(r'`([^`]+)`', said)}
        self.assertGreater(len(quoted), 30)
        programs = {'pcboard', 'pcprobe', 'pcmasm'}
        files = {name for name in quoted if '/' in name and pathlib.Path(TOP, name.split()[0]).is_file()}
        self.assertEqual(sorted(quoted - programs - files - set(names())), [])


class Comments(unittest.TestCase):
    """Comments that a reader meets one by one."""

    def test_none_begins_with_what_stands_above_it(self) -> None:
        found = [
            f'{path.relative_to(TOP)}:{number}: {line}'
            for path in sources('.rt')
            for number, line in openings(path.read_text(encoding='utf-8'))
            if OPENING.match(line)
        ]
        self.assertEqual(found[:20], [], len(found))

    def test_the_first_line_of_each(self) -> None:
        text = '//! Top.\n\n/// Such a one.\n/// Those go on.\nfn a() {\n    // Such is no doc comment\n}\n'
        self.assertEqual(openings(text), [(1, 'Top.'), (3, 'Such a one.')])


class Lines(unittest.TestCase):
    """How long lines of definitions and of proofs are: rt fmt leaves a line as it was broken."""

    def test_none_is_too_long(self) -> None:
        for folder, width in WIDTHS.items():
            found = [
                f'{path.relative_to(TOP)}:{number}'
                for path in sorted(CRATES.glob(f'*/{folder}/**/*.antt'))
                for number, line in enumerate(path.read_text(encoding='utf-8').split('\n'), 1)
                if len(line) > width
            ]
            self.assertEqual(found[:20], [], f'more than {width} characters')


if __name__ == '__main__':
    unittest.main()
