"""dev/book: each definition that the claim rests on once, its links, its index and its counts."""
import collections
import html.parser
import pathlib
import re
import resource
import shutil
import subprocess
import sys
import unittest

from parts import book_words
from parts.book import Book, text_of
from parts.book_page import page_of
from parts.definitions import Definitions
from tests.support import TOP, ToolCase

CALLS = ('program', 'run_source', 'run_image', 'Session::command', 'Lab::command', 'pcprobe::program')
NAMES = (*CALLS, 'pit8253', 'pcboard_texts')  # crates, all of whose calls are taken
# At most so many lines of definitions, with their comments: nobody can check more than he reads.
MOST = {'program': 5700, 'run_source': 4400, 'pcprobe::program': 7650}


WIRE = """//! A wire.

/// Whether it is high.
#[derive(Clone, Copy)]
pub enum Level {
    /// It is.
    High,
}
"""
LEVEL = """-- Levels of wires (Intel 8259A data sheet, "Levels").
-- To be believed: the headline rests on it.
use Rattle.std.specs.Prelude.{ℕ, ◌+◌}
use Rattle.wire.specs.declared.Level.{Level}
use Rattle.wire.specs.declared.Level.TheVariants.{High}

-- a level as a number
abbrev pub level : Level → ℕ

level High = 1 + 0

-- named by nothing
abbrev pub unnamed : ℕ
unnamed = level High
"""
LAMP = """//! A lamp on a wire.
ghost use Rattle.std.specs.Prelude.{◌≡◌};
ghost use Rattle.lamp.specs.Level.{level};

use wire::Level;

/// Whether it is lit.
pub fn is_lit(lamp: Level) -> u8
    // as its wire is
    ensures { result ≡ level lamp }
{
    1
}
"""
LIGHT = """-- Lamps.
-- To be believed: the headline rests on it.
use Rattle.std.specs.Prelude.{ℕ}
use Rattle.wire.specs.declared.Level.{Level}
use Rattle.wire.specs.Level as wires

-- Light.

-- how light it is (Intel 8259A data sheet, "Lamp")
abbrev pub level : Level → ℕ
level lamp = wires.level lamp
"""
TEXT = """/// Whether it is lit.
pub fn is_lit(lamp: Level) -> u8
    // as its wire is
    ensures { result ≡ level lamp }
    names: level [1], Level [2]
lamp
----
A lamp on a wire.
# lamp/specs/Level.antt
Lamps.
-- Light.
[1]
-- how light it is (Intel 8259A data sheet, "Lamp")
abbrev pub level : Level → ℕ
level lamp = wires.level lamp
    names: Level [2], level [3]
    named by: the contract of is_lit
wire
----
A wire.
# wire: types
[2]
/// Whether it is high.
pub enum Level {
    /// It is.
    High,
}
    named by: the contract of is_lit, level [1], level [3]
# wire/specs/Level.antt
Levels of wires (Intel 8259A data sheet, "Levels").
[3]
-- a level as a number
abbrev pub level : Level → ℕ
level High = 1 + 0
    names: Level [2]
    named by: level [1]
Names of the kit's library
--------------------------
ℕ  the whole numbers from 0 on
Index
-----
Level  [2] wire
level  [1] lamp/Level, [3] wire/Level
Cases of types, and who names them
----------------------------------
High  [2] Level: level [3]
"""
COUNT = """9 lines of definitions: 2 in 2 files; 5 of the lines are comments
5 lines of types: 1
4 lines of contracts: 1
"""


class Page(html.parser.HTMLParser):
    """What a page has: its places, the links to them, what it would load, and the texts that stand as in their sources."""

    def __init__(self, text: str):
        super().__init__()
        self.places = collections.Counter[str]()
        self.links: list[str] = []
        self.loaded: list[str] = []
        self.sources: list[str] = []
        self.is_source = False
        self.feed(text)

    def handle_starttag(self, tag: str, attrs: list[tuple[str, str | None]]) -> None:
        for name, value in attrs:
            if name == 'id':
                self.places[value or ''] += 1
            elif name == 'href' and tag == 'a':
                self.links.append(value or '')
            elif name in ('src', 'href'):
                self.loaded.append(value or '')
        if tag == 'pre':
            self.sources.append('')
            self.is_source = True

    def handle_endtag(self, tag: str) -> None:
        self.is_source &= tag != 'pre'

    def handle_data(self, data: str) -> None:
        if self.is_source:
            self.sources[-1] += data


class Books(ToolCase):
    """Books of the repository's own calls."""

    found: Definitions
    books: dict[tuple[str, ...], Book] = {}  # which are made once

    @classmethod
    def setUpClass(cls) -> None:
        super().setUpClass()
        cls.found = Definitions()

    def book(self, *calls: str) -> Book:
        if calls not in self.books:
            self.books[calls] = Book(self.found, calls)
        return self.books[calls]

    def test_each_definition_reached_stands_once_and_no_other(self) -> None:
        for call in NAMES:
            with self.subTest(call):
                book = self.book(call)
                reached = [each for each in self.found.reached(self.found.wanted([call])) if each in self.found.texts]
                self.assertEqual(len(reached), len(set(reached)))
                self.assertEqual(sorted(each.definition.node for each in book.entries), sorted(reached))
                self.assertEqual([each.number for each in book.entries], list(range(1, len(reached) + 1)))
                numbers = [int(each) for each in re.findall(r'^\[(\d+)\]$', text_of(book), re.M)]
                self.assertEqual(numbers, [each.number for each in book.entries])

    def test_believed_starts_at_the_same_call(self) -> None:
        """It lists the files in the order of the book's chapters."""
        for call in ('program', 'Session::command', 'Lab::command'):
            listed = self.tool('dev/believed', '--order', call)[0].splitlines()
            text = self.tool('dev/book', call, '--text')[0]
            self.assertEqual([f'crates/{each}' for each in re.findall(r'^# (\w+/specs/\w+\.antt)$', text, re.M)], listed)

    def test_the_headline_is_the_book_of_its_calls(self) -> None:
        calls = ('program', 'run_source', 'run_image', 'Session::new', 'Session::command', 'Session::checkpoints')
        listed = self.tool('dev/believed', '--order')[0].splitlines()
        text = self.tool('dev/book', *calls, '--text')[0]
        self.assertEqual([f'crates/{path}' for path in re.findall(r'^# (\w+/specs/\w+\.antt)$', text, re.M)], listed)

    def test_each_link_leads_to_a_place(self) -> None:
        for call in NAMES:
            with self.subTest(call):
                book = self.book(call)
                page = Page(page_of(book))
                self.assertEqual(page.sources[len(book.calls) :], ['\n'.join([*each.definition.comment, *each.definition.lines]) for each in book.entries])
                self.assertEqual([each for each, count in page.places.items() if count > 1], [])
                self.assertGreater(len(page.links), 1000)
                self.assertEqual([each for each in page.links if not each.startswith('#') or each[1:] not in page.places], [])
                self.assertEqual(page.loaded, [])

    def test_names_and_named_by_are_one_relation(self) -> None:
        book = self.book('program')
        names = {(each.number, other) for each in book.entries for other in each.names}
        self.assertEqual(names, {(other, each.number) for each in book.entries for other in each.named_by})
        for each in book.entries:
            self.assertTrue(each.named_by or book.callers(each), each.name)

    def test_names_are_those_of_the_files_that_are_used(self) -> None:
        """`after_write` is a word of each chip."""
        book = self.book('program')
        by_node = {each.definition.node: each for each in book.entries}
        writes = [
            by_node[crate, file, 'after_write'].number for crate, file in (('pic8259', 'Pic'), ('pit8253', 'Pit'), ('ppi8255', 'Ppi'), ('mda_text', 'Mda'))
        ]
        port_write = by_node['wiring', 'Ports', 'after_port_write']
        self.assertLessEqual(set(writes), set(port_write.names))
        self.assertNotIn(by_node['pit8253', 'Counter', 'after_write'].number, port_write.names)
        self.assertEqual(book.found.stands_for(('execute_machine', 'Locations', 'word_at')), ('bus', 'Bus', 'word_at'))

    def test_the_contract_stands_with_its_own_clauses(self) -> None:
        with open(f'{TOP}/crates/pcboard_program/src/program.rt', encoding='utf-8') as file:
            clauses = re.findall(r'ensures \w+ \{', file.read().partition('pub fn program_of')[0])
        text = text_of(self.book('program'))
        self.assertEqual(re.findall(r'^    (ensures \w+ \{)', text, re.M), clauses)
        self.assertIn('/// Runs `pcboard`: does what `words`', text)
        self.assertNotIn('ghost view', text)
        self.assertIn('    ghost Value = { List (ℕ × ℕ) };', text_of(self.book('run_image')))

    def test_programs_are_named_with_their_functions(self) -> None:
        """Alone the name is that of the headline."""
        for names, own in ((('program', 'pcboard::program', 'pcboard_program::program'), 'pcboard'), (('pcprobe::program',), 'pcprobe')):
            for name in names:
                self.assertEqual([each.crate for each in self.found.wanted([name])], [f'{own}_program'], name)
        self.assertIn('/// Runs `pcprobe`: does what `words`', text_of(self.book('pcprobe::program')))

    def test_what_readers_ask_first_and_the_names_of_the_kit(self) -> None:
        book = self.book(*CALLS)
        nodes = {each.definition.node for each in book.entries}
        self.assertEqual([node for _, of in book_words.WAYS for node in of if node not in nodes], [])
        self.assertEqual([name for name, _ in book_words.kit_of(book.kit) if name not in book_words.KIT], [])

    def test_cases_lead_to_who_names_them(self) -> None:
        text = text_of(self.book('program'))
        self.assertRegex(text, r'\nSti  \[\d+\] Processor: words \[\d+\], shadow_of \[\d+\], after_flag_operation ')
        self.assertRegex(text, r'\nSquareWave  \[\d+\] Mode: after_due_load ')

    def test_manuals_are_cited(self) -> None:
        page = page_of(self.book('program'))
        for cited in ('source: Intel 8259A data sheet, "Fully Nested Mode"', 'source: IBM PC Technical Reference, "Speaker Interface"'):
            self.assertIn(cited, page)

    def test_no_book_is_longer_than_it_may_be(self) -> None:
        for call, most in MOST.items():
            printed = self.tool('dev/book', call, '--count')[0]
            found = re.match(r'([\d,]+) lines of ', printed)
            assert found
            self.assertLessEqual(int(found[1].replace(',', '')), most)

    def test_it_is_made_in_a_few_seconds(self) -> None:
        before = resource.getrusage(resource.RUSAGE_CHILDREN).ru_utime
        self.tool('dev/book', 'program', '--out', f'{self.room}/book.html')
        self.assert_within(resource.getrusage(resource.RUSAGE_CHILDREN).ru_utime - before, 30)
        with open(f'{self.room}/book.html', encoding='utf-8') as file:
            self.assertTrue(file.read().startswith('<!DOCTYPE html>'))

    def test_words(self) -> None:
        self.assertIn('there is no crate and no public call frob', self.tool('dev/book', 'frob', status=2)[1])
        self.assertIn('pcboard has no public call', self.tool('dev/book', 'pcboard', status=2)[1])
        self.assertIn('CALL', self.tool('dev/book', status=2)[1])
        self.assertIn("can't be written", self.tool('dev/book', 'run_image', '--out', f'{self.room}/none/book', status=3)[1])


class SmallBook(ToolCase):
    """The book of a repository of two crates, each with a file `Level`, of which one names the other."""

    def setUp(self) -> None:
        super().setUp()
        path = pathlib.Path(self.room)
        (path / 'dev').mkdir()
        shutil.copy(f'{TOP}/dev/book', f'{self.room}/dev/book')
        for folder in ('dev/parts', 'tools/toolbox'):
            shutil.copytree(f'{TOP}/{folder}', f'{self.room}/{folder}', ignore=shutil.ignore_patterns('__pycache__'))
        self.file('crates.txt', 'wire:\nlamp: wire\n')
        for crate, source, definitions in (('wire', WIRE, LEVEL), ('lamp', LAMP, LIGHT)):
            for folder, name, text in (('src', 'lib.rt', source), ('specs', 'Level.antt', definitions)):
                (path / f'crates/{crate}/{folder}').mkdir(parents=True)
                self.file(f'crates/{crate}/{folder}/{name}', text)

    def book(self, *words: str) -> str:
        return subprocess.run([sys.executable, f'{self.room}/dev/book', *words], capture_output=True, text=True, check=True).stdout

    def test_text(self) -> None:
        """Without imports and what isn't reached, with numbers from the top crate down."""
        self.assertEqual(self.book('is_lit', '--text').partition('The contract\n------------\n')[2].replace('\n\n', '\n'), TEXT)

    def test_count(self) -> None:
        """Of each crate a line at the file's head, a comment, and two lines of `level`; of lamp a heading too."""
        self.assertEqual(self.book('is_lit', '--count'), COUNT)

    def test_links(self) -> None:
        """One word stands for the definitions of two crates."""
        page = self.book('is_lit')
        self.assertIn('= <a href="#d3">wires.level</a> lamp', page)
        self.assertIn('source: Intel 8259A data sheet, "Levels"', page)
        self.assertIn('source: Intel 8259A data sheet, "Lamp"', page)


if __name__ == '__main__':
    unittest.main()
