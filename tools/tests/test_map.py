"""docs/architecture.md's picture of the crates: that it is what dev/map draws now, and what is drawn."""
from __future__ import annotations

import re
import unittest
from xml.etree import ElementTree

from parts.mapping import Named, edges, headings, in_rows, levels, reduced, svg
from tests.support import TOP, ToolCase
from toolbox.crates import Crates

PICTURE = 'docs/pictures/crates.svg'
SMALL = """# A line for each crate: what it says.

# Low & slow
one: kit
two: one

# High
three staticlib: one two kit
four: one
five: four three one
"""


def content(path: str) -> str:
    with open(f'{TOP}/{path}', encoding='utf-8') as file:
        return file.read()


def below(named: Named, name: str) -> set[str]:
    """All that one stands on."""
    return set(named[name]).union(*(below(named, other) for other in named[name]))


class Map(ToolCase):
    """The picture."""

    def test_it_is_of_the_present_crates(self) -> None:
        self.assertEqual(self.tool('dev/map')[0], content(PICTURE), 'dev/map --write draws it anew')
        self.assertIn('](pictures/crates.svg)', content('docs/architecture.md'))

    def test_all_crates_are_drawn_above_those_that_they_stand_on(self) -> None:
        """By its own text: each line leads from one crate down to another, and these lines tell all that crates.txt does."""
        tree = ElementTree.fromstring(content(PICTURE))
        space = {'svg': 'http://www.w3.org/2000/svg'}
        texts = [text for text in tree.findall('svg:text', space) if not text.get('class')]
        names = {(int(text.get('x', '')), int(text.get('y', '')) - 15): text.text or '' for text in texts}
        crates = Crates()
        self.assertEqual(sorted(names.values()), sorted(crates.named))
        found: Named = {name: [] for name in names.values()}
        for path in tree.findall('svg:path', space):
            x, y, *_, to_x, to_y = map(int, re.findall(r'\d+', path.get('d', '')))
            self.assertLess(y, to_y)
            found[names[x, y - 22]].append(names[to_x, to_y])
        for name in found:
            self.assertEqual(below(found, name), crates.below(name) - {name})

    def test_no_boxes_overlap(self) -> None:
        found = re.findall(r'<rect class="(\w+)" x="(\d+)" y="(\d+)" width="(\d+)" height="(\d+)"', content(PICTURE))
        for kind in ('box', 'crate'):
            places = [tuple(map(int, numbers)) for which, *numbers in found if which == kind]
            for at, (x, y, width, height) in enumerate(places):
                for to_x, to_y, wide, high in places[:at]:
                    self.assertTrue(x + width <= to_x or to_x + wide <= x or y + height <= to_y or to_y + high <= y)


class Parts(unittest.TestCase):
    """By hand."""

    def test_what_a_list_says(self) -> None:
        groups, named = headings(SMALL)
        self.assertEqual(groups, {'Low & slow': ['one', 'two'], 'High': ['three', 'four', 'five']})
        self.assertEqual(named, {'one': [], 'two': ['one'], 'three': ['one', 'two'], 'four': ['one'], 'five': ['four', 'three', 'one']})

    def test_what_follows_is_left_out(self) -> None:
        groups, named = headings(SMALL)
        least = reduced(named)
        self.assertEqual(least, {'one': [], 'two': ['one'], 'three': ['two'], 'four': ['one'], 'five': ['four', 'three']})
        kinds = [('near', 'two', 'one'), ('far top', 'three', 'two'), ('far top', 'four', 'one'), ('near', 'five', 'four'), ('near', 'five', 'three')]
        self.assertEqual(edges(groups, least), kinds)

    def test_levels_and_rows(self) -> None:
        self.assertEqual(levels(headings(SMALL)[1]), [['one'], ['two', 'four'], ['three'], ['five']])
        self.assertEqual(in_rows(list('abcd')), [list('abcd')])
        self.assertEqual(in_rows(list('abcdef')), [list('abc'), list('def')])

    def test_it_is_xml(self) -> None:
        self.assertIn('Low & slow', [text.text for text in ElementTree.fromstring(svg(SMALL)).iter() if text.get('class') == 'head'])


if __name__ == '__main__':
    unittest.main()
