"""CONTRIBUTING's list for adding a chip: that dev/chip can follow it with the printer's latch. What it proves is no part of the gate."""
from __future__ import annotations

import os
import re
import shutil
import unittest
from importlib.machinery import SourceFileLoader
from importlib.util import module_from_spec, spec_from_loader
from types import ModuleType

from tests.support import TOP, ToolCase
from toolbox import program


def chip() -> ModuleType:
    """The command, which has no suffix, as a module."""
    loader = SourceFileLoader('chip', f'{TOP}/dev/chip')
    spec = spec_from_loader('chip', loader)
    assert spec
    module = module_from_spec(spec)
    loader.exec_module(module)
    return module


def read(path: str) -> str:
    with open(path, encoding='utf-8') as file:
        return file.read()


class Printer(ToolCase):
    """Without a proof."""

    def copied(self) -> str:
        """A copy of what the chip changes."""
        top = f'{self.room}/top'
        shutil.copytree(f'{TOP}/crates/wiring', f'{top}/crates/wiring', ignore=shutil.ignore_patterns('out'))
        shutil.copy(f'{TOP}/crates.txt', top)
        return top

    def test_each_place_is_there(self) -> None:
        """Where the text adapter has a line for a port of its own, the printer has one too, and no file changes that isn't listed."""
        top, module = self.copied(), chip()
        module.added(top)
        for folder, _, names in os.walk(f'{top}/crates/wiring'):
            for name in names:
                path = os.path.relpath(f'{folder}/{name}', top)
                self.assertEqual(read(f'{top}/{path}') != read(f'{TOP}/{path}'), path in module.places(), path)
                if name != 'Rows.antt':  # worked values, as many of each as there are ports
                    adapter, printer = (len(re.findall(rf'\b{kind}(?: n\b| ?\()', read(f'{top}/{path}'))) for kind in ('Adapter', 'Printer'))
                    self.assertEqual(adapter, printer, path)
        self.assertTrue(os.path.isfile(f'{top}/crates/printer/src/lib.rt'))

    def test_a_place_that_is_gone_is_told(self) -> None:
        top, path = self.copied(), 'crates/wiring/src/port.rt'
        self.file(f'top/{path}', read(f'{top}/{path}').replace('    Adapter(u16),\n', ''))
        with self.assertRaisesRegex(Exception, rf"{path} no longer has 'Adapter\(u16\),'"):
            chip().added(top)

    def test_contributing_names_the_files(self) -> None:
        page = read(f'{TOP}/CONTRIBUTING.md')
        chapter = page[page.index('# Add a chip') : page.index('# Add a tool')]
        for path in (place for place in chip().places() if os.path.exists(f'{TOP}/{place}')):
            name, parts = os.path.basename(path), path.split('/')
            short = '/'.join(parts[2:]) if len(parts) > 2 else path
            is_named = f'`{short}`' in chapter or ('/proofs/' in path and name.removesuffix('.antt') in chapter)
            self.assertTrue(is_named, path)

    def test_without_the_chip_nothing_answers(self) -> None:
        """The program tells both boards apart: AL is FFh here, where no chip has the port."""
        module = chip()
        ran = program.run(['run', f'{module.CHIP}/{module.PROGRAM}', f'{module.CHIP}/{module.RUN}'])
        self.assertIn('\nAX=00FF ', ran.out)
        self.assertNotIn(module.WANTED, ran.out)


if __name__ == '__main__':
    unittest.main()
