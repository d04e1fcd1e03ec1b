"""benches: the C header against the sources, and the page against what is held. The benches themselves are run by dev/benches, which
builds the archives."""
from __future__ import annotations

import re
import unittest
from importlib.machinery import SourceFileLoader
from importlib.util import module_from_spec, spec_from_loader
from types import ModuleType

from tests.support import TOP


def benches() -> ModuleType:
    """The tool, which has no suffix, as a module."""
    loader = SourceFileLoader('benches', f'{TOP}/dev/benches')
    spec = spec_from_loader('benches', loader)
    assert spec
    module = module_from_spec(spec)
    loader.exec_module(module)
    return module


class Header(unittest.TestCase):
    def test_it_declares_what_the_sources_export(self) -> None:
        calls = benches().declared_calls()
        self.assertIn('zebludor_pit_advance', calls)
        self.assertIn('zebludor_run_hex', calls)
        self.assertIn('zebludor_session_command', calls)
        self.assertIn('zebludor_pcprobe', calls)

    def test_another_type_is_found(self) -> None:
        module = benches()
        header = module.text_of(module.HEADER)
        changed = header.replace('uint64_t ticks', 'uint32_t ticks')
        self.assertNotEqual(header, changed)
        self.assertNotEqual(module.declared(header), module.declared(changed))


class Rust(unittest.TestCase):
    """The crate zebludor-sys."""

    def text(self, path: str) -> str:
        return str(benches().text_of(f'{TOP}/c/zebludor-sys/{path}'))

    def test_it_declares_what_the_header_does(self) -> None:
        """Each call with its types, and each struct with its fields, by the header's names."""
        module = benches()
        text, header = self.text('src/raw.rs'), module.text_of(module.HEADER)
        structs = dict(re.findall(r'/// `(zebludor_\w+)`\.\n#\[repr\(C\)\]\n#\[derive\([^)]*\)\]\npub struct (\w+) \{', text))
        self.assertEqual(structs.keys(), module.declared_structs(header).keys())
        names = {'usize': 'size_t', 'bool': 'bool'} | {f'u{bits}': f'uint{bits}_t' for bits in (8, 16, 64)} | {rust: name for name, rust in structs.items()}

        def of_c(kind: str) -> str:
            found = re.fullmatch(r'(\*const |\*mut )?(\w+)', kind)
            assert found, kind
            return f'{"const " if found[1] == "*const " else ""}{names[found[2]]}{" *" if found[1] else ""}'

        calls = dict[str, tuple[list[str], str]]()
        for name, words, answer in re.findall(r'^    pub fn (\w+)\((.*?)\)(?: -> (\w+))?;', text, re.M | re.S):
            calls[name] = [of_c(word.partition(': ')[2].strip()) for word in words.split(',') if word.strip()], names[answer] if answer else 'void'
        self.assertEqual(calls, module.declared(header))
        for name, rust in structs.items():
            body = re.findall(rf'pub struct {rust} \{{\n(.*?)\n\}}', text, re.S)[0]
            fields = [(of_c(kind), field) for field, kind in re.findall(r'^    pub (\w+): ([^,]+),$', body, re.M)]
            self.assertEqual(fields, module.declared_structs(header)[name], name)

    def test_its_version(self) -> None:
        with open(f'{TOP}/VERSION', encoding='ascii') as file:
            version = file.read().strip()
        for path in ('Cargo.toml', 'Cargo.lock'):
            self.assertIn(f'\nversion = "{version}"\n', self.text(path))


class Page(unittest.TestCase):
    def test_it_tells_where_each_mistake_of_a_timer_is_found(self) -> None:
        """The lines that dev/benches holds both simulators to, one for each mistake that the module has."""
        module = benches()
        rows = re.findall(r'^\|(\d)\|[^|]+\|`(step \d+: [^`]+)`\|$', module.text_of(f'{TOP}/docs/for-test-benches.md'), re.M)
        self.assertEqual([(str(wrong), line) for wrong, line in enumerate(module.STEPS)][1:], rows)
        planted = re.findall(r'WRONG == (\d)', module.text_of(f'{module.BENCHES}/timer.v'))
        self.assertEqual(sorted(planted), [wrong for wrong, _ in rows])


if __name__ == '__main__':
    unittest.main()
