"""dev/believed: which definitions a reader has to believe, and that each file's head says so."""
import pathlib
import shutil
import subprocess
import sys
import unittest

from tests.support import TOP, ToolCase

HEADLINE = '-- To be believed: the headline rests on it.'
CALLERS = '-- To be believed by callers of this crate: the headline does not rest on it.'
PROOFS = '-- For proofs alone: no public contract rests on it.'
CALL = """//! A call.
ghost use Rattle.{crate}.specs.{file}.{{told}};

/// What is told.
pub fn {name}() -> u8
    ensures {{ result ≡ told }}
{{
    1
}}
"""


class Believed(ToolCase):
    """Heads, over the repository and over small ones."""

    def setUp(self) -> None:
        super().setUp()
        self.path = pathlib.Path(self.room)

    def test_each_head_of_the_repository_says_what_rests_on_it(self) -> None:
        self.tool('dev/believed', '--check')

    def repository(self, **crates: tuple[str, dict[str, str]]) -> None:
        """A repository of crates, each with the definition file that its one call names, and the texts of all its files."""
        (self.path / 'dev').mkdir()
        (self.path / 'tools').mkdir()
        shutil.copy(f'{TOP}/dev/believed', f'{self.room}/dev/believed')
        for folder in ('dev/parts', 'tools/toolbox'):
            shutil.copytree(f'{TOP}/{folder}', f'{self.room}/{folder}', ignore=shutil.ignore_patterns('__pycache__'))
        self.file('crates.txt', ''.join(f'{crate}:\n' for crate in crates))
        for crate, (named, files) in crates.items():
            for folder in ('src', 'specs'):
                (self.path / f'crates/{crate}/{folder}').mkdir(parents=True)
            self.file(f'crates/{crate}/src/lib.rt', CALL.format(crate=crate, file=named, name='program' if crate == 'debugger' else f'tell_{crate}'))
            for name, text in files.items():
                self.file(f'crates/{crate}/specs/{name}.antt', text)

    def run_it(self, *words: str) -> tuple[int, str, str]:
        ran = subprocess.run([sys.executable, f'{self.room}/dev/believed', *words], capture_output=True, text=True, check=False)
        return ran.returncode, ran.stdout, ran.stderr

    def test_a_file_that_nothing_names_serves_proofs_alone(self) -> None:
        files = {
            'Told': f'-- A number.\n{HEADLINE}\n\nabbrev pub told : ℕ\ntold = 1\n',
            'Planted': f'-- Another.\n{HEADLINE}\n\nabbrev pub planted : ℕ\nplanted = 2\n',
        }
        self.repository(debugger=('Told', files))
        self.assertEqual(self.run_it('--check'), (1, '', 'debugger/specs/Planted.antt: proofs\n'))

    def test_a_file_that_a_contract_names_is_believed(self) -> None:
        contract = '-- A number.\n{}\nuse Rattle.{}.specs.Base.{{base}}\n\nabbrev pub told : ℕ\ntold = base\n'
        base = '-- A base.\n{}\n\nabbrev pub base : ℕ\nbase = 1\n'
        self.repository(
            debugger=('Told', {'Told': contract.format(HEADLINE, 'debugger'), 'Base': base.format(PROOFS)}),
            other=('Told', {'Told': contract.format(HEADLINE, 'other'), 'Base': base.format(CALLERS)}),
        )
        said = 'other/specs/Told.antt: callers\ndebugger/specs/Base.antt: headline\n'
        self.assertEqual(self.run_it('--check'), (1, '', said))
        order = 'crates/other/specs/Told.antt\ncrates/other/specs/Base.antt\n'
        self.assertEqual(self.run_it('--order', 'tell_other'), (0, order, ''))
        self.assertEqual(self.run_it('tell_other'), (0, 'believed: 2 files of 11 lines\n  other: Base Told\n', ''))

    def test_definitions_that_name_each_other(self) -> None:
        text = '-- One of two.\n{}\nuse Rattle.debugger.specs.{}.{{{}}}\n\nunfoldable pub {} : ℕ\n{} = {}\n'
        files = {'Told': text.format(HEADLINE, 'Back', 'back', 'told', 'told', 'back'), 'Back': text.format(HEADLINE, 'Told', 'told', 'back', 'back', 'told')}
        self.repository(debugger=('Told', files))
        self.assertEqual(self.run_it('--check'), (0, '', ''))
        self.assertEqual(self.run_it('--order')[1], 'crates/debugger/specs/Told.antt\ncrates/debugger/specs/Back.antt\n')

    def test_words(self) -> None:
        self.assertIn('there is no crate and no public call frob', self.tool('dev/believed', 'frob', status=2)[1])


if __name__ == '__main__':
    unittest.main()
