"""The crates that crates.txt lists, and the commands of Rattle that prove and build them."""
from __future__ import annotations

import os
import shutil

from toolbox.command import Sorry

TOP = os.path.dirname(os.path.dirname(os.path.dirname(os.path.realpath(__file__))))
KIT = os.path.dirname(os.path.dirname(os.path.realpath(shutil.which('rt') or '/')))
RATTLE = f'{KIT}/bin/rattle'
NO_RATTLE = "Rattle's rt isn't on the path, without which nothing is proved (README.md, 'What is proved')"
CACHE = os.environ.get('XDG_CACHE_HOME') or os.path.expanduser('~/.cache')  # what is kept there may be removed at any time


def want_rattle() -> None:
    """Refuses where Rattle isn't there."""
    if not shutil.which('rt'):
        raise Sorry(NO_RATTLE)


class Crates:
    """The crates of crates.txt, each with the libraries that it names, in a folder whose `crates` has them."""

    def __init__(self, top: str = TOP):
        self.top = top
        self.lines: dict[str, str] = {}
        self.named: dict[str, list[str]] = {}
        self.static: set[str] = set()
        with open(f'{top}/crates.txt', encoding='utf-8') as text:
            for line in text:
                heads, colon, named = line.partition('#')[0].partition(':')
                if colon:
                    name, *kinds = heads.split()
                    self.lines[name], self.named[name] = line, named.split()
                    self.static |= {name} if 'staticlib' in kinds else set()

    def folder(self, name: str) -> str:
        return f'{self.top}/crates/{name}'

    def below(self, name: str) -> set[str]:
        """The crates of the list that a crate stands on, itself too."""
        found: set[str] = set()
        todo = [name]
        while todo:
            crate = todo.pop()
            if crate in self.named and crate not in found:
                found.add(crate)
                todo += self.named[crate]
        return found

    def rlib(self, name: str) -> str:
        """Where its library stands, as `rt ci` leaves it too: what other crates may cite of it, and no proofs."""
        return f'{self.folder(name)}/out/rlib/{name}.rlib'

    def is_program(self, name: str) -> bool:
        return os.path.isfile(f'{self.folder(name)}/src/main.rt')

    def command(self, name: str, jobs: int) -> list[str]:
        """The command that proves a crate, in its folder, over the libraries that it stands on, and builds what `made` names."""
        words = [RATTLE, 'build', '--crate-name', name, 'src/main.rt' if self.is_program(name) else 'src/lib.rt']
        for library in ('std', *self.named[name]):
            path = self.rlib(library) if library in self.named else f'{KIT}/rlibs/{library}.rlib'
            words += ['--extern', f'{library}={path}']
        folders = {os.path.dirname(self.rlib(library)) for library in self.below(name) - {name}}
        for folder in (f'{KIT}/rlibs', *sorted(folders)):
            words += ['-L', f'dependency={folder}']
        words += ['--antt-project', f'{KIT}/rattle/logic/antt-project.json', '--logic-built', f'{KIT}/logic_built']
        words += ['--links', f'{name}=', '--jobs', str(jobs)]
        if name in self.static:
            words += ['--crate-type', 'staticlib']
        if name in self.static or self.is_program(name):
            words += ['--toolchain', f'{KIT}/toolchain', '--backend', 'llvm']
        else:
            words += ['--statements']
        return [*words, '-o', self.made(name)]

    def made(self, name: str) -> str:
        """What that command builds: a program's object file, a static library or a library."""
        if self.is_program(name):
            return f'out/{name}.o'
        return f'out/lib{name}.a' if name in self.static else f'out/rlib/{name}.rlib'

    def link(self, name: str) -> list[str]:
        """The command that links a program's object file, in its folder."""
        toolchain = ['--target', 'x86_64-unknown-linux-gnu', '--toolchain', f'{KIT}/toolchain']
        libraries = [f'{KIT}/c/libos_c.a', f'{KIT}/c/liblibc_c.a']
        return [f'{KIT}/bin/rattle-link', *toolchain, '-o', f'out/{name}', f'out/{name}.o', *libraries]
