"""A repository of three programs over a crate or two, and a kit whose commands only write what a build leaves: for tests of what
proves and builds."""
from __future__ import annotations

import os
import shutil
import subprocess
from collections.abc import Callable

from tests.support import TOP, ToolCase

KIT, LOGIC = 'rattle-kit-1', '0123456789abcdef'
RT = f"""#!/bin/sh
[ "$1" != version ] || echo "{KIT} logic {LOGIC}"
"""
CRATES = 'low:\npcboard: low\nprobe: low\npcprobe: low probe\npcmasm: low\nother:\n'
# It leaves what was to be built, and tells a verdict; a program, which the linker makes, is a script that tells how it was called. For
# another processor it hands a module to the compiler.
RATTLE = r"""#!/bin/sh
echo "${PWD##*/}" >> "$(dirname "$0")/proved"
while [ "$1" != -o ]; do
    [ "$1" != --toolchain ] || clang=$2/bin/clang
    shift
done
mkdir -p "$2"
[ "$3" != --cpu ] || (cd "$2" && echo "for $4" > module.bc && "$clang" --target=mine -O3 -x ir module.bc)
echo "fn it: proved"
echo "logic=proved functions=1 sum=0123456789abcdef native=nat"
"""
LINK = r"""#!/bin/sh
name=${PWD##*/}
printf '#!/bin/sh\n# %s\n[ "$1" != --help ] || exit 2\necho "it runs $*"\n' $name > out/$name; chmod +x out/$name
"""


class Repository(ToolCase):
    """A case with that repository in its folder, as `top`, and with that kit, as `bin`."""

    def setUp(self) -> None:
        super().setUp()
        for folder in ('dev/parts', 'tools/toolbox'):
            os.makedirs(f'{self.room}/top/{folder}')
        shared = (f'tools/toolbox/{stem}.py' for stem in ('__init__', 'command', 'crates', 'locks', 'proved', 'reading', 'sources', 'threads', 'writing'))
        parts = (f'dev/parts/{stem}.py' for stem in ('__init__', 'building', 'targets'))
        for name in ('pcboard', 'VERSION', 'README.md', 'dev/build', *parts, *shared):
            shutil.copy(f'{TOP}/{name}', f'{self.room}/top/{name}')
        for name in ('pcprobe', 'pcmasm'):
            os.symlink('pcboard', f'{self.room}/top/{name}')
        for name in ('low', 'pcboard', 'probe', 'pcprobe', 'pcmasm', 'other'):
            os.makedirs(f'{self.room}/top/crates/{name}/src')
            self.file(f'top/crates/{name}/src/{"main" if name.startswith("pc") else "lib"}.rt', '// nothing\n')
        self.file('top/crates.txt', CRATES)
        os.mkdir(f'{self.room}/bin')
        self.file('WHAT', 'a kit')
        for name, text in (('rt', RT), ('rattle', RATTLE), ('rattle-link', LINK)):
            os.chmod(self.file(f'bin/{name}', text), 0o755)

    def launch(self, *words: str, has_rt: bool = True, top: str = '', name: str = 'pcboard') -> subprocess.CompletedProcess[str]:
        return self.start(f'{top or f"{self.room}/top"}/{name}', *(words or ['run']), has_rt=has_rt)

    def start(self, *words: str, has_rt: bool = True) -> subprocess.CompletedProcess[str]:
        """Runs a command with a cache in the folder, and with the kit on the path or without."""
        path = f'{self.room}/bin:/usr/bin:/bin' if has_rt else '/usr/bin:/bin'
        return subprocess.run(words, capture_output=True, text=True, check=False, env={'PATH': path, 'XDG_CACHE_HOME': f'{self.room}/cache'})

    def change_text(self, path: str) -> Callable[[], None]:
        """Adds a byte to a file of the repository, or makes it, and returns what takes that back."""
        full = f'{self.room}/top/{path}'
        os.makedirs(os.path.dirname(full), exist_ok=True)
        with open(full, 'a+', encoding='utf-8') as file:
            file.seek(0)
            was = file.read()
            file.write('\n')

        def put_back() -> None:
            if was:
                self.file(f'top/{path}', was)
            else:
                os.remove(full)

        return put_back

    def touch(self, path: str) -> None:
        """Makes a file or a folder of the repository newer than the program, and than whatever a test writes after it."""
        program = os.stat(f'{self.room}/top/crates/pcboard/out/pcboard').st_mtime
        os.utime(f'{self.room}/top/{path}', (program + 3600, program + 3600))

    def stand_in(self, lines: str) -> None:
        """Puts a script in the place of the program that was built."""
        self.launch()
        self.file('top/crates/pcboard/out/pcboard', f'#!/bin/sh\n{lines}\n')
