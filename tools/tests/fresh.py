"""A copy of the repository that is as a fresh clone, and how an ordinary user starts something there."""
from __future__ import annotations

import contextlib
import os
import shutil
import subprocess
from typing import Any

from parts import release
from tests.support import TOP
from toolbox.crates import Crates
from toolbox.proved import PROGRAMS, out

NOBODY = 65534
BUILT = ('out', '__pycache__', 'BUILD.bazel')  # what .gitignore leaves out in any folder; at the top it leaves out target, too
PYTHON = 'import sys; sys.exit(sys.version_info < (3, 10))'


def copy(room: str) -> dict[str, Any]:
    """Makes the copy in a folder, with a home beside it, and returns how a process is started in it, as arguments of `subprocess`: by
    a user without rights if this one is root, and with nothing in the environment but that home and the system's commands. A program
    that was built goes along if the stored one isn't of the present sources; it is named if its launcher doesn't take it here."""
    top, home = f'{room}/clone', f'{room}/home'
    os.chmod(room, 0o755)
    os.mkdir(home)
    shutil.copytree(TOP, top, symlinks=True, ignore=built_in)
    environment = {'PATH': '/usr/bin:/bin', 'HOME': home}
    for name in PROGRAMS:
        built, there = os.path.dirname(out(name)), f'{top}/crates/{name}/out'
        if release.of_program(Crates(), name) and os.path.isdir(built):
            os.mkdir(there)
            for path in (name, 'PROVED'):
                with contextlib.suppress(FileNotFoundError):
                    shutil.copy2(f'{built}/{path}', there)
            if name.upper() in os.environ:
                environment[name.upper()] = f'{there}/{name}'
    how: dict[str, Any] = {'cwd': top, 'env': environment, 'stdin': subprocess.DEVNULL}
    if os.geteuid() == 0:
        subprocess.run(['chown', '-R', f'{NOBODY}:{NOBODY}', top, home], capture_output=True, check=False)  # else `amiss` tells why
        how |= {'user': NOBODY, 'group': NOBODY, 'extra_groups': []}
    return how


def built_in(folder: str, names: list[str]) -> set[str]:
    """Of the names in a folder of the repository, those of what was built there."""
    return set(names) & {*BUILT, *(['target'] if folder == TOP else [])}


def amiss(how: dict[str, Any]) -> str:
    """Why the tools can't be started so, or nothing."""
    try:
        ran = subprocess.run(['python3', '-c', PYTHON], capture_output=True, check=False, **how)
    except (OSError, subprocess.SubprocessError) as error:
        return str(error)
    return '/usr/bin/python3 is older than 3.10' if ran.returncode else ''
