"""A release as a Debian package: all of it below /usr/lib/zebludor, with the commands pcboard, pcprobe, pcmasm and zebludor, their
pages for man, what completes their words, the module for Python, and the libraries where compilers and pkg-config look for them."""
from __future__ import annotations

import gzip
import hashlib
import io
import os
import re
import subprocess
import tarfile
import tempfile
import textwrap

from toolbox import completions, manual
from toolbox.command import Sorry
from toolbox.present import MADE
from toolbox.proved import PROGRAMS

MAINTAINER = 'The developers of Zebludor <zebludor@localhost>'
TIME = 1_000_000_000  # of every file: a second of 2001, since Debian takes none before 1984
ROOM, DOCS = 'usr/lib/zebludor', 'usr/share/doc/zebludor'
# Each architecture: its name, its folder of libraries, and what its tools' names begin with.
Machine = tuple[str, str, str]
AMD64, ARM64 = ('amd64', 'usr/lib/x86_64-linux-gnu', ''), ('arm64', 'usr/lib/aarch64-linux-gnu', 'aarch64-linux-gnu-')
LINKED = (
    'README.md',
    'CHANGELOG.md',
    'CONTRIBUTING.md',
    'SECURITY.md',
    'LICENSE-APACHE',
    'LICENSE-MIT',
    'c',
    'docs',
    'editors',
    'examples',
    'python',
    'services',
)
CONTROL = """Package: zebludor
Version: {version}
Architecture: {architecture}
Maintainer: {maintainer}
Installed-Size: {size}
Depends: libc6 (>= 2.34), python3 (>= 3.10)
Suggests: binutils, gdb, nasm, pkgconf | pkg-config
Section: otherosfs
Priority: optional
Description: proved emulator of the IBM PC 5150
 The 8086 processor, the chips and the text screen of the IBM PC of 1981, with
 an assembler and a debugger that also runs backwards. A proof checker has
 verified that what the programs print is what the rules of Intel's and IBM's
 manuals say. The command zebludor has the tools: a desk in the browser,
 debuggers for people, gdb and editors, traces, and tests of whole classes.
"""
OVERRIDES = """# The project has no address that is public; dev/release --maintainer gives the package one.
zebludor: bogus-mail-host *
zebludor: bogus-mail-host-in-debian-changelog *
"""
CHANGES = """zebludor ({version}) unstable; urgency=medium

  * CHANGELOG.md tells what changed.

 -- {maintainer}  Sun, 09 Sep 2001 01:46:40 +0000
"""
# What Python keeps of the modules that root has run is of no package.
PRERM = f"""#!/bin/sh
set -e
rm -f /usr/lib/python3/dist-packages/__pycache__/zebludor.*.pyc
find /{ROOM} -depth -type d -name __pycache__ -exec rm -rf {{}} +
"""
COPYRIGHT = """Format: https://www.debian.org/doc/packaging-manuals/copyright-format/1.0/
Upstream-Name: zebludor

Files: *
Copyright: the developers of Zebludor
License: Expat or Apache-2.0

License: Expat
{mit}

License: Apache-2.0
 On Debian systems the text is in /usr/share/common-licenses/Apache-2.0.
"""
PACKAGE = re.compile(r'^prefix=.*\nlibdir=.*\nincludedir=.*\n')

Files = dict[str, tuple[bytes, bool]]


def name(version: str, machine: Machine = AMD64) -> str:
    """The package's file name."""
    return f'zebludor_{version}_{machine[0]}.deb'


def packed(octets: bytes) -> bytes:
    """A file as gzip packs it, without a name or time."""
    written = io.BytesIO()
    with gzip.GzipFile('', 'wb', 9, written, mtime=0) as file:
        file.write(octets)
    return written.getvalue()


def stripped(machine: Machine, octets: bytes, *words: str) -> bytes:
    """A program or library without what only debuggers of it read."""
    with tempfile.TemporaryDirectory() as room:
        with open(f'{room}/it', 'wb') as file:
            file.write(octets)
        done = subprocess.run([f'{machine[2]}strip', '--enable-deterministic-archives', *words, f'{room}/it'], capture_output=True, text=True, check=False)
        if done.returncode:
            raise Sorry(f'strip: {done.stderr.strip()}')
        with open(f'{room}/it', 'rb') as file:
            return file.read()


def for_debian(octets: bytes) -> bytes:
    """A script whose first line names the system's own interpreter."""
    octets = re.sub(rb'\A#!/usr/bin/env python3\n', b'#!/usr/bin/python3\n', octets)
    return re.sub(rb'\A#!/usr/bin/env bash\n', b'#!/bin/bash\n', octets)


def programs(found: Files, machine: Machine) -> Files:
    """The stored programs and the library, stripped, and PROVED, which tells so."""
    names = [name for name in MADE if f'stored/{name}' in found]
    made: Files = {f'stored/{each}': (stripped(machine, found[f'stored/{each}'][0], '--remove-section=.comment'), each in PROGRAMS) for each in names}
    said = ''.join(f'changed {each} {hashlib.sha256(made[f"stored/{each}"][0]).hexdigest()}\n' for each in names)
    return made | {'stored/PROVED': (found['stored/PROVED'][0] + said.encode(), False)}


def library_files(found: Files, machine: Machine) -> Files:
    """The libraries for C, with what pkg-config and CMake read."""
    made, folder = Files(), machine[1]
    for path, (octets, _) in found.items():
        short = os.path.basename(path)
        if path.endswith('.a'):
            made[f'{folder}/{short}'] = stripped(machine, octets, '--strip-debug'), False
        elif path.endswith('.pc'):
            heads = f'prefix=/usr\nlibdir=/{folder}\nincludedir=/usr/include\n'
            made[f'{folder}/pkgconfig/{short}'] = PACKAGE.sub(heads, octets.decode()).encode(), False
        elif path.endswith('.cmake') and path.startswith('lib/'):
            made[f'{folder}/{path.removeprefix("lib/")}'] = octets, False
    return made


def share_files(found: Files, version: str, maintainer: str) -> Files:
    """Pages for man, completions, licences and changes."""
    made: Files = {}
    for page in ('zebludor', *PROGRAMS, *manual.names()):
        short = page if page in ('zebludor', *PROGRAMS) else f'zebludor-{page}'
        made[f'usr/share/man/man1/{short}.1.gz'] = packed(manual.page(page).encode()), False
    made['usr/share/bash-completion/completions/zebludor'] = completions.bash().encode(), False
    made['usr/share/zsh/vendor-completions/_zebludor'] = completions.zsh().encode(), False
    made['usr/share/fish/vendor_completions.d/zebludor.fish'] = completions.fish().encode(), False
    mit = found['LICENSE-MIT'][0].decode().strip().partition('\n\n')[2]
    text = textwrap.indent(mit, ' ', lambda line: True).replace('\n \n', '\n .\n')
    made[f'{DOCS}/copyright'] = COPYRIGHT.format(mit=text).encode(), False
    if maintainer == MAINTAINER:
        made['usr/share/lintian/overrides/zebludor'] = OVERRIDES.encode(), False
    made[f'{DOCS}/changelog.gz'] = packed(CHANGES.format(version=version, maintainer=maintainer).encode()), False
    return made


def links() -> dict[str, str]:
    """The package's links, and where they lead."""
    made = {f'usr/bin/{each}': f'../lib/zebludor/{each}' for each in PROGRAMS} | {'usr/bin/zebludor': '../lib/zebludor/tools/zebludor'}
    made |= {f'usr/share/bash-completion/completions/{each}': 'zebludor' for each in PROGRAMS}
    made['usr/lib/python3/dist-packages/zebludor.py'] = '../../zebludor/python/zebludor.py'
    made['usr/include/zebludor.h'] = '../lib/zebludor/c/zebludor.h'
    made |= {f'{ROOM}/{each}': 'pcboard' for each in PROGRAMS[1:]}
    return made | {f'{DOCS}/{each}': f'../../../lib/zebludor/{each}' for each in LINKED}


def tar_of(files: Files, to: dict[str, str]) -> bytes:
    """Files, links and the folders that they are in, as tar and gzip pack them, root's."""
    folders = {folder for each in (*files, *to) for folder in above(each)}
    written = io.BytesIO()
    with tarfile.open(fileobj=written, mode='w', format=tarfile.GNU_FORMAT) as whole:
        for path in sorted({*files, *to, *folders}):
            entry = tarfile.TarInfo(f'./{path}' if path else './')
            entry.mtime, entry.uname, entry.gname = TIME, 'root', 'root'
            octets, is_program = files.get(path, (b'', True))
            entry.type = tarfile.REGTYPE if path in files else tarfile.SYMTYPE if path in to else tarfile.DIRTYPE
            entry.mode = 0o777 if path in to else 0o755 if is_program else 0o644
            entry.size, entry.linkname = len(octets), to.get(path, '')
            whole.addfile(entry, io.BytesIO(octets))
    return packed(written.getvalue())


def above(path: str) -> list[str]:
    """The folders that a file is in, up to the topmost, which is empty."""
    return [path[:at] for at in range(len(path)) if path[at] == '/'] + ['']


def ar_of(parts: dict[str, bytes]) -> bytes:
    """The parts in one file, as ar has them."""
    made = b'!<arch>\n'
    for short, octets in parts.items():
        made += f'{short:<16}{TIME:<12}{0:<6}{0:<6}{"100644":<8}{len(octets):<10}`\n'.encode() + octets + b'\n' * (len(octets) % 2)
    return made


def made(found: Files, version: str, maintainer: str, machine: Machine = AMD64) -> bytes:
    """The package of a release's files."""
    elsewhere = ('SHA256SUMS', *PROGRAMS[1:], *(path for path in found if path.startswith('lib/') and path.endswith(('.a', '.pc', '.cmake'))))
    kept = {path: each for path, each in found.items() if path not in elsewhere} | programs(found, machine)
    files = {f'{ROOM}/{path}': (for_debian(octets), is_program) for path, (octets, is_program) in kept.items()}
    files |= library_files(found, machine) | share_files(found, version, maintainer)
    size = sum(-(-len(octets) // 1024) for octets, _ in files.values())
    sums = ''.join(f'{hashlib.md5(octets, usedforsecurity=False).hexdigest()}  {path}\n' for path, (octets, _) in sorted(files.items()))
    control: Files = {
        'control': (CONTROL.format(architecture=machine[0], version=version, maintainer=maintainer, size=size).encode(), False),
        'md5sums': (sums.encode(), False),
        'prerm': (PRERM.encode(), True),
    }
    return ar_of({'debian-binary': b'2.0\n', 'control.tar.gz': tar_of(control, {}), 'data.tar.gz': tar_of(files, links())})
