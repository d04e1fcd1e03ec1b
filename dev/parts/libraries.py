"""What other languages load of the two static libraries: shared ones, a module for Verilog's VPI, a library for its DPI, and what
pkg-config and CMake read. A compiler of C makes them, with nothing of its own files, names or times in them."""
from __future__ import annotations

import os
import re
import subprocess
import tempfile

from toolbox.command import Sorry
from toolbox.crates import TOP

LIBRARIES = {
    'zebludor_chips': 'timer, interrupt controller and parallel port of an IBM PC 5150',
    'zebludor_program': 'an IBM PC 5150: runs, sessions, and the programs pcboard and pcprobe',
}
DPI, MODULE = 'zebludor_dpi', 'zebludor.vpi'
WHAT = LIBRARIES | {DPI: 'the chips and sessions of an IBM PC 5150 for SystemVerilog'}
MEMORY = 'zebludor_memory'  # c/memory.c, by which what takes memory calls malloc, realloc and free
# The archives that each name of pkg-config and CMake stands for, in the order in which a linker needs them.
ARCHIVES = {
    'zebludor_chips': ('zebludor_chips',),
    'zebludor_program': ('zebludor_program', MEMORY),
    DPI: (DPI, 'zebludor_chips', 'zebludor_program', MEMORY),
}
C = ['-std=c11', '-O2', '-fPIC', f'-I{TOP}/c']
HIDDEN = '-fvisibility=hidden'  # of what is for Verilog: names of its own are nobody else's
SHARED = ['-shared', '-nostartfiles', '-s', '-Wl,--build-id=none']
PACKAGE = """prefix=${{pcfiledir}}/../..
libdir=${{prefix}}/lib
includedir=${{prefix}}/c

Name: {name}
Description: {what}
Version: {version}
Cflags: -I${{includedir}}
Libs: -L${{libdir}} {libraries}
"""


def made_by(words: list[str], what: str) -> None:
    """Has a compiler's command make something."""
    try:
        done = subprocess.run(words, capture_output=True, text=True, check=False)
    except OSError as error:
        raise Sorry(f"{words[0]} can't be started: {error.strerror}") from None
    if done.returncode:
        raise Sorry(f'{words[0]} makes no {what}: {done.stderr.strip()[-500:]}')


class Room:
    """A folder in which the libraries are made, of the two static ones, by the system's compiler, or by tools whose names begin so."""

    def __init__(self, path: str, archives: dict[str, str], tools: str) -> None:
        self.path, self.archives, self.cc, self.ar = path, dict(archives), f'{tools}gcc' if tools else 'cc', f'{tools}ar'
        self.archives[MEMORY] = self.archive(MEMORY, 'memory.c')
        self.archives[DPI] = self.archive(DPI, 'verilog/dpi.c', 'verilog/board.c')

    def objects(self, *sources: str) -> list[str]:
        """What is compiled of sources below c/."""
        made = [f'{self.path}/{os.path.basename(source)}.o' for source in sources]
        for source, to in zip(sources, made):
            hidden = [HIDDEN] if source.startswith('verilog/') else []
            made_by([self.cc, *C, *hidden, '-c', '-o', to, f'{TOP}/c/{source}'], f'object of c/{source}')
        return made

    def archive(self, name: str, *sources: str) -> str:
        """A static library of sources below c/."""
        path = f'{self.path}/lib{name}.a'
        made_by([self.ar, 'rcD', path, *self.objects(*sources)], f'library of c/{sources[0]}')
        return path

    def whole(self, *names: str) -> list[str]:
        """The words that have a linker take all of these archives."""
        return ['-Wl,--whole-archive', *(self.archives[name] for name in names), '-Wl,--no-whole-archive']

    def shared(self, name: str, *words: str) -> bytes:
        """A shared library or module."""
        path = f'{self.path}/{name}'
        made_by([self.cc, *SHARED, f'-Wl,-soname,{name}', '-o', path, *words], f'shared library {name}')
        return bytes_of(path)


def bytes_of(path: str) -> bytes:
    """What a file holds."""
    with open(path, 'rb') as file:
        return file.read()


def package(name: str, version: str) -> bytes:
    """What pkg-config reads of a library. The static ones are named, since shared ones stand beside them."""
    libraries = ' '.join(f'-l:lib{archive}.a' for archive in ARCHIVES[name])
    return PACKAGE.format(name=name, what=WHAT[name], version=version, libraries=libraries).encode()


def cmake(version: str) -> dict[str, bytes]:
    """What CMake's find_package reads."""
    with open(f'{TOP}/c/cmake/zebludor-config-version.cmake', encoding='ascii') as file:
        text = re.sub(r'(?<=set\(PACKAGE_VERSION ")[^"]*', version, file.read())
    return {'zebludor-config.cmake': bytes_of(f'{TOP}/c/cmake/zebludor-config.cmake'), 'zebludor-config-version.cmake': text.encode()}


def made(archives: dict[str, str], version: str, tools: str = '') -> dict[str, bytes]:
    """All files of the folder lib, by their paths in it: `archives` has where the two static libraries are."""
    with tempfile.TemporaryDirectory() as path:
        room = Room(path, archives, tools)
        found = {f'lib{name}.a': bytes_of(archive) for name, archive in room.archives.items()}
        complete = '-Wl,--no-undefined'
        for name in LIBRARIES:
            beside = [room.archives[each] for each in ARCHIVES[name][1:]]
            found[f'lib{name}.so'] = room.shared(f'lib{name}.so', *room.whole(name), *beside, complete)
        others = [room.archives['zebludor_program'], room.archives[MEMORY]]
        found[f'lib{DPI}.so'] = room.shared(f'lib{DPI}.so', *room.whole(DPI, 'zebludor_chips'), *others, complete)
        # The simulator that loads it has VPI's own calls.
        found[MODULE] = room.shared(
            MODULE, *room.objects('verilog/vpi.c', 'verilog/board.c'), room.archives['zebludor_chips'], *others, '-Wl,--exclude-libs,ALL'
        )
    found |= {f'pkgconfig/{name}.pc': package(name, version) for name in WHAT}
    return found | {f'cmake/zebludor/{name}': text for name, text in cmake(version).items()}
