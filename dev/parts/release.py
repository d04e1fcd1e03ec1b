"""What a release has, what has to be there for it, and its archive, wheel, Debian package, extension of VS Code and Containerfile, whose
bytes are the same whenever they are made of the same files. For another target than x86-64 Linux with glibc it has what dev/build made
for that, and is packed as users of that system get things."""
from __future__ import annotations

import gzip
import hashlib
import io
import os
import re
import shutil
import subprocess
import tarfile
from dataclasses import replace
from typing import Iterator

from parts import debian, libraries, targets, vsix, wheel
from parts.book import Book, text_of
from parts.book_page import page_of
from parts.definitions import Definitions
from parts.libraries import LIBRARIES
from toolbox import proved
from toolbox.command import Sorry
from toolbox.crates import TOP, Crates
from toolbox.present import LIBRARY, MADE
from toolbox.proved import PROGRAMS, STORED, Made, Proved
from toolbox.sources import sum_of, sum_of_sources

NATIVE = 'x86_64-linux'
# For each target: its platform in the archive's name, and the wheel's tag, if there is a wheel.
PACKED = {
    'aarch64': ('aarch64-linux', 'py3-none-manylinux_2_17_aarch64'),
    'musl': ('x86_64-linux-musl', ''),
    'windows': ('x86_64-windows', 'py3-none-win_amd64'),
    'macos-arm64': ('arm64-macos', 'py3-none-macosx_11_0_arm64'),
    'macos-x86_64': ('x86_64-macos', 'py3-none-macosx_11_0_x86_64'),
}
NO_LAUNCHER = ('windows', 'macos-arm64', 'macos-x86_64')  # which come without Bash 4
STORED_FILES = tuple(f'stored/{program}' for program in PROGRAMS)
FILES = ('CHANGELOG.md', 'CONTRIBUTING.md', 'SECURITY.md', 'LICENSE-APACHE', 'LICENSE-MIT', 'README.md', 'VERSION', *PROGRAMS, *STORED_FILES, 'stored/PROVED')
FOLDERS = ('c', 'docs', 'editors', 'examples', 'python', 'services', 'tools', 'web')
MODULE = 'stored/zebludor.wasm'  # by which the desk's page runs the board
LIBRARY_CRATE = 'zebludor_program'  # whose shared library the tools load
LEFT_OUT = ('tools/test', 'tools/tests', 'editors/grammar', 'web/desk.html')  # which want the sources, or are made
TIME = 315532800  # of every file: the first second of 1980, the earliest that other kinds of archives have too
CONTAINER = """# Zebludor {version} for machines without Linux, as docs/install.md tells. In the folder that has it and {package}:
#   docker build -f Containerfile -t zebludor .
FROM docker.io/library/debian:bookworm-slim
COPY {package} /
RUN apt-get update \\
 && apt-get install -y --no-install-recommends /{package} gdb \\
 && rm -rf /{package} /var/lib/apt/lists/* \\
 && mkdir -m 1777 /work \\
 && useradd --uid 1000 --home-dir /work zebludor
USER 1000:1000
ENV HOME=/work
WORKDIR /work
EXPOSE 8800
CMD ["bash"]
"""


def version() -> str:
    """The version that is released."""
    with open(f'{TOP}/VERSION', encoding='ascii') as file:
        return file.read().strip()


def name(platform: str = NATIVE) -> str:
    """The name of the archive's folder."""
    return f'zebludor-{version()}-{platform}'


def archive_of(crates: Crates, crate: str) -> str:
    """Where a static library stands."""
    return f'{crates.folder(crate)}/{crates.made(crate)}'


def stored_library() -> list[str]:
    """The path of the stored library, if stored/PROVED tells of one."""
    record = proved.read(STORED)
    return [f'stored/{LIBRARY}'] if record and LIBRARY in record.made else []


def lacking(target: str | None = None) -> list[str]:
    """A sentence for each thing that a release wants and that isn't here, or isn't of the present sources, with what makes it so."""
    crates = Crates()
    if target:
        found = [f"{path} isn't there" for path in (*FILES, *FOLDERS) if not path.startswith('stored/') and not os.path.exists(f'{TOP}/{path}')]
        made = ((crate, f'{folder_of(crate, target)}/{file}') for crate, file in built(crates, target))
        found += filter(None, (of_built(crates, crate, path, f'dev/build {crate} --target {target} makes it') for crate, path in made))
        return found + [f"{path} isn't as it was committed; a release has what a commit has" for path in uncommitted()]
    found = [f"{path} isn't there" for path in (*FILES, *stored_library(), *FOLDERS) if not os.path.exists(f'{TOP}/{path}')]
    stored = [*PROGRAMS, *map(os.path.basename, stored_library())]
    found += filter(None, (*(of_program(crates, name) for name in stored), *(of_library(crates, library) for library in LIBRARIES)))
    found += [f'{command}, which makes libraries and packages, is not on the path' for command in ('cc', 'ar', 'strip') if not shutil.which(command)]
    return found + [f"{path} isn't as it was committed; a release has what a commit has" for path in uncommitted()]


def differs(record: Proved, made: Made, crates: Crates, crate: str) -> str | None:
    """What is amiss with the text PROVED of something that is made of a crate."""
    names = crates.below(crate)
    if made.sources != sum_of_sources(names):
        return 'it was made of other sources than are here'
    unknown = sorted(names - record.verdicts.keys())
    return f'its PROVED has no verdict of {", ".join(unknown)}' if unknown else None


def of_program(crates: Crates, program: str) -> str | None:
    """What is amiss with a stored program, or the library."""
    record = proved.read(STORED)
    made = record and record.of(f'{STORED}/{program}')
    renew = 'tools/test proves and builds one, and then dev/build --store renews it'
    if record is None or made is None:
        return f"stored/{program} isn't one of which stored/PROVED tells; {renew}"
    why = differs(record, made, crates, MADE[program])
    return why and f"stored/{program} isn't taken: {why}; {renew}"


def of_library(crates: Crates, crate: str) -> str | None:
    """What is amiss with a static library."""
    return of_built(crates, crate, archive_of(crates, crate), f'dev/build {crate} proves and builds it, and so does tools/test')


def of_built(crates: Crates, crate: str, path: str, build: str) -> str | None:
    """What is amiss with a file that was built of a crate, as `build` tells."""
    short = os.path.relpath(path, TOP)
    if not os.path.isfile(path):
        return f"{short} isn't there; {build}"
    record, stored = proved.read(os.path.dirname(path)), proved.read(STORED)
    made = record and record.of(path)
    if record is None or made is None:
        return f'nothing tells what {short} was made of; {build}'
    why = differs(record, made, crates, crate)
    if not why and stored and (record.kit, record.logic) != (stored.kit, stored.logic):
        why = f'{record.kit} made it, and {stored.kit} the stored programs'
    return why and f"{short} isn't taken: {why}; {build}"


def built(crates: Crates, target: str) -> list[tuple[str, str]]:
    """The programs and libraries for a target: of which crate each is, and its file."""
    return [(crate, file) for crate in (*PROGRAMS, *LIBRARIES) for file in targets.files_of(crates, crate, target)]


def folder_of(crate: str, target: str) -> str:
    """Where dev/build puts what it makes of a crate for a target."""
    return f'{TOP}/crates/{crate}/out/{target}'


def place_of(crate: str, file: str) -> str:
    """Where a file for a target stands in a release: with the programs, if the tools load it, else with the libraries for C."""
    return f'stored/{file}' if crate in PROGRAMS or crate == LIBRARY_CRATE and not file.endswith('.a') else f'lib/{file}'


def uncommitted() -> list[str]:
    """The files of a release that are changed or new since the last commit, where this is a clone."""
    if not os.path.exists(f'{TOP}/.git'):
        return []
    words = ['git', 'status', '--porcelain', '-z', '--untracked-files=all', '--no-renames', '--', *FILES, *stored_library(), *FOLDERS]
    try:
        status = subprocess.run(words, cwd=TOP, capture_output=True, text=True, check=False)
    except OSError as error:
        raise Sorry(f"git can't be started: {error.strerror}") from None
    if status.returncode:
        raise Sorry(f'git status: {status.stderr.strip()}')
    return [path for path in (entry[3:] for entry in status.stdout.split('\0')) if path and not is_left_out(path)]


def is_left_out(path: str) -> bool:
    """Whether a path is of no release."""
    parts = path.split('/')
    return any(part.startswith('.') or part in ('__pycache__', 'out', 'target') for part in parts) or any(
        path == left_out or path.startswith(f'{left_out}/') for left_out in LEFT_OUT
    )


def paths(target: str | None = None) -> list[str]:
    """The files that a release has of the repository."""
    inside = (os.path.relpath(f'{folder}/{file}', TOP) for top in FOLDERS for folder, _, files in os.walk(f'{TOP}/{top}') for file in files)
    module = filter(lambda path: os.path.isfile(f'{TOP}/{path}'), (MODULE,))
    stored = () if target else (*STORED_FILES, 'stored/PROVED', *stored_library())
    whole = (path for path in FILES if not path.startswith('stored/') and not (target in NO_LAUNCHER and path in PROGRAMS))
    return [*whole, *stored, *module, *(path for path in inside if not is_left_out(path))]


def verdicts_of(crates: Crates) -> str:
    """The text RELEASE: the version, and a text as PROVED of all that was built, by its path."""
    stored = proved.read(STORED)
    assert stored
    whole = Proved(stored.kit, stored.logic, {f'stored/{name}': stored.made[name] for name in [*PROGRAMS, *map(os.path.basename, stored_library())]}, {})
    for crate in LIBRARIES:
        library = proved.read(os.path.dirname(archive_of(crates, crate)))
        assert library
        whole.made.update((f'lib/{name}', made) for name, made in library.made.items())
        whole.verdicts.update(library.verdicts)
    whole.verdicts.update(stored.verdicts)
    return f'zebludor {version()} {NATIVE}\n{whole.text()}'


def record_of(crates: Crates, target: str) -> Proved:
    """A text as PROVED of all that was built for a target, by its path in the release."""
    found = {crate: proved.read(folder_of(crate, target)) for crate in (*PROGRAMS, *LIBRARIES)}
    records = {crate: record for crate, record in found.items() if record}
    first, verdicts = records[PROGRAMS[0]], {name: line for record in records.values() for name, line in record.verdicts.items()}
    made = {place_of(crate, file): records[crate].made[file] for crate, file in built(crates, target)}
    of_targets = dict.fromkeys(record.target for record in records.values())
    stored, page = proved.read(STORED), os.path.basename(MODULE)
    if stored and page in stored.made:
        made[MODULE] = stored.made[page]
        of_targets |= dict.fromkeys(re.findall(r'target wasm .*\n(?:trusted .*\n)*', stored.target))
    return Proved(first.kit, first.logic, made, verdicts, ''.join(of_targets))


def of_the_target(crates: Crates, target: str) -> dict[str, tuple[bytes, bool]]:
    """What dev/build made for a target, with PROVED beside the programs, and RELEASE."""
    found = {place_of(crate, file): (read(f'{folder_of(crate, target)}/{file}'), crate in PROGRAMS) for crate, file in built(crates, target)}
    whole = record_of(crates, target)
    stored = {path.removeprefix('stored/'): made for path, made in whole.made.items() if path.startswith('stored/')}
    found['stored/PROVED'] = replace(whole, made=stored).text().encode(), False
    found['RELEASE'] = f'zebludor {version()} {PACKED[target][0]}\n{whole.text()}'.encode(), False
    return found


def read(path: str) -> bytes:
    """What a file holds."""
    with open(path, 'rb') as file:
        return file.read()


def contents(target: str | None = None) -> dict[str, tuple[bytes, bool]]:
    """All files of a release by their paths: what each holds, and whether it may be started."""
    crates = Crates()
    found = {path: (read(f'{TOP}/{path}'), os.access(f'{TOP}/{path}', os.X_OK)) for path in paths(target)}
    if target in (None, 'aarch64'):
        archives = {crate: f'{folder_of(crate, target)}/lib{crate}.a' if target else archive_of(crates, crate) for crate in LIBRARIES}
        made = libraries.made(archives, version(), 'aarch64-linux-gnu-' if target else '')
        found |= {f'lib/{path}': (octets, False) for path, octets in made.items()}
    if target:
        found |= of_the_target(crates, target)
    for path, (octets, _) in found.items():
        if path.endswith('.md'):
            found[path] = linked(path, octets.decode(), found).encode(), False
    if not target:
        found['RELEASE'] = verdicts_of(crates).encode(), False
    book = Book(Definitions(), ['program'])
    found['docs/book.html'], found['docs/book.txt'] = (page_of(book).encode(), False), (text_of(book).encode(), False)
    sums = (f'{hashlib.sha256(octets).hexdigest()}  {path}\n' for path, (octets, _) in sorted(found.items()))
    found['SHA256SUMS'] = ''.join(sums).encode(), False
    return found


def linked(page: str, text: str, found: dict[str, tuple[bytes, bool]]) -> str:
    """A page's text, in which the links into what only a clone has are plain words."""
    there = {*found, *(folder for path in found for folder in folders_of(path))}
    made = {'RELEASE', 'SHA256SUMS'}

    def kept(link: re.Match[str]) -> str:
        path = link[2].partition('#')[0]
        target = os.path.normpath(os.path.join(os.path.dirname(page), path))
        return link[0] if not path or ':' in path or target in there or target in made else link[1]

    parts = re.split(r'(^```.*?^```)', text, flags=re.M | re.S)
    return ''.join(part if part.startswith('```') else re.sub(r'(?<!!)\[([^][]*)\]\(([^()\s]+)\)', kept, part) for part in parts)


def folders_of(path: str) -> Iterator[str]:
    """The folders that a file is in, up to the archive's own, which is empty."""
    while path:
        path = os.path.dirname(path)
        yield path


def members(found: dict[str, tuple[bytes, bool]], top: str) -> Iterator[tuple[tarfile.TarInfo, bytes]]:
    """The archive's entries, folders too, by their names, without owner or time of their own."""
    for path in sorted({*found, *(folder for file in found for folder in folders_of(file))}):
        entry = tarfile.TarInfo(f'{top}/{path}'.rstrip('/'))
        entry.mtime = TIME
        octets, is_program = found.get(path, (b'', True))
        entry.type, entry.size = (tarfile.REGTYPE if path in found else tarfile.DIRTYPE), len(octets)
        entry.mode = 0o755 if is_program else 0o644
        yield entry, octets


def archive(found: dict[str, tuple[bytes, bool]], top: str) -> bytes:
    """The archive."""
    written = io.BytesIO()
    with gzip.GzipFile('', 'wb', 9, written, mtime=0) as packed, tarfile.open(fileobj=packed, mode='w', format=tarfile.USTAR_FORMAT) as whole:
        for entry, octets in members(found, top):
            whole.addfile(entry, io.BytesIO(octets))
    return written.getvalue()


def packed(target: str | None, maintainer: str) -> dict[str, bytes]:
    """All that a release is got as, by the names of the files."""
    found, now = contents(target), version()
    if target:
        platform, tag = PACKED[target]
        top = name(platform)
        made = {f'{top}.zip': wheel.zipped({f'{top}/{path}': each for path, each in sorted(found.items())})} if target == 'windows' else {}
        made |= {} if made else {f'{top}.tar.gz': archive(found, top)}
        made |= {wheel.name(now, tag): wheel.made(found, now, tag)} if tag else {}
        return made | ({debian.name(now, debian.ARM64): debian.made(found, now, maintainer, debian.ARM64)} if target == 'aarch64' else {})
    package = debian.name(now)
    return {
        f'{name()}.tar.gz': archive(found, name()),
        wheel.name(now): wheel.made(found, now),
        package: debian.made(found, now, maintainer),
        vsix.name(now): vsix.made(found, now),
        'Containerfile': CONTAINER.format(version=now, package=package).encode(),
    }


def make(folder: str, maintainer: str, target: str | None = None) -> list[tuple[str, str]]:
    """Writes all of them into a folder, or none of them; returns their paths and their SHA-256."""
    made = packed(target, maintainer)
    for short, octets in made.items():
        with open(f'{folder}/{short}.new', 'wb') as file:
            file.write(octets)
    for short in made:
        os.replace(f'{folder}/{short}.new', f'{folder}/{short}')
    return [(f'{folder}/{short}', sum_of(f'{folder}/{short}')) for short in made]
