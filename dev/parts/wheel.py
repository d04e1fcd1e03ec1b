"""A release as a wheel: all of it in the folder zebludor_files, the module zebludor beside that, and the commands pcboard, pcprobe,
pcmasm and zebludor."""
from __future__ import annotations

import base64
import hashlib
import io
import zipfile

TAG = 'py3-none-manylinux_2_34_x86_64'  # the programs need glibc 2.34
SYSTEMS = {'linux': 'POSIX :: Linux', 'win': 'Microsoft :: Windows', 'macosx': 'MacOS'}  # by a word of the tag
TIME = (1980, 1, 1, 0, 0, 0)
FILES = 'zebludor_files'
START = '''"""The commands pcboard, pcprobe, pcmasm and zebludor."""
import functools
import os
import subprocess
import sys

TOP = os.path.join(os.path.dirname(os.path.realpath(__file__)), 'zebludor_files')


def _begin():
    """Tells the tools how the user has started them: by name alone where that is found on the path."""
    folder = os.path.dirname(sys.argv[0])
    paths = os.environ.get('PATH', '').split(os.pathsep)
    is_found = any(path and os.path.isdir(path) and os.path.samefile(path, folder or '.') for path in paths)
    os.environ['ZEBLUDOR_STARTED'] = 'zebludor' if is_found else os.path.join(folder, 'zebludor')


def _become(*words):
    """Starts a command in the place of this one; on Windows, which has no such call, beside it."""
    _begin()
    if os.name == 'nt':
        sys.exit(subprocess.call(words))
    os.execv(words[0], words)


def _program(name):
    """The launcher of a program, or, where there is none, the program itself."""
    launcher = f'{TOP}/{name}'
    stored = f'{TOP}/stored/{name}' + '.exe' * (os.name == 'nt')
    _become(launcher if os.path.exists(launcher) else stored, *sys.argv[1:])


pcboard, pcprobe, pcmasm = (functools.partial(_program, name) for name in ('pcboard', 'pcprobe', 'pcmasm'))


def zebludor():
    """The command over the tools."""
    _become(sys.executable, f'{TOP}/tools/zebludor', *sys.argv[1:])
'''
COMMANDS = '[console_scripts]\n' + ''.join(f'{each} = zebludor_start:{each}\n' for each in ('pcboard', 'pcprobe', 'pcmasm', 'zebludor'))
METADATA = """Metadata-Version: 2.1
Name: zebludor
Version: {version}
Summary: Proved emulator of the IBM PC 5150, with assembler and debugger
License: MIT OR Apache-2.0
Requires-Python: >=3.10
Classifier: Environment :: Console
Classifier: License :: OSI Approved :: Apache Software License
Classifier: License :: OSI Approved :: MIT License
Classifier: Operating System :: {system}
Classifier: Topic :: System :: Emulators
"""


def name(version: str, tag: str = TAG) -> str:
    """The wheel's file name."""
    return f'zebludor-{version}-{tag}.whl'


def digest(octets: bytes) -> str:
    """A file's sum as RECORD has it."""
    return 'sha256=' + base64.urlsafe_b64encode(hashlib.sha256(octets).digest()).rstrip(b'=').decode()


def zipped(files: dict[str, tuple[bytes, bool]]) -> bytes:
    """Files as zip packs them, without times of their own."""
    written = io.BytesIO()
    with zipfile.ZipFile(written, 'w') as whole:
        for path, (octets, is_program) in files.items():
            entry = zipfile.ZipInfo(path, TIME)
            entry.create_system, entry.external_attr = 3, (0o100755 if is_program else 0o100644) << 16
            whole.writestr(entry, octets, zipfile.ZIP_DEFLATED, 9)
    return written.getvalue()


def made(found: dict[str, tuple[bytes, bool]], version: str, tag: str = TAG) -> bytes:
    """The wheel of a release's files."""
    info, system = f'zebludor-{version}.dist-info', next(each for word, each in SYSTEMS.items() if word in tag)
    files = {f'{FILES}/{path}': each for path, each in sorted(found.items())}
    files['zebludor.py'] = found['python/zebludor.py'][0], False
    files['zebludor_start.py'] = START.encode(), False
    files |= {f'{info}/{each}': (found[each][0], False) for each in ('LICENSE-APACHE', 'LICENSE-MIT')}
    files[f'{info}/METADATA'] = METADATA.format(version=version, system=system).encode(), False
    files[f'{info}/WHEEL'] = f'Wheel-Version: 1.0\nGenerator: dev/release\nRoot-Is-Purelib: false\nTag: {tag}\n'.encode(), False
    files[f'{info}/entry_points.txt'] = COMMANDS.encode(), False
    record = ''.join(f'{path},{digest(octets)},{len(octets)}\n' for path, (octets, _) in files.items())
    files[f'{info}/RECORD'] = f'{record}{info}/RECORD,,\n'.encode(), False
    return zipped(files)
