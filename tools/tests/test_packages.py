"""The wheel, the Debian package and VS Code's extension of dev/release, installed and used: the wheel in a venv, the package in a folder, and
in a bare Debian where ZEBLUDOR_CHROOT names one, as root; the extension as VS Code unpacks it; and the Containerfile."""
from __future__ import annotations

import email.parser
import hashlib
import io
import json
import os
import re
import shutil
import signal
import stat
import subprocess
import sys
import tarfile
import unittest
import urllib.request
import zipfile
from typing import Any, Callable
from xml.etree import ElementTree

from parts import debian, release, wheel
from tests.desk_engine import named_library
from tests.support import SECONDS, TOP, but_progress, is_there, not_run
from tests.test_dap import Client
from tests.test_release import MADE, PYTHON, RUN, Unpacked, shown_by_readme
from toolbox import manual

WHEEL, PACKAGE, EXTENSION = MADE[1:4]
SCHEMAS = {'manifest': '{http://schemas.microsoft.com/developer/vsx-schema/2011}', 'types': '{http://schemas.openxmlformats.org/package/2006/content-types}'}
README = re.compile(r'^```\n\./pcboard run .*\n```\n\nprints\n\n```\n(.*?)^```', re.M | re.S)
GDB = ('--batch', '-ex', 'stepi', '-ex', 'info registers ax')
C = """#include <zebludor.h>
int main(void) { zebludor_pit pit = {0}; zebludor_pit_power_on(&pit); return 0; }
"""


class Installed(Unpacked):
    """What every way of installing has to give."""

    what = ''

    def command(self, *words: str, given: str = '', status: int = 0) -> str:
        """What a command prints, in a folder of the user's own."""
        ran = self.runs(*words, given=given)
        self.assertEqual(ran.returncode, status, f'{words}: {ran.stdout}{ran.stderr}')
        self.assertNotIn('Traceback', ran.stderr)
        return ran.stdout

    def environment(self) -> dict[str, str]:
        """What a user has in the environment."""
        raise NotImplementedError

    def runs(self, *words: str, given: str = '') -> subprocess.CompletedProcess[str]:
        """A command of what is installed."""
        return subprocess.run(words, input=given, capture_output=True, text=True, check=False, env=self.environment(), cwd=self.room, timeout=SECONDS)

    def check_commands(self, examples: str, printed: str) -> None:
        """README's first command, and a tool of each kind."""
        hello = [f'{examples}/hello.asm', f'{examples}/hello.json']
        self.assertEqual(self.command('pcboard', 'run', *hello).rstrip(), printed.rstrip())
        self.assertIn('processor running busy 0', self.command('pcprobe', *hello, given='chips\n'))
        self.assertIn('1 1 2 3 5 8 13 21', self.command('zebludor', 'try', f'{examples}/fibonacci.asm'))
        self.assertIn('clock 100: F000:0017', self.command('zebludor', 'dbg', *hello, given='go 100\nquit\n'))
        self.assertIn('[[2000,30],[2500,158]]', self.command('zebludor', 'keys', 'a'))
        self.assertIn('STOSW', self.command('zebludor', 'trace', *hello))
        self.assertIn('(zebludor keys --help)', self.runs('zebludor', 'keys').stderr)
        self.assertIn('HI', self.command('zebludor', 'why', 'run', *hello))
        for name in manual.names():
            self.assertNotIn('tools/', self.command('zebludor', name, '--help'), name)

    def check_readme(self, examples: str, folder: str) -> None:
        """README's other commands, with the tools by the names that they have here, in a folder that is made and removed."""
        self.command('sh', '-c', f'mkdir {folder} && ln -s {examples} {folder}/examples')
        shown = shown_by_readme('zebludor ', 'pcboard')
        self.assertGreater(len(shown), 2)
        for line, typed, printed in shown:
            out = self.command('sh', '-c', f'cd {folder} && {{ {line}; }} 2>&1', given=typed)
            self.assertEqual(but_progress(out).rstrip(), printed, line)
        self.command('rm', '-r', folder)

    def by_gdb(self, folder: str) -> None:
        """gdb over it, if gdb is there."""
        if is_there('gdb', f'gdb over the {self.what}', 'gdb'):
            hello = [f'{folder}/examples/{each}' for each in ('hello.asm', 'hello.json')]
            self.assertRegex(self.command('zebludor', 'gdb', *hello, *GDB), r'\nax +0x')

    def desk(self, folder: str) -> None:
        """The desk gives its page."""
        with subprocess.Popen(
            ['zebludor', 'desk', '--no-open', f'{folder}/examples/hello.asm'],
            stdout=subprocess.PIPE,
            stderr=subprocess.PIPE,
            text=True,
            env=self.environment() | named_library(self.room, False),  # an archive of stand-ins has none
            cwd=self.room,
        ) as process:
            assert process.stdout
            address = re.search(r'http://\S+', process.stdout.readline())
            try:
                assert address
                browser = urllib.request.build_opener(urllib.request.HTTPCookieProcessor())
                with browser.open(address[0], timeout=SECONDS) as page:
                    self.assertIn(b'<html', page.read())
                with browser.open(f'{address[0]}served.js', timeout=SECONDS) as module:
                    self.assertIn(b'start zebludor desk again', module.read())
            finally:
                process.send_signal(signal.SIGINT)
                process.communicate(timeout=SECONDS)

    def by_pytest(self, folder: str, module: str) -> None:
        """A test of one's own, if pytest is there."""
        if not is_there('pytest', f'pytest over the {self.what}', 'python3-pytest'):
            return
        self.file(
            'test_mine.py', f"import zebludor\n\ndef test_hi():\n    assert zebludor.run(open('{folder}/examples/hello.asm').read(), budget=100).text == 'HI'\n"
        )
        ran = subprocess.run(
            ['pytest', '-q', 'test_mine.py'],
            cwd=self.room,
            capture_output=True,
            text=True,
            check=False,
            env=os.environ | {'PYTHONPATH': module, 'HOME': self.room},
        )
        self.assertEqual(ran.returncode, 0, ran.stdout)


def printed_by_readme(found: dict[str, bytes]) -> str:
    """What README shows of its first command."""
    text = found['README.md'].decode()
    shown = README.search(text)
    assert shown
    return shown[1]


def dead_links(found: dict[str, bytes]) -> list[str]:
    """The links in pages that lead nowhere."""
    there = {*found, *('/'.join(each.split('/')[:at]) for each in found for at in range(1, each.count('/') + 1))}
    dead = []
    for page, octets in found.items():
        if page.endswith('.md'):
            text = re.sub(r'^```.*?^```', '', octets.decode(), flags=re.M | re.S)
            for link in re.findall(r'\]\(([^)\s#:]+)[^)]*\)', text):
                target = os.path.normpath(os.path.join(os.path.dirname(page), link))
                dead += [] if target in there else [f'{page}: {link}']
    return dead


class Archive(Installed):
    """The archive, whose folders are on the path."""

    what = 'archive'

    def environment(self) -> dict[str, str]:
        return {'PATH': f'{self.top}:{self.top}/tools:/usr/bin:/bin', 'HOME': self.room}

    def test_gdb_desk_and_pytest(self) -> None:
        self.top = self.unpacked()
        self.by_gdb(self.top)
        self.desk(self.top)
        self.by_pytest(self.top, f'{self.top}/python')


class Wheel(Installed):
    """The wheel."""

    what = 'wheel'

    def setUp(self) -> None:
        super().setUp()
        self.path = f'{self.room}/{WHEEL}'
        octets = self.octets(WHEEL)
        with open(self.path, 'wb') as file:
            file.write(octets)
        with zipfile.ZipFile(self.path) as whole:
            self.inside = {each: whole.read(each) for each in whole.namelist()}
            self.modes = {each.filename: each.external_attr >> 16 for each in whole.infolist()}

    def test_its_records(self) -> None:
        """Each file but the list itself is listed with its sum and size, and the names and tags agree."""
        info = f'zebludor-{release.version()}.dist-info'
        listed = [line.split(',') for line in self.inside[f'{info}/RECORD'].decode().splitlines()]
        self.assertEqual({each[0] for each in listed}, set(self.inside))
        for path, its_sum, size in listed[:-1]:
            self.assertEqual((its_sum, size), (wheel.digest(self.inside[path]), str(len(self.inside[path]))), path)
        self.assertEqual(listed[-1], [f'{info}/RECORD', '', ''])
        said = email.parser.Parser().parsestr(self.inside[f'{info}/METADATA'].decode())
        self.assertEqual((said['Name'], said['Version'], said['Requires-Python']), ('zebludor', release.version(), '>=3.10'))
        self.assertIn(f'Tag: {wheel.TAG}\n', self.inside[f'{info}/WHEEL'].decode())
        for path in ('pcboard', 'pcprobe', 'stored/pcboard', 'tools/zebludor'):
            self.assertEqual(self.modes[f'zebludor_files/{path}'], stat.S_IFREG | 0o755, path)

    def test_links_lead_somewhere(self) -> None:
        pages = {each.removeprefix('zebludor_files/'): octets for each, octets in self.inside.items() if each.startswith('zebludor_files/')}
        self.assertIn('docs/install.md', pages)
        self.assertEqual(dead_links(pages), [])

    def venv(self) -> str:
        """A venv that has it, or nothing where none can be made."""
        made = subprocess.run([sys.executable, '-m', 'venv', f'{self.room}/venv'], capture_output=True, text=True, check=False)
        if made.returncode:
            not_run('the wheel in a venv; apt install python3-venv')
            return ''
        pip = [f'{self.room}/venv/bin/pip', '--disable-pip-version-check', 'install', '--quiet', '--no-index', self.path]
        done = subprocess.run(pip, capture_output=True, text=True, check=False, env={'PATH': '/usr/bin:/bin', 'HOME': self.room})
        self.assertEqual((done.returncode, done.stdout), (0, ''), done.stderr)
        return f'{self.room}/venv'

    def environment(self) -> dict[str, str]:
        return {'PATH': f'{self.room}/venv/bin:/usr/bin:/bin', 'HOME': self.room}

    def test_in_a_venv(self) -> None:
        top = self.venv()
        if not top:
            return
        files = {each.removeprefix('zebludor_files/'): octets for each, octets in self.inside.items()}
        folder = os.path.dirname(self.command('zebludor', '--pages').strip())
        self.assertTrue(folder.startswith(f'{os.path.realpath(top)}/') and folder.endswith('/zebludor_files'), folder)
        self.check_commands(f'{folder}/examples', printed_by_readme(files))
        self.check_readme(f'{folder}/examples', f'{self.room}/work')
        self.assertEqual(self.command('python', '-c', PYTHON).split(), self.wanted().split())
        code = 'import zebludor, sys; print(zebludor.__version__, zebludor.run(open(sys.argv[1]).read(), budget=100).screen[0].strip())'
        self.assertEqual(self.command('python', '-c', code, f'{folder}/examples/hello.asm'), f'{release.version()} HI\n')
        self.assertIn('program stored/pcboard, proved elsewhere', self.command('zebludor', '--version'))
        ran = subprocess.run([f'{top}/bin/zebludor', 'keys'], capture_output=True, text=True, check=False, env={'PATH': '/usr/bin:/bin'})
        self.assertEqual(ran.stderr, f'keys: there is no text to type ({top}/bin/zebludor keys --help)\n')
        self.by_gdb(folder)
        self.desk(folder)
        self.by_pytest(folder, os.path.dirname(folder))
        self.command('pip', '--disable-pip-version-check', 'uninstall', '--quiet', '--yes', 'zebludor')
        left = [f'{each}/{name}' for each, _, names in os.walk(top) for name in names if 'zebludor' in f'{each}/{name}'.removeprefix(top)]
        self.assertEqual(left, [])

    def test_a_command_of_it_that_PCBOARD_names(self) -> None:
        """Leads back to the launcher, which counts as none."""
        if not self.venv():
            return
        environment = self.environment() | {'PCBOARD': f'{self.room}/venv/bin/pcboard'}
        self.command('pcboard', '--version')  # which says once where it was proved
        ran = subprocess.run(['pcboard', '--help'], capture_output=True, text=True, check=False, env=environment, timeout=SECONDS)
        self.assertEqual((ran.returncode, ran.stdout.splitlines()[0][:21]), (0, 'An IBM PC 5150 board.'))


def parts_of(octets: bytes) -> dict[str, bytes]:
    """The parts of a file that ar has packed."""
    found, at = {}, 8
    while at < len(octets):
        head, size = octets[at : at + 60].decode(), int(octets[at + 48 : at + 58])
        found[head[:16].strip()] = octets[at + 60 : at + 60 + size]
        at += 60 + size + size % 2
    return found


class Package(Installed):
    """The Debian package, unpacked, or in a bare Debian."""

    def setUp(self) -> None:
        super().setUp()
        octets = self.octets(PACKAGE)
        self.path = f'{self.room}/{PACKAGE}'
        with open(self.path, 'wb') as file:
            file.write(octets)
        self.assertEqual(octets[:8], b'!<arch>\n')
        self.parts = parts_of(octets)

    def opened(self, part: str) -> tarfile.TarFile:
        return tarfile.open(fileobj=io.BytesIO(self.parts[part]))

    def content(self) -> dict[str, bytes]:
        """Its files below /usr/lib/zebludor."""
        found = {}
        with self.opened('data.tar.gz') as data:
            for each in data.getmembers():
                file = data.extractfile(each) if each.isfile() else None
                if file and each.name.startswith('./usr/lib/zebludor/'):
                    found[each.name.removeprefix('./usr/lib/zebludor/')] = file.read()
        return found

    def test_its_parts(self) -> None:
        self.assertEqual(list(self.parts), ['debian-binary', 'control.tar.gz', 'data.tar.gz'])
        self.assertEqual(self.parts['debian-binary'], b'2.0\n')
        with self.opened('control.tar.gz') as control:
            text = control.extractfile('./control')
            assert text
            said = email.parser.Parser().parsestr(text.read().decode())
            sums = control.extractfile('./md5sums')
            assert sums
            listed = dict(line.split('  ')[::-1] for line in sums.read().decode().splitlines())
        self.assertEqual((said['Package'], said['Version'], said['Architecture']), ('zebludor', release.version(), 'amd64'))
        with self.opened('data.tar.gz') as data:
            names = data.getnames()
            self.assertEqual(names, sorted(names))
            for each in data.getmembers():
                self.assertEqual((each.mtime, each.uid, each.gid, each.uname, each.gname), (debian.TIME, 0, 0, 'root', 'root'), each.name)
                file = data.extractfile(each) if each.isfile() else None
                if file:
                    self.assertEqual(listed.pop(each.name[2:]), hashlib.md5(file.read()).hexdigest())
                if each.issym():
                    target = os.path.normpath(os.path.join(os.path.dirname(each.name), each.linkname))
                    self.assertTrue(f'./{target}' in names, f'{each.name} leads to {each.linkname}')
        self.assertEqual(listed, {})
        self.assertEqual(sorted(os.path.basename(each) for each in names if each.startswith('./usr/bin/')), ['pcboard', 'pcmasm', 'pcprobe', 'zebludor'])
        for path in (
            *(f'bash-completion/completions/{each}' for each in ('pcboard', 'pcprobe', 'pcmasm', 'zebludor')),
            'zsh/vendor-completions/_zebludor',
            'fish/vendor_completions.d/zebludor.fish',
            'doc/zebludor/examples',
        ):
            self.assertIn(f'./usr/share/{path}', names)
        for path in (
            'include/zebludor.h',
            'lib/python3/dist-packages/zebludor.py',
            'lib/x86_64-linux-gnu/cmake/zebludor/zebludor-config.cmake',
            'lib/x86_64-linux-gnu/libzebludor_dpi.a',
            'lib/x86_64-linux-gnu/pkgconfig/zebludor_dpi.pc',
            'lib/zebludor/c/verilog/zebludor.sv',
            'lib/zebludor/c/zebludor-sys/build.rs',
            'lib/zebludor/lib/zebludor.vpi',
        ):
            self.assertIn(f'./usr/{path}', names)
        pages = {each.rpartition('/')[2] for each in names if '/man1/' in each}
        self.assertEqual(pages, {f'{each}.1.gz' for each in ('pcboard', 'pcprobe', 'pcmasm', 'zebludor', *(f'zebludor-{each}' for each in manual.names()))})

    def test_links_lead_somewhere(self) -> None:
        self.assertEqual(dead_links(self.content()), [])

    def test_unpacked(self) -> None:
        """Where dpkg isn't wanted: the tools beside each other, and the stripped program, which says so."""
        top = f'{self.room}/root'
        with self.opened('data.tar.gz') as data:
            data.extractall(top)
        environment = {'PATH': f'{top}/usr/bin:/usr/bin:/bin', 'HOME': self.room}
        shown = subprocess.run(['pcboard', '--version'], capture_output=True, text=True, check=True, env=environment).stdout
        self.assertIn('program stored/pcboard, proved elsewhere and changed by the package\n', shown)
        self.assertLess(os.path.getsize(f'{top}/usr/lib/zebludor/stored/pcboard'), os.path.getsize(f'{self.top}/stored/pcboard'))
        python = ['#!/usr/bin/python3\n'] * len(manual.names())
        heads = []
        for name in manual.names():
            with open(f'{top}/usr/lib/zebludor/tools/{name}', encoding='utf-8') as file:
                heads.append(file.readline())
        self.assertEqual(heads, python)
        ran = subprocess.run(['pcboard', 'run', *RUN.split()], cwd=f'{top}/usr/lib/zebludor', capture_output=True, text=True, check=True, env=environment)
        self.assertEqual(ran.stdout.rstrip(), printed_by_readme(self.content()).rstrip())

    def test_dpkg_and_lintian(self) -> None:
        looks: dict[str, Any] = {'capture_output': True, 'text': True, 'env': os.environ | {'TMPDIR': self.room}}  # not everyone may write to /tmp
        if is_there('dpkg-deb', "dpkg's look at the Debian package", 'dpkg'):
            said = subprocess.run(['dpkg-deb', '--info', self.path], check=True, **looks).stdout
            self.assertIn(' Package: zebludor\n', said)
            listed = subprocess.run(['dpkg-deb', '--contents', self.path], check=True, **looks).stdout
            self.assertIn(' ./usr/bin/zebludor -> ../lib/zebludor/tools/zebludor\n', listed)
        if is_there('lintian', 'lintian over the Debian package', 'lintian'):
            ran = subprocess.run(['lintian', '--fail-on', 'none', '--tag-display-limit', '0', self.path], check=False, **looks)
            errors = [line for line in ran.stdout.splitlines() if line.startswith('E:')]
            self.assertEqual((errors, ran.returncode), ([], 0), ran.stderr)

    def bare(self) -> str:
        """A bare Debian, where one is named and may be used."""
        folder = os.environ.get('ZEBLUDOR_CHROOT', '')
        if not folder or os.getuid() != 0:
            not_run(
                'the Debian package in a bare Debian; as root, debootstrap --variant=minbase --include=python3,gcc,libc6-dev,pkg-config,'
                'python3-pytest bookworm FOLDER makes one, to which apt-get adds gdb, and ZEBLUDOR_CHROOT=FOLDER names it'
            )
            return ''
        self.root = folder
        if not os.path.exists(f'{folder}/proc/self'):  # without which no command there has its standard input as a file
            subprocess.run(['mount', '-t', 'proc', 'proc', f'{folder}/proc'], check=True)
            self.addCleanup(subprocess.run, ['umount', f'{folder}/proc'], check=False)
        return folder

    def runs(self, *words: str, given: str = '') -> subprocess.CompletedProcess[str]:
        environment = {'PATH': '/usr/sbin:/usr/bin:/sbin:/bin', 'HOME': '/root', 'LC_ALL': 'C.UTF-8', 'DEBIAN_FRONTEND': 'noninteractive'}
        done = ['chroot', self.root, *words]
        return subprocess.run(done, input=given, capture_output=True, text=True, check=False, env=environment, timeout=SECONDS)

    def files(self) -> dict[str, Any]:
        """All files there, but for what dpkg and the system write of their own, as what Python keeps of gdb's modules."""
        found = {}
        for folder, folders, names in os.walk(self.root):
            folders[:] = [
                each
                for each in folders
                if f'{folder}/{each}'.removeprefix(self.root) not in ('/proc', '/sys', '/dev', '/var/lib/dpkg', '/var/log', '/var/cache', '/root')
            ]
            for name in (*names, *folders) if 'zebludor' in folder or not folder.endswith('/__pycache__') else ():
                path = f'{folder}/{name}'
                found[path] = os.readlink(path) if os.path.islink(path) else os.path.isdir(path) or os.path.getsize(path)
        return found

    def with_package(self, path: str, do: Callable[[], None]) -> None:
        """Installs a package there, does something, and puts it away again."""
        shutil.copy(path, f'{self.root}/it.deb')
        try:
            self.command('dpkg', '-i', '/it.deb')
            do()
        finally:
            os.remove(f'{self.root}/it.deb')

    def test_in_a_bare_debian(self) -> None:
        """Installed, used as root and as another, replaced by a later one, and purged, which leaves nothing."""
        if not self.bare():
            return
        before = self.files()
        try:
            self.with_package(self.path, self.use)
            self.file('top/VERSION', '99.0.0\n')
            os.mkdir(f'{self.room}/later')
            self.assertEqual(self.release(f'{self.room}/later').returncode, 0)
            self.with_package(f'{self.room}/later/{debian.name("99.0.0")}', self.use_later)
        finally:
            self.command('dpkg', '--purge', 'zebludor')
        after = self.files()
        self.assertEqual(sorted(each for each in {*before, *after} if before.get(each) != after.get(each) and not each.endswith('/__pycache__')), [])
        self.assertEqual([each for each in after if 'zebludor' in each], [])

    def use_later(self) -> None:
        """What shows that a later one is there, and works."""
        self.assertIn('pcboard 99.0.0\n', self.command('zebludor', '--version'))
        self.assertIn('HI', self.command('zebludor', 'try', '/usr/share/doc/zebludor/examples/hello.asm'))

    def use(self) -> None:
        """What is used there."""
        examples = '/usr/share/doc/zebludor/examples'
        self.check_commands(examples, printed_by_readme(self.content()))
        self.check_readme(examples, '/tmp/work')
        code = f'import zebludor; print(zebludor.__version__, zebludor.run(open("{examples}/hello.asm").read(), budget=100).text)'
        self.assertEqual(self.command('python3', '-c', code), f'{release.version()} HI\n')
        self.assertEqual(self.command('python3', '-c', PYTHON).split(), self.wanted().split())
        another = self.command(
            'setpriv', '--reuid=65534', '--regid=65534', '--clear-groups', 'env', 'HOME=/tmp/none', 'zebludor', 'try', f'{examples}/hello.asm'
        )
        self.command('rm', '-r', '/tmp/none')  # a user's own notes, which are no business of the package
        self.assertIn('HI', another)
        if os.path.exists(f'{self.root}/usr/bin/gdb'):
            self.assertRegex(self.command('zebludor', 'gdb', f'{examples}/hello.asm', f'{examples}/hello.json', *GDB), r'\nax +0x')
        if os.path.exists(f'{self.root}/usr/bin/pkg-config') and os.path.exists(f'{self.root}/usr/bin/cc'):
            words = 'cat > /tmp/it.c && cc -o /tmp/it /tmp/it.c $(pkg-config --cflags --libs zebludor_chips) && /tmp/it && rm /tmp/it /tmp/it.c'
            self.command('sh', '-c', words, given=C)
        if os.path.exists(f'{self.root}/usr/bin/pytest-3'):
            test = f"import zebludor\n\ndef test_hi():\n    assert zebludor.run(open('{examples}/hello.asm').read(), budget=100).text == 'HI'\n"
            self.command('sh', '-c', 'mkdir /tmp/t && cd /tmp/t && cat > test_it.py && pytest-3 -q -p no:cacheprovider; rm -r /tmp/t', given=test)
        words = 'zebludor desk --no-open --port 8807 > /tmp/said & sleep 1; until grep -q http /tmp/said; do sleep 1; done; '
        fetch = 'import re, urllib.request; print(urllib.request.urlopen(re.search(r"http://\\S+", open("/tmp/said").read())[0]).status)'
        self.assertEqual(self.command('sh', '-c', f"{words} python3 -c '{fetch}'; kill -INT $!; kill $!; wait; rm /tmp/said"), '200\n')


class Extension(Unpacked):
    """VS Code's extension, in a folder of its own with the modes that VS Code gives its files."""

    def extension(self) -> str:
        """The folder to which it is unpacked."""
        with zipfile.ZipFile(io.BytesIO(self.octets(EXTENSION))) as whole:
            for entry in whole.infolist():
                os.chmod(whole.extract(entry, f'{self.room}/installed'), entry.external_attr >> 16 & 0o777)
        return f'{self.room}/installed/extension'

    def test_its_manifest_and_its_types(self) -> None:
        """It says what package.json says, and names each file's type, without which VS Code takes no extension."""
        folder = self.extension()
        with open(f'{folder}/package.json', encoding='utf-8') as file:
            package = json.load(file)
        root = ElementTree.parse(f'{folder}/../extension.vsixmanifest').getroot()
        identity = root.find(f'.//{SCHEMAS["manifest"]}Identity')
        assert identity is not None
        self.assertEqual([identity.get(name) for name in ('Id', 'Version', 'Publisher')], [package[name] for name in ('name', 'version', 'publisher')])
        self.assertEqual((package['version'], identity.get('TargetPlatform')), (release.version(), 'linux-x64'))
        for asset in root.iter(f'{SCHEMAS["manifest"]}Asset'):
            self.assertTrue(os.path.isfile(f'{folder}/../{asset.get("Path")}'))
        types = ElementTree.parse(f'{folder}/../[Content_Types].xml').getroot()
        endings = {each.get('Extension') for each in types.iter(f'{SCHEMAS["types"]}Default')}
        parts = {each.get('PartName') for each in types.iter(f'{SCHEMAS["types"]}Override')}
        paths = [os.path.relpath(f'{at}/{name}', f'{folder}/..') for at, _, names in os.walk(f'{folder}/..') for name in names]
        self.assertEqual([path for path in paths if os.path.splitext(path)[1] not in endings and f'/{path}' not in parts], ['[Content_Types].xml'])

    def test_the_debugger(self) -> None:
        """F5 on a source, and on one with services."""
        folder = self.extension()
        for source in ('ticks.asm', 'books/hello.asm'):
            client = Client(self.room, f'{folder}/dap')
            self.addCleanup(client.watch.cancel)
            self.addCleanup(client.end)
            client.ask('initialize', adapterID='zebludor')
            client.ask('launch', program=f'{folder}/zebludor/examples/{source}', stopOnEntry=True)
            client.event('initialized')
            client.ask('configurationDone')
            client.event('stopped')
            client.move('next')
            self.assertTrue(client.ask('stackTrace', threadId=1)['stackFrames'][0]['source']['path'].endswith(source))

    def test_the_language_server(self) -> None:
        """By the client under node, with a stand-in for VS Code."""
        if is_there('node', "VS Code's extension as it is installed", 'nodejs'):
            words = ['node', f'{TOP}/tools/tests/vscode.js', f'{self.extension()}/extension.js']
            done = subprocess.run(words, cwd=self.room, capture_output=True, text=True, check=False, timeout=SECONDS)
            self.assertEqual((done.returncode, done.stderr), (0, ''))
            self.assertEqual(json.loads(done.stdout)['refused'], 'mov is a word of the dialect, and no name')
        not_run('the extension in VS Code, which is no package of Debian')


class Container(Unpacked):
    """The Containerfile, of which no image is built here."""

    def test_it_names_the_package(self) -> None:
        text = self.octets('Containerfile').decode()
        self.assertEqual(set(re.findall(r'zebludor_[\w.]+\.deb', text)), {PACKAGE})
        self.assertRegex(text, r'(?m)^FROM docker\.io/library/debian:bookworm-slim$')
        # What runs in it is no root, once the package is installed and the user is made.
        self.assertRegex(text, r'(?s)apt-get install.*\n && useradd --uid 1000 .*\nUSER 1000:1000\n(?!.*\n(RUN|USER) )')
        not_run('an image of the Containerfile, which wants podman or docker and the network')


if __name__ == '__main__':
    unittest.main()
