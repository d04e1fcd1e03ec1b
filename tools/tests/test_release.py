"""dev/release: what it makes is the same twice; its archive runs in any folder without kit, compiler or environment, and is refused where something
of it isn't there. It is made of a repository whose pages, tools and programs are this one's, and whose crates are stand-ins; its
libraries are those that the gate left, else stand-ins too, which answer nothing."""
from __future__ import annotations

import os
import re
import shlex
import shutil
import stat
import subprocess
import sys
import tarfile
import unittest

from parts import debian, release, vsix, wheel
from tests.repository import KIT, LOGIC, Repository
from tests.support import SECONDS, TOP, but_progress, is_there, not_run
from tests.test_pages import blocks, commands
from toolbox import program
from toolbox.crates import Crates
from toolbox.present import LIBRARY
from toolbox.proved import PROGRAMS, Made, Proved
from toolbox.sources import sum_of, sum_of_sources

VERDICT = 'logic=proved functions=1 sum=0123456789abcdef native=nat'
LIBRARIES = ('zebludor_chips', 'zebludor_program')
CRATES = {it: {'low', it} for it in ('pcboard', *LIBRARIES)} | {'pcprobe': {'low', 'probe', 'pcprobe'}, 'pcmasm': {'low', 'pcmasm'}}
CRATES[LIBRARY] = CRATES['zebludor_program']
NAME = release.name()
MADE = (f'{NAME}.tar.gz', *(each.name(release.version()) for each in (wheel, debian, vsix)), 'Containerfile')
HAS_CC = is_there('cc', 'a release', 'gcc')  # without it none is made, and no case here is run
NOBODY = 65534
# A bench in C. What it prints of the gate's library docs/parts.md works out by hand; stand-ins leave the zeros in it.
BENCH = r"""#include "zebludor.h"
#include <stdio.h>

int main(void) {
    zebludor_pit pit = {0};
    zebludor_pit_power_on(&pit);
    zebludor_pit_set_gate(&pit, 2, 1);
    zebludor_pit_write(&pit, 3, 0xB6);
    zebludor_pit_write(&pit, 2, 7);
    zebludor_pit_write(&pit, 2, 0);
    for (int leap = 0; leap < 3; leap++) {
        uint64_t ticks = zebludor_pit_until_change(&pit, 2);
        zebludor_pit_advance(&pit, ticks);
        printf("%llu ", (unsigned long long)ticks);
    }
}
"""
PYTHON = """import sys
sys.path.insert(0, 'python')
import zebludor
pit = zebludor.Pit()
pit.set_gate(2, 1)
for port, value in (3, 0xB6), (2, 7), (2, 0):
    pit.write(port, value)
for _ in range(3):
    ticks = pit.until_change(2)
    pit.advance(ticks)
    print(ticks, end=' ')
"""
# Words for tools that answer at once, what is typed, and what they tell; PAGE and OUT are files that stand apart.
RUN = 'examples/hello.asm examples/hello.json'
WORDS = (
    ('tools/try examples/fibonacci.asm', '', '1 1 2 3 5 8 13 21'),
    (f'tools/why run {RUN}', '', 'HI'),
    (f'tools/trace {RUN}', '', 'STOSW'),
    ('tools/why fault examples/hello.asm', 'fault 7 Undefined line 3', 'no line defines the name'),
    (f'tools/judge PAGE {RUN}', '', '1 met, 0 not'),
    (f'tools/dbg {RUN}', 'go 100\nquit\n', 'clock 100: F000:0017'),
    (f'tools/moments PAGE {RUN} --key 1E --at 10..11', '', '1 of 1 moments tried, 0 failed'),
    ('tools/keys a', '', '[[2000,30],[2500,158]]'),
    ('./pcprobe examples/hello.asm examples/hello.json', 'chips\n', 'processor running busy 0 IF 0 inhibits none'),
    (f'tools/dbg {RUN}', 'chips\nquit\n', 'processor running busy 0'),
    ('tools/runfile', '', '"budget":100000'),
    (f'tools/picture - --of {RUN}', '', '<svg'),
    ('tools/table -', 'REPORT', '\t100\thalted\t'),
    ('tools/sound OUT', 'REPORT', ''),
)


def shown_by_readme(prefix: str, launcher: str) -> list[tuple[str, str, str]]:
    """README's commands, each with what is typed and what is printed; a tool's name begins with the prefix, and pcboard's is said."""
    found = [one for block in blocks('README.md') for one in commands(block)]
    return [(re.sub(r'\btools/', prefix, line).replace('./pcboard', launcher), typed, printed.rstrip()) for line, typed, printed in found]


class Unpacked(Repository):
    """That repository, and its archive."""

    kept: dict[str, bytes] = {}  # stand-in and archive, which are made once

    def run(self, result: unittest.TestResult | None = None) -> unittest.TestResult | None:
        return super().run(result) if HAS_CC else result

    def setUp(self) -> None:
        super().setUp()
        self.top = f'{self.room}/top'
        os.chmod(self.room, 0o755)
        for path in (*release.FILES, *release.FOLDERS, 'dev', 'tools'):
            source = f'{TOP}/{path}'
            if os.path.isdir(source):
                shutil.copytree(source, f'{self.top}/{path}', dirs_exist_ok=True, ignore=shutil.ignore_patterns('tests', '__pycache__', 'out'))
            elif not path.startswith('stored/'):
                shutil.copy(source, f'{self.top}/{path}')
        os.makedirs(f'{self.top}/stored')
        for name in PROGRAMS:
            shutil.copy(program.path(name), f'{self.top}/stored/{name}')
        shutil.copy(f'{TOP}/stored/{LIBRARY}', f'{self.top}/stored')
        self.file(
            'top/crates.txt',
            'low:\npcboard: low\nprobe: low\npcprobe: low probe\npcmasm: low\nzebludor_chips staticlib: low\nzebludor_program staticlib: low\n',
        )
        for name in release.LIBRARIES:
            for part in ('src', 'out'):
                os.makedirs(f'{self.top}/crates/{name}/{part}')
            self.file(f'top/crates/{name}/src/lib.rt', '// nothing\n')
        self.file('top/crates/low/src/lib.rt', '/// Nothing.\npub fn program() -> u8\n    ensures { result ≤ 3 }\n{\n    0\n}\n')
        self.is_real = self.put_libraries()
        for names in ((*PROGRAMS, LIBRARY), *((it,) for it in LIBRARIES)):
            self.note(*names)

    def wanted(self) -> str:
        """What the timer's bench prints: OUT of counter 2 rises 5 ticks after its count is written, falls 3 after that, and rises 4 after that."""
        if self.is_real:
            return '5 3 4 '
        not_run('the chips of a release, in which stand-ins are packed here; dev/benches builds their library')
        return '0 0 0 '

    def put_libraries(self) -> bool:
        """Puts the gate's libraries there; where one of them isn't there, stand-ins. Returns whether they are the gate's."""
        archives = [release.archive_of(Crates(), it) for it in release.LIBRARIES]
        if all(map(os.path.isfile, archives)):
            for path in archives:
                shutil.copy(path, f'{self.top}/{os.path.relpath(path, TOP)}')
            return True
        if 'stand-in' not in self.kept:
            self.kept['stand-in'] = self.stand_in_library()
        for name in release.LIBRARIES:
            with open(f'{self.top}/crates/{name}/out/lib{name}.a', 'wb') as archive:
                archive.write(self.kept['stand-in'])
        return False

    def stand_in_library(self, tools: str = '') -> bytes:
        """A static library that has all calls of the header, whose answers are 0, by tools whose names begin so."""
        with open(f'{TOP}/c/zebludor.h', encoding='utf-8') as file:
            text = re.sub(r'/\*.*?\*/', '', file.read(), flags=re.S)
        calls = re.findall(r'^(\w+ zebludor_\w+\([^)]*\));', text, re.M)
        code = ''.join(f'{it} {{ {"" if it.startswith("void") else "return (typeof(" + it.split()[0] + ")){0};"} }}\n' for it in calls)
        source = self.file('calls.c', f'#include "zebludor.h"\n{code}')
        subprocess.run([f'{tools}gcc' if tools else 'cc', '-w', '-fPIC', '-c', f'-I{TOP}/c', '-o', f'{self.room}/calls.o', source], check=True)
        subprocess.run([f'{tools}ar', 'rcD', f'{self.room}/calls.a', f'{self.room}/calls.o'], check=True)
        with open(f'{self.room}/calls.a', 'rb') as archive:
            return archive.read()

    def made(self, name: str) -> str:
        """What is built of a crate."""
        return f'{self.top}/stored/{name}' if name in (*PROGRAMS, LIBRARY) else f'{self.top}/crates/{name}/out/lib{name}.a'

    def note(self, *names: str, kit: str = KIT) -> None:
        """Writes PROVED beside what is built of these crates, in one folder."""
        paths = {name: self.made(name) for name in names}
        made = {os.path.basename(path): Made(sum_of(path), sum_of_sources(CRATES[name], self.top)) for name, path in paths.items()}
        verdicts = {crate: f'{VERDICT} of={crate}' for name in names for crate in CRATES[name]}
        folder = os.path.dirname(paths[names[0]])
        self.file(os.path.relpath(f'{folder}/PROVED', self.room), Proved(kit, LOGIC, made, verdicts).text())

    def release(self, into: str = '') -> subprocess.CompletedProcess[str]:
        return self.start(sys.executable, '-S', f'{self.top}/dev/release', '--into', into or self.room)

    def archive(self, into: str = '') -> str:
        """The path of an archive that is made, beside which the others are."""
        ran = self.release(into)
        self.assertEqual((ran.returncode, ran.stderr), (0, ''))
        paths = [f'{into or self.room}/{name}' for name in MADE]
        self.assertEqual(ran.stdout, ''.join(f'{sum_of(path)}  {path}\n' for path in paths))
        return paths[0]

    def octets(self, name: str) -> bytes:
        """What one of them holds, which are made once."""
        if 'Containerfile' not in self.kept:
            room = os.path.dirname(self.archive())
            for short in MADE:
                with open(f'{room}/{short}', 'rb') as file:
                    self.kept[short] = file.read()
                os.remove(f'{room}/{short}')
        return self.kept[name]

    def unpacked(self, into: str = 'a path with a blank') -> str:
        """The folder that the archive is unpacked to, in a folder that may only be read."""
        room = f'{self.room}/{into}'
        os.mkdir(room)
        subprocess.run(['tar', '-xzf', '-', '-C', room], input=self.octets(MADE[0]), check=True)
        for folder, _, files in os.walk(room, topdown=False):
            for path in (*(f'{folder}/{it}' for it in files), folder):
                os.chmod(path, os.stat(path).st_mode & 0o555)
                self.addCleanup(os.chmod, path, 0o755)
        return f'{room}/{NAME}'

    def run_in(self, top: str, *words: str, given: str = '', path: str = '') -> tuple[int, str, str]:
        """A command in that folder, in an empty environment and as another user, where that may be."""
        another = {'user': NOBODY, 'group': NOBODY, 'extra_groups': []} if os.getuid() == 0 else {}
        done = subprocess.run(
            words,
            cwd=top,
            input=given,
            capture_output=True,
            text=True,
            errors='replace',
            check=False,
            timeout=SECONDS,
            env={'PATH': path} if path else {},
            **another,
        )  # type: ignore[call-overload]
        self.assertNotIn('Traceback', done.stderr, words)
        return done.returncode, done.stdout, done.stderr


class Release(Unpacked):
    """The archive, where nothing is missing."""

    def test_twice_the_same_bytes(self) -> None:
        first, was = self.archive(), self.top
        self.top = f'{self.room}/elsewhere'
        shutil.copytree(was, self.top, copy_function=shutil.copy)
        shutil.rmtree(was)
        for folder, _, files in os.walk(self.top):
            for path in (f'{folder}/{it}' for it in files):
                os.utime(path, (1, 1))
                os.chmod(path, stat.S_IMODE(os.stat(path).st_mode) & 0o700)
        os.makedirs(f'{self.top}/tools/__pycache__')
        self.file('elsewhere/tools/__pycache__/it.pyc', 'nothing of a release')
        os.mkdir(f'{self.room}/second')
        mask = os.umask(0o077)
        try:
            second = self.archive(f'{self.room}/second')
        finally:
            os.umask(mask)
        for name in MADE:
            with open(f'{os.path.dirname(first)}/{name}', 'rb') as one, open(f'{os.path.dirname(second)}/{name}', 'rb') as other:
                self.assertTrue(one.read() == other.read(), name)

    def test_entries_have_no_time_owner_or_place(self) -> None:
        with tarfile.open(self.archive()) as archive:
            entries = archive.getmembers()
            names = [it.name for it in entries]
            self.assertEqual(names, sorted(names))
            self.assertEqual({(it.mtime, it.uid, it.gid, it.uname, it.gname) for it in entries}, {(release.TIME, 0, 0, '', '')})
            self.assertEqual({oct(it.mode) for it in entries if it.isdir()}, {'0o755'})
            self.assertTrue({oct(it.mode) for it in entries} <= {'0o755', '0o644'})
            self.assertEqual({it.name.partition('/')[0] for it in entries}, {NAME})
            for entry in entries:
                file = archive.extractfile(entry) if entry.isfile() else None
                self.assertFalse(file and self.room.encode() in file.read(), entry.name)
        for path in (
            'pcboard',
            'stored/pcboard',
            'pcmasm',
            'pcprobe',
            'stored/pcmasm',
            'stored/pcprobe',
            'stored/libzebludor.so',
            'tools/try',
            'python/zebludor.py',
            'c/zebludor.h',
            'LICENSE-MIT',
            'RELEASE',
            'SHA256SUMS',
            'docs/book.html',
            'docs/book.txt',
            'lib/libzebludor_chips.a',
            'lib/libzebludor_chips.so',
            'lib/libzebludor_program.so',
            'lib/pkgconfig/zebludor_program.pc',
            'lib/cmake/zebludor/zebludor-config.cmake',
            'lib/libzebludor_dpi.so',
            'lib/zebludor.vpi',
            'c/verilog/zebludor.sv',
            'c/zebludor-sys/Cargo.toml',
            'editors/emacs.el',
        ):
            self.assertIn(f'{NAME}/{path}', names)
        for path in ('crates', 'dev', 'bench', 'tools/test', 'tools/tests'):
            self.assertNotIn(f'{NAME}/{path}', names)

    def test_it_tells_what_was_proved(self) -> None:
        top = self.unpacked()
        with open(f'{top}/RELEASE', encoding='utf-8') as file:
            lines = file.read().splitlines()
        heads = [f'zebludor {release.version()} x86_64-linux', f'kit {KIT}', f'logic {LOGIC}']
        self.assertEqual(lines[:3], heads)
        made = [
            (f'{top}/{path}', crate) for path, crate in (*((f'stored/{it}', it) for it in (*PROGRAMS, LIBRARY)), *((f'lib/lib{it}.a', it) for it in LIBRARIES))
        ]
        self.assertEqual(
            lines[3:9], [f'made {os.path.relpath(path, top)} {sum_of(path)} sources {sum_of_sources(CRATES[crate], self.top)}' for path, crate in made]
        )
        self.assertEqual(lines[9:], [f'{it}: {VERDICT} of={it}' for it in ('low', 'pcboard', 'pcmasm', 'pcprobe', 'probe', *LIBRARIES)])

    def test_sums(self) -> None:
        top = self.unpacked()
        self.assertEqual(self.run_in(top, 'sha256sum', '--strict', '--quiet', '-c', 'SHA256SUMS'), (0, '', ''))
        with open(f'{top}/SHA256SUMS', encoding='utf-8') as file:
            summed = {line[66:].rstrip('\n') for line in file}
        there = {os.path.relpath(f'{folder}/{name}', top) for folder, _, files in os.walk(top) for name in files}
        self.assertEqual(summed | {'SHA256SUMS'}, there)

    def test_links_lead_somewhere(self) -> None:
        """Those into the sources, which a clone has, are none here."""
        top = self.unpacked()
        for folder, _, files in os.walk(top):
            for page in (f'{folder}/{it}' for it in files if it.endswith('.md')):
                with open(page, encoding='utf-8') as file:
                    links = re.findall(r'\]\(([^)\s#:]+)[^)]*\)', re.sub(r'^```.*?^```', '', file.read(), flags=re.M | re.S))
                for target in (os.path.relpath(os.path.normpath(f'{folder}/{it}'), top) for it in links):
                    self.assertTrue(os.path.exists(f'{top}/{target}'), f'{page}: {target}')

    def test_readmes_commands(self) -> None:
        top = self.unpacked()
        with open(f'{top}/README.md', encoding='utf-8') as file:
            command, printed = re.findall(r'^```\n(\./pcboard run .*)\n```\n\nprints\n\n```\n(.*?)^```', file.read(), re.M | re.S)[0]
        status, out, err = self.run_in(top, *command.split())
        self.assertEqual((status, out.rstrip()), (0, printed.rstrip()))
        self.assertRegex(err, r'\Apcboard: the programs [^\n]* were proved elsewhere, with rattle-kit-1; RELEASE has [^\n]*\n\Z')
        for name in PROGRAMS:
            self.assertEqual(
                self.run_in(top, f'./{name}', '--version')[:2],
                (
                    0,
                    f'{name} {release.version()}\nkit {KIT}\nlogic {LOGIC}\nsources {sum_of_sources(CRATES[name], self.top)}\n'
                    f'program stored/{name}, proved elsewhere\n',
                ),
            )
            self.assertIn(f'Usage: {name}', self.run_in(top, f'./{name}', '--help')[1])
        folder = f'{self.room}/work'
        os.mkdir(folder)
        os.chmod(folder, 0o777)
        os.symlink(f'{top}/examples', f'{folder}/examples')
        for line, typed, printed in shown_by_readme(f"'{top}'/tools/", f"'{top}'/pcboard"):
            status, out, _ = self.run_in(folder, 'sh', '-c', f'{{ {line}; }} 2>&1 | grep -v "proved elsewhere"', given=typed)
            self.assertEqual((status if printed else 0, but_progress(out).rstrip()), (0, printed), line)

    def test_each_tool(self) -> None:
        top = self.unpacked()
        tools = sorted(f'tools/{it}' for it in os.listdir(f'{top}/tools') if os.path.isfile(f'{top}/tools/{it}'))
        self.assertLess({command.split()[0] for command, _, _ in WORDS}, {*tools, './pcprobe'})
        for tool in tools:
            status, printed, err = self.run_in(top, tool, '--help')
            self.assertEqual((status, err), (0, ''), tool)
            self.assertIn(os.path.basename(tool), printed)
        report, page = self.run_in(top, './pcboard', 'run', *RUN.split())[1], self.file('it.page', 'shows = HI\n')
        os.mkdir(f'{self.room}/out')
        os.chmod(f'{self.room}/out', 0o777)
        for words, typed, wanted in WORDS:
            words = words.replace('PAGE', page).replace('OUT', f'{self.room}/out/it')
            status, printed, err = self.run_in(top, *words.split(), given=typed.replace('REPORT', report))
            self.assertEqual(status, 0, f'{words}: {err}')
            self.assertIn(wanted, printed + err, words)
        self.assertTrue(os.path.isfile(f'{self.room}/out/it'))

    def test_one_that_is_damaged(self) -> None:
        top = self.unpacked()
        for name in PROGRAMS:
            os.chmod(f'{top}/stored/{name}', 0o755)
            with open(f'{top}/stored/{name}', 'ab') as file:
                file.write(b'\n')
            for ran in (self.launch(has_rt=has_rt, top=top, name=name) for has_rt in (True, False)):
                self.assertEqual((ran.returncode, ran.stdout), (127, ''))
                self.assertIn('its SHA-256 is another\n', ran.stderr)
                self.assertIn('unpack its archive or install its package again', ran.stderr)
        self.assertFalse(os.path.exists(f'{top}/crates'))


class Libraries(Unpacked):
    """The libraries of an unpacked archive."""

    def test_chips_for_python_without_a_compiler(self) -> None:
        top, empty = self.unpacked(), f'{self.room}/empty'
        os.mkdir(empty)
        python = '/usr/bin/python3' if os.path.exists('/usr/bin/python3') else sys.executable
        self.assertEqual(self.run_in(top, python, '-B', '-c', PYTHON, path=empty), (0, self.wanted(), ''))

    def test_the_shared_one_needs_only_the_c_library(self) -> None:
        if not is_there('readelf', 'what the shared library needs', 'binutils'):
            return
        printed = self.run_in(self.unpacked(), 'readelf', '-d', 'lib/libzebludor_chips.so', path='/usr/bin:/bin')[1]
        self.assertLessEqual(set(re.findall(r'Shared library: \[(.*)\]', printed)), {'libc.so.6'})
        self.assertIn('soname: [libzebludor_chips.so]', printed)

    def test_pkg_config(self) -> None:
        if not is_there('pkg-config', 'the C bench by pkg-config', 'pkg-config'):
            return
        source = self.file('bench.c', BENCH)
        for top in (self.unpacked('plain'), self.unpacked()):
            flags = subprocess.run(
                ['pkg-config', '--cflags', '--libs', 'zebludor_chips'],
                capture_output=True,
                text=True,
                check=True,
                env={'PATH': '/usr/bin:/bin', 'PKG_CONFIG_PATH': f'{top}/lib/pkgconfig'},
            ).stdout
            subprocess.run(['cc', '-std=c11', '-Wall', '-Werror', source, *shlex.split(flags), '-o', f'{self.room}/bench'], check=True)
            self.assertEqual(self.run_in(top, f'{self.room}/bench'), (0, self.wanted(), ''))

    def test_whole_runs_by_pkg_config(self) -> None:
        if not is_there('pkg-config', 'whole runs in C by pkg-config', 'pkg-config'):
            return
        top = self.unpacked('plain')
        flags = subprocess.run(
            ['pkg-config', '--cflags', '--libs', 'zebludor_program'],
            capture_output=True,
            text=True,
            check=True,
            env={'PATH': '/usr/bin:/bin', 'PKG_CONFIG_PATH': f'{top}/lib/pkgconfig'},
        ).stdout
        self.assertRegex(flags, r' -L\S+/lib -l:libzebludor_program\.a -l:libzebludor_memory\.a ?\n\Z')
        if not self.is_real:
            not_run('whole runs in C from a release; dev/benches builds their library')
            return
        subprocess.run(['cc', '-std=c11', f'{top}/c/benches/runs.c', *shlex.split(flags), '-o', f'{self.room}/runs'], check=True)
        words = [f'{top}/{it}' for it in RUN.split()]
        self.assertEqual(self.run_in(top, f'{self.room}/runs', *words)[:2], self.run_in(top, './pcboard', 'run', *words)[:2])


class Lacking(Unpacked):
    """What stands in the way of a release, and is told."""

    def refused(self, *sentences: str) -> None:
        """Nothing is made, and each of these is told, in a line of its own."""
        ran = self.release()
        self.assertEqual((ran.returncode, ran.stdout), (1, ''), ran.stderr)
        for line, sentence in zip(ran.stderr.splitlines(), sentences, strict=True):
            self.assertTrue(line.startswith('release: '), line)
            self.assertIn(sentence, line)
        self.assertEqual([it for it in os.listdir(self.room) if it.startswith('zebludor')], [])

    def test_what_is_missing(self) -> None:
        os.remove(self.made('zebludor_chips'))
        os.remove(f'{self.top}/crates/zebludor_program/out/PROVED')
        os.remove(f'{self.top}/LICENSE-MIT')
        self.refused(
            "LICENSE-MIT isn't there",
            "libzebludor_chips.a isn't there; dev/build zebludor_chips proves and builds it",
            'nothing tells what crates/zebludor_program/out/libzebludor_program.a was made of; dev/build zebludor_program',
        )

    def test_other_sources(self) -> None:
        put_back = self.change_text('crates/low/src/lib.rt')
        other = 'it was made of other sources than are here'
        self.refused(
            *(f"stored/{it} isn't taken: {other}; tools/test" for it in (*PROGRAMS, LIBRARY)),
            *(f"{it}.a isn't taken: {other}; dev/build {it}" for it in LIBRARIES),
        )
        put_back()
        self.archive()

    def test_another_program(self) -> None:
        os.remove(self.made('pcprobe'))
        one = "isn't one of which stored/PROVED tells"
        self.refused("stored/pcprobe isn't there", f'stored/pcprobe {one}')
        shutil.copy(program.path('pcprobe'), self.made('pcprobe'))
        for name in PROGRAMS:
            with open(self.made(name), 'ab') as file:
                file.write(b'\n')
        self.refused(*(f'stored/{name} {one}' for name in PROGRAMS))

    def test_a_verdict_that_is_unknown(self) -> None:
        path = f'{self.top}/crates/zebludor_program/out/PROVED'
        with open(path, encoding='utf-8') as file:
            verdicts = file.read()
        self.file(os.path.relpath(path, self.room), re.sub('^low: .*\n', '', verdicts, flags=re.M))
        self.refused('its PROVED has no verdict of low')

    def test_another_kit(self) -> None:
        self.note('zebludor_chips', kit='rattle-kit-0')
        self.refused('rattle-kit-0 made it, and rattle-kit-1 the stored programs')

    def test_no_kit(self) -> None:
        os.remove(f'{self.room}/bin/rt')
        self.archive()

    def test_what_is_not_committed(self) -> None:
        git = ('git', '-C', self.top, '-c', 'user.name=it', '-c', 'user.email=it')
        if not is_there('git', 'a release of a clone that has changes', 'git'):
            return
        with open(f'{TOP}/.gitignore', encoding='utf-8') as file:
            self.file('top/.gitignore', file.read())
        for words in (('init', '-q'), ('add', '-A'), ('commit', '-q', '-m', 'all')):
            subprocess.run([*git, *words], check=True)
        self.archive()
        for name in MADE:
            os.remove(f'{self.room}/{name}')
        self.file('top/examples/mine.asm', '')
        self.file('top/dev/mine', 'of no release')
        self.change_text('tools/try')
        self.refused("tools/try isn't as it was committed", "examples/mine.asm isn't as it was committed")

    def test_a_folder_that_is_none(self) -> None:
        ran = self.release(f'{self.room}/none')
        self.assertEqual((ran.returncode, ran.stdout, ran.stderr), (2, '', f"release: {self.room}/none isn't a folder\n"))


if __name__ == '__main__':
    unittest.main()
