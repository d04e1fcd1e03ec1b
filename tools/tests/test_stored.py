"""The programs that are stored in the repository: how they get there, when the launcher takes them, and that they are what is
built."""
from __future__ import annotations

import os
import re
import resource
import shutil
import subprocess
import time
import unittest
from collections.abc import Callable
from dataclasses import replace

from tests.repository import CRATES, KIT, LOGIC, Repository
from tests.support import TOP, ToolCase, is_there, not_run, until
from toolbox import program, proved
from toolbox.command import write_text
from toolbox.crates import Crates
from toolbox.sources import sum_of, sum_of_sources

VERDICT = 'logic=proved functions=1 sum=0123456789abcdef native=nat'
AT_ONCE = (0, 'it runs run\n')
NAMES = ('pcboard', 'pcprobe', 'pcmasm')
BELOW = {'pcboard': ['low', 'pcboard'], 'pcprobe': ['low', 'pcprobe', 'probe'], 'pcmasm': ['low', 'pcmasm']}
ALL = sorted({crate for below in BELOW.values() for crate in below})
# What `rt ci` prints and leaves, where it proves the crates of all programs and keeps another one.
CI = rf"""#!/bin/sh
[ "$1" != version ] || {{ echo "{KIT} logic {LOGIC}"; exit; }}
printf '== low\nfn it: proved\n{VERDICT}\nrt: low proved\nrt: other is kept: as before\n'
printf '== low: its tests\nlogic=proved tests=1 functions=9\nrt: low: its tests are proved\n== probe\n{VERDICT}\nrt: probe proved\n'
for name in pcboard pcprobe pcmasm; do
    printf '== %s\n{VERDICT}\nrt: %s proved\n' $name $name
    mkdir -p crates/$name/out
    printf '#!/bin/sh\n# %s\n[ "$1" != --help ] || exit 2\necho "it runs $*"\n' $name > crates/$name/out/$name
    chmod +x crates/$name/out/$name
    echo HI > crates/$name/out/stdout
done
echo '3 passed, 0 failed'
"""


def incomparable(name: str, stored: proved.Proved, built: proved.Proved | None, present: str) -> str | None:
    """Why a stored program and one that the gate built need not have the same bytes, where the present sources have this sum;
    None where they need."""
    if stored.made[name].sources != present:
        return f'stored/{name} was made of other sources than the present ones; dev/build --store renews it'
    if built is None:
        return f'nothing tells what the {name} that is tested was made of'
    if built.made[name].sources != present:
        return f'the {name} that is tested was made of other sources than the present ones'
    return None if built.kit == stored.kit else f'{stored.kit} made stored/{name}, {built.kit} the {name} that is tested'


class Stored(Repository):
    """Stored programs in that repository."""

    made: dict[str, str] = {}

    def setUp(self) -> None:
        super().setUp()
        self.top, self.out, self.stored = f'{self.room}/top', f'{self.room}/top/crates/pcboard/out', f'{self.room}/top/stored'

    def build(self, *words: str) -> str:
        """What dev/build tells, on both streams, where it ends well."""
        ran = self.start(f'{self.top}/dev/build', *words)
        self.assertEqual(ran.returncode, 0, ran.stderr)
        return ran.stdout + ran.stderr

    def build_all(self) -> None:
        for name in NAMES:
            self.build(name)

    def proved(self, folder: str) -> proved.Proved:
        """The text PROVED in a folder, which is there."""
        found = proved.read(folder)
        assert found
        return found

    def store(self) -> None:
        """Leaves a clone as it is made from a repository in which programs were built and stored, which is done once for all cases."""
        if not Stored.made:
            self.build_all()
            self.build('--store')
            for name in NAMES:
                shutil.rmtree(f'{self.top}/crates/{name}/out')
            shutil.rmtree(f'{self.room}/cache')
            for name in (*NAMES, 'PROVED'):
                with open(f'{self.stored}/{name}', encoding='utf-8') as file:
                    Stored.made[name] = file.read()
        os.makedirs(self.stored, exist_ok=True)
        for name, text in Stored.made.items():
            os.chmod(self.file(f'top/stored/{name}', text), 0o755)

    def at_once(self, top: str = '') -> str:
        """What standard error has where all run at once, with Rattle and without."""
        found = ''
        for name in NAMES:
            for has_rt in (False, True):
                ran = self.launch(has_rt=has_rt, top=top, name=name)
                self.assertEqual((ran.returncode, ran.stdout), AT_ONCE)
                found += ran.stderr
            self.assertFalse(os.path.exists(f'{top or self.top}/crates/{name}/out'))
        return found

    def put(self, text: str, name: str = 'pcboard') -> None:
        """Makes this the stored program, of which PROVED tells."""
        path = self.file(f'top/stored/{name}', text)
        os.chmod(path, 0o755)
        whole = self.proved(self.stored)
        self.file('top/stored/PROVED', whole.text().replace(whole.made[name].sum, sum_of(path)))

    def test_they_answer_at_once_and_it_is_said_once_where_they_were_proved(self) -> None:
        self.store()
        said = self.launch(has_rt=False).stderr
        self.assertEqual(said.count('\n'), 1)
        for words in ('the programs in stored/ were proved elsewhere', KIT, 'dev/build pcboard proves this one here'):
            self.assertIn(words, said)
        self.assertEqual(self.at_once(), '')
        shutil.rmtree(f'{self.room}/cache')
        self.assertIn('dev/build pcprobe proves this one here', self.launch(name='pcprobe').stderr)

    def put_library(self) -> None:
        """Puts the library's files there, as dev/build leaves them that makes them for targets."""
        self.file('top/crates.txt', CRATES + 'zebludor_program staticlib: low\n')
        os.makedirs(f'{self.top}/crates/zebludor_program/src')
        self.file('top/crates/zebludor_program/src/lib.rt', '// nothing\n')
        for name, target in proved.LIBRARY_FILES.items():
            os.makedirs(f'{self.top}/crates/zebludor_program/out/{target}')
            path = self.file(f'top/crates/zebludor_program/out/{target}/{name}', f'for {target}')
            made = {name: proved.Made(sum_of(path), sum_of_sources({'low', 'zebludor_program'}, self.top))}
            verdicts = {'low': VERDICT, 'zebludor_program': VERDICT}
            whole = proved.Proved(KIT, LOGIC, made, verdicts, f'target {target} module 12\ntrusted it\n')
            self.file(f'top/crates/zebludor_program/out/{target}/PROVED', whole.text())

    def test_the_library_is_stored_with_them(self) -> None:
        self.put_library()
        self.build_all()
        self.build('--store')
        stored = self.proved(self.stored)
        self.assertEqual(list(stored.made), [*NAMES, 'zebludor.wasm', 'libzebludor.so'])
        self.assertEqual(stored.target, 'target wasm module 12\ntrusted it\ntarget shared module 12\ntrusted it\n')
        self.assertEqual(stored.verdicts.keys(), {*ALL, 'zebludor_program'})
        with open(f'{self.stored}/zebludor.wasm', encoding='ascii') as file:
            self.assertEqual(file.read(), 'for wasm')
        self.assertEqual(self.launch().stderr, '')

    def test_a_library_of_other_sources_is_not_stored(self) -> None:
        self.put_library()
        self.build_all()
        os.remove(f'{self.top}/crates/zebludor_program/out/shared/libzebludor.so')
        ran = self.start(f'{self.top}/dev/build', '--store')
        self.assertIn("libzebludor.so isn't there, or nothing tells what it was made of; dev/build zebludor_program --target shared makes it", ran.stderr)
        self.change_text('crates/zebludor_program/src/lib.rt')
        ran = self.start(f'{self.top}/dev/build', '--store')
        self.assertIn('zebludor.wasm is not made of the present sources; dev/build zebludor_program --target wasm makes it', ran.stderr)
        self.assertFalse(os.path.exists(self.stored))

    def test_where_nothing_can_be_kept_it_is_said_again(self) -> None:
        self.store()
        nowhere = self.file('a file', '')
        for name in NAMES:
            for more in ({'XDG_CACHE_HOME': f'{nowhere}/cache'}, {'HOME': nowhere}, {}):
                for _ in range(2):
                    ran = subprocess.run([f'{self.top}/{name}', 'run'], capture_output=True, text=True, check=False, env={'PATH': '/usr/bin:/bin', **more})
                    self.assertEqual((ran.returncode, ran.stdout), AT_ONCE)
                    self.assertRegex(ran.stderr, rf'\A{name}: the programs [^\n]*proved elsewhere[^\n]*\n\Z')

    def test_the_launcher_has_three_names(self) -> None:
        """A link of any name to one of them starts what that one starts."""
        self.assertEqual([os.readlink(f'{TOP}/{name}') for name in NAMES[1:]], ['pcboard', 'pcboard'])
        self.store()
        os.makedirs(f'{self.room}/links')
        for link, to in (
            ('one', f'{self.top}/pcprobe'),
            ('two', 'one'),
            ('three', '../links/two'),
            ('pcprobe', f'{self.top}/pcprobe'),
            ('board', '../top/pcboard'),
            ('masm', f'{self.top}/pcmasm'),
        ):
            os.symlink(to, f'{self.room}/links/{link}')
        for link in ('one', 'two', 'three', 'pcprobe', 'board', 'masm'):
            name = {'board': 'pcboard', 'masm': 'pcmasm'}.get(link, 'pcprobe')
            ran = self.start(
                '/bin/sh', '-c', 'cd "$1" && "$2" --version && bash "$2" --version && PATH=$1:$PATH "${2#./}" --version', '', f'{self.room}/links', f'./{link}'
            )
            self.assertEqual(re.findall('^program .*$', ran.stdout, re.M), [f'program stored/{name}, proved elsewhere'] * 3, link)

    def test_a_clone_that_is_copied_moved_touched_or_only_read(self) -> None:
        self.store()
        self.launch()
        places = [f'{self.room}/a copy of it', f'{self.room}/moved', f'{self.room}/a link']
        shutil.copytree(self.top, places[0], copy_function=shutil.copy)
        os.rename(self.top, places[1])
        os.symlink(places[1], places[2])
        for place in places:
            self.assertEqual(self.at_once(place), '', place)
        for path in ('crates/low/src/lib.rt', 'crates.txt', 'stored/pcboard', 'stored/pcprobe', 'stored/PROVED'):
            os.utime(f'{places[0]}/{path}')
        for folder, _, files in os.walk(places[0], topdown=False):
            for path in (*(f'{folder}/{name}' for name in files), folder):
                os.chmod(path, 0o555)
                self.addCleanup(os.chmod, path, 0o755)
        self.assertEqual(self.at_once(places[0]), '')

    def test_a_byte_that_is_changed_and_changed_back(self) -> None:
        self.store()
        self.launch()
        put_back = self.change_text('crates/low/src/lib.rt')
        ran = self.launch(has_rt=False)
        self.assertEqual((ran.returncode, ran.stdout), (127, ''))
        self.assertIn("stored/pcboard isn't taken: it was made of other sources than are here\n", ran.stderr)
        put_back()
        self.assertEqual(self.at_once(), '')
        self.change_text('crates/low/src/lib.rt')
        ran = self.launch()
        self.assertIn('proving 2 crates', ran.stderr)
        self.assertIn('stored/pcboard was made of other sources, so its bytes are not compared', ran.stderr)
        self.assertEqual(self.launch(has_rt=False).stderr, '')
        put_back()
        self.assertEqual((self.launch(has_rt=False).stderr, self.launch().stderr), ('', ''))
        self.assertIn('program stored/pcboard, proved elsewhere\n', self.launch('--version').stdout)

    def compared(self, name: str = 'pcboard') -> int:
        """How many sums a run works out."""
        self.file('summed', '')
        self.assertEqual(self.launch(name=name).returncode, 0)
        with open(f'{self.room}/summed', encoding='utf-8') as file:
            return len(file.read())

    def note(self, name: str = 'pcboard') -> str:
        """The note of a comparison, which a call makes once all files are older."""
        os.chmod(self.file('bin/sha256sum', f'#!/bin/sh\nprintf x >> {self.room}/summed\nexec /usr/bin/sha256sum "$@"\n'), 0o755)
        path = f'{self.room}/cache/zebludor/compared-{name}{self.top.replace("/", "+")}'
        for _ in range(100):
            self.compared(name)
            if os.path.exists(path):
                break
            time.sleep(0.01)
        return path

    def test_files_that_nobody_touched_are_not_compared_again(self) -> None:
        self.store()
        note = self.note()
        self.assertEqual((self.compared(), self.compared()), (0, 0))
        self.assertEqual(sorted(os.listdir(os.path.dirname(note)))[0], os.path.basename(note))
        for damage in ('', 'x', 'x' * 10000):
            with open(note, 'w', encoding='utf-8') as file:
                file.write(damage)
            self.assertGreater(self.compared(), 0)
            self.assertEqual(self.compared(), 0)
        self.assertFalse([name for name in os.listdir(os.path.dirname(note)) if name.startswith('note-')])

    def test_a_note_that_is_damaged_is_dropped(self) -> None:
        """Whichever byte of what decides it is; so is what is no file in its place. The answer is the right one."""
        self.store()
        note = self.note()
        with open(note, 'rb') as file:
            whole = file.read()
        end = len(b'\n'.join(whole.split(b'\n')[:3]))
        for at in (*range(0, end, 31), end - 1):
            with open(note, 'wb') as file:
                file.write(whole[:at] + bytes([whole[at] ^ 1]) + whole[at + 1 :])
            ran = self.launch(has_rt=False)
            self.assertEqual((ran.returncode, ran.stdout, ran.stderr), (*AT_ONCE, ''), at)
            self.note()
        for make in (os.mkfifo, lambda path: os.symlink('/dev/zero', path)):
            os.remove(note)
            make(note)
            self.assertEqual(self.launch(has_rt=False).stderr, '')
            self.assertTrue(os.path.isfile(note) and not os.path.islink(note))

    def test_a_note_of_another_user_is_not_believed(self) -> None:
        """The same text, which is right here; of what another could write nobody needs to judge."""
        if os.geteuid():
            not_run('a note that another user owns, which only root can leave')
            return
        self.store()
        note = self.note()
        os.chown(note, 65534, 65534)
        self.assertGreater(self.compared(), 0)
        self.assertEqual((os.stat(note).st_uid, self.compared()), (0, 0))

    def test_a_comparison_that_fails_is_not_noted(self) -> None:
        """Of whichever command. The start in which it fails refuses and builds nothing; the next one is right, and removes what a start
        that was killed has left of its note."""
        self.store()
        note = self.note()
        for command in ('awk', 'find', 'sort', 'xargs', 'sha256sum'):
            os.remove(note)
            self.file(f'cache/zebludor/note-{2**22 + 1}-abcdef', '')  # no process has this number
            os.chmod(self.file(f'bin/{command}', '#!/bin/sh\nexit 1\n'), 0o755)
            ran = self.launch()
            self.assertEqual((ran.returncode, ran.stdout), (127, ''), command)
            self.assertIn('of what it is made ', ran.stderr)
            left = set(os.listdir(os.path.dirname(note))) - {f'{os.path.basename(note)}-paths'}
            self.assertEqual([name for name in left if not name.startswith('told')], [], command)
            os.remove(f'{self.room}/bin/{command}')
            ran = self.launch()
            self.assertEqual((ran.returncode, ran.stdout, ran.stderr), (*AT_ONCE, ''), command)
            self.note()

    def test_its_version_is_of_its_bytes(self) -> None:
        """Also on a disk that has changed them and no time; a run then believes its note."""
        self.store()
        note = self.note()

        def noted() -> list[str]:
            with open(note, encoding='utf-8') as file:
                return file.read().split('\n')

        before = noted()
        with open(f'{self.stored}/pcboard', 'r+b') as rotten:
            rotten.write(b'#?')
        self.assertTrue(until(lambda: self.launch(has_rt=False).returncode == 127 and noted() != before))
        times = noted()[2:]
        with open(note, 'w', encoding='utf-8') as file:
            file.write('\n'.join(before[:2] + times))
        told = self.launch('--version', has_rt=False)
        self.assertIn("stored/pcboard isn't taken: it isn't the one of which stored/PROVED tells: its SHA-256 is another", told.stdout)
        self.assertIn('program none\n', told.stdout)
        self.assertNotIn("isn't taken", self.launch(has_rt=False).stderr)
        asked = self.start('env', 'ZEBLUDOR_TAKES=pcboard', f'{self.top}/pcboard', '--version', has_rt=False)
        self.assertIn('program stored/pcboard, proved elsewhere\n', asked.stdout)

    def test_it_ends_on_no_option_of_a_shell(self) -> None:
        self.store()
        self.launch()
        for name, options in (
            ('SHELLOPTS', ('errexit', 'nounset', 'noglob', 'noclobber', 'keyword', 'posix', 'monitor')),
            ('BASHOPTS', ('failglob', 'nullglob')),
        ):
            for option in options:
                ran = self.start('env', f'{name}={option}', f'{self.top}/pcboard', 'run', has_rt=False)
                self.assertEqual((ran.returncode, ran.stdout, ran.stderr), (*AT_ONCE, ''), option)

    def test_each_looks_at_its_own_sources(self) -> None:
        """Those of pcprobe's crates are none of pcboard's, whatever becomes of them."""
        self.store()
        for name in NAMES:
            self.note(name)
            self.assertEqual(self.compared(name), 0)
        before = self.launch('--version').stdout
        os.chmod(self.file('bin/stat', f'#!/bin/sh\nprintf "%s\\n" "$@" >> {self.room}/looked\nexec /usr/bin/stat "$@"\n'), 0o755)
        for path in ('crates/probe/src/lib.rt', 'crates/pcprobe/src/main.rt', 'crates/probe/proofs/New.antt', 'crates/other/src/lib.rt'):
            put_back = self.change_text(path)
            self.assertEqual(self.compared(), 0, path)
            is_its_own = not path.startswith('crates/other')
            self.assertEqual('made of other sources' in self.launch('--version', name='pcprobe').stdout, is_its_own, path)
            put_back()
        self.assertEqual(self.launch('--version').stdout, before)
        os.remove(f'{self.room}/looked')
        self.compared()
        with open(f'{self.room}/looked', encoding='utf-8') as file:
            looked = file.read()
        self.assertIn('\nlow/src\n', looked)
        for crate in ('probe', 'pcprobe', 'other'):
            self.assertNotIn(f'\n{crate}/', looked)

    def test_what_is_touched_is_compared_again(self) -> None:
        """Also what is changed with its size and time kept, and what is written back."""
        self.store()
        self.note()
        source, more = f'{self.top}/crates/low/src/lib.rt', f'{self.top}/crates/low/src/more.rt'
        times = os.stat(source).st_atime_ns, os.stat(source).st_mtime_ns

        def change(text: str) -> None:
            with open(source, 'w', encoding='utf-8') as file:
                file.write(text)
            os.utime(source, ns=times)

        steps: tuple[tuple[Callable[[], object], bool], ...] = (
            (lambda: change('// NOTHING\n'), False),
            (lambda: change('// nothing\n'), True),
            (lambda: shutil.copyfile(source, more), False),
            (lambda: os.rename(more, f'{self.top}/crates/low/src/most.rt'), False),
            (lambda: os.remove(f'{self.top}/crates/low/src/most.rt'), True),
            (lambda: os.remove(source), False),
            (lambda: change('// nothing\n'), True),
        )
        for number, (step, is_taken) in enumerate(steps):
            step()
            version = self.launch('--version').stdout
            self.assertEqual('program stored/pcboard' in version, is_taken, number)
            self.note()
        self.put(Stored.made['pcboard'].replace('it runs', 'it walks'))
        self.assertEqual(self.launch().stdout, AT_ONCE[1].replace('it runs', 'it walks'))

    def test_one_that_is_damaged_is_told_and_not_taken(self) -> None:
        self.store()
        path, text = f'{self.stored}/pcboard', f'{self.stored}/PROVED'
        for damage, why in (
            (lambda: os.remove(path), "isn't there"),
            (lambda: os.remove(text), "isn't there"),
            (lambda: os.truncate(path, 9), 'its SHA-256 is another'),
            (lambda: os.truncate(text, 9), 'its SHA-256 is another'),
            (lambda: self.file('top/stored/pcboard', '#!/bin/sh\necho another\n'), 'its SHA-256 is another'),
            (lambda: os.chmod(path, 0o644), 'it may not be executed'),
        ):
            shutil.copytree(self.stored, f'{self.room}/whole')
            damage()
            self.not_taken(why)
            shutil.rmtree(self.stored)
            os.rename(f'{self.room}/whole', self.stored)
        self.assertIn('proved elsewhere', self.at_once())
        os.truncate(path, 9)
        self.is_built_instead('its SHA-256 is another')
        shutil.rmtree(self.out)
        shutil.rmtree(self.stored)
        self.assertNotIn('stored', self.launch(has_rt=False).stderr)

    def test_one_that_is_missing_or_damaged_leaves_the_other(self) -> None:
        for gone, other in zip(NAMES, (*NAMES[1:], NAMES[0])):
            self.store()
            for damage, why in (
                (lambda: os.truncate(f'{self.stored}/{gone}', 9), 'its SHA-256 is another'),
                (lambda: os.remove(f'{self.stored}/{gone}'), f"one of stored/{gone} and stored/PROVED isn't there"),
            ):
                damage()
                self.not_taken(why, gone)
                ran = self.launch(has_rt=False, name=other)
                self.assertEqual((ran.returncode, ran.stdout), AT_ONCE)
                self.assertNotIn('taken', ran.stderr)
        self.store()
        self.file('top/stored/PROVED', re.sub('made pcprobe .*\n', '', Stored.made['PROVED']))
        self.not_taken('its SHA-256 is another', 'pcprobe')
        self.assertEqual(self.launch(has_rt=False).returncode, 0)
        for name, others in (('pcprobe', 'pcboard'), ('pcboard', 'pcprobe')):  # nor is one taken for the other
            shutil.copy(f'{self.stored}/{others}', f'{self.stored}/{name}')
            self.not_taken('its SHA-256 is another', name)
            self.store()

    def not_taken(self, why: str, name: str = 'pcboard') -> None:
        """Without Rattle nothing runs, and it is told why."""
        ran = self.launch(has_rt=False, name=name)
        self.assertEqual((ran.returncode, ran.stdout), (127, ''), why)
        self.assertRegex(ran.stderr, rf"\A{name}: stored/{name} isn't taken: .*{why}\n")

    def is_built_instead(self, why: str) -> None:
        """With Rattle one is built then, and it is told why."""
        ran = self.launch()
        self.assertEqual((ran.returncode, ran.stdout), AT_ONCE)
        self.assertRegex(ran.stderr, rf"\Apcboard: stored/pcboard isn't taken: .*{why}\npcboard: proving 2 crates")

    def test_one_that_does_not_start_here(self) -> None:
        """As on a machine of another kind, without the loader, with an older C library or processor."""
        self.store()
        for text in ('\x7fELF of another machine', '#!/no/such/loader\n', '#!/bin/sh\necho "GLIBC_2.99 not found" >&2\nexit 1\n', '#!/bin/sh\nkill -ILL $$\n'):
            self.put(text)
            self.not_taken("it doesn't start on this machine: [^\n]+")
        self.is_built_instead("it doesn't start on this machine: [^\n]+")

    def test_one_that_was_built_here_goes_first(self) -> None:
        self.store()
        self.put('#!/bin/sh\n[ "$1" != --help ] || exit 2\necho stored\n')
        self.assertEqual(self.launch(has_rt=False).stdout, 'stored\n')
        self.build('pcboard')
        self.assertEqual(self.launch(has_rt=False).stdout, 'it runs run\n')
        self.file('top/crates/pcboard/out/pcboard', '#!/bin/sh\necho another\n')
        os.utime(f'{self.out}/pcboard', (1, 1))
        self.assertEqual(self.launch(has_rt=False).stdout, 'stored\n')

    def test_the_version_tells_which_program_answers(self) -> None:
        for name in NAMES:
            self.versions(name)

    def versions(self, name: str) -> None:
        """What the version of a program tells, from its being stored on."""

        def version() -> list[str]:
            ran = self.launch('--version', has_rt=False, name=name)
            self.assertEqual((ran.returncode, ran.stderr), (0, ''))
            first, *rest = ran.stdout.splitlines()
            self.assertRegex(first, rf'\A{name} \d')
            return rest

        self.store()
        self.launch()
        facts = [f'kit {KIT}', f'logic {LOGIC}', f'sources {sum_of_sources(BELOW[name], self.top)}']
        self.assertEqual(version(), [*facts, f'program stored/{name}, proved elsewhere'])
        os.truncate(f'{self.stored}/{name}', 9)
        self.assertEqual(version()[3:], ['program none', f"stored/{name} isn't taken: it isn't the one of which stored/PROVED tells: its SHA-256 is another"])
        self.build(name)
        path = f'crates/{name}/out/{name}'
        self.assertEqual(version(), [*facts, f'program {path}, built here'])
        put_back = self.change_text('crates/low/src/lib.rt')
        self.assertEqual(version()[3], f'program {path}, made of other sources')
        put_back()
        self.file(f'top/{path}', '#!/bin/sh\necho another\n')
        self.assertNotIn(f'kit {KIT}', version())
        self.assertEqual(version()[3], f'program {path}, built here (no source is newer)')
        later = os.stat(f'{self.top}/{path}').st_mtime + 3600
        os.utime(f'{self.top}/crates/low/src/lib.rt', (later, later))
        self.assertEqual(version()[3], f'program {path}, perhaps made of other sources')
        os.utime(f'{self.top}/crates/low/src/lib.rt', (1, 1))

    def test_the_tools_take_the_same(self) -> None:
        shutil.copy(f'{TOP}/tools/toolbox/program.py', f'{self.top}/tools/toolbox')
        os.mkdir(f'{self.top}/python')
        shutil.copy(f'{TOP}/python/zebludor.py', f'{self.top}/python')
        asked = f'import sys; sys.path.insert(0, "{self.top}/tools"); from toolbox import program; print(program.path("%s"))'
        ask = {name: ['/usr/bin/env', 'python3', '-B', '-c', asked % name] for name in NAMES}
        for name in NAMES:
            self.assertIn(f'no {name} is built here; a first run of ./{name} builds one, or name one in {name.upper()}', self.start(*ask[name]).stderr)
        self.store()
        first, then = self.start(*ask['pcboard']), self.start(*ask['pcprobe'])
        self.assertEqual((first.stdout, then.stdout, then.stderr), (f'{self.stored}/pcboard\n', f'{self.stored}/pcprobe\n', ''))
        self.assertIn('proved elsewhere', first.stderr)
        for name in NAMES:
            os.truncate(f'{self.stored}/{name}', 9)
            self.assertIn(f"stored/{name} isn't taken", self.start(*ask[name]).stderr)
            self.build(name)
        self.change_text('crates/low/src/lib.rt')
        for name in NAMES:
            self.assertEqual(self.start(*ask[name]).stdout, f'{self.top}/crates/{name}/out/{name}\n')
            another, none = self.file('another', '#!/bin/sh\n'), f'{self.room}/none'
            os.chmod(another, 0o755)
            self.assertEqual(self.start('/usr/bin/env', f'{name.upper()}={another}', *ask[name][1:]).stdout, f'{another}\n')
            self.assertIn(
                f"the program {none}, which {name.upper()} names, isn't there", self.start('/usr/bin/env', f'{name.upper()}={none}', *ask[name][1:]).stderr
            )

    def test_the_reason_of_what_does_not_start(self) -> None:
        """What the loader or the shell says, and that the C library is too old."""
        self.store()
        missing = "/lib/libc.so.6: version `GLIBC_%s' not found (required by it)"
        for text, why in (
            ('#!/no/such/loader\n', 'No such file or directory$|required file not found$'),
            ('#!/bin/sh\nexit 7\n', 'it ends with status 7$'),
            ('#!/bin/sh\n' + ''.join(f'echo "{missing % version}" >&2\n' for version in ('2.9', '2.34', '2.4')).replace('`', '\\`') + 'exit 1\n', ''),
        ):
            self.put(text)
            line = self.launch(has_rt=False).stderr.splitlines()[0]
            glibc = 'it needs glibc 2.34 or later, and here is glibc [0-9.]+; /lib/libc.so.6: version `GLIBC_2.9. not found'
            self.assertRegex(line, why or glibc)

    def test_the_real_loaders_reason(self) -> None:
        """Of the program that is tested, made to want a later C library: its name of a version, and the sum of this name."""
        self.store()
        with open(program.path(), 'rb') as file:
            octets = file.read()

        def of_name(name: bytes) -> bytes:
            found = 0
            for octet in name:
                found = (found << 4) + octet
                high = found & 0xF0000000
                found = (found ^ high >> 24) & ~high
            return found.to_bytes(4, 'little')

        was, now = b'GLIBC_2.34', b'GLIBC_9.99'
        self.assertTrue(was in octets and of_name(was) in octets)
        path = self.file('top/stored/pcboard', '')
        with open(path, 'wb') as file:
            file.write(octets.replace(was, now).replace(of_name(was), of_name(now)))
        os.chmod(path, 0o755)
        whole = self.proved(self.stored)
        self.file('top/stored/PROVED', whole.text().replace(whole.made['pcboard'].sum, sum_of(path)))
        self.not_taken("it doesn't start on this machine: it needs glibc 9.99 or later, and here is glibc [0-9.]+; [^\\n]*GLIBC_9.99. not found[^\\n]*")

    def named(self, path: str, *words: str, name: str = 'pcboard') -> subprocess.CompletedProcess[str]:
        """A start of the launcher, where the environment names a program."""
        environment = {'PATH': '/usr/bin:/bin', 'XDG_CACHE_HOME': f'{self.room}/cache', name.upper(): path}
        words = words or ('run',)
        return subprocess.run([f'{self.top}/{name}', *words], capture_output=True, text=True, check=False, env=environment, cwd=self.room)

    def test_one_that_the_environment_names(self) -> None:
        self.store()
        self.launch()
        os.chmod(self.file('mine', '#!/bin/sh\necho "mine, $PCBOARD$PCPROBE$PCMASM $*"\n'), 0o755)
        for path in (f'{self.room}/mine', 'mine', './mine', '../' + os.path.basename(self.room) + '/mine'):
            for name in NAMES:
                ran = self.named(path, name=name)
                self.assertEqual((ran.returncode, ran.stdout, ran.stderr), (0, 'mine,  run\n', ''))
        self.assertEqual(self.named('').stdout, AT_ONCE[1])
        os.remove(f'{self.stored}/pcboard')  # nor is anything of the stored one wanted then
        self.assertEqual(self.named('mine').stdout, 'mine,  run\n')

    def test_one_that_leads_to_the_launcher_counts_as_none(self) -> None:
        self.store()
        self.launch()
        os.symlink('top/pcboard', f'{self.room}/a link')
        os.symlink('a link', f'{self.room}/a link to it')
        os.link(f'{self.top}/pcboard', f'{self.room}/another name')
        os.chmod(self.file('a script', f'#!/bin/sh\nexec "{self.top}/pcboard" "$@"\n'), 0o755)
        for path in (
            f'{self.top}/pcboard',
            'top/../top/pcboard',
            f'{self.top}/pcprobe',
            f'{self.top}/pcmasm',
            'a link',
            'a link to it',
            'another name',
            'a script',
        ):
            ran = self.named(path)
            self.assertEqual((ran.returncode, ran.stdout, ran.stderr), (*AT_ONCE, ''), path)

    def test_one_that_is_not_there_is_refused(self) -> None:
        self.store()
        self.launch()
        self.file('no program', '')
        for words in (('run',), ('--version',)):
            for path, why in (('none', "isn't there"), ('none/none', "isn't there"), ('top', "can't be started"), ('no program', "can't be started")):
                ran, shown = self.named(path, *words), path if '/' in path else f'./{path}'
                self.assertEqual((ran.returncode, ran.stdout, ran.stderr), (127, '', f'pcboard: the program {shown}, which PCBOARD names, {why}\n'))

    def test_the_version_calls_it_proved_by_its_sum_alone(self) -> None:
        self.store()
        self.launch()
        shutil.copy(f'{self.stored}/pcboard', f'{self.room}/copy')
        facts = [f'kit {KIT}', f'logic {LOGIC}']
        lines = self.named('copy', '--version').stdout.splitlines()
        self.assertEqual((lines[1:3], lines[4:]), (facts, ['program ./copy, which PCBOARD names, and which was proved']))
        with open(f'{self.room}/copy', 'ab') as file:
            file.write(b'\n')
        for path in ('copy', f'{self.stored}/pcprobe'):
            lines = self.named(path, '--version').stdout.splitlines()
            self.assertEqual(lines[1:], [f'program {path if "/" in path else "./copy"}, which PCBOARD names; nothing here tells that it was proved'])

    def package(self) -> None:
        """Leaves that repository as a package has it: the stored programs without the sources, and RELEASE."""
        self.store()
        for path in ('crates.txt', 'dev/build'):
            os.remove(f'{self.top}/{path}')
        shutil.rmtree(f'{self.top}/crates')
        self.file('top/RELEASE', '')

    def change(self, path: str) -> None:
        """Changes a file as strip would."""
        with open(path, 'a', encoding='utf-8') as file:
            file.write('# changed\n')

    def test_one_that_a_package_has_changed(self) -> None:
        self.package()
        self.launch()
        self.change(f'{self.stored}/pcboard')
        self.not_taken('its SHA-256 is another')
        with open(f'{self.stored}/PROVED', 'a', encoding='utf-8') as file:
            file.write(f'changed pcboard {sum_of(f"{self.stored}/pcboard")}\n')
        self.assertEqual(self.launch(has_rt=False).stdout, AT_ONCE[1])
        lines = self.launch('--version').stdout.splitlines()
        self.assertEqual(lines[1:3] + lines[4:], [f'kit {KIT}', f'logic {LOGIC}', 'program stored/pcboard, proved elsewhere and changed by the package'])
        self.assertEqual(self.launch('--version', name='pcprobe').stdout.splitlines()[4], 'program stored/pcprobe, proved elsewhere')
        self.assertEqual(self.proved(self.stored).kit, KIT)
        shutil.rmtree(f'{self.room}/cache')
        self.assertIn(f'with {KIT}, and the package has changed them since, as strip does; RELEASE has', self.launch().stderr)
        self.change(f'{self.stored}/pcboard')
        self.not_taken('its SHA-256 is another')

    def test_a_clone_takes_none_that_is_changed(self) -> None:
        self.store()
        self.launch()
        self.change(f'{self.stored}/pcboard')
        with open(f'{self.stored}/PROVED', 'a', encoding='utf-8') as file:
            file.write(f'changed pcboard {sum_of(f"{self.stored}/pcboard")}\n')
        self.not_taken('its SHA-256 is another')

    def test_a_proof_here_is_compared(self) -> None:
        for name in NAMES:
            self.store()
            whole = self.proved(self.stored).text()
            self.assertIn(f'{name}: its bytes are those of stored/{name}, and the verdicts are the same\n', self.build(name))
            self.file('top/stored/PROVED', whole.replace(f'low: {VERDICT}', 'low: logic=proved functions=2').replace(KIT, 'rattle-kit-0'))
            self.assertIn(f'its bytes are those of stored/{name}, by {KIT} as by rattle-kit-0, but the verdicts of low are others\n', self.build(name))
            self.file('top/stored/PROVED', whole)
            self.put('#!/bin/sh\necho another\n', name)
            self.assertIn(f'its bytes are NOT those of stored/{name}, which the same kit made of the same sources\n', self.build(name))
            os.truncate(f'{self.stored}/{name}', 9)
            self.assertIn(f"stored/{name} isn't the one that stored/PROVED tells of\n", self.build(name))

    def refused(self) -> str:
        """What is told where nothing is stored."""

        def held() -> dict[str, bytes]:
            found = {}
            for name in os.listdir(self.stored) if os.path.isdir(self.stored) else ():
                with open(f'{self.stored}/{name}', 'rb') as file:
                    found[name] = file.read()
            return found

        before = held()
        ran = self.start(f'{self.top}/dev/build', '--store')
        self.assertEqual((ran.returncode, ran.stdout, held()), (2, '', before))
        return ran.stderr

    def test_what_is_stored(self) -> None:
        self.assertIn('crates/pcboard/out has no program', self.refused())
        self.build('pcboard')
        self.assertIn('crates/pcprobe/out has no program; tools/test makes one, and so do rt ci and dev/build pcprobe', self.refused())
        self.build('pcprobe')
        self.assertIn('crates/pcmasm/out has no program', self.refused())
        self.build('pcmasm')
        self.assertIn(f'stored/PROVED: {KIT}, 5 verdicts', self.build('--store'))
        with open(f'{self.stored}/PROVED', encoding='utf-8') as file:
            lines = file.read().splitlines()
        made = [f'made {name} {sum_of(f"{self.stored}/{name}")} sources {sum_of_sources(BELOW[name], self.top)}' for name in NAMES]
        self.assertEqual(lines, [f'kit {KIT}', f'logic {LOGIC}', *made, *(f'{crate}: {VERDICT}' for crate in ALL)])
        self.assertEqual(sorted(os.listdir(self.stored)), ['PROVED', *sorted(NAMES)])
        for name in NAMES:
            self.assertEqual(os.stat(f'{self.stored}/{name}').st_mode & 0o777, 0o755)
            self.assertEqual(sum_of(f'{self.stored}/{name}'), sum_of(f'{self.top}/crates/{name}/out/{name}'))

    def test_all_are_renewed_or_none(self) -> None:
        self.build_all()
        self.build('--store')
        for gone in NAMES:
            os.rename(f'{self.top}/crates/{gone}/out', f'{self.room}/out')
            self.assertIn(f'crates/{gone}/out has no program', self.refused())
            os.rename(f'{self.room}/out', f'{self.top}/crates/{gone}/out')
        for crate, stale in (('pcprobe', 'pcprobe'), ('probe', 'pcprobe'), ('pcboard', 'pcboard'), ('pcmasm', 'pcmasm'), ('low', 'pcboard')):
            put_back = self.change_text(f'crates/{crate}/src/New.rt')
            self.assertIn(f'crates/{stale}/out/{stale} is not made of the present sources', self.refused())
            put_back()
        self.change_text('crates/probe/src/lib.rt')
        self.build('pcprobe')
        self.build('--store')
        self.assertEqual(self.proved(self.stored).made['pcprobe'].sources, sum_of_sources(BELOW['pcprobe'], self.top))

    def test_one_kit_makes_all(self) -> None:
        self.build('pcboard')
        self.file('bin/rt', '#!/bin/sh\necho "rattle-kit-2 logic 0"\n')
        for name in NAMES[1:]:
            self.build(name)
        made = f'{KIT} made crates/pcboard/out/pcboard and rattle-kit-2 made crates/pcprobe/out/pcprobe and rattle-kit-2 made crates/pcmasm/out/pcmasm'
        self.assertIn(f'{made}; one kit has to make all of them', self.refused())
        self.build('pcboard')
        shutil.rmtree(f'{self.room}/cache')
        self.file('bin/rt', f'#!/bin/sh\necho "{KIT} logic {LOGIC}"\n')
        self.assertIn('rattle-kit-2, 5 verdicts', self.build('--store'))
        self.file('top/crates/pcprobe/out/PROVED', self.proved(f'{self.top}/crates/pcprobe/out').text().replace(f'low: {VERDICT}\n', ''))
        self.assertIn("was built by rattle-kit-2, which isn't the kit that is here", self.refused())

    def test_a_crate_whose_verdict_is_lost_is_proved_again(self) -> None:
        self.build_all()
        shutil.rmtree(f'{self.room}/cache/zebludor/verdicts')
        self.assertIn('2 of 2: pcboard', self.build('pcboard'))
        self.assertIn('3 of 3: pcprobe', self.build('pcprobe'))
        self.assertIn('2 of 2: pcmasm', self.build('pcmasm'))
        self.build('--store')

    def test_verdicts_that_are_unknown_can_be_proved_alone(self) -> None:
        """Nothing that stands there is changed by it."""
        self.file('bin/rt', CI)
        self.start('/bin/sh', '-c', 'cd "$1" && rt ci', '', self.top)
        before = sorted(os.walk(f'{self.top}/crates'))
        self.assertEqual(re.findall(r'proving (\w+) again', self.build('--verdicts')), ALL)
        self.assertEqual(sorted(os.walk(f'{self.top}/crates')), before)
        self.assertEqual(self.build('--verdicts'), '')
        self.build('--store')

    def test_a_proof_without_a_verdict_is_none(self) -> None:
        with open(f'{self.room}/bin/rattle', encoding='ascii') as file:
            text = file.read()
        self.file('bin/rattle', text.replace('echo "logic=proved', 'echo "logic=unproved'))
        ran = self.start(f'{self.top}/dev/build', 'pcboard')
        self.assertEqual(ran.returncode, 1)
        self.assertIn('low: it ended well and told no verdict\n', ran.stderr)

    def by_gate(self, ci: str = CI, counts: str = '(3, 0)') -> None:
        """The gate's first part, over an `rt ci` that proves the program's crates."""
        self.file('bin/rt', ci)
        shutil.copy(f'{TOP}/tools/test', f'{self.top}/tools/test')
        ran = self.start(
            '/bin/sh', '-c', 'cd "$1" && PYTHONPATH=tools python3 -B -c \'import runpy; print(runpy.run_path("tools/test")["gate"]())\'', '', self.top
        )
        self.assertEqual((ran.stdout.splitlines()[-1:], ran.stderr), ([counts], ''))

    def test_those_that_the_gate_built_are_stored(self) -> None:
        self.by_gate()
        for name in NAMES:
            self.assertEqual(self.proved(f'{self.top}/crates/{name}/out').verdicts, dict.fromkeys(BELOW[name], VERDICT))
            self.assertEqual(self.launch('--version', name=name).stdout.splitlines()[-1], f'program crates/{name}/out/{name}, built here')
        self.build('--store')
        stored = self.proved(self.stored)
        self.assertEqual((stored.kit, stored.logic, stored.verdicts), (KIT, LOGIC, dict.fromkeys(ALL, VERDICT)))
        for name in NAMES:
            self.assertEqual(stored.made[name], self.proved(f'{self.top}/crates/{name}/out').made[name])

    def test_a_gate_that_failed_or_whose_sources_changed_meanwhile_tells_nothing_of_the_program(self) -> None:
        self.by_gate(CI.replace('3 passed, 0', '2 passed, 1'), '(2, 1)')
        self.assertIsNone(proved.read(self.out))
        shutil.rmtree(f'{self.room}/cache')
        self.by_gate(CI.replace('for name', 'echo "// more" >> crates/probe/src/lib.rt\nfor name'))
        self.assertEqual((proved.read(self.out) is None, proved.read(f'{self.top}/crates/pcprobe/out')), (False, None))
        self.assertIn('nothing here has seen the verdicts of pcprobe, probe', self.refused())

    def test_those_that_rt_ci_left_are_stored_by_their_time_once_their_verdicts_are_known(self) -> None:
        self.file('bin/rt', CI)
        printed = self.start('/bin/sh', '-c', 'cd "$1" && rt ci', '', self.top).stdout
        self.assertIn('nothing here has seen the verdicts of low, pcboard; ', self.refused())
        self.assertEqual(self.build('--seen', self.file('log', printed), self.top), f'5 verdicts: {" ".join(ALL)}\n')
        for name in NAMES:
            self.assertFalse(os.path.exists(f'{self.top}/crates/{name}/out/PROVED'))
        self.touch('crates/low/src/lib.rt')
        self.assertIn('crates/low/src/lib.rt is newer than crates/pcboard/out/pcboard', self.refused())
        ran = self.start(f'{self.top}/dev/build', '--seen', f'{self.room}/log', self.top)
        self.assertEqual(ran.returncode, 2)
        self.assertIn(f'is newer than {self.room}/log', ran.stderr)
        os.utime(f'{self.top}/crates/low/src/lib.rt', (1, 1))
        for name in NAMES:
            out = f'{self.top}/crates/{name}/out'
            os.rename(f'{out}/stdout', f'{self.room}/stdout')
            self.assertIn(f'nothing tells what crates/{name}/out/{name} was made of', self.refused())  # as of one that was copied there
            os.rename(f'{self.room}/stdout', f'{out}/stdout')
        self.build('--store')
        for name in NAMES:
            shutil.rmtree(f'{self.top}/crates/{name}/out')
        self.assertIn('proved elsewhere', self.at_once())

    def test_verdicts_are_read_from_what_rt_ci_prints(self) -> None:
        lines = [
            '== one',
            'logic=proved functions=3 sum=1',
            'rt: one proved',
            'rt: two is kept: as before',
            'rt: two proved',
            '== three',
            'rt: three proved',
            '== four: its tests',
            'logic=proved tests=1 functions=3',
            'rt: four: its tests are proved',
            '== four',
            'logic=proved functions=4',
            'rt: four NOT PROVED',
        ]
        self.assertEqual(proved.verdicts_in(lines[:4] + lines[5:]), {'one': 'logic=proved functions=3 sum=1'})


class Checkout(ToolCase):
    """What git makes of it."""

    def test_git_changes_no_byte(self) -> None:
        """Nor of sources, whose sum is of their bytes, where git is told to change the ends of lines."""
        if not is_there('git', 'what git makes of the stored programs', 'git'):
            return
        top, text = f'{self.room}/top', b'one\r\ntwo\nthree\0\n'
        git = ['git', '-c', 'core.autocrlf=true', '-c', 'user.name=it', '-c', 'user.email=it', '-c', 'commit.gpgsign=false']
        paths = (*(f'stored/{name}' for name in NAMES), 'stored/PROVED', 'crates.txt', 'crates/isa/src/lib.rt', 'crates/isa/specs/Lib.antt')
        for path in paths:
            os.makedirs(f'{top}/{os.path.dirname(path)}', exist_ok=True)
            with open(f'{top}/{path}', 'wb') as file:
                file.write(text)
        for name in NAMES:
            os.chmod(f'{top}/stored/{name}', 0o755)
        shutil.copy(f'{TOP}/.gitattributes', top)
        for words in (['init', '-q'], ['add', '.'], ['commit', '-q', '-m', 'it'], ['clone', '-q', '.', f'{self.room}/clone']):
            subprocess.run([*git, *words], cwd=top, check=True, stdin=subprocess.DEVNULL, stderr=subprocess.DEVNULL)
        for path in paths:
            with open(f'{self.room}/clone/{path}', 'rb') as file:
                self.assertEqual(file.read(), text, path)
        for name in NAMES:
            self.assertTrue(os.access(f'{self.room}/clone/stored/{name}', os.X_OK))


class Gate(ToolCase):
    """The stored programs against those that are tested, which the gate built."""

    def test_what_was_built_has_the_stored_bytes(self) -> None:
        """By the same kit of the same sources. A stored program that is older than the sources is told, and no failure."""
        stored = proved.read(f'{TOP}/stored')
        assert stored
        self.assertEqual(sorted(stored.made), sorted((*NAMES, *proved.LIBRARY_FILES)), 'stored/PROVED tells of others than the stored files')
        for name in proved.LIBRARY_FILES:
            self.assertTrue(stored.of(f'{TOP}/stored/{name}'), f"stored/{name} isn't the one that stored/PROVED tells of")
        for name in NAMES:
            self.compare(name, stored)

    def compare(self, name: str, stored: proved.Proved) -> None:
        """Compares one of them."""
        path, names = os.path.realpath(program.path(name)), Crates(TOP).below(name)
        self.assertTrue(stored.of(f'{TOP}/stored/{name}'), f"stored/{name} isn't the one that stored/PROVED tells of")
        present = sum_of_sources(names, TOP)
        if stored.made[name].sources == present:
            self.assertLessEqual(names, stored.verdicts.keys())
        if os.path.samefile(path, f'{TOP}/stored/{name}'):
            not_run(f'stored/{name} against one that was built here, since it is the one that is tested')
            return
        built = proved.read(os.path.dirname(path))
        if built and not built.of(path):
            built = None
        why = incomparable(name, stored, built, present)
        if why or built is None:
            not_run(str(why))
            return
        self.assertEqual(built.made[name], stored.made[name])
        self.assertEqual({crate: stored.verdicts[crate] for crate in built.verdicts}, built.verdicts)

    def test_when_they_are_compared(self) -> None:
        def made_of(sources: str, its_sum: str = 'sum') -> dict[str, proved.Made]:
            return {'pcprobe': proved.Made(its_sum, sources), 'pcboard': proved.Made('sum', 'its own')}

        stored = proved.Proved('kit', 'logic', made_of('sources'), {})
        for built, present, why in (
            (stored, 'sources', None),
            (replace(stored, made=made_of('sources', 'other'), logic='other'), 'sources', None),
            (None, 'sources', 'nothing tells'),
            (stored, 'newer', 'dev/build --store renews it'),
            (None, 'newer', 'dev/build --store renews it'),
            (replace(stored, made=made_of('other')), 'sources', 'that is tested was made of other sources'),
            (replace(stored, kit='other'), 'sources', 'kit made stored/pcprobe, other the pcprobe that is tested'),
        ):
            said = incomparable('pcprobe', stored, built, present)
            self.assertTrue(said is None if why is None else said and why in said, said)

    def clone(self) -> str:
        """A copy of the repository, in which the programs that are tested are the stored ones."""
        top = f'{self.room}/a clone'
        ignored = shutil.ignore_patterns('out', '.git', '__pycache__', 'must-fail', 'refused', 'docs')
        shutil.copytree(TOP, top, ignore=ignored, symlinks=True)
        shutil.rmtree(f'{top}/stored', ignore_errors=True)
        os.makedirs(f'{top}/stored')
        whole = proved.Proved('rattle-kit-0', '0', {}, {})
        for name in NAMES:
            shutil.copy(program.path(name), f'{top}/stored/{name}')
            names = Crates(top).below(name)
            whole.made[name] = proved.Made(sum_of(f'{top}/stored/{name}'), sum_of_sources(names, top))
            whole.verdicts.update(dict.fromkeys(names, VERDICT))
        write_text(f'{top}/stored/PROVED', whole.text())
        return top

    def launch(self, top: str, line: str) -> subprocess.CompletedProcess[str]:
        """Runs a line of the shell at its top, where nothing of Rattle is on the path."""
        return subprocess.run(
            ['/bin/sh', '-c', line],
            cwd=top,
            capture_output=True,
            text=True,
            check=False,
            stdin=subprocess.DEVNULL,
            env={'PATH': '/usr/bin:/bin', 'HOME': self.room},
        )

    def test_a_clean_clone_answers_within_a_second(self) -> None:
        """README's first command, where nothing was proved."""
        with open(f'{TOP}/README.md', encoding='utf-8') as page:
            line, printed = re.findall(r'^```\n(\./pcboard run .*)\n```\n\nprints\n\n```\n(.*?)^```', page.read(), re.M | re.S)[0]
        top, before = self.clone(), resource.getrusage(resource.RUSAGE_CHILDREN)
        ran = self.launch(top, line)
        after = resource.getrusage(resource.RUSAGE_CHILDREN)
        self.assertEqual((ran.returncode, ran.stdout[: len(printed) - 1]), (0, printed.rstrip()))
        self.assertIn('proved elsewhere', ran.stderr)
        self.assert_within(after.ru_utime + after.ru_stime - before.ru_utime - before.ru_stime, 1)
        self.assertEqual(self.launch(top, line).stderr, '')
        probed = self.launch(top, f'echo list FFFF0 1 | {line.replace("./pcboard run", "./pcprobe")}')
        self.assertEqual((probed.returncode, probed.stdout, probed.stderr), (0, 'F000:FFF0 EA000000F0 JMP FAR 0F000h:00000h\n', ''))
        ran = self.launch(top, 'tools/try examples/hello.asm')
        self.assertEqual((ran.returncode, ran.stdout.partition('\n')[0].rstrip()), (0, 'HI'))

    def test_what_the_launcher_adds_to_the_program(self) -> None:
        top, run = self.clone(), './pcboard run examples/hello.asm'
        self.assertIn('proved elsewhere', self.launch(top, './pcboard --version').stderr)
        for line, status, wanted in (
            (f'{run} none', 3, "pcboard: none can't be opened: it isn't there\n"),
            (f'{run} examples', 3, "pcboard: examples can't be read: it is a folder\n"),
            (f'{run} examples/hello.json >/dev/full', 3, "pcboard: the answer couldn't be written, or what it is made from couldn't be read\n"),
            ('./pcboard asm examples/hello.json', 1, r'fault \d+ \w+ line 1\n'),
            ('./pcboard --help | head -1 >/dev/null', 0, ''),
            ('./pcboard -h', 0, ''),
        ):
            ran = self.launch(top, line)
            self.assertEqual(ran.returncode, status, line)
            self.assertRegex(ran.stderr, rf'\A{wanted}\Z', line)
            self.assertEqual(ran.stdout != '', line.endswith('-h'), line)


if __name__ == '__main__':
    unittest.main()
