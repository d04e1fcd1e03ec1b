"""dev/release --target: what it makes of the programs and libraries that dev/build has made for another target. Those of x86-64 Linux and bytes
that nobody starts stand in for them, so neither compilers nor runners are wanted, but for 64-bit ARM, whose libraries a compiler links."""
from __future__ import annotations

import hashlib
import io
import os
import re
import shutil
import subprocess
import sys
import tarfile
import unittest
import zipfile

from parts import debian, release, targets, wheel
from tests.repository import KIT, LOGIC
from tests.support import EXAMPLES, is_there
from tests.test_release import CRATES, RUN, VERDICT, Unpacked
from toolbox import program, proved
from toolbox.crates import Crates
from toolbox.proved import PROGRAMS, Made, Proved
from toolbox.sources import sum_of, sum_of_sources

NOW = release.version()


class ForTargets(Unpacked):
    """That repository, for which dev/build has made something else."""

    def put(self, target: str) -> dict[str, str]:
        """Puts stand-ins for all files of a target there, each with PROVED. Returns the crate of each by its name."""
        found = dict[str, str]()
        for crate, file in release.built(Crates(self.top), target):
            folder = f'crates/{crate}/out/{target}'
            os.makedirs(f'{self.top}/{folder}', exist_ok=True)
            with open(f'{self.top}/{folder}/{file}', 'wb') as to:
                to.write(self.stand_in(crate, file, target))
            found[file] = crate
        for crate in {*found.values()}:
            folder = f'{self.top}/crates/{crate}/out/{target}'
            made = {file: Made(sum_of(f'{folder}/{file}'), self.sources(crate)) for file in found if found[file] == crate}
            of = f'target {target} module {hashlib.sha256(crate.encode()).hexdigest()}\ntrusted a linker\n'
            text = Proved(KIT, LOGIC, made, {each: f'{VERDICT} of={each}' for each in CRATES[crate]}, of).text()
            self.file(os.path.relpath(f'{folder}/PROVED', self.room), text)
        return found

    def stand_in(self, crate: str, file: str, target: str) -> bytes:
        """A program of x86-64 Linux, or the file's name; for 64-bit ARM what can be linked or stripped."""
        if target == 'aarch64':
            return self.stand_in_library('aarch64-linux-gnu-') if file.endswith('.a') else self.empty_program()
        return release.read(program.path(crate)) if crate in PROGRAMS else file.encode()

    def empty_program(self) -> bytes:
        """A program for 64-bit ARM that does nothing."""
        subprocess.run(['aarch64-linux-gnu-gcc', '-o', f'{self.room}/empty', self.file('empty.c', 'int main(void) { return 0; }\n')], check=True)
        return release.read(f'{self.room}/empty')

    def sources(self, crate: str) -> str:
        return sum_of_sources(CRATES[crate], self.top)

    def release_of(self, target: str) -> list[str]:
        """The paths that dev/release --target makes, whose sums it prints."""
        into = f'{self.room}/into-{target}'
        os.makedirs(into, exist_ok=True)
        ran = self.start(sys.executable, '-S', f'{self.top}/dev/release', '--target', target, '--into', into)
        self.assertEqual((ran.returncode, ran.stderr), (0, ''))
        paths = [line.partition('  ')[2] for line in ran.stdout.splitlines()]
        self.assertEqual(ran.stdout, ''.join(f'{sum_of(path)}  {path}\n' for path in paths))
        return paths

    def inside(self, path: str) -> dict[str, bytes]:
        """The files of an archive, a zip or a wheel, by their paths."""
        if path.endswith('.tar.gz'):
            with tarfile.open(path) as whole:
                return {each.name: file.read() for each in whole if (file := whole.extractfile(each))}
        with zipfile.ZipFile(path) as whole:
            return {name: whole.read(name) for name in whole.namelist()}

    def is_told(self, files: dict[str, bytes], top: str, target: str, found: dict[str, str]) -> None:
        """Each file that dev/build made stands there, and PROVED and RELEASE tell its sum, its sources, its target and its verdicts."""
        stored, whole = files[f'{top}/stored/PROVED'].decode(), files[f'{top}/RELEASE'].decode()
        self.assertEqual(whole.partition('\n')[0], f'zebludor {NOW} {release.PACKED[target][0]}')
        for file, crate in found.items():
            place = release.place_of(crate, file)
            its_sum, of = hashlib.sha256(files[f'{top}/{place}']).hexdigest(), f'target {target} module {hashlib.sha256(crate.encode()).hexdigest()}\n'
            self.assertIn(f'made {place} {its_sum} sources {self.sources(crate)}\n', whole)
            self.assertEqual(f'made {file} {its_sum} sources {self.sources(crate)}\n' in stored, place.startswith('stored/'), file)
            for text in (stored, whole):
                self.assertIn(of, text)
                self.assertIn(f'{crate}: {VERDICT} of={crate}\n', text)

    def test_each_has_what_was_built(self) -> None:
        """The programs, the library that the tools load and PROVED; launchers where there is a shell for them."""
        for target, (platform, tag) in release.PACKED.items():
            if target == 'aarch64':
                continue
            found, top = self.put(target), f'zebludor-{NOW}-{platform}'
            paths = self.release_of(target)
            ending = 'zip' if target == 'windows' else 'tar.gz'
            self.assertEqual([os.path.basename(path) for path in paths], [f'{top}.{ending}', *([wheel.name(NOW, tag)] if tag else [])])
            for path, folder in zip(paths, (top, wheel.FILES)):
                files = self.inside(path)
                self.is_told(files, folder, target, found)
                self.assertEqual(f'{folder}/pcboard' in files, target not in release.NO_LAUNCHER)
                self.assertEqual({name for name in files if f'{folder}/stored/libzebludor.so' == name}, set(), target)
                self.assertLessEqual({f'{folder}/{each}' for each in ('tools/try', 'docs/install.md', 'c/zebludor.h', 'SHA256SUMS')}, set(files))
            if tag:
                info = files[f'zebludor-{NOW}.dist-info/WHEEL'], files[f'zebludor-{NOW}.dist-info/METADATA']
                self.assertIn(f'Tag: {tag}\n'.encode(), info[0])
                self.assertIn({'w': b':: Microsoft :: Windows\n', 'm': b':: MacOS\n'}[target[0]], info[1])
            self.assertEqual(list(map(sum_of, paths)), list(map(sum_of, self.release_of(target))))

    def test_an_archive_runs(self) -> None:
        """Where musl is, by its launcher; so it is here, by the programs that stand in."""
        self.put('musl')
        (path,) = self.release_of('musl')
        subprocess.run(['tar', '-xzf', path, '-C', self.room], check=True)
        status, out, err = self.run_in(f'{self.room}/{os.path.basename(path).removesuffix(".tar.gz")}', './pcboard', 'run', *RUN.split(), path='/usr/bin:/bin')
        self.assertEqual((status, out.partition('\n')[0]), (0, 'clock 100'), err)

    def test_a_wheel_without_launchers_runs(self) -> None:
        """Its commands start the programs themselves, and its tools too."""
        self.put('macos-arm64')
        room = f'{self.room}/site'
        with zipfile.ZipFile(self.release_of('macos-arm64')[1]) as whole:
            for each in whole.infolist():
                os.chmod(whole.extract(each, room), each.external_attr >> 16 & 0o777)
        files = [f'{EXAMPLES}/hello.{each}' for each in ('asm', 'json')]
        for command, words, printed in (
            ('pcboard', ['run', *files], 'clock 100\n'),
            ('zebludor', ['why', 'run', *files], '\nHI '),
            ('zebludor', ['--version'], KIT),
        ):
            code = f'import zebludor_start; zebludor_start.{command}()'
            env = {'PATH': '/usr/bin:/bin', 'PYTHONPATH': room, 'HOME': self.room, 'PYTHONDONTWRITEBYTECODE': '1'}
            ran = subprocess.run([sys.executable, '-c', code, *words], env=env, capture_output=True, text=True, check=False)
            self.assertEqual((ran.returncode, printed in ran.stdout, ran.stderr), (0, True, ''), (command, ran.stdout))

    def test_64_bit_arm(self) -> None:
        """Also as a Debian package, whose libraries stand where its linker looks."""
        if not is_there('aarch64-linux-gnu-gcc', 'a release for 64-bit ARM', 'gcc-aarch64-linux-gnu libc6-dev-arm64-cross'):
            return
        found = self.put('aarch64')
        archive, its_wheel, package = self.release_of('aarch64')
        names = f'zebludor-{NOW}-aarch64-linux.tar.gz', wheel.name(NOW, 'py3-none-manylinux_2_17_aarch64'), f'zebludor_{NOW}_arm64.deb'
        self.assertEqual([os.path.basename(path) for path in (archive, its_wheel, package)], list(names))
        files = self.inside(archive)
        self.is_told(files, names[0].removesuffix('.tar.gz'), 'aarch64', found)
        self.is_told(self.inside(its_wheel), wheel.FILES, 'aarch64', found)
        self.assertEqual(files[f'{names[0].removesuffix(".tar.gz")}/lib/libzebludor_chips.so'][18:20], b'\xb7\0')  # ELF's number of that processor
        octets = release.read(package)
        with tarfile.open(fileobj=io.BytesIO(parts_of(octets)['control.tar.gz'])) as whole:
            control = whole.extractfile('./control')
            assert control
            self.assertIn(b'Architecture: arm64\n', control.read())
        with tarfile.open(fileobj=io.BytesIO(parts_of(octets)['data.tar.gz'])) as whole:
            self.assertLessEqual({f'./{debian.ARM64[1]}/lib{each}.a' for each in release.LIBRARIES} | {'./usr/lib/zebludor/pcboard'}, set(whole.getnames()))

    def test_what_is_missing(self) -> None:
        """A sentence for each file that isn't there, isn't what PROVED tells, or is of other sources or another kit; and nothing is made."""
        found = self.put('windows')
        os.remove(f'{self.top}/crates/pcprobe/out/windows/pcprobe.exe')
        self.file('top/crates/pcmasm/out/windows/pcmasm.exe', 'another one')
        shutil.rmtree(f'{self.top}/crates/zebludor_chips/out/windows')
        self.file('top/crates/zebludor_program/src/lib.rt', '// another text\n')
        path = f'{self.top}/crates/pcboard/out/windows/PROVED'
        text = release.read(path).decode()
        self.file(os.path.relpath(path, self.room), text.replace(f'kit {KIT}', 'kit another'))
        ran = self.start(sys.executable, '-S', f'{self.top}/dev/release', '--target', 'windows', '--into', self.room)
        self.assertEqual((ran.returncode, ran.stdout), (1, ''))
        lines = ran.stderr.splitlines()
        self.assertTrue(all(line.startswith('release: ') and line.endswith(' --target windows makes it') for line in lines), lines)
        for file in found:
            self.assertTrue(any(re.search(rf"/{re.escape(file)}\b", line) for line in lines), (file, lines))
        self.assertEqual([name for name in os.listdir(self.room) if 'windows' in name], [])

    def test_each_target_of_dev_build_is_known(self) -> None:
        self.assertEqual({*release.PACKED}, {*targets.TARGETS} - {'shared', 'wasm'})
        self.assertEqual(release.LIBRARY_CRATE, proved.LIBRARY)


def parts_of(octets: bytes) -> dict[str, bytes]:
    """The parts of a file of ar."""
    found, at = dict[str, bytes](), 8
    while at < len(octets):
        name, size = octets[at : at + 16].decode().strip(), int(octets[at + 48 : at + 58])
        found[name] = octets[at + 60 : at + 60 + size]
        at += 60 + size + size % 2
    return found


if __name__ == '__main__':
    unittest.main()
