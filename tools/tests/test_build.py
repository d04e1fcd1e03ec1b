"""dev/build and the launcher, over a repository of two crates and an `rt` that only writes what a build leaves."""
import contextlib
import hashlib
import io
import os
import pty
import re
import shlex
import shutil
import signal
import subprocess
import unittest
from unittest import mock

from parts import building, targets
from tests.repository import Repository
from tests.support import SECONDS, TOP, is_running, is_there, not_run, until
from toolbox import sources
from toolbox.command import Sorry
from toolbox.crates import Crates


def kit_of_readme() -> tuple[str, str]:
    """The kit and the logic with which it was proved, by README's end."""
    with open(f'{TOP}/README.md', encoding='utf-8') as page:
        kit, logic = re.findall(r'^(rattle-kit-\S+) logic ([0-9a-f]+)$', page.read(), re.M)[0]
    return kit, logic


class Version(unittest.TestCase):
    """What tells the version, and the kit."""

    def test_the_newest_changes_are_those_of_the_version(self) -> None:
        with open(f'{TOP}/VERSION', encoding='ascii') as version, open(f'{TOP}/CHANGELOG.md', encoding='utf-8') as changes:
            self.assertEqual(re.findall(r'^# (\d.*)$', changes.read(), re.M)[0], version.read().strip())

    def test_the_logic_is_that_of_rt(self) -> None:
        """Another kit of the same logic is told, and no failure."""
        if not shutil.which('rt'):
            not_run("the kit against README's; Rattle's rt is not on the path")
            return
        kit, logic = kit_of_readme()
        here, _, its_logic = subprocess.run(['rt', 'version'], capture_output=True, text=True, check=True).stdout.split()
        self.assertEqual(its_logic, logic)
        if here != kit:
            print(f'README was proved with {kit}, and {here} of the same logic is here')


# A compiler or linker that tells its version, or writes its words into what it is to make.
TOOL = r"""#!/bin/sh
[ "$1" != --version ] || { echo "${0##*/} 1"; exit; }
all=$*
while [ "$#" -gt 0 ]; do
    [ "$1" != -o ] || echo "$all" > "$2"
    shift
done
"""


class ForTargets(Repository):
    """Programs for other targets, by a compiler and a linker that only write their words."""

    def setUp(self) -> None:
        super().setUp()
        for path in ('toolchain/bin/clang', 'bin/musl-gcc', 'bin/aarch64-linux-gnu-gcc'):
            os.makedirs(os.path.dirname(f'{self.room}/{path}'), exist_ok=True)
            os.chmod(self.file(path, TOOL), 0o755)

    def build(self, *words: str) -> subprocess.CompletedProcess[str]:
        return self.start(f'{self.room}/top/dev/build', *words)

    def text(self, path: str) -> str:
        with open(f'{self.room}/{path}', encoding='utf-8') as file:
            return file.read()

    def test_a_program_is_proved_once_for_all_of_them(self) -> None:
        for target in ('musl', 'aarch64'):
            ran = self.build('pcboard', '--target', target)
            self.assertEqual((ran.returncode, ran.stdout), (0, ''), ran.stderr)
            self.assertIn(f'pcboard: crates/pcboard/out/{target} has it', ran.stderr)
        self.assertEqual(self.text('bin/proved').split(), ['low', 'pcboard'])
        self.assertIn('/own ', self.text('top/crates/pcboard/out/musl/pcboard'))
        self.assertIn('/aarch64.o ', self.text('top/crates/pcboard/out/aarch64/pcboard'))
        known = self.text('top/crates/pcboard/out/aarch64/PROVED')
        module = hashlib.sha256(b'for x86-64\n').hexdigest()
        self.assertRegex(known, rf'\nmade pcboard \w+ sources \w+\ntarget aarch64 module {module}\ntrusted clang 1\ntrusted aarch64-linux-gnu-gcc 1\n')
        self.assertEqual(re.findall(r'^(\w+): (\S+) ', known, re.M), [('low', 'logic=proved'), ('pcboard', 'logic=proved')])
        self.change_text('crates/pcboard/src/main.rt')
        self.build('pcboard', '--target', 'musl')
        self.assertEqual(self.text('bin/proved').split()[2:], ['pcboard'])

    def test_over_what_the_gate_proved(self) -> None:
        """No crate below is proved again, and each has to be there."""
        ran = self.build('pcboard', '--target', 'musl', '--proved')
        self.assertIn('no library of low is here', ran.stderr)
        os.makedirs(f'{self.room}/top/crates/low/out/rlib/low.rlib')
        ran = self.build('pcboard', '--target', 'musl', '--proved')
        self.assertEqual((ran.returncode, ran.stdout), (0, ''), ran.stderr)
        self.assertEqual(self.text('bin/proved').split(), ['pcboard'])
        self.assertIn('--proved wants a --target', self.build('pcboard', '--proved').stderr)

    def test_a_static_library(self) -> None:
        os.chmod(self.file('toolchain/bin/llvm-ar', '#!/bin/sh\necho "$1 $3" > "$2"\n'), 0o755)
        self.file('top/crates.txt', 'low:\nother staticlib: low\n')
        ran = self.build('other', '--target', 'aarch64')
        self.assertEqual((ran.returncode, ran.stdout), (0, ''), ran.stderr)
        self.assertRegex(self.text('top/crates/other/out/aarch64/libother.a'), r'\ArcsD \S+/aarch64\.o\n\Z')
        self.assertRegex(self.text('top/crates/other/out/aarch64/libother.so'), r'-shared .*-soname,libother\.so,.*/aarch64\.o \S+/c/memory\.c\n\Z')
        self.assertRegex(self.text('top/crates/other/out/aarch64/PROVED'), r'\nmade libother\.a .*\nmade libother\.so .*\ntarget aarch64 ')

    def test_a_shared_library(self) -> None:
        """The kit's own linker makes it, so that it is the same wherever it is made."""
        linker = self.file('toolchain/bin/ld.lld', '#!/bin/sh\nfor word; do last=$word; done\necho "$*" > "$last"\n')
        os.chmod(linker, 0o755)
        self.file('top/crates.txt', 'low:\npcboard: low\nother_program staticlib: low\n')
        os.rename(f'{self.room}/top/crates/other', f'{self.room}/top/crates/other_program')
        ran = self.build('other_program', '--target', 'shared')
        self.assertEqual((ran.returncode, ran.stdout), (0, ''), ran.stderr)
        self.assertRegex(self.text('top/crates/other_program/out/shared/libother.so'), r' -soname libother\.so .*/own .*/memory\.o ')
        self.assertRegex(self.text('top/crates/other_program/out/shared/PROVED'), r'\nmade libother\.so \w+ sources \w+\ntarget shared module \w+\ntrusted ')
        self.assertIn('pcboard is a program, and for shared libraries alone are built', self.build('pcboard', '--target', 'shared').stderr)

    def test_what_a_library_has_for_its_callers(self) -> None:
        text = 'define i64 @zebludor_b(ptr %a) {\ndefine internal i64 @zebludor_c() {\ndefine { i64, i8 } @zebludor_a() #0 {\ndefine void @"it"() {\n'
        self.assertEqual(targets.calls_in(self.file('module.ll', text)), ['zebludor_a', 'zebludor_b', *targets.OF_THE_HEAP])

    def test_what_is_built_for_none(self) -> None:
        for words, why in (
            (('low', '--target', 'musl'), 'low is no program and no static library'),
            (('--verdicts', '--target', 'musl'), '--target wants a CRATE'),
            (('pcboard', '--target', 'sun'), "invalid choice: 'sun'"),
        ):
            ran = self.build(*words)
            self.assertEqual((ran.returncode, ran.stdout), (2, ''))
            self.assertIn(why, ran.stderr)

    def test_a_tool_that_lacks(self) -> None:
        with mock.patch('shutil.which', return_value=None), self.assertRaisesRegex(Sorry, r'needs wasm-ld-19 \(apt install lld-19\) and wasm-opt \('):
            targets.want_tools('wasm')

    def test_a_linker_that_fails(self) -> None:
        self.file('bin/musl-gcc', '#!/bin/sh\necho no room >&2; exit 1\n')
        ran = self.build('pcboard', '--target', 'musl')
        self.assertEqual((ran.returncode, ran.stdout), (1, ''))
        self.assertIn('no room', ran.stderr)
        self.assertFalse(os.path.exists(f'{self.room}/top/crates/pcboard/out/musl'))

    def test_what_names_a_processor_is_dropped(self) -> None:
        text = 'target triple = "x86_64-unknown-linux-gnu"\ndeclare { i64, i64 } @rattle_alloc(i64)\nattributes #0 = { nounwind "target-cpu"="x86-64" }\n'
        self.assertEqual(targets.portable(text, 'aarch64'), 'declare { i64, i64 } @rattle_alloc(i64)\nattributes #0 = { nounwind }\n')
        self.assertIn('declare x86_64_sysvcc { i64, i64 } @rattle_alloc', targets.portable(text, 'windows'))
        for name, wrapped in (('main', '@__real_main('), ('open', '@__wrap_open('), ('opened', '@opened(')):
            self.assertEqual(targets.portable(f'call i32 @{name}(ptr %0)', 'macos-arm64'), f'call i32 {wrapped}ptr %0)')
        self.file(
            'words',
            '\n'.join('--target=x --sysroot=/a -march=x86-64 -mllvm -no-x86-call-frame-opt -mllvm -trap -c -x ir m.bc -o m.o -fPIE -O3'.split(' ')) + '\n',
        )
        self.assertEqual(targets.flags(self.room), ['-mllvm', '-trap', '-c', '-O3'])


class Build(Repository):
    """The program's way from nothing to its run."""

    def test_it_is_built_at_first_use_and_then_runs_at_once(self) -> None:
        first, then = self.launch(), self.launch()
        self.assertEqual((first.returncode, first.stdout), (0, 'it runs run\n'))
        self.assertIn('proving 2 crates and building it, once: some 2 minutes;', first.stderr)
        self.assertIn('crate 2 of 2: pcboard', first.stderr)
        self.assertEqual((then.returncode, then.stdout, then.stderr), (0, 'it runs run\n', ''))

    def test_without_rattle_it_refuses_in_a_sentence(self) -> None:
        for words in (('pcboard',), ('low',), ('--verdicts',)):
            ran = self.start(f'{self.room}/top/dev/build', *words, has_rt=False)
            self.assertEqual((ran.returncode, ran.stdout), (2, ''))
            self.assertRegex(ran.stderr, r"\Abuild: Rattle's rt isn't on the path[^\n]*\n\Z")
        self.assertEqual(os.listdir(f'{self.room}/top/crates/low'), ['src'])

    def test_a_crate_that_is_no_program_is_proved_alone(self) -> None:
        """It and those below it; nothing is left in the repository, and what builds the program then begins above it."""
        ran = self.start(f'{self.room}/top/dev/build', 'low')
        self.assertEqual((ran.returncode, ran.stdout), (0, ''), ran.stderr)
        self.assertRegex(ran.stderr, r'\Alow: proving 1 crates, once: some \d+ minutes; .*\n(?s:.*)low: proved in \d+ s\n\Z')
        self.assertFalse(os.path.exists(f'{self.room}/top/crates/low/out'))
        self.launch()
        with open(f'{self.room}/bin/proved', encoding='utf-8') as file:
            self.assertEqual(file.read().split(), ['low', 'pcboard'])
        self.assertIn('crates.txt lists no none', self.start(f'{self.room}/top/dev/build', 'none').stderr)

    def test_what_the_program_is_made_of_is_looked_at_and_nothing_else(self) -> None:
        self.launch()
        self.change_text('crates/other/src/lib.rt')
        for path in ('crates/low/src/lib.rt', 'crates/low/src', 'crates.txt'):
            self.touch(path)
        self.assertEqual(self.launch().stderr, '')
        for path in ('crates/low/src/lib.rt', 'crates/pcboard/src/main.rt', 'crates.txt', 'crates/low/proofs/New.antt'):
            put_back = self.change_text(path)
            os.utime(f'{self.room}/top/{path}', (1, 1))  # seen, however old it is
            self.assertIn('have changed since it was built', self.launch(has_rt=False).stderr, path)
            self.assertIn('less than the first time', self.launch().stderr, path)
            self.assertEqual(self.launch().stderr, '')
            put_back()
            self.assertIn('less than the first time', self.launch().stderr, path)
        os.remove(f'{self.room}/top/crates/low/src/lib.rt')
        self.assertIn('proving 2 crates', self.launch().stderr)

    def test_a_byte_that_is_changed_back(self) -> None:
        self.launch()
        put_back = self.change_text('crates/low/src/lib.rt')
        self.assertIn('have changed since it was built', self.launch(has_rt=False).stderr)
        put_back()
        for has_rt in (True, False):
            self.assertEqual(self.launch(has_rt=has_rt).stderr, '')

    def test_a_clone_that_is_copied_or_moved_or_reached_otherwise(self) -> None:
        """It runs the program that it holds, at once, and sees what changes in it and not in the other one."""
        self.launch()
        places = [f'{self.room}/a copy of it', f'{self.room}/moved', f'{self.room}/a link']
        shutil.copytree(f'{self.room}/top', places[0], copy_function=shutil.copy)
        os.rename(f'{self.room}/top', places[1])
        os.symlink(places[1], places[2])
        for has_rt in (True, False):
            for place in places:
                ran = self.launch(has_rt=has_rt, top=place)
                self.assertEqual((ran.returncode, ran.stdout, ran.stderr), (0, 'it runs run\n', ''), place)
        with open(f'{places[0]}/crates/low/src/lib.rt', 'a', encoding='utf-8') as source:
            source.write('// more\n')
        self.assertEqual(self.launch(top=places[1]).stderr, '')
        self.assertIn('proving 2 crates', self.launch(top=places[0]).stderr)

    def test_a_clone_that_can_only_be_read(self) -> None:
        self.launch()
        for folder, _, files in os.walk(f'{self.room}/top', topdown=False):
            for path in (*(f'{folder}/{name}' for name in files), folder):
                os.chmod(path, 0o555)
                self.addCleanup(os.chmod, path, 0o755)
        for has_rt in (True, False):
            self.assertEqual(self.launch(has_rt=has_rt).stderr, '')

    def test_launcher_and_build_have_the_same_sum(self) -> None:
        """Over the repository's own sources, whose names and folders are many."""
        names = Crates(TOP).below('pcboard')
        self.assertGreater(len(sources.files(names)), 1000)
        version = subprocess.run([f'{TOP}/pcboard', '--version'], capture_output=True, text=True, check=True).stdout
        self.assertIn(f'\nsources {sources.sum_of_sources(names)}\n', version)

    def test_version_tells_the_commit(self) -> None:
        """Of a clone by git, of a release by RELEASE; no command that the clone's settings name is run for it."""
        top = f'{self.room}/top'
        self.assertNotIn('\ncommit', self.launch('--version').stdout)
        if not is_there('git', 'the commit that --version tells', 'git'):
            return
        for line in ('init -q', 'add -A', '-c user.name=a -c user.email=a@b commit -q -m all', f'config core.fsmonitor {self.room}/watch'):
            subprocess.run(['git', '-C', top, *line.split()], check=True)
        os.chmod(self.file('watch', f'#!/bin/sh\ntouch {self.room}/watched\n'), 0o755)
        commit = subprocess.run(['git', '-C', top, 'rev-parse', 'HEAD'], capture_output=True, text=True, check=True).stdout.strip()
        self.assertEqual(self.launch('--version').stdout.splitlines()[1], f'commit {commit}')
        self.file('top/crates/low/src/lib.rt', '// changed\n')
        for words in ((), ('env', 'GIT_DIR=/nowhere', f'GIT_WORK_TREE={self.room}')):
            told = self.start(*words, f'{top}/pcprobe', '--version').stdout
            self.assertEqual(told.splitlines()[1], f'commit {commit}, and changes')
        self.assertFalse(os.path.exists(f'{self.room}/watched'))
        os.remove(f'{top}/crates.txt')
        self.file('top/RELEASE', f'zebludor 1\ncommit {commit[:12]}\n')
        self.assertEqual(self.launch('--version').stdout.splitlines()[1], f'commit {commit[:12]}')

    def test_a_program_that_was_built_otherwise_is_judged_by_times(self) -> None:
        """As one that `rt ci` left, which takes the place of that to which the list belongs."""
        self.stand_in('echo another')
        self.assertEqual(self.launch().stdout, 'another\n')
        self.touch('crates/low/src/lib.rt')
        self.assertIn('sources may have changed', self.launch(has_rt=False).stderr)
        self.assertIn('proving 2 crates', self.launch().stderr)

    def test_a_crate_is_proved_again_where_it_or_one_below_has_changed(self) -> None:
        proved = f'{self.room}/bin/proved'
        for path, text, crates in (
            ('low/src/lib.rt', '// more', 'low pcboard low pcboard'),
            ('pcboard/src/main.rt', '// more', 'low pcboard low pcboard pcboard'),
        ):
            self.launch()
            self.file(f'top/crates/{path}', text)
            self.launch()
            with open(proved, encoding='ascii') as names:
                self.assertEqual(names.read().split(), crates.split())

    def test_without_rt_it_says_what_is_missing(self) -> None:
        none = self.launch(has_rt=False)
        self.assertEqual(none.returncode, 127)
        self.assertIn("isn't built yet", none.stderr)
        self.launch()
        self.assertEqual(self.launch(has_rt=False).stdout, 'it runs run\n')
        self.change_text('crates/low/src/lib.rt')
        changed = self.launch(has_rt=False)
        self.assertEqual((changed.returncode, changed.stdout), (0, 'it runs run\n'))
        self.assertIn('its sources have changed since it was built', changed.stderr)
        self.assertNotIn("isn't built", changed.stderr)

    def test_the_version(self) -> None:
        """It is told without a program, and its sum changes with what the program is made of alone."""

        def version() -> list[str]:
            ran = self.launch('--version', has_rt=False)
            self.assertEqual((ran.returncode, ran.stderr), (0, ''))
            self.assertRegex(ran.stdout, r'\Apcboard \d+\.\d+\.\d+\nkit \S+\nlogic [0-9a-f]{16}\nsources [0-9a-f]{64}\nprogram none\n\Z')
            return ran.stdout.splitlines()

        first = version()
        self.assertEqual(tuple(line.split()[-1] for line in first[1:3]), kit_of_readme())
        self.change_text('crates/other/src/lib.rt')
        self.assertEqual(version(), first)
        for path in ('crates/low/src/lib.rt', 'crates/pcboard/src/main.rt', 'crates.txt', 'crates/low/specs/New.antt'):
            was, put_back = version(), self.change_text(path)
            self.assertNotEqual(version(), was, path)
            put_back()
            self.assertEqual(version(), first, path)

    def test_help_is_an_answer(self) -> None:
        self.launch()
        self.file('top/crates/pcboard/out/pcboard', '#!/bin/sh\necho "the help of $*" >&2\nexit 2\n')
        for words in (['--help'], ['-h'], ['run', '--help'], ['asm', '-h'], ['debug', '--help']):
            ran = self.launch(*words)
            self.assertEqual((ran.returncode, ran.stdout, ran.stderr), (0, f'the help of {" ".join(words)}\n', ''))
        for words in (['--nonsense'], ['run', '--', '--help'], ['run', 'a', '--help'], ['--version', 'a']):
            ran = self.launch(*words)
            self.assertEqual((ran.returncode, ran.stdout, ran.stderr), (2, '', f'the help of {" ".join(words)}\n'))

    def test_what_a_program_leaves_unsaid(self) -> None:
        self.stand_in('echo out; echo err >&2; exit 3')
        here, pipe, missing = self.file('here it is', ''), f'{self.room}/pipe', f'{self.room}/no such'
        os.mkfifo(pipe)
        for words, messages in (
            (['run', here, missing], [f"{missing} can't be opened: it isn't there"]),
            (['run', '--hex', self.room, missing], [f"{self.room} can't be read: it is a folder", f"{missing} can't be opened: it isn't there"]),
            (['asm', '--list', here], ["the answer couldn't be written, or what it is made from couldn't be read"]),
            (['run', pipe, here], ["the answer couldn't be written, or what it is made from couldn't be read"]),
        ):
            ran = self.launch(*words)
            self.assertEqual((ran.returncode, ran.stdout), (3, 'out\n'))
            self.assertEqual(ran.stderr, 'err\n' + ''.join(f'pcboard: {message}\n' for message in messages))

    def test_a_refusal_at_a_terminal(self) -> None:
        self.stand_in('echo "fault 3 BadLine line 1" >&2; exit 1')
        self.assertEqual(self.launch('asm', 'my file').stderr, 'fault 3 BadLine line 1\n')
        terminal, end = pty.openpty()
        ran = subprocess.run([f'{self.room}/top/pcboard', 'asm', 'my file'], stderr=end, check=False)
        os.close(end)
        self.assertEqual(ran.returncode, 1)
        shown = b''
        with contextlib.suppress(OSError):  # the terminal's end
            while part := os.read(terminal, 1000):
                shown += part
        self.assertEqual(shown.decode().splitlines(), ['fault 3 BadLine line 1', r'pcboard: tools/why asm my\ file tells more'])
        os.close(terminal)

    def test_standard_input_is_the_program_s(self) -> None:
        self.stand_in('cat; exit 1')
        for words in ([], ['debug', 'a', 'b']):
            ran = subprocess.run([f'{self.room}/top/pcboard', *words], input='lines\n', capture_output=True, text=True, check=False)
            self.assertEqual((ran.returncode, ran.stdout, ran.stderr), (1, 'lines\n', ''))
        closed = subprocess.run(['/bin/sh', '-c', f'{shlex.quote(self.room)}/top/pcboard run <&-'], capture_output=True, check=False)
        self.assertEqual((closed.returncode, closed.stdout), (1, b''))

    def test_signals_reach_the_program_and_it_never_outlives_the_launcher(self) -> None:
        self.stand_in('echo $$; exec sleep 6000')
        for number in (signal.SIGTERM, signal.SIGINT, signal.SIGHUP, signal.SIGKILL):
            words = ['env', '--default-signal=TERM,INT,HUP', f'{self.room}/top/pcboard', 'run']  # also where nohup runs the tests
            with subprocess.Popen(words, stdin=subprocess.DEVNULL, stdout=subprocess.PIPE, text=True) as process:
                assert process.stdout
                program = int(process.stdout.readline())
                process.send_signal(number)
                self.assertEqual(process.wait(timeout=SECONDS), -number)
                self.assertEqual(process.stdout.read(), '')  # no one has it open any more, so the program has ended too
            self.assertTrue(until(lambda: not is_running(program)))  # it closes its files a little before its end

    def test_a_crate_that_fails_is_told(self) -> None:
        os.chmod(self.file('bin/rattle', '#!/bin/sh\necho "not proved: $PWD"\nexit 1\n'), 0o755)
        ran = self.launch()
        self.assertEqual(ran.returncode, 126)
        self.assertRegex(ran.stderr, r'the build failed; the end of .*\n(.*\n)*not proved: .*/crates/low\n')

    def test_what_all_else_waits_for_comes_first(self) -> None:
        """By how long each crate of the program takes, which is known of each."""
        crates = Crates(TOP)
        names = crates.below('pcboard')
        self.assertEqual(set(building.SECONDS), names)
        ways = building.ways({name: set(crates.named[name]) & names for name in names})
        self.assertEqual(max(ways, key=ways.__getitem__), 'board_types')
        self.assertEqual(ways['pcboard_program'], building.SECONDS['pcboard_program'] + building.SECONDS['pcboard'])

    def test_a_second_job_fills_lanes_that_would_be_idle(self) -> None:
        self.assertEqual(building.jobs_of('board', [], 4), 2)
        self.assertEqual(building.jobs_of('board', [*building.SECONDS], 4), 1)
        self.assertEqual(building.jobs_of('board', [], 1), 1)

    def test_a_long_silence_is_broken(self) -> None:
        progress = building.Progress('pcboard', 37)
        printed = io.StringIO()
        with contextlib.redirect_stderr(printed):
            progress.stay_in_touch(['isa', 'board'])
            progress.last_told -= building.QUIET_SECONDS
            progress.stay_in_touch(['isa', 'board'])
        self.assertRegex(printed.getvalue(), r'\Apcboard: proving board, isa; 0 of 37 crates, \d+ s so far\n\Z')
