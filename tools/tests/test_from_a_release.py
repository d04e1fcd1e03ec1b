"""What docs/for-test-benches.md has makers of benches type with a release in C, Rust and Verilog: its own commands, in an empty folder, by an
archive that may only be read. The simulators that aren't there have stand-ins."""
from __future__ import annotations

import ctypes
import os
import re
import subprocess
import tempfile
import unittest
from typing import Any

from parts import release
from tests.support import SECONDS, TOP, is_there
from tests.test_benches import benches
from tests.test_release import BENCH, RUN, Unpacked

RUST = """use zebludor_sys::{Kind, Pit};

fn main() {
    let mut pit = Pit::new(Kind::I8253);
    pit.set_gate(2, true);
    for (port, value) in [(3, 0xB6), (2, 7), (2, 0)] {
        pit.write(port, value);
    }
    for _ in 0..3 {
        let ticks = pit.until_change(2).unwrap_or(0);
        pit.advance(ticks);
        print!("{ticks} ");
    }
}
"""
HEADS = 'C and C++', 'By CMake', 'Rust', 'Icarus Verilog', 'Verilator', 'and with a driver', 'With `-P'


class FromARelease(Unpacked):
    """Each way by itself."""

    STEPS, ACCESSES = benches().STEPS, benches().ACCESSES

    def typed(self, head: str) -> list[str]:
        """The blocks of the page's section that stand after a line that begins so, up to the next of these lines."""
        with open(f'{TOP}/docs/for-test-benches.md', encoding='utf-8') as file:
            section = file.read().partition('\n# From a release\n')[2]
        parts = re.split(f'^({"|".join(map(re.escape, HEADS))})', section, flags=re.M)
        self.assertEqual(parts[1::2], list(HEADS))
        return re.findall(r'```\w*\n(.*?)\n```\n', parts[parts.index(head) + 1], re.S)

    def in_a_folder(self, top: str, commands: str, **files: str) -> subprocess.CompletedProcess[str]:
        """What they print in a folder that has these files."""
        folder = tempfile.mkdtemp(dir=self.room)
        for name, text in files.items():
            self.file(f'{os.path.basename(folder)}/{name.replace("_dot_", ".")}', text)
        env = os.environ | {'R': top, 'HOME': os.environ.get('HOME', folder), 'CARGO_TARGET_DIR': f'{folder}/target'}
        return subprocess.run(['sh', '-ec', commands], cwd=folder, env=env, capture_output=True, text=True, check=False, timeout=10 * SECONDS)

    def prints(self, ran: subprocess.CompletedProcess[str], wanted: str, status: int = 0) -> None:
        """A bench's last line, and how it ended, if the libraries are those of the gate; of stand-ins that it was made and ran."""
        self.assertNotIn('rror:', ran.stderr)
        line = (ran.stdout.splitlines() or [''])[-1].rstrip()
        if self.is_real:
            self.assertEqual((ran.returncode != 0, line), (status != 0, wanted), ran.stderr)
        else:
            self.assertRegex(line, r"^0 0 0$|^(step|clock|count) \d+: |^\$?board\w*: ", ran.stderr)

    def test_c(self) -> None:
        if is_there('pkg-config', 'the C bench of a release by pkg-config', 'pkg-config'):
            self.prints(self.in_a_folder(self.unpacked('plain'), self.typed('C and C++')[0], bench_dot_c=BENCH), '5 3 4')

    def test_cmake(self) -> None:
        if is_there('cmake', 'the C bench of a release by CMake', 'cmake'):
            page, commands = self.typed('By CMake')
            for top in (self.unpacked('plain'), self.unpacked()):
                self.prints(self.in_a_folder(top, commands.replace('$R', '"$R"'), bench_dot_c=BENCH, CMakeLists_dot_txt=page), '5 3 4')
            ran = self.in_a_folder(
                top, 'cmake -B build -DCMAKE_PREFIX_PATH="$R"', CMakeLists_dot_txt=page.replace('zebludor REQUIRED', 'zebludor 99.1 REQUIRED')
            )
            self.assertIn(f'version: {release.version()}', ran.stderr)

    def test_rust(self) -> None:
        if is_there('cargo', 'the Rust bench of a release', 'cargo'):
            ran = self.in_a_folder(self.unpacked(), self.typed('Rust')[0].replace('$R', '"$R"'), bench_dot_rs=RUST)
            self.prints(ran, '5 3 4')

    def test_a_session_stays_in_its_thread(self) -> None:
        if is_there('cargo', "that a session in Rust doesn't leave its thread", 'cargo'):
            begin = 'fn main() { let session = zebludor_sys::Session::new(b"", b""); '
            for rest, is_refused in (('drop(session) }', False), ('std::thread::spawn(move || drop(session)); }', True)):
                commands = self.typed('Rust')[0].replace('$R', '"$R"').replace('cargo run', 'cargo check')
                ran = self.in_a_folder(self.unpacked(f'{is_refused}'), commands, bench_dot_rs=begin + rest)
                self.assertEqual(('cannot be sent between threads' in ran.stderr, ran.returncode != 0), (is_refused, is_refused), ran.stderr)

    def test_icarus(self) -> None:
        if is_there('iverilog', 'a release in Icarus Verilog', 'iverilog'):
            top, commands = self.unpacked('plain'), self.typed('Icarus Verilog')[0]
            for wrong, line in enumerate(self.STEPS):
                self.prints(self.in_a_folder(top, commands.replace('sv -o', f'sv -Pbench.WRONG={wrong} -o')), line, wrong)
            latch = commands.replace('timer', 'latch').replace('latch.v .', 'latch.v $R/c/benches/latch.asm $R/c/benches/latch.json .')
            for wrong, line in enumerate(self.ACCESSES):
                self.prints(self.in_a_folder(top, latch.replace('sv -o', f'sv -Pbench.WRONG={wrong} -o')), line, wrong)

    def test_verilator(self) -> None:
        if not all(is_there(each, 'a release in Verilator', each) for each in ('verilator', 'pkg-config')):
            return
        top, commands = self.unpacked('plain'), self.typed('Verilator')[0]
        for wrong, line in enumerate(self.STEPS):
            self.prints(self.in_a_folder(top, commands.replace('-Wno', f'-GWRONG={wrong} -Wno')), line, wrong)
        driver = self.in_a_folder(top, self.typed('and with a driver')[0])
        self.assertEqual((driver.returncode, driver.stderr), (0, '')) if self.is_real else self.prints(driver, '')

    def test_the_module_for_vpi(self) -> None:
        """In a stand-in for a simulator, which has the calls of VPI that it needs: each of its own is registered and answers."""
        folder = self.unpacked('plain')
        stand = f'{self.room}/stand'
        words = ['cc', '-std=c11', '-Wall', '-Werror', '-rdynamic', f'-I{TOP}/c/verilog', f'{TOP}/tools/tests/vpi.c', '-ldl', '-o', stand]
        subprocess.run(words, check=True)
        files = [f'{folder}/examples/hello.{ending}' for ending in ('asm', 'json')]
        given = '$pit_power_on 0\n$pit_set_gate 0 2 1\n$pit_write 0 3 182\n$pit_write 0 2 7\n$pit_write 0 2 0\n$pit_advance 0 5\n$pit_out 0 2\n'
        given += f'$board_new "{files[0]}" "{files[1]}"\n$board_command 0 "frob"\n$board_byte 0 983040\n$pit_read 7 0\n'
        done = subprocess.run([stand, f'{folder}/lib/zebludor.vpi'], input=given, capture_output=True, text=True, check=False)
        lines = done.stdout.splitlines()
        self.assertEqual(lines[0], '11 calls')
        wanted = ['0', '0', '0', '51', '184', '$pit_read: no timer has this number']
        self.assertEqual(lines[1:], wanted if self.is_real else ['0', '0', '0', '0', '$board_byte: there is no such byte'])

    def test_the_package_for_dpi(self) -> None:
        """Each of its imports is in the library, with the types that the header declares."""
        path = f'{self.unpacked("plain")}'
        with open(f'{path}/c/verilog/zebludor.sv', encoding='utf-8') as file:
            imports = re.findall(r'import "DPI-C" (\w+) = function ([\w ]+?) (\w+)\(([^)]*)\);', file.read())
        types = {'void': None, 'chandle': ctypes.c_void_p, 'byte unsigned': ctypes.c_uint8, 'longint unsigned': ctypes.c_uint64}
        types |= {'int': ctypes.c_int, 'string': ctypes.c_char_p}
        of_c = {'uint8_t': 'byte unsigned', 'uint64_t': 'longint unsigned', 'void': 'void'}
        library, declared, calls = ctypes.CDLL(f'{path}/lib/libzebludor_dpi.so'), benches().declared_calls(), dict[str, Any]()
        for name, answer, short, words in imports:
            kinds = [' '.join(word.split()[:-1]) for word in words.split(',') if word.strip()]
            if name in declared:
                wanted = [of_c.get(kind, 'chandle') for kind in declared[name][0]], of_c[declared[name][1]]
                self.assertEqual((kinds, answer), wanted, name)
            calls[short] = getattr(library, name)
            calls[short].restype, calls[short].argtypes = types[answer], [types.get(kind, ctypes.c_void_p) for kind in kinds]
        self.assertEqual(len(imports), len(calls))
        pit = calls['pit_power_on'](0)
        calls['pit_set_gate'](pit, 2, 1)
        for port, value in (3, 0xB6), (2, 7), (2, 0):
            calls['pit_write'](pit, port, value)
        self.assertEqual(calls['pit_until_change'](pit, 2), 5 if self.is_real else 0)
        calls['chip_drop'](pit)
        self.assertIsNone(calls['board_new'](b'/none', b'/none'))
        if self.is_real:
            board = calls['board_new'](*(f'{path}/{each}'.encode() for each in RUN.split()))
            self.assertEqual((calls['board_byte'](board, 0xF0000), calls['board_command'](board, b'frob')), (0xB8, 51))
            self.assertEqual(calls['board_text'](board), b'fault 51 BadCommand\n')
            calls['board_drop'](board)


if __name__ == '__main__':
    unittest.main()
