"""python/zebludor.py: the header's layouts, stored reports, and runs, sessions and the assembler over the built program."""
import ctypes
import os
import pathlib
import re
import subprocess
import sys
import threading
import unittest

from tests.support import STORED, TOP, ToolCase, example

import toolbox  # where zebludor is found
import zebludor
from zebludor import Fault, Header, Session, Unfit

assert toolbox


# It copies eighty characters from the label `text` to text memory, and shows them.
SHOWING = '''SEGMENT M AT 0F000h
go:     MOV AX,0B000h
        MOV ES,AX
        MOV AX,CS
        MOV DS,AX
        MOV SI,text
        MOV DI,0
        MOV CX,80
        MOV AH,7
more:   LODSB
        STOSW
        LOOP more
        MOV DX,3B8h
        MOV AL,8
        OUT DX,AL
        HLT
'''
RESET = 'SEGMENT R AT 0FFFFh\n        JMP FAR go\nENDS\n'


def read(path: str) -> str:
    """A file's text."""
    with open(path, encoding='utf-8') as file:
        return file.read()


class Texts(unittest.TestCase):
    """Over texts alone."""

    def test_fields_that_do_not_fit(self) -> None:
        """Each is refused as the program does, with its name and range; and a file that isn't there with its path."""
        for fields, why in (
            ({'budget': -1}, 'budget is -1, and has to be 0 to 1,099,511,627,776'),
            ({'ram': 65536}, 'ram is 65536, and has to be 0 to 65,535'),
            ({'sw1': 256}, 'sw1 is 256, and has to be 0 to 255'),
            ({'sw2': 1.5}, 'sw2 is 1.5, and has to be 0 to 31'),
            ({'timer': '8255'}, "timer is '8255', and has to be 8253 or 8254"),
            ({'keys': [(5, 30), (6,)]}, 'keys[1] is [6], and has to be a clock, 0 to 1,099,511,627,776, and a scan code'),
        ):
            for use in (zebludor.run, Session):
                with self.assertRaises(Fault) as raised:
                    use('', **fields)  # type: ignore[arg-type]
                self.assertEqual((raised.exception.number, str(raised.exception)), (32, f'fault 32 BadField: {why}'))
        with self.assertRaisesRegex(Unfit, "^/none.asm can't be read: No such file"):
            zebludor.run(pathlib.Path('/none.asm'))

    def test_registers_of_a_session(self) -> None:
        """As a report's; with brackets too, a version long."""
        source = f'{SHOWING}text:   DB 80 DUP ("A")\nENDS\n{RESET}'.replace('"', "'")
        with Session(source) as session:
            session.go(100)
            registers = session.registers
            self.assertEqual(registers, zebludor.run(source, budget=100).registers)
            with self.assertWarns(DeprecationWarning):
                self.assertEqual(session.registers(), registers)

    def test_layouts_are_the_headers(self) -> None:
        text = read(f'{TOP}/c/zebludor.h')
        header = Header(text)
        sizes = re.findall(r'sizeof\((\w+)\) == (\d+)', text)
        offsets = re.findall(r'offsetof\((\w+), (\w+)\) == (\d+)', text)
        self.assertEqual({struct for struct, _ in sizes}, set(header.structs))
        for name, size in sizes:
            self.assertEqual(ctypes.sizeof(header.structs[name]), int(size), name)
        for name, field, offset in offsets:
            self.assertEqual(getattr(header.structs[name], field).offset, int(offset), field)
        self.assertEqual(set(header.calls), set(re.findall(r'\b(zebludor_\w+)\(', re.sub(r'/\*.*?\*/', '', text, flags=re.S))))

    def test_each_call_of_a_chip_is_the_headers(self) -> None:
        header = Header(read(f'{TOP}/c/zebludor.h'))
        for chip in (zebludor.Pit, zebludor.Pic, zebludor.Ppi):
            calls = {it.removeprefix(f'zebludor_{chip.name}_') for it in header.calls if it.startswith(f'zebludor_{chip.name}_')}
            self.assertEqual(calls - set(vars(chip)) - {'power_on', 'power_on_as'}, set())

    def test_numbers_that_dont_fit(self) -> None:
        """Each is named before the library is called."""
        pit, pic, ppi = (kind.__new__(kind) for kind in (zebludor.Pit, zebludor.Pic, zebludor.Ppi))
        for call, sentence in (
            (lambda: pit.write(300, 1), 'port is 300, and has to be 0 to 3'),
            (lambda: pit.write(0, -1), 'value is -1, and has to be 0 to 255'),
            (lambda: pit.out(9), 'counter is 9, and has to be 0 to 2'),
            (lambda: pit.advance(-1), 'ticks is -1, and has to be 0 to 18446744073709551615'),
            (lambda: pic.set_line(8, 1), 'level is 8, and has to be 0 to 7'),
            (lambda: pic.write(2, 0), 'a0 is 2, and has to be 0 to 1'),
            (lambda: ppi.read(0, 256), 'latch is 256, and has to be 0 to 255'),
        ):
            with self.assertRaisesRegex(ValueError, f'^{sentence}$'):
                call()

    def test_reports(self) -> None:
        report = zebludor.read_report(read(f'{STORED}/tone.report'))
        self.assertEqual((report.clock, report.state, report.changes[0], report.text), (500, 'running' if report.state == 'running' else 'halted', (74, 1), ''))
        self.assertEqual(zebludor.read_report(read(f'{STORED}/hello.report')).flag('ZF'), 0)
        with self.assertRaises(Unfit):
            zebludor.read_report('clock 5\n')
        with self.assertRaises(Fault) as caught:
            zebludor.read_report('fault 3 BadLine line 2\n')
        self.assertEqual((caught.exception.number, caught.exception.name, caught.exception.line), (3, 'BadLine', 2))
        self.assertIn('&lt;', zebludor.Report(0, {}, '', 0, [], ['<'])._repr_html_())

    def test_no_such_thing(self) -> None:
        with self.assertRaisesRegex(TypeError, 'budgt is no field'):
            zebludor.run('', budgt=5)
        words = [sys.executable, '-c', 'import zebludor; zebludor.run("")']
        for changed, wanted in (({'PCBOARD': '/none'}, "the program /none, which PCBOARD names, isn't there"), ({'ZEBLUDOR_CHIPS': '/none.a'}, '')):
            environment = os.environ | {'PYTHONPATH': f'{TOP}/python', 'PYTHONDONTWRITEBYTECODE': '1'} | changed
            if not wanted:
                words[2], wanted = 'import zebludor; zebludor.Pit()', "the chips' library /none.a isn't there"
            err = subprocess.run(words, env=environment, capture_output=True, text=True, check=False).stderr
            self.assertIn(wanted, err)


class Runs(ToolCase):
    """Over the built program."""

    def test_runs(self) -> None:
        source = read(example('keys')[0])
        report = zebludor.run(source, keys=[(2000, 0x23), (2100, 0xA3)], budget=5000)
        self.assertEqual((report.text, report.clock, report.state), ('H', 5000, 'halted'))
        two = zebludor.run(read(example('hello')[0]), budget=71, clocks='C2')
        self.assertEqual((two.text, zebludor.run(read(example('hello')[0]), budget=71).text), ('', 'HI'))
        with self.assertRaises(Fault) as caught:
            zebludor.run('SEGMENT A AT 0\n FROB\n')
        self.assertEqual((caught.exception.number, caught.exception.name, caught.exception.line), (4, 'UnknownName', 2))
        with self.assertRaisesRegex(Fault, 'fault 36 RamSize'):
            zebludor.run(source, ram=17)

    def test_a_session_given_more_than_pipes_hold(self) -> None:
        """It answers while most of its commands haven't been read."""
        ran = zebludor.ran(['debug', *self.program('        HLT')], b'regs\n' * 20_000)
        self.assertEqual((ran.status, ran.err, ran.out.count('AX=0000 ')), (0, '', 20_000))

    def test_the_assembler(self) -> None:
        source = example('monitor')[0]
        text = zebludor.assemble(read(source))
        self.assertEqual(text, self.pcboard('asm', source).stdout)
        self.assertEqual(zebludor.listing(read(source)), self.pcboard('asm', '--list', source).stdout)
        self.assertEqual(zebludor.run(text, is_hex=True, budget=900), zebludor.run(read(source), budget=900))

    def test_the_page(self) -> None:
        """The recipes of docs/python.md print what they should; those of the chips are c/benches/chips.py's."""
        blocks = re.findall(r'^```python\n(.*?)^```', read(f'{TOP}/docs/python.md'), re.M | re.S)
        self.assertEqual(len(blocks), 5)
        tests = 'class mark:\n    def parametrize(names, rows):\n        return lambda it: [it(*row) for row in rows]\n'
        self.file('pytest.py', tests)
        os.symlink(f'{TOP}/examples', f'{self.room}/examples')
        self.file('it.py', '\n'.join(blocks[:4]))
        from toolbox import program

        environment = os.environ | {'PYTHONPATH': f'{self.room}:{TOP}/python', 'PCBOARD': program.path(), 'PYTHONDONTWRITEBYTECODE': '1'}
        done = subprocess.run([sys.executable, 'it.py'], env=environment, capture_output=True, text=True, cwd=self.room, check=False)
        lines = done.stdout.splitlines()
        self.assertEqual((done.stderr, lines[:4], len(lines)), ('', ['H halted 63040', '1 2138', 'MOV AH,007h', '7'], 15))
        self.assertEqual((lines[4], lines[14]), ('1800 tkttKtttttt', '2800 ttkttKttttt'))

    def test_services(self) -> None:
        """By the look of a text, or of a file; labels are the source's, and a refusal is that of the source."""
        text = "SEGMENT MAIN AT 100h\n ORG 100h\nstart: MOV AX,0E41h\n INT 10h\n INT 20h\nENDS\n"
        path = pathlib.Path(self.file('it.asm', text))
        for source in (text, text.encode(), path):
            self.assertEqual(zebludor.run(source).text, 'A')
            self.assertEqual(zebludor.run(source, services=False).state, 'jammed')
        com = pathlib.Path(self.room, 'it.com')
        com.write_bytes(bytes.fromhex('B8420ECD10CD20'))  # MOV AX,0E42h; INT 10h; INT 20h
        self.assertEqual(zebludor.run(com).text, 'B')
        self.assertEqual(zebludor.run(text.replace('INT 10h', 'NOP').replace('20h', '27h'), services=True).state, 'halted')
        with zebludor.Session(text, probe=True) as session:
            self.assertEqual(session.stop_at('start'), session.go(1_000_000))
            self.assertEqual((session.source.line(5), session.byte('start')), ((0x100, 0x105), 0xB8))
        with self.assertRaises(zebludor.Fault) as refused:
            zebludor.run(text.replace('MOV AX', 'MUV AX'))
        self.assertEqual(refused.exception.line, 3)
        with self.assertRaisesRegex(zebludor.Unfit, 'the source: the services want 144 to 640 KB of RAM'):
            zebludor.run(text, ram=64)
        with self.assertRaises(zebludor.Unfit):
            zebludor.run(pathlib.Path(self.room, 'none.asm'))

    def test_labels_and_lines(self) -> None:
        """Of a path and of a text; of Intel HEX by its symbols."""
        path = pathlib.Path(example('ticks')[0])
        number = 1 + next(n for n, line in enumerate(read(str(path)).split('\n')) if line.startswith('tick:'))
        self.assertEqual(zebludor.__version__, read(f'{TOP}/VERSION').strip())
        for source in (path, read(str(path))):
            with Session(source) as session:
                self.assertEqual(session.source.labels['tick'], (0xF600, 0x58))
                self.assertEqual((session.source.line(number), session.source.place('tick+5')), ((0xF600, 0x58), (0xF600, 0x5D)))
                self.assertEqual((session.stop_at('tick'), session.go(2000), session.registers['IP']), (1, 1, 0x58))
                self.assertEqual((session.word('tick'), session.byte('tick+1'), session.word(0xF6058)), (0xFE26, 0xFE, 0xFE26))
                for refused in (lambda it=session: it.stop_at('tock'), lambda it=session: it.word('tock'), lambda it=session: it.source.line(9999)):
                    self.assertRaises(Unfit, refused)
        text, symbols = self.file('it.hex', zebludor.assemble(path)), self.file('it.lst', zebludor.listing(path))
        with Session(pathlib.Path(text), symbols=symbols) as session:
            self.assertEqual((session.stop_at('tick'), session.go(2000), session.registers['IP']), (1, 1, 0x58))
        with Session(pathlib.Path(text)) as session:
            self.assertRaises(Unfit, session.stop_at, 'tick')
        with self.assertRaises(Unfit):
            _ = zebludor.Places('SEGMENT A AT 0\n FROB\n').labels

    def test_a_session_forth_and_back(self) -> None:
        """That of docs/debugger.md."""
        with Session(read(example('ticks')[0])) as session:
            self.assertEqual(session.stop_at_byte(0xB0000, 0x31), 1)
            self.assertEqual((session.go(2000), session.clock), (1, 1010))
            last = session.trail()[-1]
            self.assertEqual((last.clock, last.text, last.octets.hex()), (1009, 'ES: INC BYTE [00000h]', '26fe060000'))
            self.assertEqual(session.trail()[-2].entry, 8)
            session.back_step()
            self.assertEqual((session.clock, session.registers['IP']), (1009, 0x58))
            self.assertEqual((session.stop_at(0xF600, 0x55), session.back_to_stop(), session.clock), (2, 2, 946))
            session.back(41)
            session.step()
            self.assertEqual(session.clock, 906)
            self.assertEqual(session.dump(0xF6058, 5).hex(), '26fe060000')
            self.assertEqual((len(session.screen()), session.stop_at_sound(), session.stop_at_halt()), (25, 3, 4))
            for refused, number in ((lambda: session.back(1 << 30), 54), (lambda: session.go(1 << 41), 42), (lambda: session.back(0), 51)):
                with self.assertRaises(Fault) as caught:
                    refused()
                self.assertEqual(caught.exception.number, number)
        with self.assertRaisesRegex(Fault, 'fault 4 UnknownName line 2'):
            Session('SEGMENT A AT 0\n FROB\n')

    def test_threads(self) -> None:
        """Four that use one session: each is answered what it asked, and once it is closed, each is told that."""
        faults = list[str]()
        with Session(pathlib.Path(f'{TOP}/examples/ticks.asm'), budget=10_000) as session:

            def use() -> None:
                try:
                    for _ in range(60):
                        session.go(7)
                        if len(session.trail()) > 32 or len(session.dump(0x400, 5000)) != 5000 or [*session.registers] != [*zebludor.REGISTERS]:
                            faults.append('another answer')
                        session.back(3)
                except (Unfit, Fault, ValueError, IndexError) as error:
                    faults.append(str(error))

            threads = [threading.Thread(target=use) for _ in range(4)]
            for each in threads:
                each.start()
            for each in threads:
                each.join()
            self.assertEqual((faults, session.clock), ([], 4 * 60 * 4))
        for ask in (lambda: session.registers, session.close, lambda: session.go(1), lambda: session.dump(0, 1), session.trail):
            if ask == session.close:
                ask()
                continue
            with self.assertRaisesRegex(Unfit, '^the session is closed$'):
                ask()

    def test_events(self) -> None:
        """What happens, by labels too; they are the session's own: the trail, memory, a key's stamp."""
        source = pathlib.Path(example('keys')[0])
        with self.assertRaisesRegex(Unfit, 'probe=True'), Session(source) as session:
            session.events(1, 'starts')
        with Session(source, probe=True, keys=[(1500, 0x1E)], budget=3000) as session:
            started = session.events(200, 'starts')
            self.assertEqual(
                [(each.clock, *each.place, each.value) for each in started],
                [(each.clock, each.segment, each.offset, each.octets) for each in session.trail()[-len(started) :]],
            )
            self.assertEqual(session.clock, 200)
            found = session.events(1400, 'keys', 'entries', 'states', 'wires', 'ports=60-60')
            self.assertIn((1500, 'key', 'arrives', 0x1E), found)
            self.assertIn((1500, 'wire', 'IR1', 1), found)
            self.assertEqual([each.value for each in found if each.what == 'entry'], [9])
            self.assertIn(('in', 0x60, 0x1E), [each[1:] for each in found])
            last = session.events(1400, 'writes=B000:0000-B000:0F9F')[-1]
            self.assertEqual((last.what, session.byte(last.place)), ('write', last.value))
            with self.assertRaisesRegex(Fault, '51 BadCommand'):
                session.events(5)
            self.assertEqual((session.clock, len(session.registers)), (3000, 14))
        ticks = '\n'.join(['SEGMENT M AT 0F000h', 'go: INC WORD [count]', ' JMP go', 'ENDS', 'SEGMENT D AT 0', ' DB 7', 'count: DW 0FFh', 'ENDS', RESET])
        with Session(ticks, probe=True) as session:
            self.assertEqual([each[2:] for each in session.events(200, 'writes=count')][:2], [(1, 0), (1, 1)])

    def test_stops_on_what_happens(self) -> None:
        """A byte's changes forth and back, its writes, and an interrupt's entry; what `pcboard debug` hasn't is refused."""
        source = pathlib.Path(example('ticks')[0])
        for ask in (lambda it: it.watch(0xB0000), lambda it: it.stop_when('keys')):
            with self.assertRaisesRegex(Unfit, 'probe=True'), Session(source) as session:
                ask(session)
        with Session(source, probe=True) as session:
            self.assertEqual([session.watch(0xB0000), session.stop_when('entries'), session.watch(0xB0001, 2, is_each_write=True)], [1, 2, 3])
            met = [(session.go(3000), session.clock) for _ in range(5)]
            self.assertEqual(met, [(1, 885), (2, 949), (1, 1010), (2, 1337), (1, 1398)])
            self.assertEqual([(session.back_to_stop(), session.clock) for _ in range(4)], [(2, 1337), (1, 1010), (2, 949), (1, 885)])
            for refused in (lambda: session.watch(0xFFFFF, 2), lambda: session.watch(0xB0000, 0), lambda: session.stop_when('all'), session.stop_when):
                with self.assertRaises(Fault) as caught:
                    refused()
                self.assertEqual(caught.exception.number, 51)
        with Session(
            'SEGMENT MAIN AT 0F000h\nstart:  MOV AX,SEG count\n        MOV DS,AX\nagain:  INC WORD [count]\n        JMP SHORT again\nENDS\n'
            'SEGMENT D AT 50h\ncount:  DW 0\nENDS\nSEGMENT RESET AT 0FFFFh\n        JMP FAR start\n',
            probe=True,
        ) as session:
            session.watch('count', 2)
            self.assertEqual((session.go(1000), session.word('count')), (1, 1))

    def test_keys_that_are_typed(self) -> None:
        """The board is that of a run with these keys; each refusal is raised, and changes nothing."""
        source = pathlib.Path(example('keys')[0])
        with self.assertRaisesRegex(Unfit, 'probe=True'), Session(source) as session:
            session.key(0x23)
        with Session(source, probe=True) as session:
            session.go(2999)
            self.assertEqual((session.key(0x23), session.key(0xA3, 5000), session.key(0x17, 5000)), (3000, 5000, 5000))
            for refused, number in (((0x54,), 33), ((0x23, 2999), 34), ((0x23, (1 << 40) + 1), 42), ((0x100,), 51)):
                with self.assertRaises(Fault) as caught:
                    session.key(*refused)
                self.assertEqual((caught.exception.number, session.clock), (number, 2999))
            session.back(2000)
            self.assertEqual(session.key(0x9E, 1500), 1500)
            for _ in range(2):
                session.go(9000 - session.clock)
                report = zebludor.run(source, keys=[(1500, 0x9E), (3000, 0x23), (5000, 0xA3), (5000, 0x17)], budget=9000)
                self.assertEqual((session.registers, session.screen()), (report.registers, report.screen))
                session.back(8000)
        self.assertEqual(report.text, 'HI')

    def test_a_screen_that_looks_like_an_answer(self) -> None:
        """A refusal, and the end of an answer: on the screen both are text."""
        for text in ('fault 51 BadCommand', 'clock ' + 74 * '7', 'clock 12'):
            with Session(f"{SHOWING}text:   DB '{text:80}'\nENDS\n{RESET}") as session:
                session.go(5000)
                self.assertEqual([it.rstrip() for it in session.screen()], [text] + 24 * [''])
                self.assertEqual((session.clock, session.registers['CX']), (5000, 0))


if __name__ == '__main__':
    unittest.main()
