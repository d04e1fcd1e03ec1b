"""Source lines of Intel HEX: by NASM's listing, and of C by as86's beside ld86's map; in gdb, in editors and in tools/dbg. Listings are
stored; where NASM and bcc are installed, they are made again."""
from __future__ import annotations

import os
import re
import shutil
import subprocess
import unittest

from tests.support import EXAMPLES, STORED, ToolCase, is_there
from tests.test_dap import Client
from tests.test_symbols import NASM, ROM, hex_of

from toolbox.command import Sorry
from toolbox.intel_hex import image_of
from toolbox.places import far_of
from toolbox.symbols import symbols_of

RUN = '{"version":1,"ram":64,"sw1":0,"sw2":0,"budget":20000,"keys":[]}'
TO_START = ':02000002FFFFFE\n:05000000EA000000F021\n:00000001FF\n'  # the far jump to F000:0000, where the processor begins
SOURCE = ''.join(f'{row[40:]}\n' for row in NASM.splitlines() if '<1>' not in row and row[:6] != '     7' or "'" in row)
# By sums.map _sum stands at F000:0044 and _main at F000:0067, and by sums.lst the lines of C so many bytes after them.
LINES_OF_C = {7: 0x44, 8: 0x44 + 0xC, 9: 0x44 + 0x12, 15: 0x67}


class Case(ToolCase):
    """Programs in a folder of their own."""

    def nasm(self, source: str | None = SOURCE) -> tuple[str, str, str]:
        """The HEX, its run file and its listing, with the source beside it or without."""
        program = self.file('rom.hex', hex_of(bytes.fromhex(ROM)).replace(':00000001FF\n', TO_START))
        if source is not None:
            self.file('rom.asm', source)
        return program, self.file('run.json', RUN), self.file('rom.lst', NASM)

    def c(self) -> tuple[str, str, str]:
        """The C program's HEX, its run file and its map, with source and listings beside it."""
        for name in ('sums.hex', 'sums.map', 'sums.c', 'crt0.s', 'lines/sums.lst', 'lines/crt0.lst'):
            shutil.copy(f'{STORED}/c/{name}', self.room)
        return f'{self.room}/sums.hex', self.file('run.json', RUN), f'{self.room}/sums.map'

    def gdb(self, files: tuple[str, str, str], *typed: str) -> str:
        """What gdb tells."""
        program, run_file, symbols = files
        words = [one for line in typed for one in ('-ex', line)]
        return ''.join(self.tool('gdb', program, run_file, '--symbols', symbols, '-nx', '-batch', *words))

    def client(self, files: tuple[str, str, str], **more: object) -> Client:
        """An editor at the start of a run."""
        client = Client(self.room)
        self.addCleanup(client.watch.cancel)
        self.addCleanup(client.end)
        client.ask('initialize', adapterID='zebludor')
        client.ask('launch', program=files[0], run=files[1], symbols=files[2], stopOnEntry=True, **more)
        client.event('initialized')
        return client


class Lines(Case):
    """What the files tell."""

    def test_nasm(self) -> None:
        program, _, listing = self.nasm()
        with open(program, encoding='ascii') as file:
            image = image_of(file.read())
        found = symbols_of(listing, image)
        self.assertEqual({one.source for one in found.at.values()}, {f'{self.room}/rom.asm'})
        self.assertEqual([far_of(found, one) for one in ('rom.asm:6', ':9', 'rom.asm:12')], [(0xF000, 5), (0xF000, 0x18), (0xF000, 0x18)])
        self.file('rom.asm', SOURCE.replace('a ROM', 'another'))
        self.assertEqual(list(symbols_of(listing, image).files), ['rom.asm'])  # a name, for that file says something else
        for place in ('other.asm:1', 'rom.asm:99', 'rom.asm:0'):
            with self.assertRaises(Sorry):
                far_of(found, place)

    def test_c(self) -> None:
        program, _, symbols = self.c()
        with open(program, encoding='ascii') as file:
            image = image_of(file.read())
        found = symbols_of(symbols, image)
        self.assertEqual({os.path.basename(one) for one in found.files}, {'sums.c', 'crt0.s'})
        self.assertEqual({number: far_of(found, f'sums.c:{number}') for number in LINES_OF_C}, {number: (0xF000, at) for number, at in LINES_OF_C.items()})
        self.assertEqual(far_of(found, 'crt0.s:8'), (0xF000, 0))  # _start: cld
        self.assertEqual([one.text for one in found.files[f'{self.room}/sums.c'][6:9]], ['    if (n == 0)', '        return 0;', '    return n + sum(n - 1);'])
        self.assertEqual((found.lines, found.at), ([], {}))  # what is said of assembler is not said of C
        with open(f'{self.room}/sums.lst', encoding='ascii') as file:
            listing = file.read()
        self.file('sums.lst', listing.replace('00022 0000           55 ', '00022 0000           54 '))
        with self.assertRaisesRegex(Sorry, 'sums.c, line 7: at F000:0044 the program has other bytes'):
            symbols_of(symbols, image)
        for name in ('sums.lst', 'crt0.lst'):
            os.remove(f'{self.room}/{name}')
        self.assertEqual(symbols_of(symbols, image).files, {})

    def test_variables_of_c(self) -> None:
        """Of a module with a listing, as it is declared there, if the map has the name once; two modules may have one of their own each."""
        program, _, symbols = self.c()
        with open(program, encoding='ascii') as file:
            image = image_of(file.read())
        data = [(one.name, os.path.basename(one.source), one.line, one.said, one.sizes, one.place) for one in symbols_of(symbols, image).data]
        self.assertEqual(data, [('_text', 'sums.c', 2, 'char', (5,), (0, 0x500)), ('_total', 'sums.c', 3, 'int', (), (0, 0x508))])
        with open(symbols, 'a', encoding='ascii') as file:
            file.write('                more                 _text  3  00000600  r\n')
        found = symbols_of(symbols, image)
        self.assertEqual(([one.name for one in found.data], '_text' in found.labels, found.reserved), (['_total'], True, {'_text', '_total', '__edata'}))

    def test_dbg(self) -> None:
        program, run_file, symbols = self.c()
        answer = self.called('dbg', program, run_file, '--symbols', symbols, given='until sums.c:9\nlist\nbreak sums.c:8\ngo\ntrail 1\n')[0]
        self.assertRegex(answer, r'^clock \d+: F000:0056 _sum\+12 \| sums\.c:9: return n \+ sum\(n - 1\);\n')
        self.assertIn('>    9 F000:0056     return n + sum(n - 1);\n', answer)
        self.assertRegex(answer, r'clock \d+: F000:0050 _sum\+C \| sums\.c:8: return 0;\n')
        self.assertRegex(answer.splitlines()[-1], r'JNZ +\w+ +\| sums\.c:7: if \(n == 0\)$')

    def test_nasm_itself(self) -> None:
        """The example's listing, as its Makefile has it made: each line's bytes are the program's."""
        if not is_there('nasm', "lines of NASM's own", 'nasm'):
            return
        folder = shutil.copytree(f'{EXAMPLES}/nasm', f'{self.room}/nasm')
        subprocess.run(['nasm', '-f', 'bin', '-l', 'rom.lst', '-o', 'rom.bin', 'rom.asm'], cwd=folder, check=True)
        with open(f'{folder}/rom.bin', 'rb') as octets:
            image = image_of(hex_of(octets.read(), 0xF600))
        found = symbols_of(f'{folder}/rom.lst@F600,ram=50', image)
        with open(f'{folder}/rom.asm', encoding='utf-8') as file:
            source = file.read().split('\n')
        self.assertEqual([one.text.split() for one in found.files[f'{folder}/rom.asm']], [one.split() for one in source[:-1]])
        self.assertEqual(far_of(found, f'rom.asm:{source.index("start:  cli") + 1}'), (0xF600, 0))

    def test_bcc_itself(self) -> None:
        """The example by its Makefile: lines of C and of its start."""
        packages = {'bcc': 'bcc', 'as86': 'bin86', 'ld86': 'bin86', 'objcopy': 'binutils', 'make': 'make'}
        if not all(is_there(command, 'lines of C by bcc', package) for command, package in packages.items()):
            return
        folder = shutil.copytree(f'{EXAMPLES}/bcc', f'{self.room}/bcc')
        subprocess.run(['make', '-s', 'rom.hex'], cwd=folder, check=True)
        with open(f'{folder}/rom.hex', encoding='ascii') as file:
            found = symbols_of(f'{folder}/rom.map@F600,ram=50', image_of(file.read()))
        with open(f'{folder}/main.c', encoding='utf-8') as file:
            number = next(at for at, line in enumerate(file, 1) if 'ticks++' in line)
        self.assertEqual(far_of(found, f'main.c:{number}'), found.labels['_tick'])
        self.assertEqual(far_of(found, 'start.s:1'), (0xF600, 0))
        shutil.copytree(f'{STORED}/c', f'{self.room}/c')
        subprocess.run([f'{self.room}/c/make', 'sums', f'{self.room}/c'], check=True)
        for name in ('sums.lst', 'crt0.lst'):
            with open(f'{self.room}/c/{name}', encoding='ascii') as made, open(f'{STORED}/c/lines/{name}', encoding='ascii') as stored:
                self.assertEqual(made.read(), stored.read())


class Gdb(Case):
    """By gdb itself."""

    def is_there(self) -> bool:
        """Whether it is installed."""
        return is_there('gdb', 'gdb with the lines of HEX programs', 'gdb')

    def test_nasm(self) -> None:
        if not self.is_there():
            return
        answer = self.gdb(self.nasm(), 'info line rom.asm:12', 'break rom.asm:4', 'continue', 'next', 'reverse-stepi', 'info source')
        self.assertIn('Line 12 of "rom.asm" starts at address 0xf0018 <end_it', answer.replace('<msg+17', '<end_it'))
        for line in ('Breakpoint 1, start () at rom.asm:4\n4\t        mov es,ax\n', '\n6\t        jmp short .loop\n', f'Located in {self.room}/rom.asm\n'):
            self.assertIn(line, answer)

    def test_a_source_that_is_not_there(self) -> None:
        """Then gdb shows what the listing has of it."""
        if not self.is_there():
            return
        for source in (None, 'something else\n'):
            answer = self.gdb(self.nasm(source), 'break rom.asm:4', 'continue', 'list 1,3')
            for line in ('\n4\t        mov es,ax\n', '\n2\t; a ROM\n3\tstart:  mov ax,0B000h\n'):
                self.assertIn(line, answer)

    def test_c(self) -> None:
        if not self.is_there():
            return
        typed = ('tbreak sums.c:9', 'continue', 'backtrace', 'step', 'finish', 'tbreak *_main', 'reverse-continue', 'list crt0.s:8,8')
        answer = self.gdb(self.c(), *typed)
        for line in (
            '_sum () at sums.c:9\n9\t    return n + sum(n - 1);\n',
            '#0  _sum () at sums.c:9\n#1  0x000f00a1 in _main () at sums.c:17\n#2  0x000f002a in _start () at ',
            '\n7\t    if (n == 0)\n',
            '_main () at sums.c:15\n15\t    for (i = 0; text[i]; i++)\n',
            '8\t_start: cld\n',
        ):
            self.assertIn(line, re.sub(r'at \S*/(sums\.c|crt0\.s)', r'at \1', answer))


class Editors(Case):
    """By the adapter."""

    def test_nasm(self) -> None:
        client = self.client(self.nasm())
        answer = client.lines(f'{self.room}/rom.asm', 4, 8)
        self.assertEqual([(one['verified'], one['line'], one['instructionReference']) for one in answer], [(True, 4, '0xF0003'), (True, 12, '0xF0018')])
        client.ask('configurationDone')
        client.event('stopped')
        self.assertEqual(client.move('continue')['reason'], 'breakpoint')
        (frame,) = client.ask('stackTrace', threadId=1)['stackFrames']
        self.assertEqual((frame['name'], frame['line'], frame['source']['path']), ('start+3', 4, f'{self.room}/rom.asm'))
        rows = client.ask('disassemble', memoryReference='0xF0000', instructionCount=1)['instructions']
        self.assertEqual((rows[0]['instruction'], rows[0]['line']), ('MOV AX,0B000h', 3))
        rows = client.ask('disassemble', memoryReference='0xF0005', instructionCount=1)['instructions']  # which hasn't run
        self.assertEqual([rows[0][one] for one in ('instruction', 'instructionBytes', 'line')], ['JMP SHORT 00005h', 'EB FE', 6])
        self.assertIn('not the program', client.lines(f'{self.room}/other.asm', 4)[0]['message'])

    def test_where_the_source_stands(self) -> None:
        """It may be elsewhere, in a file or folder that the launch names; if it is nowhere, the client is given its text."""
        files = self.nasm(None)
        os.mkdir(f'{self.room}/src')
        source = self.file('src/rom.asm', SOURCE)
        for places in ([os.path.dirname(source)], [f'{self.room}/run.json', source]):
            self.assertTrue(self.client(files, sources=places).lines(source, 4)[0]['verified'])
        self.file('src/rom.asm', 'something else\n')
        client = self.client(files, sources=[source])
        self.assertIn("isn't the text of the listing: assemble it again", client.lines(source, 4)[0]['message'])
        (answer,) = client.ask('setBreakpoints', source={'name': 'rom.asm', 'sourceReference': 1}, breakpoints=[{'line': 4}])['breakpoints']
        self.assertEqual((answer['verified'], answer['source']['sourceReference']), (True, 1))
        self.assertEqual([one.split() for one in client.ask('source', sourceReference=1)['content'].split('\n')], [one.split() for one in SOURCE.split('\n')])
        self.assertIn('no such source', client.refused('source', sourceReference=2))

    def test_c(self) -> None:
        """Breakpoints in two files; steps go from line to line of C, and by instructions if they are asked for."""
        client = self.client(self.c())
        self.assertEqual([one['instructionReference'] for one in client.lines(f'{self.room}/sums.c', 9, 8)], ['0xF0056', '0xF0050'])
        self.assertTrue(client.lines(f'{self.room}/crt0.s', 8)[0]['verified'])
        client.ask('configurationDone')
        client.event('stopped')
        seen = []
        for command in ('continue', 'continue', 'stepIn', 'next'):
            client.move(command)
            seen.append((client.line(), os.path.basename(client.ask('stackTrace', threadId=1)['stackFrames'][0]['source']['path'])))
        self.assertEqual(seen, [(8, 'crt0.s'), (9, 'sums.c'), (7, 'sums.c'), (9, 'sums.c')])
        self.assertEqual(client.move('stepOut')['reason'], 'breakpoint')
        client.lines(f'{self.room}/sums.c')
        client.ask('next', threadId=1, granularity='instruction')
        client.event('stopped')
        self.assertEqual(client.line(), 9)
        names = {one['name']: one for one in client.ask('variables', variablesReference=4)['variables']}
        self.assertIn("'SUM ", names['_text']['value'])
        self.assertEqual(names['_total']['value'], '00000h (0)')


if __name__ == '__main__':
    unittest.main()
