"""Variables, with types of as many bytes as the source gives their values: by listings, and of random programs as gdb, editors and tools/dbg
show them, forth and back."""
from __future__ import annotations

import os
import random
import re
import shutil
import subprocess
import unittest
from dataclasses import dataclass, replace

from tests.support import EXAMPLES, STORED, ToolCase, is_there
from tests.test_dap import Client
from tests.test_symbols import hex_of

from toolbox import nasm_data
from toolbox.c_data import data_in
from toolbox.data_labels import Datum
from toolbox.gdb.cfi import behind_prologue
from toolbox.hex_lines import ROW
from toolbox.listing import Listing, listing_of
from toolbox.printing import type_of
from toolbox.program import Files

# By nasm 2.16.
NASM = """     1                                          bits 16
     2                                          org 0
     3                                  TICKS   equ 46Ch
     4                                  PORT    equ 0x60
     5                                  N       equ 3*4+1
     6                                  CHR     equ ';' ; a comment
     7 00000000 B800B0                  start:  mov ax,0B000h
     8 00000003 EBFB                            jmp start
     9 00000005 010203040506070809-     bytes:  db 1,2,3,4,5,6,7,8,9,10
     9 0000000E 0A                 
    10 0000000F 0B                              db 11
    11 00000010 [0000]                  word1   dw start
    12 00000012 3412<rep 5h>            words:  times 5 dw 0x1234
    13 0000001C 7856341202000000        dbl:    dd 0x12345678, 2
    14 00000024 0100000000000000        qw:     dq 1
    15 0000002C 686900                  name:   db 'hi',0
    16                                  name_len equ $-name
    17 0000002F 01                      mixed:  db 1
    18 00000030 0200                            dw 2
    19                                  both:
    20 00000032 A0[3200]                        mov al,[both]
    21                                  lab:
    22 00000035 0700                            dw 7
    23 00000037 01                      a1:     db 1
    24 00000038 <bin 28h>               inc:    incbin "v.bin.in"
    25 00000060 6162<rep 3h>            tm:     times 3 db 'ab'
    26 00000066 0100000002000000-       tt:     times 2 dd 1,2
    26 00000066 <rep 2h>           
    27 00000076 [0500][1200]            .ta:    dw bytes, words
    28 0000007A 90<rep 2h>                      align 4
    29                                  struc   point
    30 00000000 ????                    .x:     resw 1
    31                                  endstruc
    32                                  far_end equ later
    33                                          absolute 0
    34 00000000 ????                    ticks:  resw 1
    35                                  keys:
    36 00000002 ????????                        resb 4
    37 00000006 <res Ch>                tbl:    resw 2*3
    38 00000012 ??                              resb 1
    39 00000013 ????????                last:   resd 1
"""
OF_NASM = 'bytes DB[11], word1 DW, words DW[5], dbl DD[2], name DB[3], mixed DB, lab DW, a1 DB, tm DB[6], tt DD[4], tt.ta DW[2], ticks DW, keys DB[4], '
OF_NASM += 'tbl DW[6], last DD'

# By bcc 0.16.17 and as86, but for the comments.
C = """00001                                           ! 1 # 1 "a.c"
00003                                           ! 1 typedef unsigned char byte; typedef byte *to; enum color { RED, BLUE } col;
00004                                           ! 2 struct point { int x; char y; } p, *pp; float f; extern int elsewhere;
00005                                           ! 3 char a[10] = "h;}"; int x = 5, *px = 0; char odd[3] = {1,2,3}; char text[] = "ab";
00008 0000                                      .data
00010                       00000000>           _a:
00011                       00000000>           .1:
00012 0000                        68            .ascii	"h;}"
00013 0003                        00            .byte	0
00014 0004                  00000006            .blkb	6
00017                       0000000A>           _x:
00018 000A                      0005            .word	5
00019                       0000000C>           _px:
00020 000C                      0000            .word	0
00021                       0000000E>           _odd:
00022 000E                        01            .byte	1
00023 000F                        02            .byte	2
00024 0010                        03            .byte	3
00026 0011                  00000001            .blkb	1
00028                       00000012>           _text:
00029 0012                        61            .ascii	"ab"
00030 0014                        00            .byte	0
00031 0015                  00000001            .blkb	1
00032                       00000016>           _wrong:
00033 0016                      0007            .word	7
00034                                           ! 4 int f1(a,b)int a; char b; { static int x; { char inner; } }
00035 0000                                      .text
00036                       00000000>           _f1:
00038                                           ! 5 static signed char priv[7]; unsigned long int ul; short sh; unsigned u;
00039                                           ! 6 int nn[2*3]; int m2[2][0x3]; long (*fn)(); byte b8, bs[4]; to tos[2]; void set();
00040                                           ! 7 long wrong;
00116 0018                                      .data
00118 0018                                      .bss
00119 0018                                      .comm	_p,4
00120 0018                                      .comm	_pp,2
00121 0018                                      .comm	_f,4
00122                       00000007>           _priv	lcomm	7
00123 0018                                      .comm	_ul,4
00124 0018                                      .comm	_sh,2
00125 0018                                      .comm	_u,2
00126 0018                                      .comm	_nn,$C
00127 0018                                      .comm	_m2,$C
00128 0018                                      .comm	_fn,2
00129 0018                                      .comm	_b8,1
00130 0018                                      .comm	_bs,4
00131 0018                                      .comm	_tos,4
00132 0018                                      .comm	_col,2
"""
OF_C = '_pp struct point near *, _a char[10], _x int, _px int near *, _odd char[3], _text char[3], _priv signed char[7], _ul unsigned long, _sh short, '
OF_C += '_u unsigned int, _nn int[6], _m2 int[2][3], _fn function near *, _b8 unsigned char, _bs unsigned char[4], _tos unsigned char near *[2]'
TO_START = ':02000002FFFFFE\n:05000000EA000000F021\n:00000001FF\n'  # the far jump to F000:0000, where the processor begins
RUN = '{"version":1,"ram":64,"sw1":0,"sw2":0,"budget":20000,"keys":[]}'


def listed(data: list[Datum]) -> str:
    """Names and types."""
    return ', '.join(f'{one.name} {type_of(one)}' for one in data)


class Listings(ToolCase):
    """What listings tell."""

    def test_nasm(self) -> None:
        rows = NASM.splitlines()
        names = re.findall(r'([a-z]\w*(?:\.\w+)?) D', OF_NASM) + ['qw', 'inc', 'both', 'start', 'tt.x']
        self.assertEqual(listed(nasm_data.data_in(rows, dict.fromkeys(names, (0x50, 0)))), OF_NASM)
        self.assertEqual(nasm_data.constants_in(rows), {'TICKS': 0x46C, 'PORT': 0x60, 'N': 13, 'CHR': 0x3B, 'name_len': 3})
        self.assertEqual(listed(nasm_data.data_in(rows, {'dbl': (0, 0)})), 'dbl DD[2]')
        elsewhere = [row.replace('00000024', '00000026') for row in rows]  # where the next row stands says another size
        self.assertEqual(listed(nasm_data.data_in(elsewhere, {'dbl': (0, 0)})), '')

    def test_numbers_of_nasm(self) -> None:
        """As its manual has them (3.4.1); what isn't made of numbers has no value."""
        for text, wanted in (
            ('200', 200),
            ('0200d', 200),
            ('0d200', 200),
            ('0c8h', 200),
            ('$0c8', 200),
            ('0xc8', 200),
            ('0hc8', 200),
            ('0B800h', 0xB800),
            ('0D0h+1', 0xD1),
            ('310q', 200),
            ('0o310', 200),
            ('11001000b', 200),
            ('1100_1000b', 200),
            ('0b1100_1000', 200),
            ("'ab'", 0x6261),
            ('(1<<4|3)^~0&0Fh', 28),
            ('-7', -7),
            ('7/2+7%4', 6),
            ('-7/2', None),
            ('later', None),
            ('1<<40', None),
            ('__LINE__', None),
            ('', None),
            ("'", None),
            ('((((', None),
        ):
            self.assertEqual(nasm_data.value_of(text, {}, {}, (0, 0)), wanted, text)

    def test_c(self) -> None:
        """Declared types, where they have as many bytes as the listing gives them; `wrong` is declared with more."""
        rows = [found.groups() for found in map(ROW.match, C.splitlines()) if found]
        places = {name: (0x50, 0) for name in re.findall(r'_\w+', C)}
        data = data_in(rows, str, places)
        self.assertEqual(listed(data), OF_C)
        self.assertEqual({one.source for one in data}, {'a.c'})
        self.assertEqual({one.name: one.line for one in data if one.line != 3}['_m2'], 6)
        again = [*rows[:-1], ('    ', ' ' * 36, '! 8 unsigned int x; char a[10];'), rows[-1]]
        self.assertEqual(listed(data_in(again, str, places)), OF_C.replace('_x int, ', ''))

    def test_the_dialect(self) -> None:
        """Up to the next label, of lines that a listing shows as a whole or not, before what stands elsewhere, and below what is there."""
        text = 'SEGMENT LOW AT 0F003h\nbelow: DB 1\nENDS\nSEGMENT MAIN AT 0F000h\nstart: HLT\nmsg: DB "1234567890123456789"\n DB 5\nn EQU 3\n ORG 27h\n'
        text += 'two: DW 1,2\nmore: DB 5 DUP (7)\nENDS\nSEGMENT HIGH AT 0E800h\n ORG 0FFFEh\nlast: DW 1\nENDS\n'
        source = self.file('it.asm', text.replace('"', "'"))
        listing = listing_of(Files(source, ''))
        self.assertEqual(listed(listing.data), 'below DB, msg DB[20], two DW[2], more DB[5], last DW')
        self.assertEqual(listing.constants, {'n': 3})
        self.assertEqual((listing.datum_at(0xF0001) or Datum('', 0, 'DB', (0, 0), 0)).name, 'msg')

    def test_over_a_segments_end(self) -> None:
        """Such an array's bytes don't stand one behind the other, so it has no type; the name is there."""
        near, over, beyond = Datum('near', 1, 'DB', (0x1000, 0xFFF0), 16), Datum('over', 1, 'DB', (0x1000, 0xFFF0), 17), Datum('out', 1, 'DB', (0xFFFF, 0), 17)
        self.assertEqual(Listing(read_data=lambda: [near, over, beyond]).data, [near])


@dataclass(frozen=True)
class Made:
    """A variable of a random program: its name, the bytes of a value, whether it has a sign, its dimensions, and its values before what the
    program writes and after it."""

    name: str
    size: int
    is_signed: bool
    sizes: tuple[int, ...]
    before: list[int]
    after: list[int]

    def numbers(self, is_after: bool, has_signs: bool = True) -> list[int]:
        """Its values, as numbers without a sign unless they have one."""
        bits = 1 << 8 * self.size
        them = [one % bits for one in (self.after if is_after else self.before)]
        return [one - bits if has_signs and self.is_signed and one >= bits // 2 else one for one in them]


class Programs:
    """Random programs, whose variables and values are those that they are written from."""

    def __init__(self, seed: int, count: int) -> None:
        self.chance, self.count = random.Random(seed), count

    def made(self, name: str, size: int, is_signed: bool = False, begins_at: list[int] | None = None) -> Made:
        """A variable, and what it holds after some of its values were written."""
        sizes = tuple(self.chance.randint(2, 6) for _ in range(self.chance.choice((0, 0, 1, 1, 2 if is_signed else 1))))
        count = 1
        for one in sizes:
            count *= one
        before = begins_at * count if begins_at else [self.chance.randrange(1 << 8 * size) for _ in range(count)]
        after = [self.chance.randrange(1 << 8 * size) if self.chance.random() < 0.4 else one for one in before]
        return Made(name, size, is_signed, sizes, before, after)

    def dialect(self) -> tuple[str, list[Made]]:
        """A source of the board's dialect."""
        made = [self.made(f'v{number}', self.chance.choice((1, 2, 4))) for number in range(self.count)]
        data, code = list[str](), ['        MOV AX,VARS', '        MOV DS,AX']
        for one in made:
            word = {1: 'DB', 2: 'DW', 4: 'DD'}[one.size]
            cut = self.chance.randint(1, len(one.before))  # the rest stands on a line of its own
            lines = [', '.join(map(str, part)) for part in (one.before[:cut], one.before[cut:]) if part]
            data += [f'{one.name}: {word} {lines[0]}', *(f'        {word} {rest}' for rest in lines[1:])]
            code += self.writes(
                one, lambda name, at, half: f'        MOV WORD [{name}+{at}],{half}', lambda name, at, half: f'        MOV BYTE [{name}+{at}],{half}'
            )
        text = ['SEGMENT VARS AT 60h', *data, 'ENDS', 'SEGMENT MAIN AT 0F000h', 'start:', *code, 'done:   HLT', 'ENDS']
        return '\n'.join([*text, 'SEGMENT RESET AT 0FFFFh', '        JMP FAR start', 'ENDS']) + '\n', made

    @staticmethod
    def writes(one: Made, word: object, byte: object) -> list[str]:
        """What writes the values that are others afterwards, by words and bytes."""
        assert callable(word) and callable(byte)
        found = list[str]()
        for at, (old, new) in enumerate(zip(one.before, one.after)):
            if old != new and one.size == 1:
                found.append(byte(one.name, at, new % 256))
            elif old != new:
                found += [word(one.name, at * one.size + part, new >> 8 * part & 0xFFFF) for part in range(0, one.size, 2)]
        return found

    def masm(self) -> tuple[str, list[Made]]:
        """A source of MASM's."""
        alike = [[self.chance.randrange(256)] if self.chance.random() < 0.3 else None for _ in range(self.count)]
        made = [self.made(f'v{number}', self.chance.choice((1, 2, 4)), begins_at=value) for number, value in enumerate(alike)]
        data = list[str]()
        for one, value in zip(made, alike):
            values = f'{len(one.before)} DUP({value[0]})' if value else ','.join(map(str, one.before))
            data.append(f'{one.name} D{" BW D"[one.size]} {values}')
        code = [line for one in made for line in self.writes(one, 'MOV WORD PTR {}[{}],{}'.format, 'MOV BYTE PTR {}[{}],{}'.format)]
        head = ['.MODEL SMALL', '.STACK 100h', '.DATA', *data, '.CODE', 'main PROC', 'MOV AX,@DATA', 'MOV DS,AX', 'begin:']
        return '\n'.join([*head, *code, 'done:', 'MOV AX,4C00h', 'INT 21h', 'main ENDP', 'END main']) + '\n', made

    def nasm(self) -> tuple[str, list[Made]]:
        """A source of NASM's: what is in RAM begins as 0."""
        made = [self.made(f'v{number}', self.chance.choice((1, 2, 4)), begins_at=[0]) for number in range(self.count)]
        data = [f'{one.name}:{self.chance.choice(("", chr(10)))} res{" bw d"[one.size]} {len(one.before)}' for one in made]
        code = [line for one in made for line in self.writes(one, '        mov word [{}+{}],{}'.format, '        mov byte [{}+{}],{}'.format)]
        text = ['        bits 16', '        absolute 0', *data, '        section .text', 'start:  mov ax,60h', '        mov ds,ax', *code, 'done:   hlt']
        return '\n'.join(text) + '\n', made

    def c(self) -> tuple[str, list[Made]]:
        """A source of C for bcc, beside start.s of examples/bcc."""
        types = {'char': (1, False), 'signed char': (1, True), 'unsigned char': (1, False), 'int': (2, True), 'unsigned': (2, False), 'short': (2, True)}
        types |= {'long': (4, True), 'unsigned long': (4, False), 'char *': (2, False)}
        lines, code, made = list[str](), list[str](), list[Made]()
        for number in range(self.count):
            said = self.chance.choice([*types])
            size, is_signed = types[said]
            has_value = self.chance.random() < 0.5 and said != 'char *'
            one = self.made(f'v{number}', size, is_signed, None if has_value else [0])
            values = ', '.join(map(c_number, one.before))
            lines.append(f'{said} {one.name}{"".join(f"[{count}]" for count in one.sizes)}{self.initial(one, values) if has_value else ""};')
            code += c_writes(one, said)
            made.append(replace(one, name=f'_{one.name}'))
        main = '\n'.join(['int done() { return 0; }', 'int main() {', *code, 'done();', 'return 0; }', 'void tick() {}', 'void key() {}'])
        return '\n'.join(lines) + '\n' + main + '\n', made

    @staticmethod
    def initial(one: Made, values: str) -> str:
        """A variable's value where it is declared."""
        return f' = {{{values}}}' if one.sizes else f' = {values}'


def c_number(number: int) -> str:
    """A number as C takes it for any type."""
    return f'0x{number:X}{"L" if number > 0xFFFF else ""}'


def c_writes(one: Made, said: str) -> list[str]:
    """What writes the values that are others afterwards, by a pointer to the first."""
    kind = said.rstrip(' *') + ' *' * ('*' in said)
    changed = ((at, new) for at, (old, new) in enumerate(zip(one.before, one.after)) if old != new)
    first = f'(({kind} *) {"" if one.sizes else "&"}{one.name})'
    return [f'{first}[{at}] = ({kind}) {c_number(new)};' for at, new in changed]


class Random(ToolCase):
    """Variables of random programs, before what they write, after it, and after going back: each debugger shows the value and size that the
    source gives."""

    COUNT = int(os.environ.get('VARIABLES', 25))  # of each program

    def seed(self) -> int:
        """A seed that is printed, or the one that is asked for."""
        found = int(os.environ.get('SEED', random.randrange(1 << 30)))
        print(f'seed {found}', flush=True)
        return found

    def each(self, words: tuple[str, ...], made: list[Made], places: tuple[str, str]) -> None:
        """Compares what all debuggers show between two places."""
        self.by_dbg(words, made, places)
        self.by_editor(words, made, places)
        if is_there('gdb', 'variables by gdb', 'gdb'):
            self.by_gdb(words, made, places)

    def by_gdb(self, words: tuple[str, ...], made: list[Made], places: tuple[str, str]) -> None:
        shows = [line for one in made for line in (f'output sizeof({one.name})', 'echo :', f'output/{"ud"[one.is_signed]} {one.name}', 'echo \\n')]
        begin = [f'break *&{place}' for place in places]
        typed = ['set print elements 0', 'set print repeats 0', *begin, 'continue', 'echo begin\\n', *shows, 'continue', 'echo begin\\n', *shows]
        typed += ['reverse-continue', 'echo begin\\n', *shows]
        given = [word for command in typed for word in ('-ex', command)]
        out, _ = self.tool('gdb', *words, '-nx', '-batch', *given)
        parts = [part.splitlines() for part in out.split('begin\n')[1:]]
        for is_after, part in zip((False, True, False), parts, strict=True):
            for one, line in zip(made, part):
                size, _, values = line.partition(':')
                self.assertEqual(int(size), one.size * len(one.before), line)
                self.assertEqual([*map(int, re.findall(r'-?\d+', values))], one.numbers(is_after), (one, line))

    def by_dbg(self, words: tuple[str, ...], made: list[Made], places: tuple[str, str]) -> None:
        shows = [f'print {one.name}{f"[{at}]" if one.sizes else ""}' for one in made for at in range(len(one.before))]
        moves = [f'until {places[0]}', f'until {places[1]}', f'break {places[0]}', 'last']
        typed = [moves[0], *shows, moves[1], *shows, *moves[2:], *shows, *(f'print {one.name}' for one in made)]
        lines = self.called('dbg', *words, given='\n'.join(typed) + '\n')[0].splitlines()
        shown = [[int(number)] for line in lines for number in re.findall(r' bytes?: [0-9A-F]+h \((-?\d+)\)', line)]
        wanted = [[[number] for one in made for number in one.numbers(is_after)] for is_after in (False, True, False)]
        self.assertEqual(shown[: 3 * len(shows)], [each for part in wanted for each in part])
        for one, line in zip(made, lines[-len(made) :]):
            self.assertRegex(line, rf' {one.name}, .*, {one.size * len(one.before):,} bytes?: ')

    def by_editor(self, words: tuple[str, ...], made: list[Made], places: tuple[str, str]) -> None:
        client = Client(self.room)
        self.addCleanup(client.watch.cancel)
        self.addCleanup(client.end)
        client.ask('initialize', adapterID='zebludor', supportsVariableType=True)
        launch = {'program': words[0], 'run': words[1]} | ({'symbols': words[3]} if len(words) > 2 else {})
        client.ask('launch', stopOnEntry=True, **launch)
        client.event('initialized')
        client.ask('setFunctionBreakpoints', breakpoints=[{'name': place} for place in places])
        client.ask('configurationDone')
        client.event('stopped')
        for is_after, move in ((False, 'continue'), (True, 'continue'), (False, 'reverseContinue')):
            client.move(move)
            shown = {row['name']: row for row in client.ask('variables', variablesReference=4)['variables']}
            for one in made:
                row = shown[one.name]
                rows = client.ask('variables', variablesReference=row['variablesReference'])['variables'] if row['variablesReference'] else [row]
                count = one.size * len(one.before)
                self.assertRegex(row['type'], rf', {count} bytes?$')
                self.assertEqual([int(re.findall(r'\((-?\d+)\)', each['value'])[0]) for each in rows], one.numbers(is_after), (one, rows))
                self.assertEqual(client.ask('evaluate', expression=one.name, context='watch')['result'], row['value'])

    def test_the_dialect(self) -> None:
        text, made = Programs(self.seed(), self.COUNT).dialect()
        self.each((self.file('it.asm', text), self.file('run.json', RUN)), made, ('start', 'done'))

    def test_masm(self) -> None:
        """By the translation's listing, over the services; values that are alike stand there once, with DUP."""
        text, made = Programs(self.seed(), self.COUNT).masm()
        self.each((self.file('it.asm', text), self.file('run.json', RUN.replace('64', '640').replace('20000', '200000'))), made, ('begin', 'done'))

    def test_nasm(self) -> None:
        """By NASM's listing."""
        if not is_there('nasm', "variables of NASM's listing", 'nasm'):
            return
        text, made = Programs(self.seed(), self.COUNT).nasm()
        self.file('it.asm', text)
        subprocess.run(['nasm', '-f', 'bin', '-l', 'it.lst', '-o', 'it.bin', 'it.asm'], cwd=self.room, check=True)
        with open(f'{self.room}/it.bin', 'rb') as octets:
            image = hex_of(octets.read()).replace(':00000001FF\n', TO_START)
        words = self.file('it.hex', image), self.file('run.json', RUN), '--symbols', f'{self.room}/it.lst@F000,ram=60'
        self.each(words, made, ('start', 'done'))

    def test_c(self) -> None:
        """By bcc's listings."""
        if not all(is_there(command, 'variables of C', package) for command, package in (('bcc', 'bcc'), ('as86', 'bin86'), ('objcopy', 'binutils'))):
            return
        text, made = Programs(self.seed(), self.COUNT).c()
        folder = shutil.copytree(f'{EXAMPLES}/bcc', f'{self.room}/c')
        self.file('c/main.c', text)
        subprocess.run(['make', '-s', 'rom.hex'], cwd=folder, check=True, stderr=subprocess.PIPE)
        words = f'{folder}/rom.hex', self.file('run.json', RUN.replace('20000', '900000')), '--symbols', f'{folder}/rom.map@F600,ram=50'
        self.each(words, made, ('_main', '_done'))


class Faces(ToolCase):
    """What tools/dbg and editors have besides."""

    def editor(self, files: tuple[str, ...]) -> Client:
        """An editor at the start of a run."""
        client = Client(self.room)
        self.addCleanup(client.watch.cancel)
        self.addCleanup(client.end)
        client.ask('initialize', adapterID='zebludor')
        launch = {'program': files[0], 'run': files[1]} | ({'symbols': files[3]} if len(files) > 2 else {})
        client.ask('launch', stopOnEntry=True, **launch)
        client.event('initialized')
        client.ask('configurationDone')
        client.event('stopped')
        return client

    def test_an_editors_console(self) -> None:
        """`last` goes back to a change or a write, `moments` tells runs with a key; both are told as stops. A variable by itself has its value."""
        lines = (
            '        MOV AX,0F000h\n        MOV DS,AX\n        MOV ES,DX\n        MOV WORD ES:[400h],5\nagain:  INC AX\n        JMP SHORT again\nlist:   DW 7,8'
        )
        client = self.editor(self.program(lines))
        client.ask('evaluate', expression='to 500', context='repl')
        client.event('stopped')
        for text, wanted in (
            ('last 400 2', '00400 was 00, is 05'),
            ('last write 402', 'nothing was written'),
            ('last 1 2 3', 'use: last'),
            ('moments a 9', 'use: moments'),
        ):
            client.ask('evaluate', expression=text, context='repl')
            self.assertIn(wanted, client.event('stopped')['text'])
        client.ask('evaluate', expression='moments a 600 602 100', context='repl')
        client.event('stopped')
        self.assertIn('      600 to       602: no breakpoint\n', [event['body']['output'] for event in client.events if event['event'] == 'output'])
        shown = [client.ask('evaluate', expression=text, context='watch')['result'] for text in ('list', 'list[1]', 'again+1')]
        self.assertEqual(shown, ['0007 0008', '00008h (8)', '0000Fh (15)'])

    def test_callers_in_c(self) -> None:
        """Of a recursion, each with its line; the CALL of _start is its last instruction, so that _stop is where main returns to."""
        for name in ('sums.hex', 'sums.map', 'sums.c', 'crt0.s', 'lines/sums.lst', 'lines/crt0.lst'):
            shutil.copy(f'{STORED}/c/{name}', self.room)
        client = self.editor((f'{self.room}/sums.hex', self.file('run.json', RUN), '--symbols', f'{self.room}/sums.map'))
        client.ask('setBreakpoints', source={'path': f'{self.room}/sums.c'}, breakpoints=[{'line': 8}])
        client.move('continue')
        frames = client.ask('stackTrace', threadId=1)['stackFrames']
        self.assertEqual([one['name'].partition('+')[0] for one in frames], ['_sum'] * 11 + ['_main', '_stop'])
        self.assertEqual([one['line'] for one in frames[:-1]], [8] + [9] * 10 + [17])

    def test_dbg(self) -> None:
        """`print` of registers, flags, variables and places; a variable is watched with all its bytes, or with as many as are named."""
        lines = '        MOV AX,8001h\n        HLT\nlist:   DW 7,8,9\ntext:   DB "ab"\nn       EQU 3'.replace('"', "'")
        typed = ('step', 'step', 'print AX', 'print AL', 'p ZF', 'print AX+n', 'print list', 'print LIST[2]', 'print list[3]', 'print text', 'print start')
        typed += ('print F000:4', 'print CS:IP', 'print nothing', 'print', 'watch list', 'watch list 1', 'watch text+1', 'last write list')
        out = self.called('dbg', *self.program(lines), given='\n'.join(typed) + '\n')[0].splitlines()
        wanted = [
            '08001h (32769)',
            '001h (1)',
            '000h (0)',
            '08004h (32772)',
            'F0004 list, DW[3], 6 bytes: 0007 0008 0009',
            'F0008 list[2], DW, 2 bytes: 00009h (9)',
        ]
        wanted += ['list has 3 values, from list[0] on', "F000A text, DB[2], 2 bytes: 61 62  'ab'", 'F0000 start, 1 byte: 0B8h (184)']
        wanted += [
            'F0004 list, 2 bytes: 00007h (7)',
            'F0003 start+3, 1 byte: 0F4h (244)',
            'nothing is no register, flag, label or number',
            'use: print EXPRESSION',
        ]
        wanted += [
            'stop 1: watch F0004 6 (list)',
            'stop 2: watch F0004 1 (list)',
            'stop 3: watch F000B 1 (text+1)',
            'nothing was written there before this clock',
        ]
        self.assertEqual(out[2:], wanted)


class Gdb(ToolCase):
    """gdb itself."""

    def gdb(self, words: tuple[str, ...], *commands: str) -> str:
        """What it prints."""
        given = [word for command in commands for word in ('-ex', command)]
        return ''.join(self.tool('gdb', *words, '-nx', '-batch', *given))

    def c(self) -> tuple[str, ...]:
        """The C program of tests/stored with its listings beside the map."""
        for name in ('sums.hex', 'sums.map', 'sums.c', 'crt0.s', 'lines/sums.lst', 'lines/crt0.lst'):
            shutil.copy(f'{STORED}/c/{name}', self.room)
        return f'{self.room}/sums.hex', self.file('run.json', RUN), '--symbols', f'{self.room}/sums.map'

    def test_c(self) -> None:
        """Types, a watch, and a break before the first statement, where BP leads to the frame; the line is that of the statement."""
        if not is_there('gdb', 'variables of C by gdb', 'gdb'):
            return
        typed = ('break _sum', 'continue', 'backtrace', 'print $bp16 == $sp16 + 4', 'whatis _text', 'print _text', 'print sizeof(_total)', 'info variables')
        out = self.gdb(self.c(), *typed, 'delete', 'watch _total', 'continue', 'print _total', 'monitor last write _total', 'print _total', 'print $clock')
        for wanted in (
            'Breakpoint 1 at 0xf0049: file ',
            'sums.c:7\n7\t    if (n == 0)\n',
            '#0  _sum () at ',
            '$1 = 1\ntype = char [5]\n$2 = "SUM "\n$3 = 2\n',
            '2:\tchar _text[5];\n3:\tint _total;\n',
            'Hardware watchpoint 2: _total\n\nOld value = 0\nNew value = 55\n',
            '$4 = 55\n',
            'clock 3388: 00508 _total was 00, is 37',
            '$5 = 55\n$6 = 3388\n',
        ):
            self.assertIn(wanted, out)

    def test_where_a_routine_has_its_frame(self) -> None:
        """From behind MOV BP,SP on, over pushes and room, in each form; nowhere without it."""
        for octets, wanted in (
            ('55 89E5 57 56 4C 4C B8', [3, 4, 5, 6, 7]),
            ('55 8BEC 83EC04 57 C3', [3, 4, 5, 6, 7]),
            ('55 89E5 81C4F0FF 57 C3', [3, 4, 5, 6, 7, 8]),
            ('55 89E5 C3', [3]),
            ('55 89E5', [3]),
            ('57 89E5 57', []),
            ('', []),
        ):
            self.assertEqual(list(behind_prologue(bytes.fromhex(octets))), wanted, octets)

    def test_labels_that_are_both(self) -> None:
        """Code that is written as data: it has a value, and one stops there. Of a label of data with no type the name is there."""
        if not is_there('gdb', 'labels of code and data by gdb', 'gdb'):
            return
        files = self.program('        JMP SHORT code\nlist:   DW 1,2\ncode:   DB 90h,90h\nn       EQU 5\n        MOV AX,n\n        HLT')
        out = self.gdb(files, 'break code', 'continue', 'print/x code', 'print list', 'print n', 'print &list[1]', 'ptype n')
        for wanted in ('Breakpoint 1, code () at', '$1 = {0x90, 0x90}\n$2 = {1, 2}\n$3 = 5\n$4 = (unsigned short *) 0xf0004 <list+2>\ntype = int\n'):
            self.assertIn(wanted, out)
        rows = '000f0000 T start\n00000600 B count\n'
        program = self.file('it.hex', hex_of(bytes.fromhex('90F4')).replace(':00000001FF\n', TO_START))
        out = self.gdb((program, files[1], '--symbols', self.file('symbols', rows)), 'print count', 'print &count', 'x/2xb &count')
        for wanted in ('{<text variable, no debug info>} 0x600 <count>\n', '0x600 <count>:\t0x00\t0x00\n'):
            self.assertIn(wanted, out)

    def test_conditions_of_watches(self) -> None:
        """They stop where gdb would by itself, which judges them if another watches the same bytes: forth and back, of a value that comes
        back, too."""
        if not is_there('gdb', 'conditions of watches by gdb', 'gdb'):
            return
        lines = '        MOV AX,0\n        MOV DS,AX\nagain:  INC WORD [500h]\n        XOR BYTE [502h],1\n        MOV AL,[500h]\n        AND AL,3\n'
        files = self.program(f'{lines}        MOV [503h],AL\n        JMP SHORT again', 20000)
        moves = (*['continue'] * 3, *['reverse-continue'] * 2, 'continue', 'monitor to 900', 'continue', 'reverse-continue')
        for expression, condition in (('*(char*)0x502', '*(char*)0x502 == 0'), ('*(unsigned char*)0x503', '*(char*)0x503 != 2 && *(short*)0x500 > 9')):
            typed = [line for move in moves for line in (move, 'print $clock')]
            fast = self.gdb(files, f'watch {expression} if {condition}', *typed, 'maint info breakpoints')
            slow = self.gdb(files, f'watch {expression} if $_streq("a", "a") && ({condition})', *typed, 'maint info breakpoints')
            shown = re.findall(r'^(?:\$\d+ = (\d+)|(?:Old|New) value = (.*))$', fast, re.M)
            self.assertEqual(shown, re.findall(r'^(?:\$\d+ = (\d+)|(?:Old|New) value = (.*))$', slow, re.M), expression)
            self.assertGreater(len(set(shown)), 6, expression)
            self.assertEqual(['(target evals)' in out for out in (fast, slow)], [True, False])

    def test_the_clock(self) -> None:
        """It can be asked for, also by a condition, and isn't set."""
        if not is_there('gdb', 'the clock in gdb', 'gdb'):
            return
        files = self.program('again:  INC AX\n        JMP SHORT again', 20000)
        out = self.gdb(
            files, 'break again if $clock > 5000', 'continue', 'print $clock > 5000 && $clock < 5030', 'set $clock = 7', 'monitor last', 'rwatch again'
        )
        for wanted in ('$1 = 1\n', 'the clock is where the board stands: "monitor to CLOCK" goes there', 'use: last [write] PLACE', '"monitor when writes='):
            self.assertIn(wanted, out)


if __name__ == '__main__':
    unittest.main()
