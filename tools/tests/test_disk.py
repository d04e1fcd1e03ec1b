"""The disk of files: each function's registers and refusals as the DOS Technical Reference has them, random calls against a model, and
the files before and after a run."""
from __future__ import annotations

import os
import random
import unittest
from dataclasses import dataclass, field
from typing import Any

from tests.support import TOP
from tests.test_services import BEFORE, BUDGET, CARRY, STAY, Seen, ServiceCase

from toolbox import disk
from toolbox.command import Sorry, read_bytes
from toolbox.guests import Guest, prepared
from toolbox.program import Files
from toolbox.scancodes import stamped, strokes_of
from toolbox.services import TYPING, at_the_end

CLUSTER, CLUSTERS, ENTRIES = 1024, 190, 48
CALLS = 50  # of a random program
DATA = "a: DB 'a.txt',0\nb: DB 'B:\\B.TXT',0\nany: DB '*.*',0\n"


def call(function: int, **registers: object) -> str:
    """Lines that call a function."""
    sets = ''.join(f' MOV {name.upper()},{value}\n' for name, value in registers.items())
    return f'{sets} MOV AH,{function}\n INT 21h\n'


class DiskCase(ServiceCase):
    """Programs with files."""

    def host_file(self, name: str, octets: bytes) -> str:
        """A file of the host."""
        path = f'{self.room}/{name}'
        with open(path, 'wb') as file:
            file.write(octets)
        return path

    def prepare(self, lines: str, keys: str = '', budget: int = BUDGET, args: str = '', **more: Any) -> Any:
        """A program of these lines with files on its disk, by name."""
        paths = tuple(self.host_file(name, octets) for name, octets in more.pop('files', {}).items())
        path = self.file('it.asm', f'SEGMENT MAIN AT 100h\n ORG 100h\nstart:\n{lines}\nseen: INT 20h\n{more.pop("data", DATA)}ENDS\n')
        typed = stamped(strokes_of(keys), *TYPING)
        return prepared(Guest(path, args, True, files=paths), Files(path, ''), {'keys': typed, 'budget': budget} | more)

    def left(self, lines: str, **more: Any) -> tuple[Seen, dict[str, bytes]]:
        """The state at a program's end, and the files on its disk."""
        with self.prepare(lines, **more) as files, at_the_end(files, more.get('budget', BUDGET)) as (session, served):
            assert served and served.phase == 2, session.many('screen')
            return Seen(session, 0x1000), disk.files_of(session.dump, served)

    def refused(self, lines: str, code: int, **more: Any) -> None:
        """The last call, whose registers are set, sets carry with this code."""
        seen = self.after(f'{lines} CLC\n INT 21h\n', **more)
        self.assertEqual((seen.registers['AX'], seen.flags & CARRY), (code, CARRY), lines)

    def answered(self, lines: str, **more: Any) -> Seen:
        """The last call, whose registers are set, clears carry."""
        seen = self.after(f'{lines} STC\n INT 21h\n', **more)
        self.assertEqual(seen.flags & CARRY, 0, f'{lines}: AX {seen.registers["AX"]}')
        return seen


class Functions(DiskCase):
    """Each function."""

    def test_3c_create(self) -> None:
        self.assertEqual(self.answered(' MOV CX,0\n MOV DX,a\n MOV AH,3Ch\n').registers['AX'], 5)
        self.assertEqual(self.left(call(0x3C, cx=0, dx='a'), files={'A.TXT': b'old'})[1], {'A.TXT': b''})
        seen = self.answered(f'{BEFORE} MOV DX,b\n MOV CX,2\n MOV AX,3C77h\n')
        kept = {name: value for name, value in STAY.items() if name not in ('CX', 'DX')}
        self.assertEqual({name: seen.registers[name] for name in kept}, kept)
        for attribute in (8, 16):
            self.refused(f' MOV CX,{attribute}\n MOV DX,a\n MOV AH,3Ch\n', 5)
        self.refused(call(0x43, ax=1, cx=1, dx='a') + ' MOV CX,0\n MOV DX,a\n MOV AH,3Ch\n', 5, files={'A.TXT': b'old'})

    def test_3c_the_directory_is_full(self) -> None:
        letters = 'ABCDEFGHIJKLMNOPQRSTUVWX'
        files = {f'{first}{second}': b'' for first in letters for second in 'YZ'}
        self.assertEqual(len(files), ENTRIES)
        self.refused(' MOV CX,0\n MOV DX,a\n MOV AH,3Ch\n', 5, files=files)
        one_less = dict(list(files.items())[1:])
        self.assertEqual(self.left(call(0x3C, cx=0, dx='a'), files=one_less)[1].keys(), {*one_less, 'A.TXT'})

    def test_3d_open(self) -> None:
        for mode in (0, 1, 2, 0x42):
            self.assertEqual(self.answered(f' MOV DX,a\n MOV AX,{0x3D00 + mode}\n', files={'A.TXT': b'1'}).registers['AX'], 5)
        self.refused(' MOV DX,a\n MOV AX,3D00h\n', 2)
        self.refused(' MOV DX,a\n MOV AX,3D03h\n', 12, files={'A.TXT': b'1'})
        read_only = call(0x43, ax=1, cx=1, dx='a')
        for mode, code in ((1, 5), (2, 5)):
            self.refused(f'{read_only} MOV DX,a\n MOV AX,{0x3D00 + mode}\n', code, files={'A.TXT': b'1'})
        self.answered(f'{read_only} MOV DX,a\n MOV AX,3D00h\n', files={'A.TXT': b'1'})

    def test_names(self) -> None:
        """Any drive's root is the disk; a name of more signs is cut, as by DOS."""
        found = ('a.txt', 'A.TXT', 'c:a.txt', 'Z:\\a.Txt', '/a.txt', '\\a.txt', 'a.txtual')
        wanted = dict.fromkeys(found, 5) | dict.fromkeys(('sub\\a.txt', 'c:\\sub\\a.txt', '\\\\a.txt'), 3)
        wanted |= dict.fromkeys(('', 'b.txt', 'a.tx', 'a', '.txt', 'a.b.txt', '*.txt', 'a.t?t', 'a b.txt', 'a+.txt', 'a.txt\r'), 2)
        for name, code in wanted.items():
            octets = ','.join(str(octet) for octet in name.encode() + b'\0')
            lines = ' MOV DX,own\n MOV AX,3D00h\n INT 21h\n'
            seen = self.after(lines, data=f'own: DB {octets}\n', files={'A.TXT': b'1'})
            self.assertEqual((seen.registers['AX'], seen.flags & CARRY), (code, code != 5), name)
        seen = self.after(call(0x3D, al=0, dx='own'), data="own: DB 'eightsign.text',0\n", files={'EIGHTSIG.TEX': b''})
        self.assertEqual(seen.registers['AX'], 5)

    def test_fifteen_handles(self) -> None:
        opens = call(0x3D, al=0, dx='a')
        seen = self.answered(opens * 14 + ' MOV DX,a\n MOV AX,3D00h\n', files={'A.TXT': b'1'})
        self.assertEqual(seen.registers['AX'], 19)
        self.refused(opens * 15 + ' MOV DX,a\n MOV AX,3D00h\n', 4, files={'A.TXT': b'1'})
        self.refused(opens * 15 + ' MOV DX,b\n MOV CX,0\n MOV AH,3Ch\n', 4, files={'A.TXT': b'1'})
        seen = self.answered(opens * 15 + call(0x3E, bx=7) + ' MOV DX,a\n MOV AX,3D00h\n', files={'A.TXT': b'1'})
        self.assertEqual(seen.registers['AX'], 7)

    def test_3e_close(self) -> None:
        opened = call(0x3D, al=0, dx='a')
        self.answered(opened + ' MOV BX,5\n MOV AH,3Eh\n', files={'A.TXT': b'1'})
        for handle in (0, 1, 2):
            self.answered(f' MOV BX,{handle}\n MOV AH,3Eh\n')
        for handle in (3, 4, 5, 20, 0xFFFF):
            self.refused(f' MOV BX,{handle}\n MOV AH,3Eh\n', 6)
        self.refused(opened + call(0x3E, bx=5) + ' MOV BX,5\n MOV AH,3Eh\n', 6, files={'A.TXT': b'1'})

    def test_3f_read(self) -> None:
        octets = bytes(range(256)) * 9 + b'end'
        read = call(0x3D, al=0, dx='a') + call(0x3F, bx=5, cx='{}', dx='300h')
        for count in (1, 1023, 1024, 1025, 3000):
            seen = self.after(read.format(count), files={'A.TXT': octets})
            came = min(count, len(octets))
            self.assertEqual((seen.registers['AX'], seen.own[0x300 : 0x300 + came], seen.own[0x300 + came]), (came, octets[:came], 0))
        self.assertEqual(self.answered(read.format(3000) + ' MOV CX,1\n MOV AH,3Fh\n', files={'A.TXT': octets}).registers['AX'], 0)
        self.assertEqual(self.answered(read.format(0) + ' MOV CX,0\n MOV AH,3Fh\n', files={'A.TXT': octets}).registers['AX'], 0)
        self.refused(call(0x3D, al=1, dx='a') + ' MOV BX,5\n MOV CX,1\n MOV AH,3Fh\n', 5, files={'A.TXT': octets})
        self.refused(' MOV BX,5\n MOV CX,1\n MOV AH,3Fh\n', 6, files={'A.TXT': octets})

    def test_40_write(self) -> None:
        write = call(0x3C, cx=0, dx='a') + call(0x40, bx=5, cx='{}', dx='100h')
        for count in (1, 1024, 1025, 2500):
            seen, files = self.left(write.format(count) + ' MOV [300h],AX\n')
            self.assertEqual((seen.word(0x300), len(files['A.TXT'])), (count, count))
            self.assertEqual(files['A.TXT'][:20], seen.own[0x100 : 0x100 + min(count, 20)])
        self.refused(call(0x3D, al=0, dx='a') + ' MOV BX,5\n MOV CX,1\n MOV AH,40h\n', 5, files={'A.TXT': b'1'})

    def test_40_of_no_bytes_ends_the_file(self) -> None:
        at = call(0x3D, al=2, dx='a') + call(0x42, al=0, bx=5, cx=0, dx='{}') + call(0x40, bx=5, cx=0)
        octets = bytes(range(200)) * 20
        for length in (0, 1, 1024, 3999):
            self.assertEqual(self.left(at.format(length), files={'A.TXT': octets})[1], {'A.TXT': octets[:length]})
        longer = self.left(at.format(9000), files={'A.TXT': octets})[1]['A.TXT']
        self.assertEqual((len(longer), longer[:4000]), (9000, octets))

    def test_the_disk_is_full(self) -> None:
        """190 KB, of which one cluster is another file's. A write past the end takes nothing for good."""
        write = call(0x3C, cx=0, dx='a') + 3 * call(0x40, bx=5, cx=65535, dx=0)
        rest = CLUSTER * (CLUSTERS - 1) - 2 * 65535
        seen, files = self.left(f'{write} MOV SI,AX\n{call(0x40, bx=5, cx=1)} MOV [300h],AX\n MOV [302h],SI\n', files={'B.TXT': b'1'}, budget=40_000_000)
        self.assertEqual((seen.word(0x300), seen.word(0x302), len(files['A.TXT'])), (0, rest, CLUSTER * (CLUSTERS - 1)))
        far = call(0x3C, cx=0, dx='a') + call(0x42, al=0, bx=5, cx='{}', dx=0) + call(0x40, bx=5, cx=9, dx=0)
        for high in (3, 2, 0x7FFF):
            lines = f"{far.format(high)} MOV [300h],AX\n{call(0x3C, cx=0, dx='b')}{call(0x40, bx=6, cx=60000, dx=0)} MOV [302h],AX\n"
            seen, files = self.left(lines, budget=40_000_000)
            self.assertEqual((seen.word(0x300), len(files['A.TXT'])), (9, 0x20009) if high == 2 else (0, 0))
            self.assertEqual(seen.word(0x302), 60000)

    def test_41_delete(self) -> None:
        self.assertEqual(self.left(call(0x41, dx='a'), files={'A.TXT': b'1' * 3000, 'B.TXT': b'2'})[1], {'B.TXT': b'2'})
        self.refused(' MOV DX,a\n MOV AH,41h\n', 2)
        self.refused(' MOV DX,any\n MOV AH,41h\n', 2, files={'A.TXT': b'1'})
        self.refused(call(0x43, ax=1, cx=1, dx='a') + ' MOV DX,a\n MOV AH,41h\n', 5, files={'A.TXT': b'1'})
        self.refused(call(0x3D, al=0, dx='a') + ' MOV DX,a\n MOV AH,41h\n', 5, files={'A.TXT': b'1'})

    def test_42_seek(self) -> None:
        opened = call(0x3D, al=2, dx='a')
        files = {'A.TXT': bytes(70_000)}
        wanted = {(0, 1, 2): 0x10002, (2, 0, 0): 70_000, (2, 0xFFFF, 0xFFFE): 69_998, (0, 0xF, 0x4240): 1_000_000}
        for (way, high, low), place in wanted.items():
            seen = self.answered(f'{opened} MOV AL,{way}\n MOV BX,5\n MOV CX,{high}\n MOV DX,{low}\n MOV AH,42h\n', files=files)
            self.assertEqual((seen.registers['DX'], seen.registers['AX']), divmod(place, 0x10000))
        twice = opened + call(0x42, al=0, bx=5, cx=0, dx=100) + ' MOV AX,4201h\n MOV CX,0FFFFh\n MOV DX,0FFF0h\n'
        self.assertEqual(self.answered(twice, files=files).registers['AX'], 84)
        self.refused(f'{opened} MOV AX,4203h\n MOV BX,5\n', 1, files=files)
        self.refused(' MOV AX,4200h\n MOV BX,1\n', 6)

    def test_43_attribute(self) -> None:
        self.assertEqual(self.answered(' MOV AX,4300h\n MOV DX,a\n', files={'A.TXT': b''}).registers['CX'], 0x20)
        seen = self.answered(call(0x43, ax=1, cx=3, dx='a') + ' MOV AX,4300h\n MOV DX,a\n MOV CX,0\n', files={'A.TXT': b''})
        self.assertEqual(seen.registers['CX'], 3)
        self.refused(' MOV AX,4300h\n MOV DX,a\n', 2)
        self.refused(' MOV AX,4302h\n MOV DX,a\n', 1, files={'A.TXT': b''})
        self.refused(' MOV AX,4301h\n MOV DX,a\n MOV CX,10h\n', 5, files={'A.TXT': b''})

    def test_44_device(self) -> None:
        opened = call(0x3D, al=2, dx='a')
        self.assertEqual(self.answered(opened + ' MOV BX,5\n MOV AX,4400h\n', files={'A.TXT': b'1'}).registers['DX'], 0x40)
        written = opened + call(0x40, bx=5, cx=1, dx=0) + ' MOV BX,5\n MOV AX,4400h\n'
        self.assertEqual(self.answered(written, files={'A.TXT': b'1'}).registers['DX'], 0)

    def test_4e_4f_find(self) -> None:
        """The disk transfer area: attribute at 15h, time, date, size, and the name with a dot, ended by 0."""
        files = {'A.TXT': b'12345', 'LONGNAME.C': b'', 'B.TXT': b'1' * 70_000, 'D': b'1'}
        area = ' MOV DX,300h\n MOV AH,1Ah\n INT 21h\n'
        first = area + call(0x4E, cx=0, dx='own')
        seen = self.after(first, files=files, data="own: DB 'c:\\*.txt',0\n")
        self.assertEqual(seen.own[0x315:0x324].hex(' ').upper(), '20 00 00 21 02 05 00 00 00 41 2E 54 58 54 00')
        seen = self.after(first + call(0x4F), files=files, data="own: DB '*.txt',0\n")
        self.assertEqual((seen.own[0x31A:0x324], seen.flags & CARRY), (b'\x70\x11\x01\0B.TXT\0', 0))
        self.refused(first + call(0x4F) + ' MOV AH,4Fh\n', 18, files=files, data="own: DB '*.txt',0\n")
        for pattern, names in {'*.*': 4, '?': 1, 'l*.?': 1, '*': 1, '????????.*': 4, 'x*.*': 0, 'LONGNAME.C': 1}.items():
            lines = f"{first} JC seen\nmore: INC BYTE [400h]\n{call(0x4F)} JNC more\n"
            seen = self.after(lines, files=files, data=f"own: DB '{pattern}',0\n")
            self.assertEqual((seen.own[0x400], seen.registers['AX']), (names, 18), pattern)
        self.refused(' MOV CX,0\n MOV DX,own\n MOV AH,4Eh\n', 3, data="own: DB 'sub\\*.*',0\n")
        self.refused(' MOV CX,8\n MOV DX,any\n MOV AH,4Eh\n', 18, files=files)

    def test_4e_hidden_files(self) -> None:
        hidden = call(0x43, ax=1, cx='{}', dx='a')
        for attribute in (2, 4, 6):
            self.refused(hidden.format(attribute) + ' MOV CX,0\n MOV DX,any\n MOV AH,4Eh\n', 18, files={'A.TXT': b''})
            self.answered(hidden.format(attribute) + f' MOV CX,{attribute}\n MOV DX,any\n MOV AH,4Eh\n', files={'A.TXT': b''})

    def test_4e_the_area_of_the_prefix(self) -> None:
        seen = self.after(call(0x4E, cx=0, dx='any') + call(0x2F), files={'A.TXT': b''})
        self.assertEqual((seen.own[0x9E:0xA4], seen.registers['ES'], seen.registers['BX']), (b'A.TXT\0', 0x100, 0x80))

    def test_56_rename(self) -> None:
        self.assertEqual(self.left(call(0x56, dx='a', di='b'), files={'A.TXT': b'12'})[1], {'B.TXT': b'12'})
        self.refused(' MOV DX,a\n MOV DI,b\n MOV AH,56h\n', 2)
        self.refused(' MOV DX,a\n MOV DI,b\n MOV AH,56h\n', 5, files={'A.TXT': b'', 'B.TXT': b''})
        self.refused(' MOV DX,a\n MOV DI,any\n MOV AH,56h\n', 2, files={'A.TXT': b''})

    def test_fcbs_fail(self) -> None:
        for function in (0x0F, 0x10, 0x16, 0x17, 0x21, 0x24, 0x27, 0x29):
            seen = self.after(f' MOV AX,{256 * function}\n INT 21h')
            self.assertEqual(seen.registers['AX'], 256 * function + 0xFF)


@dataclass
class Model:
    """What DOS answers, over bytes by name; handles from 5 on are a name, a mode and a position."""

    files: dict[str, bytearray] = field(default_factory=dict)
    handles: dict[int, list[Any]] = field(default_factory=dict)

    def free(self) -> int:
        """The clusters that are free."""
        return CLUSTERS - sum((len(octets) + CLUSTER - 1) // CLUSTER for octets in self.files.values())

    def open(self, name: str, mode: int) -> tuple[int, int]:
        """AX and carry."""
        handle = next((number for number in range(5, 20) if number not in self.handles), None)
        if name not in self.files or handle is None:
            return (4 if handle is None else 2), 1
        self.handles[handle] = [name, mode, 0]
        return handle, 0

    def create(self, name: str) -> tuple[int, int]:
        """AX and carry."""
        self.files[name] = bytearray()
        return self.open(name, 2)

    def close(self, handle: int) -> tuple[int, int]:
        """AX, or None where it isn't looked at, and carry."""
        return (0x3E00, 0) if self.handles.pop(handle, None) else (6, 1)

    def read(self, handle: int, count: int) -> tuple[int, int, bytes]:
        """AX, carry, and the bytes."""
        if handle not in self.handles or self.handles[handle][1] == 1:
            return (5 if handle in self.handles else 6), 1, b''
        name, _, at = self.handles[handle]
        octets = bytes(self.files[name][at : at + count])
        self.handles[handle][2] += len(octets)
        return len(octets), 0, octets

    def write(self, handle: int, octets: bytes) -> tuple[int, int]:
        """AX and carry."""
        if handle not in self.handles or self.handles[handle][1] == 0:
            return (5 if handle in self.handles else 6), 1
        name, _, at = self.handles[handle]
        own = self.files[name]
        room = CLUSTER * (self.free() + (len(own) + CLUSTER - 1) // CLUSTER) - at
        octets = octets[:room]
        own[at : at + len(octets)] = octets
        self.handles[handle][2] += len(octets)
        return len(octets), 0

    def seek(self, handle: int, way: int, by: int) -> tuple[int, int]:
        """AX and carry."""
        if handle not in self.handles:
            return 6, 1
        base = (0, self.handles[handle][2], len(self.files[self.handles[handle][0]]))[way]
        self.handles[handle][2] = base + by
        return (base + by) % 0x10000, 0

    def delete(self, name: str) -> tuple[int, int]:
        """AX and carry."""
        if name not in self.files or any(name == own[0] for own in self.handles.values()):
            return (5 if name in self.files else 2), 1
        del self.files[name]
        return 0x4100, 0

    def rename(self, name: str, other: str) -> tuple[int, int]:
        """AX and carry."""
        if name not in self.files or other in self.files:
            return (5 if name in self.files else 2), 1
        self.files[other] = self.files.pop(name)
        for own in self.handles.values():
            own[0] = other if own[0] == name else own[0]
        return 0x5600, 0


class Script:
    """Random calls: their lines, and what each answers. The program has bytes i * 7 + (i >> 8) at offset 4000h + i, reads to 6000h, and
    keeps of each call AX, the flags and the sum of what was read."""

    NAMES = ('A.TXT', 'LONGNAME.BIN', 'C', 'D.D')

    def __init__(self, seed: int) -> None:
        self.random, self.model = random.Random(seed), Model()
        self.lines, self.wanted = list[str](), list[tuple[int, int, int]]()

    def bytes_at(self, at: int, count: int) -> bytes:
        """What the program has at an offset of its pattern."""
        return bytes((i * 7 + (i >> 8)) & 0xFF for i in range(at, at + count))

    def add(self, lines: str, ax: int, carry: int, octets: bytes | None = None) -> None:
        """One call and its answer."""
        self.lines.append(f'{lines} CALL {"log" if octets is None else "log_sum"}\n')
        self.wanted.append((ax, carry, sum(octets) & 0xFFFF if octets is not None and not carry else 0))

    def one(self) -> None:
        """Adds a call."""
        name, handle = self.random.choice(self.NAMES), self.random.choice((5, 5, 6, 7, 8))
        kind = self.random.choice(('create', 'open', 'close', 'read', 'read', 'write', 'write', 'write', 'seek', 'seek', 'delete', 'rename'))
        place = f'n{self.NAMES.index(name)}'
        if kind == 'create' and not any(own[0] == name for own in self.model.handles.values()):
            self.add(call(0x3C, cx=0, dx=place), *self.model.create(name))
        elif kind == 'open':
            mode = self.random.choice((0, 1, 2, 2))
            self.add(call(0x3D, al=mode, dx=place), *self.model.open(name, mode))
        elif kind == 'close':
            self.add(call(0x3E, al=0, bx=handle), *self.model.close(handle))
        elif kind == 'read':
            count = self.random.choice((1, 10, 700, 1024, 2000, 5000))
            self.add(call(0x3F, bx=handle, cx=count, dx='6000h'), *self.model.read(handle, count))
        elif kind == 'write':
            at, count = self.random.randrange(2000), self.random.choice((1, 300, 1023, 1024, 3333, 6000))
            self.add(call(0x40, bx=handle, cx=count, dx=0x4000 + at), *self.model.write(handle, self.bytes_at(at, count)))
        elif kind == 'seek':
            self.seek(handle)
        elif kind == 'delete':
            self.add(call(0x41, al=0, dx=place), *self.model.delete(name))
        elif kind == 'rename':
            other = self.random.choice(self.NAMES)
            lines = call(0x56, al=0, dx=place, di=f'n{self.NAMES.index(other)}')
            self.add(lines, *self.model.rename(name, other))

    def seek(self, handle: int) -> None:
        """Adds one to a place within the file."""
        name, _, at = self.model.handles.get(handle, ('', 0, 0))
        way, size = self.random.randrange(3), len(self.model.files.get(name, b''))
        by = self.random.randint(0, size) - (0, at, size)[way]
        self.add(call(0x42, al=way, bx=handle, cx=by >> 16 & 0xFFFF, dx=by & 0xFFFF), *self.model.seek(handle, way, by))

    def text(self) -> str:
        """The program."""
        fill = ' MOV DI,4000h\n XOR BX,BX\nfills: MOV AX,BX\n MOV CL,7\n MUL CL\n ADD AL,BH\n STOSB\n INC BX\n CMP BX,2000h\n JB fills\n MOV DI,0\n'
        return f'{fill} MOV WORD [0BF0h],0C00h\n' + ''.join(self.lines)

    def data(self) -> str:
        """The names, and what keeps the answers."""
        log = 'log_sum: MOV DX,0\n PUSHF\n JC logged\n MOV CX,AX\n JCXZ logged\n MOV SI,6000h\n MOV BX,0\n'
        log += 'sums: MOV BL,[SI]\n ADD DX,BX\n INC SI\n LOOP sums\n'
        log += ' JMP SHORT logged\nlog: MOV DX,0\n PUSHF\nlogged: POP CX\n MOV SI,[0BF0h]\n MOV [SI],AX\n MOV [SI+2],CX\n'
        log += ' MOV [SI+4],DX\n ADD WORD [0BF0h],6\n RET\n'
        return log + ''.join(f"n{number}: DB '{name}',0\n" for number, name in enumerate(self.NAMES))


class Random(DiskCase):
    """Calls in any order."""

    def test_random_calls(self) -> None:
        for seed in range(16):
            script = Script(seed)
            while len(script.wanted) < CALLS:
                script.one()
            seen, files = self.left(script.text(), data=script.data(), budget=60_000_000)
            came = [(seen.word(0xC00 + 6 * n), seen.word(0xC02 + 6 * n) & CARRY, seen.word(0xC04 + 6 * n)) for n in range(CALLS)]
            for n, (one, wanted) in enumerate(zip(came, script.wanted)):
                self.assertEqual(one, wanted, f'seed {seed}, call {n}: {script.lines[n]}')
            self.assertEqual(files, {name: bytes(octets) for name, octets in script.model.files.items()})


class Page(DiskCase):
    """What docs/services.md says is refused."""

    def rows(self) -> dict[str, list[tuple[str, dict[str, bytes]]]]:
        """Of each row of the table calls that meet it, with the files on the disk."""
        one, opened, read_only = {'A.TXT': b'1'}, call(0x3D, al='{}', dx='a'), call(0x43, ax=1, cx=1, dx='a')
        creates, opens = ' MOV CX,0\n MOV DX,a\n MOV AH,3Ch\n', ' MOV DX,a\n MOV AX,3D00h\n'
        many = {f'{number}': b'' for number in range(ENTRIES)}
        deletes, renames = ' MOV DX,a\n MOV AH,41h\n', ' MOV DX,a\n MOV DI,b\n MOV AH,56h\n'
        moves = [f' MOV BX,5\n MOV CX,1\n MOV AX,{function}00h\n' for function in ('3E', '3F', '40', '42', '44')]
        return {
            '3Ch of one file more than 48': [(creates, many)],
            '3Ch, 3Dh: one open file more than 15, whose handles are 5 to 19': [(15 * opened.format(0) + way, one) for way in (creates, opens)],
            'a path through a folder': [(way.replace(',a', ',deep'), one) for way in (creates, opens, deletes, renames, ' MOV DX,a\n MOV AH,4Eh\n')],
            'no such file; a name that is none, or with `*` or `?` where one file is wanted': [
                *((way, {}) for way in (opens, deletes, renames, ' MOV DX,a\n MOV AX,4300h\n')),
                *((way.replace(',a', ',any'), one) for way in (creates, opens, deletes, renames)),
            ],
            '3Ch, 41h, 3Dh to write: a file that may only be read': [(read_only + way, one) for way in (creates, deletes, opens.replace('00h', '01h'))],
            '41h of an open file, 56h to a name that is there': [(opened.format(0) + deletes, one), (renames, one | {'B.TXT': b''})],
            '3Fh of a file that is open to write, 40h of one open to read': [(opened.format(1) + moves[1], one), (opened.format(0) + moves[2], one)],
            "a handle that isn't open": [(way, one) for way in moves],
            '3Dh with AL above 2': [(opens.replace('00h', '03h'), one)],
            '4Eh, 4Fh: no more files': [(' MOV CX,0\n MOV DX,any\n MOV AH,4Eh\n', {}), (call(0x4E, cx=0, dx='any') + ' MOV AH,4Fh\n', one)],
        }

    def test_what_is_refused(self) -> None:
        with open(f'{TOP}/docs/services.md', encoding='utf-8') as file:
            table = file.read().split('|What is refused|AX|\n|-|-|\n')[1].split('\n\n')[0]
        codes = {row.split('|')[1]: int(row.split('|')[2]) for row in table.splitlines()}
        rows = self.rows()
        self.assertEqual(codes.keys(), rows.keys())
        for name, calls in rows.items():
            for lines, files in calls:
                self.refused(lines, codes[name], files=files, data=DATA + "deep: DB 'sub\\a.txt',0\n")


class Memory(DiskCase):
    """The part of RAM that the disk takes."""

    def test_the_program_has_less_memory(self) -> None:
        """192 KB below the services' 64: DOS and INT 12h leave them out, and all registers are as without a disk."""
        seen = self.after(' INT 12h')
        self.assertEqual((seen.registers['AX'], seen.word(2)), (640 - 64 - 192, (640 - 64 - 192) * 64))
        wanted = {'CS': 0x100, 'DS': 0x100, 'ES': 0x100, 'SS': 0x100, 'SP': 0xFFFE, 'AX': 0, 'BX': 0, 'CX': 0xFF, 'DX': 0x100, 'SI': 0x100, 'DI': 0xFFFE}
        seen = self.after('')
        self.assertEqual({name: seen.registers[name] for name in wanted}, wanted)
        most = self.after(' MOV BX,0FFFFh\n MOV AH,4Ah\n INT 21h')
        self.assertEqual(most.registers['BX'], (640 - 64 - 192) * 64 - 0x100)

    def test_without_functions_on_files_none_is_taken(self) -> None:
        for lines, memory in ((' INT 12h', 576), (' MOV AH,3Dh\n INT 12h', 384), (' MOV AX,3D02h\n INT 12h', 384), (' MOV BX,3D00h\n INT 12h', 576)):
            path = self.file('it.asm', f'SEGMENT MAIN AT 100h\n ORG 100h\nstart:\n{lines}\n MOV [300h],AX\nseen: INT 20h\nENDS\n')
            with prepared(Guest(path, None, True), Files(path, ''), {'budget': 300_000}) as files, at_the_end(files, 300_000) as (session, _):
                self.assertEqual(int.from_bytes(session.dump(0x1300, 2), 'little'), memory)

    def test_too_little_ram(self) -> None:
        with self.assertRaisesRegex(Sorry, 'leaves no room for the disk of files with 200 KB of RAM: it wants 324'):
            with self.prepare('', ram=200):
                pass
        self.assertEqual(self.after(' INT 12h', ram=336).registers['AX'], 80)


class Host(DiskCase):
    """The files of the host."""

    COPY = (
        call(0x3D, al=0, dx='a')
        + call(0x3F, bx=5, cx=30000, dx='1000h')
        + ' MOV SI,AX\n'
        + call(0x3C, cx=0, dx='b')
        + ' MOV BX,AX\n'
        + call(0x40, cx='SI', dx='1000h')
        + ' MOV AX,4C00h\n INT 21h\n'
    )

    def source(self) -> str:
        """A program that copies A.TXT to B.TXT."""
        return self.file('copy.asm', f'SEGMENT MAIN AT 100h\n ORG 100h\nstart:\n{self.COPY}{DATA}ENDS\n')

    def test_in_and_out(self) -> None:
        octets = os.urandom(20_000)
        out, err = self.tool('try', self.source(), '--services', '--file', self.host_file('a.txt', octets), '--files-out', 'out')
        self.assertRegex(out, r'ended with exit code 0')
        self.assertEqual(err, '')
        self.assertEqual(set(os.listdir(f'{self.room}/out')), {'A.TXT', 'B.TXT'})
        for name in ('a.txt', 'out/A.TXT', 'out/B.TXT'):
            self.assertEqual(read_bytes(f'{self.room}/{name}'), octets)

    def test_refusals(self) -> None:
        os.mkdir(f'{self.room}/full')
        self.host_file('full/x', b'')
        os.symlink(f'{self.room}/full', f'{self.room}/link')
        long, big = self.host_file('long-name.text', b''), self.host_file('BIG', bytes(CLUSTER * CLUSTERS + 1))
        wanted = {
            ('--file', long): f'try: --file {long}: a name under DOS has at most eight characters, a dot and three more',
            ('--file', 'a.txt', '--file', './A.TXT'): 'try: --file ./A.TXT: A.TXT is on the disk already',
            ('--file', 'gone'): "try: gone can't be read: No such file or directory",
            ('--file', '/dev'): "try: /dev can't be read: Is a directory",
            ('--file', big): f"try: {big} can't be read: it has more than 194,560 bytes",
            ('--files-out', 'full'): 'try: --files-out wants a folder that is new or empty, and full is neither',
            ('--files-out', 'link'): 'try: --files-out wants a folder that is new or empty, and link is neither',
        }
        self.host_file('a.txt', b'')
        self.host_file('A.TXT', b'')
        for words, sentence in wanted.items():
            _, err = self.tool('try', self.source(), '--services', *words, status=3 if "can't be read" in sentence else 2)
            self.assertTrue(err.startswith(sentence), err)

    def test_programs_without_dos_have_none(self) -> None:
        self.host_file('a.txt', b'')
        sector = self.host_file('first.bin', bytes(510) + b'\x55\xAA')
        _, err = self.tool('try', sector, '--file', 'a.txt', status=2)
        self.assertEqual(err, f'try: {sector} is a first sector, which has no DOS: --file and --files-out go with programs of DOS\n')
        _, err = self.tool('try', self.file('it.hex', ':00000001FF\n'), '--files-out', 'out', status=2)
        self.assertEqual(err, 'try: --file and --files-out go with a .COM or .EXE program, or a source that calls INT 10h, 16h, 20h or 21h\n')
        self.assertFalse(os.path.exists(f'{self.room}/out'))

    def test_it_goes_with_every_front(self) -> None:
        """A judge's run has the file too, and a class of them."""
        page = self.file('page.txt', 'output = hello\nexit = 0\n')
        lines = call(0x3D, al=0, dx='a') + call(0x3F, bx=5, cx=5, dx='300h') + call(0x40, bx=1, cx=5, dx='300h') + ' MOV AX,4C00h\n INT 21h\n'
        source = self.file('type.asm', f'SEGMENT MAIN AT 100h\n ORG 100h\nstart:\n{lines}{DATA}ENDS\n')
        self.host_file('a.txt', b'hello')
        self.tool('judge', page, source, '--services', '--file', 'a.txt')
        out, _ = self.tool('judge', '--class', page, source, '--services', '--file', 'a.txt')
        self.assertEqual(out.splitlines()[1].split('\t')[1], '2')

    def test_too_much(self) -> None:
        paths = tuple(self.host_file(f'{number}', bytes(5000)) for number in range(40))
        with self.assertRaisesRegex(Sorry, 'the disk has room for 48 files and 190 KB, and here are 40 and 200'):
            disk.read_all(paths)

    def test_a_program_may_spoil_the_disk(self) -> None:
        """Whatever it writes there, no file of the host is reached: the name is refused, or the chain."""
        for offset, value in ((0x200, "'.'"), (0x201, "'/'"), (0x21A, 2), (0x21A, 191), (2, 2), (0x21E, 77)):
            lines = f'{call(0x3C, cx=0, dx="a")}{call(0x40, bx=5, cx=5, dx=0)} MOV AX,6000h\n MOV DS,AX\n MOV BYTE [{offset}],{value}\n'
            if (offset, value) == (0x21A, 2):
                self.assertEqual(self.left(lines)[1].keys(), {'A.TXT'})
                continue
            with self.assertRaisesRegex(Sorry, 'the program has written over the disk of files, whose directory stands at 60200h'):
                self.left(lines)


if __name__ == '__main__':
    unittest.main()
