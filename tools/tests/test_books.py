"""The programs of examples/books: what the screen holds at their end is what it holds under DOSBox."""
from __future__ import annotations

import os
import re
import shutil
import subprocess
import unittest

from tests import dosbox
from tests.support import SECONDS, ToolCase, is_there, not_run

from toolbox.guests import Guest, prepared
from toolbox.nowhere import told_of_run
from toolbox.program import Files, Session
from toolbox.runs import report_at
from toolbox.scancodes import stamped, strokes_of
from toolbox.services import TYPING

BUDGET = 40_000_000


class Books(ToolCase):
    """Over the built program, and DOSBox where it is installed."""

    def com(self, name: str) -> bytes | None:
        """A program's bytes, of NASM's as they are stored; nothing of a C source without bcc and its library."""
        stored = dosbox.kept()[name].get('bytes')
        if isinstance(stored, str):
            return bytes.fromhex(stored)
        if name.endswith('.c') and not dosbox.has_bcc():
            return None
        return dosbox.com_of(name, self.room)

    def guest_of(self, name: str) -> Guest | None:
        """It as a file: a source of the dialect itself, else a .COM program."""
        stem, ending = os.path.splitext(name)
        if ending == '.asm':
            return Guest(f'{dosbox.BOOKS}/{name}', dosbox.ARGS.get(stem), True)
        octets = self.com(name)
        if octets is None:
            return None
        with open(f'{self.room}/{stem}.com', 'wb') as file:
            file.write(octets)
        return Guest(file.name, dosbox.ARGS.get(stem))

    def screen(self, name: str, guest: Guest) -> list[str]:
        """The characters of text memory behind the program's end. Nothing is to be told of such a run."""
        typed = stamped(strokes_of(dosbox.KEYS.get(os.path.splitext(name)[0], '')), *TYPING)
        fields = {'keys': typed, 'budget': BUDGET}
        with prepared(guest, Files(guest.file, ''), fields) as files, Session(files) as session:
            session.stop('break FE00:6')
            self.assertTrue(session.go(BUDGET).startswith('stop'), f'{name} has not ended')
            text = session.dump(0xB0000, 4000)[::2].decode('cp437')
            session.go(1000)
            report = report_at(files, session.clock)
            self.assertEqual(told_of_run(report, files), [], name)
        return [text[start : start + 80].replace('\0', ' ').rstrip() for start in range(0, 2000, 80)]

    def test_each_screen_is_that_of_dosbox(self) -> None:
        for name, stored in dosbox.kept().items():
            guest = self.guest_of(name)
            if guest:
                self.assertEqual(self.screen(name, guest), stored['screen'], name)

    def test_there_are_enough(self) -> None:
        """Forty, of which ten read keys, ten use INT 10h or 16h, and ten scroll: the first line that they write is gone."""
        names = dosbox.names()
        self.assertEqual(sorted(dosbox.kept()), names)
        self.assertGreaterEqual(len(names), 40)
        self.assertGreaterEqual(sum(os.path.splitext(program)[0] in dosbox.KEYS for program in names), 10)
        by_bios, scroll = 0, 0
        for name in names:
            with open(f'{dosbox.BOOKS}/{name}', encoding='ascii') as file:
                text = file.read().lower()
            by_bios += 'int 10h' in text or 'int 16h' in text
            screen = dosbox.kept()[name]['screen']
            scroll += bool(screen[23] or screen[24])
        self.assertGreaterEqual(min(by_bios, scroll), 10)

    def test_the_stored_screens_are_dosbox_s(self) -> None:
        if not is_there('dosbox', 'examples/books under DOSBox', 'dosbox'):
            return
        programs = {name: octets for name in dosbox.names() if (octets := self.com(name)) is not None}
        self.assertEqual(dosbox.screens(programs), {name: dosbox.kept()[name]['screen'] for name in programs})

    def test_the_stored_bytes_are_nasm_s(self) -> None:
        if not is_there('nasm', 'the NASM sources of examples/books', 'nasm'):
            return
        for name in dosbox.names():
            if name.endswith('.nasm'):
                self.assertEqual(dosbox.com_of(name, self.room).hex(), dosbox.kept()[name]['bytes'], name)


BOCHS = """display_library: rfb, options="timeout=0"
romimage: file=/usr/share/bochs/BIOS-bochs-latest
vgaromimage: file=/usr/share/vgabios/vgabios.bin
floppya: 360k={image}, status=inserted
boot: floppy
log: {image}.log
megs: 16
clock: sync=none
sound: driver=dummy
"""
# What follows Bochs' own words when 60,000,000 instructions have run. Without a hard disk mformat's sector asks for the next try at once.
SECTORS = {
    'mkfs.fat': ['This is not a bootable disk.  Please insert a bootable floppy and', 'press any key to try again ...'],
    'mformat': [],
}
MAKERS = {'mkfs.fat': ['-C', '{image}', '360'], 'mformat': ['-C', '-f', '360', '-i', '{image}', '::']}


class Sectors(ToolCase):
    """First sectors of Debian's packages, here and under Bochs."""

    def sector(self, maker: str) -> str | None:
        """The image of a diskette by one of them."""
        image, package = f'{self.room}/{maker}.img', {'mkfs.fat': 'dosfstools', 'mformat': 'mtools'}[maker]
        command = shutil.which(maker) or shutil.which(f'/usr/sbin/{maker}')
        if command is None:
            is_there(maker, f'the first sector that {maker} writes', package)
            return None
        subprocess.run([command, *(word.format(image=image) for word in MAKERS[maker])], capture_output=True, check=True)
        return image

    def test_they_print_what_they_print_elsewhere(self) -> None:
        for maker, wanted in SECTORS.items():
            image = self.sector(maker)
            if image:
                with open(image, 'rb') as file, open(f'{self.room}/it.bin', 'wb') as to:
                    to.write(file.read(512))
                out, err = self.tool('try', 'it.bin')
                *lines, end = out.splitlines()
                self.assertEqual((lines, err), (wanted, ''))
                self.assertEqual('INT 19h' in end, maker == 'mformat')

    def test_they_are_bochs_s(self) -> None:
        if not is_there('bochs', 'first sectors under Bochs', 'bochs bochsbios vgabios'):
            return
        for maker, wanted in SECTORS.items():
            image = self.sector(maker)
            if image:
                lines = self.bochs(image)
                begun = max(at for at, line in enumerate(lines) if line.startswith('Booting from Floppy'))
                self.assertEqual([line for line in lines[begun + 1 :] if line], wanted)

    def bochs(self, image: str) -> list[str]:
        """The screen that Bochs has after a while."""
        rc = self.file('bochsrc', BOCHS.format(image=image))
        commands = self.file('commands', 'sb 60000000\nc\nx /2000hx 0xb8000\nq\n')
        ran = subprocess.run(
            ['bochs', '-q', '-f', rc, '-rc', commands], stdin=subprocess.DEVNULL, capture_output=True, text=True, errors='replace', timeout=SECONDS, check=False
        )
        rows = [line for line in ran.stdout.splitlines() if line.startswith('0x00000000000b8')]
        text = ''.join(chr(int(cell, 16) & 0xFF) for row in rows for cell in re.findall(r'\t0x([0-9a-f]{4})', row))
        return [text[start : start + 80].rstrip() for start in range(0, len(text), 80)]

    def test_syslinux_s_wants_a_386(self) -> None:
        path = '/usr/lib/syslinux/mbr/mbr.bin'
        if not os.path.exists(path):
            not_run('the first sector of syslinux; apt install syslinux-common')
            return
        with open(path, 'rb') as file, open(f'{self.room}/it.bin', 'wb') as to:
            to.write(file.read().ljust(510, b'\0') + b'\x55\xAA')
        _, err = self.tool('try', 'it.bin')
        self.assertRegex(err, r'has 0F B6 .*, which is no instruction of the 8086\n')
        self.assertIn("hint: 0F B6 is MOVZX, of the 80386 on\n", err)


if __name__ == '__main__':
    unittest.main()
