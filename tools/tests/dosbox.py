"""The programs of examples/books under DOSBox, headless: what text memory holds at the end of each is stored with what is typed in
tests/stored/books.json, with the bytes of those that NASM makes. (What bcc makes has its library's bytes too.)

  python3 -m tests.dosbox --write      renews the file, in tools/, where dosbox, nasm and bcc are installed

Before each program a .COM program clears the screen, with mode 7 of a Hercules adapter, and puts the keys into the BIOS's buffer; after
it one writes text memory to a file."""
from __future__ import annotations

import functools
import json
import os
import re
import struct
import subprocess
import sys
import tempfile

from tests.support import EXAMPLES, SECONDS, STORED, not_run

from toolbox.command import Sorry
from toolbox.guests import Guest, compiled
from toolbox.intel_hex import image_of
from toolbox.program import answer_of
from toolbox.scancodes import SIGNS

BOOKS, KEPT = f'{EXAMPLES}/books', f'{STORED}/books.json'
COMPILERS = {'.nasm': 'nasm', '.c': 'bcc'}
# What is typed at each; 15 keys at most, as the BIOS's buffer holds. `tail` is given a command's tail.
KEYS = {
    'reverse': 'Madam, I am{enter}',
    'capitals': 'Hello 8086!.',
    'password': 'open{enter}',
    'menu': 'x13q',
    'guess': '396',
    'adds': '1234{enter}4321{enter}',
    'vowels': 'education, no{enter}',
    'scancodes': 'aA{f1}{up}{tab}1{ctrl+c}{esc}',
    'copies': 'one{enter}two{enter}{enter}',
    'direct': 'direct in.',
    'waiting': 'abc{enter}',
    'walk': '{up}{up}{right}{left}{left}{down}{enter}',
    'flush': 'abcde',
    'rot13': 'Uryyb, jbeyq{enter}',
    'typed': 'key by key{enter}',
    'asks': '360{enter}',
}
ARGS = {'tail': 'one  two three'}
CONFIGURATION = """[sdl]
fullscreen=false
[dosbox]
machine=hercules
[cpu]
core=normal
cycles=max
[mixer]
nosound=true
[speaker]
pcspeaker=false
[autoexec]
@echo off
mount c {room}
c:
"""
# MOV AX,7; INT 10h; CLD; XOR AX,AX; MOV ES,AX; MOV SI,keys; MOV DI,41Eh; MOV CX,count; REP MOVSW; SUB DI,400h; MOV ES:[41Ch],DI;
# MOV WORD ES:[41Ah],1Eh; RET; and the keys behind
BEFORE = 'B80700CD10FC31C08EC0BE2601BF1E04B9{count:02X}00F3A581EF000426893E1C0426C7061A041E00C3'
# MOV AH,3Ch; XOR CX,CX; MOV DX,name; INT 21h; MOV BX,AX; MOV AX,0B000h; MOV DS,AX; XOR DX,DX; MOV CX,4000; MOV AH,40h; INT 21h;
# MOV AH,3Eh; INT 21h; MOV AX,4C00h; INT 21h; and the name behind
AFTER = 'B43C31C9BA2201CD2189C3B800B08ED831D2B9A00FB440CD21B43ECD21B8004CCD21'
# A key's word in the BIOS's buffer, if it isn't its scan code with its character (IBM PC Technical Reference, "Keyboard Encoding").
SPECIAL = {'{enter}': 0x1C0D, '{esc}': 0x011B, '{tab}': 0x0F09, '{f1}': 0x3B00, '{ctrl+c}': 0x2E03}
SPECIAL |= {'{up}': 0x4800, '{left}': 0x4B00, '{right}': 0x4D00, '{down}': 0x5000}


def names() -> list[str]:
    """The programs, by their files' names."""
    return sorted(name for name in os.listdir(BOOKS) if os.path.splitext(name)[1] in ('.asm', *COMPILERS))


@functools.cache
def is_bcc_whole() -> bool:
    """Whether bcc links a program, for which it needs its library."""
    with tempfile.TemporaryDirectory() as room:
        with open(f'{room}/it.c', 'w', encoding='ascii') as file:
            file.write('int main() { return 0; }\n')
        try:
            compiled(Guest(file.name, language='bcc'), room)
        except Sorry:
            return False
    return True


def has_bcc() -> bool:
    """Whether it does. If not, what isn't run is told."""
    if not is_bcc_whole():
        not_run('what bcc makes; apt install bcc elks-libc')
    return is_bcc_whole()


def com_of(name: str, room: str) -> bytes:
    """A program as the bytes of a .COM program."""
    stem, ending = os.path.splitext(name)
    if ending in COMPILERS:
        with open(compiled(Guest(f'{BOOKS}/{stem}{ending}', language=COMPILERS[ending]), room) + '.com', 'rb') as file:
            return file.read()
    image = image_of(answer_of(['asm', '--', f'{BOOKS}/{name}']))
    return bytes(image.get(address, 0) for address in range(0x1100, max(image) + 1))


def words_of(keys: str) -> bytes:
    """Typed keys as the words of the BIOS's buffer."""
    them = re.findall(r'\{[^}]*\}|.', keys)
    return b''.join(struct.pack('<H', SPECIAL.get(key) or 256 * SIGNS[key][0] + ord(key)) for key in them)


def screens(programs: dict[str, bytes]) -> dict[str, list[str]]:
    """The screens that DOSBox leaves, by the programs' names."""
    with tempfile.TemporaryDirectory() as room:
        batch = CONFIGURATION.format(room=room)
        for number, (name, octets) in enumerate(programs.items()):
            stem = os.path.splitext(name)[0]
            typed = words_of(KEYS.get(stem, ''))
            before = bytes.fromhex(BEFORE.format(count=len(typed) // 2))
            for kind, code in (('B', before + typed), ('P', octets), ('A', bytes.fromhex(AFTER) + f'D{number}.SCR\0'.encode())):
                with open(f'{room}/{kind}{number}.COM', 'wb') as file:
                    file.write(code)
            batch += f'b{number}\np{number} {ARGS.get(stem, "")}\na{number}\n'
        with open(f'{room}/dosbox.conf', 'w', encoding='utf-8') as file:
            file.write(batch + 'exit\n')
        environment = os.environ | {'SDL_VIDEODRIVER': 'dummy', 'SDL_AUDIODRIVER': 'dummy', 'HOME': room}
        subprocess.run(['dosbox', '-conf', f'{room}/dosbox.conf'], env=environment, capture_output=True, timeout=SECONDS, check=True)
        found = dict[str, list[str]]()
        for number, name in enumerate(programs):
            with open(f'{room}/D{number}.SCR', 'rb') as file:
                text = file.read()[::2].decode('cp437')
            found[name] = [text[start : start + 80].replace('\0', ' ').rstrip() for start in range(0, 2000, 80)]
        return found


def kept() -> dict[str, dict[str, str | list[str]]]:
    """What is stored of each program: its screen, and in hexadecimal what NASM makes."""
    with open(KEPT, encoding='utf-8') as file:
        return json.load(file)


def main() -> int:
    if sys.argv[1:] != ['--write']:
        print(__doc__)
        return 2
    with tempfile.TemporaryDirectory() as room:
        programs = {name: com_of(name, room) for name in names()}
    seen = screens(programs)
    them = {name: {'screen': seen[name]} | ({'bytes': programs[name].hex()} if name.endswith('.nasm') else {}) for name in programs}
    with open(KEPT, 'w', encoding='utf-8') as file:
        json.dump(them, file, indent=0)
        file.write('\n')
    return 0


if __name__ == '__main__':
    sys.exit(main())
