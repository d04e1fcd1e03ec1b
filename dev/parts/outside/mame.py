"""MAME's ibm5150, which runs bytes of ours in place of IBM's ROMs: it needs none of them. In ISA slot 1 is its monochrome
card; all other slots are empty, the keyboard's too, since each of its keyboards needs a ROM."""
from __future__ import annotations

import os
import re
import shutil
import subprocess
import tempfile
from dataclasses import dataclass

from zebludor import assemble

from toolbox.command import Sorry
from toolbox.report import COLUMNS, ROWS

VERSION = '0.251'  # the one whose flaws are known
PACKAGE = 'apt-get install --no-install-recommends mame'
HERTZ = 14318181 / 3  # its processor's clock
RAM, TEXT, TEXT_SIZE, ROM = 0xA0000, 0xB0000, 0x1000, 0xF6000
SIZE = 0x2000  # of a ROM
FILES = ('5000019.u29', '5000021.u30', '5000022.u31', '5000023.u32', '1501476.u33')  # from F6000h on
FONT = '5788005.u33'
WIDTH, HEIGHT = 9, 14  # of a character, in points
LONGEST = 600  # seconds for a run

Image = dict[int, int]  # bytes by their addresses

# It fills RAM, which MAME begins with FFh, lets the machine run, and writes down what it then holds. For its screen it has the
# processor run CLI, HLT, JMP SHORT meanwhile, so that the card draws three pictures of what text memory holds.
SCRIPT = r'''
local folder = os.getenv("FOLDER")
local cpu = manager.machine.devices[":maincpu"]
local space = cpu.spaces["program"]
local file = io.open(folder .. "/ram", "rb")
local ram = file:read("a")
file:close()
for at = 0, #ram - 4, 4 do space:write_u32(at, (string.unpack("<I4", ram, at + 1))) end
for at = 0xB0000, 0xB0FFC, 4 do space:write_u32(at, 0) end
local function memory()
  local out = io.open(folder .. "/memory", "wb")
  for at = 0, 0x9FFFF, 0x8000 do out:write(space:read_range(at, at + 0x7FFF, 8)) end
  out:write(space:read_range(0xB0000, 0xB0FFF, 8))
  out:close()
end
local function points()
  local screen = manager.machine.screens[":isa1:mda:mda_screen"]
  local pixels, width, height = screen:pixels()
  local out = io.open(folder .. "/points", "w")
  for y = 0, height - 1 do
    local row = {}
    for x = 0, width - 1 do row[#row + 1] = (string.unpack("<I4", pixels, (y * width + x) * 4 + 1) & 0xFFFFFF) == 0 and "." or "#" end
    out:write(table.concat(row), "\n")
  end
  out:close()
end
coroutine.wrap(function()
  local left, halts = tonumber(os.getenv("SECONDS")), os.getenv("HALTS") == "1"
  while left > 0 and not (halts and cpu.state["HALT"].value ~= 0) do
    local some = math.min(0.005, left)
    emu.wait(some)
    left = left - some
  end
  local out = io.open(folder .. "/state", "w")
  for _, name in ipairs{"CS", "IP", "HALT"} do out:write(string.format("%X\n", cpu.state[name].value)) end
  out:close()
  memory()
  if os.getenv("POINTS") == "1" then
    space:write_u32(0x9FFF0, 0xFDEBF4FA)
    cpu.state["HALT"].value, cpu.state["CS"].value, cpu.state["IP"].value = 0, 0x9FFF, 0
    emu.wait(0.06)
    points()
  end
  manager.machine:exit()
end)()
'''


@dataclass(frozen=True)
class Answer:
    """What a machine holds at a run's end: RAM below A0000h, text memory, whether it is halted, and where."""

    ram: bytes
    text: bytes
    is_halted: bool
    place: tuple[int, int]
    screen: tuple[str, ...] = ()


def path() -> str | None:
    """MAME's own: $MAME, else `mame`, also where Debian keeps games."""
    return os.environ.get('MAME') or shutil.which('mame') or shutil.which('mame', path='/usr/games')


def version(program: str) -> str:
    """Which MAME it is."""
    try:
        printed = subprocess.run([program, '-version'], stdin=subprocess.DEVNULL, capture_output=True, text=True, check=False, timeout=60).stdout
    except (OSError, subprocess.TimeoutExpired) as error:
        raise Sorry(f"{program} can't be started: {error}") from None
    found = re.match(r'(\d+\.\d+)', printed)
    if not found:
        raise Sorry(f'{program} is no MAME: it tells no version')
    return found[1]


def image_of(hex_text: str) -> Image:
    """The bytes of Intel HEX, as `pcboard asm` writes it."""
    image, base = Image(), 0
    for line in hex_text.split():
        record = bytes.fromhex(line.removeprefix(':'))
        offset, octets = int.from_bytes(record[1:3], 'big'), record[4:-1]
        if record[3] == 2:
            base = int.from_bytes(octets, 'big') * 16
        elif record[3] == 0:
            image.update((base + (offset + place) % 0x10000, octet) for place, octet in enumerate(octets))
    return image


def assembled(source: str) -> Image:
    """The bytes of a source."""
    return image_of(assemble(source))


def hex_of(image: Image) -> str:
    """Intel HEX of bytes, one a record."""
    lines, bank = list[str](), -1
    for address in sorted(image):
        if address >> 16 != bank:
            bank = address >> 16
            lines.append(record(2, 0, (bank << 12).to_bytes(2, 'big')))
        lines.append(record(0, address & 0xFFFF, bytes([image[address]])))
    return '\n'.join((*lines, ':00000001FF', ''))


def record(kind: int, offset: int, octets: bytes) -> str:
    """A record of Intel HEX."""
    body = bytes([len(octets), offset >> 8, offset & 255, kind]) + octets
    return ':' + (body + bytes([-sum(body) & 255])).hex().upper()


def font() -> bytes:
    """A font in which each row of points of a character is its code, so that the screen can be read."""
    found = bytearray(SIZE)
    for code in range(256):
        for half in (0, 0x800):  # its upper and its lower rows
            found[half + 8 * code : half + 8 * code + 8] = bytes([code] * 8)
    return bytes(found)


def write_roms(folder: str, image: Image) -> None:
    """The files of IBM's ROMs, with these bytes in them and FFh elsewhere."""
    octets = bytearray(b'\xff' * (0x100000 - ROM))
    for address, octet in image.items():
        if address >= RAM:
            if address < ROM:
                raise Sorry(f"a byte at {address:05X}h: MAME's 5150 has ROM from {ROM:05X}h on")
            octets[address - ROM] = octet
    os.makedirs(f'{folder}/roms/ibm5150', exist_ok=True)
    for name, content in (*((file_name, octets[SIZE * at : SIZE * at + SIZE]) for at, file_name in enumerate(FILES)), (FONT, font())):
        with open(f'{folder}/roms/ibm5150/{name}', 'wb') as file:
            file.write(content)


def words(program: str, folder: str, seconds: int, *more: str) -> list[str]:
    """How it is started, without picture, sound or hurry; it ends after so many seconds of its own time."""
    slots = [word for slot in ('-isa2', '-isa3', '-isa4', '-isa5', '-kbd') for word in (slot, '')]
    quiet = ['-video', 'none', '-sound', 'none', '-nothrottle', '-skip_gameinfo', '-noreadconfig']
    kept = ['-rompath', f'{folder}/roms', '-cfg_directory', f'{folder}/cfg', '-nvram_directory', f'{folder}/nvram']
    return [program, 'ibm5150', '-isa1', 'mda', *slots, '-ramsize', '640K', *quiet, *kept, '-seconds_to_run', str(seconds), *more]


def environment(folder: str) -> dict[str, str]:
    """What it finds: no display, no sound, and no folder of the user's."""
    return {'HOME': folder, 'XDG_RUNTIME_DIR': folder, 'SDL_VIDEODRIVER': 'dummy', 'SDL_AUDIODRIVER': 'dummy', 'QT_QPA_PLATFORM': 'offscreen'}


def ran(program: str, folder: str, script: str, seconds: float, more: tuple[str, ...] = (), **settings: str) -> None:
    """Runs a script in it to the script's end, with further words."""
    with open(f'{folder}/script.lua', 'w', encoding='ascii') as file:
        file.write(script)
    more = (*more, '-autoboot_delay', '0', '-autoboot_script', f'{folder}/script.lua')
    given = os.environ | environment(folder) | {'FOLDER': folder, 'SECONDS': str(seconds)} | settings
    try:
        subprocess.run(
            words(program, folder, int(seconds) + 5, *more), stdin=subprocess.DEVNULL, capture_output=True, check=False, env=given, cwd=folder, timeout=LONGEST
        )
    except subprocess.TimeoutExpired:
        raise Sorry(f"MAME didn't come to an end in {LONGEST} seconds") from None


def run(program: str, image: Image, seconds: float, halts: bool = True, has_screen: bool = False) -> Answer:
    """Runs an image for so many seconds of MAME's time, or up to a halt, and tells what it then holds."""
    with tempfile.TemporaryDirectory() as folder:
        write_roms(folder, image)
        with open(f'{folder}/ram', 'wb') as file:
            file.write(bytes(image.get(address, 0) for address in range(RAM)))
        ran(program, folder, SCRIPT, seconds, HALTS=str(int(halts)), POINTS=str(int(has_screen)))
        try:
            with open(f'{folder}/state', encoding='ascii') as file:
                segment, offset, halted = (int(number, 16) for number in file)
            with open(f'{folder}/memory', 'rb') as memory:
                octets = memory.read()
            screen = read_screen(f'{folder}/points') if has_screen else ()
        except (OSError, ValueError) as error:
            raise Sorry(f'MAME left no answer: {error}') from None
    return Answer(octets[:RAM], octets[RAM:], halted != 0, (segment, offset), screen)


def read_screen(file_name: str) -> tuple[str, ...]:
    """The characters of the points, by the font of codes; nothing where the picture hasn't the size of 25 lines of 80."""
    with open(file_name, encoding='ascii') as file:
        points = file.read().split()
    if len(points) != ROWS * HEIGHT or {len(line) for line in points} != {COLUMNS * WIDTH}:
        return ()
    return tuple(''.join(character(points, row, column) for column in range(COLUMNS)) for row in range(ROWS))


def character(points: list[str], row: int, column: int) -> str:
    """A cell's character: each of its rows of points is its code. Without a point it is a space."""
    rows = {points[HEIGHT * row + n][WIDTH * column : WIDTH * column + 8] for n in range(HEIGHT)}
    code = int(rows.pop().replace('#', '1').replace('.', '0'), 2) if len(rows) == 1 else -1
    return ' ' if code == 0 else chr(code) if 0x20 <= code < 0x7F else '.'
