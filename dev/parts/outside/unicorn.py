"""Unicorn, a processor without a machine, which runs our bytes in its 16-bit mode, by its library's own calls. It makes no entry of
an interrupt: it only tells which one is due, and the entry is made here, as docs/machine.md has it."""
from __future__ import annotations

import contextlib
import ctypes
import ctypes.util
import os
from dataclasses import replace
from typing import Any, Protocol

from parts.outside import instructions, mame
from parts.outside.instructions import Case
from parts.outside.mame import Answer, Image
from toolbox.command import Sorry

VERSION = '2.0.1'  # the one whose differences are known
PACKAGE = 'apt-get install --no-install-recommends libunicorn2'
SIZE = 1 << 20
LOCK, UNDEFINED = 0xF0, 0xF000  # the prefix; bits 12 to 15 of the flags word, which are set on an 8086
STEP_AND_INTERRUPTS = 0x0300
NO_INTERRUPT, NO_INSTRUCTION = -1, 6  # the latter a later processor's, which an 8086 hasn't
# The numbers of its header's enumerations.
ARCHITECTURE, MODE, HOOK, ALL_ACCESS, INVALID = 4, 2, 1, 7, 10
REGISTERS = {'CS': 11, 'DS': 17, 'ES': 28, 'SS': 49, 'AX': 3, 'BX': 8, 'CX': 12, 'DX': 18, 'SI': 45, 'DI': 14, 'BP': 6, 'SP': 47, 'FL': 25, 'IP': 34}
NO_END = 0xFFFFFFFF
Library = ctypes.CDLL
HOOKED = ctypes.CFUNCTYPE(None, ctypes.c_void_p, ctypes.c_uint32, ctypes.c_void_p)


class Processor(Protocol):
    """What runs bytes up to an interrupt or a halt."""

    def get(self, name: str) -> int:
        """A register."""

    def put(self, name: str, value: int) -> None:
        """Sets one."""

    def read(self, at: int, count: int) -> bytes:
        """Bytes of memory."""

    def write(self, at: int, octets: bytes) -> None:
        """Writes some."""

    def go(self) -> int:
        """Goes on from CS:IP, and tells the interrupt that is due, or NO_INTERRUPT at a halt."""


class Unicorn:
    """One processor of the library's, with a megabyte of memory."""

    def __init__(self, library: Library) -> None:
        self._library, self._it, self._begin = library, ctypes.c_void_p(), ctypes.c_void_p()
        self._due, self._hook = NO_INTERRUPT, ctypes.c_size_t()
        self._hooked = HOOKED(self._interrupt)
        self._call('uc_open', ARCHITECTURE, MODE, ctypes.byref(self._it))
        self._call('uc_mem_map', self._it, ctypes.c_uint64(0), ctypes.c_size_t(SIZE), ALL_ACCESS)
        self._call('uc_hook_add', self._it, ctypes.byref(self._hook), HOOK, self._hooked, None, ctypes.c_uint64(1), ctypes.c_uint64(0))
        self._call('uc_context_alloc', self._it, ctypes.byref(self._begin))
        self._call('uc_context_save', self._it, self._begin)

    def _call(self, name: str, *given: Any) -> None:
        error = getattr(self._library, name)(*given)
        if error:
            raise Sorry(f'Unicorn refuses {name}: its error {error}')

    def _interrupt(self, _it: int, number: int, _: Any) -> None:
        self._due = number
        self._library.uc_emu_stop(self._it)

    def get(self, name: str) -> int:
        value = ctypes.c_uint64()
        self._call('uc_reg_read', self._it, REGISTERS[name], ctypes.byref(value))
        return value.value & 0xFFFF

    def put(self, name: str, value: int) -> None:
        self._call('uc_reg_write', self._it, REGISTERS[name], ctypes.byref(ctypes.c_uint64(value)))

    def read(self, at: int, count: int) -> bytes:
        found = ctypes.create_string_buffer(count)
        self._call('uc_mem_read', self._it, ctypes.c_uint64(at), found, ctypes.c_size_t(count))
        return found.raw

    def write(self, at: int, octets: bytes) -> None:
        self._call('uc_mem_write', self._it, ctypes.c_uint64(at), octets, ctypes.c_size_t(len(octets)))

    def go(self) -> int:
        self._due = NO_INTERRUPT
        at = 16 * self.get('CS') + self.get('IP')
        error = self._library.uc_emu_start(self._it, ctypes.c_uint64(at), ctypes.c_uint64(NO_END), ctypes.c_uint64(0), ctypes.c_size_t(0))
        if error == INVALID:
            self._due = NO_INSTRUCTION
        elif error:
            raise Sorry(f'Unicorn refuses to go on: its error {error}')
        if self._due != NO_INTERRUPT:
            self._forget()
        return self._due

    def _forget(self) -> None:
        """It takes an interrupt that nobody enters for one that is still being entered, and the next for a double fault: so all but
        the registers is as it was in the beginning."""
        kept = {name: self.get(name) for name in REGISTERS}
        self._call('uc_context_restore', self._it, self._begin)
        for name, value in kept.items():
            self.put(name, value)

    def close(self) -> None:
        """Ends it."""
        self._library.uc_context_free(self._begin)
        self._library.uc_close(self._it)


def processor(library: Library) -> contextlib.closing[Unicorn]:
    """A processor, for the time of a `with`."""
    return contextlib.closing(Unicorn(library))


def loaded() -> Library | None:
    """Its library: $UNICORN, else the system's; None if there is none."""
    path = os.environ.get('UNICORN') or ctypes.util.find_library('unicorn')
    if path is None:
        return None
    try:
        found = ctypes.CDLL(path)
        found.uc_version.restype = ctypes.c_uint
    except (OSError, AttributeError) as error:
        raise Sorry(f"{path} can't be loaded as Unicorn: {error}") from None
    return found


def version(library: Library) -> str:
    """Which Unicorn it is."""
    return version_of(library.uc_version(None, None))


def version_of(number: int) -> str:
    """A version as it tells it: a byte each."""
    return '.'.join(str(number >> at & 0xFF) for at in (24, 16, 8))


def run(machine: Processor, image: Image, made: list[Case]) -> Answer:
    """Runs the image of such cases up to its halt. Where an instruction makes a fault, what is pushed is where the next one begins, as
    on an 8086."""
    behind = dict(instructions.place_of(at, case) for at, case in enumerate(made))
    machine.write(0, bytes(image.get(at, 0) for at in range(SIZE)))
    for name, value in (('CS', 0xFFFF), ('IP', 0), ('FL', 2)):
        machine.put(name, value)
    while (kind := machine.go()) != NO_INTERRUPT:
        place = 16 * machine.get('CS') + machine.get('IP')
        enter(machine, kind, behind.get(place, machine.get('IP')))
    return Answer(machine.read(0, mame.RAM), machine.read(mame.TEXT, mame.TEXT_SIZE), True, (machine.get('CS'), machine.get('IP')))


def enter(machine: Processor, kind: int, offset: int) -> None:
    """Enters an interrupt, from which a return goes to this offset."""
    flags, top = machine.get('FL'), machine.get('SP')
    for word in (flags | UNDEFINED, machine.get('CS'), offset):
        top = (top - 2) & 0xFFFF
        machine.write(16 * machine.get('SS') + top, word.to_bytes(2, 'little'))
    vector = machine.read(4 * kind, 4)
    places = {'SP': top, 'FL': flags & ~STEP_AND_INTERRUPTS, 'IP': int.from_bytes(vector[:2], 'little'), 'CS': int.from_bytes(vector[2:], 'little')}
    for name, value in places.items():
        machine.put(name, value)


def cases(seed: int, count: int) -> list[Case]:
    """Random cases of a seed, without LOCK: most instructions are none behind it for a later processor, and Unicorn 2.0.1 ends the
    whole process at a repeated string instruction behind it."""
    made = instructions.cases(seed, count)
    return [replace(case, prefixes=[prefix for prefix in case.prefixes if prefix != LOCK]) for case in made]
