"""The timer's cases of crates/chip_cases, made tick by tick on counter 2 of MAME's 8253, and held against a model of a counter: by the
rules of docs/chips.md it must answer as each case says, with what MAME does otherwise as MAME."""
from __future__ import annotations

import copy
import random
import tempfile
from collections.abc import Iterator
from typing import NamedTuple

from parts.cases import cases_of
from parts.outside import mame
from parts.outside.both import RESET
from parts.outside.counter import ALL, CAUSES, Cause, Counter
from toolbox.command import Sorry, read_text

FARTHEST, LONGEST = 3000, 70_000  # ticks ahead of a state, and of a case's own; longer ones are left out
SECONDS = 280  # of MAME's time
IDLE = 'SEGMENT M AT 0F600h\ngo: CLI\n HLT\nENDS\n' + RESET

# A line has an operation, the tick at which it comes, and a number. The timer's clock is a twelfth of 14.318181 MHz.
SCRIPT = r'''
local folder = os.getenv("FOLDER")
local ports = manager.machine.devices[":maincpu"].spaces["io"]
local T = 12 / 14318181
local function now() return manager.machine.time:as_double() end
coroutine.wrap(function()
  emu.wait(0.001)
  local out = io.open(folder .. "/answers", "w")
  local base, extra, last = 0, 0, -1
  local function to(tick)
    if tick == last then extra = extra + 1 else extra, last = 0, tick end
    local left = (base + tick + 0.3 + extra / 100) * T - now()
    if left > 0 then emu.wait(left) end
  end
  for line in io.lines(folder .. "/script") do
    local kind, tick, value = line:match("^(%S+) ?(%S*) ?(%S*)$")
    if kind == "N" then
      base, last = math.ceil(now() / T) + 2, -1
      to(0); ports:write_u8(0x63, 0x99); to(0); ports:write_u8(0x61, 1); to(0); ports:write_u8(0x43, 0xB0)
      to(0); ports:write_u8(0x42, 0); to(0); ports:write_u8(0x42, 0); to(2); ports:write_u8(0x43, 0xB0)
      base, last = base + 4, -1
    else
      to(tonumber(tick))
      if kind == "W" then ports:write_u8(0x42, tonumber(value, 16))
      elseif kind == "C" then ports:write_u8(0x43, tonumber(value, 16))
      elseif kind == "G" then ports:write_u8(0x61, tonumber(value))
      elseif kind == "R" then out:write(string.format("%02X\n", ports:read_u8(0x42)))
      elseif kind == "O" then out:write((ports:read_u8(0x62) & 0x20) ~= 0 and "1\n" or "0\n") end
    end
  end
  out:write("end\n")
  out:close()
  manager.machine:exit()
end)()
'''


Answer = tuple[tuple[int, ...], bool, tuple[int, ...]]  # what is read on the way, OUT, and the bytes of the count


class Case(NamedTuple):
    """Operations, a letter and a number each (of W a byte, of T ticks), and states so many ticks later: OUT, and the count."""

    text: str
    operations: tuple[tuple[str, int], ...]
    states: tuple[tuple[int, str, str], ...]


class Difference(NamedTuple):
    """A case of which a side answers otherwise than the model, at a state."""

    side: str
    case: Case
    ahead: int
    wanted: object
    came: object


def case_of(line: str) -> Case:
    """A case of chip_cases."""
    first, now, *later = line.partition(':')[2].split('|')
    operations = tuple((operation[0], int(operation[1:] or '0', 10 if operation[0] in 'TG' else 16)) for operation in first.split())
    states = [(0, *now.split()[:2]), *((int(state.split()[0]), *state.split()[1:3]) for state in later)]
    return Case(first.strip(), operations, tuple((at, out, count) for at, out, count in states if at <= FARTHEST))


def length_of(case: Case) -> int:
    """The ticks of its operations."""
    return sum(number for kind, number in case.operations if kind == 'T')


def is_fit(case: Case) -> bool:
    """Whether it can be made in MAME: from the mode word on, without a read-back, and not too long."""
    return length_of(case) <= LONGEST and all(kind in 'CWGRT' and not (kind == 'C' and number >= 0xC0) for kind, number in case.operations)


def cases(seed: int, count: int) -> list[Case]:
    """The causes' witnesses, and so many others by a seed; all, where there are no more."""
    counters = (text for text in cases_of('chip_cases') if text.startswith('counter:'))
    found = [case for case in map(case_of, counters) if is_fit(case)]
    shown = {cause.witness for cause in CAUSES}
    others = [case for case in found if case.text not in shown]
    return [case for case in found if case.text in shown] + random.Random(f'timer {seed}').sample(others, min(count, len(others)))


def access_of(case: Case) -> int:
    """The access of its last control word."""
    return next((number >> 4 & 3 for kind, number in reversed(case.operations) if kind == 'C' and number & 0x30), 3)


def script_of(case: Case) -> list[str]:
    """What MAME does for it: all of it anew for each state, then OUT, a latch, and the bytes of the count."""
    made, tick = list[str](), 0
    for kind, number in case.operations:
        if kind == 'T':
            tick += number
        else:
            made.append(f'{kind} {tick} {number & 0x3F | 0x80 if kind == "C" else number:{"X" if kind in "CW" else "d"}}')
    reads = 2 if access_of(case) == 3 else 1
    return [line for at, _, _ in case.states for line in ('N', *made, f'O {tick + at} 0', f'C {tick + at} 80', *(reads * [f'R {tick + at} 0']))]


def played(program: str, made: list[Case]) -> list[list[Answer]]:
    """What MAME answers to each case, state by state."""
    with tempfile.TemporaryDirectory() as folder:
        mame.write_roms(folder, mame.assembled(IDLE))
        with open(f'{folder}/script', 'w', encoding='ascii') as file:
            file.writelines(f'{line}\n' for case in made for line in script_of(case))
        mame.ran(program, folder, SCRIPT, SECONDS)
        try:
            came = read_text(f'{folder}/answers').split()
        except Sorry:
            raise Sorry('MAME left no answer') from None
    if came[-1:] != ['end']:
        raise Sorry(f"MAME didn't come to an end in {SECONDS} seconds of its own")
    words = iter(came)
    return [[answer_in(words, case) for _ in case.states] for case in made]


def answer_in(words: Iterator[str], case: Case) -> Answer:
    """The next answer among MAME's words."""
    reads = tuple(int(next(words), 16) for kind, _ in case.operations if kind == 'R')
    is_out = next(words) == '1'
    return reads, is_out, tuple(int(next(words), 16) for _ in range(2 if access_of(case) == 3 else 1))


def answers(case: Case, causes: frozenset[str]) -> list[tuple[Answer, str]]:
    """What the model answers, state by state, with the count as chip_cases has it."""
    counter, reads = Counter(causes), list[int]()
    for kind, number in case.operations:
        reads += does(counter, kind, number)
    found, at = list[tuple[Answer, str]](), 0
    for ahead, _, _ in case.states:
        does(counter, 'T', ahead - at)
        at, then = ahead, copy.copy(counter)
        then.control(0)
        octets = tuple(then.read() for _ in range(2 if access_of(case) == 3 else 1))
        found.append(((tuple(reads), counter.is_out, octets), f'{counter.shown():04X}'))
    return found


def does(counter: Counter, kind: str, number: int) -> list[int]:
    """Makes an operation, and returns what it reads."""
    if kind == 'C':
        counter.control(number & 0x3F)
    elif kind == 'W':
        counter.write(number)
    elif kind == 'G':
        counter.set_gate(number)
    for _ in range(number if kind == 'T' else 0):
        counter.tick()
    return [counter.read()] if kind == 'R' else []


def rule_differences(made: list[Case]) -> list[Difference]:
    """Where the model by the rules answers otherwise than a case says."""
    found = list[Difference]()
    for case in made:
        pairs = zip(case.states, answers(case, frozenset()))
        wrong = [(state, answer, count) for state, (answer, count) in pairs if (state[1] == '1', state[2]) != (answer[1], count)]
        found += [Difference('cases', case, state[0], f'{answer[1]:d} {count}', f'{state[1]} {state[2]}') for state, answer, count in wrong[:1]]
    return found


def mame_differences(made: list[Case], came: list[list[Answer]]) -> list[Difference]:
    """Where MAME answers otherwise than the model with all causes."""
    found = list[Difference]()
    for case, theirs in zip(made, came):
        pairs = zip(case.states, answers(case, ALL), theirs)
        wrong = [(state, answer, answered) for state, (answer, _), answered in pairs if answer != answered]
        found += [Difference('MAME', case, state[0], answer, answered) for state, answer, answered in wrong[:1]]
    return found


def shows(cause: Cause) -> bool:
    """Whether MAME would answer otherwise to a cause's witness without it."""
    case = next(candidate for candidate in cases(0, 0) if candidate.text == cause.witness)
    return answers(case, ALL) != answers(case, ALL - {cause.name})
