"""Conditions of breakpoints as gdb hands them over: its bytecode for agents (gdb's manual, "The GDB Agent Expression Mechanism")."""
from __future__ import annotations

import operator
from typing import Callable

from toolbox.command import Sorry

WORD, HALF = 1 << 64, 1 << 63
MOST_STEPS, MOST_STACK, LONGEST = 10_000, 1000, 4096


def signed(value: int) -> int:
    """A word with its sign."""
    return (value + HALF) % WORD - HALF


def quotient(one: int, other: int) -> int:
    """A division towards zero, as C has it."""
    found = abs(one) // abs(other)
    return found if (one < 0) == (other < 0) else -found


BINARY: dict[int, Callable[[int, int], int]] = {
    0x02: operator.add,
    0x03: operator.sub,
    0x04: operator.mul,
    0x05: lambda a, b: quotient(signed(a), signed(b)),
    0x06: operator.floordiv,
    0x07: lambda a, b: signed(a) - signed(b) * quotient(signed(a), signed(b)),
    0x08: operator.mod,
    0x09: lambda a, b: a << b if b < 64 else 0,
    0x0A: lambda a, b: signed(a) >> min(b, 63),
    0x0B: lambda a, b: a >> b if b < 64 else 0,
    0x0F: operator.and_,
    0x10: operator.or_,
    0x11: operator.xor,
    0x13: operator.eq,
    0x14: lambda a, b: signed(a) < signed(b),
    0x15: operator.lt,
}
UNARY: dict[int, Callable[[int], int]] = {0x0E: operator.not_, 0x12: operator.invert}
READS = {0x17: 1, 0x18: 2, 0x19: 4, 0x1A: 8}  # ref8 to ref64
CONSTANTS = {0x22: 1, 0x23: 2, 0x24: 4, 0x25: 8}  # const8 to const64
EXT, ZERO_EXT, IF_GOTO, GOTO, REG, END, DUP, POP, SWAP, PICK, ROT = 0x16, 0x2A, 0x20, 0x21, 0x26, 0x27, 0x28, 0x29, 0x2B, 0x32, 0x33
OPERANDS = CONSTANTS | {EXT: 1, ZERO_EXT: 1, IF_GOTO: 2, GOTO: 2, REG: 2, PICK: 1}
KNOWN = {*BINARY, *UNARY, *READS, *OPERANDS, END, DUP, POP, SWAP, ROT}


class Condition:
    """A condition. It reads registers by gdb's numbers, and memory."""

    def __init__(self, code: bytes) -> None:
        self._code, at = code, 0
        while at < len(code):
            if code[at] not in KNOWN:
                raise Sorry(f'the condition needs what the board has not (bytecode {code[at]:02x})')
            at += 1 + OPERANDS.get(code[at], 0)
        if at != len(code) or not code or code[-1] != END or len(code) > LONGEST:
            raise Sorry('the condition is broken')

    def holds(self, register: Callable[[int], int], memory: Callable[[int, int], bytes]) -> bool:
        """Whether it does. One that can't be evaluated, as by a division by 0, counts as one that does: gdb asks again."""
        try:
            return self._value(register, memory) != 0
        except (LookupError, ZeroDivisionError):
            return True

    def _value(self, register: Callable[[int], int], memory: Callable[[int, int], bytes]) -> int:
        stack, at = list[int](), 0
        for _ in range(MOST_STEPS):
            code, operands = self._code[at], OPERANDS.get(self._code[at], 0)
            number = int.from_bytes(self._code[at + 1 : at + 1 + operands], 'big')
            at += 1 + operands
            if code == END:
                return stack[-1]
            if code == GOTO or code == IF_GOTO and stack.pop():
                at = number
            elif code != IF_GOTO:
                self._do(code, number, stack, register, memory)
            if len(stack) > MOST_STACK:
                break
        raise IndexError

    @staticmethod
    def _do(code: int, number: int, stack: list[int], register: Callable[[int], int], memory: Callable[[int, int], bytes]) -> None:
        """One of those that don't jump."""
        if code in BINARY:
            right, left = stack.pop(), stack.pop()
            stack.append(int(BINARY[code](left, right)) % WORD)
        elif code in UNARY:
            stack.append(int(UNARY[code](stack.pop())) % WORD)
        elif code in READS:
            octets = memory(stack.pop(), READS[code])
            if len(octets) < READS[code]:
                raise IndexError
            stack.append(int.from_bytes(octets, 'little'))
        elif code in CONSTANTS:
            stack.append(number)
        elif code == REG:
            stack.append(register(number) % WORD)
        elif code in (EXT, ZERO_EXT):
            low = stack.pop() % (1 << number)
            stack.append((low - (low >> (number - 1) << number) if code == EXT and number else low) % WORD)
        elif code == POP:
            stack.pop()
        elif code == SWAP:
            stack[-1], stack[-2] = stack[-2], stack[-1]
        elif code == ROT:
            stack[-1], stack[-2], stack[-3] = stack[-2], stack[-3], stack[-1]
        else:
            stack.append(stack[-1 - number if code == PICK else -1])
