"""What the program accepts and is hardly meant: what a line shows by itself, and what the source and the program's answers show."""
from __future__ import annotations

from typing import Callable, Iterator

from toolbox import doubts
from toolbox.doubts import Doubt
from toolbox.lsp.answers import Answers
from toolbox.lsp.lines import LABEL, Token
from toolbox.lsp.source import Source
from toolbox.lsp.straight import held, register_in

# What writes its first operand.
WRITERS = set('MOV ADD ADC SUB SBB AND OR XOR INC DEC NEG NOT SHL SAL SHR SAR ROL ROR RCL RCR XCHG POP'.split())
STORES = ('STOSB', 'STOSW', 'MOVSB', 'MOVSW')
ROM, RESET, OF_THE_SERVICES = 0xF000, 0xFFFF0, range(0x10, 0x22)


def lone_label(source: Source, tokens: tuple[Token, ...]) -> Token | None:
    """The label of an expression that has one, and no other name, SEG or $ beside it."""
    names = [token for token in tokens if token.kind == 'name']
    if len(names) != 1 or any(token.kind in ('operator', 'register') or token.text in '[]$' for token in tokens):
        return None
    found = source.definitions.get(names[0].key)
    return names[0] if found and found.kind == LABEL else None


def of_lines(source: Source, _: Answers) -> Iterator[Doubt]:
    """What a line shows by itself."""
    return doubts.doubts(source.text.lines)


def in_rom(source: Source, label: Token) -> bool:
    """Whether a label's segment is ROM."""
    span = source.span_of(source.definitions[label.key].line)
    return bool(span and source.constants.get(span.name.key, 0) >= ROM)


def variables_in_rom(source: Source, _: Answers) -> Iterator[Doubt]:
    """A write to a label whose segment is ROM, or a stack there."""
    for number, line in enumerate(source.lines):
        groups = line.groups()
        if not groups or not line.does(*WRITERS):
            continue
        inside = addressed(groups)
        overridden = any(token.key in ('ES', 'SS', 'DS') for token in groups[0])
        name = lone_label(source, tuple(token for token in inside if token.kind != 'register' and token.text != '+')) if not overridden else None
        if name and in_rom(source, name):
            yield Doubt('variable-in-rom', number, name.start, name.end, f'perhaps {name.text} is to stand in RAM: it is in ROM, where a write is lost')
        if line.does('MOV') and register_in(groups[0]) == 'SS' and len(groups) == 2:
            paragraph = held(source, number, register_in(groups[1])) if register_in(groups[1]) else None
            if paragraph is not None and paragraph >= ROM:
                yield Doubt(
                    'variable-in-rom', number, groups[0][0].start, groups[1][-1].end, 'perhaps the stack is to stand in RAM: it is in ROM, where a push is lost'
                )


def no_vectors(source: Source, answers: Answers) -> Iterator[Doubt]:
    """INT to a vector that no line sets: none places bytes there, writes to its address, stores through a register or calls the services."""
    wanted = interrupts(source)
    if any(value in OF_THE_SERVICES for _, value in wanted) or any(
        line.does(*STORES) or writes_through_a_register(line.groups(), line.does(*WRITERS)) for line in source.lines
    ):
        return
    written = {source.value(inside) for inside in (addressed(line.groups()) for line in source.lines if line.does(*WRITERS)) if inside}
    for number, value in wanted:
        places = {4 * value + at for at in range(4)}
        if not places & written and not any(map(answers.has, places)):
            operands = source.lines[number].operands
            yield Doubt(
                'no-vector',
                number,
                operands[0].start,
                operands[-1].end,
                f'perhaps a handler is missing: no line sets the vector of interrupt {value:X}h, at {4 * value:05X}h',
            )


def interrupts(source: Source) -> list[tuple[int, int]]:
    """The lines with INT and a number."""
    found = [(number, source.value(line.groups()[0])) for number, line in enumerate(source.lines) if line.does('INT') and line.groups()]
    return [(number, value) for number, value in found if value is not None]


def addressed(groups: list[tuple[Token, ...]]) -> tuple[Token, ...]:
    """What stands in the brackets of a first operand."""
    texts = [token.text for token in groups[0]] if groups else []
    return groups[0][texts.index('[') + 1 : -1] if '[' in texts else ()


def writes_through_a_register(groups: list[tuple[Token, ...]], is_writer: bool) -> bool:
    """Whether the first operand is memory by a register."""
    return is_writer and any(token.kind == 'register' for token in addressed(groups))


def no_reset(source: Source, answers: Answers) -> Iterator[Doubt]:
    """Nothing stands where the processor begins, and no call to the services says that they stand there."""
    has_code = any(line.statement and line.statement.kind == 'mnemonic' for line in source.lines)
    if has_code and source.spans and not any(value in OF_THE_SERVICES for _, value in interrupts(source)) and not answers.has(RESET):
        span = source.spans[-1]
        text = 'perhaps the far jump is missing at FFFF:0000, where the processor begins: SEGMENT RESET AT 0FFFFh, JMP FAR start, ENDS'
        yield Doubt('no-reset', span.first, span.name.start, span.name.end, text)


DOUBTS: tuple[Callable[[Source, Answers], Iterator[Doubt]], ...] = (of_lines, variables_in_rom, no_vectors, no_reset)
NAMES = (*doubts.NAMES, 'variable-in-rom', 'no-vector', 'no-reset')


def doubts_of(source: Source, answers: Answers) -> list[Doubt]:
    """All of an accepted source."""
    return sorted((doubt for look in DOUBTS for doubt in look(source, answers)), key=lambda doubt: (doubt.line, doubt.first))
