"""MAME's 5150 beside the board, part by part; Unicorn and ndisasm beside its processor: what is compared, and what is told of it."""
from __future__ import annotations

from collections import Counter
from collections.abc import Callable

from parts.outside import both, controller, instruction_flaws, instructions, nasm, port, screens, sequences, timer, unicorn, unicorn_flaws
from parts.outside.counter import CAUSES
from parts.outside.instruction_flaws import Flaw
from parts.outside.instructions import Case
from parts.outside.mame import Answer, Image
from parts.outside.sequences import Kind
from toolbox.command import waiting

SHOWN = 10  # differences that are told in full


def tell(text: str) -> None:
    """Prints a line at once."""
    print(text, flush=True)


def of_screens(program: str, _seed: int, _count: int) -> bool:
    """The examples' screens."""
    are_alike = True
    for name in screens.names():
        is_alike, line = screens.compared(program, name)
        tell(f'  {line}')
        are_alike = are_alike and is_alike
    return are_alike


def of_instructions(program: str, seed: int, count: int) -> bool:
    """Random instructions on MAME's processor."""
    return instructions_alike('MAME', lambda image, _: both.run_there(program, image), instruction_flaws.FLAWS, instructions.cases(seed, count))


def instructions_alike(name: str, run_there: Callable[[Image, list[Case]], Answer], flaws: tuple[Flaw, ...], random_cases: list[Case]) -> bool:
    """Random instructions, and the witnesses of what is listed."""
    made = [flaw.witness for flaw in flaws] + random_cases
    found = instructions.differences(name, run_there, made)
    strange = [difference for difference in found if instruction_flaws.unexplained(difference, flaws)]
    for difference in strange[:SHOWN]:
        tell(
            f'  {difference.case.name}: {bytes(difference.case.prefixes + list(difference.case.code)).hex(" ").upper()} differs in {", ".join(difference.places)}'
        )
        tell(f'    found {values(difference.case.registers)} FL={difference.case.flags | 0xF002:04X} SP={difference.case.stack:04X}')
        tell(f'    here  {values(instructions.registers_in(difference.here))}')
        tell(f'    {name:5} {values(instructions.registers_in(difference.there))}')
    shown = Counter(flaw.name for difference in found for flaw in flaws if flaw.holds(difference.case) and flaw.where & set(difference.places))
    gone = [flaw.name for flaw in flaws if not any(flaw.witness is that.case for that in found)]
    tell(f'  {len(made):,} cases, {len(found):,} differ, {len(strange):,} of them by nothing that is listed')
    tell_flaws([(flaw.name, flaw.why, shown[flaw.name]) for flaw in flaws], gone)
    return not strange and not gone


def of_unicorn(library: unicorn.Library, seed: int, count: int) -> bool:
    """Random instructions on Unicorn."""

    def run_there(image: Image, made: list[Case]) -> Answer:
        with unicorn.processor(library) as processor:
            return unicorn.run(processor, image, made)

    return instructions_alike('Unicorn', run_there, unicorn_flaws.FLAWS, unicorn.cases(seed, count))


def of_texts(program: str, seed: int, count: int) -> bool:
    """The texts of random instructions, and of the witnesses of what is listed, by ndisasm."""
    made = [flaw.witness for flaw in nasm.FLAWS] + nasm.cases(seed, count)
    found = nasm.differences(program, made)
    strange = [difference for difference in found if not nasm.known(difference.octets)]
    for difference in strange[:SHOWN]:
        tell(f'  {difference.octets.hex(" ").upper()} is {difference.here} here, and {difference.there} there')
    shown = Counter(name for difference in found for name in nasm.known(difference.octets))
    different = {difference.octets for difference in found}
    gone = [flaw.name for flaw in nasm.FLAWS if flaw.witness not in different]
    tell(f'  {len(made):,} instructions, {len(found):,} differ, {len(strange):,} of them by nothing that is listed')
    tell_flaws([(flaw.name, flaw.why, shown[flaw.name]) for flaw in nasm.FLAWS], gone)
    return not strange and not gone


def values(registers: dict[str, int]) -> str:
    """Registers as text."""
    return ' '.join(f'{name}={value:04X}' for name, value in registers.items())


def of_sequences(kind: Kind, program: str, seed: int, count: int) -> bool:
    """Random sequences on a chip, held against its model without the flaws here and with all of them there."""
    made = sequences.sequences(kind, seed, count)
    found = sequences.differences(kind, program, made)
    for difference in found[:SHOWN]:
        tell(f'  {difference.side}: {"; ".join(difference.operations[len(kind.begin):])}')
        tell(f'    wanted {difference.wanted.hex(" ").upper()}, came {difference.came.hex(" ").upper()}')
    without = {flaw.name: sum(changes(kind, operations, flaw.name) for operations in made) for flaw in kind.flaws}
    tell(f'  {len(made):,} sequences, {len(found):,} differ from what the rules and the list say')
    tell_flaws([(flaw.name, flaw.why, without[flaw.name]) for flaw in kind.flaws], [name for name, times in without.items() if not times])
    return not found and all(without.values())


def changes(kind: Kind, operations: tuple[str, ...], name: str) -> bool:
    """Whether a flaw changes what MAME answers to a sequence."""
    flaws = frozenset(flaw.name for flaw in kind.flaws)
    return kind.answers(operations, flaws) != kind.answers(operations, flaws - {name})


def tell_flaws(flaws: list[tuple[str, str, int]], gone: list[str]) -> None:
    """The list, with how often each shows."""
    for name, why, times in flaws:
        tell(f'    {name}: {why}; ' + ('SHOWS NO MORE' if name in gone else f'shown by {times:,}'))


def of_controller(program: str, seed: int, count: int) -> bool:
    return of_sequences(controller.KIND, program, seed, count)


def of_port(program: str, seed: int, count: int) -> bool:
    return of_sequences(port.KIND, program, seed, count)


def of_timer(program: str, seed: int, count: int) -> bool:
    """The timer's cases. MAME now and then makes an operation a tick late, so what differs is made once more, and told if it does again."""
    made = timer.cases(seed, count)
    once = timer.mame_differences(made, timer.played(program, made))
    again = [difference.case for difference in once]
    twice = timer.mame_differences(again, timer.played(program, again)) if again else []
    found = timer.rule_differences(made) + twice
    for difference in found:
        tell(f'  {difference.side}: {difference.case.text}, {difference.ahead} ticks later: wanted {difference.wanted}, came {difference.came}')
    tell(f'  {len(made):,} cases, {len(found):,} differ from what the rules and the list say, {len(once) - len(twice):,} did so once')
    gone = [known.name for known in CAUSES if known.witness in {case.case.text for case in found}]
    for cause in CAUSES:
        tell(f'    {cause.name}: {cause.why}; ' + ('SHOWS NO MORE' if cause.name in gone else f'shown by {cause.witness}'))
    return not found


PARTS = {'screens': of_screens, 'instructions': of_instructions, 'controller': of_controller, 'port': of_port, 'timer': of_timer}


def compared(program: str, parts: list[str], seed: int, count: int) -> bool:
    """Whether each part is alike but for what is listed."""
    are_alike = True
    for name in parts:
        tell(name)
        with waiting(name):
            are_alike = PARTS[name](program, seed, count) and are_alike
    return are_alike
