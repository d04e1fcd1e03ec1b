"""What an editor shows as variables: registers, flags, the board, its data by label and type, the stack and the screen."""
from __future__ import annotations

import re
from typing import Any

from toolbox.command import Sorry
from toolbox.dap.board import Machine
from toolbox.dap.values import Value
from toolbox.data_labels import Datum
from toolbox.edits import Target
from toolbox.listing import physical
from toolbox.printing import all_shown, shown, sized, type_of, values_of, variable_in
from toolbox.report import FLAGS

Fields = dict[str, Any]
SCOPES = ('Registers', 'Flags', 'Board', 'Data', 'Stack', 'Screen')  # by their references, from 1 on
FIRST_DATUM = len(SCOPES) + 1
STACK_WORDS = 16
EVALUATED = {1: 'BYTE', 2: 'WORD'}  # what an expression can read


def row(name: str, value: str, **more: Any) -> Fields:
    """A variable that has no parts unless it says so."""
    return {'name': name, 'value': value, 'variablesReference': 0} | more


class Variables:
    """The variables of a board, where it stands. A client may know types and memory references, or not."""

    def __init__(self, board: Machine, knows: Fields) -> None:
        self._board, self._knows = board, knows

    @staticmethod
    def scopes() -> list[Fields]:
        """The scopes."""
        return [{'name': name, 'variablesReference': number, 'expensive': False} for number, name in enumerate(SCOPES, 1)]

    def data(self) -> list[Datum]:
        """The labels of data, which the listing reads once."""
        return self._board.listing.data

    def of(self, number: int, first: int, count: int) -> list[Fields]:
        """The variables of a reference; of a long array a part, if the client wants one."""
        if 0 < number <= len(SCOPES):
            return (self._registers, self._flags, self._of_board, self._labels, self._stack, self._screen)[number - 1]()
        if not 0 <= number - FIRST_DATUM < len(self.data()):
            raise Sorry(f'there are no variables {number}')
        rows = self._elements(self.data()[number - FIRST_DATUM])
        return rows[first : first + count if count else None]

    def places(self, number: int, name: str) -> range | None:
        """The bytes of a label, or of an element of one; None of a variable that is an expression, or of another scope."""
        labels = {one.name: one for one in self.data()}
        datum, first, length = labels.get(name) if number == SCOPES.index('Data') + 1 else None, 0, 0
        if datum:
            length = datum.length
        elif 0 <= number - FIRST_DATUM < len(self.data()) and (found := re.fullmatch(r'\[(\d{1,6})\]', name)):
            datum = self.data()[number - FIRST_DATUM]
            first, length = int(found[1]) * datum.size, datum.size
        if not datum:
            return None
        at = physical(*datum.place) + first
        return range(at, at + length)

    def target(self, number: int, name: str) -> Target:
        """What is set by a variable of a reference: a register, or bytes."""
        if 0 < number <= 2 and name in [one['name'] for one in self.of(number, 0, 0)]:
            return Target(register=name)
        if number == SCOPES.index('Stack') + 1 and (found := re.fullmatch(r'SP\+(\d{1,2})', name)):
            registers = self._board.registers()
            return Target(address=physical(registers['SS'], registers['SP'] + int(found[1])), size=2)
        places, datum = self.places(number, name), self._datum(number, name)
        if not places or not datum:
            raise Sorry(f"{name} can't be set: a register, a flag, data and words of the stack can")
        return Target(address=places[0], size=datum.size)

    def _datum(self, number: int, name: str) -> Datum | None:
        """The label of data that a variable is, or belongs to."""
        if number == SCOPES.index('Data') + 1:
            return next((one for one in self.data() if one.name == name), None)
        return self.data()[number - FIRST_DATUM] if 0 <= number - FIRST_DATUM < len(self.data()) else None

    def _flags_of(self) -> dict[str, int]:
        flags = self._board.registers()['FL']
        return {name: flags >> bit & 1 for name, bit in reversed(FLAGS.items())}

    def _registers(self) -> list[Fields]:
        shown = {name: f'{one:04X}h' for name, one in self._board.registers().items()}
        shown['FL'] += f' {" ".join(name for name, one in self._flags_of().items() if one)}'.rstrip()
        return [row(name, one, evaluateName=name) for name, one in shown.items()]

    def _flags(self) -> list[Fields]:
        return [row(name, str(one), evaluateName=name) for name, one in self._flags_of().items()]

    def _of_board(self) -> list[Fields]:
        return [row('clock', str(self._board.clock)), row('budget', str(self._board.budget)), row('state', self._board.state())]

    def _stack(self) -> list[Fields]:
        """The words from SS:SP on."""
        words = self._board.stack(STACK_WORDS)
        return [row(f'SP+{at}', f'{word:04X}h {label}'.rstrip(), evaluateName=f'WORD SS:[SP+{at}]') for at, word, label in words]

    def _screen(self) -> list[Fields]:
        return [row(str(number), line.rstrip()) for number, line in enumerate(self._board.many('screen'), 1)]

    def _labels(self) -> list[Fields]:
        """Each label: one value, or a beginning of them and the rest as parts."""
        return [self._label(FIRST_DATUM + at, one) for at, one in enumerate(self.data())]

    def _label(self, number: int, datum: Datum) -> Fields:
        values = values_of(self._board, datum)
        if len(values) == 1 and datum.length == datum.size:
            return self._one(datum, 0, values[0], datum.name, type_of(datum))
        more: Fields = {'variablesReference': number if values else 0, 'indexedVariables': len(values)}
        return self._known(datum, 0, row(datum.name, all_shown(datum, values) if values else 'no memory is there', **more), type_of(datum))

    def named(self, text: str) -> Fields | None:
        """What an expression is that is a variable's name, or one of its values."""
        found = variable_in(self._board.listing, text)
        if not found:
            return None
        datum, index = found
        if index is None:
            return self._label(FIRST_DATUM + self.data().index(datum), datum)
        rows = self._elements(datum)
        if index >= len(rows):
            raise Sorry(f'{datum.name} has {datum.length // datum.size:,} values, of which {len(rows):,} are shown')
        return rows[index]

    def _elements(self, datum: Datum) -> list[Fields]:
        kind = datum.said or datum.kind
        return [self._one(datum, at * datum.size, one, f'[{at}]', kind) for at, one in enumerate(values_of(self._board, datum))]

    def _one(self, datum: Datum, at: int, value: Value, name: str, kind: str) -> Fields:
        """One value, so many bytes after a label."""
        more: Fields = {}
        if value.size in EVALUATED and re.fullmatch(r'[A-Za-z_]\w*', datum.name):
            more['evaluateName'] = f'{EVALUATED[value.size]} SEG {datum.name}:[{datum.name}{f"+{at}" if at else ""}]'
        return self._known(datum, at, row(name, shown(value), **more), kind)

    def _known(self, datum: Datum, at: int, fields: Fields, kind: str) -> Fields:
        """A variable with its type and memory, as far as the client takes them."""
        if self._knows.get('supportsVariableType'):
            fields['type'] = f'{kind}, {sized(datum.length if fields["name"] == datum.name else datum.size)}'
        if self._knows.get('supportsMemoryReferences'):
            fields['memoryReference'] = f'0x{(physical(*datum.place) + at) % (1 << 20):05X}'
        return fields
