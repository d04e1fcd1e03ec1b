"""The Debug Adapter Protocol's own types (Debian's node-vscode-debugprotocol), by which messages are held."""
from __future__ import annotations

import functools
import os
import re
from dataclasses import dataclass, field
from typing import Any

TYPES = '/usr/share/nodejs/@vscode/debugprotocol/lib/debugProtocol.d.ts'
TOKEN = re.compile(r"/\*.*?\*/|//[^\n]*|\s+|('[^']*'|\w+|[{}\[\]()|;:?,=&])", re.S)
# Of which the protocol says that a client may add fields of its own; and requests that are an adapter's own.
OPEN, OWN = ('LaunchRequestArguments', 'AttachRequestArguments'), ('toClock',)
LATER = {('DisassembledInstruction', 'presentationHint')}  # fields of a later version than Debian's
PLAIN: dict[str, Any] = {'string': str, 'number': (int, float), 'boolean': bool, 'null': type(None), 'object': dict}


@dataclass
class Shape:
    """An object's fields, each with its type and whether it may be missing; and the type of those that aren't named."""

    fields: dict[str, tuple[Any, bool]] = field(default_factory=dict)
    base: str = ''
    others: Any = None


class Types:
    """A module of declarations. A type is a name or literal, a Shape, ('list', type), or ('one of', types)."""

    def __init__(self, text: str) -> None:
        self.words = [each[1] for each in TOKEN.finditer(text) if each[1]]
        self.at, self.named = 0, dict[str, Any]()
        while self.at < len(self.words):
            self.declaration()

    def take(self, *wanted: str) -> str:
        """The next word, if it is one of these."""
        if self.at < len(self.words) and (not wanted or self.words[self.at] in wanted):
            self.at += 1
            return self.words[self.at - 1]
        return ''

    def declaration(self) -> None:
        """An interface, another name for a type, or what stands around them."""
        word = self.take()
        if word == 'interface':
            name = self.take()
            base = self.take() if self.take('extends') else ''
            self.named[name] = self.shape(base)
        elif word == 'type' and self.words[self.at + 1] == '=':
            name = self.take()
            self.take('=')
            self.named[name] = self.type()

    def shape(self, base: str = '') -> Shape:
        """What stands in braces."""
        found = Shape(base=base)
        self.take('{')
        while not self.take('}'):
            if self.take('['):
                while not self.take(']'):
                    self.take()
                self.take(':')
                found.others = self.type()
            else:
                name = self.take().strip("'")
                is_free = bool(self.take('?'))
                self.take(':')
                found.fields[name] = self.type(), is_free
            self.take(';', ',')
        return found

    def type(self) -> Any:
        """A union of one or more."""
        self.take('|')
        found = [self.one()]
        while self.take('|'):
            found.append(self.one())
        return found[0] if len(found) == 1 else ('one of', found)

    def one(self) -> Any:
        """A name, a literal, a shape, or a list of these."""
        if self.take('('):
            found = self.type()
            self.take(')')
        else:
            found = self.shape() if self.words[self.at] == '{' else self.take()
        while self.words[self.at : self.at + 2] == ['[', ']']:
            self.at += 2
            found = ('list', found)
        return found

    def all_of(self, name: str) -> Shape:
        """An interface with what it stands on."""
        own = self.named[name]
        return Shape(self.all_of(own.base).fields | own.fields, '', own.others) if own.base else own

    def wrong(self, value: Any, kind: Any, where: str) -> list[str]:
        """What of a value isn't of a type."""
        if isinstance(kind, Shape):
            return self.wrong_fields(value, kind, where)
        if isinstance(kind, tuple) and kind[0] == 'one of':
            tries = [self.wrong(value, each, where) for each in kind[1]]
            return [] if [] in tries else tries[-1]
        if isinstance(kind, tuple):
            return (
                [bad for at, each in enumerate(value) for bad in self.wrong(each, kind[1], f'{where}[{at}]')]
                if isinstance(value, list)
                else [f'{where} is no list']
            )
        if kind == 'any':
            return []
        if kind in PLAIN:
            is_so = isinstance(value, PLAIN[kind]) and (kind != 'number' or not isinstance(value, bool))
            return [] if is_so else [f'{where} is no {kind}: {value!r}']
        if kind[0] == "'":
            return [] if value == kind[1:-1] else [f'{where} is {value!r}, not {kind}']
        known = self.named[kind]
        return self.wrong(value, self.all_of(kind) if isinstance(known, Shape) else known, f'{where}: {kind}')

    def wrong_fields(self, value: Any, kind: Shape, where: str) -> list[str]:
        """What of an object's fields is missing, of another type, or not known."""
        if not isinstance(value, dict):
            return [f'{where} is no object']
        missing = [f'{where} has no {name}' for name, (_, is_free) in kind.fields.items() if not is_free and name not in value]
        this = where.rpartition(' ')[2]
        unknown = [each for each in value if each not in kind.fields and kind.others is None and this not in OPEN and (this, each) not in LATER]
        known = [bad for name, each in value.items() if name in kind.fields for bad in self.wrong(each, kind.fields[name][0], f'{where}.{name}')]
        return missing + [f'{where} has {name}, which the protocol has not' for name in unknown] + known

    def wrong_message(self, message: dict[str, Any]) -> list[str]:
        """What of a message isn't as the protocol has it."""
        name = str(message.get('command', message.get('event', '')))
        if message.get('type') == 'response' and not message.get('success'):
            return self.wrong(message, 'ErrorResponse', name)
        kind = name[:1].upper() + name[1:] + str(message.get('type', '')).capitalize()
        if kind not in self.named:
            return [] if name in OWN else [f'{kind} is nothing that the protocol has']
        return self.wrong(message, kind, name)


@functools.cache
def types() -> Types | None:
    """The protocol's types, if they are installed."""
    if not os.path.exists(TYPES):
        return None
    with open(TYPES, encoding='utf-8') as file:
        return Types(file.read())
