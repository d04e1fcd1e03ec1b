"""An open document, which assembler's it seems to be, and the client's settings."""
from __future__ import annotations

import contextlib
import re
import urllib.parse
from dataclasses import dataclass
from typing import Any, Callable

from toolbox.command import Sorry
from toolbox.guests import origin_of
from toolbox.lsp.answers import Answers
from toolbox.lsp.source import Source
from toolbox.lsp.text import Text

OWN = 'zebludor'
MASM, AS_BYTES = 'MASM', ('utf-8', 'surrogatepass')
GAS = re.compile(r'\s*\.(text|globl|global|section|intel_syntax|att_syntax|code16|align|ascii|asciz|byte|word)\b', re.I)


@dataclass(frozen=True)
class Settings:
    """Whether lines end with hints; `zebludor` as the dialect, if every file is one of it; and the names of warnings that are off."""

    hints: bool = False
    dialect: str = ''
    off: frozenset[str] = frozenset()

    @staticmethod
    def of(given: Any) -> Settings:
        """Those that a client gives; what isn't as it should be is left out."""
        found = given if isinstance(given, dict) else {}
        found = found[OWN] if isinstance(found.get(OWN), dict) else found
        off = found.get('off')
        names = [name for name in off if isinstance(name, str)] if isinstance(off, list) else []
        return Settings(found.get('hints') is True, OWN if found.get('dialect') == OWN else '', frozenset(names))


def path_of(uri: str) -> str | None:
    """The path of a file's name in the protocol."""
    parts = urllib.parse.urlsplit(uri)
    return urllib.parse.unquote(parts.path) if parts.scheme == 'file' else None


@dataclass(frozen=True)
class Note:
    """Which assembler's a file seems to be, and the line that shows it."""

    name: str
    line: int

    @property
    def text(self) -> str:
        """A sentence for the user."""
        if self.name == MASM:
            shows = 'what is refused of it is underlined, and a line shows what it becomes'
            return f'this is a source of MASM, TASM or emu8086 (docs/masm.md): {shows}'
        return (
            f"this file seems to be {self.name}'s; the language server knows Zebludor's dialect alone (docs/dialect.md). "
            'The setting "dialect": "zebludor" says that it is of that'
        )


def seems(uri: str, source: Source) -> Note | None:
    """What a file seems to be, if it is another assembler's."""
    if uri.lower().endswith('.nasm'):
        return Note('NASM', 0)
    with contextlib.suppress(Sorry):
        name, line = origin_of(source.text.whole.encode(*AS_BYTES))
        if name == 'masm':
            return Note(MASM, 0)
        if name == 'nasm' and line:
            return Note('gas' if GAS.match(source.text.lines[line - 1]) else 'NASM', line - 1)
    return None


class Document:
    """What the client has open under a name."""

    def __init__(self, uri: str, text: str, version: Any, settings: Settings, poll: Callable[[], None]) -> None:
        self.uri, self.settings, self._poll = uri, settings, poll
        self.take(Text.of(text), version)

    def take(self, text: Text, version: Any) -> None:
        """Another text is the document's now, and nothing is known of it."""
        self.version: int | None = version if isinstance(version, int) else None
        self.source = Source(text)
        self.note: Note | None = None if self.settings.dialect == OWN else seems(self.uri, self.source)
        self.answers = Answers(self.source, self._poll)

    def change(self, changes: list[Any], version: Any) -> None:
        """Makes the client's changes, one after another."""
        text = self.text
        for change in changes:
            text = text.changed(change)
        self.take(text, version)

    def set(self, settings: Settings) -> None:
        """Other settings hold."""
        self.settings = settings
        self.take(self.text, self.version)

    @property
    def text(self) -> Text:
        """Its text."""
        return self.source.text

    @property
    def is_masm(self) -> bool:
        """Whether it is a source of MASM."""
        return self.note is not None and self.note.name == MASM

    @property
    def as_file(self) -> tuple[str, bytes]:
        """The path and the bytes of its file, if it were kept."""
        return path_of(self.uri) or self.uri, self.text.whole.encode(*AS_BYTES)
