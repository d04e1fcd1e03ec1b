"""What a refused line may have been meant to be. Each is tried: what the program still refuses isn't offered."""
from __future__ import annotations

import difflib
import re
from typing import Iterator

from toolbox.hints import STATEMENTS
from toolbox.lsp.lines import DATA, Parsed
from toolbox.lsp.source import Source
from toolbox.lsp.words import kinds

MOST = 6
REWRITES: tuple[tuple[str, str], ...] = (
    (r'\b(BYTE|WORD|FAR)\s+PTR\b', r'\1'),
    (r'\bOFFSET\s+', ''),
    (r'\b0X([0-9A-F]+)\b', r'0\1h'),
    (r'(?<![\w$])\$([0-9][0-9A-F]*)\b', r'0\1h'),
    (r'\b0B([01]+)\b', r'\1b'),
    (r'(?<![\w.])([A-F][0-9A-F]*H)\b', r'0\1'),
    (r'(?<![\w.])(\d[0-9A-F]*[A-F][0-9A-F]*)\b', r'\1h'),
    (r'\[\s*([ECSD]S)\s*:\s*', r'\1:['),
    (r'\]\s*\[', '+'),
    (r'\b([A-Z_]\w*)\s*\[([^\]]+)\]', r'[\1+\2]'),
    (r'^(\s*)([A-Z_]\w*)(\s+)(D[BWD]\b|[A-Z]+\b)', r'\1\2:\3\4'),
    (r'\bTIMES\s+(\w+)\s+(D[BWD])\s+([^;]+?)(\s*)$', r'\2 \1 DUP(\3)\4'),
    (r'\bDUP\s*\(\s*\?\s*\)', 'DUP(0)'),
    (r'^(.*\bD[BWD]\s+)\?', r'\g<1>0'),
    (r'\b(J\w+)\s+(SHORT|NEAR)\s+', r'\1 '),
    (r'^(\s*)(\w+)\s*=\s*', r'\1\2 EQU '),
    (r'"([^"\']*)"', r"'\1'"),
    (r'\b(JMP|CALL)\s+(\w+\s*:\s*\w+)', r'\1 FAR \2'),
)


def sized(source: Source, line: str, parts: Parsed) -> Iterator[str]:
    """The line with a size before its memory, the size of the label's data first, and with brackets around a name that is its operand."""
    names = [source.definitions.get(token.key) for token in parts.uses]
    data = [source.lines[name.line] for name in names if name]
    sizes = ('BYTE', 'WORD') if any(datum.does('DB') for datum in data) else ('WORD', 'BYTE')
    name = re.fullmatch(r'(\s*(?:\w+\s*:)?\s*\w+\s+)([A-Za-z_]\w*)(\s*)', line)
    for size in sizes:
        if name and name[2].upper() in source.definitions:
            yield f'{name[1]}{size} [{name[2]}]{name[3]}'
        elif '[' in line and not re.search(r'\b(BYTE|WORD)\b', line, re.I):
            at = line.index('[')
            before = re.search(r'[ECSD]S\s*:\s*$', line[:at], re.I)
            at = before.start() if before else at
            yield f'{line[:at]}{size} {line[at:]}'


def spelt(source: Source, line: str, parts: Parsed) -> Iterator[str]:
    """The line with a mnemonic or a name that resembles what it has."""
    words = [parts.statement] if parts.statement and parts.statement.kind == 'name' else []
    for token, known in [(token, sorted(STATEMENTS)) for token in words] + [(token, list(source.definitions)) for token in parts.uses if token not in words]:
        if token.key in source.definitions and token not in words:
            continue
        for meant in difflib.get_close_matches(token.key, [word for word in known if word != token.key], 3, 0.6):
            own = source.definitions[meant].name.text if meant in source.definitions else meant if token.text.isupper() else meant.lower()
            yield line[: token.start] + own + line[token.end :]


def candidates(source: Source, number: int) -> Iterator[str]:
    """Other lines for a line, its comment kept."""
    parts, line = source.lines[number], source.text.lines[number]
    end = parts.comment.start if parts.comment else len(line)
    code, rest = line[:end], line[end:]
    rewritten = code
    for look, new in REWRITES:
        if "'" in rewritten and '"' not in look and not parts.does(*DATA):
            continue
        is_word = re.match(r'\s*(\w+)', rewritten)
        if new.startswith(r'\1\2:') and is_word and is_word[1].upper() in kinds():
            continue
        after = re.sub(look, new, rewritten, flags=re.I)
        if after != rewritten:
            yield after + rest
            rewritten = after
    for way in (sized, spelt):
        for after in way(source, code, parts):
            yield after + rest
