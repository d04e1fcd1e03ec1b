"""What edits leave as it was: answers are those of a fresh server after any edits, and renaming and formatting keep the bytes."""
from __future__ import annotations

import functools
import glob
import os
import random
import unittest
from typing import Any

from tests.lsp_client import IT, Fields, Here, span
from tests.support import EXAMPLES, TOP, ToolCase

from toolbox.listing import ADDRESS_COLUMNS
from toolbox.lsp.answers import plain
from toolbox.lsp.lines import parsed
from toolbox.lsp.text import Text
from toolbox.program import given_text

# Others by hand: SEED=5 EDITS=1000 SOURCES=1000 python3 -m unittest tests.test_lsp_edits
SEED, EDITS, SOURCES = (int(os.environ.get(name, default)) for name, default in (('SEED', '1'), ('EDITS', '25'), ('SOURCES', '25')))
NAMES = ('alpha', 'Beta_2', 'gamma', '_d', 'Epsilon', 'zeta9', 'a_name_of_thirty_one_characters')
STATEMENTS: tuple[str, ...] = (
    'MOV AX,{}',
    'mov  bx , {}+2',
    'CALL {}',
    "DB 'a;{}' , 5",
    'DW {},SEG {}',
    'JMP {}',
    'INC WORD [{}]',
    'REP  MOVSB',
    'es: LODSB',
    'ADD AL,[BX+{}]',
)
STATEMENTS += ('DB 3 DUP(1, 2)', "CMP AL,';'", 'NOP', 'OUT 20h,AL', '')
COMMENTS = ('', '; {}', ";it's {}", '\t ; green', ' ;')


def source(dice: random.Random) -> str:
    """A source that is accepted, written untidily."""
    names = dice.sample(NAMES, dice.randint(1, len(NAMES)))

    def spaces() -> str:
        return dice.choice(('', ' ', '\t', '     ', ' ' * 40))

    lines = [f'{spaces()}size{spaces()} equ {dice.randint(0, 255)}{spaces()}', f'{spaces()}SEGMENT{spaces()} main AT 50h; here']
    for name in names:
        label = ''.join(dice.choice((letter.lower, letter.upper))() for letter in name)
        lines.append(f'{spaces()}{label}{spaces()}:{spaces()}' + dice.choice(STATEMENTS).replace('{}', dice.choice(names)))
        for _ in range(dice.randint(0, 3)):
            text = dice.choice(STATEMENTS).replace('{}', dice.choice((*names, 'SIZE')) if dice.random() < 0.5 else dice.choice(names))
            text = text.replace('SEG SIZE', 'SEG main').replace('SEG main', '5')
            lines.append(spaces() + text + dice.choice(COMMENTS).replace('{}', dice.choice(names)))
    return dice.choice(('\n', '\r\n')).join([*lines, ' NOP', 'ENDS'])


def applied(text: str, edits: list[Fields]) -> str:
    """A text after edits that don't touch each other."""
    document = Text.of(text)
    for edit in sorted(edits, key=lambda edit: document.offset(edit['range']['start']), reverse=True):
        first, last = document.offset(edit['range']['start']), document.offset(edit['range']['end'])
        text = text[:first] + edit['newText'] + text[last:]
    return text


@functools.cache
def bytes_of(text: str) -> str:
    """Where a text's bytes are, by its listing, and by Intel HEX if that has some that the listing hasn't."""
    rows = [line[:ADDRESS_COLUMNS] for line in given_text(['asm', '--list'], plain(text)).out.split('\n')]
    whole = given_text(['asm'], plain(text)).out if any('+' in row for row in rows) else ''
    return '\n'.join(row for row in rows if row.strip()) + whole


class Kept(ToolCase):
    """Bytes, texts and comments."""

    def texts(self) -> list[str]:
        """The examples, the services, and sources at random."""
        paths = sorted(glob.glob(f'{EXAMPLES}/*.asm') + glob.glob(f'{EXAMPLES}/books/*.asm') + glob.glob(f'{TOP}/services/*.asm'))
        self.assertGreater(len(paths), 40)
        found = list[str]()
        for path in paths:
            with open(path, encoding='utf-8', newline='') as file:
                found.append(file.read())
        dice = random.Random(SEED)
        return found + [source(dice) for _ in range(SOURCES)]

    def test_formatting(self) -> None:
        here = Here()
        for text in self.texts():
            here.open(text)
            self.assertEqual([diagnostic for diagnostic in here.found[IT] if diagnostic['severity'] == 1], [], (SEED, text))
            after = applied(text, here.of('formatting', options={}))
            self.assertEqual(bytes_of(after), bytes_of(text), (SEED, text))
            here.open(after)
            self.assertEqual(here.of('formatting', options={}), [], (SEED, text))
            kept = [
                [token.text for line in Text.of(whole).lines for token in parsed(line).tokens if token.kind in ('comment', 'text')] for whole in (text, after)
            ]
            self.assertEqual(kept[0], kept[1], (SEED, text))

    def test_renaming(self) -> None:
        here = Here()
        for text in self.texts():
            here.open(text)
            edits = list[Fields]()
            for at, definition in enumerate(here.server.documents[IT].source.definitions.values()):
                position = here.server.documents[IT].text.position(definition.line, definition.name.start)
                edits += here.at('rename', position['line'], position['character'], newName=f'other_{at}')['changes'][IT]
            self.assertEqual(bytes_of(applied(text, edits)), bytes_of(text), (SEED, text))
            self.assertNotEqual(bytes_of(text), '')


class AtRandom(ToolCase):
    """One server that is edited, against one for each text."""

    def edit(self, dice: random.Random, text: Text) -> Fields:
        """A change of a line, of some lines, or of some characters."""
        line = dice.randrange(len(text.lines))
        kind = dice.randrange(4)
        if kind == 0:
            junk = (' FROB', 'x: NOP', ' MOV AX,start', 'start: DB 1', 'ENDS', 'SEGMENT MAIN AT 50h', " DB 'a", '', '; \U0001f600', ' OUT 43h,AL')
            return {'range': span(line, line + dice.randrange(2)), 'text': dice.choice(junk) + dice.choice(('\n', '\r\n'))}
        if kind == 1:
            return {'range': span(line, line + dice.randrange(1, 4)), 'text': ''}
        column = dice.randrange(len(text.lines[line]) + 1)
        at = {'line': line, 'character': column}
        return {
            'range': {'start': at, 'end': {'line': line, 'character': column + dice.randrange(3)}},
            'text': dice.choice(('', 'A', '1', ' ', ';', "'", '\n', ':')),
        }

    def answers(self, here: Here, dice: random.Random) -> list[Any]:
        """What a server tells of its text."""
        whole = span(0, 9999)
        found: list[Any] = [here.of(method, options={}) for method in ('documentSymbol', 'foldingRange', 'semanticTokens/full', 'formatting')]
        found.append(here.of('inlayHint', range=whole))
        for _ in range(6):
            line, column = dice.randrange(80), dice.randrange(40)
            found += [
                here.at(method, line, column) for method in ('hover', 'definition', 'completion', 'signatureHelp', 'prepareCallHierarchy', 'documentHighlight')
            ]
            found.append(here.at('references', line, column, context={'includeDeclaration': True}))
            found.append(
                here.answer('textDocument/rename', textDocument={'uri': IT}, position={'line': line, 'character': column}, newName='other').get('result')
            )
        return [*found, here.found[IT]]

    def test_edits(self) -> None:
        dice = random.Random(SEED)
        with open(f'{EXAMPLES}/clock.asm', encoding='utf-8') as file:
            text = file.read()
        here = Here(hints=True)
        here.open(text)
        for number in range(EDITS):
            if number % 10 == 9:
                here.change({'text': text})
            before = here.server.documents[IT].text
            here.change(self.edit(dice, before), version=number)
            whole, seed = here.server.documents[IT].text.whole, dice.random()
            fresh = Here(hints=True)
            fresh.open(whole)
            one, other = self.answers(here, random.Random(seed)), self.answers(fresh, random.Random(seed))
            for mine, its in zip(one, other):
                self.assertEqual(mine, its, f'seed {SEED}, edit {number}:\n{whole}')


if __name__ == '__main__':
    unittest.main()
