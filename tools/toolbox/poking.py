"""A counter's first load, tried with other values: a constant of the source, or bytes of Intel HEX, that a copy has otherwise."""
from __future__ import annotations

import re
from dataclasses import dataclass

from toolbox.command import Sorry, write_text
from toolbox.intel_hex import image_of
from toolbox.listing import listing_of
from toolbox.loading import hex_of
from toolbox.places import address_of
from toolbox.program import Files


@dataclass(frozen=True)
class Count:
    """The constant that is loaded, or the place of the load's low byte, with that of its high byte after a comma; and its values."""

    named: str
    values: range

    def poked(self, files: Files, text: str, value: int, path: str) -> Files:
        """The files with a copy at this path that loads a value."""
        write_text(path, self._in_hex(files, text, value) if files.is_hex else self._in_source(files, text, value))
        return files._replace(file=path)

    def _in_source(self, files: Files, text: str, value: int) -> str:
        """A source in which the constant is another."""
        line = re.compile(rf'^([ \t]*{re.escape(self.named)}[ \t]+EQU[ \t]+)[^;\r\n]*?([ \t]*(?:;.*)?\r?)$', re.M | re.I)
        text, count = line.subn(rf'\g<1>{value}\g<2>', text)
        if count != 1:
            raise Sorry(f'--poke {self.named}: no line "{self.named} EQU .." is in {files.file}; of Intel HEX it names places of bytes')
        return text

    def _in_hex(self, files: Files, text: str, value: int) -> str:
        """Intel HEX with other bytes."""
        image, listing, left = image_of(text), listing_of(files), value
        for place in self.named.split(','):
            address = address_of(listing, place)
            if address not in image:
                raise Sorry(f'--poke {place}: no byte of {files.file} is there')
            image[address], left = left % 256, left // 256
        if left:
            raise Sorry(f'--first-count {value} needs two bytes: --poke LOW,HIGH')
        return hex_of(image)
