"""The files whose lines an editor shows: where they stand, or what they say if none is there; and whether one was edited since the launch."""
from __future__ import annotations

import os
from typing import Any
from urllib.parse import quote, unquote

from toolbox.hex_lines import is_of, text_of_lines
from toolbox.listing import Listing
from toolbox.reading import read_whole

Fields = dict[str, Any]
Kept = tuple[int, int, bytes]  # a file's time, size and bytes


def path_in(text: str) -> str:
    """A path, which may be given as a URI."""
    return unquote(text.removeprefix('file://')) if text.startswith('file://') else text


def kept(path: str) -> Kept | None:
    """A file as it is, or None if it can't be read."""
    try:
        at = os.stat(path)
        return at.st_mtime_ns, at.st_size, read_whole(path)
    except OSError:
        return None


class Sources:
    """The sources of a launch, as lines name them: a path, or a bare name, for which the launch may name files and folders."""

    def __init__(self, program: str, listing: Listing, places: list[str], has_uris: bool) -> None:
        self._listing, self._has_uris, self._names = listing, has_uris, [*listing.files] or ['']
        self._paths = {one: program if not one else one if os.path.isabs(one) else self._found(one, places) for one in self._names}
        self._kept = {path: found for path in {program, *self._paths.values()} if path and (found := kept(path))}

    def _found(self, name: str, places: list[str]) -> str:
        """The file of a bare name, among the places that the launch names."""
        paths = [os.path.join(one, name) if os.path.isdir(one) else one for one in places]
        lines = self._listing.files[name]
        is_fit = (lambda one: is_of(one, lines)) if self._listing.lines else (lambda one: os.path.basename(one) == name)
        return next((one for one in paths if os.path.isfile(one) and is_fit(one)), '')

    def described(self, name: str) -> Fields:
        """A source as the protocol has it. Of one that isn't there the client asks the text."""
        path = self._paths[name]
        if not path:
            return {'name': name, 'sourceReference': self._names.index(name) + 1, 'origin': 'the listing'}
        return {'name': os.path.basename(path), 'path': f'file://{quote(path)}' if self._has_uris else path}

    def named(self, given: Fields) -> str | None:
        """Which source a client means, if it is one."""
        number, path = given.get('sourceReference'), given.get('path')
        if isinstance(number, int) and 0 < number <= len(self._names):
            return self._names[number - 1]
        real = os.path.realpath(path_in(path)) if isinstance(path, str) and path else ''
        return next((one for one, at in self._paths.items() if at and os.path.realpath(at) == real), None)

    def unlike(self, given: Fields) -> str:
        """Why a client's source is none of them."""
        name = os.path.basename(str(given.get('path', '')))
        if name in self._names:
            return f"{name} isn't the text of the listing: assemble it again"
        return 'this file is not the program that runs'

    def text(self, number: int) -> str | None:
        """What a source says, as far as its listing has it."""
        return text_of_lines(self._listing.files[self._names[number - 1]]) if 0 < number <= len(self._names) and self._listing.files else None

    def edited(self) -> list[str]:
        """The files that say something else than at the launch, or than when this was told of them."""
        found = list[str]()
        for path, (time, size, octets) in list(self._kept.items()):
            try:
                at = os.stat(path)
            except OSError:
                continue
            now = kept(path) if (at.st_mtime_ns, at.st_size) != (time, size) else None
            if now:
                self._kept[path] = now
                found += [path] if now[2] != octets else []
        return found
