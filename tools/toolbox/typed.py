"""What was typed at a tool's prompt, for the sessions that follow: lines in a file of the user's own, which is written whole."""
from __future__ import annotations

import os

from toolbox.command import state_folder
from toolbox.locks import turn
from toolbox.reading import read_whole
from toolbox.writing import own_folder, write_whole

MOST = 1000  # lines


def place_of(name: str) -> str:
    """The file of a tool of this name: below $XDG_STATE_HOME, or ~/.local/state."""
    return os.path.join(state_folder(), name, 'history')


def typed_before(name: str) -> list[str]:
    """The lines, the last one last. OSError tells why they can't be read."""
    try:
        octets = read_whole(place_of(name))
    except FileNotFoundError:
        return []
    return [line for line in octets.decode('utf-8', 'surrogateescape').split('\n') if line]


def keep_typed(name: str, line: str) -> None:
    """Adds a line, after those that other sessions add meanwhile; the oldest one goes. OSError tells why it isn't kept."""
    folder = os.path.dirname(place_of(name))
    own_folder(folder)
    with turn(folder):
        lines = [*typed_before(name), line][-MOST:]
        write_whole(place_of(name), ''.join(f'{each}\n' for each in lines).encode('utf-8', 'surrogateescape'), mode=0o600)
