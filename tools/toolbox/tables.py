"""Tables that other languages read too, as the desk's page does: files of JSON in this folder, by their names."""
from __future__ import annotations

import functools
import json
import os
from typing import Any

FOLDER = os.path.dirname(os.path.realpath(__file__))


@functools.cache
def tables(name: str) -> Any:
    """What a file has."""
    with open(f'{FOLDER}/{name}.json', encoding='utf-8') as file:
        return json.load(file)
