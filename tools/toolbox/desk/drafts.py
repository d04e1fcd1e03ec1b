"""Drafts: what was written into a page of tools/desk and isn't saved. They lie in a folder of the user's own, so that they come back
after a crash, a reload, or in another desk."""
from __future__ import annotations

import hashlib
import json
import os
import re
import threading
import time
from dataclasses import dataclass
from typing import Any

from toolbox.command import Sorry, state_folder
from toolbox.writing import own_folder, write_whole

Fields = dict[str, Any]
# Of so many drafts the last texts are at hand, so many of each.
MOST_DRAFTS, MOST_AT_HAND, MOST_TEXTS = 50, 16, 8


@dataclass(frozen=True)
class Change:
    """How a page's text comes from its text with the number `base`, of 0 from nothing: other signs stand in place of the `drop` ones
    `at` a place. Signs are counted as pages do, in words of 16 bits."""

    number: int = 0
    base: int = 0
    at: int = 0
    drop: int = 0

    def made(self, before: str, text: str) -> str:
        """The text that comes of one before, and of what is new."""
        old, new = (each.encode('utf-16-le', 'surrogatepass') for each in (before, text))
        return (old[: 2 * self.at] + new + old[2 * (self.at + self.drop) :]).decode('utf-16-le', 'surrogatepass')


def folder_of_drafts() -> str:
    """Where a user's drafts lie."""
    return os.path.join(state_folder(), 'desk')


class Drafts:
    """The drafts in a folder, each by the full path of the file that it is of, or of none, and by its page."""

    def __init__(self, folder: str) -> None:
        self.folder, self.begun = folder, time.time()
        self.amiss: str | None = None  # why drafts that are there weren't read
        self._lock, self._texts = threading.Lock(), dict[str, dict[int, str]]()

    def _path(self, of: str | None, page: str) -> str:
        """A draft's file."""
        if not re.fullmatch(r'[\w-]{8,64}', page):
            raise Sorry('no draft has this name')
        whose = hashlib.sha256(os.path.realpath(of).encode('utf-8', 'surrogateescape')).hexdigest() if of else 'none'
        return os.path.join(self.folder, f'{whose}.{page}.json')

    def _at_hand(self, path: str) -> dict[int, str]:
        """The last texts of a draft, by their numbers; the last one is what the page has said last."""
        texts = self._texts.pop(path, None)
        if texts is None:
            draft = self._read(path)
            texts = {draft['number']: draft['source']} if draft else {0: ''}
        self._texts[path] = texts
        for old in list(self._texts)[:-MOST_AT_HAND]:
            del self._texts[old]
        return texts

    def keep(self, of: str | None, page: str, draft: Fields, change: Change = Change()) -> int | None:
        """Keeps a page's draft in the place of its last one. Its source says what is new in the text. The oldest of too many go. If
        a later message was here before, or the text from which this one comes isn't at hand, it returns the last number that is, and
        the page sends all of it."""
        path = self._path(of, page)
        with self._lock:
            texts = self._at_hand(path)
            last, before = max(texts), texts.get(change.base) if change.base else ''
            if before is None:
                return last
            source, is_late = change.made(before, draft['source']), 0 < change.number <= last
            if not is_late:
                self._write(path, draft | {'of': of, 'source': source, 'number': change.number, 'time': time.time()})
            texts[change.number] = source
            for old in [number for number in sorted(texts) if number < change.base or number not in sorted(texts)[-MOST_TEXTS:]]:
                del texts[old]
            return last if is_late else None

    def _write(self, path: str, draft: Fields) -> None:
        """Writes a draft, and removes the oldest of too many."""
        try:
            own_folder(self.folder)
            write_whole(path, json.dumps(draft).encode('utf-8', 'surrogatepass'))
            for old in self._all('')[MOST_DRAFTS:]:
                os.remove(old)
        except OSError as error:
            raise Sorry(f"drafts can't be kept in {self.folder}: {error.strerror}; save often") from None

    def drop(self, of: str | None, page: str, number: int = 0) -> None:
        """Forgets a page's draft, if there is one that hasn't come after this number."""
        path = self._path(of, page)
        with self._lock:
            last = max(self._at_hand(path))
            if number and number < last:
                return
            self._texts[path] = {max(number, last): ''}
            try:
                os.remove(path)
            except FileNotFoundError:
                pass
            except OSError as error:
                raise Sorry(f"the draft can't be removed: {error.strerror}") from None

    def one(self, of: str | None, page: str) -> Fields:
        """A draft."""
        found = self._read(self._path(of, page))
        if found is None:
            raise Sorry('this draft is no longer there')
        return found

    def of_file(self, of: str | None) -> list[Fields]:
        """The drafts of a file, or of none, without their texts, the latest first."""
        start = os.path.basename(self._path(of, 'any-page')).partition('.')[0] + '.'
        found = list[Fields]()
        for path in self._all(start):
            draft = self._read(path)
            if draft is not None:
                page = os.path.basename(path).split('.')[1]
                lines = len(draft['source'].removesuffix('\n').split('\n'))
                found.append({'id': page, 'given': of is not None, 'name': draft['name'], 'time': draft['time'], 'lines': lines})
        return found

    def settled(self, of: str | None, source: str, fields: Fields) -> Fields | None:
        """A file's latest draft that says what the file says: its stops are taken with the file. Earlier ones are forgotten."""
        found: Fields | None = None
        for page in [entry['id'] for entry in self.of_file(of)]:
            draft = self.one(of, page)
            if draft['source'] == source.replace('\r\n', '\n') and fields | draft['run'] == fields:
                if found:
                    self.drop(of, page)
                found = found or {'id': page, 'number': draft['number'], 'stops': [stop for stop in draft['stops'] if isinstance(stop, str)]}
        return found

    def _all(self, start: str) -> list[str]:
        """The drafts' files whose names begin so, the latest first."""
        try:
            paths = [
                entry.path
                for entry in os.scandir(self.folder)
                if entry.name.startswith(start) and entry.name.endswith('.json') and not entry.name.startswith('.')
            ]
            return sorted(paths, key=os.path.getmtime, reverse=True)
        except (FileNotFoundError, NotADirectoryError):
            return []
        except OSError as error:
            self._miss(error)
            return []

    def _miss(self, error: OSError) -> None:
        """Notes that what is there can't be read."""
        self.amiss = f"drafts can't be read in {self.folder}: {error.strerror}"

    def _read(self, path: str) -> Fields | None:
        """A draft's fields; None where it is none."""
        try:
            with open(path, 'rb') as file:
                draft = json.loads(file.read().decode('utf-8', 'surrogatepass'))
        except (FileNotFoundError, ValueError):
            return None
        except OSError as error:
            self._miss(error)
            return None
        wanted = {'name': str, 'source': str, 'hex': bool, 'run': dict, 'stops': list, 'time': float, 'number': int}
        draft = {'number': 0} | draft if isinstance(draft, dict) else {}
        return draft if all(isinstance(draft.get(name), kind) for name, kind in wanted.items()) else None
