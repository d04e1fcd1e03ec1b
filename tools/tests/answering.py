"""A process that answers questions by the library, c/benches/answers.c or answers.mjs, one after another in the place of a process
for each."""
from __future__ import annotations

import subprocess
from typing import Sequence

Answer = tuple[int, bytes, bytes]


class Answerer:
    """Such a process."""

    def __init__(self, command: Sequence[str]) -> None:
        self._process = subprocess.Popen(command, stdin=subprocess.PIPE, stdout=subprocess.PIPE)

    def ask(self, kind: str, *texts: bytes) -> Answer:
        """What it answers to a question: a kind, and four texts, as c/benches/answers.c has them."""
        asked, answered = self._process.stdin, self._process.stdout
        assert asked and answered
        asked.write(f'{kind} {" ".join(str(len(each)) for each in texts)}\n'.encode() + b''.join(texts))
        asked.flush()
        status, out, err = map(int, answered.readline().split())
        return status, answered.read(out), answered.read(err)

    def run(self, words: Sequence[bytes], files: dict[bytes, bytes], given: bytes) -> Answer:
        """How pcboard ends on words. Those that name files are FILE and RUN there."""
        names = [word for word in dict.fromkeys(words) if word in files][:2]
        short = dict(zip(names, (b'FILE', b'RUN')))
        file, run = (*(files[name] for name in names), b'', b'')[:2]
        return self.ask('pcboard', b''.join(short.get(word, word) + b'\n' for word in words), file, run, given)

    def close(self) -> int:
        """Ends it, and returns its status."""
        self._process.communicate()
        return self._process.returncode
