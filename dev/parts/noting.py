"""The launcher's note of a program that it has compared, with failures around it: a command that it calls fails, answers half, or is where
its process ends; the note's file takes no more bytes; and what the disk has of it after a power failure is a part. Bash calls the
system by itself, so commands stand in for those on the path, and the kernel's own limit stops the writing."""
from __future__ import annotations

import os
import resource
import shutil
import signal
import subprocess
import tempfile
from dataclasses import dataclass

TOP = os.path.dirname(os.path.dirname(os.path.dirname(os.path.realpath(__file__))))
COMMANDS = ('awk', 'cat', 'dirname', 'env', 'find', 'mkdir', 'mktemp', 'mv', 'readlink', 'rm', 'sha256sum', 'sort', 'xargs')
LENGTHS = 16  # at which a note is cut
WORDS = ['run', f'{TOP}/examples/first.asm', f'{TOP}/examples/first.json']
SECONDS = 120
# What a command does that stands in for another one: `at` the nth call of all it fails by FAILS.
STAND_IN = '''#!/bin/sh
echo NAME >> "$COUNTED"
if [ "$(/usr/bin/wc -l < "$COUNTED")" = "$FAILS_AT" ]; then
    case "$FAILS" in
    kill) kill -9 0 ;;
    short) REAL "$@" > "$COUNTED.out"; /usr/bin/head -c $(($(/usr/bin/wc -c < "$COUNTED.out") / 2)) "$COUNTED.out" ;;
    esac
    echo "NAME: Input/output error" >&2
    exit 1
fi
exec REAL "$@"
'''


@dataclass(frozen=True)
class Started:
    """How a start ended."""

    status: int
    out: str
    err: str

    def is_amiss(self, whole: Started) -> bool:
        """Whether it is neither the whole answer, nor a failure that says so."""
        return (self.status, self.out) != (whole.status, whole.out) and not (self.status > 0 and self.err.strip())


class Launcher:
    """The launcher over a folder of its own for notes, with commands that stand in for others. Rattle isn't on its path, so that it
    builds nothing."""

    def __init__(self, room: str) -> None:
        self.room, self.notes = room, f'{room}/cache/zebludor'
        os.makedirs(f'{room}/bin')
        folders = [folder for folder in os.environ['PATH'].split(':') if folder and not os.path.exists(f'{folder}/rt')]
        self.path = ':'.join([f'{room}/bin', *folders])
        for name in COMMANDS:
            with open(f'{room}/bin/{name}', 'w', encoding='ascii') as file:
                file.write(STAND_IN.replace('NAME', name).replace('REAL', shutil.which(name, path=':'.join(folders)) or f'/usr/bin/{name}'))
            os.chmod(file.name, 0o755)

    def start(self, how: str = '', at: int = 0, longest: int = -1) -> Started:
        """A start, in which a command may fail, or files may have so many bytes at most."""
        with open(f'{self.room}/counted', 'w', encoding='ascii'):
            pass
        env = {name: value for name, value in os.environ.items() if name not in ('PCBOARD', 'PCPROBE')}
        env |= {'PATH': self.path, 'XDG_CACHE_HOME': f'{self.room}/cache', 'COUNTED': f'{self.room}/counted', 'FAILS': how, 'FAILS_AT': str(at)}

        def limit() -> None:
            signal.signal(signal.SIGXFSZ, signal.SIG_DFL if how == 'kill' else signal.SIG_IGN)
            if longest >= 0:
                resource.setrlimit(resource.RLIMIT_FSIZE, (longest, longest))

        ran = subprocess.run(
            [f'{TOP}/pcboard', *WORDS],
            env=env,
            capture_output=True,
            text=True,
            stdin=subprocess.DEVNULL,
            check=False,
            start_new_session=True,
            preexec_fn=limit,  # pylint: disable=subprocess-popen-preexec-fn
            timeout=SECONDS,
        )
        return Started(ran.returncode, ran.stdout, ran.stderr)

    def called(self) -> list[str]:
        """The commands that the last start has called."""
        with open(f'{self.room}/counted', encoding='ascii') as file:
            return file.read().split()

    def note(self) -> str:
        """Where the note is; nothing if there is none."""
        return next((entry.path for entry in os.scandir(self.notes) if entry.name.startswith('compared-')), '') if os.path.isdir(self.notes) else ''

    def forget(self) -> None:
        """Begins without a note. That the programs were proved elsewhere has been said before."""
        for entry in os.scandir(self.notes) if os.path.isdir(self.notes) else ():
            if not entry.name.startswith('told'):
                os.remove(entry.path)


def fail_each(hows: list[str]) -> tuple[int, list[str]]:
    """Makes each command fail, and the writing stop after some lengths: how many starts there were, and what was found of them and of
    the starts that follow."""
    with tempfile.TemporaryDirectory() as room:
        launcher = Launcher(room)
        launcher.start()
        whole, finds, count = launcher.start(), list[str](), 0
        launcher.forget()
        launcher.start()
        calls, length = launcher.called(), os.path.getsize(launcher.note() or os.devnull)
        ways = dict.fromkeys(how if how in ('kill', 'short') else 'fails' for how in hows)
        fails = [(f'command {at} ({calls[at - 1]}), {how}', how, at, -1) for how in ways for at in range(1, len(calls) + 1)]
        lengths = range(0, length, max(length // LENGTHS, 1))
        fails += [(f'no more than {longest} bytes, {how}', how, 0, longest) for how in {'kill', 'ENOSPC'} & {*hows} for longest in lengths]
        for said, *words in fails:
            launcher.forget()
            found = after(launcher, launcher.start(*words), whole)
            count += 1
            finds += [f'{said}: {found}'] if found else []
        more = cut_each(launcher, lengths, whole)
        return count + len(lengths), finds + more


def after(launcher: Launcher, ended: Started, whole: Started) -> str:
    """What is wrong with a start, or with the next one, in which nothing fails."""
    if ended.status != -signal.SIGKILL and ended.status != -signal.SIGXFSZ and ended.is_amiss(whole):
        return f'status {ended.status}, {ended.err.strip()[-200:] or "without a word"}'
    following = launcher.start()
    if following != whole:
        return f'the next start: status {following.status}, {following.err.strip()[-200:]}'
    left = [name for name in os.listdir(launcher.notes) if name.startswith('note-')]
    return f'{", ".join(left)} stays' if left else ''


def cut_each(launcher: Launcher, lengths: range, whole: Started) -> list[str]:
    """What is found of a note that the disk has lost a part of."""
    launcher.start()
    if not (path := launcher.note()):
        return ['there is no note']
    with open(path, 'rb') as file:
        octets = file.read()
    finds = []
    for length in lengths:
        for rest in (b'', b'\0' * (len(octets) - length)):
            with open(path, 'wb') as file:
                file.write(octets[:length] + rest)
            if launcher.start() != whole:
                finds.append(f'a note of which {length} bytes are left: another answer')
    return finds
