"""What the tools beside the program share: running it, its sessions, its texts. Nothing here decides a fact: each comes
from what the program prints. What programs of others do with it too is python/zebludor.py's."""
import os
import signal
import sys
from typing import Any

sys.path.append(os.path.join(os.path.dirname(os.path.dirname(os.path.dirname(os.path.realpath(__file__)))), 'python'))
# What Python's modules os and signal lack on Windows, and some of it on macOS, in a form that does nothing, so that nobody has to ask at
# each use. There no file is opened without waiting or by a folder's handle, all files are the user's, and these signals never come.
OF_OS: dict[str, Any] = {name: 0 for name in ('O_DIRECTORY', 'O_NOCTTY', 'O_NOFOLLOW', 'O_NONBLOCK', 'O_PATH', 'O_TMPFILE')}
OF_OS |= {
    'O_CLOEXEC': getattr(os, 'O_BINARY', 0),  # without which Windows changes line ends
    'geteuid': lambda: 0,
    'killpg': os.kill,
    'listxattr': lambda _: [],
    'sched_getaffinity': lambda _: range(os.cpu_count() or 1),
    'set_blocking': lambda *_: None,
}
OF_SIGNAL: dict[str, Any] = {name: signal.SIGTERM for name in ('SIGALRM', 'SIGHUP', 'SIGKILL')}
OF_SIGNAL |= {'ITIMER_REAL': 0, 'setitimer': lambda *_: None}
for module, names in ((os, OF_OS), (signal, OF_SIGNAL)):
    for name, value in names.items():
        vars(module).setdefault(name, value)
