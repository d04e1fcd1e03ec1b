"""A headless Chromium, driven by its own protocol over two pipes."""
from __future__ import annotations

import base64
import fcntl
import json
import os
import select
import shutil
import signal
import subprocess
import sys
import time
from typing import Any

from tests.support import SECONDS

# Of each key that the tests press: its name, its place, its number for Windows, and what it types.
KEYS: dict[str, tuple[str, str, int, str]] = {
    'Enter': ('Enter', 'Enter', 13, '\r'),
    'Tab': ('Tab', 'Tab', 9, ''),
    'ArrowLeft': ('ArrowLeft', 'ArrowLeft', 37, ''),
    'ArrowRight': ('ArrowRight', 'ArrowRight', 39, ''),
    'ArrowUp': ('ArrowUp', 'ArrowUp', 38, ''),
    'ArrowDown': ('ArrowDown', 'ArrowDown', 40, ''),
    'Home': ('Home', 'Home', 36, ''),
    'End': ('End', 'End', 35, ''),
    'Space': (' ', 'Space', 32, ' '),
    'Escape': ('Escape', 'Escape', 27, ''),
    '/': ('/', 'Slash', 191, '/'),
    **{f'F{n}': (f'F{n}', f'F{n}', 111 + n, '') for n in range(1, 13)},
    **{letter: (letter, f'Key{letter.upper()}', ord(letter.upper()), letter) for letter in 'abcdefghijklmnopqrstuvwxyz'},
}
CONTROL, SHIFT = 2, 8
# Chromium reads its commands from file descriptor 3, and writes answers to 4.
START = 'import os, sys; os.dup2(int(sys.argv[1]), 3); os.dup2(int(sys.argv[2]), 4); os.execvp(sys.argv[3], sys.argv[3:])'


def path() -> str | None:
    """Chromium, or None where it isn't installed."""
    return next((found for name in ('chromium', 'chromium-browser', 'google-chrome') if (found := shutil.which(name))), None)


class Browser:
    """One browser, of which one tab is looked at."""

    def __init__(self, room: str) -> None:
        to_browser, self._write = os.pipe()
        self._read, from_browser = os.pipe()
        ends = [fcntl.fcntl(end, fcntl.F_DUPFD, 20) for end in (to_browser, from_browser)]
        words = [
            path() or '',
            '--headless',
            '--no-sandbox',
            '--disable-gpu',
            '--no-first-run',
            '--disable-extensions',
            '--mute-audio',
            '--disable-background-networking',
            '--disable-dev-shm-usage',
            '--force-color-profile=srgb',
            '--hide-scrollbars',
            '--autoplay-policy=no-user-gesture-required',
            '--remote-debugging-pipe',
            f'--user-data-dir={room}/browser',
        ]
        self.process = subprocess.Popen(
            [sys.executable, '-S', '-c', START, *map(str, ends), *words],
            pass_fds=ends,
            stdin=subprocess.DEVNULL,
            stdout=subprocess.DEVNULL,
            stderr=subprocess.DEVNULL,
            start_new_session=True,
            env=os.environ | {'HOME': room},
        )
        for descriptor in (to_browser, from_browser, *ends):
            os.close(descriptor)
        self._kept, self._count = b'', 0
        self._session: str | None = None
        self.events = list[dict[str, Any]]()
        self.tab()

    def tab(self) -> None:
        """A new tab, to which all goes from now on."""
        self._session = None
        target = self.call('Target.createTarget', url='about:blank')['targetId']
        self._session = self.call('Target.attachToTarget', targetId=target, flatten=True)['sessionId']
        for domain in ('Page', 'Runtime', 'Network', 'Log'):
            self.call(f'{domain}.enable')
        self.call('Performance.enable', timeDomain='threadTicks')

    def close(self) -> None:
        """Ends it."""
        os.killpg(self.process.pid, signal.SIGKILL)
        self.process.wait()
        os.close(self._write)
        os.close(self._read)

    def _message(self, deadline: float) -> dict[str, Any]:
        """The next message."""
        while b'\0' not in self._kept:
            if not select.select([self._read], [], [], max(0, deadline - time.monotonic()))[0]:
                raise TimeoutError('the browser answers nothing')
            part = os.read(self._read, 1 << 16)
            if not part:
                raise EOFError('the browser has ended')
            self._kept += part
        text, _, self._kept = self._kept.partition(b'\0')
        return json.loads(text)

    def call(self, method: str, **fields: Any) -> dict[str, Any]:
        """Calls a method of the browser's protocol; what it tells on the way is kept."""
        self._count += 1
        message: dict[str, Any] = {'id': self._count, 'method': method, 'params': fields}
        if self._session:
            message['sessionId'] = self._session
        os.write(self._write, json.dumps(message).encode() + b'\0')
        deadline = time.monotonic() + SECONDS
        while True:
            answer = self._message(deadline)
            if answer.get('id') == self._count:
                assert 'error' not in answer, (method, answer)
                return answer['result']
            self.events.append(answer)

    def run(self, script: str) -> Any:
        """The value of an expression in the page, which may use the names that its modules export, once they are `named`."""
        found = self.call('Runtime.evaluate', expression=f'with(globalThis.named??{{}}){{{script}}}', awaitPromise=True, returnByValue=True)
        assert 'exceptionDetails' not in found, (script, found)
        return found['result'].get('value')

    def until(self, script: str) -> Any:
        """Waits until an expression is true, and returns it. The longer it takes, the less often it is asked for."""
        deadline, pause = time.monotonic() + SECONDS, 0.02
        while not (found := self.run(script)):
            assert time.monotonic() < deadline, (script, self.run("document.querySelector('#said')?.textContent"))
            time.sleep(pause)
            pause = min(1.1 * pause, 0.1)
        return found

    def open(self, address: str, width: int = 1280, height: int = 720, is_dark: bool = False) -> None:
        """Opens a page in a window of this size."""
        self.window(width, height, is_dark)
        self.call('Page.navigate', url=address)

    def window(self, width: int, height: int, is_dark: bool = False) -> None:
        """Another size, or other colours."""
        self.call('Emulation.setDeviceMetricsOverride', width=width, height=height, deviceScaleFactor=1, mobile=width < 600)
        self.call('Emulation.setEmulatedMedia', features=[{'name': 'prefers-color-scheme', 'value': 'dark' if is_dark else 'light'}])
        self.drawn()

    def drawn(self) -> None:
        """Waits until what was changed is laid out and drawn, and what the page's observers make of it too."""
        self.run('new Promise(it=>requestAnimationFrame(()=>requestAnimationFrame(()=>requestAnimationFrame(it))))')

    def thread_seconds(self, what: str = 'TaskDuration') -> float:
        """The processor time of the page's thread, of all that it does or of its script."""
        return {metric['name']: metric['value'] for metric in self.call('Performance.getMetrics')['metrics']}[what]

    def press(self, name: str, modifiers: int = 0) -> None:
        """A key, down and up."""
        key, code, number, text = KEYS[name]
        shared = {'key': key, 'code': code, 'windowsVirtualKeyCode': number, 'modifiers': modifiers}
        typed = {'text': text} if text and not modifiers & CONTROL else {}
        self.call('Input.dispatchKeyEvent', type='keyDown' if typed else 'rawKeyDown', **shared, **typed)
        self.call('Input.dispatchKeyEvent', type='keyUp', **shared)

    def middle(self, selector: str) -> tuple[float, float]:
        """Where the middle of an element is, brought into sight."""
        x, y = self.run(
            f'(()=>{{const it=document.querySelector({json.dumps(selector)});it.scrollIntoView({{block:"nearest"}});'
            'const r=it.getBoundingClientRect();return [r.x+r.width/2,r.y+r.height/2]})()'
        )
        return x, y

    def mouse(self, kind: str, x: float, y: float) -> None:
        """Its left button, pressed or released at a place."""
        self.call('Input.dispatchMouseEvent', type=kind, x=x, y=y, button='left', clickCount=1)

    def click(self, selector: str) -> None:
        """A click into the middle of an element."""
        place = self.middle(selector)
        for kind in ('mousePressed', 'mouseReleased'):
            self.mouse(kind, *place)

    def picture(self, to: str, **fields: Any) -> None:
        """A picture of the window."""
        with open(to, 'wb') as file:
            file.write(base64.b64decode(self.call('Page.captureScreenshot', **fields)['data']))
