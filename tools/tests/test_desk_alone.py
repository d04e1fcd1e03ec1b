"""The desk as one page without a server, in headless Chromium: it is opened from a folder that has nothing else, with no network, and does
there what a student does. Without Chromium, or without a library for WebAssembly, it isn't run, and says so.

  python3 -m tests.test_desk_alone FILE     writes the page"""
from __future__ import annotations

import base64
import json
import os
import sys
import tempfile
import time
import zlib
from typing import Any

from tests.browser import CONTROL, Browser, path
from tests.support import EXAMPLES, ToolCase, not_run, only_if

from toolbox.command import Sorry, read_text
from parts import desk_having, desk_page

SHOWN = "[...document.querySelectorAll('#screen>div')].map(it=>it.textContent.trimEnd())"
ENDLESS = 'SEGMENT MAIN AT 0F000h\nstart: INC AX\n JMP SHORT start\nENDS\nSEGMENT RESET AT 0FFFFh\n JMP FAR start\nENDS\n'
# A file of the system as a browser hands it over, which tests put in place of what a user chooses.
HANDLES = (
    'window.written={{}};window.handle=(name,text)=>({{name,getFile:async()=>new File([written[name]??text],name,{{lastModified:1}}),'
    'createWritable:async()=>({{write:async it=>{{written[name]=it}},close:async()=>{{}}}})}});'
    'window.showOpenFilePicker=async()=>[handle("mine.asm",{source}),handle("mine.json",{run})];0'
)
# Notes what the engine is asked from a key on, up to where the screen changes.
ASKED = (
    'window.asked=[];window.shown=[];window.isKey=false;const was=Worker.prototype.postMessage;'
    'Worker.prototype.postMessage=function(it,...more){if(it.question)asked.push(it.question.do);return was.call(this,it,...more)};'
    'const screen=document.getElementById("screen");screen.addEventListener("keydown",()=>{asked=[];isKey=true},true);'
    'new MutationObserver(()=>{if(isKey)shown.push([...asked]);isKey=false}).observe(screen,{childList:true});0'
)


def written(folder: str) -> str:
    """The page, written to a folder that has nothing else; or a sentence."""
    to = os.path.join(folder, 'desk.html')
    with open(to, 'w', encoding='utf-8') as file:
        file.write(desk_page.page_of(desk_page.library(), desk_having.text_of(desk_having.has())))
    return to


def is_run(case: Any) -> bool:
    """Whether the page can be opened; if it can't, that is told."""
    if case.lacking:
        not_run(f'the desk in a page; {case.lacking}')
    return not case.lacking


class Alone(ToolCase):
    """The page in a browser, which the tests share."""

    lacking = '' if path() else 'apt install chromium'
    browser: Browser
    page: str

    @classmethod
    def setUpClass(cls) -> None:
        cls.folder = tempfile.TemporaryDirectory()
        cls.addClassCleanup(cls.folder.cleanup)
        try:
            cls.page = written(cls.folder.name)
        except Sorry as sorry:
            cls.lacking = str(sorry)
        if cls.lacking:
            return
        cls.browser = Browser(cls.folder.name)
        cls.addClassCleanup(cls.browser.close)
        cls.browser.call('Network.emulateNetworkConditions', offline=True, latency=0, downloadThroughput=0, uploadThroughput=0)

    def open(self, link: str = '') -> None:
        """Opens the page anew."""
        self.browser.run('onbeforeunload=null')
        self.browser.open('about:blank')
        self.browser.events.clear()
        self.browser.open(f'file://{self.page}{link}')
        self.until("document.querySelectorAll('#example option').length>5")

    def until(self, script: str) -> Any:
        """Waits for an expression of the page."""
        return self.browser.until(script)

    def text(self, name: str) -> str:
        """An element's text."""
        return self.browser.run(f'document.getElementById({json.dumps(name)}).textContent')

    def stands_at(self, clock: int) -> None:
        """Waits until the board stands at a clock, and nothing is under way."""
        self.until(f"document.getElementById('now').textContent==='clock {clock:,}'&&!document.body.classList.contains('on')")

    def example(self, name: str) -> None:
        """Chooses an example."""
        self.browser.run(f"(it=>{{it.value={json.dumps(name)};it.dispatchEvent(new Event('change'))}})(document.getElementById('example'))")
        self.until(f"document.getElementById('name').textContent==={json.dumps(name.split('/')[-1] + '.asm')}")

    def write(self, text: str) -> None:
        """Writes a source, as a hand does."""
        self.browser.run("document.getElementById('source').focus();document.getElementById('source').select()")
        self.browser.call('Input.insertText', text=text)

    def screen(self) -> list[str]:
        """The screen's lines that have something."""
        return [line for line in self.browser.run(SHOWN) if line]

    @only_if(is_run)
    def test_opens_assembles_and_goes_forth_and_back(self) -> None:
        """From a file and without network it runs an example, and steps, stops and goes back; nothing else is asked for, and nothing is
        amiss."""
        self.open()
        self.stands_at(10_000)
        self.assertEqual(self.screen(), ['Hello from RAM'])
        self.browser.click('#back')
        self.stands_at(1859)
        self.browser.click('#step')
        self.stands_at(1861)
        self.browser.click('#start')
        self.stands_at(0)
        self.assertEqual(self.screen(), [])
        self.browser.run("document.getElementById('tab-stops').click();document.getElementById('stop-place').value=':26'")
        self.browser.click('#stop-add')
        self.until("document.getElementById('stop-list').textContent.includes('line 26')")
        self.browser.click('#run')
        self.stands_at(1859)
        self.browser.run("document.getElementById('go').focus();document.getElementById('to').value='9000'")
        self.browser.click('#go')
        self.stands_at(9000)
        self.browser.click('#last')
        self.stands_at(1859)
        asked = [event['params']['request']['url'][:40] for event in self.browser.events if event['method'] == 'Network.requestWillBeSent']
        self.assertEqual([url for url in asked if not url.startswith(('file:', 'blob:', 'data:'))], [])
        amiss = [event for event in self.browser.events if event['method'] in ('Runtime.exceptionThrown', 'Log.entryAdded')]
        self.assertEqual(amiss, [])

    @only_if(is_run)
    def test_refuses_with_hints(self) -> None:
        """A refused line is shown with what to do."""
        self.open()
        self.stands_at(10_000)
        self.write('SEGMENT MAIN AT 50h\nstart: MOV AX,0x10\nENDS\n')
        self.browser.press('Enter', CONTROL)
        self.until("document.getElementById('refusals').textContent.includes('hexadecimal numbers end with h')")

    @only_if(is_run)
    def test_types_keys_live(self) -> None:
        """Keys that are typed at the screen reach a program that runs, which shows them by the first piece that it runs then; and Run
        after an edit runs from the start."""
        self.open()
        self.example('keys')
        self.stands_at(10_000)
        self.write(read_text(f'{EXAMPLES}/keys.asm') + '\n; changed\n')
        self.browser.run("document.getElementById('f-budget').value='1000'")
        self.browser.click('#run')
        self.until("document.getElementById('run').textContent==='Pause'")
        self.until(f"{SHOWN}.join('').startsWith('HELLO')")
        self.browser.run("document.getElementById('screen').focus()")
        for name in 'abc':
            self.browser.press(name)
        self.until(f"{SHOWN}.join('').startsWith('HELLOABC')")
        self.browser.run(ASKED)
        for n, name in enumerate('defgh'):
            self.browser.press(name)
            asked = self.until(f"window.shown.length>{n}&&window.shown[{n}]")
            self.assertEqual(asked[asked.index('type') :].count('run'), 1, asked)
            time.sleep(0.3 * (n % 2))
        self.browser.click('#run')
        self.until("document.getElementById('run').textContent==='Run'")

    @only_if(is_run)
    def test_runs_textbooks(self) -> None:
        """A program with services, and one of MASM, which is translated in the page."""
        self.open()
        self.example('books/hello')
        self.until(f"{SHOWN}.join('').includes('Hello, world!')")
        self.write(
            '.model small\n.stack 100h\n.data\nmsg db "Of MASM$"\n.code\nmain proc\n  mov ax,@data\n  mov ds,ax\n  mov ah,9\n'
            '  mov dx,offset msg\n  int 21h\n  mov ax,4c00h\n  int 21h\nmain endp\nend main\n'
        )
        self.browser.press('Enter', CONTROL)
        self.until(f"{SHOWN}.join('').includes('Of MASM')")

    @only_if(is_run)
    def test_saves_and_opens_again(self) -> None:
        """Files of the system are opened by their handles, written, and opened again; and what is offered for download is the same text."""
        self.open()
        self.stands_at(10_000)
        source, run = read_text(f'{EXAMPLES}/ticks.asm'), read_text(f'{EXAMPLES}/ticks.json')
        self.browser.run(HANDLES.format(source=json.dumps(source), run=json.dumps(run)))
        self.browser.click('#open')
        self.until("document.getElementById('name').textContent==='mine.asm'")
        self.browser.run("document.getElementById('source').focus();document.getElementById('source').setSelectionRange(0,0)")
        self.browser.call('Input.insertText', text='; mine\n')
        self.browser.press('s', CONTROL)
        self.assertEqual(self.until("window.written['mine.asm']"), f'; mine\n{source}')
        self.assertEqual(json.loads(self.until("window.written['mine.json']")), json.loads(run))
        self.browser.click('#save')
        self.browser.run("document.querySelector('#saving form button').click()")
        self.browser.click('#open')
        self.until("document.getElementById('source').value.startsWith('; mine')&&document.getElementById('unsaved').textContent===''")

    @only_if(is_run)
    def test_a_link_runs_nothing_before_it_is_shown(self) -> None:
        """A link holds program, keys and stops; who opens it sees them, and nothing has run."""
        self.open()
        self.example('keys')
        self.stands_at(10_000)
        self.browser.click('#save')
        self.browser.click('#link')
        link = self.until("document.getElementById('link-text').value")
        self.assertLess(len(link), 6000)
        self.open(link[link.index('#') :])
        self.until("document.getElementById('source').value.length>0")
        self.assertEqual((self.text('name'), self.text('now')), ('keys.asm', 'clock 0'))
        self.assertIn('came with the link', self.text('said'))
        self.assertEqual(self.screen(), [])
        self.browser.click('#assemble')
        self.stands_at(10_000)
        self.assertEqual(self.screen(), ['HELLO'])

    @only_if(is_run)
    def test_strangers_links(self) -> None:
        """One that has no program, or unpacks to very much, is refused in a sentence; an endless program can be paused."""
        bomb = zlib.compressobj(9, zlib.DEFLATED, -15)
        octets = bomb.compress(b'{"name":"' + b'x' * 50_000_000) + bomb.flush()
        for text in ('nothing', 'AAAA', base64.urlsafe_b64encode(octets).decode().rstrip('=')):
            self.open(f'#{text}')
            self.until("document.getElementById('now').textContent!=='clock 0'")
            self.stands_at(10_000)
        run = {'version': 1, 'ram': 64, 'sw1': 0, 'sw2': 0, 'budget': 1 << 40, 'keys': []}
        held = {'name': 'endless.asm', 'source': ENDLESS, 'run': run, 'stops': [], 'hex': False}
        packed = zlib.compress(json.dumps(held).encode(), wbits=-15)
        self.open('#' + base64.urlsafe_b64encode(packed).decode().rstrip('='))
        self.until("document.getElementById('source').value.length>0")
        self.assertEqual(self.text('now'), 'clock 0')
        self.browser.click('#assemble')
        self.until("document.body.classList.contains('on')&&document.getElementById('said').textContent.includes('Pause ends it')")
        self.browser.click('#run')
        self.until("!document.body.classList.contains('on')")
        self.assertNotEqual(self.text('now'), 'clock 0')

    @only_if(is_run)
    def test_reaches_nothing_but_the_page(self) -> None:
        """Its policy lets neither the page nor the Worker reach a network, and no other script run."""
        self.open()
        self.stands_at(10_000)
        tried = "fetch('https://example.org/').then(()=>'reached',()=>'refused')"
        self.assertEqual(self.browser.run(tried), 'refused')
        script = "(it=>{it.textContent='window.strange=true';document.body.append(it)})(document.createElement('script'));String(window.strange)"
        self.assertEqual(self.browser.run(script), 'undefined')
        text = json.dumps(f'{tried}.then(postMessage)')
        worker = f'new Promise(go=>{{const it=new Worker(URL.createObjectURL(new Blob([{text}])));it.onmessage=m=>go(m.data)}})'
        self.assertEqual(self.browser.run(worker), 'refused')


if __name__ == '__main__':
    with tempfile.TemporaryDirectory() as folder:
        os.replace(written(folder), sys.argv[1])
