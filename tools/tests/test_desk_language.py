"""What the desk's editor tells of its text: by its engine under node, and in Chromium, if these are installed."""
from __future__ import annotations

import unittest
from typing import Any

from tests.browser import CONTROL
from tests.desk_engine import Engine, lacking, with_node
from tests.support import ToolCase, not_run
from tests.test_desk_page import Page

SOURCE = 'SEGMENT MAIN AT 50h\nstart:  MOV AL,34h\n        OUT 43h,AL\nENDS\n'


@with_node
class Questions(unittest.TestCase):
    """Without a page."""

    def test_each(self) -> None:
        engine = Engine()
        self.addCleanup(engine.close)

        def answer(what: str, source: str, line: int, column: int) -> Any:
            return engine.ask({'do': 'language', 'what': what, 'source': source, 'line': line, 'column': column})

        self.assertEqual(answer('refused', SOURCE, 0, 0), {'refused': []})
        wrong = SOURCE.replace('MOV', 'MVO')
        self.assertEqual(answer('refused', wrong, 0, 0), {'refused': [{'line': 2, 'text': 'is MOV meant?'}]})
        hover = answer('hover', SOURCE, 2, 9)['html']
        for text in ('<code>0050:0002 E643</code>', '<p>Clocks by C1: 10</p>', 'counter 0, both bytes, mode 2', '<td>OUT DX,AL</td>'):
            self.assertIn(text, hover)
        self.assertEqual(answer('hover', SOURCE, 3, 9), {'html': ''})
        self.assertIn('43h', [item['label'] for item in answer('completion', SOURCE, 2, 12)['items']])
        self.assertNotIn('<b>', answer('hover', SOURCE.replace('43h', "'<b>'"), 2, 15)['html'])
        self.assertIn('error', answer('hover', SOURCE, 1 << 40, 0))


class InTheBrowser(ToolCase):
    """On the page."""

    def test_underlined_told_and_completed(self) -> None:
        if why := lacking():
            not_run(f'the words of tools/desk in a browser; {why}')
            return
        page = Page(self.room)
        self.addCleanup(page.close)
        page.open()
        browser = page.browser
        page.write(SOURCE.replace('MOV', 'MVO'))
        browser.until("document.querySelector('#ink .refused')?.textContent.trim()==='start:  MVO AL,34h'")
        self.assertTrue(browser.run("$('refusals').hidden"))  # which stand there after Assemble
        page.write(SOURCE)
        browser.until("document.querySelector('#ink .refused')===null")
        browser.run("$('source').setSelectionRange(52,52);0")
        browser.press('F1')
        browser.until("!$('meaning').hidden")
        self.assertIn('counter 0, both bytes, mode 2', browser.run("$('meaning').textContent"))
        browser.press('Escape')
        self.assertTrue(browser.run("$('meaning').hidden"))
        browser.run("[...document.querySelectorAll('#ink .constant-numeric')].find(it=>it.textContent==='34h').id='there';0")
        x, y = browser.middle('#there')
        browser.call('Input.dispatchMouseEvent', type='mouseMoved', x=x, y=y)
        browser.until("!$('meaning').hidden")
        self.assertIn('is 34h, 52', browser.run("$('meaning').textContent"))
        page.write('SEGMENT MAIN AT 50h\nst')
        browser.press('Space', CONTROL)
        browser.until("!$('choices').hidden")
        self.assertEqual(browser.run("[...$('choices').children].map(it=>it.dataset.label)")[:3], ['stc', 'std', 'sti'])
        browser.press('ArrowDown')
        browser.press('Enter')
        self.assertEqual(browser.run("[$('source').value,$('choices').hidden]"), ['SEGMENT MAIN AT 50h\nstd', True])
        self.assertEqual([event for event in browser.events if event.get('method') in ('Runtime.exceptionThrown', 'Log.entryAdded')], [])


if __name__ == '__main__':
    unittest.main()
