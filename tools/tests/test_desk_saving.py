"""What is written into a page of tools/desk isn't lost: it is saved as it stands, over nothing that another hand has written, and is a
draft until then. By requests, and in headless Chromium; without that its part isn't run, and says so."""
from __future__ import annotations

import concurrent.futures as futures
import fcntl
import glob
import json
import os
import signal
import stat
import tempfile
import time
import unittest
from typing import Any, Callable
from unittest import mock

from tests import test_desk
from tests.browser import CONTROL, Browser
from tests.desk_engine import lacking
from tests.support import SECONDS, ToolCase, not_run, until
from tests.test_desk import FOREVER, RUN, Fields
from tests.test_desk_page import Page
from tests.test_writing import full_disk

from toolbox import writing
from toolbox.desk import drafts, files
from toolbox.desk.drafts import MOST_DRAFTS
from toolbox.desk.files import Given, Kept, with_ends
from toolbox.desk.words import Desk
from toolbox.report import report_of
from toolbox.runfile import text_of

LATER = FOREVER.replace('INC', 'DEC')
BROKEN = FOREVER.replace('INC AX', 'INC no such thing')


def octets_in(name: str) -> bytes:
    """A file's bytes."""
    with open(name, 'rb') as file:
        return file.read()


class Files(test_desk.Served):
    """What is written, and over what."""

    def setUp(self) -> None:
        super().setUp()
        self.folder = tempfile.TemporaryDirectory()
        self.addCleanup(self.folder.cleanup)
        self.source, self.run_file = f'{self.folder.name}/k.asm', f'{self.folder.name}/k.json'
        self.put(self.source, FOREVER.encode())
        self.put(self.run_file, text_of(RUN).encode())
        self.give(Given(self.source, self.run_file))

    def put(self, name: str, octets: bytes) -> None:
        """Writes a file as another hand does."""
        with open(name, 'wb') as file:
            file.write(octets)

    def give(self, given: Given) -> None:
        """Other files of the command's words."""
        self.desk.given, self.desk.files = given, Kept(given)

    def keep(self, source: str, given: Fields, run: Fields | None = None, **more: Any) -> Fields:
        """Saves, as a page does that has read this."""
        return self.client.ask('keep', source=source, run=run or given['run'], sums=given['sums'], **more)

    def given(self) -> Fields:
        """What a page reads."""
        return self.client.ask('hello')['given']

    def test_the_text_is_written_refused_or_not(self) -> None:
        """No board has it, and a run of the file says why it is refused."""
        given = self.given()
        self.assertEqual(self.keep(BROKEN, given)['kept'], [self.source, self.run_file])
        self.assertEqual(octets_in(self.source), BROKEN.encode())
        self.assertIn('fault', self.pcboard('run', self.source, self.run_file).stderr)

    def test_the_run_file_keeps_its_budget_and_its_layout(self) -> None:
        """A file that says the same in other words isn't touched; another field is written; what is no number isn't, and the source is."""
        laid_out = json.dumps(RUN, indent=2).encode()
        self.put(self.run_file, laid_out)
        given = self.given()
        answer = self.keep(LATER, given)
        self.assertEqual((octets_in(self.run_file), octets_in(self.source)), (laid_out, LATER.encode()))
        again = self.keep(LATER, {**given, **answer}, RUN | {'keys': [[5, 30]], 'ram': 128})
        self.assertEqual(json.loads(octets_in(self.run_file)), RUN | {'keys': [[5, 30]], 'ram': 128})
        wrong = self.keep(FOREVER, {**given, **again}, RUN | {'ram': '64 KB'})
        self.assertEqual((wrong['kept'], wrong['sorry']), ([self.source], f"{self.run_file} isn't written: ram is '64 KB', and no number"))
        self.assertEqual((octets_in(self.source), json.loads(octets_in(self.run_file))['ram']), (FOREVER.encode(), 128))

    def test_another_hand(self) -> None:
        """What was changed, removed or made since it was read isn't overwritten, but once that is asked for."""
        given = self.given()
        self.put(self.source, b'; by another editor\n')
        answer = self.keep(LATER, given)
        self.assertEqual((answer['changed'], answer['gone']), ([self.source], False))
        self.assertIn('-; by another editor', answer['difference'])
        self.assertIn('+deep:   DEC AX', answer['difference'])
        self.assertEqual(octets_in(self.source), b'; by another editor\n')
        self.put(self.run_file, b'{}')
        self.assertEqual(self.keep(LATER, given)['changed'], [self.source, self.run_file])
        os.remove(self.source)
        self.assertTrue(self.keep(LATER, given)['gone'])
        self.assertFalse(os.path.exists(self.source))
        done = self.keep(LATER, given, over=True)
        self.assertEqual((octets_in(self.source), json.loads(octets_in(self.run_file))), (LATER.encode(), RUN))
        self.assertEqual(self.keep(FOREVER, {**given, **done})['kept'], [self.source, self.run_file])

    def test_what_has_changed_is_asked_for(self) -> None:
        """Before anything is to be written: nothing, the source, the run file, a file that is gone."""
        given = self.client.ask('hello')['given']
        asked = {'source': FOREVER, 'sums': given['sums']}
        self.assertEqual(self.client.ask('changed', **asked), {})
        self.put(self.source, LATER.encode())
        answer = self.client.ask('changed', **asked)
        self.assertEqual((answer['changed'], answer['gone']), ([self.source], False))
        self.assertIn('-' + next(line for line in LATER.splitlines() if 'DEC' in line), answer['difference'])
        self.put(self.run_file, b'{}')
        self.assertEqual(self.client.ask('changed', **asked)['changed'], [self.source, self.run_file])
        os.remove(self.source)
        self.assertTrue(self.client.ask('changed', **asked)['gone'])
        self.assertEqual(self.client.ask('changed', **asked)['now'][0], None)

    def test_a_folder_in_its_place_and_a_file_without_rights(self) -> None:
        given = self.given()
        os.chmod(self.source, 0o444)
        self.assertEqual((answer := self.keep(LATER, given))['kept'], [], answer)
        self.assertIn('it is read-only', answer['sorry'])
        os.chmod(self.source, 0o644)
        os.remove(self.source)
        os.mkdir(self.source)
        self.assertIn('Is a directory', self.keep(LATER, given)['sorry'])
        self.assertIn('Is a directory', self.keep(LATER, given, over=True)['sorry'])
        self.assertIn('Is a directory', self.given()['note'])

    def test_what_is_no_file_in_its_place(self) -> None:
        """A FIFO isn't waited for, and once it has gone all is as before."""
        given = self.given()
        os.remove(self.source)
        os.mkfifo(self.source)
        for over in (False, True):
            self.assertIn('it is a FIFO, and no file', self.keep(LATER, given, over=over)['sorry'])
        os.remove(self.source)
        self.put(self.source, FOREVER.encode())
        self.assertEqual(self.keep(LATER, given)['kept'], [self.source, self.run_file])

    def test_a_run_file_of_any_depth(self) -> None:
        self.put(self.run_file, b'{"keys":' + b'[' * 1_000_000)
        self.assertIn('nested too deep', self.given()['note'])

    def test_a_disk_that_fills(self) -> None:
        with full_disk(self.folder.name, 64 << 10) as (folder, fill):
            old = FOREVER.encode() + b'; old\n' * 3700
            self.put(f'{folder}/k.asm', old)
            self.give(Given(f'{folder}/k.asm'))
            given = self.given()
            fill()
            answer = self.keep(FOREVER + '; new\n' * 5000, given)
            self.assertEqual((answer['kept'], answer['sorry']), ([], f"{folder}/k.asm can't be written: No space left on device"))
            self.assertEqual(octets_in(f'{folder}/k.asm'), old)

    def test_two_pages(self) -> None:
        """The second one to save is told, and so is the first one then."""
        one, other = self.given(), self.given()
        one |= self.keep(LATER, one)
        self.assertEqual(self.keep(BROKEN, other)['changed'], [self.source])
        self.keep(BROKEN, other, over=True)
        self.assertEqual(self.keep(FOREVER, one)['changed'], [self.source])
        self.assertEqual(octets_in(self.source), BROKEN.encode())

    def test_another_hand_at_the_same_moment(self) -> None:
        """An editor that writes between the desk's look and the rename: its text stays, and the page is told; so of a run file that
        changes once the source is written."""
        given, put = self.given(), files.write_whole
        for name, text in ((self.source, b'; by another editor\n'), (self.run_file, b'{"ram": 128}')):

            def meanwhile(target: str, octets: bytes, look: Callable[[], None], name: str = name, text: bytes = text, **more: Any) -> None:
                def late() -> None:
                    if target == name:
                        self.put(name, text)
                    look()

                put(target, octets, late, **more)

            with mock.patch.object(files, 'write_whole', meanwhile):
                answer = self.keep(LATER, given, RUN | {'ram': 256})
            self.assertEqual(octets_in(name), text)
            if name == self.source:
                self.assertEqual((answer['changed'], '-; by another editor' in answer['difference']), ([name], True))
                self.put(self.source, FOREVER.encode())
        self.assertEqual((answer['kept'], 'another hand' in answer['sorry'], octets_in(self.source)), ([self.source], True, LATER.encode()))
        self.assertEqual(self.keep(LATER, {**given, **answer}, RUN)['changed'], [self.run_file])

    def test_another_hand_behind_the_last_look(self) -> None:
        """One that writes, or puts another file there, when nothing but the desk's rename is left: its text stays, and the page is told."""
        put, before = files.write_whole, sorted(os.listdir(self.room))
        for is_renamed in (False, True):

            def meanwhile(target: str, octets: bytes, look: Callable[[], None], is_renamed: bool = is_renamed, **more: Any) -> None:
                def late() -> None:
                    look()
                    self.put(f'{target}.its' if is_renamed else target, b'; by another editor\n')
                    if is_renamed:
                        os.rename(f'{target}.its', target)

                put(target, octets, late, **more)

            given = self.given()
            with mock.patch.object(files, 'write_whole') as written:
                written.side_effect = lambda *words, meanwhile=meanwhile, **more: (meanwhile if written.call_count == 1 else put)(*words, **more)
                self.assertEqual(self.keep(LATER, given)['changed'], [self.source])
            self.assertEqual((octets_in(self.source), sorted(os.listdir(self.room))), (b'; by another editor\n', before))
            self.put(self.source, FOREVER.encode())

    def test_another_hand_that_writes_on(self) -> None:
        """One that has opened the file before the rename, and writes to it afterwards."""
        given, put = self.given(), files.write_whole

        def meanwhile(target: str, octets: bytes, look: Callable[[], None], **more: Any) -> None:
            with open(target, 'r+b') as theirs:
                put(target, octets, look, **more)
                theirs.write(b'; by another editor\n')
                theirs.truncate()

        with mock.patch.object(files, 'write_whole') as written:
            written.side_effect = lambda *words, **more: (meanwhile if written.call_count == 1 else put)(*words, **more)
            self.assertEqual(self.keep(LATER, given)['changed'], [self.source])
        self.assertEqual(octets_in(self.source), b'; by another editor\n')

    def test_two_desks_take_turns(self) -> None:
        """Of two that save at one moment one has saved, and the other is told."""
        other = Desk(Given(self.source, self.run_file), drafts.Drafts(self.drafts))
        self.desk.files = Kept(self.desk.given, self.drafts)
        for at in range(20):
            asked = {'do': 'keep', 'run': RUN, 'sums': self.given()['sums']}
            with futures.ThreadPoolExecutor() as pool:
                them = [pool.submit(desk.answer, {**asked, 'source': f'; {number} {at}\n'}) for number, desk in enumerate((self.desk, other))]
            answers = [each.result() for each in them]
            self.assertEqual(sorted('kept' in answer for answer in answers), [False, True], answers)
            saved = next(number for number, answer in enumerate(answers) if 'kept' in answer)
            self.assertEqual((octets_in(self.source), answers[1 - saved]['changed']), (f'; {saved} {at}\n'.encode(), [self.source]))

    def test_a_desk_that_never_ends_its_turn(self) -> None:
        self.desk.files = Kept(self.desk.given, self.drafts)
        given = self.given()
        os.makedirs(self.drafts)
        with open(f'{self.drafts}/{files.LOCK}', 'wb') as held, mock.patch.object(files, 'SECONDS_OF_A_TURN', 0):
            fcntl.flock(held, fcntl.LOCK_EX)
            self.assertIn('another desk has been writing', self.keep(LATER, given)['sorry'])
        self.assertEqual(octets_in(self.source), FOREVER.encode())
        self.assertEqual(self.keep(LATER, given)['kept'], [self.source, self.run_file])

    def test_a_write_in_place_that_was_broken_off(self) -> None:
        """What a killed desk has begun in a file with two names is there, whole, once another desk opens it."""
        os.link(self.source, f'{self.folder.name}/other.asm')
        with mock.patch.dict(os.environ, XDG_STATE_HOME=self.room):
            with mock.patch.object(writing, '_put', side_effect=lambda path, octets: self.put(path, octets[:100])), mock.patch.object(writing, '_forget'):
                self.keep(LATER, self.given())
            self.assertEqual(octets_in(self.source), LATER.encode()[:100])
            with open(self.source, 'ab') as file:
                file.write(FOREVER.encode()[100:])
            self.assertEqual(self.given()['source'], LATER)
        self.assertEqual(octets_in(f'{self.folder.name}/other.asm'), LATER.encode())

    def test_ends_of_lines_stay(self) -> None:
        """All, or each its own where they are mixed; those of lines that are new are as most."""
        self.put(self.source, FOREVER.replace('\n', '\r\n').encode())
        self.keep(LATER, self.given())
        self.assertEqual(octets_in(self.source), LATER.replace('\n', '\r\n').encode())
        for old, text, wanted in (
            ('a\r\nb\nc\r\nd', 'a\nx\nb\nc\nd', 'a\r\nx\r\nb\nc\r\nd'),
            ('a\nb\r\nc\nd\n', 'b\nc\ny\n', 'b\r\nc\ny\n'),
            ('', 'a\n', 'a\n'),
            ('a', 'a\nb', 'a\nb'),
        ):
            self.assertEqual(with_ends(text, old), wanted, old)

    def test_what_is_no_text_is_refused(self) -> None:
        """The command says where, as pcboard refuses it too; a file that became so is neither shown nor overwritten."""
        for octets, why in ((b'; a\n; \xe9\n', 'line 2: byte E9h'), (b'; a\n\n; \rx\n', 'line 3: a carriage return')):
            self.put(self.source, octets)
            self.assertIn(why, self.tool('desk', self.source, status=2)[1])
            self.assertIn('fault', self.pcboard('run', self.source, self.run_file).stderr)
            given = self.given()
            self.assertEqual((given['source'], why in given['note']), ('', True))
            self.assertEqual(self.keep(LATER, given)['changed'][0], self.source)
            self.assertEqual(octets_in(self.source), octets)

    def test_questions_of_no_page(self) -> None:
        path, good = f'/{self.client.token}/do', {'do': 'keep', 'source': '', 'run': {}, 'sums': [None, None]}
        for fields in ({'source': 1}, {'run': []}, {'sums': []}, {'sums': [1, 2]}, {'sums': 'xx'}, {'over': 1}):
            self.assertEqual(self.client.request('POST', path, json.dumps(good | fields).encode())[0], 400, fields)
        self.give(Given())
        self.assertIn('without FILE', self.client.ask('keep', source='', run={}, sums=[None, None])['sorry'])


class Drafts(test_desk.Served):
    """What isn't saved yet."""

    def draft(self, page: str, **more: Any) -> Fields:
        """Sends a draft."""
        fields = {'id': page, 'given': False, 'name': 'x.asm', 'source': FOREVER, 'hex': False, 'run': RUN, 'stops': [':3']}
        return self.client.ask('keep draft', **fields | more)

    def test_it_comes_back(self) -> None:
        """In a folder that nobody else reads, with its time and its difference; until it is dropped."""
        self.assertEqual(self.draft('page-one-1'), {})
        self.assertEqual(self.draft('page-one-1', source=LATER), {})
        self.assertEqual([stat.S_IMODE(os.stat(self.drafts).st_mode), len(os.listdir(self.drafts))], [0o700, 1])
        offered = self.client.ask('hello')['drafts']
        self.assertEqual([(draft['id'], draft['name'], draft['lines'], draft['given']) for draft in offered], [('page-one-1', 'x.asm', 9, False)])
        self.assertLess(abs(offered[0]['time'] - time.time()), SECONDS)
        found = self.client.ask('draft', id='page-one-1', given=False, source=FOREVER)
        self.assertEqual((found['source'], found['run'], found['stops']), (LATER, RUN, [':3']))
        self.assertEqual([line for line in found['difference'][2:] if line[0] in '+-'], ['-deep:   INC AX', '+deep:   DEC AX'])
        self.assertEqual(self.client.ask('drop draft', id='page-one-1', given=False), {})
        self.assertEqual((self.client.ask('hello')['drafts'], os.listdir(self.drafts)), ([], []))
        self.assertIn('no longer there', self.client.ask('draft', id='page-one-1', given=False, source='')['sorry'])

    def test_what_has_changed_is_enough(self) -> None:
        """A message says what stands in place of how many signs; of 16 bits each, so that one sign of two words may be parted. Those
        that come late, and those on a text that isn't at hand, change nothing."""

        def source() -> str:
            return self.client.ask('draft', id='page-one-1', given=False, source='')['source']

        self.assertEqual(self.draft('page-one-1', number=1, source='; \U0001F600 one\n'), {})
        for number, base, at, drop, text, found in (
            (2, 1, 5, 3, 'two', '; \U0001F600 two\n'),
            (3, 1, 3, 1, '\ude01', '; \U0001F601 one\n'),
            (5, 3, 0, 9, '', ''),
            (7, 3, 9, 0, 'x' * 70000, '; \U0001F601 one\n' + 'x' * 70000),
        ):
            self.assertEqual(self.draft('page-one-1', number=number, base=base, at=at, drop=drop, source=text), {})
            self.assertEqual(source(), found)
        self.assertEqual(self.draft('page-one-1', number=6, base=3, at=0, drop=9, source='late'), {'again': 7})
        self.assertEqual(self.draft('page-one-1', number=8, base=4, source='on a text that is not there'), {'again': 7})
        self.assertEqual(source(), '; \U0001F601 one\n' + 'x' * 70000)
        self.assertEqual(self.draft('page-one-1', number=9, base=6, at=4, drop=70000, source='!'), {})
        self.assertEqual(source(), 'late!')
        # Another desk has the last text alone.
        self.desk.drafts = drafts.Drafts(self.drafts)
        self.assertEqual(self.draft('page-one-1', number=10, base=7, source='x'), {'again': 9})
        self.assertEqual(self.draft('page-one-1', number=10, base=9, at=4, drop=1, source=''), {})
        self.assertEqual(source(), 'late')
        self.client.ask('drop draft', id='page-one-1', given=False, number=9)
        self.assertEqual(source(), 'late')
        self.client.ask('drop draft', id='page-one-1', given=False, number=11)
        self.assertEqual(self.draft('page-one-1', number=10, base=9, source='late'), {'again': 11})
        self.assertEqual(os.listdir(self.drafts), [])

    def test_a_draft_that_was_not_kept_is_sent_again(self) -> None:
        """What can't be written isn't taken for what the desk has."""
        self.assertEqual(self.draft('page-one-1', number=1), {})
        with mock.patch.object(drafts, 'write_whole', side_effect=OSError(28, 'No space left on device')):
            self.assertIn("can't be kept", self.draft('page-one-1', number=2, base=1, source='; two\n')['sorry'])
        self.assertEqual(self.draft('page-one-1', number=2, base=1, source='; two\n'), {})
        for wrong in ({'number': -1}, {'number': 1.5}, {'number': 2**60}, {'base': 'x'}, {'at': None}):
            fields = {'do': 'keep draft', 'id': 'page-one-1', 'given': False, 'name': '', 'source': '', 'hex': False, 'run': {}, 'stops': []} | wrong
            self.assertEqual(self.client.request('POST', f'/{self.client.token}/do', json.dumps(fields).encode())[0], 400, wrong)

    def test_it_is_of_its_file(self) -> None:
        """By the file's full path, however it is named; a draft of another file isn't offered."""
        files = [self.file(f'{stem}.asm', FOREVER) for stem in 'ab']
        os.symlink('a.asm', f'{self.room}/link.asm')
        self.desk.given = Given(f'{self.room}/link.asm')
        self.desk.files = Kept(self.desk.given)
        self.draft('page-of-a1', given=True, source=LATER)
        for name, count in ((files[0], 1), (files[1], 0)):
            self.desk.given = Given(name)
            self.desk.files = Kept(self.desk.given)
            self.assertEqual(len(self.client.ask('hello')['drafts']), count, name)

    def test_stops_of_a_saved_file(self) -> None:
        """A draft that says what the file says isn't offered; its stops are taken with the file."""
        self.desk.given = Given(self.file('a.asm', FOREVER.replace('\n', '\r\n')))
        self.desk.files = Kept(self.desk.given)
        self.draft('page-of-a1', given=True, run={**self.client.ask('hello')['given']['run']})
        for _ in range(2):
            answer = self.client.ask('hello')
            self.assertEqual((answer['drafts'], answer['given']['settled']), ([], {'id': 'page-of-a1', 'number': 0, 'stops': [':3']}))

    def test_the_oldest_go(self) -> None:
        for at in range(MOST_DRAFTS + 5):
            self.draft(f'page-{at:04}')
            os.utime(f'{self.drafts}/none.page-{at:04}.json', (at, at))
        self.assertEqual(sorted(os.listdir(self.drafts)), [f'none.page-{at:04}.json' for at in range(5, MOST_DRAFTS + 5)])

    def test_a_folder_that_cannot_be(self) -> None:
        """The page is told, once it sends a draft; nothing else fails."""
        os.makedirs(os.path.dirname(self.drafts))
        with open(self.drafts, 'w', encoding='ascii'):
            pass
        self.assertIn("drafts can't be kept", self.draft('page-one-1')['sorry'])
        self.assertEqual(self.client.ask('hello')['drafts'], [])

    def test_other_names(self) -> None:
        for name in ('../../../x', 'a/b', '', 'x', 'x' * 65, '.', 'page one'):
            self.assertIn('no draft', self.draft(name)['sorry'], name)
            self.assertIn('no draft', self.client.ask('drop draft', id=name, given=False)['sorry'], name)
        self.assertFalse(os.path.exists(self.drafts))
        self.draft('page-one-1')
        for text in ('', '[]', '{"source":1}'):
            with open(f'{self.drafts}/none.page-bad-1.json', 'w', encoding='ascii') as file:
                file.write(text)
            self.assertEqual(len(self.client.ask('hello')['drafts']), 1)


class Killed(test_desk.Begun):
    """A desk that ends between two keys."""

    def test_what_was_sent_is_there(self) -> None:
        source = self.file('mine.asm', FOREVER)
        process, client = self.begin(source)
        fields = {'id': 'page-one-1', 'given': True, 'name': 'mine.asm', 'hex': False, 'run': RUN, 'stops': []}
        for text in (FOREVER + ';', FOREVER + '; x'):
            self.assertEqual(client.ask('keep draft', source=text, **fields), {})
        process.kill()
        process.communicate(timeout=SECONDS)
        other, client = self.begin(source)
        answer = client.ask('hello')
        self.assertEqual((answer['given']['source'], [draft['id'] for draft in answer['drafts']]), (FOREVER, ['page-one-1']))
        self.assertEqual(client.ask('draft', id='page-one-1', given=True, source='')['source'], FOREVER + '; x')
        other.send_signal(signal.SIGINT)
        other.communicate(timeout=SECONDS)


class OnThePage(ToolCase):
    """The same by hand: each way in which work was lost."""

    browser: Browser | None = None

    @classmethod
    def setUpClass(cls) -> None:
        room = tempfile.TemporaryDirectory()
        cls.addClassCleanup(room.cleanup)
        if why := lacking():
            not_run(f'saving by a page of tools/desk in a browser; {why}')
            return
        cls.browser = Browser(room.name)
        cls.addClassCleanup(cls.browser.close)

    def opened(self, *words: str) -> Page | None:
        """A desk with k.asm and k.json, and its page."""
        if self.browser is None:
            return None
        self.source, self.run_file = self.file('k.asm', FOREVER), self.file('k.json', text_of(RUN))
        page = Page(self.room, *(words or (self.source, self.run_file)), browser=self.browser)
        self.addCleanup(page.close)
        page.open()
        page.browser.run("window.links={};{const was=URL.createObjectURL;URL.createObjectURL=it=>{const link=was(it);links[link]=it;return link}}")
        return page

    def linked(self, page: Page, name: str) -> str:
        """The text behind a link of Save."""
        return page.browser.run(f"links[$('{name}').href].text()")

    def type(self, page: Page, text: str) -> None:
        """Types at the source's end."""
        page.browser.run("$('source').focus();$('source').setSelectionRange($('source').value.length,$('source').value.length)")
        page.browser.call('Input.insertText', text=text)

    def saved(self, page: Page, shown: str = 'saved: ') -> None:
        """Saves by its keys, and waits for what is told."""
        page.browser.run("$('kept').textContent=''")
        page.browser.press('s', CONTROL)
        page.browser.until(f"$('kept').textContent.startsWith({json.dumps(shown)})")

    def draft_texts(self) -> list[str]:
        """The texts of all drafts."""
        return [json.loads(octets_in(name))['source'] for name in glob.glob(f'{self.room}/state/zebludor/desk/*.json')]

    def asks(self, page: Page) -> bool:
        """Whether the browser asks before the page is left."""
        return page.browser.run("(()=>{const it=new Event('beforeunload',{cancelable:true});dispatchEvent(it);return it.defaultPrevented})()")

    def drafted(self, page: Page) -> None:
        """Waits for the draft of what the page holds."""
        page.browser.until('is_kept()')

    def test_what_is_in_the_editor(self) -> None:
        """A line that isn't assembled, and one that is refused, are saved as they stand, by Ctrl+S too."""
        page = self.opened()
        if page is None:
            return
        self.assertFalse(self.asks(page))
        for text in ('; not assembled\n', 'no instruction\n'):
            self.type(page, text)
            self.assertTrue(self.asks(page))
            self.assertEqual(page.browser.run("[$('unsaved').textContent,document.title[0]]"), ['not saved', '\u25cf'])
            self.saved(page)
            self.assertFalse(self.asks(page))
        self.assertEqual(octets_in(self.source), (FOREVER + '; not assembled\nno instruction\n').encode())
        page.browser.press('Enter', CONTROL)
        page.browser.until("refused.length===1")
        self.type(page, '; still\n')
        page.browser.click('#save')
        page.browser.click('#keep')
        page.browser.until("$('kept').textContent.startsWith('saved: ')")
        self.assertTrue(octets_in(self.source).endswith(b'; still\n'))
        self.assertEqual(self.linked(page, 'save-source'), octets_in(self.source).decode())

    def test_an_example_stays_out(self) -> None:
        page = self.opened()
        if page is None:
            return
        page.example('first')
        page.browser.press('s', CONTROL)
        page.browser.until("$('saving').open")
        self.assertTrue(page.browser.run("$('keep').hidden"))
        page.browser.run("$('saving').close()")
        self.assertEqual(octets_in(self.source), FOREVER.encode())
        page.browser.run("$('example').value=$('example').options[0].value;$('example').dispatchEvent(new Event('change'));queue")
        page.settled("$('name').textContent==='k.asm'")
        self.type(page, '; own\n')
        self.saved(page)
        self.assertEqual(octets_in(self.source), (FOREVER + '; own\n').encode())

    def test_a_write_that_fails(self) -> None:
        """It doesn't count as saved: neither with a folder in the place, nor on a full disk."""
        page = self.opened()
        if page is None:
            return
        self.type(page, '; more\n')
        os.remove(self.source)
        os.mkdir(self.source)
        self.saved(page, f"{self.source} can't be read: Is a directory")
        self.assertTrue(self.asks(page))
        os.rmdir(self.source)
        self.file('k.asm', FOREVER)
        self.saved(page)
        self.assertFalse(self.asks(page))

    def test_another_editor(self) -> None:
        """The page shows that the file has changed, and how; it takes the file's, with the page's as a draft, or overwrites it."""
        page = self.opened()
        if page is None:
            return
        browser = page.browser
        self.type(page, '; mine\n')
        self.file('k.asm', FOREVER + '; theirs\n')
        browser.press('s', CONTROL)
        browser.until("$('conflict').open")
        self.assertIn('k.asm has changed since this page has read it', browser.run("$('conflict-text').textContent"))
        browser.click('#conflict-show')
        shown = browser.run("$('conflict-difference').textContent").split('\n')
        self.assertTrue({'-; theirs', '+; mine'} <= set(shown), shown)
        self.assertEqual(octets_in(self.source), (FOREVER + '; theirs\n').encode())
        browser.click('#conflict-take')
        page.settled("$('source').value.endsWith('; theirs\\n')&&!$('offer').hidden")
        self.assertFalse(self.asks(page))
        browser.click('#offer-take')
        page.settled("$('source').value.endsWith('; mine\\n')&&$('offer').hidden")
        self.assertTrue(self.asks(page))
        # The window that gets the focus notices it by itself, once.
        self.file('k.asm', FOREVER + '; theirs again\n')
        browser.run("dispatchEvent(new Event('focus'))")
        browser.until("$('conflict').open")
        self.assertRegex(browser.run("$('conflict-text').textContent"), r'k\.asm has changed since this page has read it\.$')
        browser.click('#conflict form button')
        browser.until("!$('conflict').open")
        browser.run('notice()')
        self.assertFalse(browser.run("$('conflict').open"))
        browser.press('s', CONTROL)
        browser.until("$('conflict').open")
        self.assertIn('Nothing was written', browser.run("$('conflict-text').textContent"))
        browser.click('#conflict-over')
        browser.until("$('kept').textContent.startsWith('saved: ')")
        self.assertEqual(octets_in(self.source), (FOREVER + '; mine\n').encode())

    def test_keys_stops_and_fields_count(self) -> None:
        """They are unsaved as a text is, come back as a draft, and are saved with the run file's own budget."""
        page = self.opened()
        if page is None:
            return
        browser = page.browser
        browser.run("acts(()=>go_to(400))")
        page.settled('view.clock===400')
        browser.run("$('screen').focus()")
        browser.press('a')
        page.settled('view.keys.length===2')
        self.assertEqual((self.asks(page), browser.run("$('unsaved').textContent")), (True, 'run file not saved'))
        browser.run("$('f-ram').value='128';$('f-ram').dispatchEvent(new Event('input',{bubbles:true}));toggle_stop(2)")
        page.settled('stops.length===1')
        self.drafted(page)
        page.open()
        browser.until("!$('offer').hidden")
        self.assertEqual(browser.run("[view.keys.length,$('f-ram').value,stops.length]"), [0, '64', 0])
        page.click('#offer-take', "view.keys.length===2&&stops.length===1")
        self.assertEqual(browser.run("$('f-ram').value"), '128')
        self.saved(page)
        found = json.loads(octets_in(self.run_file))
        self.assertEqual((found['budget'], found['ram'], [code for _, code in found['keys']]), (1000, 128, [30, 158]))
        # Of what is saved a draft keeps the stops alone, which come with the file.
        self.drafted(page)
        page.open()
        page.settled('stops.length===1')
        self.assertTrue(browser.run("$('offer').hidden"))
        # 'Up to the clock shown' is a choice of its own.
        browser.run("acts(()=>go_to(700))")
        page.settled('view.clock===700')
        browser.click('#save')
        browser.click('#up-to')
        browser.click('#keep')
        browser.until("$('kept').textContent.startsWith('saved: ')")
        self.assertEqual(json.loads(octets_in(self.run_file))['budget'], 700)
        browser.run("$('saving').close()")
        report = report_of(self.pcboard('run', self.source, self.run_file).stdout)
        self.assertEqual((report.clock, report.registers), (700, browser.run('view.registers')))

    def test_a_desk_that_is_killed(self) -> None:
        """Between two keys: the page still hands out what was written, and another desk has it as a draft."""
        page = self.opened()
        if page is None:
            return
        browser = page.browser
        self.type(page, '; one')
        self.drafted(page)
        page.end(signal.SIGKILL)
        self.type(page, 'two')
        browser.until("$('said').textContent.startsWith('desk has ended')")
        self.assertTrue(self.asks(page))
        browser.press('s', CONTROL)
        browser.until("$('saving').open")
        self.assertEqual(self.linked(page, 'save-source'), FOREVER + '; onetwo')
        self.assertEqual(json.loads(self.linked(page, 'save-run')), RUN)
        page.begin()
        page.open()
        browser.until("!$('offer').hidden")
        self.assertEqual(browser.run("$('source').value"), FOREVER)
        browser.click('#offer-show')
        browser.until("$('differing').open&&$('difference').textContent.includes('+; one')")
        browser.run("$('differing').close()")
        page.click('#offer-take', f"$('source').value==={json.dumps(FOREVER + '; one')}")
        self.assertEqual(octets_in(self.source), FOREVER.encode())

    def test_a_tab_that_closes(self) -> None:
        """At the next moment: what was typed is a draft, however long the text is."""
        page = self.opened()
        if page is None:
            return
        for size in (2_000, 70_000, 200_000):
            text = FOREVER + ('; more' * 16 + '\n') * (size // 97)
            self.file('k.asm', text)
            page.open()
            page.browser.run("$('source').focus();$('source').setSelectionRange(0,0)")
            page.browser.call('Input.insertText', text='; typed last\n')
            page.browser.run('onbeforeunload=null')
            page.browser.call('Page.navigate', url='about:blank')
            self.assertTrue(until(lambda: '; typed last\n' + text in self.draft_texts()), size)  # pylint: disable=cell-var-from-loop

    def test_a_tab_that_crashes(self) -> None:
        """With more than any browser sends for a tab that is gone, and a desk that hasn't answered: it lies in the browser until the
        page is opened again, and no longer."""
        page = self.opened()
        if page is None:
            return
        browser = page.browser
        pasted = ('; pasted' * 100 + '\n') * 200
        browser.run("window.fetch=()=>new Promise(()=>0);navigator.sendBeacon=()=>false;0")
        browser.run(f"$('source').setRangeText({json.dumps(pasted)},{len(FOREVER)},{len(FOREVER)});$('source').dispatchEvent(new Event('input'));0")
        browser.until("Object.keys(localStorage).length===1")
        page.open()
        browser.until("!$('offer').hidden")
        self.assertEqual(browser.run("Object.keys(localStorage).length"), 0)
        page.click('#offer-take', "$('offer').hidden")
        self.assertEqual(browser.run("$('source').value"), FOREVER + pasted)
        # While the desk answers, nothing stays there.
        self.type(page, '; and more\n')
        self.drafted(page)
        browser.until("Object.keys(localStorage).length===0")

    def test_drafts_of_no_file(self) -> None:
        """An example that was changed comes back in another desk; discarded, it is gone."""
        page = self.opened('--port', '0')
        if page is None:
            return
        browser = page.browser
        page.example('fibonacci')
        self.type(page, '; mine\n')
        self.drafted(page)
        self.assertFalse(self.asks(page))
        page.end(signal.SIGINT)
        page.begin()
        page.open()
        browser.until("!$('offer').hidden&&$('offer-text').textContent.startsWith('A draft of fibonacci.asm from')")
        browser.click('#offer-drop')
        browser.until("$('asked').open")
        browser.press('Enter')
        browser.until("$('offer').hidden")
        page.open()
        page.settled()
        self.assertTrue(browser.run("$('offer').hidden"))


if __name__ == '__main__':
    unittest.main()
