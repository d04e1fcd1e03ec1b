"""tools/batch and zebludor.batch: many runs of one program, each once, in order, whatever ends it."""
from __future__ import annotations

import hashlib
import json
import os
import random
import signal
import subprocess
import sys
import time
import unittest
from pathlib import Path
from typing import Any
from unittest import mock

from tests.support import TOOLS, ToolCase, children, example, not_run, until

from toolbox import program
from toolbox.as_json import SCHEMA

import zebludor

try:
    import jsonschema
except ImportError:
    jsonschema = None  # type: ignore[assignment]

NESTED, RUN = example('nested')
with open(RUN, encoding='ascii') as _file:
    FIELDS: dict[str, Any] = json.load(_file)
ENDLESS = FIELDS | {'budget': 1 << 40}


def line_of(at: int) -> str:
    """A run with a key at a clock."""
    return json.dumps({'name': f'key {at}'} | FIELDS | {'keys': [[at, 0x1E], [at + 500, 0x9E]]}) + '\n'


class Batches(ToolCase):
    """Over the built program."""

    def batch(self, lines: str, *words: str, file: str = NESTED, status: int = 0) -> list[dict[str, Any]]:
        """The answers to lines."""
        out, _ = self.tool('batch', file, *words, given=lines, status=status)
        return [json.loads(line) for line in out.splitlines()]

    def wanted(self, line: str) -> dict[str, Any]:
        """An answer, by the program's own report of a run file; its id by the sums that the page tells."""
        fields = json.loads(line)
        name = fields.pop('name', None)
        run = json.dumps(fields, sort_keys=True, separators=(',', ':'))
        ran = self.pcboard('run', NESTED, self.file('run.json', run))
        image = self.pcboard('asm', NESTED).stdout.encode()
        with open(program.path(), 'rb') as file:
            sums = [hashlib.sha256(octets).digest() for octets in (image, file.read(), run.encode())]
        report = zebludor.read_report(ran.stdout)
        screen = [each.rstrip() for each in report.screen]
        while screen and not screen[-1]:
            screen.pop()
        found = {'id': hashlib.sha256(b''.join(sums)).hexdigest(), 'name': name, 'clock': report.clock, 'state': report.state}
        return found | {'registers': report.registers, 'lost': report.lost, 'sound': list(map(list, report.changes)), 'screen': screen}

    def test_answers(self) -> None:
        """As the program's own reports, in the order of the lines, whatever --jobs is."""
        lines = [line_of(at) for at in random.Random(7).sample(range(1800, 3000), 12)]
        given = '\n'.join([*lines[:4], '', *lines[4:]]).rstrip('\n')
        found = self.batch(given)
        self.assertEqual(found, list(map(self.wanted, lines)))
        outs = {self.tool('batch', NESTED, '--jobs', str(jobs), given=given)[0] for jobs in (1, 3, 8)}
        self.assertEqual(len(outs), 1)
        hex_file = self.file('it.hex', self.pcboard('asm', NESTED).stdout)
        self.assertEqual(self.batch(given, file=hex_file), found)
        self.assertEqual(self.tool('batch', NESTED, given='')[0], '')

    def test_what_has_no_report(self) -> None:
        lines = ['{"version":1,"name":"few"}', 'nonsense', '[1]', json.dumps(FIELDS | {'ram': 17}), json.dumps(FIELDS | {'name': 5}), line_of(2000), '9' * 5000]
        found = self.batch('\n'.join(lines), status=1)
        faults = [one.get('fault') for one in found]
        bad_field, not_json = {'number': 32, 'name': 'BadField'}, {'number': 31, 'name': 'NotJson'}
        self.assertEqual(faults, [bad_field, not_json, bad_field, {'number': 36, 'name': 'RamSize'}, bad_field, None, not_json])
        self.assertEqual((found[0]['name'], found[5]['state'], len({one['id'] for one in found})), ('few', 'halted', 7))
        (late,) = self.batch(json.dumps(ENDLESS), '--seconds', '1', status=1)
        self.assertEqual((late['why'], set(late)), ('over 1 s, and was ended', {'id', 'why'}))

    def test_ids(self) -> None:
        """They are those of the runs: not of their names, or of how a line is written, but of the program."""
        fields = FIELDS | {'keys': []}
        lines = [
            json.dumps(fields),
            json.dumps(dict(reversed(list(fields.items()))), indent=None),
            json.dumps(fields | {'name': 'x'}),
            json.dumps(fields | {'budget': 9841}),
        ]
        ids = [one['id'] for one in self.batch('\n'.join(lines))]
        self.assertEqual([ids.index(one) for one in ids], [0, 0, 0, 3])
        with open(NESTED, encoding='ascii') as file:
            text = file.read()
        same, other = self.file('same.asm', text + '; a comment\n'), self.file('other.asm', text.replace("'K'", "'Q'"))
        self.assertEqual(self.batch(lines[0], file=same)[0]['id'], ids[0])
        self.assertNotEqual(self.batch(lines[0], file=other)[0]['id'], ids[0])

    def test_the_form(self) -> None:
        if not jsonschema:
            not_run('answers against the JSON Schema; apt install python3-jsonschema')
            return
        with open(SCHEMA, encoding='utf-8') as file:
            schema = json.load(file)
        validator = jsonschema.Draft202012Validator({'$ref': '#/$defs/answer', '$defs': schema['$defs']})
        for found in self.batch(line_of(2000) + 'x\n', status=1):
            validator.validate(found)
        self.assertFalse(validator.is_valid({'id': 'x'}))

    def test_fields(self) -> None:
        (found,) = self.batch(line_of(2000), '--fields', 'name,AX,screen')
        whole = self.wanted(line_of(2000))
        self.assertEqual(found, {name: whole[name] for name in ('id', 'name')} | {'AX': whole['registers']['AX'], 'screen': whole['screen']})
        self.assertEqual(set(self.batch('x', '--fields', 'AX', status=1)[0]), {'id', 'fault'})
        self.assertIn('is no field', self.tool('batch', NESTED, '--fields', 'AY', status=2)[1])

    def test_refusals(self) -> None:
        self.assertIn("can't be read", self.tool('batch', 'none.asm', status=3)[1])
        self.assertIn('fault 4', self.tool('batch', self.file('bad.asm', 'x'), status=2)[1])
        self.assertIn('program with services', self.tool('batch', self.file('it.asm', 'SEGMENT M AT 100h\nstart: INT 21h\nENDS\n'), status=2)[1])
        self.assertIn('is no answer of a batch', self.tool('batch', NESTED, '--skip', self.file('no', '{}\n'), status=2)[1])
        self.assertIn('--jobs takes', self.tool('batch', NESTED, '--jobs', '0', status=2)[1])
        with mock.patch.dict(sys.modules, pyarrow=None):
            self.assertIn('wants pyarrow', self.called('batch', NESTED, '--parquet', 'out', status=2)[1])

    def begin(self, *words: str, out: Any = subprocess.PIPE, given: Any = subprocess.PIPE) -> subprocess.Popen[bytes]:
        """A batch that is left alone."""
        words = ('env', '--default-signal=INT', sys.executable, '-S', f'{TOOLS}/batch', *words)
        process = subprocess.Popen(words, stdin=given, stdout=out, stderr=subprocess.PIPE, start_new_session=True)
        self.addCleanup(process.communicate)
        self.addCleanup(process.kill)
        return process

    def test_killed_and_gone_on_with(self) -> None:
        """Three times: what was written stays, and at the end each run has its answer once. A half line goes."""
        lines, results = [line_of(at) for at in range(1800, 1920)], self.file('results', '')
        runs = self.file('runs', ''.join(lines))
        for least in (10, 40, 70):
            with open(runs, 'rb') as given, open(results, 'ab') as out:
                process = self.begin(NESTED, '--skip', results, '--jobs', '2', given=given, out=out)
                self.assertTrue(until(lambda least=least: len(self.answered(results)) >= least))
                os.killpg(process.pid, signal.SIGKILL)
                process.wait()
            with open(results, 'ab') as out:
                out.write(b'{"id":"00')
        before = self.answered(results)
        with open(runs, 'rb') as given, open(results, 'ab') as out:
            self.assertEqual(self.begin(NESTED, '--skip', results, given=given, out=out).wait(), 0)
        with open(results, encoding='ascii') as file:
            text = file.read()
        self.assertTrue(text.startswith(before[0]))
        self.assertEqual(text, self.tool('batch', NESTED, given=''.join(lines))[0])
        self.assertEqual(self.tool('batch', NESTED, '--skip', results, given=''.join(lines))[0], '')

    @staticmethod
    def answered(path: str) -> list[str]:
        """The whole lines of a file."""
        with open(path, encoding='ascii') as file:
            return [line for line in file if line.endswith('\n')]

    def test_control_c(self) -> None:
        """In the midst of a run of any length; what came before it is written, and no process is left."""
        process = self.begin(NESTED, '--jobs', '2')
        assert process.stdin and process.stdout
        process.stdin.write((json.dumps(FIELDS) + '\n' + json.dumps(ENDLESS) + '\n').encode())
        process.stdin.flush()  # and more may come
        self.assertIn('"clock":9840', process.stdout.readline().decode())
        self.assertTrue(until(lambda: children(process.pid)))
        time.sleep(0.2)
        begun = time.monotonic()
        os.kill(process.pid, signal.SIGINT)
        process.wait()
        self.assert_within(time.monotonic() - begun, 0.5)
        self.assertEqual((process.returncode, process.stdout.read()), (130, b''))

    def test_in_python(self) -> None:
        lines = [line_of(at) for at in (1800, 2500)]
        wanted = list(map(self.wanted, lines))
        self.assertEqual(list(zebludor.batch(Path(NESTED), lines)), wanted)
        with open(NESTED, encoding='ascii') as file:
            self.assertEqual(list(zebludor.batch(file.read(), map(json.loads, lines), known={wanted[0]['id']})), wanted[1:])
        first = zebludor.batch(Path(NESTED), (line_of(at) for at in range(10**9)), jobs=2)
        self.assertEqual(next(first)['name'], 'key 0')
        first.close()
        with self.assertRaises(zebludor.Unfit):
            list(zebludor.batch(Path('/none.asm'), []))


if __name__ == '__main__':
    unittest.main()
