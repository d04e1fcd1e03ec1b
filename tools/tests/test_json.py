"""Answers as JSON: their form is that of schema.json, and they tell what the tools' text and the program's report tell."""
from __future__ import annotations

import json
import re
import unittest
from typing import Any

from tests.support import ToolCase, example, not_run

from toolbox.as_json import SCHEMA
from toolbox.report import report_of

try:
    import jsonschema  # python3-jsonschema of Debian
except ImportError:
    jsonschema = None  # type: ignore[assignment]

PAGE = "line 1 = HI\nAX = 0708\n[3] AX = 0709\nruns = go\n"
REFUSED = 'SEGMENT MAIN AT 0F000h\nstart:  MOV AX,5\n        MOV AX,\n        INT 21\nENDS\n'


class Json(ToolCase):
    """Each tool's answer."""

    def answer(self, tool: str, *words: str, status: int = 0) -> dict[str, Any]:
        """It, in the schema's form, and one object in one line."""
        out, _ = self.called(tool, *words, '--json', status=status)
        self.assertEqual(out.count('\n'), 1)
        found: dict[str, Any] = json.loads(out)
        self.assertEqual((found['tool'], found['format'], found['status']), (tool, 1, status))
        if jsonschema:
            with open(SCHEMA, encoding='utf-8') as file:
                jsonschema.Draft202012Validator(json.load(file)).validate(found)
        return found

    def reported(self, name: str) -> dict[str, Any]:
        """The program's report of an example, read from its text."""
        text = self.pcboard('run', *example(name)).stdout
        report = report_of(text)
        registers = {name: int(value, 16) for name, value in re.findall(r'\b([A-Z]{2})=([0-9A-F]{4})', text)}
        screen = [line.rstrip() for line in text.split('\nscreen\n')[1].splitlines()]
        while screen and not screen[-1]:
            screen.pop()
        sound = [list(map(int, line.split())) for line in re.findall(r'^\d+ [01]$', text, re.M)]
        return {'clock': report.clock, 'state': report.state, 'registers': registers, 'lost': report.lost, 'sound': sound, 'screen': screen}

    def test_the_schema_is_one(self) -> None:
        with open(SCHEMA, encoding='utf-8') as file:
            schema = json.load(file)
        if not jsonschema:
            not_run('answers against the JSON Schema; apt install python3-jsonschema')
            return
        jsonschema.Draft202012Validator.check_schema(schema)
        for wrong in ({}, {'tool': 'try', 'format': 1, 'status': 0}, {'tool': 'why', 'format': 2, 'status': 0, 'report': None, 'fault': None, 'why': []}):
            self.assertFalse(jsonschema.Draft202012Validator(schema).is_valid(wrong))

    def test_runs(self) -> None:
        for name in ('hello', 'tone', 'nested'):
            source, run = example(name)
            tried, why = self.answer('try', source, '--run', run), self.answer('why', 'run', source, run)
            wanted = self.reported(name)
            self.assertEqual((tried['report'], tried['fault'], why['report'], why['fault']), (wanted, None, wanted, None))
            self.assertIn(tried['ended'], self.called('try', source, '--run', run)[0])
            self.assertEqual([f'why: {line}' for line in why['why']], self.called('why', 'run', source, run)[1].splitlines())

    def test_refusals(self) -> None:
        source = self.file('bad.asm', REFUSED)
        for found in (self.answer('try', source, status=1), self.answer('why', 'run', source, status=1)):
            self.assertEqual((found['report'], found['fault']), (None, {'number': 3, 'name': 'BadLine', 'of': 'source', 'line': 3}))
            self.assertTrue(found['why'])
        lines = self.answer('why', '--lines', source, status=1)['lines']
        self.assertEqual([(one['file'], one['line'], one['kind']) for one in lines], [(source, 3, 'error'), (source, 4, 'warning')])
        as_text = [f"{one['file']}:{one['line']}: {one['kind']}: {one['text']}" for one in lines]
        self.assertEqual(as_text, self.called('why', '--lines', source, status=1)[0].splitlines())
        self.assertIn('--json goes with', self.called('why', 'asm', source, '--json', status=2)[1])

    def test_why_of_a_told_fault(self) -> None:
        out, _ = self.called('why', 'fault', '--json', given='fault 36 RamSize\n')
        found = json.loads(out)
        self.assertEqual((found['fault'], found['report']), ({'number': 36, 'name': 'RamSize', 'of': 'board', 'line': None}, None))

    def test_judged(self) -> None:
        page, (source, run) = self.file('page', PAGE), example('hello')
        found = self.answer('judge', page, source, run, status=1)
        self.assertEqual(
            [(one['said'], one['met'], one['came'], one['weight']) for one in found['outcomes']],
            [('line 1 = HI', True, None, 1), ('AX = 0708', True, None, 1), ('AX = 0709', False, 'came 0708', 3), ('runs = go', True, None, 1)],
        )
        reports = [self.file(name, self.pcboard('run', source, run).stdout) for name in ('a.txt', 'b.txt')]
        self.assertEqual(
            self.answer('judge', '--same', 'screen,AX', *reports)['outcomes'],
            [
                {'said': 'same screen', 'met': True, 'came': None, 'weight': 1},
                {'said': 'same AX', 'met': True, 'came': None, 'weight': 1},
            ],
        )

    def test_a_class(self) -> None:
        page, (source, run) = self.file('page', PAGE), example('hello')
        rows = self.answer('judge', '--class', page, source, self.file('bad.asm', REFUSED), f'{self.room}/none.asm', '--run', run, status=1)['files']
        self.assertEqual([(row['met'], row['mark'], row['of'], len(row['outcomes'])) for row in rows], [(3, 3, 6, 4), (0, 0, 6, 4), (0, 0, 6, 0)])
        self.assertEqual(['none.asm' in row['why'] for row in rows], [False, False, True])

    def test_lines_of_a_trace(self) -> None:
        files = example('ticks')
        found = self.answer('trace', '--listing', *files)
        with open(files[0], encoding='utf-8') as file:
            self.assertEqual([line['text'].rstrip() for line in found['lines'] if line['line']], [line.rstrip() for line in file.read().splitlines()])
        profile = self.called('trace', '--profile', *files)[0].splitlines()[1:]
        rows = {int(number): (int(clocks), int(times)) for clocks, _, times, number, *_ in (line.split() for line in profile) if number.isdecimal()}
        self.assertEqual({line['line']: (line['clocks'], line['times']) for line in found['lines'] if line['line'] and line['times']}, rows)
        self.assertLessEqual(sum(line['clocks'] for line in found['lines']), found['end'] - found['first'])
        for kind in ('--profile', '--coverage'):
            self.assertEqual(self.answer('trace', kind, *files), found)
        self.assertIn('--json goes with', self.called('trace', *files, '--json', status=2)[1])

    def test_calls_of_a_trace(self) -> None:
        found = self.answer('trace', '--calls', *example('nested'))
        text = self.called('trace', '--calls', *example('nested'))[0]
        for routine in found['routines']:
            took, own = routine['clocks'], routine['own']
            figures = [each for one in (took, own) for each in (one['least'], one['most'], f'{one["sum"] / one["times"]:.1f}')]
            self.assertRegex(
                text, rf'(?m)^{re.escape(routine["name"])} +' + ' +'.join(map(str, [routine['times'], *figures, took['at'], routine['stack']])) + '$'
            )
        for request in found['requests']:
            latency = request['latency']
            self.assertRegex(text, rf'(?m)^0\d {request["line"]} +{latency["times"]} +{latency["least"]} +{latency["most"]} ')
        longest = found['off']['longest']
        self.assertIn(f"from {longest['begun']}, {longest['by']}, to {longest['end']}, {longest['until']}", text)

    def test_moments(self) -> None:
        page = self.file('page', 'lost = 0\nline 1 = tkttKtkttKttt\n')
        words = (page, *example('nested'), '--key', '1E', '--at', '900..904', '--jobs', '1')
        found = self.answer('moments', *words, status=1)
        self.assertEqual((found['tried'], found['of'], found['failed'], found['place'], found['came']), (4, 4, 4, None, 0))
        self.assertEqual(found['failing'], [{'first': {'count': None, 'clocks': [900]}, 'last': {'count': None, 'clocks': [903]}}])
        with open(f"{self.room}/{found['file']}", encoding='ascii') as file:
            self.assertIn([900, 0x1E], json.load(file)['keys'])
        measured = self.answer('moments', '--measure', 'key', *words[1:])
        text = self.called('moments', '--measure', 'key', *words[1:])[0]
        for name in ('least', 'most'):
            self.assertIn(f"{name} {measured[name]['clocks']} clocks, after {measured[name]['after']['clocks'][0]}\n", text)
        self.assertIn(f"mean {measured['sum'] / measured['came']:.1f} clocks", text)

    def test_tables(self) -> None:
        paths = [self.file(f'{name}.txt', self.pcboard('run', *example(name)).stdout) for name in ('hello', 'tone')]
        fault = self.file('bad.fault', 'fault 36 RamSize\n')
        found = self.answer('table', *paths, fault, status=1)['reports']
        wanted = {name: self.reported(name) for name in ('hello', 'tone')}
        for row in found[1:]:
            report = wanted[row['name']]
            self.assertEqual(
                (row['clock'], row['state'], row['sound'], row['screen']), (report['clock'], report['state'], len(report['sound']), report['screen'])
            )
            self.assertEqual({name: row[name] for name in report['registers']}, report['registers'])
        self.assertEqual(found[0], {'name': 'bad', 'state': 'fault 36 RamSize', 'is_report': False})
        self.assertEqual(self.answer('table', '--of', 'name,line1', *paths[:1])['reports'], [{'name': 'hello', 'line1': 'HI', 'is_report': True}])


if __name__ == '__main__':
    unittest.main()
