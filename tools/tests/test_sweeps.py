"""docs/sweeps.md's engines, by the commands that it prints: each run is answered once, also after an interrupt in the midst. What needs
another program than a shell is told as not run if that isn't there."""
from __future__ import annotations

import contextlib
import glob
import importlib.util
import json
import os
import re
import shutil
import signal
import subprocess
import unittest

from tests.support import EXAMPLES, TOOLS, TOP, ToolCase, is_there, members, not_run, until

MANY = 2000  # runs on engines that are there


def printed(start: str) -> str:
    """A command of the page, by how it begins."""
    with open(f'{TOP}/docs/sweeps.md', encoding='utf-8') as file:
        return next(line for line in re.findall(r'`([^`\n]+)`', file.read()) if line.startswith(start))


def killed(session: int) -> list[int]:
    """Kills all processes of a session, and says which there were: GNU parallel gives each of its jobs a group of its own."""
    there = members(session)
    for process in there:
        with contextlib.suppress(ProcessLookupError):
            os.kill(process, signal.SIGKILL)
    return there


class Sweeps(ToolCase):
    """In a folder that has what the page speaks of."""

    def setUp(self) -> None:
        super().setUp()
        from toolbox import program

        for name, target in (('examples', EXAMPLES), ('tools', TOOLS)):
            os.symlink(target, f'{self.room}/{name}')
        self.environment = os.environ | {'PCBOARD': os.path.realpath(program.path()), 'HOME': self.room}

    def parts(self, runs: int, parts: int) -> None:
        """So many runs, one of which is refused, in parts."""
        self.shell(f'examples/sweep/make_runs.py examples/nested.json 1000 {999 + runs} 1 > runs.jsonl; echo x >> runs.jsonl')
        self.shell(f'split -n l/{parts} -d runs.jsonl runs.')

    def shell(self, line: str, **environment: str) -> None:
        """A command that ends with status 0."""
        done = subprocess.run(line, shell=True, capture_output=True, text=True, cwd=self.room, env=self.environment | environment, check=False)
        self.assertEqual(done.returncode, 0, done.stdout + done.stderr)

    def answered(self) -> list[str]:
        """The whole lines of answers."""
        lines = list[str]()
        for path in sorted(glob.glob(f'{self.room}/runs.*.results')):
            with open(path, encoding='ascii') as file:
                lines += [line for line in file if line.endswith('\n')]
        return lines

    def ended_and_gone_on_with(self, line: str, runs: int) -> None:
        """A batch that is killed half-way, and then comes to its end: nothing is lost, and nothing twice."""
        with subprocess.Popen(
            line, shell=True, stdout=subprocess.DEVNULL, stderr=subprocess.DEVNULL, cwd=self.room, env=self.environment, start_new_session=True
        ) as process:
            self.assertTrue(until(lambda: len(self.answered()) >= runs // 2 or process.poll() is not None, 0.05))
            self.assertIsNone(process.poll(), 'it had come to its end')
            self.assertTrue(until(lambda: not killed(process.pid)))
        self.shell(f'{line} --unlock' if line.startswith('snakemake') else 'true')
        self.shell(line)
        self.check(runs)

    def check(self, runs: int) -> None:
        """Each run is answered once, and as without an engine."""
        lines = self.answered()
        self.assertEqual((len(lines), len({json.loads(line)['id'] for line in lines})), (runs, runs))
        with open(f'{self.room}/runs.jsonl', encoding='ascii') as file:
            some = ''.join(file.readlines()[:: runs // 20])
        for line in self.called('batch', 'examples/nested.asm', given=some)[0].splitlines(True):
            self.assertIn(line, lines)

    def test_a_part(self) -> None:
        self.parts(60, 1)
        self.ended_and_gone_on_with('examples/sweep/part examples/nested.asm runs.00', 60)

    def test_slurms_tasks_share_them(self) -> None:
        self.parts(60, 10)
        for task in range(10):
            self.shell('examples/sweep/slurm.sh examples/nested.asm runs', SLURM_ARRAY_TASK_ID=str(task))
        self.check(60)

    def test_gnu_parallel(self) -> None:
        if is_there('parallel', 'a batch by GNU parallel', 'parallel'):
            self.parts(MANY, 10)
            self.ended_and_gone_on_with(printed('parallel '), MANY)

    def test_snakemake(self) -> None:
        if is_there('snakemake', 'a batch by Snakemake', 'snakemake'):
            self.parts(MANY, 10)
            self.ended_and_gone_on_with(printed('snakemake ') + ' --rerun-incomplete', MANY)
            with open(f'{self.room}/runs.jsonl', encoding='ascii') as file:
                self.assertEqual(len(file.readlines()), MANY)

    def test_dask(self) -> None:
        if not importlib.util.find_spec('dask'):
            not_run('a batch by Dask; apt install python3-dask')
            return
        self.parts(MANY, 1)
        command = printed('dask.bag.')
        code = f'import json, sys; sys.path.insert(0, {TOP + "/python"!r}); import dask.bag, zebludor, pathlib; program = pathlib.Path("examples/nested.asm")\n'
        self.file('it.py', f'{code}if __name__ == "__main__":\n    for one in {command}.compute(): print(json.dumps(one, separators=(",", ":")))\n')
        self.shell(f'{shutil.which("python3")} it.py > runs.00.results')
        self.check(MANY)


if __name__ == '__main__':
    unittest.main()
