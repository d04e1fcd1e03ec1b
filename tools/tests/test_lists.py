"""The lists that the theorem speaks of: no crate but `streams`, which has all wrappers, can lengthen one or exchange it."""
import os
import shutil
import subprocess
import unittest

from tests.support import TOP, ToolCase, not_run

NOTING = """//! Notes what no read gave and no write took, and failures that didn't come.
#![tactic(auto)]

use streams::byte_input::Failed;
use streams::byte_output::{ByteOutput, write_all};
use streams::heard::Heard;
use streams::kept::Kept;

/// Prints a byte.
fn main(rt: HostRuntime) -> Result<(), Failed> {
    let mut out = Kept::new(rt.stdout());
    let mut input = Heard::new(rt.stdin());
    write_all(&mut out, b"x")?;
    out.log.note(b"x");
    out.failed = true;
    input.log.note(b"x");
    input.ended = true;
    input.failed = true;
    out.flush()
}
"""
REFUSED = [
    f'field `{field}` of struct `{name}` is private'
    for name, fields in (('Kept', ('log', 'failed')), ('Heard', ('log', 'ended', 'failed')))
    for field in fields
]


class Lists(ToolCase):
    """A program of its own over a copy of the crate."""

    def test_a_body_elsewhere_that_notes_is_not_compiled(self) -> None:
        if not shutil.which('rt'):
            not_run('a body that notes what was not read; Rattle compiles it')
            return
        shutil.copytree(f'{TOP}/crates/streams', f'{self.room}/crates/streams', ignore=shutil.ignore_patterns('out'))
        os.makedirs(f'{self.room}/crates/noter/src')
        self.file('crates.txt', 'streams: thiserror\nnoter: streams\n')
        self.file('crates/noter/src/main.rt', NOTING)
        ran = subprocess.run(['rt', 'try'], cwd=f'{self.room}/crates/noter', stdin=subprocess.DEVNULL, capture_output=True, text=True, check=False)
        self.assertEqual(ran.returncode, 1, ran.stdout + ran.stderr)
        for refused in REFUSED:
            self.assertIn(refused, ran.stdout + ran.stderr)


if __name__ == '__main__':
    unittest.main()
