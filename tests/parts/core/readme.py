#!/usr/bin/env -S python3 -B
"""Runs the commands of core/README.md, one after the other in one folder, and compares what comes
out with what stands there. The last line is 'N passed, M failed'."""

import os
import sys
import tempfile
from pathlib import Path

TOP = Path(__file__).resolve().parents[3]
sys.path[:0] = [str(TOP / "tests")]
import texts  # noqa: E402

os.chdir(texts.TOP)
suite = texts.Suite()
with tempfile.TemporaryDirectory() as folder:
    for name in "core", "examples":
        os.symlink(f"{texts.TOP}/{name}", f"{folder}/{name}")
    for case in texts.read_cases("core/README.md"):
        for command in case.commands:
            came = texts.run(command.script, folder, "sh", joined=True)
            lines = came[1].decode("utf-8", "backslashreplace").splitlines()
            suite.expect(command.script, [("lines", "\n".join(command.shown), "\n".join(lines))])
suite.end()
