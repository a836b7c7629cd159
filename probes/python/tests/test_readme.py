"""What README.md shows: its lines of Python run, and its commands are those that there are."""

from __future__ import annotations

import contextlib
import io
import os
import re
import subprocess
import unittest
from unittest.mock import patch

from difftest_probes.commands.main import COMMANDS, parser

from .support import CommandCase
from .test_commands import words_of

FOLDER = os.path.dirname(os.path.dirname(os.path.abspath(__file__)))


def readme() -> str:
    """The page."""
    with open(os.path.join(FOLDER, "README.md"), encoding="utf-8") as source:
        return source.read()


class Readme(CommandCase):
    """The page, against the package."""

    def test_lines_of_python(self) -> None:
        match = re.search(r"```python\n(.*?)```", readme(), re.DOTALL)
        assert match
        self.put("run.image", words_of(0x00500093))
        out, before = io.StringIO(), os.getcwd()
        os.chdir(os.path.dirname(self.path("run.image")))
        try:
            with patch.dict(os.environ, {"DIFFTEST_PROGRAM": self.program}), contextlib.redirect_stdout(out):
                exec(match.group(1), {})
        finally:
            os.chdir(before)
        self.assertEqual(
            out.getvalue(), "PASS None [Commit(hart=0, stamp=1, pc=2147483648, bits=5243027, value=5)]\n"
        )

    def test_commands(self) -> None:
        shown = set(re.findall(r"^\| `([\w-]+)", readme(), re.MULTILINE))
        modules = {command.__name__.rsplit(".", 1)[1] for command in COMMANDS}
        self.assertEqual(shown, {name.replace("_", "-") for name in modules})
        for name in shown:
            with self.assertRaises(SystemExit) as caught, contextlib.redirect_stdout(io.StringIO()):
                parser().parse_args([name, "--help"])
            self.assertEqual(caught.exception.code, 0)

    def test_script(self) -> None:
        script = os.path.join(FOLDER, "difftest-probes")
        done = subprocess.run([script, "info", self.put("none", b"")], stdout=subprocess.PIPE, check=False)
        self.assertEqual(
            (done.returncode, done.stdout), (1, b"MALFORMED offset=0 the header: magic is cut short\n")
        )


if __name__ == "__main__":
    unittest.main()
