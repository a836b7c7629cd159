"""The programs that probes/README.md shows, compiled and run."""

import os
import re
import shutil
import subprocess
import tempfile
import unittest

from calls import PROBES, Call, spell_file
from difftest_probes import Op, PermissionEvent, PermissionFile

COMPILER = shutil.which("cc") or shutil.which("gcc") or shutil.which("clang")


def blocks(language: str) -> "list[str]":
    """The code of this language in the README."""
    with open(os.path.join(PROBES, "README.md"), encoding="utf-8") as readme:
        return re.findall(rf"```{language}\n(.*?)```", readme.read(), re.DOTALL)


class Readme(unittest.TestCase):
    """What the README shows works."""

    def run_program(self, number: int, name: str) -> bytes:
        """The file that the program of this number writes by this name."""
        with tempfile.TemporaryDirectory() as folder:
            with open(os.path.join(folder, "testbench.c"), "w", encoding="utf-8") as source:
                source.write(blocks("c")[number])
            subprocess.run([str(COMPILER), "-I", os.path.join(PROBES, "c"), "testbench.c", "-o", "testbench"],
                           cwd=folder, check=True)
            subprocess.run([os.path.join(folder, "testbench")], cwd=folder, check=True)
            with open(os.path.join(folder, name), "rb") as written:
                return written.read()

    @unittest.skipIf(COMPILER is None, "there is no C compiler by the names cc, gcc and clang")
    def test_the_program(self) -> None:
        self.assertEqual(self.run_program(0, "run.probes"), spell_file(1, 0, [
            Call("commit", 0, 1, [0x8000_0000, 0x00500093, 5])]))

    @unittest.skipIf(COMPILER is None, "there is no C compiler by the names cc, gcc and clang")
    def test_the_permissions(self) -> None:
        self.assertEqual(self.run_program(1, "run.permissions"), PermissionFile(2, (
            PermissionEvent(Op.GRANT_WRITE, 0, 6, 0x8000_0100),
            PermissionEvent(Op.REVOKE, 0, 11, 0x8000_0100),
            PermissionEvent(Op.GRANT_READ, 1, 11, 0x8000_0100))).spell())


if __name__ == "__main__":
    unittest.main()
