"""The module that probes/README.md shows, built by its command and run."""

import os
import re
import subprocess
import sys
import tempfile
import unittest

PROBES = os.path.dirname(os.path.dirname(os.path.dirname(os.path.abspath(__file__))))
sys.path.append(os.path.join(PROBES, "c", "test"))
# pylint: disable=wrong-import-position
from calls import Call, spell_file  # noqa: E402


class Readme(unittest.TestCase):
    """What the README shows works."""

    def test_the_module(self) -> None:
        with open(os.path.join(PROBES, "README.md"), encoding="utf-8") as readme:
            found = re.search(r"```systemverilog\n(.*?)```\n\n```\n(.*?)```", readme.read(), re.DOTALL)
        assert found is not None
        module, command = found.groups()
        with tempfile.TemporaryDirectory() as folder:
            with open(os.path.join(folder, "testbench.sv"), "w", encoding="utf-8") as source:
                source.write(module)
            built = subprocess.run(["sh", "-c", command], cwd=folder, env={**os.environ, "PROBES": PROBES},
                                   stdout=subprocess.PIPE, stderr=subprocess.STDOUT, text=True, check=False)
            self.assertEqual(built.returncode, 0, built.stdout)
            subprocess.run([os.path.join(folder, "obj_dir", "Vtestbench")], cwd=folder, check=True,
                           stdout=subprocess.DEVNULL)
            with open(os.path.join(folder, "run.probes"), "rb") as probes:
                self.assertEqual(probes.read(), spell_file(1, 0, [
                    Call("commit", 0, 1, [0x8000_0000, 0x00500093, 5])]))


if __name__ == "__main__":
    unittest.main()
