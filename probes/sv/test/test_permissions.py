"""The permission file that a SystemVerilog module writes through the DPI-C package, under Verilator."""

import os
import signal
import subprocess
import sys
import tempfile
import unittest

HERE = os.path.dirname(os.path.abspath(__file__))
sys.path.append(os.path.join(os.path.dirname(os.path.dirname(HERE)), "c", "test"))
# pylint: disable=wrong-import-position
import calls  # noqa: E402,F401 (the folder of the Python package)
from difftest_probes import Op, PermissionEvent, PermissionFile  # noqa: E402

PERMISSIONS = os.environ["PERMISSIONS"]
GREATEST = 2**64 - 1

# What permissions.sv writes, and what it is answered.
FILE = PermissionFile(2, (
    PermissionEvent(Op.GRANT_WRITE, 0, 6, 0x80000100),
    PermissionEvent(Op.REVOKE, 0, 0x010B, 0x80000100),
    PermissionEvent(Op.GRANT_READ, 1, GREATEST, 0x83FFFFC0),
)).spell()
FELL = "event 3, hart 0, stamp 11: stamp=11 (0xb), must be at least that of the last event, of any hart"
HART = f"event 3, hart 2, stamp {GREATEST}: hart=2 (0x2), must be below the harts of the file"
SHOWN = ["0 1 ", "0 2 ", "0 3 ", f"2 3 {FELL}", f"1 3 {HART}"]


class Permissions(unittest.TestCase):
    """One module under Verilator."""

    def run_module(self, *more: str, status: int = 0) -> "tuple[list[str], bytes]":
        """What the module shows, and the file that it writes."""
        with tempfile.TemporaryDirectory() as folder:
            path = os.path.join(folder, "permissions")
            done = subprocess.run([PERMISSIONS, f"+path={path}", *more], stdout=subprocess.PIPE, text=True,
                                  check=False)
            self.assertEqual(done.returncode, status)
            with open(path, "rb") as file:
                return done.stdout.splitlines(), file.read()

    def test_events(self) -> None:
        shown, file = self.run_module()
        # The close says why the first event was left out.
        self.assertEqual(shown[:6], [*SHOWN, f"2 3 {HART}"])
        self.assertEqual(file, FILE)

    def test_ends_without_a_close(self) -> None:
        """The file has its End at the exit, where Verilator aborts, and where all files are settled."""
        self.assertEqual(self.run_module("+open")[1], FILE)
        self.assertEqual(self.run_module("+fatal", status=-signal.SIGABRT)[1], FILE)
        shown, file = self.run_module("+settle")
        self.assertEqual(shown[5].split(" ")[:2], ["5", "3"])
        self.assertEqual(file, FILE)

    def test_no_writer(self) -> None:
        done = subprocess.run([PERMISSIONS, "+path=/none/permissions"], stdout=subprocess.PIPE, text=True,
                              check=True)
        self.assertEqual(done.stdout.splitlines()[:6],
                         ["5 0 there is no writer: dtp_open_permissions gave NULL"] * 6)


if __name__ == "__main__":
    unittest.main()
