"""The records that a SystemVerilog module writes through the DPI-C package, under Verilator."""

import os
import signal
import subprocess
import sys
import tempfile
import unittest

HERE = os.path.dirname(os.path.abspath(__file__))
sys.path.append(os.path.join(os.path.dirname(os.path.dirname(HERE)), "c", "test"))
# pylint: disable=wrong-import-position
from calls import OK, SV48, VERSION_2, Call, read, spell_file  # noqa: E402

EVERY_KIND = os.environ["EVERY_KIND"]
PC, LINE, GREAT = 0x8000_0010, 0x8000_0040, 0xFEDC_BA98_7654_3210
ONES = 2**64 - 1
BYTES = b"\xaa" + bytes(62) + b"\xbb"

# What every_kind.sv writes, and what it is answered to the calls behind it.
WRITTEN = [
    Call("commit", 0, 1, [PC, 0x00500093, GREAT]),
    Call("trap", 1, 2, [PC, 0x73, GREAT >> 1, GREAT]),
    Call("regs", 0, 3, [PC, *(GREAT + place for place in range(31))]),
    Call("csrs", 1, 4, [3, *(GREAT << place & ONES for place in range(17))]),
    Call("load", 0, 5, [PC, 0x0053B503, GREAT, 4, LINE]),
    Call("store", 1, 6, [PC, 0x00A3B023, LINE, GREAT]),
    Call("atomic", 0, 7, [PC, 0x00A3B5AF, GREAT, LINE, 8, 1, GREAT + 1]),
    Call("drain", 1, 8, [LINE, 0x8000_0000_0000_0001, 65535, BYTES]),
    Call("refill", 0, 9, [LINE, BYTES]),
    Call("beat", 1, ONES),
    Call("atomic", 0, 10, [PC, 0x00A3A5AF, GREAT, LINE, 4, 1, GREAT & 0xFFFF_FFFF]),
    Call("store", 0, 11, [PC, 0x00A38023, LINE + 3, 0x10]),
    Call("drain", 0, 11, [LINE, 8, 1, b"\0\0\0\x10" + bytes(60)]),
]
REFUSED = [
    "1 13 record 13, hart 0, stamp 12, Load: at=13 (0xd), must be at most the stamp",
    "2 13 record 13, hart 0, stamp 10, Beat: stamp=10 (0xa), must be at least that of the hart's last record",
]


class EveryKind(unittest.TestCase):
    """One module under Verilator."""

    def run_module(self, flags: int, *more: str, status: int = 0) -> "tuple[list[str], bytes]":
        """What the module shows, and the file that it writes."""
        with tempfile.TemporaryDirectory() as folder:
            path = os.path.join(folder, "probes")
            done = subprocess.run([EVERY_KIND, f"+path={path}", f"+flags={flags}", *more],
                                  stdout=subprocess.PIPE, text=True, check=False)
            self.assertEqual(done.returncode, status)
            with open(path, "rb") as file:
                return done.stdout.splitlines(), file.read()

    def test_every_kind(self) -> None:
        for flags in (0, SV48, VERSION_2, SV48 | VERSION_2):
            shown, file = self.run_module(flags)
            self.assertEqual([line.split(" ")[0] for line in shown[:12]], [str(OK)] * 12)
            self.assertEqual([line.split(" ")[1] for line in shown[10:12]], ["11", "13"])
            self.assertEqual(shown[12:14], REFUSED)
            # The close says why the first record was left out.
            self.assertEqual(shown[14].split(" ")[:2], ["1", "13"])
            self.assertEqual(file, spell_file(2, flags, WRITTEN))
            found = read(file)
            assert found is not None
            self.assertEqual(len(found.records), 13)

    def test_settled_end(self) -> None:
        shown, file = self.run_module(0, "+settle")
        self.assertEqual(shown[14].split(" ")[:2], ["5", "10"])
        self.assertEqual(file, spell_file(2, 0, [call for call in WRITTEN if call.stamp < 11]))

    def test_fatal(self) -> None:
        """Verilator aborts, and the file ends settled all the same."""
        _, file = self.run_module(VERSION_2, "+fatal", status=-signal.SIGABRT)
        self.assertEqual(file, spell_file(2, VERSION_2, [call for call in WRITTEN if call.stamp < 11]))

    def test_no_writer(self) -> None:
        done = subprocess.run([EVERY_KIND, "+path=/dev/full"], stdout=subprocess.PIPE, text=True, check=True)
        self.assertEqual(done.stdout.splitlines()[:15], ["5 0 there is no writer: dtp_open gave NULL"] * 15)


if __name__ == "__main__":
    unittest.main()
