"""The records that the adapter of the RISC-V formal interface makes, under Verilator."""

import os
import subprocess
import sys
import tempfile
import unittest

HERE = os.path.dirname(os.path.abspath(__file__))
sys.path.append(os.path.join(os.path.dirname(os.path.dirname(HERE)), "c", "test"))
# pylint: disable=wrong-import-position
from calls import Call, spell_file  # noqa: E402

FORMAL_CHANNEL = os.environ["FORMAL_CHANNEL"]
START, LINE = 0x8000_0000, 0x8000_0040
DOUBLE, WORD = LINE + 8, LINE + 12
OLD, NEW = 0x8000_0001_1111_1111, 0x8000_0004_2222_2222
OLD_WORD, NEW_WORD = 0xFFFF_FFFF_8000_0001, 0x8000_0004
LW, SW, ADD, ADD_ONLY = 0x00032283, 0x00732023, 0x007322AF, 0x0073202F
LR, SC, SWAP_DOUBLE = 0x100322AF, 0x187322AF, 0x087332AF
DRAINED = bytes(12) + NEW_WORD.to_bytes(4, "little") + bytes(48)


def pc_of(cycle: int) -> int:
    """Where the instruction of a cycle stands."""
    return START + 4 * (cycle - 1)


# What formal_channel.sv retires: each word access has the address of the upper word, however it was told.
WRITTEN = [
    Call("load", 0, 1, [pc_of(1), LW, OLD_WORD, 1, WORD]),
    Call("store", 0, 2, [pc_of(2), SW, WORD, NEW_WORD]),
    Call("drain", 0, 2, [LINE, 0xF000, 1, DRAINED]),
    Call("atomic", 0, 3, [pc_of(3), ADD, OLD_WORD, WORD, 4, 1, NEW_WORD]),
    Call("atomic", 0, 4, [pc_of(4), ADD, OLD_WORD, WORD, 4, 1, NEW_WORD]),
    Call("atomic", 0, 5, [pc_of(5), ADD_ONLY, OLD_WORD, WORD, 4, 1, NEW_WORD]),
    Call("atomic", 0, 6, [pc_of(6), LR, OLD_WORD, WORD, 4, 0, 0]),
    Call("atomic", 0, 7, [pc_of(7), SC, 0, WORD, 4, 1, NEW_WORD]),
    Call("atomic", 0, 8, [pc_of(8), SC, 1, WORD, 4, 0, 0]),
    Call("atomic", 0, 9, [pc_of(9), SWAP_DOUBLE, OLD, DOUBLE, 8, 1, NEW]),
]


class FormalChannel(unittest.TestCase):
    """One channel of the interface."""

    def test_upper_words(self) -> None:
        with tempfile.TemporaryDirectory() as folder:
            path = os.path.join(folder, "probes")
            done = subprocess.run([FORMAL_CHANNEL, f"+path={path}"], stdout=subprocess.PIPE, text=True, check=True)
            with open(path, "rb") as file:
                self.assertEqual(file.read(), spell_file(1, 0, WRITTEN))
        self.assertIn("difftest_rvfi: derived are", done.stdout)


if __name__ == "__main__":
    unittest.main()
