"""The lines of records, by docs/REPORT.md."""

from __future__ import annotations

import unittest

from difftest_probes import (
    Atomic,
    Beat,
    Commit,
    Csrs,
    Drain,
    Key,
    Load,
    Record,
    Refill,
    Regs,
    Store,
    Trap,
    line_text,
)

KEY = Key(12, 1, 30)
ZERO = "0" * 16


class Lines(unittest.TestCase):
    """One line of each kind, written by hand."""

    def assert_line(self, record: Record, text: str) -> None:
        """Compares a record's line with the text behind its key."""
        self.assertEqual(line_text(KEY, record), f"12.1.30 {text}")

    def test_instructions(self) -> None:
        self.assert_line(
            Commit(1, 12, 0x80000000, 0x00500093, 5),
            "Commit pc=0000000080000000 bits=00500093 value=0000000000000005",
        )
        self.assert_line(
            Trap(1, 12, 0x80000004, 0x1, 1 << 63 | 7, 0x10),
            "Trap pc=0000000080000004 bits=00000001 cause=8000000000000007 tval=0000000000000010",
        )
        self.assert_line(
            Load(1, 12, 0x80000000, 0x3, 0xAB, 11, 0x80000100),
            "Load pc=0000000080000000 bits=00000003 value=00000000000000ab at=11 paddr=0000000080000100",
        )
        self.assert_line(
            Store(1, 12, 0x80000000, 0x23, 0x80000100, 0xCD),
            "Store pc=0000000080000000 bits=00000023 paddr=0000000080000100 value=00000000000000cd",
        )
        self.assert_line(
            Atomic(1, 12, 0x80000000, 0x2F, 1, 0x80000100, 8, 1, 0xEF),
            "Atomic pc=0000000080000000 bits=0000002f value=0000000000000001 paddr=0000000080000100"
            " width=8 wrote=1 new=00000000000000ef",
        )

    def test_lines_and_marks(self) -> None:
        content = b"\x07\xff" + bytes(62)
        self.assert_line(
            Drain(1, 12, 0x80000100, 3, 10, content),
            "Drain line=0000000080000100 mask=0000000000000003 count=10 bytes=07ff" + "00" * 62,
        )
        self.assert_line(
            Refill(1, 12, 0x80000100, content), "Refill line=0000000080000100 bytes=07ff" + "00" * 62
        )
        self.assert_line(Beat(1, 12), "Beat")

    def test_registers(self) -> None:
        values = (1,) + (0,) * 29 + (0xFF,)
        numbers = ",".join(["0000000000000001"] + [ZERO] * 29 + ["00000000000000ff"])
        self.assert_line(Regs(1, 12, 0x80000000, values), f"Regs pc=0000000080000000 x={numbers}")
        numbers = ",".join(["0000000a00000000"] + [ZERO] * 16)
        self.assert_line(Csrs(1, 12, 3, (0xA00000000,) + (0,) * 16), f"Csrs mode=3 v={numbers}")

    def test_keys(self) -> None:
        self.assertEqual(str(KEY), "12.1.30")
        self.assertEqual(Key.of("12.1.30"), KEY)
        self.assertLess(Key(9, 7, 0), Key(10, 0, 0))


if __name__ == "__main__":
    unittest.main()
