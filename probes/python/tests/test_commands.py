"""The commands that work on files alone: info, close, merge, cut, image, lint."""

from __future__ import annotations

import io
import shutil
import subprocess
import unittest
from dataclasses import replace
from operator import itemgetter
from random import Random
from unittest.mock import patch

from difftest_probes import Beat, Commit, Drain, Load, Reader, keyed, read
from difftest_probes import reader as reader_module
from difftest_probes import writer as writer_module
from difftest_probes.isa import assembler as asm
from difftest_probes.ordered import in_order

from .support import CommandCase, bytes_of, random_records
from .test_elf import COMPILER, small_elf

DRAIN = Drain(0, 10, 0x80000000, 1, 1, b"\7" + bytes(63))
LOAD = Load(1, 12, 0x80000000, 0x3, 7, 12, 0x80000000)
# Hart 1 reads in cycle 12 what hart 0 has drained in cycle 10; hart 0 goes on to cycle 20.
RUN = [Beat(1, 1), LOAD, Beat(0, 1), DRAIN, Beat(0, 20), Beat(1, 30)]


def words_of(*words: int) -> bytes:
    """Instructions as bytes."""
    return b"".join(word.to_bytes(4, "little") for word in words)


class Info(CommandCase):
    """What `info` says."""

    def test_whole(self) -> None:
        path = self.put("run", bytes_of(RUN, 3, 2, True))
        status, text = self.run_command("info", path)
        self.assertEqual(status, 0)
        self.assertEqual(
            text.splitlines(),
            [
                "version=2 harts=3 flags=1 Sv48",
                "hart 0 records=3 first=1 last=20 Drain=1 Beat=2",
                "hart 1 records=3 first=1 last=30 Load=1 Beat=2",
                "hart 2 records=0",
                "records=6 writes=1",
                "END count=6",
            ],
        )

    def test_fault(self) -> None:
        data = bytearray(bytes_of([Beat(0, 1), DRAIN], 1))
        # The line's address is moved to a device.
        data[16 + 10 + 10 : 16 + 10 + 18] = (0x10000000).to_bytes(8, "little")
        status, text = self.run_command("info", self.put("run", bytes(data)))
        self.assertEqual(status, 1)
        last = text.splitlines()[-1]
        self.assertTrue(
            last.startswith("MALFORMED offset=26 record 1: line=0x10000000 is not a multiple of 64")
        )

    def test_cut_and_header(self) -> None:
        data = bytes_of(RUN, 2)
        status, text = self.run_command("info", self.put("run", data[:-12]))
        self.assertEqual(status, 1)
        self.assertIn("difftest-probes close", text)
        status, text = self.run_command("info", self.put("run", data[:10]))
        self.assertEqual((status, text), (1, "MALFORMED offset=10 the header: harts is cut short\n"))

    def test_limit(self) -> None:
        with patch.object(reader_module, "MOST_RECORDS", 4):
            status, text = self.run_command("info", self.put("run", bytes_of(RUN, 2)))
        self.assertEqual((status, text.splitlines()[-1]), (1, "LIMIT records=5"))


class Close(CommandCase):
    """What stays of a file that is cut."""

    def test_drops_what_is_not_settled(self) -> None:
        # Hart 0's records are cut off behind cycle 1: the load of cycle 12 may have read its drain.
        path = self.put("run", bytes_of(RUN[:3], 2)[:-9])
        status, _ = self.run_command("close", path)
        self.assertEqual((status, self.records_of("run")), (0, ()))
        path = self.put("run", bytes_of(RUN[:5], 2)[:-4])
        status, text = self.run_command("close", path)
        self.assertEqual((status, self.records_of("run")), (0, (RUN[0], RUN[2], RUN[3])))
        self.assertEqual(text, f"{path}: closed with 3 records, all below cycle 12; 2 more are not settled\n")

    def test_a_hart_without_records_settles_nothing(self) -> None:
        path = self.put("run", bytes_of(RUN, 3)[:-9])
        self.run_command("close", path)
        self.assertEqual(self.records_of("run"), ())

    def test_leaves_a_whole_file(self) -> None:
        data = bytes_of(RUN, 2, 2)
        path = self.put("run", data)
        status, _ = self.run_command("close", path, "-o", self.path("out"))
        self.assertEqual((status, self.get("run"), self.get("out")), (0, data, data))
        self.run_command("close", path)
        self.assertEqual(self.get("run"), data)

    def test_refusals_change_nothing(self) -> None:
        data = bytes_of(RUN, 2)
        for broken in (data[:15], data + b"\0", data[:16] + b"\xee" + data[17:], data[:-1] + b"\1"):
            path = self.put("run", broken)
            status, _ = self.run_command("close", path)
            self.assertEqual((status, self.get("run")), (2, broken))
        with patch.object(reader_module, "MOST_RECORDS", 4):
            self.assertEqual(self.run_command("close", self.put("run", data[:-9]))[0], 2)
        self.assertIn("cut --fit", self.said)


class Merge(CommandCase):
    """Several files as one."""

    def test_by_hart(self) -> None:
        records = random_records(Random(21), 80, 4)
        for version in (1, 2):
            names = []
            for hart in range(4):
                mine = [record for record in records if record.hart == hart]
                names.append(self.put(f"hart{hart}", bytes_of(mine, 4, version, True)))
            status, _ = self.run_command("merge", self.path("out"), *names)
            file = read(self.path("out"))
            self.assertEqual((status, file.header), (0, (4, version, True)))
            self.assertEqual(len(file.records), 80)
            for hart in range(4):
                mine = [record for record in records if record.hart == hart]
                self.assertEqual([record for record in file.records if record.hart == hart], mine)

    def test_interleaves_by_stamp(self) -> None:
        one = self.put("one", bytes_of([Beat(0, n) for n in range(0, 50, 2)], 2))
        two = self.put("two", bytes_of([Beat(1, n) for n in range(1, 50, 2)], 2))
        self.run_command("merge", "--to", "2", self.path("out"), one, two)
        self.assertEqual([record.stamp for record in self.records_of("out")], list(range(50)))
        self.assertEqual(read(self.path("out")).header.version, 2)

    def test_count(self) -> None:
        one = self.put("one", bytes_of([Beat(0, 1), Beat(1, 2)], 2))
        two = self.put("two", bytes_of([Beat(0, 3)], 1))
        status, _ = self.run_command("merge", "--count", self.path("out"), one, two)
        self.assertEqual(status, 0)
        self.assertEqual(self.records_of("out"), (Beat(0, 1), Beat(1, 2), Beat(2, 3)))

    def test_refusals(self) -> None:
        one = self.put("one", bytes_of([Beat(0, 1)], 2))
        two = self.put("two", bytes_of([Beat(0, 2)], 2))
        self.assertEqual(self.run_command("merge", self.path("out"), one, two)[0], 2)
        self.assertIn("both have records of hart 0", self.said)
        wide = self.put("wide", bytes_of([Beat(1, 2)], 2, 1, True))
        self.assertEqual(self.run_command("merge", self.path("out"), one, wide)[0], 2)
        eight = self.put("eight", bytes_of([], 8))
        self.assertEqual(self.run_command("merge", "--count", self.path("out"), one, eight)[0], 2)
        with self.assertRaises(FileNotFoundError):
            self.get("out")


class Cut(CommandCase):
    """The front of a file."""

    def test_until(self) -> None:
        path = self.put("run", bytes_of(RUN, 2, 2))
        status, _ = self.run_command("cut", "--until", "12", path, self.path("out"))
        self.assertEqual((status, self.records_of("out")), (0, tuple(RUN[:4])))

    def test_until_of_a_cut_file(self) -> None:
        path = self.put("run", bytes_of(RUN[:5], 2)[:-9])
        self.assertEqual(self.run_command("cut", "--until", "11", path, self.path("out"))[0], 0)
        self.assertEqual(self.records_of("out"), (RUN[0], RUN[2], RUN[3]))
        self.assertEqual(self.run_command("cut", "--until", "12", path, self.path("out"))[0], 2)
        self.assertIn("the last cycle that can be kept is 11", self.said)

    def test_fit(self) -> None:
        path = self.put("run", bytes_of(RUN, 2))
        for name, most in (("MOST_RECORDS", 5), ("MOST_WRITES", 1)):
            with patch.object(reader_module, name, most), patch.object(writer_module, name, most):
                status, _ = self.run_command("cut", "--fit", path, self.path("out"))
            wanted = (RUN[0], RUN[2], RUN[3]) if name == "MOST_RECORDS" else tuple(RUN)
            self.assertEqual((status, self.records_of("out")), (0, wanted))

    def test_in_place(self) -> None:
        path = self.put("run", bytes_of(RUN, 2))
        self.run_command("cut", "--until", "1", path, path)
        self.assertEqual(self.records_of("run"), (RUN[0], RUN[2]))


class Ordered(unittest.TestCase):
    """Records in the order of keys."""

    def test_is_a_sort_that_keeps_little(self) -> None:
        random = Random(23)
        for harts in (1, 3, 8):
            records = random_records(random, 400, harts)
            found = list(in_order(Reader(io.BytesIO(bytes_of(records, harts)))))
            self.assertEqual(found, sorted(keyed(records), key=itemgetter(0)))
        # Of two harts that go on side by side, the first records come long before the last was read.
        reader = Reader(io.BytesIO(bytes_of([Beat(n % 2, n) for n in range(1000)], 2)))
        next(in_order(reader))
        self.assertLess(reader.count, 200)


class ImageAndLint(CommandCase):
    """ELF files and images."""

    def test_image(self) -> None:
        elf = self.put("elf", small_elf([(0x80000000, b"code", 4)]))
        self.assertEqual(self.run_command("image", elf, self.path("out"))[0], 0)
        self.assertEqual(self.get("out"), b"code")
        elf = self.put("elf", small_elf([(0x1000, b"rom", 3)]))
        self.assertEqual(self.run_command("image", elf, self.path("out"))[0], 2)
        self.assertIn("not inside RAM", self.said)

    def test_lint_follows_jumps(self) -> None:
        image = words_of(
            asm.branch("eq", 1, 2, 16),
            asm.csr("write", 0x3B0, 0, 1),
            asm.jal(0, 12),
            0x00000053,  # fadd.s, which nothing reaches
            asm.csr("set", 0xC00, 1, 2),
            asm.csr("set", 0x301, 1, 0),
            asm.jal(0, 0),
        )
        status, text = self.run_command("lint", self.put("image", image))
        lines = text.splitlines()
        self.assertEqual(status, 1)
        self.assertEqual(len(lines), 4, text)
        self.assertTrue(lines[0].startswith("fault 80000004: "), text)
        self.assertIn("register 3b0 (pmpaddr: PMP) is not in the profile", lines[0])
        self.assertIn("register c00 (cycle) is read-only", lines[1])
        self.assertTrue(lines[2].startswith("note 80000014: "), text)
        self.assertIn("reads as 8000000000141105", lines[2])
        self.assertIn("2 outside the profile", lines[3])

    @unittest.skipUnless(shutil.which(COMPILER), f"there is no {COMPILER}")
    def test_lint_of_an_elf(self) -> None:
        """All code is looked at, and a place is named by the last symbol before it."""
        text = ".globl _start\n_start: j _start\nsetup: nop\n.word 0x3b001073\n.balign 16, 0\nlater: .word 0x53\n"
        source, elf = self.put("start.S", text.encode()), self.path("out.elf")
        flags = ["-march=rv64imac_zicsr", "-mabi=lp64", "-nostdlib", "-Wl,-Ttext=0x80000000"]
        subprocess.run([COMPILER, *flags, source, "-o", elf], check=True, stderr=subprocess.DEVNULL)
        status, text = self.run_command("lint", elf)
        lines = text.splitlines()
        self.assertEqual((status, len(lines)), (1, 3), text)
        self.assertTrue(lines[0].startswith("fault 80000004 <setup+0x2>: "), text)
        self.assertTrue(lines[1].startswith("fault 80000010 <later>: "), text)

    def test_lint_clean(self) -> None:
        image = words_of(asm.addi(1, 0, 5), asm.csr("write", 0x305, 0, 1), asm.MRET)
        status, text = self.run_command("lint", self.put("image", image))
        self.assertEqual((status, len(text.splitlines())), (0, 1))

    def test_lint_of_16_bit_forms(self) -> None:
        # c.nop, and then c.fld, which belongs to the floats.
        status, text = self.run_command("lint", self.put("image", b"\x01\x00\x00\x20"))
        self.assertEqual(status, 1)
        self.assertIn("fault 80000002: ", text)
        self.assertIn("floats", text)


class Words(CommandCase):
    """Words that are wrong, and files that are not there."""

    def test_missing_file(self) -> None:
        self.assertEqual(self.run_command("info", self.path("none"))[0], 2)
        self.assertIn("none", self.said)

    def test_no_command(self) -> None:
        with self.assertRaises(SystemExit) as caught, patch("sys.stderr", io.StringIO()):
            self.run_command()
        self.assertEqual(caught.exception.code, 2)

    def test_records_are_values(self) -> None:
        self.assertEqual(replace(DRAIN, count=1), DRAIN)
        with self.assertRaises(AttributeError):
            DRAIN.count = 2  # type: ignore[misc]
        self.assertEqual(len({Commit(0, 1, 2, 3, 4), Commit(0, 1, 2, 3, 4)}), 1)


if __name__ == "__main__":
    unittest.main()
