"""The package beside the built program: dump, convert and the report."""

from __future__ import annotations

import os
import subprocess
import unittest
from random import Random
from typing import List, Tuple

from difftest_probes import ProbeError, Record, check, keyed, line_text
from difftest_probes.program import TOP

from .support import FolderCase, bytes_of, program_or_skip, random_records

DATA = os.path.join(TOP, "crates", "difftest", "data")


class BesideTheProgram(FolderCase):
    """Random files of all kinds through the program."""

    def setUp(self) -> None:
        super().setUp()
        self.program = program_or_skip()

    def answer(self, *words: str) -> Tuple[int, bytes]:
        """The program's status and output."""
        done = subprocess.run([self.program, *words], stdout=subprocess.PIPE, check=False)
        return done.returncode, done.stdout

    def dump_of(self, records: List[Record]) -> bytes:
        """What the dump of these records has to be."""
        lines = [line_text(key, record) for key, record in keyed(records)]
        return "".join(line + "\n" for line in [*lines, f"END count={len(records)}"]).encode()

    def test_dump_and_convert(self) -> None:
        random = Random(11)
        for wide in (False, True):
            records = random_records(random, 1500, 8)
            files = {version: bytes_of(records, 8, version, wide) for version in (1, 2)}
            for version, data in files.items():
                path = self.put("run.probes", data)
                self.assertEqual(self.answer("dump", path), (0, self.dump_of(records)))
                for other, wanted in files.items():
                    self.assertEqual(self.answer("convert", "--to", str(other), path), (0, wanted))

    def test_check(self) -> None:
        image = os.path.join(DATA, "store-load.image")
        report = check(image, os.path.join(DATA, "store-load-pass.probes"), program=self.program)
        self.assertEqual((report.verdict, report.records, report.writes), ("PASS", 10, 1))
        self.assertEqual([str(note.key) for note in report.notes], ["12.1.3"])
        report = check(image, os.path.join(DATA, "store-load-fail.probes"), program=self.program)
        assert report.failure is not None
        self.assertEqual((str(report.failure.key), report.failure.name), ("12.1.3", "LoadSource"))
        self.assertEqual(check(image, self.put("empty", b"")).refusal, "MALFORMED offset=0")

    def test_no_program(self) -> None:
        with self.assertRaises(ProbeError):
            check("a", "b", program=self.path("none"))


if __name__ == "__main__":
    unittest.main()
