"""Long files: `info` takes the same memory whatever their length."""

from __future__ import annotations

import os
import subprocess
import sys
import unittest
from typing import Callable

from difftest_probes import Beat, Commit, Header
from difftest_probes.records import MOST_RECORDS
from difftest_probes.short_form import MOST_KEPT
from difftest_probes.spelling import spell, spell_end, spell_short

from .support import IS_WHOLE, FolderCase

# Runs a command, and then says how much memory it took at most, in kibibytes.
MEASURED = """
import resource, sys
from difftest_probes.commands.main import main
status = main(sys.argv[1:])
print("memory", resource.getrusage(resource.RUSAGE_SELF).ru_maxrss)
sys.exit(status)
"""
RECORDS = MOST_RECORDS if IS_WHOLE else 150_000
MOST_KIBIBYTES_MORE = 4096


def thousand_beats(_first: int) -> bytes:
    """A thousand records of version 1."""
    return spell(Beat(0, 0)) * 1000


def thousand_commits(first: int) -> bytes:
    """A thousand records of version 2, with values that no other record has."""
    return b"".join(
        spell_short(Commit(0, 0, 0x80000000, 0x13, (first + n) << 40 | 1), 0) for n in range(1000)
    )


class Memory(FolderCase):
    """What a command takes at most."""

    def memory_of_info(self, version: int, records: int, thousand: Callable[[int], bytes]) -> int:
        """The memory of `info` over a file of so many records, written by the thousand."""
        with open(self.path("run"), "wb") as out:
            out.write(Header(1, version).spell())
            for first in range(0, records, 1000):
                out.write(thousand(first))
            out.write(spell_end(records))
        words = [sys.executable, "-c", MEASURED, "info", self.path("run")]
        folder = os.path.dirname(os.path.dirname(os.path.abspath(__file__)))
        done = subprocess.run(words, stdout=subprocess.PIPE, cwd=folder, check=True)
        lines = done.stdout.decode().splitlines()
        self.assertEqual(lines[-2], f"END count={records}")
        return int(lines[-1].split()[1])

    def test_constant(self) -> None:
        records = RECORDS // 1000 * 1000
        for version, least, thousand in ((1, 2000, thousand_beats), (2, MOST_KEPT, thousand_commits)):
            least = least // 1000 * 1000 + 1000
            more = self.memory_of_info(version, records, thousand)
            self.assertLess(more, self.memory_of_info(version, least, thousand) + MOST_KIBIBYTES_MORE)


if __name__ == "__main__":
    unittest.main()
