"""Gives a file that stops too early a settled end.

A record that is cut short goes, and so does each record with a stamp not below the least last stamp of
all harts (a hart without a record counts as 0): another hart may have had an earlier record that is
missing. What stays is judged as it is in the whole file. A file with an End is left as it is. Without
--output the file itself is changed. A file with a fault that is no cut is refused, as is one that is cut
in its header.
"""

from __future__ import annotations

import argparse
import shutil

from ..settled import Front, front_of, write_settled
from ..writer import ProbeError


def add_words(parser: argparse.ArgumentParser) -> None:
    """The words of the command."""
    parser.add_argument("file", help="the file without an End")
    parser.add_argument("-o", "--output", help="where to write the closed file")


def _settle(path: str, front: Front, out: str) -> None:
    kept = write_settled(path, front, out)
    dropped = front.records - kept
    print(f"{out}: closed with {kept} records, all below cycle {front.least}; {dropped} more are not settled")


def run(words: argparse.Namespace) -> int:
    """Closes the file."""
    out = words.output or words.file
    front = front_of(words.file)
    if front.beyond:
        raise ProbeError(f"{front.beyond}: `difftest-probes cut --fit` cuts the file to its limit")
    if not front.has_end:
        _settle(words.file, front, out)
        return 0
    if words.output:
        shutil.copyfile(words.file, out)
    print(f"{words.file}: has its End already, with {front.records} records")
    return 0
