"""Cuts a file so that what stays is judged as in the whole.

--until keeps the records of all cycles up to one: with the stamp of a FAIL line, the FAIL line stays the
same and everything later goes. --fit cuts a file that is beyond the limit of records or writes to what
fits, with a settled end (see close).
"""

from __future__ import annotations

import argparse

from ..settled import front_of, write_kept, write_settled
from ..writer import ProbeError


def add_words(parser: argparse.ArgumentParser) -> None:
    """The words of the command."""
    how = parser.add_mutually_exclusive_group(required=True)
    how.add_argument("--until", type=int, metavar="STAMP", help="the last cycle to keep")
    how.add_argument("--fit", action="store_true", help="keep what fits into the limits")
    parser.add_argument("file", help="the file to read")
    parser.add_argument("output", help="the file to write")


def _until(words: argparse.Namespace) -> int:
    front = front_of(words.file, limited=False)
    if front.cut and front.least <= words.until:
        raise ProbeError(
            f"{words.file} is cut short, and not all harts have reached cycle {words.until}:"
            f" the last cycle that can be kept is {front.least - 1}"
        )
    last: int = words.until
    kept = write_kept(words.file, front, words.output, lambda record: record.stamp <= last)
    print(f"{words.output}: {kept} of {front.records} records, up to cycle {last}")
    return 0


def _fit(words: argparse.Namespace) -> int:
    front = front_of(words.file)
    if front.has_end:
        kept = write_kept(words.file, front, words.output, lambda record: True)
        print(f"{words.output}: all {kept} records fit")
        return 0
    kept = write_settled(words.file, front, words.output)
    print(f"{words.output}: {kept} of {front.records} records, all below cycle {front.least}")
    return 0


def run(words: argparse.Namespace) -> int:
    """Cuts the file."""
    return _fit(words) if words.fit else _until(words)
