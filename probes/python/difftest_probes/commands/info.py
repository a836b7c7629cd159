"""Says what is in a probe file, and where and why it is malformed.

Prints the header, a line for each hart, and how the file ends. The offset of a fault is that of the
program's `MALFORMED offset=N`; beside it stand the number of the record, counted from 0 in the order of
the file, and what is wrong with it. Status: 0 for a whole file, 1 for a malformed one or one beyond a
limit.
"""

from __future__ import annotations

import argparse
from collections import Counter
from typing import List, Optional

from ..reader import BeyondLimit, Malformed, Reader
from ..records import KINDS


def add_words(parser: argparse.ArgumentParser) -> None:
    """The words of the command."""
    parser.add_argument("file", help="a probe file of either version")


class _HartFacts:
    """What is counted of one hart."""

    def __init__(self) -> None:
        self.kinds: Counter[str] = Counter()
        self.first: Optional[int] = None
        self.last = 0

    def line(self, hart: int) -> str:
        """The line of the hart."""
        words = [f"hart {hart} records={sum(self.kinds.values())}"]
        if self.first is not None:
            words.append(f"first={self.first} last={self.last}")
        words += [f"{kind.kind}={self.kinds[kind.kind]}" for kind in KINDS if self.kinds[kind.kind]]
        return " ".join(words)


def _ending(reader: Reader, facts: List[_HartFacts]) -> str:
    """Reads the file, and says how it ends."""
    try:
        for record in reader:
            mine = facts[record.hart]
            mine.kinds[record.kind] += 1
            mine.last = record.stamp
            if mine.first is None:
                mine.first = record.stamp
    except Malformed as fault:
        return _fault_text(fault)
    except BeyondLimit as limit:
        return f"LIMIT {limit.what}={limit.number}"
    return f"END count={reader.count}"


def _fault_text(fault: Malformed) -> str:
    text = f"MALFORMED offset={fault.offset} {fault}"
    if fault.is_cut and fault.number is not None:
        text += " (difftest-probes close gives the file an end)"
    return text


def run(words: argparse.Namespace) -> int:
    """Prints what is in the file."""
    with open(words.file, "rb") as stream:
        try:
            reader = Reader(stream)
        except Malformed as fault:
            print(_fault_text(fault))
            return 1
        facts = [_HartFacts() for _ in range(reader.header.harts)]
        ending = _ending(reader, facts)
    wide = " Sv48" if reader.header.wide else ""
    print(
        f"version={reader.header.version} harts={reader.header.harts} flags={int(reader.header.wide)}{wide}"
    )
    for hart, mine in enumerate(facts):
        print(mine.line(hart))
    print(f"records={reader.count} writes={reader.writes}")
    print(ending)
    return 0 if reader.ended else 1
