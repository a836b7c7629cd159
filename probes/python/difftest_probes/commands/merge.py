"""Makes one file of several, such as one for each hart or core.

How records of different harts are interleaved means nothing; they are taken by their stamps, so that
the judge needs little memory. No two files may have records of one hart, unless --count gives the harts
of each file the next numbers: the first file's harts come first.
"""

from __future__ import annotations

import argparse
import contextlib
import heapq
from dataclasses import replace
from typing import BinaryIO, Dict, Iterator, List, Tuple

from ..outputs import replacing
from ..reader import Reader
from ..records import MOST_HARTS, Record
from ..writer import ProbeError, Writer


def add_words(parser: argparse.ArgumentParser) -> None:
    """The words of the command."""
    parser.add_argument("output", help="the file to write")
    parser.add_argument("files", nargs="+", help="the files to read, each with its End")
    parser.add_argument("--count", action="store_true", help="number the harts through all files")
    parser.add_argument("--to", type=int, choices=(1, 2), help="the version to write; else the first file's")


def _numbered(reader: Reader, base: int) -> Iterator[Record]:
    for record in reader:
        yield replace(record, hart=record.hart + base) if base else record


def _merged(streams: List[Iterator[Record]], names: List[str]) -> Iterator[Record]:
    """The records of all streams, by stamp; no hart is in two of them."""

    def marked(number: int) -> Iterator[Tuple[int, int, Record]]:
        for record in streams[number]:
            yield record.stamp, number, record

    owners: Dict[int, int] = {}
    merged = heapq.merge(*(marked(n) for n in range(len(streams))), key=lambda item: item[:2])
    for _, number, record in merged:
        owner = owners.setdefault(record.hart, number)
        if owner != number:
            raise ProbeError(f"{names[owner]} and {names[number]} both have records of hart {record.hart}")
        yield record


def _bases(readers: List[Reader], is_counted: bool) -> Tuple[List[int], int]:
    """The number of the first hart of each file, and how many harts there are."""
    bases, total = [0] * len(readers), 0
    for place, reader in enumerate(readers):
        if is_counted:
            bases[place] = total
            total += reader.header.harts
        else:
            total = max(total, reader.header.harts)
    if total > MOST_HARTS:
        raise ProbeError(f"the files have {total} harts; a file has at most {MOST_HARTS}")
    return bases, total


def run(words: argparse.Namespace) -> int:
    """Merges the files."""
    with contextlib.ExitStack() as stack:
        sources: List[BinaryIO] = [stack.enter_context(open(name, "rb")) for name in words.files]
        readers = [Reader(source) for source in sources]
        if len({reader.header.wide for reader in readers}) > 1:
            raise ProbeError("some of the files have the flag of Sv48, and some do not")
        bases, harts = _bases(readers, words.count)
        streams = [_numbered(reader, base) for reader, base in zip(readers, bases)]
        out = stack.enter_context(replacing(words.output))
        version = words.to or readers[0].header.version
        with Writer(out, harts, version, readers[0].header.wide) as writer:
            for record in _merged(streams, words.files):
                writer.write(record)
    print(f"{words.output}: {writer.count} records of {harts} harts")
    return 0
