"""Writes a run as waves (VCD), to be opened beside the design's own.

Each hart has a scope with the kind of its last record, as text and by its tag, its number, and the fields
pc, bits, value, paddr, at and line; `fail` is 1 in the cycle of the FAIL. One cycle of the run is --period
nanoseconds.
Where a hart has several records in one cycle, they follow each other within the cycle.
"""

from __future__ import annotations

import argparse
import itertools
from collections import Counter
from typing import BinaryIO, Dict, Iterator, Optional, Tuple

from ..ordered import Row, in_order
from ..outputs import replacing
from ..program import check
from ..reader import Reader
from ..records import Key, Record
from ..writer import ProbeError

FIELDS = (
    ("tag", 8),
    ("seq", 32),
    ("pc", 64),
    ("bits", 32),
    ("value", 64),
    ("paddr", 64),
    ("at", 64),
    ("line", 64),
)
# Kinds are shown as text; a text of VCD has no blanks.
KIND = "kind"
# Readers of waves have times of 63 bits.
MOST_TIME = 1 << 63


def add_words(parser: argparse.ArgumentParser) -> None:
    """The words of the command."""
    parser.add_argument("image", help="the image of the run")
    parser.add_argument("probes", help="its probe file")
    parser.add_argument("-o", "--output", required=True, help="the waves to write")
    parser.add_argument("--period", type=int, default=10, metavar="NS", help="nanoseconds of a cycle: 10")
    parser.add_argument("--from", dest="first", type=int, default=0, metavar="C", help="the first cycle")
    parser.add_argument("--to", dest="last", type=int, metavar="C", help="the last cycle")
    parser.add_argument("--program", help="the path of difftest")


class _Names:
    """The short names of all signals."""

    def __init__(self, harts: int) -> None:
        signals = [(hart, name) for hart in range(harts) for name in (KIND, *dict(FIELDS))]
        self.of: Dict[Tuple[int, str], str] = {signal: _code(n) for n, signal in enumerate(signals)}
        self.fail = _code(len(signals))


def _code(number: int) -> str:
    """A number in the printable characters that VCD allows."""
    text = ""
    while True:
        text += chr(33 + number % 94)
        number //= 94
        if not number:
            return text


def _head(harts: int, names: _Names) -> Iterator[str]:
    yield "$timescale 1 ns $end"
    yield "$scope module difftest $end"
    yield f"$var wire 1 {names.fail} fail $end"
    for hart in range(harts):
        yield f"$scope module hart{hart} $end"
        yield f"$var string 1 {names.of[hart, KIND]} kind $end"
        for name, bits in FIELDS:
            yield f"$var wire {bits} {names.of[hart, name]} {name} $end"
        yield "$upscope $end"
    yield "$upscope $end"
    yield "$enddefinitions $end"
    yield "#0"
    yield f"0{names.fail}"


def _changes(key: Key, record: Record, names: _Names) -> Iterator[str]:
    """What a record shows. A field that its kind has not is unknown."""
    yield f"s{record.kind} {names.of[key.hart, KIND]}"
    for name, bits in FIELDS:
        value: Optional[int] = key.seq if name == "seq" else getattr(record, name, None)
        spelled = "x" if value is None else f"{value & (1 << bits) - 1:b}"
        yield f"b{spelled} {names.of[key.hart, name]}"


def _inside(rows: Iterator[Row], first: int, last: Optional[int]) -> Iterator[Row]:
    """The rows of the wanted cycles."""
    for row in rows:
        if last is not None and row[0].stamp > last:
            return
        if row[0].stamp >= first:
            yield row


def _moments(rows: Iterator[Row], period: int) -> Iterator[Tuple[int, Key, Record]]:
    """The rows with their times; of several of a hart in one cycle, each has its part of the cycle."""
    for stamp, cycle in itertools.groupby(rows, key=lambda row: row[0].stamp):
        together = list(cycle)
        counts = Counter(key.hart for key, _ in together)
        taken: Counter[int] = Counter()
        placed = []
        for key, record in together:
            time = stamp * period + taken[key.hart] * period // counts[key.hart]
            taken[key.hart] += 1
            placed.append((time, key, record))
        if placed[-1][0] >= MOST_TIME:
            raise ProbeError("the last cycles are too great for the times of waves")
        yield from sorted(placed, key=lambda item: item[:2])


def _write(out: BinaryIO, harts: int, rows: Iterator[Tuple[int, Key, Record]], failing: Optional[Key]) -> int:
    """Writes the waves, and gives the number of records."""
    names, count = _Names(harts), 0
    lines = list(_head(harts, names))
    now, has_failed = 0, False
    for time, key, record in rows:
        if time != now:
            lines.append(f"#{time}")
            now = time
            if has_failed:
                lines.append(f"0{names.fail}")
                has_failed = False
        lines += _changes(key, record, names)
        count += 1
        if key == failing:
            lines.append(f"1{names.fail}")
            has_failed = True
        if len(lines) > 4096:
            out.write("".join(line + "\n" for line in lines).encode("ascii"))
            lines = []
    lines.append(f"#{now + 1}")
    out.write("".join(line + "\n" for line in lines).encode("ascii"))
    return count


def run(words: argparse.Namespace) -> int:
    """Writes the waves."""
    if words.period < 1:
        raise ProbeError("the period is at least 1")
    report = check(words.image, words.probes, sources=False, program=words.program)
    if report.refusal:
        raise ProbeError(f"{words.probes}: {report.refusal}")
    failing = report.failure.key if report.failure else None
    with open(words.probes, "rb") as stream, replacing(words.output) as out:
        reader = Reader(stream)
        rows = _inside(in_order(reader), words.first, words.last)
        count = _write(out, reader.header.harts, _moments(rows, words.period), failing)
    print(f"{words.output}: {count} records of {reader.header.harts} harts, {report.verdict}")
    return 0
