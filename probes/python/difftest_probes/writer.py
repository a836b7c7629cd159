"""Writing a probe file, with each bound checked at the call that breaks it."""

from __future__ import annotations

from collections import deque
from types import TracebackType
from typing import BinaryIO, Deque, Iterable, List, Optional, Tuple, Type

from .lawful import Problem, problems
from .records import MOST_HARTS, MOST_RECORDS, MOST_WRITES, Record
from .spelling import VERSIONS, Header, spell, spell_end, spell_short


# A writer keeps back at most so many records that are not settled; with more it writes the oldest.
MOST_HELD = 65_536


class ProbeError(Exception):
    """What is wrong with a probe file, or with what should become one."""


class Unlawful(ProbeError):
    """A record that breaks a bound. Nothing of it was written."""

    def __init__(self, number: int, record: Record, found: Tuple[Problem, ...]) -> None:
        what = "; ".join(str(problem) for problem in found)
        super().__init__(f"record {number}, {record.kind} of hart {record.hart}: {what}")
        self.record = record
        self.problems = found


class LimitReached(ProbeError):
    """A file holds no record, or no write, more. The record was not written."""

    def __init__(self, what: str, most: int) -> None:
        super().__init__(f"a file has at most {most} {what}")
        self.what = what


class Writer:
    """Writes the header, then records, then the End with `close`.

        with open("run.probes", "wb") as stream, Writer(stream, harts=2) as writer:
            writer.write(Commit(hart=0, stamp=1, pc=0x80000000, bits=0x00500093, value=5))

    Records go to the stream in the order in which they come, once they are settled: once every hart has a
    record with a greater stamp.
    So where the block is left by an exception, such as LimitReached, the file ends settled, and no FAIL of
    it is one that the whole run has not. At most MOST_HELD records are kept back for that, some 30 megabytes
    of records of the longest kind; where more came that were not settled, such a file gets no End, and
    `difftest-probes close` gives it one.
    """

    def __init__(
        self, stream: BinaryIO, harts: int, version: int = 1, wide: bool = False, *, limited: bool = True
    ) -> None:
        if not 1 <= harts <= MOST_HARTS:
            raise ProbeError(f"{harts} harts: a file has 1 to {MOST_HARTS}")
        if version not in VERSIONS:
            raise ProbeError(f"version {version}: there are 1 and 2")
        self.header = Header(harts, version, wide)
        self.count = 0
        self.writes = 0
        self._limited = limited
        self._closed = False
        # Of the records that are not settled their stamps and bytes; and whether some were written.
        self._held: Deque[Tuple[int, bytes]] = deque()
        self._has_spilled = False
        self._settled_below = 0
        self._written = 0
        self._stream = stream
        self._last: List[int] = [0] * harts
        stream.write(self.header.spell())

    def _problems(self, record: Record) -> Tuple[Problem, ...]:
        found = problems(record)
        if found:
            return found
        if record.hart >= self.header.harts:
            return (Problem("hart", record.hart, f"below the header's {self.header.harts}"),)
        last = self._last[record.hart]
        if record.stamp < last:
            return (Problem("stamp", record.stamp, f"at least {last}, the hart's last"),)
        return ()

    def write(self, record: Record) -> None:
        """Writes a record, or raises Unlawful or LimitReached and writes nothing."""
        if self._closed:
            raise ProbeError("the file is closed")
        found = self._problems(record)
        if found:
            raise Unlawful(self.count, record, found)
        if self._limited and self.count == MOST_RECORDS:
            raise LimitReached("records", MOST_RECORDS)
        if self._limited and record.writes_memory and self.writes == MOST_WRITES:
            raise LimitReached("writes", MOST_WRITES)
        last = self._last[record.hart]
        spelled = spell(record) if self.header.version == 1 else spell_short(record, last)
        self._last[record.hart] = record.stamp
        self.count += 1
        self.writes += record.writes_memory
        self._held.append((record.stamp, spelled))
        if last == self._settled_below:
            self._settled_below = min(self._last)
        while self._held and self._held[0][0] < self._settled_below:
            self._write_first()
        if len(self._held) > MOST_HELD:
            self._write_first()
            self._has_spilled = True

    def _write_first(self) -> None:
        """Writes the oldest record that was kept back."""
        self._stream.write(self._held.popleft()[1])
        self._written += 1

    def close(self) -> None:
        """Writes what was kept back, and the End. The stream stays open."""
        while self._held:
            self._write_first()
        self._end()

    def settle(self) -> bool:
        """Writes an End behind the settled records and drops the others; says whether that could be done."""
        kept = deque(row for row in self._held if row[0] < self._settled_below)
        if self._has_spilled:
            self._held, self._closed = deque(), True
            return False
        self._held = kept
        self.close()
        return True

    def _end(self) -> None:
        if not self._closed:
            self._closed = True
            self._stream.write(spell_end(self._written))

    def __enter__(self) -> Writer:
        return self

    def __exit__(
        self,
        kind: Optional[Type[BaseException]],
        _value: Optional[BaseException],
        _trace: Optional[TracebackType],
    ) -> None:
        if kind is None:
            self.close()
        elif not self._closed:
            self.settle()


def write_file(stream: BinaryIO, header: Header, records: Iterable[Record]) -> int:
    """Writes a whole file of these records, and gives their number."""
    with Writer(stream, *header) as writer:
        for record in records:
            writer.write(record)
    return writer.count
