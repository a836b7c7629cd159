"""What in a probe file bears on a FAIL: gathered in one pass over the file."""

from __future__ import annotations

from collections import deque
from dataclasses import dataclass, field
from typing import Deque, Dict, List, Optional, Set, Tuple

from .reader import Path, Reader
from .records import Atomic, Drain, Key, Load, Record, Store, in_ram, keyed, line_of
from .report import Failure, Note, Report

Row = Tuple[Key, Record]
# So many of the line's writes and stores are shown, the last ones.
MOST_OF_LINE = 12


@dataclass
class Evidence:
    """The records around a FAIL."""

    # Where the failing record read or wrote, or fetched what it should not have.
    address: Optional[int] = None
    # The hart's last records up to the failing one.
    before: List[Row] = field(default_factory=list)
    # The writes to the failing record's line that it could see, and the hart's own stores to it.
    of_line: List[Row] = field(default_factory=list)
    # The records that notes name as sources.
    writers: Dict[Key, Record] = field(default_factory=dict)

    def add_of_line(self, row: Row) -> None:
        """Adds a write or store; of many only the last are kept."""
        self.of_line.append(row)
        if len(self.of_line) > 100 * MOST_OF_LINE:
            self.keep_last()

    def keep_last(self) -> None:
        """Puts the writes and stores in order and keeps the last."""
        self.of_line = sorted(self.of_line, key=lambda row: row[0])[-MOST_OF_LINE:]

    def earlier_notes(self, report: Report) -> List[Note]:
        """The notes of those records before the failing one that read its bytes or what is near them."""
        keys = [key for key, record in self.before[:-1] if isinstance(record, (Load, Atomic))]
        wanted: Set[Key] = set(keys[-3:])
        return [note for note in report.notes if note.key in wanted and note.runs]


def _failing_rows(path: Path, failing: Key, most: int) -> Deque[Row]:
    """The last records of the failing hart up to the failing one."""
    rows: Deque[Row] = deque(maxlen=most)
    with open(path, "rb") as stream:
        for key, record in keyed(Reader(stream)):
            if key.hart == failing.hart and key.seq <= failing.seq:
                rows.append((key, record))
                if key.seq == failing.seq:
                    break
    return rows


def _address_of(failure: Failure, record: Record) -> Optional[int]:
    """The address in RAM that the failure is about, if there is one."""
    if failure.name == "Fetch":
        address: Optional[int] = failure.expected
    else:
        address = getattr(record, "paddr", None) or getattr(record, "line", None)
    return address if address is not None and in_ram(address) else None


def _line_touched(record: Record) -> Optional[int]:
    if isinstance(record, Drain):
        return record.line
    if isinstance(record, Store) or isinstance(record, Atomic) and record.wrote:
        return line_of(record.paddr)
    return None


def _touches(key: Key, record: Record, failing: Key, last: int) -> bool:
    """Whether a write or own store stands before the failing record, or in a cycle that it may see."""
    if isinstance(record, Store):
        return key.hart == failing.hart and key.seq < failing.seq
    return key < failing and key.stamp <= last


def gather(path: Path, report: Report, most: int) -> Evidence:
    """What bears on the FAIL of a report."""
    assert report.failure is not None
    failure = report.failure
    rows = _failing_rows(path, failure.key, most)
    if not rows:
        return Evidence()
    record = rows[-1][1]
    evidence = Evidence(_address_of(failure, record), list(rows))
    line = None if evidence.address is None else line_of(evidence.address)
    last = record.at if isinstance(record, Load) else record.stamp
    named = {run.source for note in evidence.earlier_notes(report) for run in note.runs}
    with open(path, "rb") as stream:
        for key, other in keyed(Reader(stream)):
            if key in named:
                evidence.writers[key] = other
            if line is not None and _line_touched(other) == line and _touches(key, other, failure.key, last):
                evidence.add_of_line((key, other))
    evidence.keep_last()
    return evidence
