"""Settled ends: how a file that stops anywhere becomes one with a verdict that stands.

A record is settled where its stamp is below the last stamps of all harts: no hart can then have an
earlier record that is missing. A hart without a record counts as 0. The settled records of a file's
front are exactly the records of the whole file with these stamps, so a FAIL among them is one of the
whole file, at the same key. A file that is merely cut has no such promise: a load in it may have read
another hart's drain that is not in it.
"""

from __future__ import annotations

from typing import BinaryIO, Callable, NamedTuple, Optional

from .outputs import replacing
from .reader import BeyondLimit, Malformed, Path, Reader
from .records import MOST_RECORDS, MOST_WRITES, Record
from .spelling import Header, spell_end
from .writer import LimitReached


class Front(NamedTuple):
    """What can be read of a file: up to its End, a cut, or a limit.

    The records with a stamp below `least` are settled; where the file has an End, all are.
    """

    header: Header
    records: int
    least: int
    has_end: bool
    beyond: Optional[BeyondLimit] = None
    cut: Optional[Malformed] = None


def front_of(path: Path, limited: bool = True) -> Front:
    """The front of the file at a path. A fault that is no cut raises Malformed."""
    with open(path, "rb") as stream:
        reader = Reader(stream, limited=limited)
        beyond = cut = None
        try:
            for _ in reader:
                pass
        except BeyondLimit as limit:
            beyond = limit
        except Malformed as fault:
            if not fault.is_cut:
                raise
            cut = fault
        least = min(reader.last_stamps)
        return Front(reader.header, reader.count, least, reader.ended, beyond, cut)


def copy_kept(
    reader: Reader, source: BinaryIO, until: int, is_kept: Callable[[Record], bool], sink: BinaryIO
) -> int:
    """Copies those records that are kept, up to so many of the file, and gives their number.

    The reader and the source stand at the same place. Of each hart the first ones have to be kept, so that
    their bytes are the same in the copy.
    """
    kept, place = 0, reader.offset
    if reader.count >= until:
        return kept
    for record in reader:
        spelled = source.read(reader.offset - place)
        place = reader.offset
        if is_kept(record):
            sink.write(spelled)
            kept += 1
        if reader.count == until:
            break
    return kept


def _within_limits(is_kept: Callable[[Record], bool]) -> Callable[[Record], bool]:
    """The same choice; it raises LimitReached where more is kept than a file may have."""
    records = writes = 0

    def is_kept_and_fits(record: Record) -> bool:
        nonlocal records, writes
        if not is_kept(record):
            return False
        records += 1
        writes += record.writes_memory
        if records > MOST_RECORDS:
            raise LimitReached("records", MOST_RECORDS)
        if writes > MOST_WRITES:
            raise LimitReached("writes", MOST_WRITES)
        return True

    return is_kept_and_fits


def write_kept(path: Path, front: Front, out: Path, is_kept: Callable[[Record], bool]) -> int:
    """Writes those of a front's records that are kept, with an End; gives their number.

    Of each hart the first ones have to be kept.
    """
    with open(path, "rb") as read, open(path, "rb") as source, replacing(out) as sink:
        reader = Reader(read, limited=False)
        sink.write(source.read(reader.offset))
        kept = copy_kept(reader, source, front.records, _within_limits(is_kept), sink)
        sink.write(spell_end(kept))
    return kept


def write_settled(path: Path, front: Front, out: Path) -> int:
    """Writes the settled records of a front, with an End; gives their number."""
    return write_kept(path, front, out, lambda record: record.stamp < front.least)
