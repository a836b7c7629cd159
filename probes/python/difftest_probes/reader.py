"""Reading a probe file as a stream: its records one by one, or where and why it is malformed.

What is kept is one piece of the file, and of version 2 a bounded number of heads and numbers that came
before, however long it is. The offset of a fault is that which the program prints as `MALFORMED offset=N`.
"""

from __future__ import annotations

import os
from dataclasses import fields
from typing import (
    BinaryIO,
    Callable,
    Dict,
    Iterable,
    Iterator,
    List,
    NamedTuple,
    NoReturn,
    Optional,
    Tuple,
    Type,
    Union,
)

from .lawful import BOUND_PROBLEMS, Problem
from .records import (
    KINDS,
    LINE_BYTES,
    MOST_HARTS,
    MOST_RECORDS,
    MOST_WRITES,
    Atomic,
    Csrs,
    Drain,
    Record,
    Refill,
    Regs,
)
from .short_form import (
    WHOLE_LINE,
    BadForm,
    Form,
    Numbers,
    form_of,
    line_at,
    many_numbers,
    number_end,
    refuse_numbers,
)
from .spelling import BODIES, END_BYTES, END_TAG, HEADER_BYTES, MAGIC, WIDE_FLAG, Header
from .writer import ProbeError

PIECE_BYTES = 1 << 16
# No record is longer: Regs in version 2 with the greatest numbers has 336 bytes.
MOST_RECORD_BYTES = 512
# The tag, the hart, a stamp's difference of one byte, and presence bits of one byte.
HEAD_BYTES = 4
# So many heads are kept with what they say.
MOST_HEADS = 1 << 12

Path = Union[str, "os.PathLike[str]"]

_KINDS = {kind.tag: kind for kind in KINDS}
# Of each tag the kind, and how version 1 spells its fields.
_PLAIN_FORMS = {kind.tag: (kind, BODIES[kind.tag]) for kind in KINDS}
# The names of the fields of each kind in the order of the file.
_NAMES = {kind: tuple(field.name for field in fields(kind)) for kind in KINDS}
_LISTED = {Regs, Csrs}
_LINED = {Drain, Refill}
_WRITING = {Atomic.tag, Drain.tag}


def _build(kind: Type[Record], values: Tuple[object, ...]) -> Record:
    """The record with these fields. This is how a frozen class is made where speed counts."""
    if kind in _LISTED:
        values = (*values[:3], values[3:])
    record = object.__new__(kind)
    record.__dict__.update(zip(_NAMES[kind], values))
    return record


class Malformed(ProbeError):
    """The first fault of a file.

    `is_cut` says that the bytes stop in a record, in the End or before it, so that the file may be the
    front of a longer one.
    """

    def __init__(self, offset: int, number: Optional[int], problem: Union[Problem, str]) -> None:
        where = "the header" if number is None else f"record {number}"
        super().__init__(f"{where}: {problem}")
        self.offset = offset
        self.number = number
        self.problem = problem if isinstance(problem, Problem) else None
        self.is_cut = False

    @staticmethod
    def cut(offset: int, number: Optional[int], what: str) -> Malformed:
        """The fault of bytes that stop too early."""
        fault = Malformed(offset, number, what)
        fault.is_cut = True
        return fault


class BeyondLimit(ProbeError):
    """A whole and lawful record that the file has no room for."""

    def __init__(self, what: str, most: int) -> None:
        super().__init__(f"a file has at most {most} {what}")
        self.what = what
        self.number = most + 1


def _read_header(data: bytes) -> Header:
    """The header of 16 bytes, or as many as there are."""
    version = int.from_bytes(data[8:10], "little")
    rest = int.from_bytes(data[12:16], "little")
    parts = (
        (0, 8, data[:8] == MAGIC, Problem("magic", int.from_bytes(data[:8], "big"), "SMPDIFF")),
        (8, 10, version in (1, 2), Problem("version", version, "1 or 2")),
        (10, 11, 1 <= sum(data[10:11]) <= MOST_HARTS, Problem("harts", sum(data[10:11]), "1 to 8")),
        (11, 12, sum(data[11:12]) <= WIDE_FLAG, Problem("flags", sum(data[11:12]), "0 or 1")),
        (12, 16, rest == 0, Problem("reserved", rest, "0")),
    )
    for start, end, is_good, problem in parts:
        if len(data) < end:
            raise Malformed.cut(start, None, f"{problem.field} is cut short")
        if not is_good:
            raise Malformed(start, None, problem)
    return Header(data[10], version, data[11] == WIDE_FLAG)


class _Head(NamedTuple):
    """What the first bytes of a record of version 2 say: all before its numbers."""

    kind: Type[Record]
    hart: int
    # How far the stamp is from the hart's last.
    difference: int
    form: Form
    # The names of the fields behind hart and stamp.
    names: Tuple[str, ...]
    length: int


# By HEAD_BYTES bytes, the heads with which these begin; no more than MOST_HEADS of them.
_HEADS: Dict[bytes, _Head] = {}
_value_of = Numbers().__getitem__


class Checkpoint(NamedTuple):
    """How far a reader has come, so that another one can go on from there."""

    offset: int
    records: int
    writes: int
    last_stamps: Tuple[int, ...]


class Reader:
    """The records of a stream, after its header.

        with open("run.probes", "rb") as stream:
            for record in Reader(stream):
                ...

    Iterating raises Malformed at the first fault and BeyondLimit at a limit. After a fault that is a
    cut, iterating goes on once the stream has more bytes.
    """

    def __init__(self, stream: BinaryIO, *, limited: bool = True) -> None:
        self._stream = stream
        self._buffer = b""
        self._place = 0
        self._base = 0
        self._limited = limited
        self.ended = False
        self.count = 0
        self.writes = 0
        self._fill(HEADER_BYTES)
        self.header = _read_header(self._buffer[:HEADER_BYTES])
        self._place = HEADER_BYTES
        # Of each hart the stamp of its last record; 0 where it has none yet.
        self.last_stamps: List[int] = [0] * self.header.harts

    @property
    def offset(self) -> int:
        """The offset of what is read next: of the tag of a record or of the End."""
        return self._base + self._place

    def checkpoint(self) -> Checkpoint:
        """How far this reader has come."""
        return Checkpoint(self.offset, self.count, self.writes, tuple(self.last_stamps))

    def go_on_from(self, point: Checkpoint) -> None:
        """Goes to where another reader of the same file has been. The stream has to be one that can seek."""
        self._stream.seek(point.offset)
        self._buffer, self._base, self._place = b"", point.offset, 0
        self.count, self.writes = point.records, point.writes
        self.last_stamps = list(point.last_stamps)

    def _fill(self, wanted: int) -> None:
        """Reads on until so many bytes are there, or as many as the stream has."""
        if len(self._buffer) - self._place >= wanted:
            return
        pieces = [self._buffer[self._place :]]
        held = len(pieces[0])
        self._base += self._place
        self._place = 0
        while held < wanted:
            piece = self._stream.read(PIECE_BYTES)
            if not piece:
                break
            pieces.append(piece)
            held += len(piece)
        self._buffer = b"".join(pieces)

    def __iter__(self) -> Iterator[Record]:
        decode: Callable[[], Tuple[Record, int]] = (
            self._decode_plain if self.header.version == 1 else self._decode_short
        )
        while not self.ended:
            if len(self._buffer) - self._place < MOST_RECORD_BYTES:
                self._fill(MOST_RECORD_BYTES)
                if self._place == len(self._buffer):
                    raise Malformed.cut(self.offset, self.count, "the file stops before its End")
            if self._buffer[self._place] == END_TAG:
                self._read_end()
                return
            try:
                record, end = decode()
            except BadForm as bad:
                raise Malformed(self.offset, self.count, str(bad)) from None
            except IndexError:
                raise Malformed.cut(self.offset, self.count, "the record is cut short") from None
            self._accept(record)
            self._place = end
            yield record

    def _decode_plain(self) -> Tuple[Record, int]:
        """The record of version 1 at the place, and the place behind it."""
        data, place = self._buffer, self._place
        found = _PLAIN_FORMS.get(data[place])
        if found is None:
            raise BadForm(f"the tag {data[place]} is of no kind")
        kind, body = found
        end = place + body.size
        if end > len(data):
            raise IndexError
        return _build(kind, body.unpack_from(data, place)), end

    def _decode_short(self) -> Tuple[Record, int]:
        """The record of version 2 at the place, and the place behind it."""
        data, place = self._buffer, self._place
        head = _HEADS.get(data[place : place + HEAD_BYTES]) or self._read_head()
        kind, hart, stamp, form, names, length = head
        found = form.match(data, place + length)
        if found is None:
            refuse_numbers(form, data, place + length)
        if hart < self.header.harts:
            stamp += self.last_stamps[hart]
        numbers: Iterable[object] = map(_value_of, found.groups())
        if kind in _LISTED:
            first, *others = many_numbers(form, found.group(), _value_of)
            numbers = (first, tuple(others))
        record, end = object.__new__(kind), found.end()
        held = record.__dict__
        held["hart"] = hart
        held["stamp"] = stamp
        held.update(zip(names, numbers))
        if stamp >> 64:
            raise BadForm("the stamp is above 8 bytes")
        if kind in _LINED:
            held["content"], end = line_at(data, end, held["mask"] if kind is Drain else WHOLE_LINE)
        return record, end

    def _read_head(self) -> _Head:
        """The head at the place."""
        data, place = self._buffer, self._place
        kind = _KINDS.get(data[place])
        if kind is None:
            raise BadForm(f"the tag {data[place]} is of no kind")
        hart, start = data[place + 1], place + 2
        end = number_end(data, start)
        difference = _value_of(data[start:end])
        length = end - place + (len(kind.numbers) + 7) // 8
        presence = data[end : place + length]
        if place + length > len(data):
            raise IndexError
        head = _Head(kind, hart, difference, form_of(kind.tag, presence), _NAMES[kind][2:], length)
        if length <= HEAD_BYTES:
            if len(_HEADS) >= MOST_HEADS:
                _HEADS.clear()
            _HEADS[data[place : place + HEAD_BYTES]] = head
        return head

    def _accept(self, record: Record) -> None:
        """Counts a record, or raises what is wrong with it here."""
        hart, stamp, tag = record.hart, record.stamp, record.tag
        if hart >= self.header.harts:
            self._refuse(Problem("hart", hart, f"below the header's {self.header.harts}"))
        found = BOUND_PROBLEMS[tag](record)
        if found:
            self._refuse(found[0])
        last = self.last_stamps[hart]
        if stamp < last:
            self._refuse(Problem("stamp", stamp, f"at least {last}, the hart's last"))
        if self._limited and self.count == MOST_RECORDS:
            raise BeyondLimit("records", MOST_RECORDS)
        if tag in _WRITING and record.writes_memory:
            if self._limited and self.writes == MOST_WRITES:
                raise BeyondLimit("writes", MOST_WRITES)
            self.writes += 1
        self.last_stamps[hart] = stamp
        self.count += 1

    def _refuse(self, problem: Problem) -> NoReturn:
        raise Malformed(self.offset, self.count, problem)

    def _read_end(self) -> None:
        self._fill(END_BYTES + 1)
        end = self._buffer[self._place : self._place + END_BYTES]
        if len(end) < END_BYTES:
            raise Malformed.cut(self.offset, self.count, "the End is cut short")
        count = int.from_bytes(end[1:], "little")
        if count != self.count:
            what = Problem("count", count, f"{self.count}, the number of records before the End")
            raise Malformed(self.offset, self.count, what)
        if len(self._buffer) > self._place + END_BYTES:
            offset = self.offset + END_BYTES
            raise Malformed(offset, self.count, "there are bytes behind the End")
        self.ended = True


def iter_records(stream: BinaryIO) -> Iterator[Record]:
    """The records of a stream that begins with a header."""
    return iter(Reader(stream))


class ProbeFile(NamedTuple):
    """A whole probe file."""

    header: Header
    records: Tuple[Record, ...]


def read(path: Path) -> ProbeFile:
    """The whole file at a path."""
    with open(path, "rb") as stream:
        reader = Reader(stream)
        return ProbeFile(reader.header, tuple(reader))
