"""Permission files: which hart was given which line, written and read as a stream.

The file stands beside the probe file of the same run; docs/PERMISSIONS.md says what its events mean and
when a cache has to write them. An event that breaks a bound is refused at the call.
"""

from __future__ import annotations

import struct
from enum import IntEnum
from types import TracebackType
from typing import BinaryIO, Iterable, Iterator, NamedTuple, Optional, Tuple, Type, Union

from .lawful import Problem
from .reader import BeyondLimit, Path
from .records import LINE_BYTES, MOST_HARTS, RAM_END, RAM_START
from .writer import LimitReached, ProbeError

MAGIC = b"SMPDPERM"
END_TAG = 255
MOST_EVENTS = 4_194_304
PIECE_EVENTS = 4096

_HEADER = struct.Struct("<8sB7s")
_EVENT = struct.Struct("<BBQQ")
_END = struct.Struct("<BQ")
_STAMP_LIMIT = 1 << 64


class Op(IntEnum):
    """What happens to the hart's permission."""

    GRANT_READ = 1
    GRANT_WRITE = 2
    REVOKE = 3


class PermissionEvent(NamedTuple):
    """From here on the hart holds this of the line."""

    op: int
    hart: int
    stamp: int
    line: int

    def spell(self) -> bytes:
        """The bytes of the event."""
        return _EVENT.pack(*self)


class PermissionFile(NamedTuple):
    """The content of a file: its harts, and the events in file order."""

    harts: int
    events: Tuple[PermissionEvent, ...]

    def spell(self) -> bytes:
        """The bytes of the file, which may be unlawful."""
        events = b"".join(event.spell() for event in self.events)
        return spell_header(self.harts) + events + spell_end(len(self.events))


class UnlawfulEvent(ProbeError):
    """An event that breaks a bound. Nothing of it was written."""

    def __init__(self, number: int, event: PermissionEvent, problem: Problem) -> None:
        super().__init__(f"event {number} of hart {event.hart}: {problem}")
        self.event = event
        self.problem = problem


class MalformedPermissions(ProbeError):
    """The first fault of a permission file. `is_cut` says that its bytes stop too early."""

    def __init__(
        self, offset: int, number: Optional[int], problem: Union[Problem, str], *, is_cut: bool = False
    ) -> None:
        where = "the header" if number is None else f"event {number}"
        super().__init__(f"{where}: {problem}")
        self.offset = offset
        self.number = number
        self.problem = problem if isinstance(problem, Problem) else None
        self.is_cut = is_cut


def spell_header(harts: int) -> bytes:
    """The header of a file of so many harts."""
    return _HEADER.pack(MAGIC, harts, bytes(7))


def spell_end(count: int) -> bytes:
    """The End of a file of so many events."""
    return _END.pack(END_TAG, count)


def event_problem(event: PermissionEvent, harts: int, last_stamp: int) -> Optional[Problem]:
    """The first bound that the event breaks behind an event with the last stamp, if any."""
    if event.op not in (Op.GRANT_READ, Op.GRANT_WRITE, Op.REVOKE):
        return Problem("op", event.op, "1, 2 or 3")
    if not 0 <= event.hart < harts:
        return Problem("hart", event.hart, f"below the header's {harts}")
    if not 0 <= event.stamp < _STAMP_LIMIT:
        return Problem("stamp", event.stamp, "a number of 8 bytes")
    if event.stamp < last_stamp:
        return Problem("stamp", event.stamp, f"at least {last_stamp}, that of the event before it")
    if event.line % LINE_BYTES or not RAM_START <= event.line < RAM_END:
        return Problem("line", event.line, "a multiple of 64 in RAM")
    return None


class PermissionWriter:
    """Writes the header, then events, then the End with `close`.

        with open("run.permissions", "wb") as stream, PermissionWriter(stream, harts=2) as writer:
            writer.grant(hart=0, stamp=6, line=0x80000100, write=True)
            writer.revoke(hart=0, stamp=11, line=0x80000100)

    The stamps never fall, whichever hart an event is of. Where the block is left by an exception the file
    gets its End too: it then holds all events up to there, which is what a probe file needs that ends
    settled at the same time.
    """

    def __init__(self, stream: BinaryIO, harts: int) -> None:
        if not 1 <= harts <= MOST_HARTS:
            raise ProbeError(f"{harts} harts: a file has 1 to {MOST_HARTS}")
        self.harts = harts
        self.count = 0
        self._stream = stream
        self._last_stamp = 0
        self._closed = False
        stream.write(spell_header(harts))

    def grant(self, hart: int, stamp: int, line: int, *, write: bool = False) -> None:
        """From this cycle on the hart may read the line; or read and write it."""
        self.write(PermissionEvent(Op.GRANT_WRITE if write else Op.GRANT_READ, hart, stamp, line))

    def revoke(self, hart: int, stamp: int, line: int) -> None:
        """From this cycle on the hart holds nothing of the line."""
        self.write(PermissionEvent(Op.REVOKE, hart, stamp, line))

    def write(self, event: PermissionEvent) -> None:
        """Writes an event, or raises UnlawfulEvent or LimitReached and writes nothing."""
        if self._closed:
            raise ProbeError("the file is closed")
        problem = event_problem(event, self.harts, self._last_stamp)
        if problem is not None:
            raise UnlawfulEvent(self.count, event, problem)
        if self.count == MOST_EVENTS:
            raise LimitReached("events", MOST_EVENTS)
        self._stream.write(event.spell())
        self._last_stamp = event.stamp
        self.count += 1

    def close(self) -> None:
        """Writes the End. The stream stays open."""
        if not self._closed:
            self._closed = True
            self._stream.write(spell_end(self.count))

    def __enter__(self) -> PermissionWriter:
        return self

    def __exit__(
        self,
        kind: Optional[Type[BaseException]],
        fault: Optional[BaseException],
        trace: Optional[TracebackType],
    ) -> None:
        self.close()


class PermissionReader:
    """The events of a stream, after its header.

        with open("run.permissions", "rb") as stream:
            for event in PermissionReader(stream):
                ...

    Iterating raises MalformedPermissions at the first fault, with the offset that the program prints as
    `MALFORMED FIRST offset=N`, and BeyondLimit at the limit.
    """

    def __init__(self, stream: BinaryIO) -> None:
        self._stream = stream
        self.count = 0
        self.harts = _read_harts(self._read(_HEADER.size))

    @property
    def offset(self) -> int:
        """The offset of what is read next: an event or the End."""
        return _HEADER.size + _EVENT.size * self.count

    def _read(self, wanted: int) -> bytes:
        """So many bytes, or as many as the stream has."""
        pieces, held = [], 0
        while held < wanted:
            piece = self._stream.read(wanted - held)
            if not piece:
                break
            pieces.append(piece)
            held += len(piece)
        return b"".join(pieces)

    def __iter__(self) -> Iterator[PermissionEvent]:
        last_stamp = 0
        while True:
            data = self._read(PIECE_EVENTS * _EVENT.size)
            for place in range(0, len(data), _EVENT.size):
                if data[place] == END_TAG or len(data) - place < _EVENT.size:
                    self._read_end(data[place:])
                    return
                event = PermissionEvent(*_EVENT.unpack_from(data, place))
                self._accept(event, last_stamp)
                last_stamp = event.stamp
                yield event
            if not data:
                raise self._cut("the file stops before its End")

    def _accept(self, event: PermissionEvent, last_stamp: int) -> None:
        problem = event_problem(event, self.harts, last_stamp)
        if problem is not None:
            raise self._malformed(problem)
        if self.count == MOST_EVENTS:
            raise BeyondLimit("events", MOST_EVENTS)
        self.count += 1

    def _read_end(self, data: bytes) -> None:
        """Reads the End, which has to be all that is left."""
        if data[0] != END_TAG:
            raise self._cut("the event is cut short")
        if len(data) < _END.size:
            raise self._cut("the End is cut short")
        count = int.from_bytes(data[1 : _END.size], "little")
        if count != self.count:
            raise self._malformed(Problem("count", count, f"{self.count}, the number of events"))
        if len(data) > _END.size or self._stream.read(1):
            offset = self.offset + _END.size
            raise MalformedPermissions(offset, self.count, "there are bytes behind the End")

    def _malformed(self, problem: Problem) -> MalformedPermissions:
        return MalformedPermissions(self.offset, self.count, problem)

    def _cut(self, what: str) -> MalformedPermissions:
        return MalformedPermissions(self.offset, self.count, what, is_cut=True)


def _read_harts(data: bytes) -> int:
    """The harts of a header, or of as many bytes of one as there are."""
    rest = int.from_bytes(data[9:], "little")
    parts = (
        (0, 8, data[:8] == MAGIC, Problem("magic", int.from_bytes(data[:8], "big"), "SMPDPERM")),
        (8, 9, 1 <= sum(data[8:9]) <= MOST_HARTS, Problem("harts", sum(data[8:9]), "1 to 8")),
        (9, 16, rest == 0, Problem("reserved", rest, "0")),
    )
    for start, end, is_good, problem in parts:
        if len(data) < end:
            raise MalformedPermissions(start, None, f"{problem.field} is cut short", is_cut=True)
        if not is_good:
            raise MalformedPermissions(start, None, problem)
    return data[8]


def read_permissions(path: Path) -> PermissionFile:
    """The whole of a permission file, or MalformedPermissions or BeyondLimit."""
    with open(path, "rb") as stream:
        reader = PermissionReader(stream)
        return PermissionFile(reader.harts, tuple(reader))


def write_permissions(stream: BinaryIO, harts: int, events: Iterable[PermissionEvent]) -> int:
    """Writes a whole file of these events, and gives their number."""
    with PermissionWriter(stream, harts) as writer:
        for event in events:
            writer.write(event)
    return writer.count
