"""Reading a permission file: its events in order, or the first fault in it."""

from dataclasses import dataclass, field
from typing import NamedTuple

from .probe_file import Refused
from .records import LINE_BYTES, in_ram

MAGIC = b"SMPDPERM"
HEADER_BYTES = 16
EVENT_BYTES = 18
END_TAG = 255
END_BYTES = 9
MOST_EVENTS = 4_194_304
GRANT_READ, GRANT_WRITE, REVOKE = 1, 2, 3

# Where each field of the header starts and ends.
HEADER_FIELDS = (
    (0, 8, lambda part: part == MAGIC),
    (8, 9, lambda part: 1 <= part[0] <= 8),
    (9, 16, lambda part: part == bytes(7)),
)


class Event(NamedTuple):
    """A hart is given a line, or loses it."""

    op: int
    hart: int
    stamp: int
    line: int


@dataclass
class PermissionFile:
    """The content of a file: its harts, and the events in file order."""

    harts: int
    events: list = field(default_factory=list)


def malformed(offset):
    """The refusal of a file whose bytes break the grammar at an offset."""
    return Refused(10, f"MALFORMED FIRST offset={offset}")


def read_permission_file(data):
    """Reads the whole file, or raises Refused at its first fault."""
    for start, end, is_good in HEADER_FIELDS:
        part = data[start:end]
        if len(part) < end - start or not is_good(part):
            raise malformed(start)
    file = PermissionFile(harts=data[8])
    place, last_stamp = HEADER_BYTES, 0
    while place < len(data) and data[place] != END_TAG:
        event = read_event(data, place)
        if event is None or not is_good_event(event, file.harts, last_stamp):
            raise malformed(place)
        if len(file.events) == MOST_EVENTS:
            raise Refused(8, f"LIMIT events={MOST_EVENTS + 1}")
        file.events.append(event)
        last_stamp = event.stamp
        place += EVENT_BYTES
    check_end(data, place, len(file.events))
    return file


def read_event(data, place):
    """The event at a place, or None where the file stops in it."""
    part = data[place : place + EVENT_BYTES]
    if len(part) < EVENT_BYTES:
        return None
    stamp, line = part[2:10], part[10:18]
    return Event(part[0], part[1], int.from_bytes(stamp, "little"), int.from_bytes(line, "little"))


def is_good_event(event, harts, last_stamp):
    """Whether every field of the event is within its bounds."""
    return (
        event.op in (GRANT_READ, GRANT_WRITE, REVOKE)
        and event.hart < harts
        and event.stamp >= last_stamp
        and event.line % LINE_BYTES == 0
        and in_ram(event.line, LINE_BYTES)
    )


def check_end(data, place, event_count):
    """Checks the End at a place, and that nothing follows it."""
    end = place + END_BYTES
    if end > len(data) or int.from_bytes(data[place + 1 : end], "little") != event_count:
        raise malformed(place)
    if end < len(data):
        raise malformed(end)
