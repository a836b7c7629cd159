"""Permission files: bytes worked out by hand, faults at their places, what a writer refuses."""

from __future__ import annotations

import io
import os
import re
import unittest
from random import Random
from typing import BinaryIO, Callable, List, Optional, Tuple, cast
from unittest.mock import patch

from difftest_probes import (
    LimitReached,
    MalformedPermissions,
    Op,
    PermissionEvent,
    PermissionFile,
    PermissionReader,
    PermissionWriter,
    ProbeError,
    UnlawfulEvent,
    permissions,
    read_permissions,
    write_permissions,
)
from difftest_probes.program import TOP
from difftest_probes.reader import BeyondLimit
from difftest_probes.records import LINE_BYTES, RAM_END, RAM_START

from .support import WORD, FolderCase

from second_opinion import permission_file as second_reader
from second_opinion.probe_file import Refused

# Two harts hand one line over in cycle 11, by docs/PERMISSIONS.md: the header's fields at 0, 8 and 9, events
# at 16, 34 and 52, the End at 70, 79 bytes.
EVENTS = (
    PermissionEvent(Op.GRANT_WRITE, 0, 6, 0x80000100),
    PermissionEvent(Op.REVOKE, 0, 0x010B, 0x80000100),
    PermissionEvent(Op.GRANT_READ, 1, 0x010B, 0x83FFFFC0),
)
FILE = bytes.fromhex(
    "534d50445045524d 02 00000000000000"
    "02 00 0600000000000000 0001008000000000"
    "03 00 0b01000000000000 0001008000000000"
    "01 01 0b01000000000000 c0ffff8300000000"
    "ff 0300000000000000"
)
REVOKES = tuple(PermissionEvent(Op.REVOKE, 0, stamp, RAM_START) for stamp in range(7))


class Dripping(io.RawIOBase):
    """A stream that gives at most so many bytes at a time, as a pipe may."""

    def __init__(self, data: bytes, most: int) -> None:
        super().__init__()
        self._stream = io.BytesIO(data)
        self._most = most

    def read(self, size: int = -1) -> bytes:
        """Some of the next bytes, and none at the end alone."""
        return self._stream.read(self._most if size < 0 else min(size, self._most))


def bytes_of(events: Tuple[PermissionEvent, ...], harts: int = 8) -> bytes:
    """The bytes of a whole file, as the writer makes them."""
    stream = io.BytesIO()
    write_permissions(stream, harts, events)
    return stream.getvalue()


def put(data: bytes, place: int, new: str) -> bytes:
    """The bytes with others at a place."""
    return data[:place] + bytes.fromhex(new) + data[place + len(new) // 2 :]


def outcome(data: bytes) -> str:
    """How the reading ends: harts and number of events, or the refusal in the second checker's words."""
    try:
        reader = PermissionReader(io.BytesIO(data))
        return f"{reader.harts} {len(list(reader))}"
    except MalformedPermissions as fault:
        return f"MALFORMED FIRST offset={fault.offset}"
    except BeyondLimit as limit:
        return f"LIMIT {limit.what}={limit.number}"


def second_outcome(data: bytes) -> str:
    """The same by the second checker's reader."""
    try:
        file = second_reader.read_permission_file(data)
    except Refused as refusal:
        return str(refusal.text)
    return f"{file.harts} {len(file.events)}"


def fault_of(data: bytes) -> MalformedPermissions:
    """The first fault of a file that has one."""
    try:
        list(PermissionReader(io.BytesIO(data)))
    except MalformedPermissions as fault:
        return fault
    raise AssertionError("the file is well formed")


def random_events(random: Random, count: int, harts: int) -> Tuple[PermissionEvent, ...]:
    """Lawful events, as a file has them."""
    stamp, events = random.choice((0, 7, 1 << 63)), []
    for _ in range(count):
        stamp = min(WORD, stamp + random.choice((0, 0, 1, 300, 1 << 61)))
        anywhere = random.randrange(RAM_START, RAM_END, LINE_BYTES)
        line = random.choice((RAM_START, RAM_END - LINE_BYTES, anywhere))
        events.append(PermissionEvent(random.choice(list(Op)), random.randrange(harts), stamp, line))
    return tuple(events)


class WorkedFile(FolderCase):
    """One file whose bytes were worked out by hand."""

    def test_writing(self) -> None:
        stream = io.BytesIO()
        with PermissionWriter(stream, harts=2) as writer:
            writer.grant(hart=0, stamp=6, line=0x80000100, write=True)
            writer.revoke(hart=0, stamp=0x010B, line=0x80000100)
            writer.grant(hart=1, stamp=0x010B, line=0x83FFFFC0)
            self.assertEqual(stream.getvalue(), FILE[:70])
        self.assertEqual(stream.getvalue(), FILE)
        self.assertEqual(writer.count, 3)
        self.assertEqual(PermissionFile(2, EVENTS).spell(), FILE)

    def test_reading(self) -> None:
        reader = PermissionReader(io.BytesIO(FILE))
        self.assertEqual((reader.harts, reader.count, reader.offset), (2, 0, 16))
        self.assertEqual(tuple(reader), EVENTS)
        self.assertEqual((reader.count, reader.offset), (3, 70))
        self.assertEqual(read_permissions(self.put("permissions", FILE)), PermissionFile(2, EVENTS))

    def test_without_events(self) -> None:
        data = bytes.fromhex("534d50445045524d 08 00000000000000 ff 0000000000000000")
        self.assertEqual(bytes_of(()), data)
        self.assertEqual(list(PermissionReader(io.BytesIO(data))), [])

    def test_the_file_of_the_page(self) -> None:
        with open(os.path.join(TOP, "docs", "PERMISSIONS.md"), encoding="utf-8") as page:
            block = re.search(r"```\n(53 4d 50 44.*?)```", page.read(), re.DOTALL)
        assert block is not None
        shown = bytes.fromhex("".join(re.findall(r"^(?:[0-9a-f]{2} )+", block.group(1), re.MULTILINE)))
        events = (
            PermissionEvent(Op.GRANT_WRITE, 0, 1, 0x80000100),
            PermissionEvent(Op.REVOKE, 0, 11, 0x80000100),
        )
        self.assertEqual(shown, bytes_of(events, 1))


class RoundTrips(unittest.TestCase):
    """Random files."""

    def test_read_back(self) -> None:
        random = Random(1)
        for _ in range(100):
            harts = random.randrange(1, 9)
            events = random_events(random, random.randrange(60), harts)
            data = bytes_of(events, harts)
            reader = PermissionReader(io.BytesIO(data))
            self.assertEqual((reader.harts, tuple(reader)), (harts, events))
            self.assertEqual(PermissionFile(harts, events).spell(), data)
            second = second_reader.read_permission_file(data)
            self.assertEqual((second.harts, [tuple(event) for event in second.events]), (harts, list(events)))

    def test_pieces_of_any_size(self) -> None:
        """The stream gives its bytes in any pieces, and so many events are read at once."""
        for count in range(len(REVOKES) + 1):
            data = bytes_of(REVOKES[:count])
            for events_at_once in (1, 2, 3, 7, 8):
                with patch.object(permissions, "PIECE_EVENTS", events_at_once):
                    for most in (1, 7, 9, 16, 17, 18, 19, 300):
                        reader = PermissionReader(cast(BinaryIO, Dripping(data, most)))
                        self.assertEqual(tuple(reader), REVOKES[:count])

    def test_faults_at_the_edge_of_a_piece(self) -> None:
        """The End, what is behind it, and the place where it is missing, at each place in a piece."""
        for count in range(len(REVOKES) + 1):
            data = bytes_of(REVOKES[:count])
            end = 16 + 18 * count
            for events_at_once in (1, 2, 3, 7, 8):
                with patch.object(permissions, "PIECE_EVENTS", events_at_once):
                    for broken, offset in (
                        (data + b"\0", end + 9),
                        (data + data[16:], end + 9),
                        (data[:-1], end),
                        (data[:end], end),
                        (data[:-8] + bytes((count + 1,)) + data[-7:], end),
                    ):
                        self.assertEqual(fault_of(broken).offset, offset)

    def test_a_long_file(self) -> None:
        """More events than are read at once, and just as many."""
        for count in (permissions.PIECE_EVENTS - 1, permissions.PIECE_EVENTS, permissions.PIECE_EVENTS + 1):
            events = tuple(PermissionEvent(Op.GRANT_READ, 0, stamp, RAM_START) for stamp in range(count))
            self.assertEqual(tuple(PermissionReader(io.BytesIO(bytes_of(events)))), events)


# The file that is worked out by hand with one field broken: where it is malformed then, in which event, and
# what is said of it.
BROKEN = [
    (put(FILE, 0, "00"), 0, None, "the header: magic=0x4d50445045524d is not SMPDPERM"),
    (put(FILE, 7, "00"), 0, None, "the header: magic=0x534d504450455200 is not SMPDPERM"),
    (put(FILE, 8, "00"), 8, None, "the header: harts=0x0 is not 1 to 8"),
    (put(FILE, 8, "09"), 8, None, "the header: harts=0x9 is not 1 to 8"),
    (put(FILE, 9, "01"), 9, None, "the header: reserved=0x1 is not 0"),
    (put(FILE, 15, "80"), 9, None, "the header: reserved=0x80000000000000 is not 0"),
    (put(put(FILE, 8, "00"), 9, "01"), 8, None, "the header: harts=0x0 is not 1 to 8"),
    (put(FILE, 16, "00"), 16, 0, "event 0: op=0x0 is not 1, 2 or 3"),
    (put(FILE, 34, "04"), 34, 1, "event 1: op=0x4 is not 1, 2 or 3"),
    (put(FILE, 52, "fe"), 52, 2, "event 2: op=0xfe is not 1, 2 or 3"),
    (put(FILE, 70, "02"), 70, 3, "event 3: the event is cut short"),
    (put(FILE, 53, "02"), 52, 2, "event 2: hart=0x2 is not below the header's 2"),
    (put(FILE, 17, "ff"), 16, 0, "event 0: hart=0xff is not below the header's 2"),
    (put(FILE, 36, "0500"), 34, 1, "event 1: stamp=0x5 is not at least 6, that of the event before it"),
    (put(FILE, 54, "0a"), 52, 2, "event 2: stamp=0x10a is not at least 267, that of the event before it"),
    (put(FILE, 26, "20"), 16, 0, "event 0: line=0x80000120 is not a multiple of 64 in RAM"),
    (put(FILE, 62, "0000008400000000"), 52, 2, "event 2: line=0x84000000 is not a multiple of 64 in RAM"),
    (put(FILE, 62, "c0ffff7f00000000"), 52, 2, "event 2: line=0x7fffffc0 is not a multiple of 64 in RAM"),
    (put(FILE, 69, "01"), 52, 2, "event 2: line=0x100000083ffffc0 is not a multiple of 64 in RAM"),
    (put(FILE, 71, "02"), 70, 3, "event 3: count=0x2 is not 3, the number of events"),
    (put(FILE, 71, "04"), 70, 3, "event 3: count=0x4 is not 3, the number of events"),
    (put(FILE, 78, "01"), 70, 3, "event 3: count=0x100000000000003 is not 3, the number of events"),
    (put(FILE, 34, "ff"), 34, 1, "event 1: count=0x10b00 is not 1, the number of events"),
    (FILE + b"\0", 79, 3, "event 3: there are bytes behind the End"),
    (FILE + FILE[70:], 79, 3, "event 3: there are bytes behind the End"),
]

# Where the file is cut: at so many bytes, the offset, the event, and what is said of it.
CUTS = [
    (0, 0, None, "the header: magic is cut short"),
    (7, 0, None, "the header: magic is cut short"),
    (8, 8, None, "the header: harts is cut short"),
    (9, 9, None, "the header: reserved is cut short"),
    (15, 9, None, "the header: reserved is cut short"),
    (16, 16, 0, "event 0: the file stops before its End"),
    (17, 16, 0, "event 0: the event is cut short"),
    (33, 16, 0, "event 0: the event is cut short"),
    (34, 34, 1, "event 1: the file stops before its End"),
    (69, 52, 2, "event 2: the event is cut short"),
    (70, 70, 3, "event 3: the file stops before its End"),
    (71, 70, 3, "event 3: the End is cut short"),
    (78, 70, 3, "event 3: the End is cut short"),
]


class Faults(unittest.TestCase):
    """Where a file is malformed, and what is said of it."""

    def assert_fault(self, data: bytes, offset: int, number: Optional[int], text: str) -> None:
        """The first fault of these bytes. The second checker refuses them at the same offset."""
        fault = fault_of(data)
        self.assertEqual((fault.offset, fault.number, str(fault)), (offset, number, text))
        self.assertEqual(second_outcome(data), f"MALFORMED FIRST offset={offset}")

    def test_each_field(self) -> None:
        for data, offset, number, text in BROKEN:
            self.assert_fault(data, offset, number, text)

    def test_field_value_and_bound(self) -> None:
        problem = fault_of(put(FILE, 62, "0000008400000000")).problem
        assert problem is not None
        self.assertEqual(problem, ("line", 0x84000000, "a multiple of 64 in RAM"))
        self.assertIsNone(fault_of(FILE + b"\0").problem)

    def test_cuts(self) -> None:
        for length, offset, number, text in CUTS:
            self.assert_fault(FILE[:length], offset, number, text)
        for length in range(len(FILE)):
            self.assertTrue(fault_of(FILE[:length]).is_cut)
            self.assertEqual(outcome(FILE[:length]), second_outcome(FILE[:length]))

    def test_changed_bytes(self) -> None:
        """Random files with a byte changed end as the second checker says."""
        random = Random(2)
        faults = 0
        for _ in range(60):
            harts = random.randrange(1, 9)
            data = bytes_of(random_events(random, 12, harts), harts)
            for _ in range(60):
                changed = put(data, random.randrange(len(data)), f"{random.getrandbits(8):02x}")
                self.assertEqual(outcome(changed), second_outcome(changed))
                faults += outcome(changed).startswith("MALFORMED")
        self.assertTrue(500 < faults < 3500, faults)

    def test_limit(self) -> None:
        """An event more than there may be, and the same where it has a fault or is cut."""
        data = bytes_of(REVOKES)
        with patch.object(permissions, "MOST_EVENTS", 7):
            self.assertEqual(outcome(data), "8 7")
        with patch.object(permissions, "MOST_EVENTS", 6), patch.object(second_reader, "MOST_EVENTS", 6):
            for changed, found in (
                (data, "LIMIT events=7"),
                (data[:-9], "LIMIT events=7"),
                (put(data, 125, "08"), "MALFORMED FIRST offset=124"),
                (data[:-10], "MALFORMED FIRST offset=124"),
            ):
                self.assertEqual((outcome(changed), second_outcome(changed)), (found, found))
            with self.assertRaisesRegex(BeyondLimit, "^a file has at most 6 events$"):
                list(PermissionReader(io.BytesIO(data)))


class Writing(unittest.TestCase):
    """What a writer refuses, and that it then writes nothing."""

    def assert_refused(self, rows: List[Tuple[PermissionEvent, str]], before: PermissionEvent) -> None:
        """Each event is refused behind the one before, and the file goes on without it."""
        stream = io.BytesIO()
        writer = PermissionWriter(stream, 2)
        writer.write(before)
        for event, text in rows:
            with self.assertRaises(UnlawfulEvent) as caught:
                writer.write(event)
            self.assertEqual(str(caught.exception), f"event 1 of hart {event.hart}: {text}")
            self.assertEqual(caught.exception.event, event)
            self.assertEqual(caught.exception.problem.field, text.partition("=")[0])
        self.assertEqual(writer.count, 1)
        writer.close()
        self.assertEqual(tuple(PermissionReader(io.BytesIO(stream.getvalue()))), (before,))

    def test_refusals(self) -> None:
        good = PermissionEvent(Op.GRANT_WRITE, 0, 5, 0x80000100)
        fell = "is not at least 5, that of the event before it"
        rows = [
            (good._replace(op=0), "op=0x0 is not 1, 2 or 3"),
            (good._replace(op=4), "op=0x4 is not 1, 2 or 3"),
            (good._replace(op=255), "op=0xff is not 1, 2 or 3"),
            (good._replace(hart=2), "hart=0x2 is not below the header's 2"),
            (good._replace(hart=-1), "hart=-0x1 is not below the header's 2"),
            (good._replace(stamp=4), f"stamp=0x4 {fell}"),
            (good._replace(stamp=4, hart=1), f"stamp=0x4 {fell}"),
            (good._replace(stamp=-1), "stamp=-0x1 is not a number of 8 bytes"),
            (good._replace(stamp=1 << 64), "stamp=0x10000000000000000 is not a number of 8 bytes"),
            (good._replace(line=0x80000108), "line=0x80000108 is not a multiple of 64 in RAM"),
            (good._replace(line=0x7FFFFFC0), "line=0x7fffffc0 is not a multiple of 64 in RAM"),
            (good._replace(line=0x84000000), "line=0x84000000 is not a multiple of 64 in RAM"),
            (good._replace(line=-64), "line=-0x40 is not a multiple of 64 in RAM"),
        ]
        self.assert_refused(rows, good)

    def test_harts(self) -> None:
        for harts in (0, 9, -1):
            stream = io.BytesIO()
            with self.assertRaisesRegex(ProbeError, f"^{harts} harts: a file has 1 to 8$"):
                PermissionWriter(stream, harts)
            self.assertEqual(stream.getvalue(), b"")

    def test_limit(self) -> None:
        stream = io.BytesIO()
        with patch.object(permissions, "MOST_EVENTS", 6):
            with self.assertRaises(LimitReached) as caught, PermissionWriter(stream, 8) as writer:
                for event in REVOKES:
                    writer.write(event)
        self.assertEqual(caught.exception.what, "events")
        self.assertEqual(str(caught.exception), "a file has at most 6 events")
        # The file has its End behind the events that fit.
        self.assertEqual(stream.getvalue(), bytes_of(REVOKES[:6]))

    def test_behind_the_end(self) -> None:
        stream = io.BytesIO()
        writer = PermissionWriter(stream, 2)
        writer.close()
        writer.close()
        calls: List[Callable[[], None]] = [
            lambda: writer.grant(0, 1, RAM_START),
            lambda: writer.grant(0, 1, RAM_START, write=True),
            lambda: writer.revoke(0, 1, RAM_START),
            lambda: writer.write(EVENTS[0]),
        ]
        for call in calls:
            with self.assertRaisesRegex(ProbeError, "^the file is closed$"):
                call()
        self.assertEqual(stream.getvalue(), bytes_of((), 2))

    def test_end_after_an_exception(self) -> None:
        """A block that is left by an exception gives the file its End behind all events."""
        stream = io.BytesIO()
        with self.assertRaises(KeyError), PermissionWriter(stream, 2) as writer:
            writer.write(EVENTS[0])
            raise KeyError
        self.assertEqual(stream.getvalue(), bytes_of(EVENTS[:1], 2))


if __name__ == "__main__":
    unittest.main()
