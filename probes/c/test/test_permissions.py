"""The writer of permission files, against the Python package: bytes, refusals, and how files end."""

import os
import random
import signal
import struct
import tempfile
import unittest
from typing import Iterable

from calls import CLOSED, FULL, IO, OK, RAM_END, RAM_START, STAMP_FELL, UNLAWFUL, Answer, BUILT, answer, run
from difftest_probes import Op, PermissionEvent, PermissionFile
from difftest_probes.permissions import MOST_EVENTS, event_problem, read_permissions
from second_opinion.permission_file import read_permission_file

CALL_PERMISSIONS = os.environ.get("CALL_PERMISSIONS", os.path.join(BUILT, "call_permissions"))
RECORDS = int(os.environ.get("RECORDS", "10000"))
HAS_LIMITS = os.environ.get("LIMITS", "1") == "1"
GREATEST = 2**64 - 1
ENDED = "the file was ended before, and takes nothing"
LINE, LAST_LINE = RAM_START + 0x100, RAM_END - 64
EVENTS = [
    PermissionEvent(Op.GRANT_WRITE, 0, 6, LINE),
    PermissionEvent(Op.REVOKE, 0, 0x010B, LINE),
    PermissionEvent(Op.GRANT_READ, 1, 0x010B, LAST_LINE),
]
# The same, byte by byte.
FILE = bytes.fromhex("534d50445045524d 02 00000000000000"
                     "02 00 0600000000000000 0001008000000000"
                     "03 00 0b01000000000000 0001008000000000"
                     "01 01 0b01000000000000 c0ffff8300000000"
                     "ff 0300000000000000")


def line_of(event: PermissionEvent) -> str:
    """The line for call_permissions."""
    if event.op == Op.REVOKE:
        return f"revoke {event.hart} {event.stamp} {event.line:#x}"
    return f"grant {event.hart} {event.stamp} {event.line:#x} {int(event.op)}"


def answers_to(lines: "list[str]", status: int = 0) -> "list[Answer]":
    """The answers to these lines, without the bytes behind a close."""
    return [answer(line) for line in run(lines, CALL_PERMISSIONS, status) if " " in line]


def write(harts: int, events: Iterable[PermissionEvent]) -> "tuple[list[Answer], bytes]":
    """The answers to the open, to these events and to the close, and the file's bytes."""
    *lines, file = run([f"open {harts} -", *(line_of(event) for event in events), "close"], CALL_PERMISSIONS)
    return [answer(line) for line in lines], bytes.fromhex(file)


def spell(harts: int, events: Iterable[PermissionEvent]) -> bytes:
    """The bytes that the Python package makes of the same events."""
    return PermissionFile(harts, tuple(events)).spell()


def near_a_bound(draw: random.Random, harts: int, last_stamp: int) -> PermissionEvent:
    """An event whose fields may be out of their bounds by one."""
    op = draw.choice((Op.GRANT_READ, Op.GRANT_WRITE, Op.REVOKE))
    hart = draw.choice((*range(harts), *range(harts), harts, 255, 256))
    stamp = draw.choice((last_stamp, last_stamp, last_stamp + draw.randrange(9), max(last_stamp - 1, 0), 0))
    line = draw.choice((LINE, RAM_START, LAST_LINE, draw.randrange(RAM_START, RAM_END, 64), LINE,
                        LINE + 8, RAM_START - 64, RAM_END, GREATEST - 63, LINE + 2**32))
    return PermissionEvent(op, hart, min(stamp, GREATEST), line)


class Events(unittest.TestCase):
    """Which events are taken, and their bytes."""

    def test_worked_file(self) -> None:
        answers, file = write(2, EVENTS)
        self.assertEqual(answers, [(OK, 0, ""), (OK, 1, ""), (OK, 2, ""), (OK, 3, ""), (OK, 3, "")])
        self.assertEqual(file, FILE)
        self.assertEqual(spell(2, EVENTS), FILE)
        for harts in range(1, 9):
            self.assertEqual(write(harts, [])[1], spell(harts, []))

    def test_events_near_their_bounds(self) -> None:
        """DTP_OK comes exactly where the Python package takes the event, and the bytes are its bytes."""
        draw = random.Random(1)
        counts = {OK: 0, UNLAWFUL: 0, STAMP_FELL: 0}
        for _ in range(RECORDS // 100):
            harts, first = draw.randrange(1, 9), draw.choice((0, 5, 2**32, GREATEST - 40))
            tried, taken, wanted = [], [], []
            for _ in range(100):
                last_stamp = taken[-1].stamp if taken else 0
                event = near_a_bound(draw, harts, last_stamp if taken else first)
                problem = event_problem(event, harts, last_stamp)
                if problem is None:
                    taken.append(event)
                tried.append(event)
                wanted.append(OK if problem is None else STAMP_FELL if problem.field == "stamp" else UNLAWFUL)
                counts[wanted[-1]] += 1
            answers, file = write(harts, tried)
            self.assertEqual([each.status for each in answers[1:-1]], wanted)
            self.assertEqual(answers[-1].status, next(filter(None, wanted), OK))
            self.assertEqual(file, spell(harts, taken))
            self.assertEqual(len(read_permission_file(file).events), len(taken))
        self.assertGreater(min(counts.values()), RECORDS // 50)

    def test_problems(self) -> None:
        """What is wrong with an event, which is left out."""
        rows = [
            ("grant 0 10 0x80000100 0", UNLAWFUL,
             "hart 0, stamp 10: right=0 (0x0), must be DTP_READ or DTP_WRITE"),
            ("grant 0 10 0x80000100 3", UNLAWFUL,
             "hart 0, stamp 10: right=3 (0x3), must be DTP_READ or DTP_WRITE"),
            ("grant 2 10 0x80000100 1", UNLAWFUL,
             "hart 2, stamp 10: hart=2 (0x2), must be below the harts of the file"),
            ("revoke 1 9 0x80000100", STAMP_FELL,
             "hart 1, stamp 9: stamp=9 (0x9), must be at least that of the last event, of any hart"),
            ("revoke 0 10 0x80000120", UNLAWFUL,
             "hart 0, stamp 10: line=2147483936 (0x80000120), must be a multiple of 64 in RAM"),
            ("grant 0 10 0x84000000 2", UNLAWFUL,
             "hart 0, stamp 10: line=2214592512 (0x84000000), must be a multiple of 64 in RAM"),
            ("grant 0 10 0x7fffffc0 2", UNLAWFUL,
             "hart 0, stamp 10: line=2147483584 (0x7fffffc0), must be a multiple of 64 in RAM"),
        ]
        good = PermissionEvent(Op.GRANT_WRITE, 0, 10, LINE)
        for text, status, problem in rows:
            lines = ["open 2 -", line_of(good), text, line_of(good), "close"]
            *lines, file = run(lines, CALL_PERMISSIONS)
            said = f"event 1, {problem}"
            self.assertEqual([answer(line) for line in lines][2:],
                             [(status, 1, said), (OK, 2, said), (status, 2, said)])
            self.assertEqual(bytes.fromhex(file), spell(2, [good, good]))

    def test_close_names_the_first_that_was_left_out(self) -> None:
        answers = answers_to(["open 1 -", "revoke 0 5 0x80000000", "revoke 0 4 0x80000000",
                              "revoke 1 5 0x80000000", "close", "close"])
        statuses = [each.status for each in answers]
        self.assertEqual(statuses, [OK, OK, STAMP_FELL, UNLAWFUL, STAMP_FELL, CLOSED])


class Ends(unittest.TestCase):
    """How files end."""

    def setUp(self) -> None:
        # pylint: disable=consider-using-with
        self.folder = tempfile.TemporaryDirectory()
        self.addCleanup(self.folder.cleanup)
        self.path = os.path.join(self.folder.name, "permissions")

    def content(self) -> bytes:
        """The bytes of the file."""
        with open(self.path, "rb") as file:
            return file.read()

    def test_close(self) -> None:
        answers_to([f"open 2 {self.path}", *(line_of(event) for event in EVENTS), "close"])
        self.assertEqual(self.content(), FILE)
        self.assertEqual(read_permissions(self.path), PermissionFile(2, tuple(EVENTS)))

    def test_exit(self) -> None:
        """At an exit without a close the file has all events and its End; after an abort it has no End."""
        lines = [f"open 2 {self.path}", *(line_of(event) for event in EVENTS)]
        for last, status in (("exit 0", 0), ("exit 3", 3), ("end\nabort", -signal.SIGABRT)):
            answers_to([*lines, last], status)
            self.assertEqual(self.content(), FILE)
        answers_to(lines)
        self.assertEqual(self.content(), FILE)
        answers_to([*lines, "abort"], -signal.SIGABRT)
        self.assertTrue(FILE.startswith(self.content()) and self.content() != FILE)

    def test_several_files_at_an_exit(self) -> None:
        other = os.path.join(self.folder.name, "other")
        answers_to([f"open 2 {other}", line_of(EVENTS[0]), f"open 2 {self.path}", line_of(EVENTS[1]),
                    "exit 0"])
        self.assertEqual(self.content(), spell(2, EVENTS[1:2]))
        with open(other, "rb") as file:
            self.assertEqual(file.read(), spell(2, EVENTS[:1]))

    def test_calls_behind_the_end(self) -> None:
        event = line_of(EVENTS[0])
        answers = answers_to(["open 2 -", event, "close", event, "grant 0 1 0 7", "close"])
        self.assertEqual(answers[2:], [(OK, 1, ""), *[(CLOSED, 1, ENDED)] * 3])
        ended = "the program ended without dtp_close_permissions: the file has ended there"
        self.assertEqual(answers_to(["open 2 -", event, "end", "close", event])[2:],
                         [(CLOSED, 1, ended), (CLOSED, 1, ENDED)])

    def test_limit(self) -> None:
        lines = [f"open 1 {self.path}", f"revokes {MOST_EVENTS}", "revoke 0 0 0x80000000",
                 f"revoke 0 {MOST_EVENTS + 6} 0x80000000", "revoke 0 9999999 0x80000000", "close", "close"]
        opened, many, fell, more, again, closing, closed = answers_to(lines)
        self.assertEqual([opened, many], [(OK, 0, ""), (OK, MOST_EVENTS, "")])
        # An event that is no lawful one is no event beyond the limit, as for the reader.
        self.assertEqual(fell.status, STAMP_FELL)
        text = "the file is at its limit of events, and has ended: it is whole for the cycles below 4194310"
        self.assertEqual([more, again, closing], [(FULL, MOST_EVENTS, text)] * 3)
        self.assertEqual(closed.status, CLOSED)
        content = self.content()
        self.assertEqual(len(content), 16 + 18 * MOST_EVENTS + 9)
        self.assertEqual(content[-9:], struct.pack("<BQ", 255, MOST_EVENTS))
        if HAS_LIMITS:
            events = b"".join(struct.pack("<BBQQ", 3, 0, stamp, RAM_START) for stamp in range(MOST_EVENTS))
            self.assertTrue(content == spell(1, [])[:16] + events + content[-9:])

    def test_put_that_fails(self) -> None:
        lines = ["open 2 -", *(line_of(event) for event in EVENTS), "close"]
        for allowed in range(16, len(FILE)):
            answers = answers_to([f"allow {allowed}", *lines])
            taken = (allowed - 16) // 18
            statuses = [each.status for each in answers]
            self.assertEqual(statuses, [OK] * (1 + taken) + [IO] * (4 - taken))
            self.assertEqual(answers[-1], (IO, taken, "the file cannot be written, and has no End"))
        self.assertEqual(answers_to([f"allow {len(FILE)}", *lines])[-1], (OK, 3, ""))

    def test_open_that_fails(self) -> None:
        text = "there is no writer: dtp_open_permissions gave NULL"
        for line in ("open 0 -", "open 9 -", f"open 2 {self.folder.name}", f"open 2 {self.path}/none",
                     "allow 15\nopen 2 -", "no-memory\nopen 2 -", f"no-memory\nopen 2 {self.path}"):
            answers = answers_to([line, line_of(EVENTS[0]), "grant 0 0 0 0", "close"])
            self.assertEqual(answers, [(CLOSED, 0, text)] * 4, line)
        os.remove(self.path)
        for harts in (0, 9):
            answers_to([f"open {harts} {self.path}"])
            self.assertFalse(os.path.exists(self.path))

    @unittest.skipUnless(os.path.exists("/dev/full"), "there is no /dev/full")
    def test_full_device(self) -> None:
        answers = answers_to(["open 2 /dev/full", line_of(EVENTS[0]), "close"])
        self.assertEqual(answers[-1].status, IO)
        self.assertEqual(answers[-1].problem, "the file cannot be written to its end")


if __name__ == "__main__":
    unittest.main()
