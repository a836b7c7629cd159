"""How files end: limits, faults of writing, want of memory, calls behind the end."""

import os
import struct
import subprocess
import tempfile
import threading
import unittest

from calls import (CALL_SMALL_WRITER, CALL_WRITER, CLOSED, END_BYTES, FULL, IO, OK, RAM_START, STAMP_FELL,
                   UNLAWFUL, VERSION_2, Answer, Call, Field, answer, close, read, run, spell_file, write)

MOST_RECORDS, MOST_WRITES = 4_194_304, 1_048_576
# Whether files of that many records are read in Python, which takes a while.
HAS_LIMITS = os.environ.get("LIMITS", "1") == "1"
BEATS = [Call("beat", hart, stamp) for stamp in range(20) for hart in range(2)]


def answers_to(lines: "list[str]", program: str = CALL_WRITER) -> "list[Answer]":
    """The answers to these lines, without the bytes behind a close."""
    return [answer(line) for line in run(lines, program) if " " in line]


class Ends(unittest.TestCase):
    """How files end."""

    def setUp(self) -> None:
        # pylint: disable=consider-using-with
        self.folder = tempfile.TemporaryDirectory()
        self.addCleanup(self.folder.cleanup)
        self.path = os.path.join(self.folder.name, "probes")
        self.closed = os.path.join(self.folder.name, "closed")

    def content(self) -> bytes:
        """The bytes of the file."""
        with open(self.path, "rb") as file:
            return file.read()

    def test_limit_of_records(self) -> None:
        lines = [f"open 2 0 {self.path}", f"beats 2 {MOST_RECORDS + 1}", "beat 0 9999999", "close", "close"]
        opened, many, more, closing, again = answers_to(lines)
        # Both harts have come to the same last cycle, and its two records are dropped.
        stamps = MOST_RECORDS // 2 - 1
        text = "the file is at its limit of records, and has ended settled"
        self.assertEqual(opened, (OK, 0, ""))
        self.assertEqual([many, more, closing], [(FULL, 2 * stamps, text)] * 3)
        self.assertEqual(again.status, CLOSED)
        beats = b"".join(struct.pack("<BBQBBQ", 10, 0, stamp, 10, 1, stamp) for stamp in range(stamps))
        end = struct.pack("<BQ", 255, 2 * stamps)
        header = spell_file(2, 0, [])[:-END_BYTES]
        self.assertTrue(self.content() == header + beats + end)
        if not HAS_LIMITS:
            return
        # So `close` ends the file of the records that fit.
        front = header + beats + struct.pack("<BBQBBQ", 10, 0, stamps, 10, 1, stamps)
        self.assertEqual(len(front), len(header) + 10 * MOST_RECORDS)
        self.assertTrue(self.content() == close(front, self.closed))

    def test_all_records_that_a_file_may_have(self) -> None:
        answers = answers_to([f"open 1 0 {self.path}", f"beats 1 {MOST_RECORDS}", "beat 0 1", "close"])
        self.assertEqual(answers[1], (OK, MOST_RECORDS, ""))
        # A record that is no lawful one is no record beyond the limit, as for the reader.
        self.assertEqual(answers[2][:2], (STAMP_FELL, MOST_RECORDS))
        self.assertEqual(answers[3][:2], (STAMP_FELL, MOST_RECORDS))
        self.assertEqual(len(self.content()), 16 + 10 * MOST_RECORDS + 9)

    def test_limit_of_writes(self) -> None:
        atomic = Call("atomic", 0, MOST_WRITES, [0, 0x00A3B5AF, 0, RAM_START, 8, 1, 0])
        for last in (Call("drain", 0, MOST_WRITES, [RAM_START, 1, 1, bytes(64)]), atomic):
            no_write = Call("atomic", 0, MOST_WRITES - 1, [*atomic.fields[:5], 0, 0])
            answers = answers_to([f"open 1 {VERSION_2} {self.path}", f"drains {MOST_WRITES}", no_write.line(),
                                  last.line(), "close"])
            self.assertEqual(answers[1:3], [(OK, MOST_WRITES, ""), (OK, MOST_WRITES + 1, "")])
            # The last cycle had a drain and an atomic.
            text = "the file is at its limit of drains and writing atomics, and has ended settled"
            self.assertEqual(answers[3:], [(FULL, MOST_WRITES - 1, text)] * 2)
            self.assertEqual(self.content()[-END_BYTES:], struct.pack("<BQ", 255, MOST_WRITES - 1))
            if HAS_LIMITS:
                self.assert_ended_by_package(no_write, last)

    def assert_ended_by_package(self, no_write: Call, beyond: Call) -> None:
        """So `close` ends the file of the records that fit, or `cut --fit` that with the one beyond."""
        fields: "list[Field]" = [RAM_START, 1, 1, bytes([1, *bytes(63)])]
        first, other = (Call("drain", 0, stamp, fields).spell_short(0) for stamp in (0, 1))
        front = spell_file(1, VERSION_2, [])[:-END_BYTES] + first + other * (MOST_WRITES - 1)
        front += no_write.spell_short(MOST_WRITES - 1)
        is_fit = beyond.kind == "atomic"
        if is_fit:
            front += beyond.spell_short(MOST_WRITES - 1)
        self.assertTrue(self.content() == close(front, self.closed, fit=is_fit))

    def assert_closed(self, calls: "list[Call]") -> None:
        """The file of two harts is what the package's `close` makes of these records."""
        front = spell_file(2, 0, calls)[:-END_BYTES]
        self.assertEqual(self.content(), close(front, self.closed))

    def test_sleeping_hart(self) -> None:
        """A hart without a record: all is kept back, and all is in the file where it is closed."""
        calls = [Call("beat", 0, stamp) for stamp in range(1000)]
        self.assertEqual(write(2, 0, calls, CALL_SMALL_WRITER)[1], spell_file(2, 0, calls))
        run([f"open 2 0 {self.path}", *(call.line() for call in calls), "exit 0"], CALL_SMALL_WRITER)
        self.assertEqual(self.content(), spell_file(2, 0, []))
        self.assert_closed(calls)
        awake = [*calls, Call("beat", 1, 500), Call("beat", 0, 1000)]
        run([f"open 2 0 {self.path}", *(call.line() for call in awake), "exit 0"], CALL_SMALL_WRITER)
        self.assertEqual(self.content(), spell_file(2, 0, calls[:500]))
        self.assert_closed(awake)

    def test_put_that_fails(self) -> None:
        whole = len(spell_file(2, 0, BEATS))
        for allowed in range(16, whole, 7):
            lines = ["open 2 0 -", *(call.line() for call in BEATS), "close"]
            answers = answers_to([f"allow {allowed}", *lines], CALL_SMALL_WRITER)
            statuses = [each.status for each in answers]
            self.assertEqual(statuses[0], OK)
            first = statuses.index(IO)
            self.assertEqual(set(statuses[:first]), {OK})
            self.assertEqual(set(statuses[first:]), {IO})
            self.assertEqual(answers[-1].problem, "the file cannot be written, and has no End")
        self.assertEqual(answers_to([f"allow {whole}", *lines], CALL_SMALL_WRITER)[-1], (OK, len(BEATS), ""))

    def test_open_that_fails(self) -> None:
        for line in ("open 0 0 -", "open 9 0 -", "open 1 4 -", f"open 1 0 {self.folder.name}",
                     f"open 1 0 {self.folder.name}/none/probes", "allow 15\nopen 1 0 -",
                     "no-memory 1\nopen 1 0 -", "no-memory 2\nopen 1 0 -", "no-memory 3\nopen 1 0 -",
                     "open 1 0 /dev/full"):
            answers = answers_to([line, "beat 0 1", "close", "settle"])
            text = "there is no writer: dtp_open gave NULL"
            self.assertEqual(answers, [(CLOSED, 0, text)] * 3, line)
        for harts in (0, 9):
            run([f"open {harts} 0 {self.path}"])
            self.assertFalse(os.path.exists(self.path))

    def test_no_temporary_file(self) -> None:
        calls = [Call("beat", 0, stamp) for stamp in range(20)]
        lines = [f"open 2 0 {self.path}", *(call.line() for call in calls), "close"]
        answers = answers_to(["no-temporary", *lines], CALL_SMALL_WRITER)
        self.assertEqual([each.status for each in answers], [OK] * 7 + [IO] * 15)
        self.assertEqual(answers[-1].problem,
                         "the temporary file for what is kept back failed; there is no End")
        self.assertEqual(self.content(), spell_file(2, 0, [])[:16])
        # Where no hart is that far behind, none is needed.
        self.assertEqual(answers_to(["no-temporary", "open 2 0 -", *(call.line() for call in BEATS), "close"],
                                    CALL_SMALL_WRITER)[-1], (OK, len(BEATS), ""))

    def test_calls_behind_the_end(self) -> None:
        answers = answers_to(["open 1 0 -", "beat 0 1", "close", "beat 0 2", "close", "settle", "beat 0 2"])
        ended = (CLOSED, 1, "the file was ended before, and takes nothing")
        self.assertEqual(answers, [(OK, 0, ""), (OK, 1, ""), (OK, 1, ""), ended, ended, ended])

    def test_close_says_what_was_left_out(self) -> None:
        statuses = [each.status for each in answers_to(
            ["open 1 0 -", "beat 0 5", "beat 0 4", "beat 1 5", "beat 0 6", "close"])]
        self.assertEqual(statuses, [OK, OK, STAMP_FELL, UNLAWFUL, OK, STAMP_FELL])

    def test_two_writers(self) -> None:
        """Each writer ends its own file, and the exit settles both."""
        second = os.path.join(self.folder.name, "second")
        run([f"open 1 0 {self.path}", "beat 0 1", "beat 0 2", f"open 1 {VERSION_2} {second}", "beat 0 3",
             "beat 0 4", "exit 0"])
        self.assertEqual(self.content(), spell_file(1, 0, [Call("beat", 0, 1)]))
        with open(second, "rb") as file:
            self.assertEqual(file.read(), spell_file(1, VERSION_2, [Call("beat", 0, 3)]))

    def test_pipe(self) -> None:
        """A named pipe is opened by its path, and its reader gets the file."""
        os.mkfifo(self.path)
        read_from_pipe: "list[bytes]" = []
        reader = threading.Thread(target=lambda: read_from_pipe.append(self.content()))
        reader.start()
        run([f"open 2 0 {self.path}", *(call.line() for call in BEATS), "close"], CALL_SMALL_WRITER)
        reader.join()
        self.assertEqual(read_from_pipe, [spell_file(2, 0, BEATS)])
        file = read(read_from_pipe[0])
        assert file is not None
        self.assertEqual(len(file.records), len(BEATS))

    def test_two_parts_of_a_program(self) -> None:
        """The header in two parts of a program: one opens, the other closes."""
        program = os.path.join(os.path.dirname(CALL_WRITER), "two_parts")
        done = subprocess.run([program, self.path], check=False)
        self.assertEqual(done.returncode, 0)
        self.assertEqual(self.content(), spell_file(1, 0, [Call("beat", 0, 1), Call("beat", 0, 2)]))


if __name__ == "__main__":
    unittest.main()
